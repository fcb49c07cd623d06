"""Frames of a line as an ERF file, which Wireshark opens: RAW_LINK records of descrambled STM-N frames, one for each round.

The form of a record is that of the Extensible Record Format: a time stamp of 64 bits (seconds and their binary fractions, least significant
byte first), then type, flags, length of the record, a loss counter and length on the wire, most significant byte first, and the frame.
"""

import struct
from functools import cache

RAW_LINK, VARYING = 24, 4  # the type of a record, and the flag of records that differ in length
HEAD = 16  # bytes before a record's frame
PER_SECOND = 8000
A1, A2 = 0xF6, 0x28


class FrameProblem(Exception):
    """These bytes aren't whole frames of a line."""


def size_of(rate):
    """The bytes of an STM-N frame."""
    return 2430 * rate


@cache
def scrambling(count):
    """The first bytes of the sequence of 1 + x^6 + x^7, set to ones (ITU-T G.707), as one number."""
    register, made = 0x7F, bytearray()
    for _ in range(count):
        byte = 0
        for _ in range(8):
            byte = byte << 1 | register >> 6
            register = (register << 1 & 0x7F) | (register >> 6 ^ register >> 5) & 1
        made.append(byte)
    return int.from_bytes(made, "big")


def descrambled(rate, frame):
    """A frame without its scrambling, which the first 9 N bytes don't have."""
    head, count = 9 * rate, size_of(rate) - 9 * rate
    return frame[:head] + (int.from_bytes(frame[head:], "big") ^ scrambling(count)).to_bytes(count, "big")


def is_framed(rate, frame):
    return frame[: 6 * rate] == bytes([A1]) * (3 * rate) + bytes([A2]) * (3 * rate)


def frames_in(rate, data, first):
    """The frames of some bytes, descrambled, with their rounds from `first` on; or a FrameProblem."""
    size = size_of(rate)
    if not data or len(data) % size:
        raise FrameProblem(f"{len(data)} bytes are no whole STM-{rate} frames of {size} bytes")
    for number in range(len(data) // size):
        frame = data[number * size : (number + 1) * size]
        if not is_framed(rate, frame):
            raise FrameProblem(f"the frame of round {first + number} doesn't begin with A1 and A2 of an STM-{rate} frame")
        yield first + number, descrambled(rate, frame)


def record(now, frame):
    """The record of a round's frame. Its time is the round's since round 0, at the start of 1970."""
    time = ((now << 32) + PER_SECOND // 2) // PER_SECOND
    return struct.pack("<Q", time) + struct.pack(">BBHHH", RAW_LINK, VARYING, len(frame) + HEAD, 0, len(frame)) + frame


def capture(rate, data, first):
    """The file of these frames as they were on the line."""
    return b"".join(record(now, frame) for now, frame in frames_in(rate, data, first))
