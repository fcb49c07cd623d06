"""Whole frames, made plainly by ITU-T G.707 from what the simulation of the shared ring (../outage/simulate.py) says of a round: words,
pointers, and whose bytes go where. Beside it, apart from how frames are made, a reader of frames on the line: it descrambles them, picks
out their bytes and counts the wrong bits of B1 and B2. It shares nothing with the crates or the tools."""
import sys
from functools import lru_cache
from pathlib import Path

sys.path.insert(0, str(Path(__file__).resolve().parents[1] / "outage"))

import signalling
from customers import CHUNK, Stream
from simulate import SIDES, SILENCE, Ring, streams_of

ROWS, COLUMNS, HEAD, PAYLOAD = 9, 270, 9, 261  # of one STM-1
A1, A2, J0, FIXED, Y = 0xF6, 0x28, 0x01, 0xAA, 0x9B
OUT = {"ones": b"\xff" * 3, "zeros": bytes(3)}  # bytes H3 that carry nothing


def sequence(count):
    """So many bytes of the scrambling sequence: 1 + x^6 + x^7, seven ones first."""
    bits = [1] * 7
    while len(bits) < 8 * count:
        bits.append(bits[-6] ^ bits[-7])
    return bytes(int("".join(map(str, bits[at : at + 8])), 2) for at in range(0, 8 * count, 8))


class Scrambler:
    """Adds the sequence to all bytes but the first 9 N, which takes it away again too."""

    def __init__(self, n):
        self.clear = HEAD * n
        self.length = ROWS * COLUMNS * n - self.clear
        self.key = int.from_bytes(sequence(127) * (self.length // 127 + 1), "big") >> 8 * (127 - self.length % 127)

    def turn(self, frame):
        rest = int.from_bytes(frame[self.clear :], "big") ^ self.key
        return bytes(frame[: self.clear]) + rest.to_bytes(self.length, "big")


def lanes(data, width):
    """The exclusive or of all stretches of a length, one after the other."""
    total = 0
    for at in range(0, len(data), width):
        total ^= int.from_bytes(data[at : at + width], "big")
    return total.to_bytes(width, "big")


def b1_of(line):
    """BIP-8 of a frame on the line."""
    return lanes(lanes(line, 2430), 1)[0]


def b2_of(n, clear):
    """BIP-24N of a frame without scrambling: all of it but the first 9 N columns of the first three rows."""
    rows = [clear[at : at + COLUMNS * n] for at in range(0, len(clear), COLUMNS * n)]
    return lanes(b"".join([*(row[HEAD * n :] for row in rows[:3]), *rows[3:]]), 3 * n)


class Sender:
    """What one side of a node sends, frame by frame from round 0 on."""

    def __init__(self, ring, p, d):
        self.ring, self.place, self.n = ring, (p, d), ring.plan["rate"]
        self.streams = {port: Stream(*given) for port, given in streams_of(ring.circuits).items()}
        self.scrambler = Scrambler(self.n)
        self.b1, self.b2 = 0, bytes(3 * self.n)
        self.vc = lru_cache(maxsize=256)(lambda port, number: self.streams[port].vc(number))

    def part(self, port, start, count):
        """So many bytes of a port's stream."""
        first, skip = divmod(start + self.streams[port].skipped, CHUNK)
        whole = b"".join(self.vc(port, first + i) for i in range((skip + count) // CHUNK + 1))
        return whole[skip : skip + count]

    def payload(self, tag):
        """The 2349 bytes that a tag stands for, as a port has put them in; an increment leaves out three, a decrement has three in H3."""
        if tag == "ones":
            return b"\xff" * CHUNK
        *port, start, form = tag
        port, before = tuple(port), 783
        behind = start + before + (3 if form == "down" else 0)
        gap = bytes(3) if form == "up" else b""
        return self.part(port, start, before) + gap + self.part(port, behind, CHUNK - before - len(gap))

    def h3(self, tag):
        return OUT[tag] if tag in OUT else self.part(tag[:2], tag[2] + 783, 3)

    def put(self, frame, au, word, tag, h3):
        """Puts an AU-4, counted from 0, in its columns: every N-th byte is its own."""
        n, payload = self.n, self.payload(tag)
        pointers = bytes([word >> 8, Y, Y, word & 0xFF, 0xFF, 0xFF]) + self.h3(h3)
        for row in range(ROWS):
            start, end = COLUMNS * n * row, COLUMNS * n * (row + 1)
            frame[start + HEAD * n + au : end : n] = payload[PAYLOAD * row : PAYLOAD * (row + 1)]
            if row == 3:
                frame[start + au : start + HEAD * n : n] = pointers

    def clear(self):
        """The frame of the round that has just run, without scrambling."""
        n, (word, leaves) = self.n, self.ring.carried[self.place]
        frame = bytearray(b"\xff" * (ROWS * COLUMNS * n))
        for row in (0, 1, 2, 4, 5, 6, 7, 8):
            frame[COLUMNS * n * row : COLUMNS * n * row + HEAD * n] = bytes(HEAD * n)
        frame[: HEAD * n] = bytes([A1] * 3 * n + [A2] * 3 * n + [J0] + [FIXED] * (3 * n - 1))
        frame[COLUMNS * n] = self.b1
        fifth = 4 * COLUMNS * n
        frame[fifth : fifth + 3 * n] = self.b2
        frame[fifth + 3 * n], frame[fifth + 6 * n] = bytes.fromhex(signalling.written(word))
        for (kind, slot), (pointer, payload, h3) in leaves.items():
            if pointer != SILENCE[0]:
                self.put(frame, slot - 1 + (n // 2 if kind == "p" else 0), pointer, payload, h3)
        return bytes(frame)

    def next(self):
        """The same on the line; its parities come in the frame after it."""
        clear = self.clear()
        line = self.scrambler.turn(clear)
        self.b1, self.b2 = b1_of(line), b2_of(self.n, clear)
        return line


class Reader:
    """What stands in frames on the line that come one after the other, and how many bits of B1 and B2 are wrong."""

    def __init__(self, n):
        self.n, self.scrambler, self.last = n, Scrambler(n), None

    def read(self, line):
        n, clear = self.n, self.scrambler.turn(line)
        fourth, fifth = 3 * COLUMNS * n, 4 * COLUMNS * n
        b1, b2 = clear[COLUMNS * n], clear[fifth : fifth + 3 * n]
        wrong = None if self.last is None else tuple(differing(here, then) for here, then in zip((bytes([b1]), b2), self.last))
        self.last = bytes([b1_of(line)]), b2_of(n, clear)
        return {
            "framed": clear[: 6 * n] == bytes([A1] * 3 * n + [A2] * 3 * n),
            "j0": clear[6 * n],
            "k": f"{clear[fifth + 3 * n]:02x} {clear[fifth + 6 * n]:02x}",
            "b1": b1,
            "b2": b2,
            "h1": clear[fourth : fourth + n],
            "h2": clear[fourth + 3 * n : fourth + 4 * n],
            "wrong": wrong,
        }


def differing(one, other):
    return bin(int.from_bytes(one, "big") ^ int.from_bytes(other, "big")).count("1")


def frames(plan, node, side, first, count):
    """The frames that a node of the plan sends on a side in these rounds, as on the line, as far as the run has the rounds."""
    ring, made = Ring(plan), []
    sender = Sender(ring, ring.ids.index(node), SIDES.index(side))

    def see():
        line = sender.next() if len(made) < count else None
        if line and ring.t >= first:
            made.append(line)

    for step in plan["script"]:
        if step != "settle":
            ring.do(step.split(" "))
        elif len(made) == count or not ring.settle(see):
            break
    return made
