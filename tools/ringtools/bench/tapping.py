"""What a node of one's own was given and what it answered, kept in files as it goes by; sdhring-compare-node reads them."""

import os
import signal
from contextlib import suppress

from ..files import TEXT
from ..writing import Folder
from .devices import Device, wide_pipe
from .station import put

PART = 1 << 16


def tap(source: int, sink: int, folder: Folder, name: str) -> None:
    """Hands on what comes, as it comes, and writes the first of it into a file once no more comes."""
    kept, part = bytearray(), b"."
    with suppress(OSError):
        while part:
            part = os.read(source, PART)
            kept += part[: TEXT.bytes - len(kept)]
            put(sink, part)
    with suppress(OSError):
        os.close(sink)
    folder.write(name, bytes(kept))


def tapping(source: int, sink: int, folder: Folder, name: str) -> int:
    """Starts a process that does so, which has no other files open, and returns its number."""
    process = os.fork()
    if process:
        return process
    try:
        signal.signal(signal.SIGINT, signal.SIG_IGN)
        for number in map(int, os.listdir("/proc/self/fd")):
            if number > 2 and number not in (source, sink):
                with suppress(OSError):
                    os.close(number)
        tap(source, sink, folder, name)
    finally:
        os._exit(0)


def tapped(device: Device, folder: Folder, identifier: int) -> Device:
    """Returns a node between two such processes."""
    given, sink = wide_pipe()
    source, answered = wide_pipe()
    taps = [tapping(given, device.sink, folder, f"{identifier}.stream"), tapping(device.source, answered, folder, f"{identifier}.text")]
    for number in {given, answered, *(() if device.line else (device.source, device.sink))}:
        os.close(number)
    return Device(source, sink, device.process, device.line, taps)
