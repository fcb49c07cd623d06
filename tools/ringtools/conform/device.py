"""A device under test: a program that reads records and writes answers over pipes, within a time and without being trusted."""

from __future__ import annotations

import os
import re
import selectors
import signal
import subprocess
import time
from collections.abc import Sequence

from ..origin import CannotRun
from .arriving import Stream

MORE = 65_536  # bytes beyond what is due that are looked at
LONGEST_LINE = 4096
PART = 65_536
PAUSE = 0.5  # seconds in which a device that goes on writes something
BYTES = re.compile(rb"bytes ([0-9]{1,9})\n")


class DeviceProblem(Exception):
    """The device died, hangs, or writes what nobody asked for."""

    def __init__(self, kind: str, words: str) -> None:
        super().__init__(words)
        self.kind = kind


class Piped:
    """A device over pipes. Each stream starts it anew, with the identifier of the node and the word `frames`."""

    def __init__(self, words: Sequence[str], limit: float) -> None:
        self.words, self.limit, self.running, self.buffer = list(words), limit, None, bytearray()

    def begin(self, stream: Stream) -> None:
        """Starts the program for a stream."""
        self.buffer, self.until = bytearray(), time.monotonic() + self.limit
        try:
            self.running = subprocess.Popen(
                [*self.words, str(stream.node), "frames"], stdin=subprocess.PIPE, stdout=subprocess.PIPE, stderr=subprocess.DEVNULL, bufsize=0, start_new_session=True
            )
        except (OSError, ValueError) as error:
            raise CannotRun(f"{self.words[0]}: {getattr(error, 'strerror', None) or error}") from None
        self.into, self.out = self.running.stdin.fileno(), self.running.stdout.fileno()
        os.set_blocking(self.into, False)
        os.set_blocking(self.out, False)
        self.selector = selectors.DefaultSelector()
        self.selector.register(self.out, selectors.EVENT_READ)

    def left(self) -> float:
        """Returns the seconds that are left of the stream's."""
        left = self.until - time.monotonic()
        if left <= 0:
            raise DeviceProblem("hung", f"nothing more came within {self.limit:g} seconds of the stream")
        return left

    def read(self, wait: float, most: int) -> bool:
        """Adds what the device wrote to the buffer; returns whether it may write more."""
        if not self.selector.select(wait):
            return True
        try:
            part = os.read(self.out, max(1, min(PART, most)))
        except BlockingIOError:
            return True
        self.buffer += part
        return bool(part)

    def died(self) -> DeviceProblem:
        """Returns how the device ended."""
        try:
            status = self.running.wait(min(self.limit, 5))
        except subprocess.TimeoutExpired:
            return DeviceProblem("died", "it closed its standard output")
        said = bytes(self.buffer[:60]).decode("latin-1").partition("\n")[0]
        how = f"it was ended by signal {-status}" if status < 0 else f"it ended with status {status}"
        return DeviceProblem("died", f"{how}{', its last words were ' + said if said else ''}")

    def give(self, part: bytes, due: int) -> None:
        """Writes bytes to the device, and reads what it writes meanwhile."""
        left = memoryview(part)
        with selectors.DefaultSelector() as writing:
            writing.register(self.into, selectors.EVENT_WRITE)
            writing.register(self.out, selectors.EVENT_READ)
            while left:
                ready = {key.fd for key, _ in writing.select(self.left())}
                if self.out in ready and not self.read(0, due + MORE - len(self.buffer)):
                    raise self.died()
                self.check_room(due)
                left = self.write_some(left) if self.into in ready else left

    def write_some(self, left: memoryview) -> memoryview:
        try:
            return left[os.write(self.into, left) :]
        except BlockingIOError:
            return left
        except BrokenPipeError:
            raise self.died() from None

    def check_room(self, due: int) -> None:
        if len(self.buffer) >= due + MORE:
            raise DeviceProblem("flooded", f"it wrote {len(self.buffer)} bytes and more, where an answer has {due}")

    def answer(self, part: bytes, record: object, due: bytes) -> bytes:
        """Returns what the device answers to the records of a round."""
        if self.buffer or not self.read(0, MORE):
            if not self.buffer:
                raise self.died()
        if self.buffer:
            raise DeviceProblem("flooded", f"it wrote before it was asked: {bytes(self.buffer[:60])!r}")
        self.give(part, len(due))
        while (size := self.whole(due)) is None:
            self.check_room(len(due))
            if not self.read(self.left(), len(due) + MORE - len(self.buffer)):
                raise self.died()
        found = bytes(self.buffer[:size])
        if b"\nbytes " not in found:
            self.check_flood(len(due))
        del self.buffer[:size]
        return found

    def check_flood(self, due: int) -> None:
        """Reads what follows bytes that are no answer, as long as more comes: a device that goes on and on is told as that."""
        before = -1
        while len(self.buffer) > before and self.left() > PAUSE:
            before = len(self.buffer)
            self.read(PAUSE, PART)
            self.check_room(due)

    def whole(self, due: bytes) -> int | None:
        """Returns the length of the answer in the buffer once it is whole. What is no answer is as long as it is."""
        if len(self.buffer) >= len(due) and self.buffer.startswith(due):
            return len(due)
        at = 0
        while (end := self.buffer.find(b"\n", at, at + LONGEST_LINE)) >= 0:
            line = bytes(self.buffer[at : end + 1])
            if found := BYTES.fullmatch(line):
                size = end + 1 + int(found[1])
                return size if len(self.buffer) >= size else len(self.buffer) if size > len(due) + MORE else None
            if not line.startswith((b"round ", b"port ")) or (at and line.startswith(b"round ")):
                return len(self.buffer)
            at = end + 1
        return len(self.buffer) if len(self.buffer) >= at + LONGEST_LINE else None

    def end(self, part: bytes) -> None:
        """Ends the stream: the device has to say `done` and end with status 0."""
        self.give(part, 5)
        self.running.stdin.close()
        while self.read(self.left(), MORE):
            self.check_room(5)
        try:
            status = self.running.wait(self.left())
        except subprocess.TimeoutExpired:
            raise DeviceProblem("hung", f"it didn't end within {self.limit:g} seconds of the stream") from None
        if bytes(self.buffer) != b"done\n" or status:
            raise DeviceProblem("differs" if not status else "died", f"{bytes(self.buffer[:60]).decode('latin-1').strip() or 'nothing'}, status {status}")

    def stop(self) -> None:
        """Ends what still runs of it."""
        if self.running is None:
            return
        self.selector.close()
        for pipe in (self.running.stdin, self.running.stdout):
            pipe.close()
        try:
            os.killpg(self.running.pid, signal.SIGKILL)
        except (ProcessLookupError, PermissionError):
            pass
        self.running.wait()
        self.running = None
