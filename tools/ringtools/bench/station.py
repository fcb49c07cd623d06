"""One node of a ring of programs, as the process has it that joins it to its neighbours: its text is read, its frames are passed on."""

import errno
import os
import re
import select
from collections.abc import Callable
from functools import cache

LONGEST = 8192  # bytes of an answer's lines; less than a frame, so that what is read too far is of the first frame
PART = 4096
MOMENT, MOST_LEFT = 500, 1 << 18  # milliseconds, and bytes, for a node that has ended
MOST_CHANGES = 500  # of one node in a stretch that are told
CHANGING = re.compile(rb"(?<=norm )[0-9]+ [0-9a-f]+$|(?<=\Around )[0-9]+", re.M)
OTHER_BYTES = re.compile(rb"\nbytes ([0-9]+)\n")


class Trouble(Exception):
    """A node of the ring doesn't answer as one does."""

    def __init__(self, at: int, what: str) -> None:
        super().__init__(what)
        self.at = at


def put(sink: int, data: bytes) -> None:
    """Writes all of these bytes."""
    while data:
        data = data[os.write(sink, data) :]


def copied(source: int, sink: int, count: int) -> int:
    """Moves at most this number of bytes by a copy, and returns how many."""
    part = os.read(source, count)
    put(sink, part)
    return len(part)


def pump(source: int, sink: int, count: int) -> None:
    """Moves a number of bytes, without a copy where one end is a pipe. Raises EOFError where there are fewer."""
    while count:
        try:
            moved = os.splice(source, sink, count)
        except OSError as error:
            if error.errno != errno.EINVAL:
                raise
            moved = copied(source, sink, count)
        if not moved:
            raise EOFError
        count -= moved


@cache
def spoilt(n: int, degree: int) -> int:
    """Returns as one number what a fibre that is degraded so adds to an STM-n frame: the top bits of row 6, columns 1 to `degree`."""
    begin = 5 * 270 * n
    return int.from_bytes(bytes(begin) + b"\x80" * degree + bytes(2430 * n - begin - degree), "big")


@cache
def form_of(shape: bytes) -> Callable[[bytes], object]:
    """Returns what says whether a text is of this shape: the same but for the round's number, pointer values and the ports' bytes."""
    parts = CHANGING.split(shape)
    return re.compile(b"[0-9a-f ]+".join(map(re.escape, parts))).fullmatch


class Station:
    """A node at a position: where its answers come from and where its records go to, and how long its lines were last time."""

    def __init__(self, at: int, source: int, sink: int, rate: int, is_socket: bool = False) -> None:
        self.is_socket = is_socket
        self.at, self.source, self.sink, self.rate, self.size = at, source, sink, rate, 2430 * rate
        self.tail = b"\nbytes %d\n" % (2 * self.size)
        self.length, self.begun = 1, b""  # a byte at first, since nothing is known of the lines
        self.is_same: Callable[[bytes], object] = lambda text: None
        self.changes, self.degrees, self.is_plain = 0, (0, 0), False

    def degrade(self, west: int, east: int) -> None:
        """Sets the number of violations that the fibres that leave the node add to each frame."""
        self.degrees = west, east
        self.set_plain()

    def set_plain(self) -> None:
        """Says whether the next frame goes from pipe to pipe as it is."""
        self.is_plain = not (self.begun or any(self.degrees) or self.is_socket)

    def whole(self, text: bytes) -> bytes:
        """Returns the lines of the answer that begins so, up to the line `bytes`."""
        if text.endswith(self.tail) and text.find(self.tail) == len(text) - len(self.tail):
            return text
        return self.gathered(text)

    def gathered(self, text: bytes) -> bytes:
        """Returns the lines of an answer that begins so, and keeps what was read of the first frame."""
        while (end := text.find(self.tail)) < 0:
            self.check(text)
            part = os.read(self.source, PART) if text else b""
            if not part:
                raise Trouble(self.at, "ended" + (f", and said `{text[-60:].decode('latin-1').strip()}`" if text else ""))
            text += part
        self.length = end + len(self.tail)
        self.check_begin(text)
        self.begun = text[self.length :]
        self.set_plain()
        return text[: self.length]

    def check(self, text: bytes) -> None:
        """Raises Trouble for lines that can't become an answer's."""
        self.check_begin(text)
        if found := OTHER_BYTES.search(text):
            raise Trouble(self.at, f"announces {found[1][:20].decode()} bytes of frames, and {2 * self.size} are due")
        if len(text) > LONGEST - PART:
            raise Trouble(self.at, f"writes {len(text)} bytes and no line `bytes {2 * self.size}`")

    def check_begin(self, text: bytes) -> None:
        if text and not text.startswith(b"round "[: len(text)]):
            raise Trouble(self.at, f"answers `{text[:40].decode('latin-1').strip()}`, and `round` is due")

    def farewell(self) -> Trouble:
        """Returns what is said of a node that takes no more input, by what it writes in a moment. Its last whole answer isn't shown."""
        waiting, data = select.poll(), b""
        waiting.register(self.source, select.POLLIN)
        while len(data) < MOST_LEFT and waiting.poll(MOMENT) and (part := os.read(self.source, MOST_LEFT)):
            data += part
        before, tail, rest = data.partition(self.tail)
        said = (rest[2 * self.size :] if tail else before)[:60].decode("latin-1").strip()
        return Trouble(self.at, f"ended, and said `{said}`" if said.isprintable() and said else "ended")

    def pass_on(self, sink: int, side: int, count: int) -> None:
        """Moves the rest of a frame to a pipe: this number of bytes of the one that leaves on a side, 0 for west and 1 for east."""
        if self.degrees[side]:
            put(sink, self.spoil(self.taken(count), self.degrees[side]))
            return
        part, self.begun = self.begun[:count], self.begun[count:]
        put(sink, part)
        pump(self.source, sink, count - len(part))
        self.set_plain()

    def taken(self, count: int) -> bytes:
        """Returns the next bytes of the frames."""
        frame, self.begun = self.begun[:count], self.begun[count:]
        while len(frame) < count:
            if not (part := os.read(self.source, count - len(frame))):
                raise EOFError
            frame += part
        return frame

    def spoil(self, frame: bytes, degree: int) -> bytes:
        """Returns a frame with this number of violations."""
        return (int.from_bytes(frame, "big") ^ spoilt(self.rate, degree)).to_bytes(self.size, "big")

    def has_changed(self, text: bytes) -> bool:
        """Returns whether a text that isn't of the shape before is to be told; from here on its shape is the one before."""
        self.is_same = form_of(text)
        self.changes += 1
        return self.changes <= MOST_CHANGES
