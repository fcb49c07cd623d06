"""Files that the tools read, `-` for standard input among them: what may be read, and how much of it.

A name that the user gave leads where it leads. One that a tool found by itself, in a folder or beside a plan, is a
`Found`, and no link out of that folder is followed. A file that is read more than once in a run has to be the same bytes
each time: so what is said of it, as by a checksum, is of what was used.
"""

import hashlib
import os
import stat
import sys
from dataclasses import dataclass
from functools import cache
from pathlib import Path

MEBIBYTE = 1 << 20


class FileProblem(Exception):
    """A file or a folder can't be read or written."""


@dataclass(frozen=True)
class Limit:
    """The most bytes that are read of a kind of file."""

    what: str
    bytes: int


PLAN = Limit("a plan", MEBIBYTE)
TABLE = Limit("a table", 4 * MEBIBYTE)
TEXT = Limit("a program's text", 16 * MEBIBYTE)
CASES = Limit("a table of all cases", 48 * MEBIBYTE)
FRAMES = Limit("a file of frames", 64 * MEBIBYTE)


class Found(str):
    """The name of a file that a tool found by itself in a folder: in one that the user named, or beside a plan."""

    folder: str

    def __new__(cls, name: str | os.PathLike[str], folder: str | os.PathLike[str]) -> "Found":
        found = super().__new__(cls, os.fspath(name))
        found.folder = os.fspath(folder)
        return found

    def __getnewargs__(self) -> tuple[str, str]:
        return str(self), self.folder

    def leads_out(self, real: str) -> bool:
        """Whether the file at this place, which has no links in it, lies outside of the folder."""
        inside = os.path.realpath(self.folder or ".")
        return real != inside and not real.startswith(inside.rstrip("/") + "/")


def found_in(folder: str | os.PathLike[str], name: str) -> Found:
    """Returns the name of a file in a folder, by its path there."""
    return Found(Path(folder) / name, folder)


def is_there(name: str | os.PathLike[str]) -> bool:
    """Whether anything has this name, be it a link that leads nowhere or what can't be read: so that nothing is passed over in silence."""
    return os.path.lexists(name)


def check_inside(name: str | os.PathLike[str], real: str) -> None:
    """Raises FileProblem where a name that was found leads out of its folder, to this place."""
    if isinstance(name, Found) and name.leads_out(real):
        why = f"it leads to {real}, out of the folder {name.folder or '.'}, and no link out of a folder is followed"
        raise FileProblem(f"{name}: {why}: name that file itself, or put a copy in the folder")


def why_not_read(descriptor: int) -> str | None:
    """Returns why what this descriptor leads to isn't read; None for a file, and for a pipe that a shell has made.

    A pipe with a name in a folder may wait for ever, and a device may never end.
    """
    mode = os.fstat(descriptor).st_mode
    if stat.S_ISFIFO(mode) and not os.readlink(f"/proc/self/fd/{descriptor}").startswith("pipe:"):
        return "it is a pipe, and a file is wanted; - reads standard input"
    if stat.S_ISREG(mode) or stat.S_ISFIFO(mode):
        return None
    return os.strerror(21) if stat.S_ISDIR(mode) else "it is a device, and a file is wanted; - reads standard input"


def read_most(descriptor: int, most: int) -> bytes:
    """Returns what this descriptor has, at most this number of bytes."""
    parts, left = [], most
    while left and (part := os.read(descriptor, min(left, MEBIBYTE))):
        parts.append(part)
        left -= len(part)
    return b"".join(parts)


def read_path(name: str | os.PathLike[str], most: int) -> bytes:
    """Returns at most this number of bytes of a file, or of a pipe that a shell has made. Raises FileProblem."""
    try:
        if isinstance(name, Found):
            check_inside(name, os.path.realpath(name))
        descriptor = os.open(name, os.O_RDONLY | os.O_NONBLOCK | os.O_CLOEXEC)
    except OSError as error:
        leads = f"it is a link to {os.readlink(name)}: " if os.path.islink(name) else ""
        raise FileProblem(f"{os.fspath(name)}: {leads}{error.strerror}") from None
    except ValueError:
        raise FileProblem(f"{os.fspath(name)!r}: this is no name of a file") from None
    try:
        if isinstance(name, Found):  # which may lead elsewhere by now
            check_inside(name, os.readlink(f"/proc/self/fd/{descriptor}"))
        if why := why_not_read(descriptor):
            raise FileProblem(f"{os.fspath(name)}: {why}")
        os.set_blocking(descriptor, True)
        return read_most(descriptor, most)
    except OSError as error:
        raise FileProblem(f"{os.fspath(name)}: {error.strerror}") from None
    finally:
        os.close(descriptor)


@cache
def read_standard_input(most: int) -> bytes:
    """Returns the same bytes again, where a table is read for more than one thing."""
    try:
        return sys.stdin.buffer.read(most)
    except (OSError, AttributeError) as error:
        raise FileProblem(f"standard input: {getattr(error, 'strerror', 'it is closed')}") from None


SEEN: dict[str, bytes] = {}  # the checksum of each file that was read in this run
WATCHING = [False]  # whether this is a run of a tool


def begin_run() -> None:
    """Begins a run, in which each file has to be the same bytes whenever it is read."""
    SEEN.clear()
    WATCHING[0] = True


def check_same(name: str, data: bytes) -> None:
    """Raises FileProblem where a file was other bytes before in this run."""
    if WATCHING[0] and SEEN.setdefault(name, found := hashlib.sha256(data).digest()) != found:
        raise FileProblem(f"{name}: it has changed since this run began; run it again once nobody writes there")


def read_input(name: str, limit: Limit = PLAN) -> bytes:
    """Returns all bytes of a file of this kind, or of standard input. Raises FileProblem where there are more than the limit.

    Of a plan one byte more than the limit may come, by which those who read plans see that it is too long.
    """
    most = limit.bytes + 1
    data = read_standard_input(most) if name == "-" else read_path(name, most)
    if len(data) > limit.bytes and limit is not PLAN:
        shown = "standard input" if name == "-" else name
        raise FileProblem(f"{shown}: it is longer than {limit.bytes:,} bytes, the most that is read of {limit.what}")
    check_same(str(name), data)
    return data
