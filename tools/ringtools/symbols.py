"""Programs without what only linkers and debuggers read, as Debian's packages have them: the symbols, and who compiled them.

What is loaded stays as it is, to the byte, but for the three fields of the file's head that say where its sections are described.
"""

from __future__ import annotations

import struct
from dataclasses import dataclass, replace

HEAD, PART, SEGMENT = struct.Struct("<16sHHIQQQIHHHHHH"), struct.Struct("<IIQQQQIIQQ"), struct.Struct("<IIQQQQQQ")
ELF = b"\x7fELF\x02\x01"  # of 64 bits, the low byte first
NEEDED = 2  # the flag of a section that a running program has
LOADED = 1  # the kind of a segment that is loaded
NO_BYTES = 8  # the kind of a section that has none in the file


class LoadedSymbols(Exception):
    """A program's symbols lie amid what is loaded of it."""


@dataclass(frozen=True)
class Part:
    """A section of the file. `link` is the number of another section."""

    name: int
    kind: int
    flags: int
    address: int
    offset: int
    size: int
    link: int
    info: int
    align: int
    each: int

    @property
    def end(self) -> int:
        return self.offset + (0 if self.kind == NO_BYTES else self.size)

    def packed(self) -> bytes:
        return PART.pack(self.name, self.kind, self.flags, self.address, self.offset, self.size, self.link, self.info, self.align, self.each)


def parts_of(program: bytes) -> list[Part]:
    head = HEAD.unpack_from(program)
    return [Part(*PART.unpack_from(program, head[6] + number * PART.size)) for number in range(head[12])]


def unplaced(program: bytes) -> bytes:
    """Returns a program whose head doesn't say where its sections are described."""
    head = list(HEAD.unpack_from(program))
    head[6] = head[12] = head[13] = 0
    return HEAD.pack(*head) + program[HEAD.size :]


def loaded(program: bytes) -> list[tuple[tuple[int, ...], bytes]]:
    """Returns each segment that is loaded: its place, rights and sizes, and its bytes, without where sections are described."""
    head, program = HEAD.unpack_from(program), unplaced(program)
    found = [SEGMENT.unpack_from(program, head[5] + number * SEGMENT.size) for number in range(head[10])]
    return [(one, program[one[2] : one[2] + one[5]]) for one in found if one[0] == LOADED]


def padded(data: bytes, align: int) -> bytes:
    return data + bytes(-len(data) % max(align, 1))


def without_symbols(program: bytes) -> bytes:
    """Returns a program without the sections that aren't loaded, but for that with the names of sections; a script as it is. Raises LoadedSymbols."""
    if not program.startswith(ELF):
        return program
    head, parts = list(HEAD.unpack_from(program)), parts_of(program)
    kept = [number for number, part in enumerate(parts) if part.flags & NEEDED or number in (0, head[13])]
    begin = min((part.offset for number, part in enumerate(parts) if number not in kept), default=len(program))
    if any(place[2] + place[5] > begin for place, _ in loaded(program)):
        raise LoadedSymbols("its symbols lie amid what is loaded")
    data, found = program[: max(parts[number].end for number in kept if parts[number].offset < begin)], []
    for number in kept:
        part = parts[number]
        if part.offset >= begin:
            data = padded(data, part.align)
            part = replace(part, offset=len(data))
            data += program[parts[number].offset : parts[number].end]
        found.append(replace(part, link=kept.index(part.link) if part.link else 0))
    data = padded(data, 8)
    head[6], head[12], head[13] = len(data), len(kept), kept.index(head[13])
    return HEAD.pack(*head) + data[HEAD.size :] + b"".join(part.packed() for part in found)
