"""What is known of a program's file: the records of a BUILD, by the file's checksum.

A BUILD is a text of records, one a line. `version`, `commit` and `kit` hold for the lines `program NAME SHA-256 SOURCES`
after them, up to the next of their kind; so BUILDs put one after the other are one again.
"""

import hashlib
import re
from collections.abc import Iterable
from dataclasses import dataclass
from pathlib import Path

from .files import FileProblem, read_path

PROGRAMS = ("sdhring", "sdhwatch", "sdhoutage", "sdhpath", "sdhretime", "sdhwhatif", "sdhaps", "sdhnode")
HOME = Path(__file__).resolve().parents[2]  # a checkout, an unpacked release, or the folder of the installed programs
HEAD = ("version", "commit", "kit")
LONGEST = 65_536  # bytes of a BUILD
IS_INSTALLED = not (HOME / "docs").is_dir()
PROGRAM = re.compile("program ([a-z]+) ([0-9a-f]{64}) ([0-9a-f]{64})")

# What the checksum of a program's sources is of.
RULE = "sources of each program: HANDLES, its lines of crates.txt, and src, specs and proofs of the crates that these name"


class BuildProblem(Exception):
    """A BUILD isn't one."""


@dataclass(frozen=True)
class Record:
    """What was built of which sources. `sum` is that of the program's file."""

    name: str
    sum: str
    sources: str
    version: str
    commit: str
    kit: str

    def words(self):
        return f"{self.name} {self.version}, commit {self.commit[:12]}{self.commit[40:]}, sources {self.sources[:12]}"


def version():
    """The release's version, which stands in one file wherever the tools are."""
    return (HOME / "VERSION").read_text(encoding="ascii").strip()


def sum_of(data):
    return hashlib.sha256(data).hexdigest()


def read_build(text):
    """The records of all programs that a BUILD has."""
    told, records = {}, []
    for number, line in enumerate(text.splitlines(), 1):
        key, _, value = line.partition(" ")
        if found := PROGRAM.fullmatch(line):
            if missing := [key for key in HEAD if key not in told]:
                raise BuildProblem(f"line {number}: no {missing[0]} stands before this program")
            records.append(Record(*found.groups(), *(told[key] for key in HEAD)))
        elif key in (*HEAD, "sources") and value:
            told[key] = value
        else:
            raise BuildProblem(f"line {number}: no record of a BUILD: `{line[:60]}`")
    return records


def write_build(records):
    """The BUILD of these records, of which those of one build stand together."""
    lines, before = [], None
    for record in records:
        head = record.version, record.commit, record.kit
        if head != before:
            lines += [f"version {record.version}", f"commit {record.commit}", f"kit {record.kit}", RULE]
        lines.append(f"program {record.name} {record.sum} {record.sources}")
        before = head
    return "\n".join(lines) + "\n"


def own_builds() -> list[Path]:
    """Returns the BUILDs of what is built, released or installed where these tools are."""
    return [HOME / "dist" / "BUILD", HOME / "BUILD", *sorted((HOME / "out").glob("*.BUILD"))]


def record_of_sum(sum: str, more: Iterable[Path] = ()) -> Record | None:
    """Returns what the BUILDs here say of the program of this checksum, or None. A BUILD that lies elsewhere says nothing, unless it is one of `more`."""
    for path in [*more, *own_builds()]:
        try:
            records = read_build(read_path(path, LONGEST).decode("ascii"))
        except (FileProblem, UnicodeDecodeError, BuildProblem):
            continue
        if found := next((record for record in records if record.sum == sum), None):
            return found
    return None
