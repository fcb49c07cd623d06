"""The node as a static library, `libsdhnode.a`: what the gate compiled of the proved program, with its C functions and the kit's calls of `malloc`."""

from __future__ import annotations

import hashlib
import os
import re
import shutil
import subprocess
import tempfile
from dataclasses import dataclass
from pathlib import Path

from .build import HOME, sum_of

LIBRARY = "libsdhnode.a"
HEADER = "sdhnode.h"
PROGRAM = HOME / "crates" / "sdhnode" / "out" / "sdhnode.o"  # before it is linked
OURS = HOME / "library"
FLAGS = ("-std=c11", "-Wall", "-Wextra", "-Werror", "-O2", "-fPIC")
# What the program calls of the system and of the kit, and its own `main`: the names of our C functions for these.
RENAMED = {"main": "sdhnode_main", "read": "sdhnode_give", "write": "sdhnode_take", "__write": "sdhnode_write", "rattle_arg": "sdhnode_word_of", "__sysv_signal": "sdhnode_signal"}
OF_KIT = ("heap.pic.o", "errno.pic.o")  # of the kit's C functions, those that it needs besides
RECORD = re.compile(r"version (\S+)\ncommit ([0-9a-f]{40}\S*)\nkit (.+)\ncompiler (.+)\nlibrary ([0-9a-f]{64}) ([0-9a-f]{64})\n")


class LibraryProblem(Exception):
    """The library can't be put together."""


@dataclass(frozen=True)
class LibraryRecord:
    """What a library was built of: the checksum of its file, and that of its sources."""

    version: str
    commit: str
    kit: str
    compiler: str
    sum: str
    sources: str

    def text(self) -> str:
        return f"version {self.version}\ncommit {self.commit}\nkit {self.kit}\ncompiler {self.compiler}\nlibrary {self.sum} {self.sources}\n"


def read_record(text: str) -> LibraryRecord | None:
    """Returns the record of a library, or None where a text has none."""
    found = RECORD.fullmatch(text)
    return LibraryRecord(*found.groups()) if found else None


def library_sources(program: str) -> str:
    """Returns the checksum of the library's sources: that of the program `sdhnode`, and the C functions."""
    parts = [program, *(f"{path.relative_to(HOME)} {sum_of(path.read_bytes())}" for path in sorted(OURS.glob("sdhnode.*")))]
    return hashlib.sha256("\n".join(parts).encode("utf-8")).hexdigest()


def run(words: list[str], folder: Path) -> str:
    """Runs a command in a folder, and returns what it writes."""
    ended = subprocess.run(words, cwd=folder, stdin=subprocess.DEVNULL, stdout=subprocess.PIPE, stderr=subprocess.STDOUT, text=True)
    if ended.returncode:
        raise LibraryProblem(f"{words[0]} ended with status {ended.returncode}: {ended.stdout.strip()[-300:]}")
    return ended.stdout


def of_kit() -> list[Path]:
    """Returns the kit's libraries of C functions."""
    place = shutil.which("rt")
    if place is None:
        raise LibraryProblem("the kit isn't on the PATH")
    folder = Path(os.path.realpath(place)).parents[1] / "c"
    return [folder / "liblibc_c.a", folder / "libos_c.a"]


def put_together(proved: Path, kit: list[Path], to: Path) -> None:
    """Writes the library: one object, of which only the functions of the header can be called."""
    if missing := [word for word in ("cc", "ld", "ar", "objcopy") if not shutil.which(word)]:
        raise LibraryProblem(f"{missing[0]} isn't installed")
    with tempfile.TemporaryDirectory() as place:
        folder = Path(place)
        for library in kit:
            run(["ar", "x", str(library)], folder)
        renamed = [f"--redefine-sym={old}={new}" for old, new in RENAMED.items()]
        run(["objcopy", *renamed, str(proved), "program.o"], folder)
        run(["cc", *FLAGS, f"-ffile-prefix-map={OURS}=library", "-c", str(OURS / "sdhnode.c"), "-o", "sdhnode.o"], folder)
        run(["ld", "-r", "program.o", "sdhnode.o", *OF_KIT, "-o", "whole.o"], folder)
        public = re.findall(r"\b(sdhnode_\w+)\(", (OURS / HEADER).read_text(encoding="utf-8"))
        run(["objcopy", "--strip-debug", "--remove-section=.comment", *(f"--keep-global-symbol={name}" for name in sorted(set(public))), "whole.o", "libsdhnode.o"], folder)
        run(["ar", "rcsD", LIBRARY, "libsdhnode.o"], folder)
        shutil.copyfile(folder / LIBRARY, to)


def compiler() -> str:
    """Returns the name and version of the C compiler."""
    return run(["cc", "--version"], HOME).splitlines()[0]
