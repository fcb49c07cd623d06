"""Where an answer comes from: the program, whether it is proved, its version, the date, and sums of program and plan."""

import os
import shlex
import shutil
import subprocess
from collections.abc import Sequence
from dataclasses import dataclass
from datetime import datetime, timezone
from pathlib import Path

from .build import HOME, PROGRAMS, Record, record_of_sum, sum_of
from .files import FileProblem, read_path
from .shown import shown

LAUNCHER = HOME / "sdhring"  # or the program itself, where it is installed
TELLER = LAUNCHER.with_name("sdhwhatif")
LONGEST_PROGRAM = 64 << 20  # bytes of a program's file
PROVED, NOT_KNOWN = "proved", "not known to be proved"


class CannotRun(Exception):
    """The program can't be started at all."""


def now():
    return datetime.now(timezone.utc).strftime("%Y-%m-%dT%H:%M:%SZ")


@dataclass(frozen=True)
class Program:
    """A command, and what is known of it. Two of one checksum are one program."""

    words: tuple
    sum: str
    version: str = ""
    proof: str = NOT_KNOWN

    @property
    def proved(self):
        return self.proof == PROVED

    def lines(self):
        """What a kept answer and a table say of it, by name."""
        return {"sum": self.sum, "program": shown(shlex.join(self.words)), "version": self.version or "not told", "proof": self.proof}


@dataclass(frozen=True)
class Origin:
    """What a page says of where its answers come from. Without a program it isn't known which one gave them."""

    program: Program | None
    plan: str  # its file
    plan_sum: str
    dates: tuple = ()  # of the answers
    note: str = ""
    asked: str = ""  # the checksum of what was asked about, where that isn't the plan's file as it is
    answers: tuple = ()  # the kept answers of which it consists, where there are such


def path_of(word: str) -> Path | None:
    """Returns the whole path of the program that a command's first word names: with a slash that file, without one a program of the PATH. None where there is none."""
    found = word if "/" in word else shutil.which(word)
    return Path(os.path.abspath(found)) if found and os.path.isfile(found) else None


def file_of(word: str) -> Path | None:
    """Returns the program's file that a command's first word names, if any, without links."""
    found = path_of(word)
    return found.resolve() if found else None


def settled_words(words):
    """The words with each path of a file made absolute, so that they mean the same in any folder."""
    return tuple(str(Path(word).resolve()) if "/" in word and Path(word).is_file() else word for word in words)


def sum_of_file(file: Path) -> str:
    """Returns the checksum of a program's file, or `-` where it can't be read or is longer than any program."""
    try:
        data = read_path(file, LONGEST_PROGRAM + 1)
    except FileProblem:
        return "-"
    return sum_of(data) if len(data) <= LONGEST_PROGRAM else "-"


def sum_of_command(words: Sequence[str]) -> str:
    """Returns the checksum of the file where the command is one; else of the words, and of the files that they name."""
    files = [file_of(words[0]), *(Path(word) if os.path.isfile(word) else None for word in words[1:])]
    sums = [sum_of_file(file) if file else "-" for file in files]
    return sums[0] if len(words) == 1 and files[0] else sum_of(shlex.join([*words, *sums]).encode("utf-8", "surrogateescape"))


def launcher_of(words: Sequence[str]) -> Path | None:
    """Returns the script of a program's name that these words are, which stands beside a launcher and can be asked for the program; or None."""
    file = path_of(words[0])
    if len(words) != 1 or file is None or file.name not in PROGRAMS:
        return None
    try:
        is_script, launcher = read_path(file, 2) == b"#!", file.resolve().with_name("sdhring")
        return file if is_script and launcher.is_file() and b"--where" in read_path(launcher, LONGEST_PROGRAM) else None
    except FileProblem:
        return None


def launched(launcher: Path) -> Path:
    """Returns the file that a launcher runs. What it says where it has none goes to standard error."""
    try:
        ended = subprocess.run([launcher, "--where"], stdin=subprocess.DEVNULL, stdout=subprocess.PIPE, timeout=60)
    except (OSError, subprocess.TimeoutExpired) as error:
        raise CannotRun(f"{launcher}: {getattr(error, 'strerror', None) or error}") from None
    runs = os.fsdecode(ended.stdout).strip()
    if ended.returncode or not Path(runs).is_file():
        raise CannotRun(f"{launcher} ended with status {ended.returncode}, and has no program")
    return Path(runs)


def build_beside(file: Path) -> Path:
    """Returns the BUILD that the launcher puts beside a program which it has built, and by which it chose it."""
    return file.with_name(f"{file.name}.BUILD")


def launched_record(file: Path, sum: str) -> Record | None:
    """Returns what is known of a program's file of this checksum that this place's own launcher chose, or None."""
    return record_of_sum(sum, [build_beside(file)])


def known_program(words: Sequence[str], sum: str, more: Sequence[Path] = ()) -> Program:
    """Returns the program of this checksum, which is proved where a BUILD of these tools' own place names that, or one of `more`."""
    record = record_of_sum(sum, more)
    return Program(words, sum, record.words(), PROVED) if record else Program(words, sum)


def find_program(words: Sequence[str]) -> Program:
    """Returns the program of these words: what a launcher runs, or the command itself.

    It is proved where a BUILD of these tools' own place names the checksum of its file, wherever that lies; or one that
    lies beside the file, where it is this place's own launcher that chose both. Another BUILD beside it says nothing.
    """
    if not words:
        raise CannotRun("a program is named by no word")
    launcher = launcher_of(words)
    words = (str(launched(launcher)),) if launcher else settled_words(words)
    file = file_of(words[0]) if len(words) == 1 else None
    if file is None:
        return Program(words, sum_of_command(words))
    is_own = launcher is not None and launcher.resolve().parent == LAUNCHER.resolve().parent
    return known_program(words, sum_of_file(file), [build_beside(file)] if is_own else ())


def program_of(asked: str | None, otherwise: Path) -> Program:
    """Returns the program of an option's words, or of this file where the option wasn't given."""
    if asked is None:
        return find_program((str(otherwise),))
    try:
        return find_program(tuple(shlex.split(asked)))
    except ValueError as error:
        raise CannotRun(f"`{asked}` is no command: {error}") from None
