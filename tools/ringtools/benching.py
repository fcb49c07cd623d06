"""The words and the input of a command of bench/: programs, numbers of which the last ones may be left out, and good plans."""

import os
import sys
import tomllib
from typing import NoReturn

from .plan import PlanProblem, read_plan

HELP = ["--help"], ["-h"]


def refuse(about: str, words: list[str]) -> NoReturn:
    """Ends a command whose words are none of its own; `--help` writes what it is about."""
    if words[:1] in HELP:
        print(about)
        sys.exit(0)
    sys.stderr.write(f"{about}\n")
    sys.exit(2)


def words_of(about: str, words: list[str], programs: int, *numbers: int) -> tuple[list[str], list[int]]:
    """Returns the programs' files and the numbers, with these for those that aren't given. Other words end the command."""
    files, given = words[:programs], words[programs:]
    if words[:1] in HELP or len(files) < programs or len(given) > len(numbers) or not all(word.isascii() and word.isdecimal() for word in given):
        refuse(about, words)
    for file in files:
        if not (os.path.isfile(file) and os.access(file, os.X_OK)):
            sys.exit(f"{file}: a program is wanted, and this is no file that can be run")
    return [os.path.abspath(file) for file in files], [*map(int, given), *numbers[len(given) :]]


def good_plan(document: bytes) -> dict:
    """Returns a plan as TOML has it. Simulations are for good plans, and of any other this ends the command."""
    try:
        read_plan(document)
    except PlanProblem as problem:
        sys.exit(f"this is for good plans: {problem}")
    return tomllib.loads(document.decode())
