"""The words that a tool is started with, among which each knows --help and --version."""

from __future__ import annotations

import argparse
import re

from typing import NoReturn

from .build import version
from .origin import LAUNCHER, CannotRun, find_program
from .shown import shown


def version_words(tool):
    """The tool's version, and what is known of the program beside it."""
    try:
        program = find_program([str(LAUNCHER)])
        beside = f"{program.version or LAUNCHER.name}, {program.proof}"
    except CannotRun:
        beside = "no program"
    return f"{tool} {version()}, a tool outside the proofs; beside it {beside}"


def rate_number(word: str) -> int:
    """Returns the rate that a word means: 16 for 16, STM-16 and STM16."""
    if found := re.fullmatch("(?:stm-?)?([0-9]+)", word, re.I):
        return int(found[1])
    raise argparse.ArgumentTypeError(f"`{word}`: 4 or 16 is wanted, for STM-4 or STM-16")


def whole_number(word: str) -> int:
    """Returns the number that a word means, which has digits alone."""
    if word.isascii() and word.isdecimal():
        return int(word)
    raise argparse.ArgumentTypeError(f"`{word}`: a whole number is wanted, in digits alone")


def decimal_number(word: str) -> float:
    """Returns the number that a word means, whose decimal mark is a point and which isn't below 0."""
    try:
        value = float(word)
    except ValueError:
        value = float("nan")
    if 0 <= value < float("inf"):
        return value
    point = f", as {word.replace(',', '.')}" if re.fullmatch("[0-9]+,[0-9]+", word) else ""
    raise argparse.ArgumentTypeError(f"`{word}`: a number with a point is wanted that isn't below 0{point}")


class ShowVersion(argparse.Action):
    """Looks at the program's file only where --version asks for it."""

    def __call__(self, parser, *_):
        print(version_words(parser.prog.split()[0]))
        parser.exit()


class Options(argparse.ArgumentParser):
    """The parser of a tool's words."""

    def __init__(self, **more):
        super().__init__(**more)
        self.add_argument("--version", action=ShowVersion, nargs=0, help="show the version, and whether the program beside is proved")

    def error(self, message: str) -> NoReturn:
        """Says what is wrong with the words in one line, and ends with status 2."""
        self.exit(2, f"{self.prog}: {shown(message)}; {self.prog} --help shows the words\n")
