"""Several plans, and folders of them, as the tools' words name them; and the tables that stand beside a plan."""

import os
from collections import Counter
from collections.abc import Sequence
from pathlib import Path

from .files import FileProblem, Found, found_in, is_there
from .plan import Plan
from .shown import say


def named_in(folder: str, ending: str) -> list[Found]:
    """Returns all names of this ending in a folder, in their order. What can't be read is among them, so that its reader says so."""
    try:
        names = sorted(name for name in os.listdir(folder) if name.endswith(ending))
    except OSError as error:
        raise FileProblem(f"{folder}: {error.strerror}") from None
    if not names:
        raise FileProblem(f"{folder}: no file {ending} is in this folder")
    return [found_in(folder, name) for name in names]


def plans_of(words: Sequence[str], ending: str = ".toml") -> list[str]:
    """Returns the files that these words name: each word is a file, or `-`, or a folder, which stands for all of this ending in it, in the order of their names."""
    found: list[str] = []
    for word in words:
        found += [word] if word == "-" or not Path(word).is_dir() else named_in(word, ending)
    return found


def tell_unnamed(tool: str, name: str, plan: Plan) -> None:
    """Says it where a plan's comments give names that aren't clear, so that none of them is read or shown."""
    if plan.unnamed:
        say(tool, f"{'standard input' if name == '-' else name}: {plan.unnamed}; so no names of its comments are read or shown")


def are_many(words):
    """Whether these words stand for several plans, be it by a folder that has one alone."""
    return len(words) > 1 or any(word != "-" and Path(word).is_dir() for word in words)


def stem_of(name: str) -> str:
    """Returns the name of what is written of a plan; a byte that isn't UTF-8 is shown there by its two digits."""
    return "stdin" if name == "-" else os.fsencode(Path(name).stem).decode("utf-8", "backslashreplace").replace("\\x", "-x")


def need_names(names: Sequence[str], with_index: bool = False) -> None:
    """Raises where what is made of two files would have one name, or that of the index."""
    stems = Counter(map(stem_of, names))
    twice = [stem for stem, count in stems.items() if count > 1]
    if twice:
        raise FileProblem(f"two plans have one name, {twice[0]}, and so would what is written of them")
    if with_index and "index" in stems:
        raise FileProblem("the page of a plan `index.toml` would stand in place of the index; give that plan another name")


def file_beside(name: str, other: str) -> Found | None:
    """Returns the file of another name in the folder of a file that the user named; None where nothing has that name."""
    file = Path(name).with_name(other)
    return Found(file, file.parent) if name != "-" and is_there(file) else None


def beside(plan: str, table: str) -> Found | None:
    """Returns the table that stands beside a plan, as NAME.spans.csv beside NAME.toml; None where there is none."""
    return file_beside(plan, Path(plan).with_suffix(f".{table}.csv").name) if plan != "-" else None
