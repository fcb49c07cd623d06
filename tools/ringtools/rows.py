"""Worked rows: plans and words whose status and text are known, and what a built program answers to them.

This module reads no TOML, so that rows run where Python has no reader of it.
"""

from __future__ import annotations

import os
import re
import subprocess
import time
from contextlib import ExitStack
from dataclasses import dataclass
from difflib import unified_diff
from pathlib import Path

TOP = Path(__file__).resolve().parents[2]
TESTING = TOP / "tools" / "testing"
RINGS = TESTING / "rings"
# Where the rows of each program are.
FOLDERS = {
    "sdhring": RINGS,
    "sdhwatch": TESTING / "watches",
    "sdhoutage": TESTING / "outages",
    "sdhpath": TESTING / "paths",
    "sdhretime": TESTING / "lines",
    "sdhwhatif": TESTING / "whatif",
    "sdhaps": TESTING / "signals",
    "sdhnode": TESTING / "node",
}
TABLE = "rows.md"
COLUMNS = ["Row", "Words", "Plan", "Change", "Status", "Text"]
SECONDS = 300  # for one row
FOLDER, FULL, SLOWLY = ".", "/dev/full", "byte by byte"  # what can't be read, what can't be written, how it comes


class RowsProblem(Exception):
    """The table of rows, or a file that it names, can't be read."""


@dataclass(frozen=True)
class Row:
    """One run: what goes in, and what has to come out."""

    name: str
    words: tuple  # each as bytes
    given: bytes | None  # nothing where standard input is a folder
    status: int
    text: bytes | None  # nothing where standard output is full
    is_slow: bool  # whether the input comes byte by byte


@dataclass(frozen=True)
class Answer:
    status: int
    text: bytes
    said: bytes  # on standard error


def words_in(cell):
    """The words of a row's cell, of which one in single quotes may have spaces."""
    return [quoted or plain for quoted, plain in re.findall(r"'([^']*)'|(\S+)", cell)]


def file_of(folder, name):
    """A name alone is a file beside the table, a path one from the top of the repository."""
    path = TOP / name if "/" in name else folder / name
    try:
        return path.read_bytes()
    except OSError as error:
        raise RowsProblem(f"{path}: {error.strerror}") from None


def changed(plan, change):
    """The plan with one line in the place of the one with its key, or after the last line where no line has it."""
    if change in ("", SLOWLY):
        return plan
    if found := re.fullmatch(r"(spaces|letters) up to ([0-9]+) bytes", change):
        fill = b" " if found[1] == "spaces" else b"abcdefghijklmnopqrstuvw"
        count = int(found[2])
        return (plan + fill * count)[:count]
    if found := re.fullmatch(r"([0-9]+) times settle", change):
        change = "script = [" + ", ".join(["'settle'"] * int(found[1])) + "]"
    key, line = change.split(" ", 1)[0].encode(), change.encode()
    made, count = re.subn(rb"(?m)^" + re.escape(key) + rb" =.*$", lambda _: line, plan)
    if count > 1:
        raise RowsProblem(f"`{change}`: the plan has {count} lines with this key")
    return made if count else plan + line + b"\n"


def read_row(folder, cells):
    if len(cells) != len(COLUMNS):
        raise RowsProblem(f"{folder / TABLE}: {len(cells)} cells where {len(COLUMNS)} were expected: {cells}")
    name, words, plan, change, status, text = cells
    given = None if plan == FOLDER else changed(file_of(folder, plan) if plan else b"", change)
    is_file = text.endswith(".text") or text.startswith("crates/")
    wanted = None if text == FULL else file_of(folder, text) if is_file else text_of(text)
    said = tuple(word.encode().replace(b"\\xff", b"\xff") for word in words_in(words))
    return Row(name, said, given, int(status), wanted, change == SLOWLY)


def text_of(line):
    """A text of one line; an empty one has none."""
    return line.encode() + b"\n" if line else b""


def cells_of(line):
    return [cell.strip().strip("`") for cell in line.strip().strip("|").split("|")]


def read_rows(folder=RINGS):
    """The rows of a folder's table, which is Markdown: lines that begin with a bar, after the heads and the rule."""
    lines = [cells_of(line) for line in file_of(folder, TABLE).decode().splitlines() if line.startswith("|")]
    if len(lines) < 3 or lines[0] != COLUMNS:
        raise RowsProblem(f"{folder / TABLE}: a table with the heads {', '.join(COLUMNS)} was expected")
    rows = [read_row(folder, cells) for cells in lines[2:]]
    names = [row.name for row in rows]
    if twice := {name for name in names if names.count(name) > 1}:
        raise RowsProblem(f"{folder / TABLE}: a name twice: {', '.join(sorted(twice))}")
    return rows


def feed(started, given):
    """Writes one byte after the other, so that a read that comes soon gets one."""
    try:
        for at in range(len(given)):
            os.write(started.stdin.fileno(), given[at : at + 1])
            time.sleep(0.0005)
    except BrokenPipeError:
        pass
    started.stdin.close()
    started.stdin = None


def ask(program, row):
    """What the program answers to a row."""
    with ExitStack() as files:
        pipe = subprocess.PIPE
        given, written = pipe, pipe
        if row.given is None:
            given = os.open(TOP, os.O_RDONLY)
            files.callback(os.close, given)
        if row.text is None:
            written = files.enter_context(open(FULL, "wb"))
        started = files.enter_context(subprocess.Popen([program, *row.words], stdin=given, stdout=written, stderr=pipe))
        if row.is_slow:
            feed(started, row.given)
        try:
            text, said = started.communicate(None if row.is_slow else row.given, SECONDS)
        except subprocess.TimeoutExpired:
            started.kill()
            return Answer(-1, b"", f"no answer in {SECONDS} s".encode())
    return Answer(started.returncode, text or b"", said)


def difference(row, answer):
    """Lines that say what differs; none where the answer is the row's."""
    told = []
    if answer.status != row.status:
        told.append(f"  status {answer.status}, wanted {row.status}")
    if row.text is not None and answer.text != row.text:
        pair = ([line[:120] for line in text.decode("latin-1").splitlines()] for text in (row.text, answer.text))
        told += ["  " + line for line in unified_diff(*pair, "wanted", "written", lineterm="", n=1)][:40]
        told += [] if len(told) > 1 else ["  the texts differ after column 120, or in their ends of lines"]
    if told and answer.said:
        told += ["  standard error: " + line for line in answer.said.decode("utf-8", "replace").splitlines()[:3]]
    return told
