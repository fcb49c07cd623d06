"""Tables that people keep in spreadsheets, as CSV: columns are found by their names, and mistakes are reported with file and line."""

from __future__ import annotations

import csv
import difflib
import io
import os
import re
from collections.abc import Iterator, Sequence
from dataclasses import dataclass, field

from .build import sum_of
from .cells import read_cell
from .files import TABLE, Limit, read_input
from .places import composed
from .shown import shown

SIGNS = ",;\t"
TOLD_SIGN = re.compile(r"sep=([^\w\s\"']|\t)\r?\n", re.I)  # the first line by which a spreadsheet says what separates the cells
GROUPED = {mark: re.compile(rf"[1-9][0-9]{{0,2}}({re.escape(mark)}[0-9]{{3}})+") for mark in ".,"}  # as 1.028, or 1,028,000
FRACTION = {mark: re.compile(rf"[0-9]*{re.escape(mark)}[0-9]+") for mark in ".,"}
LOOKED_AT = 20  # lines of a table in which the names of the columns are looked for
LIKENESS = 0.7  # of two names, from 0 to 1, from which on one is taken for a mistyped form of the other
ROWS, COLUMNS, CELL, LINE = 4096, 256, 4096, 16_384  # the most of a table: rows, columns, characters of a cell, and those of the first lines that are looked at
LARGEST = 10**9  # numbers are below it: rates, hours, lengths
QUOTED = 80  # characters of a cell that a message shows


class TableProblem(Exception):
    """A table isn't what was wanted."""


def quoted(text: str) -> str:
    """Returns a text as messages show it: the front of a long one, without signs that can't be seen."""
    return shown(text if len(text) <= QUOTED else f"{text[:QUOTED]}..")


@dataclass
class Form:
    """What separates the cells of a table, and which marks its cells show to be decimal ones: as in 0.5, but not in 1.028."""

    sign: str
    shown: set[str] = field(default_factory=set)

    def look_at(self, cells: list[str]) -> None:
        self.shown |= {mark for mark in FRACTION for cell in cells if FRACTION[mark].fullmatch(cell) and not GROUPED[mark].fullmatch(cell)}

    def unclear(self, text: str) -> str:
        """Returns the mark of a number that may part thousands as well as decimals; empty where the number is clear."""
        if self.sign == ",":
            return ""
        return next((mark for mark in GROUPED if mark not in self.shown and GROUPED[mark].fullmatch(text)), "")


@dataclass(frozen=True)
class Row:
    """A row by the names of its columns; a cell that is missing is an empty text."""

    file: str
    line: int
    cells: dict[str, str]
    form: Form
    given: tuple[str, ...] = ()  # all cells, as they stand

    def __getitem__(self, column):
        return self.cells.get(column, "")

    def problem(self, words):
        return TableProblem(f"{self.file}:{self.line}: {words}")

    def quoted(self, column: str) -> str:
        """Returns a cell as messages show it, the front of a long one."""
        return quoted(self[column])

    def number(self, column, low=0, wanted="a number"):
        """The cell as a number that isn't below `low`; None where it is empty."""
        text = self[column]
        if not text:
            return None
        if mark := self.form.unclear(text):
            whole = text.replace(mark, "")
            either = f"{quoted(whole)} or {quoted(text.replace(mark, ','))}0"
            raise self.problem(f"`{column}` is `{quoted(text)}`, which may be {either}: write one of these")
        try:
            value = float(text.replace(",", ".") if self.form.sign != "," else text)
        except ValueError:
            value = float("nan")
        if value >= LARGEST:
            raise self.problem(f"`{column}` is `{quoted(text)}`, and a number below {LARGEST:,} is wanted")
        if not low <= value:
            raise self.problem(f"`{column}` is `{quoted(text)}`, and {wanted} is wanted that isn't below {low}")
        return value

    def whole(self, column, low, high):
        """The cell as a whole number of this range; None where it is empty."""
        text = self[column]
        if text and not (text.isascii() and text.isdecimal() and len(text.lstrip("0")) <= 9 and low <= int(text) <= high):
            raise self.problem(f"`{column}` is `{quoted(text)}`, and a whole number from {low} to {high} is wanted")
        return int(text) if text else None


@dataclass
class Table:
    file: str
    columns: tuple[str, ...]  # as far as they are known
    unread: tuple[str, ...]  # the other columns, as they stand
    known: tuple[str, ...]  # all names that a column may have
    form: Form
    heads: tuple[str, ...]  # the names of all columns, as they stand
    rows: list[Row] = field(default_factory=list)
    freed: list[str] = field(default_factory=list)  # cells with an apostrophe that is no part of the text, as they stand

    def nearest(self, column: str) -> str:
        """Returns the known name that a column may stand for, of those that the table lacks; empty where none is like it."""
        missing = [name for name in self.known if name not in self.columns]
        return next(iter(difflib.get_close_matches(spelled(column[:QUOTED]), missing, 1, LIKENESS)), "")

    def notes(self) -> list[str]:
        """Returns a line on the columns that aren't read, each with the name that is nearest to it, and one on apostrophes; none where all is read as it stands."""
        told = [quoted(column) + (f" (nearest: {near})" if (near := self.nearest(column)) else "") for column in self.unread]
        notes = [f"{self.file}: not read: {', '.join(told)}"] if told else []
        if self.freed:
            notes.append(f"{self.file}: read without the apostrophe before a formula's sign: {quoted(', '.join(self.freed))}")
        return notes


def spelled(column: str) -> str:
    """Returns the name of a column in small letters, with `_` for blanks."""
    return "_".join(column.lower().split())


PIPED: dict[str, bytes] = {}  # what came out of pipes, which can be read once
SUMS: dict[str, str] = {}  # the checksum of each table as it was read last


def table_bytes(name: str, limit: Limit = TABLE) -> bytes:
    """Returns the bytes of a table, and notes their checksum."""
    data = PIPED[name] if name in PIPED else read_input(name, limit)
    if name != "-" and not os.path.isfile(name):
        PIPED[name] = data
    SUMS[name] = sum_of(data)
    return data


def sum_of_table(name: str) -> str:
    """Returns the checksum of a table as it was read last, which isn't opened again."""
    return SUMS[name] if name in SUMS else sum_of(table_bytes(name))


def text_of(name: str, limit: Limit = TABLE) -> str:
    data = table_bytes(name, limit)
    try:
        return composed(data.decode("utf-8-sig"))
    except UnicodeDecodeError as error:
        line = data.count(b"\n", 0, error.start) + 1
        raise TableProblem(f"{name}:{line}: the text isn't UTF-8; save the table as `CSV UTF-8`") from None


def named_in(text: str, needed: tuple[str, ...]) -> int | None:
    """Returns the number of the line that names these columns, where one of the first does."""
    for number, line in enumerate(text.splitlines()[:LOOKED_AT], 1):
        if any({*needed} <= {spelled(cell) for cell in line.split(sign)} for sign in SIGNS):
            return number
    return None


def advice(text: str, needed: tuple[str, ...]) -> str:
    """Returns what to do where another line than the first names the columns, for the end of a sentence."""
    number = named_in(text, needed)
    return f"; line {number} has them: take away what stands above it" if number else ""


def head_of(name, line, cells, known, needed, text):
    """The names of the columns in small letters; None for one that isn't known."""
    heads = [spelled(cell) for cell in cells]
    again = [head for at, head in enumerate(heads) if head in known and head in heads[:at]]
    if again:
        raise TableProblem(f"{name}:{line}: the column `{again[0]}` is there twice")
    missing = [column for column in needed if column not in heads]
    if missing:
        found = quoted(", ".join(filter(None, cells)))
        said = f"the first line is to name the columns, and `{missing[0]}` is missing; there are {found}"
        raise TableProblem(f"{name}:{line}: {said}{advice(text, needed)}")
    return [head if head in known else None for head in heads]


def sign_of(text: str) -> tuple[str, int]:
    """Returns what separates the cells, and how many characters say so in a line of their own."""
    if told := TOLD_SIGN.match(text):
        return told[1], told.end()
    first = next((line for line in text[:LINE].splitlines() if line.strip()), "")
    return max(SIGNS, key=first.count), 0


def cells_of(name: str, line: int, raw: Sequence[str]) -> list[str]:
    """Returns the cells of a record as they stand, each without blanks at its ends and with one where there were several."""
    if len(raw) > COLUMNS or any(len(cell) > CELL for cell in raw):
        raise TableProblem(f"{name}:{line}: a row has at most {COLUMNS} cells, and a cell {CELL:,} characters")
    return [" ".join(cell.split()) for cell in raw]


def records_of(name: str, text: str, sign: str, before: int, rows: int = ROWS) -> Iterator[tuple[int, list[str]]]:
    """Gives the first line of each record, and its cells as they stand. `before` is the number of lines above the text."""
    reader, line, number = csv.reader(io.StringIO(text, newline=""), delimiter=sign, strict=True), before, 0
    try:
        for raw in reader:
            begun, line, number = line + 1, before + reader.line_num, number + 1
            if number > rows + 1:
                raise TableProblem(f"{name}:{begun}: a table has at most {rows:,} rows")
            yield begun, cells_of(name, begun, raw)
    except csv.Error as error:
        raise TableProblem(f"{name}:{line + 1}: {error}") from None


def read_table(name: str, known: Sequence[str], needed: Sequence[str], most: int = ROWS, limit: Limit = TABLE) -> Table:
    """The rows of a table whose first line with a word names its columns. Commas, semicolons or tabs separate the cells, or what a line `sep=;` says.

    Rows without a word are skipped. Where something else than commas separates the cells, numbers may have a comma for the point.
    Raises TableProblem where there are more rows than `most`.
    """
    text = text_of(name, limit)
    sign, begin = sign_of(text)
    form, table = Form(sign), None
    for line, standing in records_of(name, text[begin:], sign, text.count("\n", 0, begin), max(ROWS, most)):
        cells = list(map(read_cell, standing))
        if not any(cells):
            continue
        if table is None:
            heads = head_of(name, line, cells, known, needed, text[:LINE])
            unread = tuple(cell for cell, head in zip(cells, heads) if head is None and cell)
            table = Table(name, tuple(filter(None, heads)), unread, tuple(known), form, tuple(cells))
            continue
        if len(table.rows) == most:
            raise TableProblem(f"{name}:{line}: this table has at most {most:,} rows")
        form.look_at(cells)
        table.freed += [stood for stood, cell in zip(standing, cells) if stood != cell]
        table.rows.append(row_of(name, line, heads, cells, form))
    if table is None:
        raise TableProblem(f"{name}:1: the table is empty; its first line is to name the columns {', '.join(needed)}")
    return table


def row_of(name, line, heads, cells, form):
    if any(cells[len(heads) :]):
        raise TableProblem(f"{name}:{line}: {len(cells)} cells, and the first line names {len(heads)} columns")
    return Row(name, line, {head: cell for head, cell in zip(heads, cells) if head}, form, tuple(cells))
