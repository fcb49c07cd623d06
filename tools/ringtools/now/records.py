"""A list of alarms as people have it, record by record: pasted lines, or a table whose columns have names that network managers give them."""

from __future__ import annotations

import re
from collections.abc import Iterator, Sequence
from dataclasses import dataclass

from ..cells import read_cell
from ..files import MEBIBYTE, Limit
from ..tables import LOOKED_AT, ROWS, SIGNS, TableProblem, quoted, records_of, spelled, text_of

ALARM = (
    *("alarm", "alarm_name", "alarm_text", "alarm_type", "alarmtext", "cause", "condition", "defect", "description", "event"),
    *("fault", "meldung", "probable_cause", "text", "type", "ursache"),
)
NODE = (
    *("a_end", "from", "knoten", "location", "managed_object", "ne", "ne_name", "network_element", "netzelement", "node", "object"),
    *("ort", "place", "site", "source", "station", "z_end", "to", "towards"),
)
SIDE = ("direction", "interface", "link", "port", "port_name", "section", "seite", "side", "span", "strecke")
STATE = ("state", "status", "zustand")
SEVERITY = ("priority", "severity", "schwere")
ENDED = ("cleared", "cleared_at", "clear_time", "cleared_time", "end", "end_time", "ended", "ende")
TIME = ("begin", "beginn", "date", "date_time", "datum", "raised", "raised_at", "start", "start_time", "time", "timestamp", "zeit")
KNOWN = {"alarm": ALARM, "node": NODE, "side": SIDE, "state": STATE, "severity": SEVERITY, "ended": ENDED, "time": TIME}
LIST = Limit("a list of alarms", MEBIBYTE)
LINE = 1_000  # characters
NOTHING_IN = re.compile(r"[\s,;|+=*_.:~–—-]*")  # blank, empty cells, a ruler


@dataclass(frozen=True)
class Record:
    """One line of the list. In a table the cells stand apart by what their columns are; else `where` and `what` are the line."""

    line: int
    text: str  # as it stands
    what: str
    where: str
    state: str = ""
    ended: str = ""
    time: str = ""


def kind_of(head: str) -> str | None:
    """Returns what a column is by its name; None where that isn't known."""
    return next((kind for kind, names in KNOWN.items() if spelled(head) in names), None)


def is_head(cells: Sequence[str]) -> bool:
    """Whether these cells name the columns of a table of alarms: one for the alarm, and another one."""
    kinds = {kind_of(cell) for cell in cells if cell}
    return "alarm" in kinds and bool(kinds - {"alarm", None})


def head_in(lines: Sequence[str]) -> tuple[int, str] | None:
    """Returns the place of the line that names the columns, and what separates them; None where the list is no table."""
    for place, line in enumerate(lines[:LOOKED_AT]):
        for sign in SIGNS:
            if sign in line and is_head([cell.strip().strip('"') for cell in line.split(sign)]):
                return place, sign
    return None


def of_cells(line: int, heads: Sequence[str], cells: Sequence[str]) -> Record:
    """Returns the record of a row."""
    by: dict[str, list[str]] = {kind: [] for kind in KNOWN}
    for head, cell in zip(heads, cells):
        if cell and (kind := kind_of(head)):
            by[kind].append(f"node {cell}" if kind == "node" and cell.isdecimal() else cell)
    severity = " ".join(by["severity"])
    where, what = " ; ".join(by["node"] + by["side"]), " ; ".join(by["alarm"])
    text = "; ".join(filter(None, cells))
    if not what and not where:  # a line of another kind amid the rows
        what = text
    state = " ".join([*by["state"], *(["cleared"] if re.match("clear|normal", severity.casefold()) else [])])
    return Record(line, text, what, where or what, state, " ".join(by["ended"]), " ".join(by["time"]))


def is_empty(line: str) -> bool:
    """Whether a line is blank, a ruler, a row of empty cells or a comment."""
    return NOTHING_IN.fullmatch(line) is not None or line.lstrip().startswith("#")


def of_line(number: int, line: str) -> Record:
    """Returns the record of a pasted line, whose cells may be separated by anything."""
    text = " ".join(line.replace('"', " ").split())
    words = " ".join(re.sub('[,;"\t]', " ", line).split())
    return Record(number, text, words, words, time=words)


class Listing:
    """The records of a list, and in words which columns of it weren't read."""

    def __init__(self, name: str):
        text = text_of(name, LIST)
        lines = text.splitlines()
        if len(lines) > ROWS:
            raise TableProblem(f"{name}: a list has at most {ROWS:,} lines")
        if long := next((at for at, line in enumerate(lines, 1) if len(line) > LINE), None):
            raise TableProblem(f"{name}:{long}: a line has at most {LINE:,} characters")
        if not text.strip():
            raise TableProblem(f"{name}: the list is empty; where no alarm stands, a line such as `# none` says so")
        self.notes: list[str] = []
        found = head_in(lines)
        self.records = [of_line(at, line) for at, line in enumerate(lines[: found[0] if found else None], 1) if not is_empty(line)]
        if found:
            self.records += self.rows(name, "\n".join(lines[found[0] :]) + "\n", *found)

    def rows(self, name: str, text: str, before: int, sign: str) -> Iterator[Record]:
        """Yields the rows of a table, whose first line names the columns."""
        heads: Sequence[str] = ()
        for line, standing in records_of(name, text, sign, before):
            cells = list(map(read_cell, standing))
            if not heads:
                heads = cells
                if unread := [quoted(cell) for cell in cells if cell and kind_of(cell) is None]:
                    self.notes.append(f"{name}: columns that aren't read: {', '.join(unread)}")
                continue
            if any(cells[len(heads) :]):
                raise TableProblem(f"{name}:{line}: {len(cells)} cells, and line {before + 1} names {len(heads)} columns")
            if any(cells) and not is_empty(" ".join(cells)):
                yield of_cells(line, heads, cells)
