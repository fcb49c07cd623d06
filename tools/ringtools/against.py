"""Two plans or tables beside each other: in which cases a circuit survives in one of them and is lost in the other.

A table may come from anybody. One whose rows don't add up is refused; of one whose rows do it isn't known who wrote it.
"""

from __future__ import annotations

import csv
import io
from collections import Counter
from collections.abc import Iterator
from dataclasses import dataclass, field, replace

from .build import sum_of
from .cells import read_cell, write_rows
from .desktable import OVER
from .escaping import Markup, html
from .files import CASES, read_input
from .markup import came_along
from .moves import moves
from .plan import Plan
from .tables import TableProblem
from .writing import Folder

COLUMNS = ("Failures", "Depth", "Kind", "Circuit", "Other", "This", "Change", "Customer")
GAINS, LOSES, CHANGED = "gains", "loses", "other way"
MOST_CASES = 100_000  # rows of a table
MOST_CIRCUITS = 128
COUNTED = ("Impaired", "Over", "Lost")  # each beside the names of its circuits
WANTED = ("Failures", "Depth", "Kept", *COUNTED, *(f"{kind} circuits" for kind in COUNTED))


@dataclass
class Cases:
    """What is compared: for each case, by the names of its failures, the circuits over protection and those that are lost. `called` has customers' own names.

    `origin` says where it comes from: a table, or a plan that was asked about.
    """

    name: str
    circuits: tuple
    cases: dict
    called: dict = field(default_factory=dict)
    plan: Plan | None = None  # where it isn't a table
    origin: Markup = html("")

    @property
    def title(self) -> Markup:
        """The name as a page has it: of a file as one, so that its words are taken for nothing else."""
        return html("{}", self.name) if not self.origin else html("<code>{}</code>", self.name)


def cases_of_told(name: str, told, plan_sum: str = "") -> Cases:
    """Returns the cases of a plan. That of --against is named by its file, and has the checksum of it."""
    cases = {told.table.labels(case): (frozenset(told.of(case, OVER)), frozenset(told.lost(case))) for case in told.all()}
    origin = html("the same program was asked about the plan <code>{}</code>, whose checksum is <code>{}</code>", name, plan_sum) if plan_sum else html("")
    return Cases(name, tuple(told.names), cases, told.called, told.plan, origin)


def columns_of(name: str, heads: list[str]) -> list[int]:
    """Returns where the columns stand that are compared."""
    if missing := [column for column in WANTED if column not in heads]:
        raise TableProblem(f"{name}: a table of --all is wanted, with the columns {', '.join(WANTED)}; there is no {missing[0]}")
    return [heads.index(column) for column in WANTED]


def number_in(cell: str) -> int | None:
    return int(cell) if cell.isascii() and cell.isdecimal() and len(cell) <= 6 else None


@dataclass
class Rows:
    """The rows of a table, taken one after the other, each held against those before. `count` is how many circuits the ring has."""

    circuits: dict = field(default_factory=dict)
    cases: dict = field(default_factory=dict)
    known: dict = field(default_factory=dict)  # the circuits of a cell
    count: int | None = None

    def circuits_of(self, cell: str) -> frozenset:
        if cell not in self.known:
            self.known[cell] = frozenset(cell.split())
            self.circuits |= dict.fromkeys(cell.split())
        return self.known[cell]

    def why_not(self, key: tuple, depth: str, counts: list[int | None], named: list[frozenset]) -> str:
        """Returns what of a row doesn't add up; empty where all of it does."""
        if key in self.cases:
            return "the case stood before"
        if number_in(depth) != len(key):
            return f"`Depth` is {depth or 'empty'}, and the failures are {len(key)}"
        if None in counts:
            return "Kept, Impaired, Over and Lost are to be numbers"
        for kind, count, names in zip(COUNTED, counts[1:], named):
            if count != len(names):
                return f"`{kind}` is {count}, and {len(names)} circuits are named"
        if len(frozenset().union(*named)) < sum(map(len, named)):
            return "a circuit is named twice"
        if sum(counts) != self.count:
            return f"Kept, Impaired, Over and Lost are {sum(counts)} together, and {self.count} in the rows before"
        return f"more circuits are named than the {self.count} that these are" if len(self.circuits) > self.count else ""

    def take(self, cells: list[str]) -> str:
        """Takes the cells of a row, in the order of WANTED. Returns why it can't be one of such a table; empty where it can."""
        failures, depth, *rest = cells
        key = () if failures == "nothing" else tuple(failures.split("; "))
        counts, named = list(map(number_in, rest[:4])), list(map(self.circuits_of, rest[4:]))
        if len(self.circuits) > MOST_CIRCUITS:
            return f"with it there are more than {MOST_CIRCUITS} circuits, the most that a ring has"
        if self.count is None and None not in counts:
            self.count = sum(counts)
        why = self.why_not(key, depth, counts, named)
        self.cases[key] = named[1], named[2]
        return why and f"it doesn't add up: {why}"


def cases_of_rows(name: str, rows: Iterator[list[str]]) -> Cases:
    """Returns the cases of a table's rows, of which the first names the columns."""
    places, found = columns_of(name, next(rows, [])), Rows()
    for number, row in enumerate(rows, 2):
        if number > MOST_CASES or len(row) <= max(places):
            why = f"a table has at most {MOST_CASES:,} rows" if number > MOST_CASES else "the row is too short"
        else:
            why = found.take([read_cell(row[place]) for place in places])
        if why:
            raise TableProblem(f"{name}: row {number}: {why}")
    if not found.cases:
        raise TableProblem(f"{name}: a table of --all is wanted, and this one has no row")
    return Cases(name, tuple(found.circuits), found.cases)


def cases_of_table(name: str) -> Cases:
    """The table that an earlier run wrote: its circuits are those that it names in any case, as each is lost with its own node."""
    data = read_input(name, CASES)
    try:
        found = cases_of_rows(name, csv.reader(io.TextIOWrapper(io.BytesIO(data), encoding="utf-8", newline="")))
    except (UnicodeDecodeError, csv.Error) as problem:
        raise TableProblem(f"{name}: {problem}") from None
    return replace(found, origin=came_along(name, sum_of(data)))


def change(before, now):
    """How a circuit's fate changes from the other plan or table to this one."""
    return GAINS if before == "lost" else LOSES if now == "lost" else CHANGED


def result(sets, circuit):
    over, lost = sets
    return "lost" if circuit in lost else "over" if circuit in over else "kept"


class Against:
    """The cases of one plan or table beside another's."""

    def __init__(self, this, other):
        self.this, self.other = this, other
        self.shared = [name for name in this.circuits if name in other.circuits]
        self.only_here = [name for name in this.circuits if name not in other.circuits]
        self.only_there = [name for name in other.circuits if name not in this.circuits]
        here, there = this.cases.keys(), other.cases.keys()
        self.cases_here, self.cases_there = len(here - there), len(there - here)
        self.changes = list(self.changes_of())
        self.depths = sorted({len(key) for key in here})
        self.moves = None if this.plan is None or other.plan is None else moves(other.plan, this.plan)

    def changes_of(self):
        """Each case and circuit whose fate differs."""
        for key, now in self.this.cases.items():
            before = self.other.cases.get(key)
            if before is None or before == now:
                continue
            for name in self.shared:
                two = result(before, name), result(now, name)
                if two[0] != two[1]:
                    yield key, name, *two

    def counts(self):
        """How often each circuit gains and loses, by circuit, number of failures and change."""
        return Counter((name, len(key), change(before, now)) for key, name, before, now in self.changes)

    def called(self, name):
        return self.this.called.get(name, name)

    def customer(self, name: str) -> str:
        """The name by which its customer knows a circuit."""
        return name if self.this.plan is None else self.this.plan.places.circuit(name)

    def rows(self) -> Iterator[list]:
        yield list(COLUMNS)
        for key, name, before, now in self.changes:
            kinds = "+".join(label.split()[0] for label in key)
            yield ["; ".join(key) or "nothing", len(key), kinds, name, before, now, change(before, now), self.customer(name)]

    def write_csv(self, folder: Folder, file: str) -> None:
        with folder.writing_text(file) as text:
            write_rows(text, self.rows())
