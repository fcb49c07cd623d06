"""The tables of a network: rings, circuits between any two places, spans with lengths and rates, places with rates, groups over several rings.

Each mistake is a TableProblem with file and line that says what would be right. A column that nothing reads is noted by its name.
"""

from collections.abc import Callable
from dataclasses import dataclass, field
from pathlib import Path

from ..checks import is_sent
from ..components import fibre_rates
from ..importing import DIRECTIONS
from ..markup import count_of
from ..places import why_no_name, why_no_place
from ..files import MEBIBYTE, Limit, found_in, is_there
from ..tables import Row, Table, TableProblem, read_table
from .members import Members
from .model import INDEX, Group, Network, NetworkProblem, Ring, key_of

RING_COLUMNS = ("ring", "rate", "places")
CIRCUIT_COLUMNS = (
    "name",
    "from",
    "to",
    "via",
    "count",
    "direction",
    "slot",
    "text_a",
    "text_b",
    "trace",
    "trace_a",
    "trace_b",
    "offset_a",
    "offset_b",
)
SPAN_COLUMNS = ("ring", "from", "to", "cuts", "km", "cuts_per_1000_km", "hours", "fibre_failures", "fibre_hours")
NODE_COLUMNS = ("place", "failures", "hours")
GROUP_COLUMNS = ("group", "members", "failures", "hours")
MOST_BUNDLED = 128  # circuits of one row: no ring has more
MOST_RINGS = 10_000
FOLDER = "rings"  # of the plans, in that of the network
ROWS, LARGE = 200_000, Limit("a network's table", 32 * MEBIBYTE)  # the most of a table


@dataclass(frozen=True)
class RingRow:
    """A ring as its table has it."""

    name: str
    rate: int
    places: tuple[str, ...]
    row: Row


@dataclass(frozen=True)
class Wish:
    """A circuit that is wanted: one of a row's bundle. `via` are the places where it changes rings, and rings that it crosses."""

    name: str
    start: str
    end: str
    row: Row
    via: tuple[str, ...] = ()
    direction: str | None = None  # as seen from `start`; of a circuit in one ring alone
    slot: int | None = None

    def port(self, end: str, name: str, text_of: Callable[[str, str], str]) -> tuple[str, str, int]:
        """Returns text, trace and offset of the customer's port at an end, `a` or `b`; an empty trace stands for the plan's own."""
        trace = self.name if self.name != name and is_sent(self.name) else ""
        return (
            self.row[f"text_{end}"] or text_of(name, end),
            self.row[f"trace_{end}"] or self.row["trace"] or trace,
            self.row.whole(f"offset_{end}", 0, 782) or 0,
        )


@dataclass
class Tables:
    """All that a folder's tables say, and notes of what nothing reads."""

    folder: Path
    rings: list[RingRow]
    wishes: list[Wish]
    groups: list[Group]
    lengths: dict[tuple[int, int], float] = field(
        default_factory=dict
    )  # km of a span, by the ring's number and the span's position
    notes: list[str] = field(default_factory=list)

    @property
    def network(self) -> Network:
        """The rings alone, without customers; plans have the names that `files_of` gives them."""
        files = files_of([ring.name for ring in self.rings])
        return Network(
            [Ring(number, row.name, file, row.places) for number, (row, file) in enumerate(zip(self.rings, files))], []
        )


def files_of(names: list[str]) -> list[str]:
    """Returns a file's name for the plan of each ring: its letters in small ones, and a number where two would be alike, or the network's own page."""
    found: list[str] = []
    for name in names:
        kept = "".join(letter if letter.isalnum() and letter.isascii() else "-" for letter in name.casefold())
        stem = "-".join(filter(None, kept.split("-")))[:40] or "ring"
        number = 1
        while f"{FOLDER}/{stem}.toml" in found or f"{stem}.html" == INDEX:
            number += 1
            stem = f"{stem[:36]}-{number}"
        found.append(f"{FOLDER}/{stem}.toml")
    return found


def parted(cell: str) -> list[str]:
    return [" ".join(part.split()) for part in cell.split(";") if part.strip()]


def check_name(row: Row, column: str, name: str) -> None:
    if why := why_no_name(name):
        raise row.problem(f"`{column}` has `{name}`, and {why}")


def check_place(row: Row, place: str) -> None:
    if why := why_no_place(place):
        raise row.problem(f"`places` has `{place}`, and {why}")


def read_rings(file: str, notes: list[str]) -> list[RingRow]:
    table: Table = read_table(file, RING_COLUMNS, RING_COLUMNS, ROWS, LARGE)
    found: list[RingRow] = []
    seen: dict[str, int] = {}
    notes += table.notes()
    for row in table.rows:
        name, places = row["ring"], tuple(parted(row["places"]))
        if not name:
            raise row.problem("`ring` is empty, and a name is wanted")
        check_name(row, "ring", name)
        if key_of(name) in seen:
            raise row.problem(f"the ring {name} stood in line {seen[key_of(name)]} already")
        seen[key_of(name)] = row.line
        if row["rate"] not in ("4", "16"):
            raise row.problem(f"`rate` is `{row['rate']}`, and 4 or 16 is wanted, for STM-4 or STM-16")
        if not 2 <= len(places) <= 16:
            raise row.problem(
                f"`places` has {count_of(len(places), 'place')}, separated by semicolons, and a ring has 2 to 16"
            )
        for place in places:
            check_place(row, place)
        if twice := [place for at, place in enumerate(places) if key_of(place) in map(key_of, places[:at])]:
            raise row.problem(f"`places` has {twice[0]} twice")
        found.append(RingRow(name, int(row["rate"]), places, row))
    if not found:
        raise TableProblem(
            f"{file}: there is no ring; each row is to have a name, a rate and places eastwards, separated by semicolons"
        )
    if len(found) > MOST_RINGS:
        raise TableProblem(f"{file}: {len(found)} rings, and at most {MOST_RINGS} are read")
    return found


def place_in(row: Row, column: str, network: Network) -> str:
    """The place that a cell names, as its ring spells it."""
    name = network.place_names.get(key_of(row[column]))
    if name is None:
        if not row[column]:
            raise row.problem(f"`{column}` is empty, and a place is wanted")
        raise row.problem(f"`{column}` is `{row[column]}`, and no ring comes there{Members(network).near(row[column])}")
    return name


def check_sent(row: Row) -> None:
    for column in ("text_a", "text_b", "trace", "trace_a", "trace_b"):
        if row[column] and not is_sent(row[column]):
            raise row.problem(f"`{column}` is to have 1 to 64 characters from space to ~")
    for column in ("offset_a", "offset_b"):
        row.whole(column, 0, 782)


def via_in(row: Row, network: Network) -> tuple[str, ...]:
    """The places and rings that a circuit is to go by, in their order; a name that both have means the place."""
    found = []
    for word in parted(row["via"]):
        ring = network.ring_of(word)
        if key_of(word) not in network.rings_at and ring is None:
            raise row.problem(
                f"`via` has `{word}`, and no ring comes there, and none is called so{Members(network).near(word)}"
            )
        found.append(network.place_names.get(key_of(word)) or (ring.name if ring else word))
    return tuple(found)


def wishes_in(row: Row, name: str, network: Network) -> list[Wish]:
    """The circuits of a row: one, or as many as its `count`, each with a number after the name."""
    start, end = place_in(row, "from", network), place_in(row, "to", network)
    if start == end:
        raise row.problem(f"`from` and `to` are both {start}")
    if row["direction"] and row["direction"].lower() not in DIRECTIONS:
        raise row.problem(f"`direction` is `{row['direction']}`, and east, west or an empty cell is wanted")
    check_sent(row)
    count, slot = row.whole("count", 1, MOST_BUNDLED), row.whole("slot", 1, 8)
    if slot and count and count > 1:
        raise row.problem(
            f"`slot` is {slot}, and the {count} circuits of a bundle can't share one: leave it empty, or write a row for each"
        )
    names = [name] if count is None or count == 1 else [f"{name}-{number}" for number in range(1, count + 1)]
    for one in names:
        check_name(row, "name", one)
    return [
        Wish(one, start, end, row, via_in(row, network), DIRECTIONS.get(row["direction"].lower()), slot)
        for one in names
    ]


def read_wishes(file: str, network: Network, notes: list[str]) -> list[Wish]:
    """Each circuit that a table wants. Names are given to those without: c1, c2 and so on."""
    table: Table = read_table(file, CIRCUIT_COLUMNS, ("from", "to"), ROWS, LARGE)
    found: list[Wish] = []
    seen: dict[str, int] = {}
    notes += table.notes()
    given = {key_of(row["name"]) for row in table.rows}
    free = (f"c{number}" for number in range(1, len(table.rows) * 2 + 2) if f"c{number}" not in given)
    for row in table.rows:
        for wish in wishes_in(row, row["name"] or next(free), network):
            if key_of(wish.name) in seen:
                raise row.problem(
                    f"the circuit {wish.name} stood in line {seen[key_of(wish.name)]} already; `count` makes a bundle of several"
                )
            seen[key_of(wish.name)] = row.line
            found.append(wish)
    return found


def span_of(row: Row, network: Network) -> tuple[int, int]:
    """The span of a row, by its ring's number and its position."""
    ring = network.ring_of(row["ring"])
    if ring is None:
        raise row.problem(
            f"`ring` is `{row['ring']}`, and the rings are {', '.join(one.name for one in network.rings[:12])}"
        )
    for column in ("from", "to"):
        if ring.at(row[column]) is None:
            raise row.problem(
                f"`{column}` is `{row[column]}`, and the places of ring {ring.name} are {', '.join(ring.places)}"
            )
    here, there = ring.positions[key_of(row["from"])], ring.positions[key_of(row["to"])]
    if here == there or ring.size not in ((here - there) % ring.size + 1, (there - here) % ring.size + 1):
        beside = f"{ring.places[here - 1]} and {ring.places[(here + 1) % ring.size]}"
        raise row.problem(
            f"no span of ring {ring.name} joins {row['from']} and {row['to']}; {ring.places[here]} has spans to {beside}"
        )
    return ring.number, here if (here + 1) % ring.size == there else there


def complete(file: str, missing: list[str]) -> None:
    if missing:
        shown = ", ".join(missing[:6]) + (f" and {len(missing) - 6} more" if len(missing) > 6 else "")
        raise TableProblem(
            f"{file}: {shown}: {'it has' if len(missing) == 1 else 'they have'} no row; a rate of 0 stands for what never fails"
        )


def span_rows(file: str, network: Network) -> tuple[Table, dict[tuple[int, int], Row]]:
    """The row of each span of the network; a span without a row and one with two are refused."""
    table: Table = read_table(file, SPAN_COLUMNS, ("ring", "from", "to"), ROWS, LARGE)
    found: dict[tuple[int, int], Row] = {}
    for row in table.rows:
        span = span_of(row, network)
        if span in found:
            raise row.problem(
                f"span {network.rings[span[0]].span_name(span[1])} in {network.rings[span[0]].name} stood in line {found[span].line} already"
            )
        found[span] = row
    spans = ((ring, at) for ring in network.rings for at in range(ring.size))
    complete(
        str(file), [f"span {ring.span_name(at)} in {ring.name}" for ring, at in spans if (ring.number, at) not in found]
    )
    return table, found


def place_rows(file: str, network: Network) -> tuple[Table, dict[str, Row]]:
    """The row of each place, by the place's key."""
    table: Table = read_table(file, NODE_COLUMNS, NODE_COLUMNS, ROWS, LARGE)
    found: dict[str, Row] = {}
    for row in table.rows:
        key = key_of(place_in(row, "place", network))
        if key in found:
            raise row.problem(f"the place {row['place']} stood in line {found[key].line} already")
        found[key] = row
    complete(str(file), [f"place {network.place_names[key]}" for key in network.rings_at if key not in found])
    return table, found


def read_lengths(file: str, network: Network, notes: list[str]) -> dict[tuple[int, int], float]:
    """The lengths of all spans in km; none where a row has none. All other cells are looked at too, as for availability."""
    table, rows = span_rows(file, network)
    notes += table.notes()
    found: dict[tuple[int, int], float] = {}
    for span, row in rows.items():
        for column in ("cuts", "cuts_per_1000_km", "hours"):
            row.number(column)
        fibre_rates(row)
        km = row.number("km")
        if km is not None:
            found[span] = km
    if found and len(found) < len(rows):
        row = next(row for span, row in rows.items() if span not in found)
        raise row.problem("`km` is empty, and other spans have one: all have a length, or none has")
    return found


def read_groups(file: str, network: Network, notes: list[str]) -> list[Group]:
    table: Table = read_table(file, GROUP_COLUMNS, ("group", "members"), ROWS, LARGE)
    found: list[Group] = []
    seen: dict[str, int] = {}
    notes += table.notes()
    members = Members(network)
    for row in table.rows:
        name, words = row["group"], tuple(parted(row["members"]))
        if not name:
            raise row.problem("`group` is empty, and a name is wanted")
        check_name(row, "group", name)
        if ";" in name or key_of(name) in seen:
            raise row.problem(
                f"`group` is `{name}`, and semicolons separate failures"
                if ";" in name
                else f"the group {name} stood in line {seen[key_of(name)]} already"
            )
        seen[key_of(name)] = row.line
        if not words:
            raise row.problem("`members` is empty; spans, places and fibres are wanted, separated by semicolons")
        for word in words:
            try:
                members.parts(word)
            except NetworkProblem as problem:
                raise row.problem(str(problem)) from None
        failures, hours = row.number("failures"), row.number("hours")
        if (failures is None) != (hours is None):
            raise row.problem("`failures` a year and `hours` of a repair go together: one of them is empty")
        found.append(Group(name, words, failures, hours))
    return found


def read_tables(folder: Path) -> Tables:
    """Returns what the tables of a folder say: rings.csv and circuits.csv, and spans.csv, nodes.csv and groups.csv where they are there."""
    for name in ("rings.csv", "circuits.csv"):
        if not is_there(folder / name):
            raise TableProblem(
                f"{folder}: {name} is missing; rings.csv has ring,rate,places and circuits.csv has name,from,to"
            )
    tables = Tables(folder, [], [], [])
    tables.rings = read_rings(found_in(folder, "rings.csv"), tables.notes)
    network = tables.network
    if is_there(spans := found_in(folder, "spans.csv")):
        tables.lengths = read_lengths(spans, network, tables.notes)
    if is_there(nodes := found_in(folder, "nodes.csv")):
        table, rows = place_rows(nodes, network)
        tables.notes += table.notes()
        for row in rows.values():
            row.number("failures"), row.number("hours")
    if is_there(groups := found_in(folder, "groups.csv")):
        tables.groups = read_groups(groups, network, tables.notes)
    known = {"rings.csv", "circuits.csv", "spans.csv", "nodes.csv", "groups.csv"}
    tables.notes += [
        f"{file}: not read: a network's tables are {', '.join(sorted(known))}"
        for file in sorted(folder.glob("*.csv"))
        if file.name not in known
    ]
    tables.wishes = read_wishes(found_in(folder, "circuits.csv"), network, tables.notes)
    return tables
