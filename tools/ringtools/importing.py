"""A plan from tables of circuits and of nodes: names of places for numbers, and ways and slots where the tables leave them open."""

from __future__ import annotations

from collections.abc import Sequence
from dataclasses import dataclass, replace

from .cells import text_of_rows
from .checks import is_name, is_sent, plain_name, why_no_name
from .keeping import Service, held, kept_words, positions_in
from .making import Asked, MakingProblem, Written, check_rate, document_of, text_of
from .markup import count_of
from .naming import NoNode, with_identifiers
from .places import Places, why_no_place
from .slots import ORDERS, Demand, Laid, Wanted, arcs_of, fitted, layout_of, loads_of, spans_of
from .tables import SIGNS, Table, advice, read_table, spelled
from .tables import text_of as text_in

NODE_COLUMNS = ("place", "node")
OF_OTHERS = ("failures", "hours")  # columns of the table of nodes that another tool reads
CIRCUIT_COLUMNS = ("name", "from", "to", "direction", "slot", "text_a", "text_b", "trace", "trace_a", "trace_b", "offset_a", "offset_b")
CIRCUITS, NODES = 512, 64  # rows; a ring has 128 circuits and 16 nodes, and of somewhat more it is said which don't fit
NOTED = 3  # of the circuits that have another name in the plan, this many are reported one by one
DIRECTIONS = {"east": "east", "eastwards": "east", "west": "west", "westwards": "west"}


class ImportProblem(Exception):
    """No plan can be made of these tables."""


@dataclass(frozen=True)
class Node:
    number: int
    place: str  # empty where it has no name


@dataclass(frozen=True)
class Circuit:
    """A row of the table of circuits: `name` is the plan's, and `called` the table's."""

    row: object
    name: str
    called: str
    wanted: Wanted


def check_place(row, place, nodes):
    if place and (why := why_no_place(place)):
        raise row.problem(f"`place` is `{place}`, and {why}")
    if place and place.casefold() in (node.place.casefold() for node in nodes):
        raise row.problem(f"the place {place} stood before")


def read_nodes(name):
    """The nodes of a table, one in each row, eastwards round the ring. Those without a number get the lowest free ones, from 1 on."""
    table, nodes = read_table(name, NODE_COLUMNS + OF_OTHERS, (), NODES), []
    if not set(table.columns) & set(NODE_COLUMNS):
        hint = advice(text_in(name), ("place",)) or advice(text_in(name), ("node",))
        raise ImportProblem(f"{name}:1: the first line is to name the column `place`, or `node`, or both{hint}")
    if not 2 <= len(table.rows) <= 16:
        raise ImportProblem(f"{name}: {count_of(len(table.rows), 'node')}, and a ring has 2 to 16")
    given = [row.whole("node", 0, 15) for row in table.rows]
    free = iter([number for number in [*range(1, 16), 0] if number not in given])
    for row, number in zip(table.rows, given):
        if number is not None and number in (node.number for node in nodes):
            raise row.problem(f"node {number} stood before")
        if number is None and not row["place"]:
            raise row.problem("a node is to have a place, or a number, or both")
        check_place(row, row["place"], nodes)
        nodes.append(Node(next(free) if number is None else number, row["place"]))
    return nodes, table.notes()


class Ring:
    """The nodes of a ring, found by their places or their numbers."""

    def __init__(self, nodes):
        self.nodes = nodes
        self.found = {str(node.number): at for at, node in enumerate(nodes)}
        self.found |= {node.place.casefold(): at for at, node in enumerate(nodes) if node.place}

    def position(self, row, column):
        at = self.found.get(row[column].casefold())
        if at is None:
            known = ", ".join(node.place or str(node.number) for node in self.nodes)
            raise row.problem(f"`{column}` is `{row[column]}`, and the nodes are {known}")
        return at

    def name(self, at):
        node = self.nodes[at % len(self.nodes)]
        return node.place or f"node {node.number}"

    def span(self, at):
        return f"{self.name(at)}–{self.name(at + 1)}"


def apart(name, taken):
    """The name, or where another has it, the name with a number after it."""
    number, made = 1, name
    while made in taken:
        number += 1
        made = f"{name[: 15 - len(str(number))]}-{number}"
    return made


def names_of(rows, known: dict[str, str]):
    """The name of each row in the plan, and what it is called. Names that a plan can have are kept, and those that `known` gives."""
    first = {}
    for row in rows:
        name = row["name"]
        if name and first.setdefault(name, row) is not row:
            raise row.problem(f"the circuit {name} stood in line {first[name].line} already")
        if name and (why := why_no_name(name)):
            raise row.problem(f"`name` is `{name}`, and {why}")
    taken, names = {known.get(name, name) for name in first if is_name(name) or name in known}, []
    for number, row in enumerate(rows, 1):
        kept = known.get(row["name"], row["name"])
        made = kept if is_name(kept) else apart(plain_name(row["name"]) or f"c{number}", taken)
        taken.add(made)
        names.append((made, row["name"] or made))
    return names


def wanted_of(row, ring, rate):
    start, end = ring.position(row, "from"), ring.position(row, "to")
    if start == end:
        raise row.problem(f"`from` and `to` are both {ring.name(start)}")
    way = row["direction"].lower()
    if way and way not in DIRECTIONS:
        raise row.problem(f"`direction` is `{row['direction']}`, and east, west or an empty cell is wanted")
    return Wanted(start, end, DIRECTIONS.get(way), row.whole("slot", 1, rate // 2))


def check_sent(row):
    for column in ("text_a", "text_b", "trace", "trace_a", "trace_b"):
        if row[column] and not is_sent(row[column]):
            raise row.problem(f"`{column}` is to have 1 to 64 characters from space to ~")
    for column in ("offset_a", "offset_b"):
        row.whole(column, 0, 782)


def read_circuits(name: str, ring: Ring, rate: int, service: Service | None) -> tuple[list[Circuit], Table]:
    """Returns the circuits of a table, those that are in service as these are there; and the table itself."""
    table, circuits = read_table(name, CIRCUIT_COLUMNS, ("from", "to"), CIRCUITS), []
    positions = positions_in(service, ring.found) if service else {}
    for row, (made, called) in zip(table.rows, names_of(table.rows, service.plain_names if service else {})):
        check_sent(row)
        wanted = wanted_of(row, ring, rate)
        circuits.append(Circuit(row, made, called, held(service, row, called, wanted, positions, rate // 2) if service else wanted))
    return circuits, table


def with_choices(table: Table, circuits: list[Circuit], laid: tuple[Laid, ...]) -> str:
    """Returns the table with the chosen directions and slots, and with the names of all circuits; other cells as they stand.

    What separates the cells is said in a line `sep=` where it is none of the usual signs.
    """
    heads, columns = list(table.heads), [spelled(head) for head in table.heads]
    for column in ("name", "direction", "slot"):
        if column not in columns:
            heads, columns = heads + [column], columns + [column]
    rows, sign = [heads], table.form.sign
    for circuit, one in zip(circuits, laid):
        way = "east" if one.start == circuit.wanted.start else "west"
        chosen = {"name": circuit.called, "direction": way, "slot": str(one.slot)}
        cells = [*circuit.row.given, *[""] * (len(columns) - len(circuit.row.given))]
        rows.append([chosen.get(column, cell) for column, cell in zip(columns, cells)])
    return ("" if sign in SIGNS else f"sep={sign}\n") + text_of_rows(rows, sign)


def sides_of(ring, circuits, laid, circuit, slots):
    """For each way round that a circuit may take, why it doesn't fit beside the laid ones."""
    size, loads = len(ring.nodes), loads_of(len(ring.nodes), laid)
    for start, end in arcs_of(size, circuit.wanted):
        way = "eastwards" if start == circuit.wanted.start else "westwards"
        full = [span for span in spans_of(size, start, end) if loads[span] == slots]
        if full:
            yield f"{way} {ring.span(full[0])} is full, with {slots} of {slots} slots taken"
        else:
            slot = f"slot {circuit.wanted.slot}" if circuit.wanted.slot else "no slot"
            yield f"{way} {slot} is {'taken on some of its spans' if circuit.wanted.slot else 'free on all its spans'}"


def misfits(ring, circuits, slots, is_sure):
    """Which circuits don't fit, and why."""
    size, wanted = len(ring.nodes), [circuit.wanted for circuit in circuits]
    where = fitted(size, slots, wanted)
    laid, left = [one for one in where if one], [circuit for circuit, one in zip(circuits, where) if not one]
    searched = f", in the best of {ORDERS} orders that were tried" if len(left) > 1 else ""
    told = [f"{count_of(len(left), 'circuit')} of {len(circuits)} can't be fitted beside the others" + searched + ("" if is_sure else ", as far as was searched")]
    demand = Demand(size, wanted)
    pair = demand.fullest()
    if demand.need(pair) > 2 * slots:
        need = count_of(demand.need(pair), "circuit")
        told.append(f"{need} have to cross {ring.span(pair[0])} or {ring.span(pair[1])}, whichever way they lead, and these two spans have {2 * slots} slots")
    for circuit in left:
        way = "; ".join(sides_of(ring, circuits, laid, circuit, slots))
        ends = f"{ring.name(circuit.wanted.start)} to {ring.name(circuit.wanted.end)}"
        told.append(f"{circuit.row.file}:{circuit.row.line}: {circuit.called}, {ends}: {way}")
    return ImportProblem("\n  ".join(told))


def written_of(circuit, laid, ring):
    """The circuit as it stands in the plan. Where it leads eastwards from the table's `to`, its ends are exchanged, with their texts, traces and offsets."""
    row, ends = circuit.row, "ab" if laid.start == circuit.wanted.start else "ba"
    trace = circuit.called if circuit.called != circuit.name and is_sent(circuit.called) else ""
    port = lambda end, here: (row[f"text_{end}"] or text_of(circuit.name, here), row[f"trace_{end}"] or row["trace"] or trace, row.whole(f"offset_{end}", 0, 782) or 0)
    called = circuit.called if circuit.called != circuit.name else ""
    numbers = ring.nodes[laid.start].number, ring.nodes[laid.end].number
    return Written(circuit.name, *numbers, laid.slot, *(port(end, here) for end, here in zip(ends, "ab")), called)


@dataclass(frozen=True)
class Imported:
    document: str
    notes: tuple  # what has to be known of it, in words
    table: str = ""  # that of the circuits, with the chosen directions and slots


def notes_of(circuits, layout, is_sure, unread):
    least = "and no choice of directions and slots has less" + (" that holds these" if any(circuit.wanted.is_held for circuit in circuits) else "")
    if not is_sure:
        least = f"and none has less than {layout.bound}; whether one has less than {layout.load} isn't known"
    yield f"{count_of(len(circuits), 'circuit')}; the largest load of a span is {layout.load}, {least}"
    yield from unread
    renamed = [circuit for circuit in circuits if circuit.name != circuit.called]
    for circuit in renamed[:NOTED]:
        yield f"{circuit.row.file}:{circuit.row.line}: `{circuit.called}` is named {circuit.name} in the plan"
    if renamed[NOTED:]:
        yield f"{len(renamed) - NOTED} more have another name in the plan, with their own beside it as a comment"


def steps_called(numbers: Sequence[int], places: dict[int, str], steps: Sequence[str]) -> tuple[str, ...]:
    """Returns steps with identifiers in place of the names of places."""
    try:
        return tuple(with_identifiers(numbers, Places(places), step) for step in steps)
    except NoNode as problem:
        raise MakingProblem(str(problem)) from None


def imported(circuits_file: str, nodes_file: str, asked: Asked, service: Service | None = None) -> Imported:
    """The plan of these tables. `asked` has everything but the nodes and the circuits; `service` is a plan whose circuits stay as they are there."""
    check_rate(asked)
    nodes, unread = read_nodes(nodes_file)
    ring = Ring(nodes)
    circuits, table = read_circuits(circuits_file, ring, asked.rate, service)
    layout, is_sure = layout_of(len(nodes), asked.rate // 2, [circuit.wanted for circuit in circuits])
    if layout is None:
        raise misfits(ring, circuits, asked.rate // 2, is_sure)
    places = {node.number: node.place for node in nodes if node.place}
    numbers = tuple(node.number for node in nodes)
    asked = replace(asked, nodes=numbers, places=places, steps=steps_called(numbers, places, asked.steps))
    written = [written_of(circuit, laid, ring) for circuit, laid in zip(circuits, layout.laid)]
    notes = list(notes_of(circuits, layout, is_sure, unread + table.notes()))
    notes += kept_words(service, [circuit.called for circuit in circuits]) if service else []
    return Imported(document_of(asked, written), tuple(notes), with_choices(table, circuits, layout.laid))
