"""The plan: a ring, its circuits and a script, read from the program's TOML document."""

import re
import tomllib
from dataclasses import dataclass, field

from .checks import SIDES, STEP_FORMS, Checks, refusals
from .files import PLAN, Limit
from .places import PlaceProblem, Places, shown_places, written
from .source import STRINGS

# Refusals of steps that can each be read even so; the program itself decides what it accepts, and why not.
READABLE = {27, 28, 31}
FEW = 16
DEEPEST = 80  # levels of arrays and tables, and parts of a key
POINTS = 20_000  # between the parts of keys, and in numbers
# The points of keys, and what ends a key; strings and comments are passed over.
KEY_SIGNS = re.compile("|".join([*(f"(?:{form.pattern})" for form in STRINGS), r"#[^\n]*", r"(?P<point>\.)", r"(?P<end>[=\[\],{}\n])"]), re.S)


def enough(size):
    """The limit with which every settle step of a ring of this many nodes answers."""
    return 64 * size + 512


class PlanProblem(Exception):
    """The document is no plan that these tools can read."""


class LongKey(PlanProblem):
    """A key of the document has more parts than the program's reader takes."""

    def __init__(self) -> None:
        super().__init__(f"no TOML document: a key has more than {DEEPEST} parts")


class ManyKeys(PlanProblem):
    """The parts of the document's keys are more than these tools read."""

    def __init__(self) -> None:
        super().__init__(f"its keys have more than {POINTS:,} points, which are read by no tool")


@dataclass(frozen=True)
class Port:
    text: bytes
    trace: bytes
    offset: int


@dataclass(frozen=True)
class Circuit:
    name: str
    start: int  # positions in the ring
    end: int
    slot: int
    a: Port
    b: Port

    def port(self, end):
        return self.a if end == "a" else self.b

    def other(self, end):
        return self.b if end == "a" else self.a


@dataclass(frozen=True)
class Step:
    """One step of the script. `at` is a position; what a step doesn't have is None."""

    text: str
    word: str
    at: int | None = None
    side: str | None = None
    number: int | None = None
    name: str | None = None
    end: str | None = None
    turn: str | None = None


@dataclass(frozen=True)
class Plan:
    rate: int
    ids: tuple
    threshold: int
    wait: int
    limit: int
    circuits: tuple
    steps: tuple
    places: Places = field(default_factory=Places, compare=False)
    unnamed: str = field(default="", compare=False)  # why its comments give no names, where they don't

    def clear_places(self) -> Places:
        """Returns the names that its comments give. Raises PlaceProblem where one isn't clear."""
        if self.unnamed:
            raise PlaceProblem(self.unnamed)
        return self.places

    @property
    def size(self):
        return len(self.ids)

    def node_name(self, at):
        """The node at a position by its identifier, and its place where a comment names that, as `3 Köln`."""
        return self.places.node(self.ids[at])

    def circuit_name(self, circuit):
        """A circuit by its name, and the customer's own where a comment has that."""
        called = self.places.circuits.get(circuit.name)
        return f"{circuit.name} ({called})" if called else circuit.name

    def ends(self, span):
        """The identifiers at the two ends of a span, the west one first."""
        return self.ids[span], self.ids[(span + 1) % self.size]

    def span_name(self, span):
        return "{}–{}".format(*self.ends(span))

    def span_title(self, span):
        """A span by the identifiers at its ends, and its places where comments name them, as `3–4 (Köln–Bonn)`."""
        ends = self.ends(span)
        return f"{self.span_name(span)} ({self.places.span(*ends)})" if self.places.nodes.keys() & set(ends) else self.span_name(span)

    def neighbour(self, at, side):
        return (at + (1 if side == "east" else -1)) % self.size

    def span(self, at, side):
        return at if side == "east" else (at - 1) % self.size


def check_keys(text: str) -> None:
    """Raises where a key has more parts than any that the program reads, or all have more than any plan's. A reader would take very long over them."""
    parts = all = 0
    for found in KEY_SIGNS.finditer(text) if text.count(".") >= DEEPEST else ():
        parts = parts + 1 if found["point"] else 0 if found["end"] else parts
        all += found["point"] is not None
        if parts >= DEEPEST:
            raise LongKey
        if all > POINTS:
            raise ManyKeys


def parsed_document(data: bytes, limit: Limit = PLAN) -> dict:
    """Returns the TOML document as it stands. Raises PlanProblem."""
    if len(data) > limit.bytes:
        raise PlanProblem(f"it is longer than {limit.bytes:,} bytes, the most that {limit.what} has")
    try:
        text = data.decode("utf-8-sig")
        check_keys(text)
        return tomllib.loads(text)
    except ValueError as error:  # of the text's bytes, of TOML, or of a number with thousands of digits
        raise PlanProblem(f"no TOML document: {error}") from None
    except RecursionError:
        raise PlanProblem("no TOML document: arrays and tables lie too deep in one another") from None


def has_large_number(value: object) -> bool:
    """Whether a whole number of more than 64 bits is in a document, which no plan has and no text can show."""
    inner = value.values() if isinstance(value, dict) else value if isinstance(value, list) else ()
    return isinstance(value, int) and not -(2**63) <= value < 2**63 or any(map(has_large_number, inner))


def read_document(data: bytes, limit: Limit = PLAN) -> dict:
    """Returns the TOML document of a plan, or of what has this limit, whose numbers have at most 64 bits. Raises PlanProblem."""
    document = parsed_document(data, limit)
    try:
        if has_large_number(document):
            raise PlanProblem("no TOML document: an integer of more than 64 bits")
    except RecursionError:
        raise PlanProblem("no TOML document: arrays and tables lie too deep in one another") from None
    return document


def needs(found):
    """Raises the first refusal of these that leaves a plan unreadable, with what would be right where that is few."""
    for refusal in found:
        if refusal.reason not in READABLE:
            right = f"; right would be: {', '.join(map(str, refusal.right))}" if 0 < len(refusal.right) <= FEW else ""
            raise PlanProblem(f"{place_words(refusal)}{refusal.said}{right}")


def place_words(refusal):
    """What leads to the thing, as `circuit 2: `; nothing where it is the document's own."""
    kind = {"circuit": "circuit", "script": "step", "nodes": "node"}.get(refusal.path[0])
    return f"{kind} {refusal.place}: " if refusal.place else ""


def read_port(table, end):
    trace = table.get(f"trace_{end}", table["name"])
    return Port(table[f"text_{end}"].encode("ascii"), trace.encode("ascii"), table.get(f"offset_{end}", 0))


def read_circuit(table, ids):
    start, end = ids.index(table["from"]), ids.index(table["to"])
    return Circuit(table["name"], start, end, table["slot"], read_port(table, "a"), read_port(table, "b"))


def parsed(text, ids):
    """A step whose form was checked."""
    first, *rest = text.split(" ")
    step = {"number" if kind == "number" else "at" if kind == "node" else kind: word for kind, word in zip(STEP_FORMS[first], rest)}
    if "at" in step:
        step["at"] = ids.index(int(step["at"]))
    if "number" in step:
        step["number"] = int(step["number"])
    return Step(text, first, **step)


def read_step(text, place, ids):
    """One step alone, as it stands at that place of a script; whether its port is there isn't looked at."""
    checks = Checks({"rate": 16, "nodes": list(ids)})
    needs(refusal for refusal in checks.step(text, place) if refusal.reason != 30)
    return parsed(text, ids)


def read_plan(data: bytes, document: dict | None = None) -> Plan:
    """Returns the plan of these bytes, whose document may have been read before. Raises PlanProblem."""
    document = read_document(data) if document is None else document
    needs(refusals(document))
    ids = tuple(document["nodes"])
    circuits = tuple(read_circuit(table, ids) for table in document.get("circuit", []))
    steps = tuple(parsed(text, ids) for text in document["script"])
    numbers = document["threshold"], document["wait"], document["limit"]
    return Plan(document["rate"], ids, *numbers, circuits, steps, *shown_places(data, ids))


def quoted(text):
    return '"' + text.replace("\\", "\\\\").replace('"', '\\"') + '"'


def circuit_lines(plan, circuit):
    called = plan.places.circuits.get(circuit.name)
    lines = [written("circuit", circuit.name, called)] if called else []
    lines += ["[[circuit]]", f"name = {quoted(circuit.name)}"]
    lines += [f"from = {plan.ids[circuit.start]}", f"to = {plan.ids[circuit.end]}", f"slot = {circuit.slot}"]
    for end in "ab":
        port = circuit.port(end)
        lines.append(f"text_{end} = {quoted(port.text.decode())}")
        lines.append(f"trace_{end} = {quoted(port.trace.decode())}")
        lines.append(f"offset_{end} = {port.offset}")
    return lines


def write_plan(plan, script):
    """The document of this plan's ring and circuits with another script, a list of texts; names stay in their comments."""
    lines = [written("node", number, plan.places.nodes[number]) for number in plan.ids if number in plan.places.nodes]
    lines += [f"rate = {plan.rate}", f"nodes = {list(plan.ids)}", f"threshold = {plan.threshold}"]
    lines += [f"wait = {plan.wait}", f"limit = {plan.limit}"]
    lines.append("script = [" + ", ".join(map(quoted, script)) + "]")
    for circuit in plan.circuits:
        lines += circuit_lines(plan, circuit)
    return "\n".join(lines) + "\n"
