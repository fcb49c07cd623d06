"""A new plan from a few words: nodes, a rate, circuits as `1>3`, and steps."""

import re
import shlex
from dataclasses import dataclass, field

from .checks import arc_of
from .explaining import explain
from .markup import count_of
from .places import written as named
from .plan import enough, quoted
from .shown import shown

# Lengths of texts that don't divide 2340, so that each report shows another front of them.
LENGTHS = (11, 17, 19)


class MakingProblem(Exception):
    """No plan can be made of these words."""


@dataclass(frozen=True)
class Asked:
    rate: int
    nodes: tuple
    circuits: tuple  # (name, from, to)
    steps: tuple
    name: str = "PLAN"  # the file's name in the comments
    threshold: int = 3
    wait: int = 10
    limit: int | None = None  # None stands for one that is always enough
    places: dict = field(default_factory=dict)  # names by identifiers of nodes
    maker: str = "sdhring-plan new"


@dataclass(frozen=True)
class Written:
    """A circuit as it is written into a plan. Each port is its text, its trace and its offset; an empty trace and an offset of 0 aren't written."""

    name: str
    start: int  # identifiers of nodes
    end: int
    slot: int
    a: tuple
    b: tuple
    called: str = ""  # the name that its customer knows, where it is another one


def read_nodes(words):
    """`1-4`, or `1,2,3,4`, or a mixture of both."""
    nodes = []
    for part in filter(None, re.split(r"[, ]+", words)):
        found = re.fullmatch(r"([0-9]{1,2})(?:-([0-9]{1,2}))?", part)
        if not found:
            raise MakingProblem(f"nodes `{part}`: identifiers are wanted, as 1-4 or 1,2,3,4")
        nodes += range(int(found[1]), int(found[2] or found[1]) + 1)
    return tuple(nodes)


def read_circuits(words):
    """`1>3`, or `NAME=1>3`; without a name the circuits are c1, c2 and so on."""
    circuits = []
    for number, word in enumerate(words, 1):
        found = re.fullmatch(r"(?:([^=]+)=)?([0-9]{1,2})>([0-9]{1,2})", word.replace(" ", ""))
        if not found:
            raise MakingProblem(f"circuit `{word}`: FROM>TO is wanted, as 1>3 or name=1>3")
        circuits.append((found[1] or f"c{number}", int(found[2]), int(found[3])))
    return tuple(circuits)


def read_steps(words):
    """Steps separated by semicolons, with `settle` at the end."""
    steps = [" ".join(step.split()) for step in (words or "").split(";") if step.strip()]
    return tuple(steps if steps[-1:] == ["settle"] else [*steps, "settle"])


def text_of(name, end):
    """The name and the end, over and over, to a length that shows delays; no other port sends it."""
    text = f"{name} {end} "
    length = next(length for length in LENGTHS if length >= len(text) - 1)
    return (text * length)[:length]


def slots_of(asked):
    """The lowest slot that is free all along each circuit."""
    taken, slots = set(), []
    for name, start, end in asked.circuits:
        try:
            spans = arc_of({"from": start, "to": end}, list(asked.nodes))
        except ValueError:
            raise MakingProblem(f"circuit {start}>{end}: the nodes are {', '.join(map(str, asked.nodes))}") from None
        free = [slot for slot in range(1, asked.rate // 2 + 1) if not any((span, slot) in taken for span in spans)]
        if not free:
            raise MakingProblem(f"circuit {start}>{end}: no slot is free on all its spans; {end}>{start} goes the other way round")
        taken.update((span, free[0]) for span in spans)
        slots.append(free[0])
    return slots


def head_of(asked):
    rate = {4: "STM-4, with 2 working slots on each span", 16: "STM-16, with 8 working slots on each span"}[asked.rate]
    places = "".join(named("node", number, place) + "\n" for number, place in asked.places.items())
    file = shlex.quote(shown(asked.name))
    return f"""# A ring of {count_of(len(asked.nodes), "node")}, made by `{asked.maker}`. Every key is in FORMATS.md.
#
#   sdhring run < {file}     runs it
#   sdhring-explain {file}   says whether it is good, or what is wrong and where
#   sdhring-whatif {file}    asks what survives each failure

# {rate}.
rate = {asked.rate}

# The identifiers of the nodes, eastwards round the ring: 2 to 16 nodes, each 0 to 15, no two alike.
{places}nodes = {list(asked.nodes)}

# This many violations of B2 in a frame are a signal degradation: 1 to {3 * asked.rate}.
threshold = {asked.threshold}

# For this many moments a side waits to restore after its last defect.
wait = {asked.wait}

# A settle step runs at most this many rounds. 64 for each node and 512 more are always enough.
limit = {enough(len(asked.nodes)) if asked.limit is None else asked.limit}
"""


def script_of(asked):
    """The steps, and where only `settle` was asked for, a cut of the first span as a comment."""
    here, there = asked.nodes[0], asked.nodes[1]
    lines = ["# What happens, step by step; each `settle` writes a report, and the last step is one.", "script = ["]
    lines += [f"    {quoted(step)}," for step in asked.steps]
    if asked.steps == ("settle",):
        lines.append("    # A span is cut by its two fibres. Take the # away to see what switches:")
        lines += [f"    # {quoted(step)}," for step in (f"cut {here} east", f"cut {there} west", "settle")]
    return "\n".join([*lines, "]\n"])


def circuit_of(asked, circuit):
    start, end = (asked.places.get(node, f"node {node}") for node in (circuit.start, circuit.end))
    spans = count_of(len(arc_of({"from": circuit.start, "to": circuit.end}, list(asked.nodes))), "span")
    lines = ["", f"# Leads eastwards from {start} to {end} over {spans}. Port a is at {start}, port b at {end}."]
    lines += [named("circuit", circuit.name, circuit.called)] if circuit.called else []
    lines += ["[[circuit]]", f"name = {quoted(circuit.name)}", f"from = {circuit.start}", f"to = {circuit.end}", f"slot = {circuit.slot}"]
    ports = list(zip("ab", (circuit.a, circuit.b)))
    lines += [f"text_{end} = {quoted(text)}" for end, (text, _, _) in ports]
    lines += [f"trace_{end} = {quoted(trace)}" for end, (_, trace, _) in ports if trace]
    lines += [f"offset_{end} = {offset}" for end, (_, _, offset) in ports if offset]
    return "\n".join([*lines, ""])


def document_of(asked, circuits):
    """The document with these circuits, which is a good plan, or a MakingProblem."""
    if long := [circuit.name for circuit in circuits if len(circuit.name) > 16]:
        raise MakingProblem(f"circuit {long[0]}: a name has at most 16 characters")
    document = "\n".join([head_of(asked), script_of(asked)]) + "".join(circuit_of(asked, circuit) for circuit in circuits)
    told = explain(document.encode())
    if told.status:
        raise MakingProblem("\n".join(told.findings[0].lines("the plan")))
    return document


def check_rate(asked):
    if asked.rate not in (4, 16):
        raise MakingProblem(f"rate {asked.rate}: 4 or 16 is wanted")


def new_plan(asked):
    """The document, which is a good plan, or a MakingProblem."""
    check_rate(asked)
    if not 2 <= len(asked.nodes) <= 16:
        raise MakingProblem(f"{count_of(len(asked.nodes), 'node')}: a ring has 2 to 16")
    slots = slots_of(asked)
    port = lambda name, end: (text_of(name, end), "", 0)
    return document_of(asked, [Written(*circuit, slot, port(circuit[0], "a"), port(circuit[0], "b")) for circuit, slot in zip(asked.circuits, slots)])
