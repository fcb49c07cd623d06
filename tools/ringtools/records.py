"""A report as records: plain values with names, for JSON and CSV. FORMATS.md has the fields."""

from .kbytes import CODES, MARKS
from .plan import Circuit, Plan, Step
from .report import CHUNK_LINE, COUNT, NODE, PORT, SETTLE, TABLE, check_length, read_report

STATUSES = {
    "done": 0,
    "read fault": 3,
    "not toml": 5,
    "plant fault": 8,
    "too long": 9,
    "no such port": 10,
}
HEADS = {
    "ports": ["settle", "round", "circuit", "end", "delivers", "value", "hex"],
    "nodes": [
        *("settle", "round", "node", "state"),
        *(f"{side}_{key}" for side in ("west", "east") for key in ("k1", "k2", "request", "to", "from", "path", "mark")),
    ],
    "chunks": ["settle", "delivers", "hex"],
    "counts": ["settle", "round", "norm", "ais"],
    "table": ["node", "side", "slot", "circuit", "from", "to"],
}
TABLE_OF = {"run": "ports", "drop": "chunks", "big": "counts", "check": "table", "none": "ports"}


# -- the shape of a text alone


def once(things):
    return tuple(dict.fromkeys(things))


def first_block(lines):
    """The lines of the first settle step of a text of `run`."""
    block = []
    for line in lines[1:]:
        if not (NODE.fullmatch(line) or PORT.fullmatch(line)):
            break
        block.append(line)
    return block


def count_of_steps(lines):
    """How many settle steps the text is of; of chunks each has nine lines."""
    heads = sum(bool(SETTLE.fullmatch(line) or COUNT.fullmatch(line) or line == "ais") for line in lines)
    chunks = sum(bool(CHUNK_LINE.fullmatch(line)) for line in lines) // 9
    return heads + chunks + sum(line.startswith("unsettled ") for line in lines)


def shape_of(text):
    """A plan with the nodes, circuits and settle steps that a text shows of itself, where its own plan isn't at hand."""
    lines = text.decode("ascii", "replace").splitlines()
    tables = [found for line in lines if (found := TABLE.fullmatch(line))]
    counts = next((found for line in lines if (found := COUNT.fullmatch(line))), None)
    block = first_block(lines)
    ids = once(int(line.split(" ")[1]) for line in block if line.startswith("node "))
    names = once(line.split(" ")[1] for line in block if line.startswith("port "))
    if tables:
        ids, names = once(int(found[1]) for found in tables), once(found[4] for found in tables)
    if counts:
        names = tuple(f"c{at}" for at in range((int(counts[3]) + int(counts[4])) // 2))
    circuits = tuple(Circuit(name, 0, 0, 1, None, None) for name in names)
    return Plan(4, ids, 1, 0, 1, circuits, (Step("settle", "settle"),) * count_of_steps(lines))


# -- records


def status_of(report):
    if report.reason is not None:
        return 6
    if report.unsettled is not None:
        return 7
    return STATUSES.get(report.last, 2)


def word_record(word):
    short, _ = CODES[word.code]
    return {
        "k1": f"{word.k1:02x}",
        "k2": f"{word.k2:02x}",
        "request": short,
        "to": word.k1 & 15,
        "from": word.k2 >> 4,
        "path": "long" if word.k2 & 8 else "short",
        "mark": MARKS[word.mark],
    }


def node_record(number, node):
    return {"node": number, "state": node.state, "west": word_record(node.west), "east": word_record(node.east)}


def port_record(name, end, port):
    what = {"delivers": "ais", "value": None, "hex": None}
    if not port.ais:
        what = {"delivers": "chunk", "value": port.value, "hex": port.data.hex()}
    return {"circuit": name, "end": end, **what}


def chunk_record(chunk):
    return {"delivers": "chunk" if chunk else "ais", "hex": b"".join(chunk).hex() if chunk else None}


def step_record(kind, step, ids):
    """One settle step; `drop` has no round."""
    if kind == "drop":
        return {"settle": step.number, **chunk_record(step.chunk)}
    head = {"settle": step.number, "round": step.round}
    if kind == "big":
        return {**head, "norm": step.counts[0], "ais": step.counts[1]}
    nodes = [node_record(number, node) for number, node in zip(ids, step.nodes)]
    ports = [port_record(name, end, port) for (name, end), port in step.ports.items()]
    return {**head, "nodes": nodes, "ports": ports}


def table_record(line):
    return {
        "node": line.node,
        "side": line.side,
        "slot": line.slot,
        "circuit": line.name,
        "from": line.start,
        "to": line.end,
    }


def record(text, plan=None):
    """The whole report; without its plan the text alone says what nodes and circuits there are."""
    check_length(text)
    plan = plan or shape_of(text)
    report = read_report(text, plan)
    return {
        "command": None if report.kind == "none" else report.kind,
        "status": status_of(report),
        "last": report.last,
        "reason": report.reason,
        "place": report.place,
        "unsettled": report.unsettled,
        "settled": [step_record(report.kind, step, plan.ids) for step in report.settled],
        "table": [table_record(line) for line in report.table],
    }


# -- rows


def flat(node):
    """A node's record in one level."""
    words = {f"{side}_{key}": value for side in ("west", "east") for key, value in node[side].items()}
    return {"node": node["node"], "state": node["state"], **words}


def rows(told, name=None):
    """The rows of one table: that of the command, or `nodes` or `ports` of a run. The first row is the heads."""
    name = name or TABLE_OF[told["command"] or "none"]
    found = told["table"] if name == "table" else told["settled"]
    if name in ("nodes", "ports"):
        steps = [step for step in found if name in step]
        inner = [(step, flat(item) if name == "nodes" else item) for step in steps for item in step[name]]
        found = [{"settle": step["settle"], "round": step["round"], **item} for step, item in inner]
    return [HEADS[name]] + [[item[head] for head in HEADS[name]] for item in found]
