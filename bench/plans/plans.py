"""A second reading of plans, written apart from the program's: the reason and the place of the first check that fails.

`answer(data)` gives `not toml`, `bad plan R at P`, or `plan` for bytes that are a plan. docs/FORMATS.md has the keys, the steps
and the reasons.
"""

import re

from toml11 import NotToml, Table, Tables, read

KEYS = {"rate", "nodes", "threshold", "wait", "limit", "script", "circuit"}
CIRCUIT_KEYS = {"name", "from", "to", "slot", "text_a", "text_b", "trace_a", "trace_b", "offset_a", "offset_b"}
NUMBER = re.compile(rb"(0|[1-9][0-9]*)\Z")


class Refused(Exception):
    """A check fails: the reason and the place."""


def answer(data):
    try:
        document = read(data)
    except NotToml:
        return "not toml"
    try:
        check(document)
    except Refused as refusal:
        reason, place = refusal.args
        return f"bad plan {reason} at {place}"
    return "plan"


def want(holds, reason, place=0):
    if not holds:
        raise Refused(reason, place)


def is_integer(value):
    return type(value) is int


def is_text(value):
    return type(value) is str


def is_array(value):
    return type(value) in (list, Tables)


def has_integer(document, key, low, high):
    return is_integer(document.get(key)) and low <= document[key] <= high


def check(document):
    want(set(document) <= KEYS, 12)
    want(is_integer(document.get("rate")) and document["rate"] in (4, 16), 13)
    n = document["rate"]
    nodes = document.get("nodes")
    want(is_array(nodes) and all(is_integer(node) for node in nodes), 14)
    check_nodes(nodes)
    want(has_integer(document, "threshold", 1, 3 * n), 15)
    want(has_integer(document, "wait", 0, 1_000_000), 16)
    want(has_integer(document, "limit", 1, 65_536), 17)
    circuits = document.get("circuit", [])
    want(is_array(circuits) and all(isinstance(circuit, Table) for circuit in circuits), 18)
    names, used = set(), set()
    for place, circuit in enumerate(circuits, 1):
        check_circuit(circuit, place, n, nodes, names, used)
    script = document.get("script")
    want(is_array(script) and all(is_text(step) for step in script), 20)
    want(1 <= len(script) <= 1000, 21)
    moment, settles, slips = 0, 0, {}
    for place, step in enumerate(script, 1):
        words = step.encode().split(b" ")
        check_form(words, place)
        if words[0] == b"slip":
            check_slip(words[1:], place, names, slips)
            continue
        moment, settles = check_step(words, place, n, nodes, moment, settles)
        if words[0] == b"settle":
            slips.clear()
    want(script[-1] == "settle", 29, len(script))


def check_nodes(nodes):
    want(2 <= len(nodes) <= 16, 1)
    for place, node in enumerate(nodes, 1):
        want(0 <= node <= 15, 2, place)
    for place, node in enumerate(nodes, 1):
        want(node not in nodes[: place - 1], 3, place)


def check_circuit(circuit, place, n, nodes, names, used):
    want(set(circuit) <= CIRCUIT_KEYS, 12, place)
    name = circuit.get("name")
    integers = [circuit.get(key) for key in ("from", "to", "slot")] + [circuit.get(key, 0) for key in ("offset_a", "offset_b")]
    texts = [circuit.get(key) for key in ("text_a", "text_b")]
    traces = [circuit.get(key, name) for key in ("trace_a", "trace_b")]
    want(all(map(is_integer, integers)) and all(map(is_text, [name] + texts + traces)), 19, place)
    start, end, slot, *offsets = integers
    want(1 <= slot <= n // 2, 4, place)
    want(start in nodes and end in nodes, 5, place)
    want(start != end, 6, place)
    want(all(0 <= offset <= 782 for offset in offsets), 7, place)
    want(all(map(is_sent, texts)), 8, place)
    want(all(map(is_sent, traces)), 11, place)
    want(re.fullmatch(r"[a-z0-9_-]{1,16}", name) and name not in names, 10, place)
    first, last = nodes.index(start), nodes.index(end)
    spans = [(first + step) % len(nodes) for step in range((last - first) % len(nodes))]
    want(not any((span, slot) in used for span in spans), 9, place)
    names.add(name)
    used.update((span, slot) for span in spans)


def is_sent(text):
    return 1 <= len(text.encode()) <= 64 and all(" " <= letter <= "~" for letter in text)


def number_in(word, low, high):
    """The number that the word is, or nothing where it is none or out of range."""
    if not NUMBER.match(word) or len(word) > 10:
        return None
    return int(word) if low <= int(word) <= high else None


FORMS = {b"cut": 2, b"mend": 2, b"degrade": 3, b"forced": 2, b"manual": 2, b"clear": 2, b"moment": 1, b"settle": 0, b"hold": 2, b"slip": 4}


def check_form(words, place):
    want(all(words), 23, place)
    verb, *others = words
    want(verb in FORMS, 22, place)
    want(len(others) == FORMS[verb], 23, place)


def check_slip(words, place, names, slips):
    """The slips of a port since the last settle step, one more of them."""
    name, end, turn, count = words
    want(name in {name.encode() for name in names} and end in (b"a", b"b"), 30, place)
    want(turn in (b"up", b"down"), 25, place)
    count = number_in(count, 1, 16)
    want(count is not None, 26, place)
    slips[name, end] = slips.get((name, end), 0) + count
    want(slips[name, end] <= 16, 31, place)


def check_step(words, place, n, nodes, moment, settles):
    verb, *others = words
    if verb not in (b"moment", b"settle"):
        want(number_in(others[0], 0, 15) in nodes, 24, place)
        want(verb == b"hold" or others[1] in (b"west", b"east"), 25, place)
    if verb == b"hold":
        want(number_in(others[1], 1, 100) is not None, 26, place)
    if verb == b"degrade":
        want(number_in(others[2], 1, 3 * n) is not None, 26, place)
    if verb == b"moment":
        now = number_in(others[0], 0, 1_000_000_000)
        want(now is not None, 26, place)
        want(now >= moment, 27, place)
        moment = now
    if verb == b"settle":
        settles += 1
        want(settles <= 64, 28, place)
    return moment, settles
