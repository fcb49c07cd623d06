"""Why the program refuses a plan, and where: its numbers in words."""

from typing import NamedTuple


class Reason(NamedTuple):
    name: str
    wrong: str
    kind: str | None  # what the place counts
    advice: str


SLOTS = "1 or 2 at STM-4, 1 to 8 at STM-16"
REASONS = {
    1: Reason("number of nodes", "a ring has 2 to 16 nodes", None, "leave some out, or add some"),
    2: Reason("identifier", "identifiers of nodes are 0 to 15", "node", "number it from 0 to 15"),
    3: Reason("repeated identifier", "an earlier node has this identifier", "node", "give each node its own"),
    4: Reason("slot", f"the slot isn't one of the rate's: {SLOTS}", "circuit", f"{SLOTS}; the others are protection"),
    5: Reason("end", "`from` or `to` isn't a node of the ring", "circuit", "use identifiers out of `nodes`"),
    6: Reason("same ends", "`from` and `to` are the same node", "circuit", "a circuit leads to another node"),
    7: Reason("offset", "an offset isn't 0 to 782", "circuit", "see the range of an AU-4 pointer"),
    8: Reason("text", "a text isn't 1 to 64 printable characters", "circuit", "shorten it; no letters beyond ASCII"),
    9: Reason(
        "overlap",
        "an earlier circuit has one of its spans in its slot",
        "circuit",
        "take another slot, or exchange `from` and `to` to go the other way round",
    ),
    10: Reason(
        "name",
        "the name isn't 1 to 16 of a to z, 0 to 9, - and _, or an earlier circuit has it",
        "circuit",
        "lower-case letters, digits, `-` and `_`, at most 16",
    ),
    11: Reason(
        "trace", "a trace isn't 1 to 64 printable characters", "circuit", "where no trace is given, mend the name"
    ),
    12: Reason(
        "unknown key",
        "a key isn't one that a plan has there",
        "circuit",
        "look for a slip; the document's keys stand before the first `[[circuit]]`, a circuit's after it",
    ),
    13: Reason(
        "rate",
        "`rate` is missing, or isn't 4 or 16",
        None,
        "write `rate = 4` or `rate = 16`; an empty input fails here",
    ),
    14: Reason(
        "nodes",
        "`nodes` is missing, or isn't an array of integers",
        None,
        "write `nodes = [1, 2, 3]`, without quotes",
    ),
    15: Reason(
        "threshold",
        "`threshold` is missing, or isn't 1 to three times the rate",
        None,
        "at most 12 at STM-4, 48 at STM-16",
    ),
    16: Reason("wait", "`wait` is missing, or isn't 0 to 1,000,000", None, "write `wait = 0` for no waiting"),
    17: Reason(
        "limit",
        "`limit` is missing, or isn't 1 to 65,536",
        None,
        "64 for each node and 512 more are always enough; a healthy ring needs 129",
    ),
    18: Reason(
        "circuits", "`circuit` isn't an array of tables", None, "write `[[circuit]]`, in double brackets"
    ),
    19: Reason(
        "field of a circuit",
        "a key is missing, or its value has the wrong kind",
        "circuit",
        "numbers without quotes, texts with them",
    ),
    20: Reason(
        "script", "`script` is missing, or isn't an array of texts", None, 'write `script = ["settle"]`'
    ),
    21: Reason("length of the script", "a script has 1 to 1,000 steps", None, "run the rest as another plan"),
    22: Reason("word", "the step's first word isn't known", "step", "lower-case letters; the table of steps has all ten"),
    23: Reason(
        "form of a step",
        "the step has too few or too many words, or an empty one",
        "step",
        "one space between two words, as the table of steps has them",
    ),
    24: Reason(
        "node of a step",
        "the step's node isn't in the ring",
        "step",
        "the identifier and not the position; no leading zero",
    ),
    25: Reason(
        "side",
        "the step's side isn't `west` or `east`, or its turn not `up` or `down`",
        "step",
        "lower-case letters",
    ),
    26: Reason("number", "the step's number is none, or out of its range", "step", "no sign, no leading zero"),
    27: Reason(
        "moment",
        "the moment lies before the one that was set last",
        "step",
        "moments never go back; the same one may stand again",
    ),
    28: Reason("settle steps", "a script has at most 64 settle steps", "step", "run the rest as another plan"),
    29: Reason(
        "last step",
        "the last step isn't `settle`",
        "step",
        "let the script end with `settle`, so that it has a report",
    ),
    30: Reason(
        "port of a step",
        "the step's port isn't one of the plan's",
        "step",
        "a circuit's name and `a` or `b`; the circuit may stand anywhere in the document",
    ),
    31: Reason(
        "slips",
        "more than 16 slips of one port since the last settle step",
        "step",
        "let a `settle` step come between",
    ),
}

OTHERS = {
    "not toml": "The plan isn't a TOML document in UTF-8.",
    "too long": "The plan has more than 1,048,576 bytes.",
    "read fault": "Reading the plan failed.",
    "plant fault": "A fibre of the plant failed in the program's hands; the settle steps before it are reported.",
    "no such port": "The port that was asked for isn't one of the plan's.",
    "not built": "The document isn't of a form that this build of the program runs.",
}


def refusal(last, reason):
    """What went wrong, in one sentence."""
    if reason is not None:
        return f"Bad plan, reason {reason}, {REASONS[reason].name}: {REASONS[reason].wrong}."
    if last.startswith("usage:"):
        return "The program was called with words that it doesn't know."
    return OTHERS[last]


def item(document, key, place):
    """The `place`-th thing of an array of the document, if it is there; places count from 1."""
    things = document.get(key) if isinstance(document, dict) else None
    return things[place - 1] if isinstance(things, list) and 1 <= place <= len(things) else None


def where(document, reason, place):
    """Where it went wrong, in words; `document` may be None."""
    kind = REASONS[reason].kind
    if place == 0 or kind is None:
        return "in the document itself"
    if kind == "circuit":
        table = item(document, "circuit", place)
        name = table.get("name") if isinstance(table, dict) else None
        return f"in circuit {place}" + (f", `{name}`" if isinstance(name, str) else "")
    shown = item(document, "nodes" if kind == "node" else "script", place)
    return f"at {kind} {place}" + (f", `{shown}`" if shown is not None else "")
