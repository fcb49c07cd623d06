"""The fields in which two answers to a round differ, by the order in which a node makes them, and the cases of rules that decide each."""

from __future__ import annotations

import re
from collections.abc import Iterable, Iterator
from dataclasses import dataclass

from ..benched import BenchProblem, is_scrambled_otherwise, read_answer, sequence
from .rules import EACH_FRAME
from .terms import COLUMNS, HEAD, ONES, PAYLOAD, ROWS, SIDES

LINE = ("heard_west", "heard_east", "asks_west", "asks_east", "state", "far", "west", "east")
NAMES = {
    **{f"heard_{side}": f"the word heard from the {side}" for side in SIDES},
    **{f"asks_{side}": f"what the {side} side asks for" for side in SIDES},
    "state": "the state",
    "far": "the far end",
    **{side: f"the word sent to the {side}" for side in SIDES},
}


@dataclass(frozen=True)
class Difference:
    """What differs first: the field in words, what was due, what came, and the cases that decide it."""

    field: str
    due: str
    came: str
    cases: frozenset[str]


@dataclass(frozen=True)
class Field:
    """A field of an answer: how far along a node's own way it is made, the cases that decide it, and what differs, if anything does."""

    stage: int
    cases: Iterable[str]
    difference: Difference | None = None
    lane: object = None  # what it is a field of: a word, a port, an AU-4


NO_ANSWER = "the form of an answer"  # the name of a field, where the bytes are no answer
HEARD, STATE, WORDS, LEAVES = range(4)  # the stages
STAGES = {"heard": HEARD, "asks": HEARD, "state": STATE, "far": STATE, "west": WORDS, "east": WORDS}


def parsed(text: bytes):
    """Returns an answer, or None where the bytes are none."""
    try:
        answer, after = read_answer(text, 0)
    except BenchProblem:
        return None
    return answer if after == len(text) else None


def front(data: bytes) -> str:
    """Returns the beginning of bytes that are no answer, as they are shown."""
    return data[:60].decode("latin-1").partition("\n")[0] or "nothing"


def difference(due: bytes, came: bytes, trace: dict) -> Difference | None:
    """Returns the first difference of two answers, or None."""
    if due == came:
        return None
    return next((field.difference for field in fields(due, came, trace) if field.difference), Difference(NO_ANSWER, front(due), front(came), frozenset()))


def fields(due: bytes, came: bytes, trace: dict) -> Iterator[Field]:
    """Gives the fields of an answer, each beside what was due."""
    ours, theirs = parsed(due), parsed(came)
    if theirs is None:
        yield Field(HEARD, (), Difference(NO_ANSWER, front(due), front(came), frozenset()))
        return
    for find in (in_line, in_ports, in_frames):
        yield from find(ours, theirs, trace)


def told_apart(due: bytes, came: bytes, trace: dict) -> tuple[list[Field], list[Field]]:
    """Returns the fields that differ in two answers and that no earlier one can be the reason of, and those that agree."""
    found = list(fields(due, came, trace))
    wrong = [field for field in found if field.difference]
    first = min((field.stage for field in wrong), default=LEAVES)
    # Words that leave decide no AU-4, but the K bytes of the frame.
    kept = [field for field in wrong if field.stage == first or first == WORDS and "9.k-bytes/places" not in field.difference.cases]
    return kept, [field for field in found if not field.difference]


def in_line(ours, theirs, trace) -> Iterator[Field]:
    for key in ("round", "node"):
        if ours.fields[key] != theirs.fields[key]:
            yield Field(HEARD, (), Difference(f"the {key}'s number", ours.fields[key], theirs.fields[key], frozenset()))
    for key in LINE:
        due, came, field = ours.fields[key], theirs.fields[key], key.replace("_", " ")
        kind = field.partition(" ")[0]
        if due == came:
            yield Field(STAGES[kind], trace.get(field, ()), None, key)
        else:
            yield Field(STAGES[kind], (), Difference(NAMES[key], due, came, decided(trace, [field], stages_of(kind, due, came))), key)


OF_CHOICE = ("4.first-11", "4.heaviest", "4.short-word", "4.long-word", "4.relays", "4.no-word", "4.long/", "4.short/", "4.weight", "4.held")
OF_SWITCHING = ("4.switches", "4.against", "4.about", "4.isolated", "4.weight", "4.short/", "4.long/", "4.held")


def stages_of(field: str, due: str, came: str) -> tuple[str, ...]:
    """Returns the beginnings of the rules that can make the difference of a field's two values."""
    values = {due, came}
    if field == "heard" and due == "- -":
        return ("1.framing", "2.heard", "2.fails/ms-ais", "2.word/code", "2.word/mark")  # no word can be read where no bytes came
    if field == "heard":
        return ("1.framing", "2.") if came == "- -" else ("2.word",)
    if field == "asks" and "rr" in values:
        return ()  # nothing that a side can ask for
    if field == "asks":
        return ("1.framing", "2.fails", "2.unknown", "3.") if "sf" in values else ("1.violations", "1.forgotten", "2.degraded", "3.") if "sd" in values else ("3.",)
    if field == "state":
        return ("4.passes", "4.relays", "4.long/", "4.heaviest", "4.held") if values <= {"idle", "pass"} else OF_SWITCHING
    return ("4.far", "4.long/", "4.held") if field == "far" else of_words(due, came)


def of_words(due: str, came: str) -> tuple[str, ...]:
    """Returns the same of two words that are sent."""
    if due[:4] == came[:4] and int(due[4], 16) & 8 == int(came[4], 16) & 8:
        return ("4.marks", "4.held")
    if due[:4] == came[:4]:
        return ("4.long-word" if int(due[4], 16) & 8 else "4.short-word", "4.no-word")
    kinds = {kind_of(word, due[3]) for word in (due, came)}
    if len(kinds) > 1:
        return OF_CHOICE
    return {"none": ("4.no-word",), "short": ("4.short-word", "4.short/", "4.weight"), "long": ("4.long-word", "4.short/", "4.weight", "4.relays/its-own")}.get(kinds.pop(), ("4.relays", "4.long/")) + ("4.held",)


def kind_of(word: str, node: str) -> str:
    """Returns what a word is that leaves: the short or the long one of a node that has this digit, one of another node, or none."""
    if word[3] != node:
        return "relayed"
    return "long" if int(word[4], 16) & 8 else "none" if word[0] == "0" else "short"


def decided(trace: dict, fields: list, stages: tuple[str, ...] = ()) -> frozenset[str]:
    """Returns the cases that decided these fields, of these stages; words, marks, defects and origins too."""
    found = {case for field in fields for case in trace.get(field, ())}
    return frozenset(case for case in found if not stages or not case[0].isdigit() or case.startswith(stages))


def in_ports(ours, theirs, trace) -> Iterator[Field]:
    for mine, other in zip(ours.ports, theirs.ports):
        name = f"port {mine[0]}"
        if mine == other:
            yield Field(LEAVES, [*trace.get((name, "place"), ()), *trace.get((name, "pointer"), ())], None, name)
        elif mine[0] != other[0]:
            yield Field(LEAVES, (), Difference("the order of ports", name, f"port {other[0]}", frozenset()))
        else:
            here, there = mine[1].split(" "), other[1].split(" ")
            parts = ["place", "pointer"] if len(here) != len(there) else ["pointer"] if here[-1] == there[-1] else ["place"]
            yield Field(LEAVES, (), Difference(f"what {name} delivers", mine[1], other[1], decided(trace, [(name, part) for part in parts])), name)
    if len(ours.ports) != len(theirs.ports):
        yield Field(LEAVES, (), Difference("the number of ports", str(len(ours.ports)), str(len(theirs.ports)), frozenset()))


def in_frames(ours, theirs, trace) -> Iterator[Field]:
    if theirs.frames is None or len(ours.frames) != len(theirs.frames):
        yield Field(LEAVES, (), Difference("the bytes of both frames", str(len(ours.frames)), str(len(theirs.frames or b"")), frozenset(["9.columns/payloads"])))
        return
    size = len(ours.frames) // 2
    for d in range(len(SIDES)):
        due, came = (frames[size * d : size * (d + 1)] for frames in (ours.frames, theirs.frames))
        if due == came:
            yield Field(LEAVES, EACH_FRAME)
            yield from (Field(LEAVES, cases, None, key[1:3]) for key, cases in trace.items() if key[:2] == ("au", d))
        else:
            yield from in_frame(due, came, d, trace)


class Clear:
    """A frame before the scrambler, by its fields."""

    def __init__(self, line: bytes) -> None:
        self.n = len(line) // (ROWS * COLUMNS)
        added = int.from_bytes(sequence(self.n), "big")
        self.data = (int.from_bytes(line, "big") ^ added).to_bytes(len(line), "big")
        width, head = COLUMNS * self.n, HEAD * self.n
        self.rows = [self.data[width * row : width * (row + 1)] for row in range(ROWS)]
        self.body = b"".join(row[head:] for row in self.rows)

    def pointer(self, au: int) -> int:
        return self.rows[3][au] << 8 | self.rows[3][3 * self.n + au]

    def fill(self, au: int) -> bytes:
        """The bytes of the pointer row that are neither H1, H2 nor H3."""
        column = self.rows[3][au : HEAD * self.n : self.n]
        return column[1:3] + column[4:6]

    def h3(self, au: int) -> bytes:
        return self.rows[3][au : HEAD * self.n : self.n][6:9]

    def payload(self, au: int) -> bytes:
        return self.body[au :: self.n]


def in_frame(due: bytes, came: bytes, d: int, trace: dict) -> Iterator[Field]:
    """Gives the fields of two frames, by the order in which a node makes them."""
    ours, theirs, n = Clear(due), Clear(came), len(due) // (ROWS * COLUMNS)
    side = f"the frame to the {SIDES[d]}"
    if is_scrambled_otherwise(ours.data, theirs.data, n):
        at = next(i for i, pair in enumerate(zip(ours.data, theirs.data)) if pair[0] != pair[1])
        yield Field(LEAVES, (), Difference(f"{side}, the scrambling", due[at : at + 8].hex(), came[at : at + 8].hex(), frozenset(["9.scrambling/sequence"])))
        return
    if ours.rows[0][: HEAD * n] != theirs.rows[0][: HEAD * n]:
        yield Field(LEAVES, (), stretch(f"{side}, row 1", ours.rows[0][: HEAD * n], theirs.rows[0][: HEAD * n], "9.row-1/constants"))
    k = [tuple(frame.rows[4][at] for at in (3 * n, 6 * n)) for frame in (ours, theirs)]
    if k[0] != k[1]:
        yield Field(LEAVES, (), Difference(f"{side}, K1 and K2", *("{:02x} {:02x}".format(*one) for one in k), frozenset(["9.k-bytes/places"])))
    for au in range(n):
        yield in_au(ours, theirs, (d, au), side, trace)
    yield from in_overhead(ours, theirs, side, n)


def in_au(ours: Clear, theirs: Clear, place: tuple[int, int], side: str, trace: dict) -> Field:
    """Returns what differs first in one AU-4."""
    key = ("au", *place)
    if found := of_au(ours, theirs, place, f"{side}, AU-4 {place[1] + 1}", trace):
        return Field(LEAVES, (), found, place)
    return Field(LEAVES, {case for part in PARTS for case in trace.get((*key, part), ())}, None, place)


PARTS = ("place", "pointer", "payload", "h3")


def of_au(ours: Clear, theirs: Clear, place: tuple[int, int], where: str, trace: dict) -> Difference | None:
    """Returns the first difference of an AU-4, or None."""
    key, au = ("au", *place), place[1]
    words, payloads, h3 = [[read(au) for one in (ours, theirs) for read in [getattr(one, name)]] for name in ("pointer", "payload", "h3")]
    is_ais = [word == ONES for word in words]
    if words[0] != words[1]:
        parts = ["place", "pointer"] if payloads[0] != payloads[1] or is_ais[0] != is_ais[1] else ["pointer"]
        found = decided(trace, [(*key, part) for part in parts])
        if is_ais[0] != is_ais[1] and payloads[0] != payloads[1]:  # AIS, whole, where there is none: no word of a generator makes that
            found = frozenset(case for case in found if not case.startswith("8.") or case == "8.ais/ones")
        return Difference(f"{where}, pointer", f"{words[0]:04x}", f"{words[1]:04x}", found)
    if payloads[0] != payloads[1]:
        found = decided(trace, [(*key, "payload")]) if not is_ais[0] else frozenset(["9.columns/payloads"])
        return stretch(f"{where}, payload", payloads[0], payloads[1], *of_payload(found, words[0], payloads))
    if h3[0] != h3[1]:
        return Difference(f"{where}, H3", h3[0].hex(), h3[1].hex(), decided(trace, [(*key, "h3")]) | {"8.justification/none"} - ({"8.justification/none"} if not is_ais[0] else set()))
    if ours.fill(au) != theirs.fill(au):
        return Difference(f"{where}, bytes Y and those beside H2", ours.fill(au).hex(), theirs.fill(au).hex(), frozenset(["9.pointer-row/constants"]))
    return None


def of_payload(cases: frozenset[str], word: int, payloads: list[bytes]) -> frozenset[str]:
    """Returns which of the cases can make the difference of two payloads, by the columns of the VC-4 that differ."""
    begin = 783 + 3 * (word & 0x3FF)
    places = {divmod((at - begin) % len(payloads[0]), PAYLOAD) for at, pair in enumerate(zip(*payloads)) if pair[0] != pair[1]}
    heads = {row for row, column in places if column == 0}
    is_own = any(case.startswith("path.") for case in cases)
    if not is_own or "8.justification" in "".join(cases):
        return cases
    wanted = ("path.b3",) if places == {(1, 0)} else ("path.overhead",) if len(heads) == len(places) else ("path.text",) if heads <= {1} else ("path.offset", "path.text")
    return frozenset(case for case in cases if not case.startswith("path.") or case.startswith(wanted))


def in_overhead(ours: Clear, theirs: Clear, side: str, n: int) -> Iterator[Field]:
    """Gives what differs in the rest of the section overhead: parities last, since they are those of the frame before."""
    fifth = [one.rows[4][: 3 * n] for one in (ours, theirs)]
    if fifth[0] != fifth[1]:
        yield Field(LEAVES, (), stretch(f"{side}, B2", fifth[0], fifth[1], "9.b2/parity"), "B2")
    if ours.rows[1][0] != theirs.rows[1][0]:
        yield Field(LEAVES, (), Difference(f"{side}, B1", f"{ours.rows[1][0]:02x}", f"{theirs.rows[1][0]:02x}", frozenset(["9.b1/parity"])), "B1")
    for row, first in ((1, 1), (2, 0), (4, 3 * n), (5, 0), (6, 0), (7, 0), (8, 0)):
        heads = [bytearray(one.rows[row][first : HEAD * n]) for one in (ours, theirs)]
        if row == 4:
            for head in heads:
                head[0] = head[3 * n] = 0  # K1 and K2
        if heads[0] != heads[1]:
            yield Field(LEAVES, (), stretch(f"{side}, row {row + 1}, overhead", bytes(heads[0]), bytes(heads[1]), "9.row-1/constants"), "overhead")


def stretch(field: str, due: bytes, came: bytes, *cases: str) -> Difference:
    """Returns a difference in a stretch of bytes: its first byte, and those after it."""
    at = next(i for i, pair in enumerate(zip(due, came)) if pair[0] != pair[1])
    return Difference(f"{field}, byte {at + 1}", due[at : at + 8].hex(), came[at : at + 8].hex(), frozenset(cases))


def is_rule(case: str) -> bool:
    """Returns whether a case is one of a rule, and not a word, a mark, a defect or an origin."""
    return re.match(r"[0-9]\.|path\.", case) is not None
