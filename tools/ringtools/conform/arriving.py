"""What arrives at a node on the bench: frames of a neighbour that sends what it is told to, right or wrong, and streams of records."""

from __future__ import annotations

import json
import random
from collections.abc import Iterator
from dataclasses import dataclass, field

from .node import CHUNK, COLUMNS, EAST, IDLE, LONG, NR, SHORT, WEST, b1_of, b2_of, clear_frame, turned

Word = tuple[int, int, int, int, int]
END = b"end of plan\n"


@dataclass
class Plan:
    """A ring, its circuits and its settings."""

    rate: int
    nodes: tuple[int, ...]
    circuits: list[dict] = field(default_factory=list)
    threshold: int = 3
    wait: int = 10

    def as_read(self) -> dict:
        """Returns the plan as its document is read."""
        return {"rate": self.rate, "nodes": list(self.nodes), "circuit": self.circuits, "threshold": self.threshold, "wait": self.wait}

    def document(self) -> bytes:
        """Returns the plan's document."""
        lines = [f"rate = {self.rate}", f"nodes = {list(self.nodes)}", f"threshold = {self.threshold}", f"wait = {self.wait}", "limit = 1000", 'script = ["settle"]']
        for circuit in self.circuits:
            lines += ["", "[[circuit]]", *(f"{key} = {json.dumps(value)}" for key, value in circuit.items())]
        return "\n".join([*lines, ""]).encode()


def circuit(plan: Plan, first: int, last: int, slot: int, **more) -> None:
    """Adds a circuit between two positions, with texts by which each of its ports is known."""
    number = len(plan.circuits)
    made = {"name": f"c{number}", "from": plan.nodes[first], "to": plan.nodes[last], "slot": slot, "text_a": f"{number} to the east {slot} ", "text_b": f"{number} to the west {slot} "}
    plan.circuits.append(made | more)


@dataclass
class Neighbour:
    """One neighbour of the node: the word, the pointers and the payloads that it sends."""

    plan: Plan
    word: Word
    dice: random.Random
    is_new: bool = True  # the next pointer words bring new data

    def __post_init__(self) -> None:
        n = self.plan.rate
        self.parities = 0, bytes(3 * n)
        self.values = [self.dice.randrange(783) for _ in range(n)]
        self.payloads = [self.dice.randbytes(CHUNK) for _ in range(n)]
        self.pointers: dict[int, int] = {}  # words that stand in place of those by `values`, for one frame

    def leaves(self) -> list:
        """Returns each AU-4 of the next frame with what it has."""
        base = 0x9800 if self.is_new else 0x6800
        words = {au: self.pointers.get(au, base | value) for au, value in enumerate(self.values)}
        return [(au, word, self.payloads[au], bytes([au, 0x55, 0xAA])) for au, word in words.items()]

    def frame(self, wrong: int = 0, flips: tuple = (), after: tuple = (), is_close: bool = False) -> bytes:
        """Returns the next frame. `wrong` bits of its B2 are inverted, where they are close eight in a byte, `flips` are bytes and bits of it before its parities are taken, `after` those on the line."""
        n = self.plan.rate
        clear = bytearray(clear_frame(n, self.parities, self.word, self.leaves()))
        for at, bits in flips:
            clear[at] ^= bits
        line = turned(n, bytes(clear))
        self.parities = b1_of(line), b2_of(n, bytes(clear))
        sent, fifth = bytearray(line), 4 * COLUMNS * n
        for bit in range(wrong):
            at, place = divmod(bit, 8) if is_close else (bit % (3 * n), bit // (3 * n))
            sent[fifth + at] ^= 1 << place
        for at, bits in after:
            sent[at] ^= bits
        self.is_new, self.pointers = False, {}
        return bytes(sent)


@dataclass
class Stream:
    """Records for one node, with the reason why they are given."""

    name: str
    why: str
    plan: Plan
    node: int
    key: tuple[str, int] = ("", 0)  # its group, and its number there
    records: list = field(default_factory=list)  # words of a record as a text, or what came on both sides in a round

    def rounds(self) -> int:
        """Returns the number of its rounds."""
        return sum(not isinstance(record, str) for record in self.records)

    def parts(self) -> Iterator[bytes]:
        """Gives the bytes of the document, and then those up to and with each round, and those after the last."""
        kept = self.plan.document() + END
        for record in self.records:
            if isinstance(record, str):
                kept += record.encode() + b"\n"
                continue
            said = " ".join("frame" if isinstance(came, bytes) else came for came in record)
            yield kept + f"round {said}\n".encode() + b"".join(came for came in record if isinstance(came, bytes))
            kept = b""
        if kept:
            yield kept

    def front(self, rounds: int) -> bytes:
        """Returns the stream up to and with this number of rounds."""
        return b"".join(part for _, part in zip(range(rounds), self.parts()))


class Making:
    """A stream that is being made: a node with two neighbours."""

    def __init__(self, name: str, why: str, plan: Plan, position: int) -> None:
        self.stream = Stream(name, why, plan, plan.nodes[position])
        self.plan, self.p, self.dice = plan, position, random.Random(name)
        n, nodes = len(plan.nodes), plan.nodes
        self.me, self.ids = nodes[position], (nodes[position - 1], nodes[(position + 1) % n])
        self.sides = [Neighbour(plan, self.short(d, NR), self.dice) for d in (WEST, EAST)]
        self.moment = 0

    def short(self, d: int, code: int, mark: int = IDLE) -> Word:
        """Returns the short word of the neighbour on a side."""
        return code, self.me, self.ids[d], SHORT, mark

    def long(self, d: int, code: int, source: int | None = None, mark: int = IDLE) -> Word:
        """Returns the long word of the neighbour on the other side, or of another source, that comes on this side to the node itself."""
        return code, self.me, self.ids[1 - d] if source is None else source, LONG, mark

    def say(self, record: str) -> None:
        self.stream.records.append(record)

    def pass_time(self, more: int) -> None:
        """Sets the present moment forward."""
        self.moment += more
        self.say(f"moment {self.moment}")

    def arrival(self, d: int, kind: str) -> bytes | str:
        """Returns what comes on a side: by a word of `KINDS`."""
        if kind in ("none", "dark"):
            self.sides[d].is_new = True
            return kind
        return KINDS[kind](self.sides[d], self.plan)

    def round(self, west: str | bytes = "frame", east: str | bytes = "frame", count: int = 1) -> None:
        """Runs rounds."""
        for _ in range(count):
            came = tuple(one if isinstance(one, bytes) else self.arrival(d, one) for d, one in ((WEST, west), (EAST, east)))
            self.stream.records.append(came)

    def words(self, west: Word, east: Word) -> None:
        """Sets the words of both neighbours."""
        self.sides[WEST].word, self.sides[EAST].word = west, east

    def idle(self) -> None:
        """Sets them to those of a ring without requests."""
        self.words(self.short(WEST, NR), self.short(EAST, NR))

    def begin(self, rounds: int = 3) -> None:
        """Runs the first rounds of a ring without requests."""
        self.round("none", "none")
        self.round(count=rounds)


def unframed(side: Neighbour, plan: Plan) -> bytes:
    side.is_new = True
    return side.frame(after=((side.dice.choice((0, 3 * plan.rate - 1, 3 * plan.rate, 6 * plan.rate - 1)), 1 << side.dice.randrange(8)),))


def ms_ais(side: Neighbour, plan: Plan) -> bytes:
    word, side.word = side.word, (*side.word[:4], 7)
    made = side.frame()
    side.word = word
    return made


def noise(side: Neighbour, plan: Plan) -> bytes:
    side.is_new = True
    made = side.frame()
    return made[: 6 * plan.rate] + side.dice.randbytes(len(made) - 6 * plan.rate)


KINDS = {
    "frame": lambda side, plan: side.frame(),
    "degraded": lambda side, plan: side.frame(wrong=plan.threshold),
    "nearly": lambda side, plan: side.frame(wrong=plan.threshold - 1),
    "unframed": unframed,
    "ms-ais": ms_ais,
    "noise": noise,
}
