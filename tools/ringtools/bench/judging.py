"""Compares what a ring of programs did with what is due, one settle step after the other."""

from __future__ import annotations

from collections.abc import Iterator, Sequence
from typing import NamedTuple

from ..benched import RULES
from ..shown import shown
from .due import Due, Said
from .schedule import Stretch

SAME, DIFFERS, SEEN, FAILED = "same", "differs", "seen", "failed"
PORTS_RULE = "5 to 7, interpreters, connections, deliveries"
Told = dict[str, object]


class Row(NamedTuple):
    """One record of a run: what was found and what is due. What is seen isn't compared, since nothing says what is due there."""

    round: int
    what: str
    name: str
    field: str
    found: str
    due: str
    verdict: str
    rule: str = ""


HEAD = tuple(name.capitalize() for name in Row._fields)


def verdict_of(found: object, due: object) -> str:
    return SAME if found == due else DIFFERS


def difference(found: Said, due: Said, now: int) -> tuple[str, str, str, str] | None:
    """Returns the first field in which a line differs, what it says, what is due, and the rule; None where it says what is due."""
    if found.fields is None:
        return "the line of the round", shown(found.first[:120]), due.first, ""
    wanted = {**(due.fields or {}), "round": str(now)}
    for key, name, rule in RULES:
        if found.fields[key] != wanted[key]:
            return name, found.fields[key], wanted[key], rule
    return None


def state_of(said: Said | None) -> str:
    return "none" if said is None or said.fields is None else said.fields["state"]


class Judge:
    """Takes in what the processes of a run tell, and gives the rows of a stretch as soon as all nodes have come to its end."""

    def __init__(self, due: Due, stretches: Sequence[Stretch], shows_all: bool) -> None:
        self.due, self.stretches, self.shows_all = due, list(stretches), shows_all
        self.size = due.plan.size
        self.said: dict[tuple[int, int], Said] = {}  # by round and position
        self.found: list[Said | None] = [None] * self.size  # what each node said last
        self.wanted: list[Said | None] = [None] * self.size
        self.marked: dict[int, int] = {}
        self.differences = 0

    def take(self, told: Told) -> Iterator[Row]:
        """Takes in what was told of a node, and yields the rows that are known by it."""
        text, now, at = told.get("mark") or told.get("change"), told["round"], told["at"]
        self.said[now, at] = Said.of(text)
        self.marked[now] = self.marked.get(now, 0) + ("mark" in told)
        while self.stretches and self.marked.get(self.stretches[0].last) == self.size:
            yield from self.counted(self.rows(self.stretches.pop(0)))

    def rest(self, last: int) -> Iterator[Row]:
        """Yields the rows of the lines up to a round, where the stretch didn't come to its end."""
        if self.stretches:
            first = self.stretches[0]
            yield from self.counted(sorted(self.lines(first, last)))

    def counted(self, rows: Iterator[Row] | list[Row]) -> Iterator[Row]:
        for row in rows:
            self.differences += row.verdict == DIFFERS
            yield row

    def rows(self, stretch: Stretch) -> Iterator[Row]:
        """Yields the rows of a stretch: what nodes did by rounds, and then what holds at its end."""
        yield from sorted(self.lines(stretch, stretch.last))
        yield from self.end_rows(stretch)
        self.said = {place: said for place, said in self.said.items() if place[0] > stretch.last}

    def lines(self, stretch: Stretch, last: int) -> Iterator[Row]:
        """Yields the rows of all nodes in the rounds of a stretch, up to one of them."""
        for at in range(self.size):
            rounds = {now for now, place in (*self.said, *self.due.lines) if place == at and stretch.first <= now <= last}
            has_differed = False
            for now in sorted(rounds):
                rows = list(self.line(stretch, now, at, has_differed))
                has_differed |= any(row.verdict == DIFFERS for row in rows)
                yield from rows

    def line(self, stretch: Stretch, now: int, at: int, has_differed: bool) -> Iterator[Row]:
        """Yields the rows of a node in a round in which its lines changed or were to change: of its first difference, its state and its ports."""
        before, wanted_before = self.found[at], self.wanted[at]
        found = self.found[at] = self.said.get((now, at), before)
        wanted = self.wanted[at] = self.due.lines.get((now, at), wanted_before)
        name = str(self.due.plan.ids[at])
        told_now = (now, at) in self.said
        other = found and wanted and difference(found, wanted, now if told_now else int(found.fields["round"]) if found.fields else now)
        states = state_of(found), state_of(wanted)
        if other and not has_differed:
            yield Row(now, "node", name, *other[:3], DIFFERS, other[3])
        if states != (state_of(before), state_of(wanted_before)) and not (other and not has_differed and other[0] == "the state"):
            yield Row(now, "node", name, "the state", *states, verdict_of(*states))
        yield from self.port_changes(stretch, now, before, found)

    def port_changes(self, stretch: Stretch, now: int, before: Said | None, found: Said | None) -> Iterator[Row]:
        """Yields a row for each port that delivers bytes from now on, or none any more. After the script none may change."""
        for name, delivers in found.ports.items() if found and before else ():
            kind, was = delivers.split(" ")[0], before.ports.get(name, "none").split(" ")[0]
            if kind != was and stretch.settle is not None:
                yield Row(now, "port", name, "delivers", kind, "", SEEN)
            elif kind != was:
                yield Row(now, "port", name, "delivers", kind, was, DIFFERS, PORTS_RULE)

    def end_rows(self, stretch: Stretch) -> Iterator[Row]:
        """Yields the rows of the last round of a stretch: what each port delivers and is owed, and how many nodes and ports are as is due."""
        due, found = self.due.ports(stretch), {}
        for at in range(self.size):
            found.update(self.said[stretch.last, at].ports)
        right = {name: found.get(name) == owed for name, owed in due.items()}
        for name, owed in due.items():
            verdict = (SAME,) if right[name] else (DIFFERS, PORTS_RULE)
            if self.shows_all or not right[name]:
                yield Row(stretch.last, "port", name, "delivers", found.get(name, "no line"), owed, *verdict)
        nodes = sum(difference(self.said[stretch.last, at], self.wanted[at], stretch.last) is None for at in range(self.size))
        name = str(stretch.settle or "after")
        yield Row(stretch.last, "settle", name, "nodes as due", str(nodes), str(self.size), verdict_of(nodes, self.size))
        yield Row(stretch.last, "settle", name, "ports as due", str(sum(right.values())), str(len(due)), verdict_of(sum(right.values()), len(due)))
