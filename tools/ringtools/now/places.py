"""Where an alarm is: a side of a node, a span, a fibre or a node, by the names of places or by identifiers, as people write them."""

from __future__ import annotations

import re
from dataclasses import dataclass

from ..failures import cut_by, span_named
from ..model import incoming
from ..plan import Plan

SIDE, SPAN, FIBRE, AT_NODE = "side", "span", "fibre", "node"
NO_NODE = "it names no node of the ring"
MOST = 16  # nodes that are found in a text
BEFORE = r"(?<![\w.:])(?<!\s[-+–−])(?<!^[-+–−])"  # a sign makes another number of it
AFTER = r"(?!\w|[.,:]\d)"
NODE_WORDS = "node|ne|site|knoten|station"
# Numbers that are no nodes: of shelves, of ports, of rates, and moments.
OTHERS = re.compile(
    r"(?<!\w)(?:(?:port|slot|card|shelf|rack|unit|board|line|channel|au|vc|stm|nr|no|id|alarm)[\s#:._/-]*\d+(?:[./-]\d+)*)(?!\w)"
    r"|\b\d{4}-\d\d-\d\d\b|\b\d{1,2}/\d{1,2}/\d{2,4}\b|\b\d{1,2}\.\d{1,2}\.(?:\d{2,4})?(?!\d)|\b\d{1,2}:\d\d(?::\d\d(?:\.\d+)?)?(?:z\b)?|\d{4}-\d\d-\d\dt[\d:.]+z?"
)
NUMBERED = (
    re.compile(rf"(?<!\w)(?:{NODE_WORDS})(?:[\s#:]*|-)([0-9]{{1,3}}){AFTER}"),
    re.compile(rf"{BEFORE}([0-9]{{1,3}})(?=\s*(?:-|–|—|->|<->|→|>|/|to|towards|nach)\s*(?:node |ne )?[0-9]{{1,3}}(?![\w.:]))"),
    re.compile(r"(?<=[0-9\x01])\s*(?:-|–|—|->|<->|→|>|/|to|towards|nach)\s*(?:node |ne )?([0-9]{1,3})(?![\w.:])"),
    re.compile(rf"{BEFORE}([0-9]{{1,3}})(?=\s*[-/ _]?(?:east|west|ost|e|w)(?!\w))"),
)
AFTER_NUMBER = re.compile(r"[0-9][\s/_.-]*$")
# What stands where the number of a node would, and is none: `node -1`, `node 1.5`, `node 2x`.
NO_NUMBER = re.compile(rf"(?<!\w)(?:{NODE_WORDS})[\s#:]*([^\s;,]*\d[^\s;,]*)")
MARK = "\x01"  # stands where a node was found
WAYS = {"east": "east", "e": "east", "ost": "east", "eastward": "east", "eastwards": "east", "west": "west", "w": "west", "westward": "west", "westwards": "west"}
WORD = re.compile(r"(?<!\w)(east(?:wards?)?|west(?:wards?)?|ost)(?!\w)")
LETTER = re.compile(rf"{MARK}[\s/_.-]*([ew])(?!\w)")
ARROW = re.compile(rf"{MARK}\s*(?:->|→|(?<!<-)>)\s*{MARK}")
WHOLE = re.compile(rf"(?<!\w)(?:span|link|section|strecke)(?!\w)|{MARK}\s*(?:-|–|—|/|<->)\s*{MARK}")
TOWARDS = re.compile(rf"(?<!\w)(?:to|towards|nach|von|from)\s+(?!{MARK})(?:node |ne )?(?!(?:the )?(?:{MARK}|east|west|ost|restore))(\w+)")


class NoPlace(Exception):
    """A text names no place of the ring, or more than one."""


@dataclass(frozen=True)
class Place:
    """A side of a node; or a span as a whole, a fibre by the side that it leaves, or a node."""

    kind: str
    at: int
    side: str = ""

    def fibres(self, plan: Plan, leaves: bool = False) -> tuple[tuple[int, str], ...]:
        """Returns the fibres that an alarm here is about: of a side the one that arrives there, or the one that leaves it."""
        if self.kind == SIDE:
            return ((self.at, self.side) if leaves else incoming(plan, self.at, self.side),)
        return cut_by(plan, self.kind, self.at, self.side)

    def words(self, plan: Plan) -> str:
        if self.kind == SPAN:
            return f"span {plan.span_title(self.at)}"
        if self.kind == AT_NODE:
            return f"node {plan.node_name(self.at)}"
        there = plan.node_name(plan.neighbour(self.at, self.side))
        return f"fibre {plan.node_name(self.at)} → {there}" if self.kind == FIBRE else f"{plan.node_name(self.at)} {self.side}, towards {there}"


def put(found: list[tuple[int, int, int]], begin: int, end: int, at: int) -> None:
    """Adds a node that a text names from one letter to another, unless a longer name stands there. A text that names very many isn't gone through."""
    if len(found) > MOST:
        raise NoPlace("it names more than two nodes")
    if not any(begin < other[1] and other[0] < end for other in found):
        found.append((begin, end, at))


def check_letters(text: str, named: list[tuple[int, int]]) -> None:
    """Raises NoPlace where the name of a place is a side's letter too, and stands where a side would: after a number, or right after a place."""
    for begin, end in named:
        word, before = text[begin:end], text[:begin]
        if word in WAYS and (AFTER_NUMBER.search(before) or any(other == len(before.rstrip(" _")) for _, other in named)):
            raise NoPlace(f"`{word}` may be the place of that name, or the side {WAYS[word]}: write the side as a word, and the node by its number")


class Finder:
    """Finds places in texts in small letters."""

    def __init__(self, plan: Plan):
        self.plan = plan
        named = {plan.places.nodes[number].casefold(): at for at, number in enumerate(plan.ids) if number in plan.places.nodes}
        self.named = [(re.compile(rf"(?<!\w){re.escape(name)}(?!\w)"), at) for name, at in sorted(named.items(), key=lambda one: -len(one[0]))]

    def marked(self, text: str) -> tuple[str, list[int]]:
        """Returns the text with a mark in place of each node, and the nodes in their order."""
        found: list[tuple[int, int, int]] = []
        for pattern, at in self.named:
            for match in pattern.finditer(text):
                put(found, *match.span(), at)
        check_letters(text, [(begin, end) for begin, end, _ in found])
        shown = list(text)
        for begin, end, _ in found:
            shown[begin:end] = MARK * (end - begin)
        for pattern in NUMBERED:
            for match in pattern.finditer("".join(shown)):
                put(found, *match.span(1), self.at(int(match[1])))
        found.sort()
        for begin, end, _ in reversed(found):
            text = f"{text[:begin]}{MARK}{text[end:]}"
        if wrong := NO_NUMBER.search(text):
            raise NoPlace(f"`{wrong[1].replace(MARK, '..')}` is no node of the ring")
        return re.sub(rf"(?<!\w)(?:{NODE_WORDS})[\s#:-]*(?=\x01)", "", text), [at for *_, at in found]

    def at(self, number: int) -> int:
        if number not in self.plan.ids:
            raise NoPlace(f"`{number}` is no node of the ring")
        return self.plan.ids.index(number)

    def find(self, text: str) -> Place:
        """Returns where a text says that an alarm is. Raises NoPlace."""
        text, nodes = self.marked(OTHERS.sub(" ", text))
        distinct = list(dict.fromkeys(nodes))
        if not distinct:
            raise NoPlace(NO_NODE)
        if len(distinct) > 2:
            raise NoPlace("it names more than two nodes")
        if len(distinct) == 1 and (other := TOWARDS.search(text)):
            raise NoPlace(f"`{other[1]}` is no node of the ring")
        sides = {WAYS[found] for found in [*WORD.findall(text), *LETTER.findall(text)]}
        if len(sides) > 1:
            raise NoPlace("it names both sides")
        return self.of_one(distinct[0], sides) if len(distinct) == 1 else self.of_two(text, *distinct, sides)

    def of_one(self, at: int, sides: set[str]) -> Place:
        return Place(SIDE, at, *sides) if sides else Place(AT_NODE, at)

    def of_two(self, text: str, near: int, far: int, sides: set[str]) -> Place:
        """A span by its ends, or a side of the first that leads to the second."""
        plan, name = self.plan, self.plan.node_name
        ways = {side for side in ("west", "east") if plan.neighbour(near, side) == far}
        if not ways:
            raise NoPlace(f"no span joins {name(near)} and {name(far)}")
        if sides and not sides & ways:
            raise NoPlace(f"{name(far)} isn't {sides.pop()} of {name(near)}")
        if len(ways) > 1 and not sides:
            raise NoPlace(f"both spans join {name(near)} and {name(far)}: name a side, east or west")
        side = (sides or ways).pop()
        if ARROW.search(text):
            return Place(FIBRE, near, side)
        span = plan.span(near, side) if plan.size == 2 else span_named(plan, plan.ids[near], plan.ids[far])
        return Place(SPAN, span) if WHOLE.search(text) and not sides else Place(SIDE, near, side)
