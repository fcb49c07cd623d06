"""Ways and slots for all circuits of a network at once, so that they fit in each ring beside what is in service.

Each circuit takes its best way first: the fewest rings, then the shortest. Where these don't all fit, circuits are put in one after the
other, each by the first of its ways that fits; in several orders, none of which is the table's. The order counts by which most fit.
"""

import hashlib
from collections.abc import Iterable
from dataclasses import dataclass, field

from ..slots import Laid, Search, Wanted, added, arcs_of, loads_of, spans_of
from .model import Network, Ring, key_of
from .room import Room
from .routing import Router, Way
from .tables import Wish

ORDERS = 8  # in which circuits are put in where not all have their best way
SHUFFLED = ORDERS - 3


@dataclass(frozen=True)
class Placed:
    """A circuit's section in one ring: what was wanted, and what it is called there where it is in service already."""

    customer: str
    wanted: Wanted
    circuit: str = ""


@dataclass
class RingLoad:
    """What a ring carries: sections in service first, and those that are put in; `laid` has a way and a slot for each."""

    ring: Ring
    slots: int
    placed: list[Placed] = field(default_factory=list)
    laid: tuple[Laid, ...] = ()

    def wanted(self) -> list[Wanted]:
        return [one.wanted for one in self.placed]

    def room(self) -> Room:
        return Room(self.ring, self.slots, self.laid)

    def copy(self) -> "RingLoad":
        return RingLoad(self.ring, self.slots, list(self.placed), self.laid)

    def add(self, one: Placed) -> bool:
        """Puts a section in, and says whether it fits; sections in service stay where they are, others may move."""
        laid = added(self.ring.size, self.slots, [*self.wanted(), one.wanted], self.laid)
        if laid is None:
            return False
        self.placed.append(one)
        self.laid = tuple(laid)
        return True

    def lay_all(self, more: list[Placed]) -> bool:
        """Puts all of these in at once, with a load that is small where that is easily found, and says whether they fit."""
        wanted = [*self.wanted(), *(one.wanted for one in more)]
        search = Search(self.ring.size, self.slots, wanted)
        if search.bound > self.slots:
            return False
        laid = next(
            (found for most in range(search.bound, self.slots + 1) if (found := search.quick(most)) is not None), None
        )
        if laid is None:
            return False
        self.placed, self.laid = [*self.placed, *more], tuple(laid)
        return True


@dataclass(frozen=True)
class Misfit:
    """A circuit that doesn't fit, and why, in words."""

    wish: Wish
    why: str


@dataclass
class Fitted:
    """The rings with all that fits, the way of each circuit by its name, and the circuits that don't fit."""

    loads: list[RingLoad]
    ways: dict[str, Way]
    misfits: list[Misfit]
    moved: int = 0  # circuits that don't have their best way


def ends_in(network: Network, wish: Wish, way: Way, place: int) -> tuple[Ring, int, int]:
    """The ring of a section, and the positions between which it leads, in the direction of the customer's `from` to his `to`."""
    stops, ring = (wish.start, *way.changes, wish.end), network.rings[way.rings[place]]
    return ring, ring.positions[key_of(stops[place])], ring.positions[key_of(stops[place + 1])]


def sections_of(network: Network, wish: Wish, way: Way) -> list[tuple[int, Placed]]:
    """The sections of a circuit on a way, each with its ring's number."""
    found = []
    for place in range(len(way.rings)):
        ring, start, end = ends_in(network, wish, way, place)
        found.append((ring.number, Placed(wish.name, Wanted(start, end, wish.direction, wish.slot))))
    return found


class Fitting:
    """Puts circuits into rings that carry what is in service."""

    def __init__(self, network: Network, loads: list[RingLoad], lengths: dict[tuple[int, int], float]):
        self.network, self.loads, self.router = network, loads, Router(network, lengths)

    def ways_of(self, wish: Wish) -> list[Way]:
        """The ways that a circuit may take, the best first. One with a direction or a slot of its own stays in one ring."""
        found = self.router.ways(wish.start, wish.end, wish.via)
        alone = [way for way in found if len(way.rings) == 1]
        if not found:
            by = f" by {', '.join(wish.via)}" if wish.via else ""
            raise wish.row.problem(f"no way leads from {wish.start} to {wish.end}{by}: {self.why_none(wish)}")
        if not (wish.direction or wish.slot):
            return found
        if not alone:
            names = " and ".join(self.network.rings[number].name for number in found[0].rings)
            raise wish.row.problem(
                f"`direction` and `slot` are those of one ring, and {wish.name} crosses {names}: leave them empty"
            )
        for way in alone:
            self.check_slot(wish, way)
        return alone

    def check_slot(self, wish: Wish, way: Way) -> None:
        load = self.loads[way.rings[0]]
        if wish.slot and wish.slot > load.slots:
            raise wish.row.problem(
                f"`slot` is {wish.slot}, and a span of ring {load.ring.name} has {load.slots} working slots"
            )

    def why_none(self, wish: Wish) -> str:
        if not self.router.ways(wish.start, wish.end):
            return "the rings of these places touch nowhere, not by others either"
        return "`via` names places where rings are changed, or rings, in the order from `from` to `to`"

    def fit(self, wishes: list[Wish]) -> Fitted:
        """Returns where all of these go; the answer is the same in whichever order they stand."""
        ways = {wish.name: self.ways_of(wish) for wish in sorted(wishes, key=lambda wish: wish.row.line)}
        wishes = sorted(wishes, key=lambda wish: (wish.name, wish.start, wish.end))
        first = self.at_once(wishes, ways)
        if first is not None:
            return first
        found = [self.one_by_one(order, ways) for order in orders_of(wishes, ways)]
        return min(
            found,
            key=lambda fitted: (len(fitted.misfits), fitted.moved, sum(way.length for way in fitted.ways.values())),
        )

    def at_once(self, wishes: list[Wish], ways: dict[str, list[Way]]) -> Fitted | None:
        """All circuits by their best ways, or None where a ring can't carry them."""
        loads, more = [load.copy() for load in self.loads], [
            [] for _ in self.loads
        ]  # type: list[RingLoad], list[list[Placed]]
        for wish in wishes:
            for number, placed in sections_of(self.network, wish, ways[wish.name][0]):
                more[number].append(placed)
        for load, new in zip(loads, more):
            if new and not load.lay_all(new):
                return None
        return Fitted(loads, {wish.name: ways[wish.name][0] for wish in wishes}, [])

    def one_by_one(self, wishes: Iterable[Wish], ways: dict[str, list[Way]]) -> Fitted:
        """Each circuit by the first of its ways that fits beside those before it."""
        fitted = Fitted([load.copy() for load in self.loads], {}, [])
        left = []
        for wish in wishes:
            way = next((way for way in ways[wish.name] if self.put(fitted.loads, wish, way)), None)
            if way is None:
                left.append(wish)
                continue
            fitted.ways[wish.name] = way
            fitted.moved += way is not ways[wish.name][0]
        fitted.misfits = [
            Misfit(wish, self.why(fitted.loads, wish, ways[wish.name][0]))
            for wish in sorted(left, key=lambda wish: wish.name)
        ]
        return fitted

    def put(self, loads: list[RingLoad], wish: Wish, way: Way) -> bool:
        """Puts all sections of a way in, or none."""
        begun: list[tuple[int, RingLoad]] = []
        for number, placed in sections_of(self.network, wish, way):
            before = loads[number].copy()
            if not loads[number].add(placed):
                for at, load in begun:
                    loads[at] = load
                return False
            begun.append((number, before))
        return True

    def why(self, loads: list[RingLoad], wish: Wish, way: Way) -> str:
        """Why a circuit doesn't fit by its best way: the first ring that is full, its full spans, and what still fits there."""
        for number, placed in sections_of(self.network, wish, way):
            load = loads[number]
            if not load.copy().add(placed):
                return f"in {load.ring.name} {full_words(load, placed.wanted)}; {load.room().words()}"
        return "its sections fit one by one and not together"


def full_words(load: RingLoad, wanted: Wanted) -> str:
    """For each way round, the first span that is full, or that no slot is free on all spans."""
    loads, found = loads_of(load.ring.size, load.laid), []
    for start, end in arcs_of(load.ring.size, wanted):
        way = "eastwards" if start == wanted.start else "westwards"
        full = [span for span in spans_of(load.ring.size, start, end) if loads[span] >= load.slots]
        slot = (
            f"slot {wanted.slot} is taken on some of its spans" if wanted.slot else "no slot is free on all its spans"
        )
        found.append(
            f"{way} {load.ring.span_name(full[0])} is full, with {load.slots} of {load.slots} slots taken"
            if full
            else f"{way} {slot}"
        )
    return "; ".join(found)


def shuffled(wishes: list[Wish], number: int) -> list[Wish]:
    """An order that hangs on names alone."""
    return sorted(wishes, key=lambda wish: hashlib.sha256(f"{number} {wish.name}".encode()).digest())


def orders_of(wishes: list[Wish], ways: dict[str, list[Way]]) -> list[list[Wish]]:
    """The orders in which circuits are put in: those with the longest way first, those with the shortest, those with the fewest ways, and some by chance."""
    length = lambda wish: (len(ways[wish.name][0].rings), ways[wish.name][0].length)
    found = [
        sorted(wishes, key=length, reverse=True),
        sorted(wishes, key=length),
        sorted(wishes, key=lambda wish: (len(ways[wish.name]), *length(wish))),
    ]
    return found + [shuffled(wishes, number) for number in range(SHUFFLED)]
