"""What one ring adds to the answer about a network: its components alone, and each two of which one touches no other ring.

The law: a customer is lost where one of his sections is lost in its ring, by the failures that touch that ring. A place where he changes
rings is an end of two sections, so each of them is lost with it. Two failures in different rings are two cases of one failure.
"""

import re
from collections.abc import Iterable, Iterator
from dataclasses import dataclass, field
from pathlib import Path
from typing import Any

from ..files import found_in, read_input
from .asking import NOTHING, Asker, Fate, RingCases
from .components import Component
from .model import Kind, Network, Ring

RESTS = re.compile(rb'^script = \[\s*(?:#[^\n]*\s*|"settle",?\s*)+\]', re.M)
Hist = dict[
    int, list[Any]
]  # by a number of customers: how many cases have it, and the names of the first one's failures


@dataclass(frozen=True)
class Measure:
    """Which lost customers are counted: all or those of these names, and with or without those that end at a lost place of the case."""

    names: tuple[str, ...] = ()
    besides: bool = False


ALL = Measure()


@dataclass
class Base:
    """What the plans' scripts leave, if anything: customers that are lost, impaired or over protection where nothing more fails."""

    lost: set[int] = field(default_factory=set)
    impaired: set[int] = field(default_factory=set)
    over: set[int] = field(default_factory=set)


def rests(data: bytes) -> bool:
    """Whether a plan's script does nothing but settle, as far as its text shows without being read; where it doesn't, the plan is asked about."""
    return RESTS.search(data) is not None


def base_of(asker: Asker, folder: Path) -> Base:
    """Returns what the scripts of all rings leave. Only rings whose script does something are asked about."""
    base = Base()
    for ring in asker.network.rings:
        if rests(read_input(found_in(folder, ring.file))):
            continue
        cases = asker.singles(ring)
        for mask, found in zip(
            (cases.nothing.lost, cases.nothing.impaired, cases.nothing.over), (base.lost, base.impaired, base.over)
        ):
            found.update(asker.customers_of(cases, mask))
    base.impaired -= base.lost
    base.over -= base.lost | base.impaired
    return base


@dataclass(frozen=True)
class Here:
    """A component as a ring sees it: its number there, and what it does elsewhere."""

    component: Component
    number: int
    shared: int  # its number among the shared components, -1 where it touches this ring alone
    fate: Fate
    elsewhere: int  # customers with a section here that are lost in another ring with it
    ends: int  # customers with a section here that end at a place of it, in whichever ring
    outside: tuple[int, ...] = ()  # by measure: how many customers without a section here it adds to the lost ones

    @property
    def lost(self) -> int:
        return self.fate.lost | self.elsewhere


class Counter:
    """Counts for each bit in how many numbers it is set, in binary digits across."""

    def __init__(self) -> None:
        self.digits: list[int] = []

    def add(self, mask: int) -> None:
        for place, digit in enumerate(self.digits):
            if not mask:
                return
            self.digits[place], mask = digit ^ mask, digit & mask
        if mask:
            self.digits.append(mask)

    def count(self, bit: int) -> int:
        return sum(1 << place for place, digit in enumerate(self.digits) if digit >> bit & 1)


class Ends:
    """The customers that end at each node, found by ring and position."""

    def __init__(self, network: Network):
        self.network = network

    def of(self, component: Component) -> set[int]:
        """The customers that end at a node that is lost with a component."""
        nodes = ((part.ring, part.at) for part in component.parts if part.kind is Kind.PLACE)
        return {number for node in nodes for number in self.network.ending.get(node, ())}


class RingWork:
    """The cases of one ring beside what is lost elsewhere."""

    def __init__(self, asker: Asker, ring: Ring, base: Base, ends: Ends, measures: tuple[Measure, ...]):
        self.asker, self.ring, self.base, self.ends, self.measures = asker, ring, base, ends, measures
        self.network = asker.network
        self.cases: RingCases = asker.cases(ring, "double")
        sections = self.network.sections_in[ring.number]
        self.customers = [sections[circuit.name][0] for circuit in self.cases.plan.circuits]
        self.bits = {customer: 1 << bit for bit, customer in enumerate(self.customers)}
        self.before = self.mask(base.lost)
        named = [set(measure.names) for measure in measures]
        self.allowed = [
            self.mask(number for number in self.bits if not names or self.network.customers[number].name in names)
            for names in named
        ]
        self.named = named
        self.here = list(self.found())

    def mask(self, customers: Iterable[int]) -> int:
        """These customers' sections here, as bits."""
        found = 0
        for customer in customers:
            found |= self.bits.get(customer, 0)
        return found

    def who(self, mask: int) -> list[int]:
        """The customers of these bits, in the order of their numbers."""
        found = []
        while mask:
            low = mask & -mask
            found.append(self.customers[low.bit_length() - 1])
            mask ^= low
        return sorted(found)

    def found(self) -> Iterator[Here]:
        """Yields the components that touch this ring and may fail in it, its own first."""
        components = self.asker.components
        shared = [(number, components.shared[number]) for number in components.touching[self.ring.number]]
        for number, one in [*((-1, one) for one in components.of_ring(self.ring)), *shared]:
            place = self.cases.number(one.within(self.ring.number))
            fate = self.cases.fate(place)
            if fate is None:
                continue
            away = self.lost_elsewhere(one) if number >= 0 else set()
            ending = self.ends.of(one)
            outside = self.outside(away, ending)
            yield Here(one, place, number, fate, self.mask(away), self.mask(ending), outside)

    def lost_elsewhere(self, one: Component) -> set[int]:
        """The customers that a component loses in other rings."""
        found: set[int] = set()
        for number in one.rings:
            if number != self.ring.number:
                cases = self.asker.singles(self.network.rings[number])
                fate = cases.fate(cases.number(one.within(number)))
                found.update(self.asker.customers_of(cases, (fate or NOTHING).lost))
        return found

    def outside(self, away: set[int], ending: set[int]) -> tuple[int, ...]:
        """By measure, how many customers without a section here are lost besides those that are lost anyway."""
        found = []
        for measure, names in zip(self.measures, self.named):
            counts = lambda number: number not in self.bits and (
                not names or self.network.customers[number].name in names
            )
            more = sum(
                counts(number) and not (measure.besides and number in ending) for number in away - self.base.lost
            )
            found.append(more - (sum(map(counts, self.base.lost & ending)) if measure.besides else 0))
        return tuple(found)

    def more(self, lost: int, ones: tuple[Here, ...], place: int) -> int:
        """By how many a measure counts more lost customers than with nothing more, where these are lost here."""
        allowed = self.allowed[place]
        if self.measures[place].besides:
            for one in ones:
                allowed &= ~one.ends
        here = ((lost | self.before) & allowed).bit_count() - (self.before & self.allowed[place]).bit_count()
        return here + sum(one.outside[place] for one in ones)

    def size(self, one: Here, place: int) -> int:
        return self.more(one.lost, (one,), place)

    def result(self, rows: bool) -> dict[str, Any]:
        """All that this ring adds, in a form that JSON keeps."""
        found = PairCounts(self, rows)
        for at, one in enumerate(self.here):
            for other in self.here[at + 1 :]:
                found.add(one, other)
        own = [one for one in self.here if one.shared < 0]
        singles = [self.single(one, rows) for one in own]
        return {
            "ring": self.ring.number,
            "kinds": {kind.value: count for kind in Kind if (count := sum(one.component.kind is kind for one in own))},
            "singles": [one for one in singles if one],
            "shared": [
                [one.shared, *(self.who(mask) for mask in (one.fate.lost, one.fate.impaired, one.fate.over))]
                for one in self.here
                if one.shared >= 0
            ],
            "nothing": [
                self.who(mask)
                for mask in (self.cases.nothing.lost, self.cases.nothing.impaired, self.cases.nothing.over)
            ],
            **found.result(),
        }

    def single(self, one: Here, rows: bool) -> list[Any] | None:
        """A component of this ring alone: kind, name, sizes by measure, and who is lost, impaired, over protection; None where it needs no record."""
        lost = one.fate.lost & ~self.before
        sizes = [self.size(one, place) for place in range(len(self.measures))]
        if not rows and not lost and not any(sizes):
            return None
        over = self.who(one.fate.over) if rows else []
        return [
            one.component.kind.value,
            one.component.name,
            sizes,
            self.who(lost),
            self.who(one.fate.impaired),
            over,
            self.who(one.ends),
        ]


class PairCounts:
    """Counts of the pairs of a ring's components: by measure and kinds how many lose how many; and who is lost by two where neither alone is enough."""

    def __init__(self, work: RingWork, rows: bool):
        self.work, self.rows_wanted = work, rows
        self.exact: dict[tuple[int, str], Hist] = {}
        self.plain: dict[tuple[int, str], dict[int, int]] = {}
        self.joint, self.rows, self.between = Counter(), [], []  # type: Counter, list[list[Any]], list[list[Any]]
        self.impairing: dict[str, list[int]] = {}
        self.sizes = [[work.size(one, place) for place in range(len(work.measures))] for one in work.here]
        self.at = {id(one): at for at, one in enumerate(work.here)}

    def add(self, one: Here, other: Here) -> None:
        """Counts a pair. Two components that both touch other rings too are only noted with whom they lose here together."""
        fate = self.work.cases.fate(one.number, other.number)
        if fate is None:
            return
        lost = fate.lost | one.elsewhere | other.elsewhere
        joint = lost & ~(one.lost | other.lost | self.work.before)
        impaired = fate.impaired & ~(one.fate.impaired | other.fate.impaired | lost | self.work.before)
        if one.shared >= 0 and other.shared >= 0:
            if joint or impaired:
                self.between.append([one.shared, other.shared, self.work.who(joint), self.work.who(impaired)])
            return
        self.joint.add(joint)
        names = [one.component.name, other.component.name]
        kinds = kinds_of(one.component.kind, other.component.kind)
        self.count(one, other, lost, kinds, names)
        if impaired:
            count = self.impairing.setdefault(kinds, [0, 0])
            count[0] += 1
            count[1] = max(count[1], impaired.bit_count())
        if self.rows_wanted and (joint or impaired):
            self.rows.append(
                [names, kinds, self.work.more(lost, (one, other), 0), self.work.who(joint), self.work.who(impaired)]
            )

    def count(self, one: Here, other: Here, lost: int, kinds: str, names: list[str]) -> None:
        sizes = zip(self.sizes[self.at[id(one)]], self.sizes[self.at[id(other)]])
        for place, (first, second) in enumerate(sizes):
            more = self.work.more(lost, (one, other), place)
            entry = self.exact.setdefault((place, kinds), {}).setdefault(more, [0, names])
            entry[0] += 1
            plain = self.plain.setdefault((place, kinds), {})
            plain[first + second] = plain.get(first + second, 0) + 1

    def result(self) -> dict[str, Any]:
        listed = lambda found: [[place, kinds, sorted(counts.items())] for (place, kinds), counts in found.items()]
        counts = [
            [customer, count] for bit, customer in enumerate(self.work.customers) if (count := self.joint.count(bit))
        ]
        return {
            "exact": listed(self.exact),
            "plain": listed(self.plain),
            "joint": counts,
            "between": self.between,
            "impairing": sorted(self.impairing.items()),
            "rows": self.rows,
        }


ORDER = {kind: place for place, kind in enumerate(Kind)}


def kinds_of(*kinds: Kind) -> str:
    """The kinds of a case in one order, whichever failed first: as `fibre+span`."""
    return "+".join(kind.value for kind in sorted(kinds, key=ORDER.__getitem__))
