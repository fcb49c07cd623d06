"""The answer about a whole network, put together from its rings: each component alone, and each two, none left out.

Of all pairs most touch no ring together and have no customer in common. Then as many are lost as by both alone, so that such pairs are
counted by their sums and not one by one. The others are counted one by one: in their ring, or here by the customers that both lose.
"""

import heapq
from collections import Counter, defaultdict
from collections.abc import Iterable, Iterator
from dataclasses import dataclass, field
from functools import cached_property
from itertools import combinations
from typing import Any

from .components import Component, Components
from .model import Kind, Network
from .ringwork import ALL, Base, Ends, Measure, kinds_of


@dataclass
class Single:
    """A component with who is lost with it alone, besides those that are lost anyway; `sizes` has the counts by measure."""

    kind: Kind
    name: str
    rings: tuple[int, ...]
    shared: int
    sizes: list[int]
    lost: frozenset[int]
    impaired: frozenset[int] = frozenset()
    over: frozenset[int] = frozenset()
    ends: frozenset[int] = frozenset()


@dataclass
class Count:
    """How many cases lose how many customers, and the failures of the first case for each number."""

    cases: dict[int, int] = field(default_factory=dict)
    examples: dict[int, tuple[str, ...]] = field(default_factory=dict)

    def add(self, more: int, count: int, names: Iterable[str] = ()) -> None:
        self.cases[more] = self.cases.get(more, 0) + count
        if names and count > 0 and more not in self.examples:
            self.examples[more] = tuple(names)

    @property
    def total(self) -> int:
        return sum(self.cases.values())

    def most(self) -> int:
        """The most customers that a case loses, besides those that are lost anyway."""
        return max((more for more, count in self.cases.items() if count), default=0)

    def above(self, most: int) -> int:
        return sum(count for more, count in self.cases.items() if more > most)


class Joined:
    """The results of all rings, in the order of the rings."""

    def __init__(
        self,
        network: Network,
        components: Components,
        base: Base,
        measures: tuple[Measure, ...],
        results: list[dict[str, Any]],
    ):
        self.network, self.components, self.base, self.measures, self.results = (
            network,
            components,
            base,
            measures,
            results,
        )
        self.ends = Ends(network)
        self.between = self.joint_between()
        self.own = [single for result in results for single in self.singles_of(result)]
        self.shared = list(self.shared_singles())
        self.kinds = Counter({kind: sum(result["kinds"].get(kind.value, 0) for result in results) for kind in Kind})
        self.kinds.update(single.kind for single in self.shared)

    def singles_of(self, result: dict[str, Any]) -> Iterator[Single]:
        for kind, name, sizes, lost, impaired, over, ends in result["singles"]:
            gone = frozenset(lost)
            left = frozenset(impaired) - gone - self.base.lost
            yield Single(
                Kind(kind),
                name,
                (result["ring"],),
                -1,
                sizes,
                gone,
                left,
                frozenset(over) - gone - left - self.base.lost,
                frozenset(ends),
            )

    def joint_between(self) -> dict[tuple[int, int], tuple[set[int], set[int]]]:
        """By two shared components, who is lost and who impaired in some ring by both where neither alone is enough there."""
        found: dict[tuple[int, int], tuple[set[int], set[int]]] = {}
        for result in self.results:
            for one, other, lost, impaired in result["between"]:
                sets = found.setdefault((one, other), (set(), set()))
                sets[0].update(lost)
                sets[1].update(impaired)
        return found

    def shared_singles(self) -> Iterator[Single]:
        """The shared components alone: who is lost in any of their rings."""
        fates: dict[int, list[set[int]]] = defaultdict(lambda: [set(), set(), set()])
        for result in self.results:
            for number, *sets in result["shared"]:
                for found, more in zip(fates[number], sets):
                    found.update(more)
        for number, component in enumerate(self.components.shared):
            lost, impaired, over = fates[number]
            lost -= self.base.lost
            impaired -= lost | self.base.lost
            over -= lost | impaired | self.base.lost
            ends = self.ends.of(component)
            sizes = [self.size(measure, lost, ends) for measure in self.measures]
            yield Single(
                component.kind,
                component.name,
                component.rings,
                number,
                sizes,
                frozenset(lost),
                frozenset(impaired),
                frozenset(over),
                frozenset(ends),
            )

    def size(self, measure: Measure, lost: Iterable[int], ends: Iterable[int]) -> int:
        """By how many a measure counts more lost customers than with nothing more."""
        names, gone, ending = set(measure.names), set(lost), set(ends)
        counts = lambda number: not names or self.network.customers[number].name in names
        if not measure.besides:
            return sum(map(counts, gone))
        return sum(map(counts, gone - ending)) - sum(map(counts, self.base.lost & ending))

    def lost_before(self, measure: Measure) -> int:
        """How many are lost anyway, of those that are counted."""
        return sum(
            not measure.names or self.network.customers[number].name in measure.names for number in self.base.lost
        )

    @property
    def singles(self) -> list[Single]:
        """The components that have a record, those of one ring first."""
        return self.own + self.shared

    def alone(self, measure: Measure = ALL) -> dict[str, Count]:
        """By kind, how many components alone lose how many."""
        place, found = self.measures.index(measure), {kind.value: Count() for kind in Kind if self.kinds[kind]}
        seen: Counter[Kind] = Counter()
        for single in self.singles:
            found[single.kind.value].add(single.sizes[place], 1, (single.name,))
            seen[single.kind] += 1
        for kind in Kind:
            if left := self.kinds[kind] - seen[kind]:
                found[kind.value].add(0, left)
        return found

    @cached_property
    def special(self) -> dict[tuple[int, int], tuple[set[int], set[int]]]:
        """Pairs, by their numbers among `singles`, that are counted here one by one: they lose a customer together, or have one in common, and no ring has counted them."""
        first = len(self.own)
        found: dict[tuple[int, int], tuple[set[int], set[int]]] = {
            (first + one, first + other): sets for (one, other), sets in self.between.items()
        }
        touched: dict[int, list[int]] = defaultdict(list)
        for number, single in enumerate(self.singles):
            for customer in single.lost | (single.ends & self.base.lost):
                touched[customer].append(number)
        for numbers in touched.values():
            for pair in combinations(numbers, 2):
                if pair not in found and not self.is_counted(*pair):
                    found[pair] = (set(), set())
        return found

    def is_counted(self, one: int, other: int) -> bool:
        """Whether a ring has counted this pair: both touch it, and one of them touches no other."""
        first, second = self.singles[one], self.singles[other]
        return (first.shared < 0 or second.shared < 0) and bool(set(first.rings) & set(second.rings))

    def doubles(self, measure: Measure = ALL) -> dict[str, Count]:
        """By kinds, how many pairs of components lose how many, all pairs of the network."""
        place, found = self.measures.index(measure), self.by_sums(measure)
        for result in self.results:
            for at, kinds, counts in result["plain"]:
                for more, count in counts if at == place else ():
                    found[kinds].add(more, -count)
            for at, kinds, entries in result["exact"]:
                for more, (count, names) in entries if at == place else ():
                    found[kinds].add(more, count, names)
        for (one, other), (joint, _) in self.special.items():
            first, second = self.singles[one], self.singles[other]
            kinds = kinds_of(first.kind, second.kind)
            found[kinds].add(first.sizes[place] + second.sizes[place], -1)
            more = self.size(measure, first.lost | second.lost | joint, first.ends | second.ends)
            found[kinds].add(more, 1, (first.name, second.name))
        for kinds, count in found.items():
            self.put_example(count, kinds, place)
        return {kinds: count for kinds, count in found.items() if count.total}

    def by_sums(self, measure: Measure) -> dict[str, Count]:
        """All pairs as if they touched no ring together and had no customer in common."""
        alone, kinds, found = self.alone(measure), [kind for kind in Kind if self.kinds[kind]], {}
        for at, one in enumerate(kinds):
            for other in kinds[at:]:
                count = Count()
                for first, times in alone[one.value].cases.items():
                    for second, others in alone[other.value].cases.items():
                        if one is not other:
                            count.add(first + second, times * others)
                        elif first == second:
                            count.add(first + second, times * (times - 1) // 2)
                        elif first < second:
                            count.add(first + second, times * others)
                found[kinds_of(one, other)] = count
        return found

    def put_example(self, count: Count, kinds: str, place: int) -> None:
        """Names a pair with the largest number of lost customers where no ring and no common customer has shown one."""
        most = count.most()
        if most in count.examples or most <= 0:
            return
        one, _, other = kinds.partition("+")
        of = lambda kind: sorted(
            (number for number, single in enumerate(self.singles) if single.kind.value == kind),
            key=lambda number: (-self.singles[number].sizes[place], number),
        )
        if pair := self.first_of(of(one), of(other), place, most, one == other):
            count.examples[most] = tuple(self.singles[number].name for number in pair)

    def first_of(self, ones: list[int], others: list[int], place: int, most: int, same: bool) -> tuple[int, int] | None:
        """The first pair of this sum that is counted by sums, the largest components first."""
        size = lambda number: self.singles[number].sizes[place]
        heap = [(-size(one) - size(others[0]), at, 0) for at, one in enumerate(ones)] if others else []
        heapq.heapify(heap)
        while heap:
            total, at, beside = heapq.heappop(heap)
            if -total < most:
                return None
            one, other = ones[at], others[beside]
            pair = min(one, other), max(one, other)
            if -total == most and one != other and pair not in self.special and not self.is_counted(*pair):
                return pair
            if beside + 1 < len(others):
                heapq.heappush(heap, (-size(one) - size(others[beside + 1]), at, beside + 1))
        return None

    def impairing(self) -> dict[str, tuple[int, int]]:
        """By kinds, in how many pairs of one ring customers are impaired that neither failure alone impairs, and the most of them."""
        found: dict[str, tuple[int, int]] = {}
        for result in self.results:
            for kinds, (count, most) in result["impairing"]:
                before = found.get(kinds, (0, 0))
                found[kinds] = before[0] + count, max(before[1], most)
        for (one, other), (lost, impaired) in self.between.items():
            if left := impaired - lost - self.shared[one].lost - self.shared[other].lost - self.base.lost:
                kinds = kinds_of(self.shared[one].kind, self.shared[other].kind)
                before = found.get(kinds, (0, 0))
                found[kinds] = before[0] + 1, max(before[1], len(left))
        return found

    def by_customer(self) -> Iterator[tuple[int, dict[Kind, int], int, int, int]]:
        """Yields for each customer: how many components of each kind lose him alone, how many of these besides his ends; how many pairs lose him, and in how many neither alone is enough."""
        alone: dict[int, Counter[Kind]] = defaultdict(Counter)
        besides: Counter[int] = Counter()
        for single in self.singles:
            for customer in single.lost:
                alone[customer][single.kind] += 1
                besides[customer] += customer not in single.ends
        joint: Counter[int] = Counter()
        for result in self.results:
            joint.update(dict(result["joint"]))
        for (one, other), (lost, _) in self.between.items():
            joint.update(lost - self.shared[one].lost - self.shared[other].lost)
        total = sum(self.kinds.values())
        for customer in range(len(self.network.customers)):
            enough = sum(alone[customer].values())
            pairs = choose(total) - choose(total - enough) + joint[customer]
            if customer in self.base.lost:
                pairs = choose(total)
            yield customer, dict(alone[customer]), besides[customer], pairs, joint[customer]


def choose(count: int) -> int:
    """How many pairs so many things have."""
    return count * (count - 1) // 2


def component_named(components: Components, name: str) -> Component | None:
    """The component of this name."""
    everything = (one for ring in components.network.rings for one in components.of_ring(ring))
    return next((one for one in [*everything, *components.shared] if one.name == name), None)
