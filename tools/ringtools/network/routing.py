"""Over which rings a customer goes, and where he changes from one to the next: over the fewest rings, and then the shortest way."""

import heapq
from collections.abc import Iterator
from dataclasses import dataclass

from .model import Network, Ring, key_of

MOST_RINGS = 12  # on the way of one customer
CANDIDATES = 24  # ways that are looked at for one customer
LOOKED_AT = 20_000  # begun ways, after which no more are looked for


@dataclass(frozen=True)
class Way:
    """The rings of a customer in their order, the places between them, and the length of the shorter way round in each, added up."""

    rings: tuple[int, ...]
    changes: tuple[str, ...]
    length: float


class Router:
    """Finds the ways between two places. Lengths are in km where all spans have one, and in spans otherwise."""

    def __init__(self, network: Network, lengths: dict[tuple[int, int], float]):
        self.network, self.lengths = network, lengths
        self.beside: list[dict[int, list[str]]] = [{} for _ in network.rings]
        for place in network.shared_places():
            rings = network.rings_at[key_of(place)]
            for one in rings:
                for other in rings:
                    if one is not other:
                        self.beside[one.number].setdefault(other.number, []).append(place)
        self.known: dict[tuple[str, str, tuple[str, ...]], list[Way]] = {}
        self.distances: dict[str, list[int]] = {}

    def length(self, ring: Ring, one: str, other: str) -> float:
        """The shorter way round between two places of a ring."""
        here, there = ring.positions[key_of(one)], ring.positions[key_of(other)]
        count = (there - here) % ring.size
        of = lambda spans: sum(self.lengths.get((ring.number, at % ring.size), 1.0) for at in spans)
        return min(of(range(here, here + count)), of(range(there, there + ring.size - count)))

    def rings_to(self, end: str) -> list[int]:
        """For each ring, over how many rings at least a way from it to this place leads, itself included; a large number where there is none."""
        if end not in self.distances:
            far = [len(self.network.rings) + 1] * len(self.network.rings)
            edge = [ring.number for ring in self.network.rings_at[key_of(end)]]
            for number in edge:
                far[number] = 1
            while edge:
                after = []
                for number in edge:
                    for other in self.beside[number]:
                        if far[other] > far[number] + 1:
                            far[other] = far[number] + 1
                            after.append(other)
                edge = after
            self.distances[end] = far
        return self.distances[end]

    def ways(self, start: str, end: str, via: tuple[str, ...] = ()) -> list[Way]:
        """Returns ways between two places that go by `via`, the best first: the fewest rings, then the shortest, then by the rings' names."""
        key = start, end, via
        if key not in self.known:
            if len(self.known) > 20_000:
                self.known.clear()
            found = self.search(start, end, via)
            self.known[key] = sorted(
                found,
                key=lambda way: (
                    len(way.rings),
                    way.length,
                    [self.network.rings[number].name for number in way.rings],
                    way.changes,
                ),
            )
        return self.known[key]

    def search(self, start: str, end: str, via: tuple[str, ...]) -> list[Way]:
        """Goes through ways in the order of how many rings they need at least; up to one ring more than the fewest."""
        left, looked, fewest = self.rings_to(end), 0, MOST_RINGS
        found: list[Way] = []
        heap: list[tuple[int, float, int, tuple[int, ...], tuple[str, ...]]] = []
        for ring in self.network.rings_at[key_of(start)]:
            heapq.heappush(heap, (left[ring.number], 0.0, len(heap), (ring.number,), ()))
        while heap and looked < LOOKED_AT and len(found) < CANDIDATES * 4:
            least, length, _, rings, changes = heapq.heappop(heap)
            if least > min(fewest + 1, MOST_RINGS):
                break
            here, ring = changes[-1] if changes else start, self.network.rings[rings[-1]]
            if ring.at(end) is not None and key_of(here) != key_of(end):
                way = Way(rings, changes, length + self.length(ring, here, end))
                if self.goes_by(way, via):
                    found.append(way)
                    fewest = min(fewest, len(rings))
            for other, place in self.next_of(ring, here, end, rings):
                looked += 1
                more = len(rings) + left[other]
                heapq.heappush(
                    heap, (more, length + self.length(ring, here, place), looked, (*rings, other), (*changes, place))
                )
        return found

    def next_of(self, ring: Ring, here: str, end: str, rings: tuple[int, ...]) -> Iterator[tuple[int, str]]:
        """The rings that a way may go on to, each with the place where it changes."""
        for other, places in self.beside[ring.number].items():
            if other not in rings:
                for place in places:
                    if key_of(place) not in (key_of(here), key_of(end)):
                        yield other, place

    def goes_by(self, way: Way, via: tuple[str, ...]) -> bool:
        """Whether the words of `via` stand in this order on the way: as rings that it crosses, or as places where it changes."""
        stops = []
        for place, number in enumerate(way.rings):
            stops.append({key_of(self.network.rings[number].name)})
            stops.append({key_of(way.changes[place])} if place < len(way.changes) else set())
        at = 0
        for word in via:
            while at < len(stops) and key_of(word) not in stops[at]:
                at += 1
            if at == len(stops):
                return False
            at += 1
        return True
