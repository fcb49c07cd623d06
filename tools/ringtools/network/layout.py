"""Where the rings and places of a network are drawn: each ring nearly round, and rings touching where they share a place.

Rings are put beside one another, one after the other, and then moved until those that share a place touch and no others overlap.
A place that several rings share lies between where each would have it.
"""

import math
from dataclasses import dataclass

from .model import Network, key_of

GAP = 46.0  # between rings that share no place
SPACE = 60.0  # between neighbours on a ring
LEAST = 62.0  # radius of a ring
ROUNDS = 600
SMOOTHED = 30  # rounds after that, in which places move
PULL = 0.06  # how much weaker rings that touch pull each other than others push
Point = tuple[float, float]


def radius_of(size: int) -> float:
    return max(LEAST, size * SPACE / (2 * math.pi))


def middle_of(points: list[Point]) -> Point:
    return sum(x for x, _ in points) / len(points), sum(y for _, y in points) / len(points)


@dataclass(frozen=True)
class Drawn:
    """The middle of each ring, its radius, and where each place lies, by the place's key."""

    middles: list[Point]
    radii: list[float]
    places: dict[str, Point]

    def box(self, margin: float) -> tuple[float, float, float, float]:
        """Returns left, top, width and height of all, with this margin."""
        xs, ys = zip(*self.places.values())
        left, top = min(xs) - margin, min(ys) - margin
        return left, top, max(xs) + margin - left, max(ys) + margin - top


class Layout:
    """Finds the middles of rings, then how far each is turned, and then where places lie."""

    def __init__(self, network: Network):
        self.network, count = network, len(network.rings)
        self.radii = [radius_of(ring.size) for ring in network.rings]
        self.shared: dict[tuple[int, int], int] = {}
        for place in network.shared_places():
            numbers = [ring.number for ring in network.rings_at[key_of(place)]]
            for at, one in enumerate(numbers):
                for other in numbers[at + 1 :]:
                    self.shared[one, other] = self.shared.get((one, other), 0) + 1
        self.beside: list[list[int]] = [[] for _ in range(count)]
        for one, other in self.shared:
            self.beside[one].append(other)
            self.beside[other].append(one)

    def drawn(self) -> Drawn:
        middles = self.moved(self.begun())
        turns = [self.turn(number, middles) for number in range(len(middles))]
        sums: dict[str, list[Point]] = {}
        for ring, (x, y), radius, turn in zip(self.network.rings, middles, self.radii, turns):
            for at, place in enumerate(ring.places):
                angle = turn + 2 * math.pi * at / ring.size
                sums.setdefault(key_of(place), []).append((x + radius * math.sin(angle), y - radius * math.cos(angle)))
        places = {key: middle_of(points) for key, points in sums.items()}
        for _ in range(SMOOTHED):
            self.smooth(places)
        middles = [middle_of([places[key_of(place)] for place in ring.places]) for ring in self.network.rings]
        return Drawn(middles, self.radii, places)

    def smooth(self, places: dict[str, Point]) -> None:
        """Moves each place of one ring alone halfway onto a circle around the middle of its ring, and there towards between its neighbours."""
        for ring, radius in zip(self.network.rings, self.radii):
            keys = [key_of(place) for place in ring.places]
            x, y = middle_of([places[key] for key in keys])
            for at, key in enumerate(keys):
                if len(self.network.rings_at[key]) > 1:
                    continue
                between = middle_of([places[keys[at - 1]], places[keys[(at + 1) % ring.size]]])
                dx, dy = places[key][0] - x, places[key][1] - y
                far = math.hypot(dx, dy) or 1.0
                dx, dy = dx / far + (between[0] - x) / radius, dy / far + (between[1] - y) / radius
                far = math.hypot(dx, dy) or 1.0
                places[key] = middle_of([places[key], (x + radius * dx / far, y + radius * dy / far)])

    def begun(self) -> list[Point]:
        """Each ring outside one that is there already, where the place lies that they share; rings that touch none further on."""
        middles: dict[int, Point] = {}
        right = 0.0
        for first in sorted(range(len(self.radii)), key=lambda number: (-len(self.beside[number]), number)):
            if first in middles:
                continue
            middles[first] = (right + self.radii[first], 0.0)
            edge = [(first, 0.0)]
            while edge:
                number, turn = edge.pop(0)
                for at, other, there in self.touching(number):
                    if other in middles:
                        continue
                    angle = turn + 2 * math.pi * at / self.network.rings[number].size
                    far = self.radii[number] + self.radii[other]
                    middles[other] = (
                        middles[number][0] + far * math.sin(angle),
                        middles[number][1] - far * math.cos(angle),
                    )
                    edge.append((other, angle + math.pi - 2 * math.pi * there / self.network.rings[other].size))
            right = max(x + self.radii[number] for number, (x, _) in middles.items()) + GAP
        return [middles[number] for number in range(len(self.radii))]

    def touching(self, number: int) -> list[tuple[int, int, int]]:
        """The places that a ring shares, eastwards: its position here, the other ring, and the position there."""
        ring, found = self.network.rings[number], []
        for at, place in enumerate(ring.places):
            for other in self.network.rings_at[key_of(place)]:
                if other.number != number:
                    found.append((at, other.number, other.positions[key_of(place)]))
        return found

    def wanted(self, one: int, other: int) -> tuple[float, bool]:
        """How far apart two middles are to be, and whether exactly; rings that share two places or more overlap a little."""
        both = self.radii[one] + self.radii[other]
        count = self.shared.get((min(one, other), max(one, other)), 0)
        return (both if count == 1 else both * 0.8, True) if count else (both + GAP, False)

    def moved(self, middles: list[Point]) -> list[Point]:
        """Moves the middles step by step, each pair by a part of what is missing."""
        xs, ys = [x for x, _ in middles], [y for _, y in middles]
        for step in range(ROUNDS):
            part = 0.5 * (1 - step / ROUNDS) + 0.05
            for one in range(len(xs)):
                for other in range(one + 1, len(xs)):
                    far, is_exact = self.wanted(one, other)
                    dx, dy = xs[other] - xs[one], ys[other] - ys[one]
                    now = math.hypot(dx, dy)
                    if now >= far and not is_exact:
                        continue
                    if now < 1e-6:
                        dx, dy, now = 1.0, 0.1 * (other - one), 1.0
                    push = part * (0.5 if now < far else PULL) * (far - now) / now
                    xs[one] -= push * dx
                    ys[one] -= push * dy
                    xs[other] += push * dx
                    ys[other] += push * dy
        return list(zip(xs, ys))

    def turn(self, number: int, middles: list[Point]) -> float:
        """How far a ring is turned, so that the places that it shares lie towards the rings that it shares them with."""
        ring, (x, y) = self.network.rings[number], middles[number]
        east = north = 0.0
        for at, place in enumerate(ring.places):
            others = [one.number for one in self.network.rings_at[key_of(place)] if one.number != number]
            for other in others:
                dx, dy = middles[other][0] - x, middles[other][1] - y
                angle = math.atan2(dx, -dy) - 2 * math.pi * at / ring.size
                east, north = east + math.sin(angle) / len(others), north + math.cos(angle) / len(others)
        return math.atan2(east, north) if east or north else 0.0
