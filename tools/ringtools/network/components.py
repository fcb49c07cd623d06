"""What may fail in a network, each thing once: fibres, spans and switches of one ring, places of one ring or of several, and groups over any rings.

A component has parts in the rings that it touches. In each of these it is one failure of that ring, or several that come together; so what
becomes of a customer where components fail is put together of what `sdhwhatif` says of each ring alone.
"""

from collections.abc import Iterator
from dataclasses import dataclass
from functools import cached_property

from .members import Members, Part
from .model import Kind, Network, Ring, key_of

DEFAULT = (Kind.FIBRE, Kind.SPAN, Kind.PLACE, Kind.GROUP)
SIDES = ("west", "east")
WORDS = {
    Kind.DEGRADED: "degraded {0}>{1}",
    Kind.FIBRE: "fibre {0}>{1}",
    Kind.MANUAL: "manual {0}>{1}",
    Kind.FORCED: "forced {0}>{1}",
}


@dataclass(frozen=True)
class Component:
    """One thing that fails: its kind, its name, and its parts in all rings that it touches. `shared` says whether these are several."""

    kind: Kind
    name: str
    parts: tuple[Part, ...]

    @cached_property
    def rings(self) -> tuple[int, ...]:
        return tuple(sorted({part.ring for part in self.parts}))

    @property
    def shared(self) -> bool:
        return len(self.rings) > 1

    def within(self, ring: int) -> tuple[Part, ...]:
        """The parts in one ring, each once."""
        return tuple(dict.fromkeys(part for part in self.parts if part.ring == ring))


def side_name(ring: Ring, kind: Kind, at: int, side: str) -> str:
    """A fibre that leaves a node, or a side of it, by the places: `fibre A>B in RING`; in a ring of two nodes with the side."""
    beside = ring.places[(at + (1 if side == "east" else -1)) % ring.size]
    aside = f" ({side})" if ring.size == 2 else ""
    return f"{WORDS[kind].format(ring.places[at], beside)}{aside} in {ring.name}"


class Components:
    """The components of a network, of these kinds."""

    def __init__(self, network: Network, kinds: tuple[Kind, ...] = DEFAULT):
        self.network, self.kinds = network, kinds

    @cached_property
    def groups(self) -> list[Component]:
        members = Members(self.network)
        found = []
        for group in self.network.groups if Kind.GROUP in self.kinds else []:
            parts = tuple(dict.fromkeys(part for member in group.members for part in members.parts(member)))
            found.append(Component(Kind.GROUP, f"group {group.name}", parts))
        return found

    @cached_property
    def places(self) -> list[Component]:
        """The places at which rings touch."""
        found = []
        for place in self.network.shared_places() if Kind.PLACE in self.kinds else []:
            parts = tuple(
                Part(ring.number, Kind.PLACE, ring.positions[key_of(place)])
                for ring in self.network.rings_at[key_of(place)]
            )
            found.append(Component(Kind.PLACE, f"place {place}", parts))
        return found

    @cached_property
    def shared(self) -> list[Component]:
        """The components that touch several rings: places, and then groups."""
        return self.places + [group for group in self.groups if group.shared]

    @cached_property
    def touching(self) -> list[list[int]]:
        """For each ring the shared components that touch it, by their numbers in `shared`."""
        found: list[list[int]] = [[] for _ in self.network.rings]
        for number, one in enumerate(self.shared):
            for ring in one.rings:
                found[ring].append(number)
        return found

    @cached_property
    def alone(self) -> list[list[Component]]:
        """For each ring the groups that touch no other."""
        found: list[list[Component]] = [[] for _ in self.network.rings]
        for group in self.groups:
            if not group.shared:
                found[group.rings[0]].append(group)
        return found

    def of_ring(self, ring: Ring) -> Iterator[Component]:
        """Yields the components that touch this ring alone, in the order of its failures: as `sdhwhatif` has them, groups last."""
        for kind in (one for one in Kind if one in self.kinds and one is not Kind.GROUP):
            for at in range(ring.size):
                if kind is Kind.SPAN:
                    yield Component(kind, f"span {ring.span_name(at)} in {ring.name}", (Part(ring.number, kind, at),))
                elif kind is not Kind.PLACE:
                    yield from (
                        Component(kind, side_name(ring, kind, at, side), (Part(ring.number, kind, at, side),))
                        for side in SIDES
                    )
                elif len(self.network.rings_at[key_of(ring.places[at])]) == 1:
                    yield Component(kind, f"place {ring.places[at]}", (Part(ring.number, kind, at),))
        yield from self.alone[ring.number]
