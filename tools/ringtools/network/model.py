"""What a network is made of: rings that share places, customers with a section in each ring that they cross, and groups that fail as one.

A place is one site. Where it stands in several rings it has a node in each of them, and a customer may change rings there.
"""

import unicodedata
from collections.abc import Iterator
from dataclasses import dataclass, field
from enum import Enum
from functools import cached_property


INDEX = "index.html"  # the network's own page


class NetworkProblem(Exception):
    """A network isn't one, or can't be asked what was asked."""


class Kind(Enum):
    """What may fail or be switched. The values are the words of rules and tables."""

    DEGRADED = "degraded"
    FIBRE = "fibre"
    SPAN = "span"
    PLACE = "place"
    MANUAL = "manual"
    FORCED = "forced"
    GROUP = "group"


def key_of(name: str) -> str:
    """Returns the form by which two spellings of a name are one: composed letters, small, single blanks."""
    return " ".join(unicodedata.normalize("NFC", name).casefold().split())


@dataclass(frozen=True)
class Ring:
    """A ring by the names of its places, eastwards; its plan lies in the file of that name in the network's folder."""

    number: int
    name: str
    file: str
    places: tuple[str, ...]

    @cached_property
    def positions(self) -> dict[str, int]:
        return {key_of(place): at for at, place in enumerate(self.places)}

    @property
    def page(self) -> str:
        """The name of the ring's own page."""
        return f"{self.file.rpartition('/')[2].removesuffix('.toml')}.html"

    def at(self, place: str) -> int | None:
        """Returns the position of a place's node, or None where the ring doesn't come there."""
        return self.positions.get(key_of(place))

    @property
    def size(self) -> int:
        return len(self.places)

    def span_name(self, span: int) -> str:
        return f"{self.places[span % self.size]}–{self.places[(span + 1) % self.size]}"


@dataclass(frozen=True)
class Section:
    """A customer's circuit in one ring, by the ring's number and the circuit's name in its plan."""

    ring: int
    circuit: str


@dataclass(frozen=True)
class Customer:
    """Who is carried from one place to another: over sections in their order, changing rings at the places between them."""

    name: str
    start: str
    end: str
    sections: tuple[Section, ...]
    changes: tuple[str, ...] = ()

    def ends_of(self, number: int) -> tuple[str, str]:
        """Returns the places between which the section of this number leads, counted from 0."""
        stops = (self.start, *self.changes, self.end)
        return stops[number], stops[number + 1]


@dataclass(frozen=True)
class Group:
    """What fails together, as in one duct or one building: members in words, with rates where they are known."""

    name: str
    members: tuple[str, ...]
    failures: float | None = None  # a year
    hours: float | None = None  # of a repair


@dataclass
class Network:
    """Rings, customers and groups, in the order of the document."""

    rings: list[Ring]
    customers: list[Customer]
    groups: list[Group] = field(default_factory=list)

    @cached_property
    def by_name(self) -> dict[str, Ring]:
        return {key_of(ring.name): ring for ring in self.rings}

    @cached_property
    def rings_at(self) -> dict[str, list[Ring]]:
        """The rings that come to a place, by the place's key, each place in the order in which it is first met."""
        found: dict[str, list[Ring]] = {}
        for ring in self.rings:
            for key in ring.positions:
                found.setdefault(key, []).append(ring)
        return found

    @cached_property
    def place_names(self) -> dict[str, str]:
        """The spelling of a place by its key: the first one that is met."""
        found: dict[str, str] = {}
        for ring in self.rings:
            for place in ring.places:
                found.setdefault(key_of(place), place)
        return found

    @cached_property
    def sections_in(self) -> list[dict[str, tuple[int, int]]]:
        """For each ring: by a circuit's name, the customer's number and which of his sections it is."""
        found: list[dict[str, tuple[int, int]]] = [{} for _ in self.rings]
        for number, customer in enumerate(self.customers):
            for place, section in enumerate(customer.sections):
                found[section.ring][section.circuit] = number, place
        return found

    @cached_property
    def ending(self) -> dict[tuple[int, int], list[int]]:
        """The customers that end at each node, by the ring's number and the position."""
        found: dict[tuple[int, int], list[int]] = {}
        for number, customer in enumerate(self.customers):
            for section, place in ((customer.sections[0], customer.start), (customer.sections[-1], customer.end)):
                at = self.rings[section.ring].positions[key_of(place)]
                found.setdefault((section.ring, at), []).append(number)
        return found

    def prepare(self) -> "Network":
        """Makes what is found by name before processes are split off, so that they share it."""
        for found in (self.by_name, self.rings_at, self.place_names, self.sections_in, self.ending):
            assert found is not None
        return self

    def ring_of(self, name: str) -> Ring | None:
        return self.by_name.get(key_of(name))

    def section_words(self, number: int, place: int) -> str:
        """Returns a customer's section in words, as `North Hamburg–Fulda`."""
        customer = self.customers[number]
        one, other = customer.ends_of(place)
        return f"{self.rings[customer.sections[place].ring].name} {one}–{other}"

    def shared_places(self) -> Iterator[str]:
        """Yields the places at which rings touch."""
        for key, rings in self.rings_at.items():
            if len(rings) > 1:
                yield self.place_names[key]
