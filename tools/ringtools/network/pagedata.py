"""What a network's page carries: for each ring its cases of up to two failures, and for each customer his sections. The browser looks up and joins.

A case is found by the numbers of its failures in its ring: nothing, each alone, and each two, in one list.
"""

from dataclasses import dataclass
from typing import Any

from .asking import Fate, RingCases
from .components import Component, Components
from .model import Kind, Network, Ring, key_of

KINDS = (Kind.SPAN, Kind.PLACE, Kind.GROUP)
KEPT, IMPAIRED, OVER, LOST = "k", "i", "o", "l"


def letters_of(fate: Fate, count: int) -> str:
    """What becomes of each section, a letter for each."""
    found = []
    for at in range(count):
        bit = 1 << at
        found.append(
            LOST if fate.lost & bit else IMPAIRED if fate.impaired & bit else OVER if fate.over & bit else KEPT
        )
    return "".join(found)


@dataclass(frozen=True)
class Failures:
    """What can be clicked: spans ring by ring, places, and groups; each with its parts."""

    components: list[Component]
    spans: dict[tuple[int, int], int]
    places: dict[str, int]

    @property
    def groups(self) -> list[tuple[int, Component]]:
        return [(number, one) for number, one in enumerate(self.components) if one.kind is Kind.GROUP]


def failures_of(components: Components) -> Failures:
    network, found = components.network, []  # type: Network, list[Component]
    spans: dict[tuple[int, int], int] = {}
    places: dict[str, int] = {}
    own = [one for ring in network.rings for one in components.of_ring(ring)]
    for one in own:
        if one.kind is Kind.SPAN:
            spans[one.parts[0].ring, one.parts[0].at] = len(found)
            found.append(one)
    by_place = {
        key_of(one.name.removeprefix("place ")): one for one in [*own, *components.places] if one.kind is Kind.PLACE
    }
    for key in network.rings_at:
        places[key] = len(found)
        found.append(by_place[key])
    return Failures(found + components.groups, spans, places)


def ring_data(ring: Ring, cases: RingCases, slots: int) -> dict[str, Any]:
    """A ring for the page: its cases, the different outcomes, and each section's arc."""
    count, sections = len(cases.numbers), len(cases.plan.circuits)
    outcomes: dict[str, int] = {}
    place = lambda fate: -1 if fate is None else outcomes.setdefault(letters_of(fate, sections), len(outcomes))
    listed = [place(cases.nothing), *(place(cases.fate(one)) for one in range(count))]
    listed += [place(cases.fate(one, other)) for one in range(count) for other in range(one + 1, count)]
    arcs = [[circuit.start, (circuit.end - circuit.start) % ring.size] for circuit in cases.plan.circuits]
    return {
        "name": ring.name,
        "size": ring.size,
        "count": count,
        "cases": listed,
        "outcomes": list(outcomes),
        "arcs": arcs,
        "slots": slots,
    }


def customers_data(network: Network, circuits: list[dict[str, int]]) -> list[list[Any]]:
    """Each customer: his name, and his sections by ring and number, each with the places between which it leads."""
    found = []
    for customer in network.customers:
        sections = [
            [section.ring, circuits[section.ring][section.circuit], *customer.ends_of(place)]
            for place, section in enumerate(customer.sections)
        ]
        found.append([customer.name, sections])
    return found
