"""What fails in a network with a rate: spans, fibres, places and groups, each once, however many rings it touches."""

from dataclasses import dataclass
from pathlib import Path

from ..files import found_in, is_there
from ..components import HOURS, REPAIR, cuts_of, fibre_rates, needed
from ..tables import Row, TableProblem
from .components import Components, side_name
from .members import Part
from .model import Kind, Network, NetworkProblem, key_of
from .tables import place_rows, span_rows

SPANS, NODES = "spans.csv", "nodes.csv"


@dataclass(frozen=True)
class Rated:
    """A component that is up or down, whatever the others are: how often it fails in a year of being up, and the hours of a repair."""

    kind: Kind
    name: str
    parts: tuple[Part, ...]
    rate: float
    hours: float

    @property
    def down(self) -> float:
        """The part of the time in which it is down."""
        lasts = self.rate * self.hours / HOURS
        return lasts / (1 + lasts)

    @property
    def up(self) -> float:
        return 1 / (1 + self.rate * self.hours / HOURS)


def of_spans(file: str, network: Network, per_1000_km: float | None) -> list[Rated]:
    """Each span, and its two fibres where they fail by themselves too."""
    table, rows = span_rows(file, network)
    found: list[Rated] = []
    for ring in network.rings:
        for at in range(ring.size):
            row = rows[ring.number, at]
            part = Part(ring.number, Kind.SPAN, at)
            found.append(
                Rated(
                    Kind.SPAN,
                    f"span {ring.span_name(at)} in {ring.name}",
                    (part,),
                    cuts_of(row, per_1000_km),
                    needed(row, "hours", REPAIR),
                )
            )
            found += of_fibres(row, network, ring.number, at)
    return found


def of_fibres(row: Row, network: Network, number: int, span: int) -> list[Rated]:
    """The fibres of a span that fail alone: the one that leads eastwards, and the one that leads westwards."""
    if (rates := fibre_rates(row)) is None:
        return []
    (rate, hours), ring = rates, network.rings[number]
    ends = ((span, "east"), ((span + 1) % ring.size, "west"))
    return [
        Rated(Kind.FIBRE, side_name(ring, Kind.FIBRE, at, side), (Part(number, Kind.FIBRE, at, side),), rate, hours)
        for at, side in ends
    ]


def of_places(file: str, network: Network) -> list[Rated]:
    """Each place once; where it is down its nodes are lost in all rings that come there."""
    _, rows = place_rows(file, network)
    found = []
    for key, rings in network.rings_at.items():
        parts = tuple(Part(ring.number, Kind.PLACE, ring.positions[key]) for ring in rings)
        rate, hours = needed(rows[key], "failures", "the failures a year are wanted"), needed(
            rows[key], "hours", REPAIR
        )
        found.append(Rated(Kind.PLACE, f"place {network.place_names[key]}", parts, rate, hours))
    return found


def of_groups(network: Network) -> list[Rated]:
    found = []
    for component, group in zip(Components(network).groups, network.groups):
        if group.failures is None or group.hours is None:
            raise NetworkProblem(
                f"group {group.name} has no `failures` a year and `hours` of a repair; a rate of 0 stands for what never fails"
            )
        found.append(Rated(Kind.GROUP, component.name, component.parts, group.failures, group.hours))
    return found


@dataclass(frozen=True)
class Rates:
    """All components with rates, the columns of tables that nothing reads, and whether places fail."""

    components: list[Rated]
    unread: list[str]
    places_fail: bool


def read_rates(folder: Path, network: Network, per_1000_km: float | None = None) -> Rates:
    """Returns the components of the tables in a network's folder: spans.csv, and nodes.csv where it is there; groups are those of the document."""
    spans, nodes = found_in(folder, SPANS), found_in(folder, NODES)
    if not is_there(spans):
        raise TableProblem(
            f"{spans} is missing, which has ring,from,to, the cuts a year or km, and the hours of a repair"
        )
    found = of_spans(spans, network, per_1000_km)
    tables = [span_rows(spans, network)[0]]
    if has_nodes := is_there(nodes):
        found += of_places(nodes, network)
        tables.append(place_rows(nodes, network)[0])
    unread = [note for table in tables for note in table.notes()]
    return Rates(found + of_groups(network), unread, has_nodes)


def ends_at(component: Rated, ring: int, at: int) -> bool:
    """Whether a component has the node at this position of this ring among its parts."""
    return any(part.kind is Kind.PLACE and (part.ring, part.at) == (ring, at) for part in component.parts)


__all__ = ["Rated", "Rates", "ends_at", "key_of", "read_rates"]
