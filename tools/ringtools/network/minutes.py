"""The availability of a network's customers end to end, as records and as a text, and which single investment helps most."""

import json
from collections.abc import Iterator
from dataclasses import dataclass
from pathlib import Path

from ..availability import MINUTES
from ..availabilitytable import aligned, minutes_words, nines_words
from ..markup import count_of
from .availability import Arc, RingRates, Seen, Share
from .making import checked_plan
from .model import Kind, Network
from .rates import Rated, Rates

SHARES = (
    "customer",
    "from",
    "to",
    "rings",
    "unavailability",
    "minutes",
    "nines",
    "ends",
    "changes",
    "alone",
    "together",
    "script",
)
CAUSES = ("customer", "component", "other", "minutes")
SAVINGS = ("component", "kind", "rings", "saved", "customers", "most", "customer")
HEADS = ("customer", "from", "to", "rings", "min/year", "nines", "ends", "changes", "one alone", "several")
SHOWN = 10  # investments in the text


@dataclass
class Saving:
    """What would be saved if a component never failed: minutes a year of all customers together, of how many, and of whom most."""

    component: Rated
    minutes: float = 0.0
    customers: int = 0
    most: float = 0.0
    who: str = ""

    def add(self, minutes: float, who: str) -> None:
        self.minutes += minutes
        self.customers += 1
        if minutes > self.most:
            self.most, self.who = minutes, who


class Minutes:
    """The shares of all customers of a network. Plans are read ring by ring; what is kept of them are the ends of sections."""

    def __init__(self, network: Network, folder: Path, rates: Rates):
        self.network, self.rates, self.rings = network, rates, {}  # type: Network, Rates, dict[int, RingRates]
        touching: list[list[int]] = [[] for _ in network.rings]
        for number, one in enumerate(rates.components):
            for at in sorted({part.ring for part in one.parts}):
                touching[at].append(number)
        self.arcs: list[dict[str, Arc]] = []
        for ring in network.rings:
            plan, _ = checked_plan(network, folder, ring)
            found = RingRates(plan, ring.number, rates.components, touching[ring.number])
            self.rings[ring.number] = found
            self.arcs.append({circuit.name: found.arc(plan, circuit) for circuit in plan.circuits})

    def seen(self, number: int) -> Seen:
        """The components as a customer sees them, by his number."""
        customer = self.network.customers[number]
        arcs = [self.arcs[section.ring][section.circuit] for section in customer.sections]
        return Seen(self.network, customer, arcs, self.rings, self.rates.components)

    def shares(self) -> Iterator[tuple[int, Share]]:
        for number in range(len(self.network.customers)):
            yield number, self.seen(number).share()

    def ring_names(self, number: int) -> str:
        return "; ".join(self.network.rings[section.ring].name for section in self.network.customers[number].sections)

    def share_records(self) -> Iterator[dict[str, object]]:
        """Yields a record for each customer; the parts are in minutes a year."""
        for number, share in self.shares():
            customer = self.network.customers[number]
            parts = {
                part: getattr(share, part) * MINUTES for part in ("ends", "changes", "alone", "together", "script")
            }
            who = {
                "customer": customer.name,
                "from": customer.start,
                "to": customer.end,
                "rings": self.ring_names(number),
            }
            yield {**who, "unavailability": share.whole, "minutes": share.minutes, "nines": share.nines, **parts}

    def cause_records(self) -> Iterator[dict[str, object]]:
        for number, customer in enumerate(self.network.customers):
            for cause in self.seen(number).causes():
                names = [one.name for one in cause.components] + [""]
                yield {"customer": customer.name, "component": names[0], "other": names[1], "minutes": cause.minutes}

    def savings(self) -> list[Saving]:
        """What each component's failures cost all customers together, the dearest first."""
        found = {one.name: Saving(one) for one in self.rates.components}
        for number, customer in enumerate(self.network.customers):
            for one, part in self.seen(number).saved():
                if part > 0:
                    found[one.name].add(part * MINUTES, customer.name)
        return sorted(
            (one for one in found.values() if one.minutes > 0), key=lambda one: (-one.minutes, one.component.name)
        )

    def saving_records(self) -> Iterator[dict[str, object]]:
        for saving in self.savings():
            one = saving.component
            rings = "; ".join(self.network.rings[ring].name for ring in sorted({part.ring for part in one.parts}))
            yield {
                "component": one.name,
                "kind": one.kind.value,
                "rings": rings,
                "saved": saving.minutes,
                "customers": saving.customers,
                "most": saving.most,
                "customer": saving.who,
            }

    def head(self) -> Iterator[str]:
        counts = [(kind, sum(one.kind is kind for one in self.rates.components)) for kind in Kind]
        kinds = ", ".join(count_of(count, kind.value) for kind, count in counts if count)
        yield f"{count_of(len(self.network.rings), 'ring')}, {count_of(len(self.network.customers), 'customer')}; components: {kinds}."
        yield "All fail and are repaired independently of one another, in steady state; a year has 525,600 minutes."
        if not self.rates.places_fail:
            yield "Places never fail: there is no nodes.csv."
        yield from self.rates.unread

    def text(self) -> str:
        """Returns the minutes of all customers by cause, their main causes, and the investments that help most."""
        rows = [list(HEADS)]
        for number, share in self.shares():
            customer = self.network.customers[number]
            parts = [minutes_words(part * MINUTES) for part in (share.ends, share.changes, share.alone, share.together)]
            ends = [customer.start, customer.end, self.ring_names(number).replace("; ", ", ")]
            rows.append([customer.name, *ends, minutes_words(share.minutes), nines_words(share.nines), *parts])
        causes = [
            f"  {customer.name}: {self.cause_words(number)}" for number, customer in enumerate(self.network.customers)
        ]
        savings = [["if it never failed", "min/year less", "customers", "most for", "by"]]
        savings += [
            [one.component.name, minutes_words(one.minutes), str(one.customers), one.who, minutes_words(one.most)]
            for one in self.savings()[:SHOWN]
        ]
        parts_words = "Minutes of a year in which a customer is lost: a place where he ends is down; else one where he changes rings; else another\ncomponent that alone is enough; else several together."
        return "\n".join(
            [
                "\n".join(self.head()) + "\n",
                f"{parts_words}\n\n{aligned(rows)}",
                "Main causes of loss, and the minutes a year for which all of a cause is down:\n\n"
                + "\n".join(causes)
                + "\n",
                f"Which investment helps most: the customers' minutes a year, all added up, that would be saved.\n\n{aligned(savings)}",
            ]
        )

    def cause_words(self, number: int, most: int = 3) -> str:
        causes = self.seen(number).causes()[:most]
        return (
            "; ".join(
                f"{' with '.join(one.name for one in cause.components)} {minutes_words(cause.minutes)}"
                for cause in causes
            )
            or "none"
        )


def as_json(columns: tuple[str, ...], records: Iterator[dict[str, object]]) -> str:
    lines = (json.dumps({column: record[column] for column in columns}, ensure_ascii=False) for record in records)
    return "[\n" + ",\n".join(lines) + "\n]\n"
