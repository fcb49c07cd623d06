"""Which customers of a network lead elsewhere in another one: over other rings, the other way round, or in another slot."""

from __future__ import annotations

from collections.abc import Iterator
from pathlib import Path

from ..markup import count_of, names
from ..moves import kinds_of, same_nodes
from ..plan import Circuit, Plan
from .making import plan_of
from .model import Customer, Network

COLUMNS = ("customer", "ring", "change")
OTHER_RINGS = "other rings"


class Provisioned:
    """A network with the plans of its rings, each read once."""

    def __init__(self, folder: Path, network: Network):
        self.folder, self.network = folder, network
        self.customers = {customer.name: customer for customer in network.customers}
        self.plans: dict[int, Plan] = {}

    def plan(self, ring: int) -> Plan:
        if ring not in self.plans:
            self.plans[ring] = plan_of(self.folder, self.network.rings[ring])[0]
        return self.plans[ring]

    def rings(self, customer: Customer) -> list[str]:
        return [self.network.rings[section.ring].name for section in customer.sections]

    def circuit(self, ring: int, name: str) -> Circuit:
        return next(circuit for circuit in self.plan(ring).circuits if circuit.name == name)


def moved(old: Provisioned, new: Provisioned) -> Iterator[tuple[str, str, str]]:
    """Yields each customer of both networks that moves from the old one to the new one, with the ring and how."""
    for name, customer in new.customers.items():
        before = old.customers.get(name)
        if before is None:
            continue
        if old.rings(before) != new.rings(customer):
            yield name, "; ".join(new.rings(customer)), OTHER_RINGS
            continue
        for was, now in zip(before.sections, customer.sections):
            nodes = same_nodes(old.plan(was.ring), new.plan(now.ring))
            for kind in kinds_of(old.circuit(was.ring, was.circuit), new.circuit(now.ring, now.circuit), nodes):
                yield name, new.network.rings[now.ring].name, kind


def words_of(found: list[tuple[str, str, str]], of: int) -> str:
    """Returns in words how many of the customers move; a customer in service is interrupted where one network takes the other's place."""
    who = list(dict.fromkeys(name for name, _, _ in found))
    kinds = {kind: len({name for name, _, one in found if one == kind}) for _, _, kind in found}
    told = ", ".join(f"{count} {kind}" for kind, count in kinds.items())
    return f"{len(who)} of {count_of(of, 'customer')} move ({told}): {names(who, 3)}" if who else f"none of {count_of(of, 'customer')} moves"
