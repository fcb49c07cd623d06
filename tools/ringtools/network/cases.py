"""One case of a network: any failures together, and what becomes of each customer, with the sections that break."""

from dataclasses import dataclass, field

from .asking import Asker, names_of
from .components import Component, Components
from .members import FORMS, Members, Part
from .model import Kind, Network, NetworkProblem, key_of
from .ringwork import Base

SWITCHES = {"degraded": Kind.DEGRADED, "manual": Kind.MANUAL, "forced": Kind.FORCED}


@dataclass
class CaseFate:
    """What becomes of the customers: of each that isn't kept the sections that are lost, impaired or over protection, by their places on his way."""

    lost: dict[int, list[int]] = field(default_factory=dict)
    impaired: dict[int, list[int]] = field(default_factory=dict)
    over: dict[int, list[int]] = field(default_factory=dict)

    def put(self, customer: int, place: int, fate: str) -> None:
        getattr(self, fate).setdefault(customer, []).append(place)

    def settled(self) -> "CaseFate":
        """The worst of a customer's sections counts, and each customer is in one of the three."""
        impaired = {number: places for number, places in self.impaired.items() if number not in self.lost}
        over = {
            number: places for number, places in self.over.items() if number not in self.lost and number not in impaired
        }
        ordered = lambda found: {number: sorted(found[number]) for number in sorted(found)}
        return CaseFate(ordered(self.lost), ordered(impaired), ordered(over))


class Naming:
    """The failures that a person means: components by their names, and the words of groups."""

    def __init__(self, network: Network):
        self.network, self.members = network, Members(network)
        self.groups = {key_of(one.name): one for one in Components(network).groups}

    def component(self, text: str) -> Component:
        """Returns what a failure in words is, or raises a NetworkProblem."""
        words = " ".join(text.split())
        kind, _, rest = words.partition(" ")
        if kind.casefold() == "group":
            found = self.groups.get(key_of(words))
            if found is None:
                names = ", ".join(group.name for group in self.network.groups) or "none"
                raise NetworkProblem(f"`{words}`: there is no such group; the groups are {names}")
            return found
        if kind.casefold() not in SWITCHES:
            if kind.casefold() not in ("span", "fibre", "place", "node"):
                raise NetworkProblem(
                    f"`{words}` names no failure: {FORMS}, `group NAME`, or `degraded`, `manual` or `forced` with `A>B`"
                )
            parts = self.members.parts(words)
            return Component(parts[0].kind, words, parts)
        fibre = self.members.parts(f"fibre {rest}")[0]
        return Component(
            SWITCHES[kind.casefold()], words, (Part(fibre.ring, SWITCHES[kind.casefold()], fibre.at, fibre.side),)
        )

    def all(self, text: str) -> list[Component]:
        """The failures of a text, separated by semicolons."""
        found = [self.component(part) for part in text.split(";") if part.strip()]
        if not found:
            raise NetworkProblem(f"`{text}`: failures are wanted, separated by semicolons")
        return found


def fate_of(asker: Asker, base: Base, components: list[Component]) -> CaseFate:
    """Returns what becomes of the customers where all of these fail; each ring that they touch is asked about once."""
    network, found = asker.network, CaseFate()
    touched = sorted({number for one in components for number in one.rings})
    for number in touched:
        ring = network.rings[number]
        parts = tuple(dict.fromkeys(part for one in components for part in one.within(number)))
        cases = asker.cases(ring, "single", (), [parts])
        fate = cases.fate(cases.number(parts))
        if fate is None:
            raise NetworkProblem(f"ring {ring.name}: there is no such case")
        for name, mask in (("lost", fate.lost), ("impaired", fate.impaired), ("over", fate.over)):
            for circuit in names_of(cases.plan, mask):
                found.put(*network.sections_in[number][circuit], name)
    for customer in base.lost | base.impaired | base.over:
        put_base(asker, found, customer, touched)
    return found.settled()


def put_base(asker: Asker, found: CaseFate, customer: int, touched: list[int]) -> None:
    """Adds what the scripts of untouched rings leave of a customer's sections."""
    for place, section in enumerate(asker.network.customers[customer].sections):
        if section.ring not in touched:
            cases = asker.singles(asker.network.rings[section.ring])
            for name, mask in (
                ("lost", cases.nothing.lost),
                ("impaired", cases.nothing.impaired),
                ("over", cases.nothing.over),
            ):
                if section.circuit in names_of(cases.plan, mask):
                    found.put(customer, place, name)
