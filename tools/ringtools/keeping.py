"""What a plan in service holds where its table of circuits grows: direction, slot and name of each circuit."""

from __future__ import annotations

from dataclasses import dataclass, replace

from .files import read_input
from .markup import count_of, names
from .moves import node_called
from .places import PlaceProblem
from .plan import Circuit, Plan, PlanProblem, read_plan
from .slots import Wanted
from .tables import Row, TableProblem


@dataclass(frozen=True)
class Service:
    """A plan in service, and its circuits by the names that their customers know."""

    file: str
    plan: Plan

    @property
    def circuits(self) -> dict[str, Circuit]:
        return {self.plan.places.circuit(circuit.name): circuit for circuit in self.plan.circuits}

    @property
    def plain_names(self) -> dict[str, str]:
        """Returns the plan's names by those that the customers know."""
        return {called: circuit.name for called, circuit in self.circuits.items()}

    def ends_words(self, circuit: Circuit) -> str:
        return " to ".join(self.plan.places.place(self.plan.ids[at]) for at in (circuit.start, circuit.end))


def read_service(file: str) -> Service:
    """Returns the plan of this file, whose circuits are to stay as they are."""
    try:
        plan = read_plan(read_input(file))
        plan.clear_places()
        return Service(file, plan)
    except (PlanProblem, PlaceProblem) as problem:
        raise TableProblem(f"{file}: {problem}") from None


def positions_in(service: Service, found: dict[str, int]) -> dict[int, int]:
    """Returns where the nodes in service stand in the new ring. `found` has its positions by places and identifiers.

    Those that are in both have to stand in the same order eastwards; else a circuit couldn't lead the same way.
    """
    plan = service.plan
    there = {at: found[node_called(plan, at)] for at in range(plan.size) if node_called(plan, at) in found}
    order = list(there.values())
    turns = sum(here > after for here, after in zip(order, order[1:] + order[:1]))
    if len(order) > 2 and turns != 1:
        why = "its nodes stand in another order eastwards than those of the table"
        raise TableProblem(f"{service.file}: {why}, so its circuits can't be held")
    return there


def held(service: Service, row: Row, called: str, wanted: Wanted, positions: dict[int, int], slots: int) -> Wanted:
    """Returns a circuit of the table as the plan in service has it; the same again where it has no such circuit."""
    was = service.circuits.get(called)
    if was is None:
        return wanted
    start, end = positions.get(was.start), positions.get(was.end)
    if {start, end} != {wanted.start, wanted.end}:
        before = f"in {service.file} it leads from {service.ends_words(was)}"
        raise row.problem(f"{called} can't be held: {before}, and here its ends are others")
    way = "east" if start == wanted.start else "west"
    for column, asked, there in (("direction", wanted.way, way), ("slot", wanted.slot, was.slot)):
        if asked not in (None, there):
            is_other = f"`{column}` is {asked}, and in {service.file} it is {there}"
            raise row.problem(f"{called} can't be held: {is_other}")
    if was.slot > slots:
        before = f"in {service.file} it is in slot {was.slot}"
        raise row.problem(f"{called} can't be held: {before}, and at this rate a span has {slots}")
    return replace(wanted, way=way, slot=was.slot, is_held=True)


def kept_words(service: Service, called: list[str]) -> list[str]:
    """Returns how many circuits are held, how many are new, and which of those in service the table has no more."""
    before = service.circuits
    new, gone = [one for one in called if one not in before], [one for one in before if one not in called]
    kept = count_of(len(called) - len(new), "circuit")
    told = [f"held in direction and slot as in {service.file}: {kept}; new: {len(new)}"]
    if gone:
        told.append(f"{count_of(len(gone), 'circuit')} of {service.file} that the table doesn't have: {names(gone)}")
    return told
