"""Which circuits of a plan lead the other way round in another plan, are in another slot, or end elsewhere."""

from __future__ import annotations

from collections.abc import Iterator
from dataclasses import dataclass

from .plan import Circuit, Plan

OTHER_WAY, OTHER_SLOT, OTHER_ENDS = "other way", "other slot", "other ends"


@dataclass(frozen=True)
class Move:
    """A circuit of both plans that isn't in the new one what it is in the old one."""

    name: str  # in the new plan
    called: str
    kinds: tuple[str, ...]


def node_called(plan: Plan, at: int) -> str:
    """Returns what a node is known by from plan to plan: its place in small letters, or its identifier."""
    return plan.places.place(plan.ids[at]).casefold()


def same_nodes(old: Plan, new: Plan) -> dict[int, int]:
    """Returns where the old plan's nodes stand in the new one, for those that are in both: by place or identifier."""
    found = new.places.positions(new.ids)
    return {at: found[node_called(old, at)] for at in range(old.size) if node_called(old, at) in found}


def same_circuits(old: Plan, new: Plan) -> Iterator[tuple[Circuit, Circuit]]:
    """Yields each circuit of the new plan that the old one has, by its customer's name: the old one first."""
    before = {old.places.circuit(circuit.name): circuit for circuit in old.circuits}
    for circuit in new.circuits:
        if was := before.get(new.places.circuit(circuit.name)):
            yield was, circuit


def kinds_of(was: Circuit, now: Circuit, nodes: dict[int, int]) -> tuple[str, ...]:
    """Returns how a circuit differs. `nodes` says where the old plan's nodes stand in the new one."""
    ends = [nodes.get(was.start), nodes.get(was.end)]
    if sorted(map(str, ends)) != sorted(map(str, (now.start, now.end))):
        return (OTHER_ENDS,)
    return (OTHER_WAY,) * (ends[0] != now.start) + (OTHER_SLOT,) * (was.slot != now.slot)


def moves(old: Plan, new: Plan) -> list[Move]:
    """Returns the circuits of both plans that move from the old plan to the new one."""
    nodes = same_nodes(old, new)
    found = ((circuit, kinds_of(was, circuit, nodes)) for was, circuit in same_circuits(old, new))
    return [Move(circuit.name, new.places.circuit(circuit.name), kinds) for circuit, kinds in found if kinds]


def is_earlier(old: Plan, new: Plan) -> bool:
    """Returns whether at least half of the old plan's circuits have the same ends in the new one: then it is the same ring."""
    nodes = same_nodes(old, new)
    kept = sum(OTHER_ENDS not in kinds_of(was, now, nodes) for was, now in same_circuits(old, new))
    return 0 < len(old.circuits) <= 2 * kept


def moves_words(old: Plan, new: Plan, name: str) -> str:
    """Returns how many circuits of the plan of this name move, by kinds; empty where none does."""
    found = moves(old, new)
    counts = {kind: sum(kind in move.kinds for move in found) for kind in (OTHER_WAY, OTHER_SLOT, OTHER_ENDS)}
    told = ", ".join(f"{count} {kind}" for kind, count in counts.items() if count)
    if not found:
        return ""
    return f"circuits of {name} that move: {len(found)} of {len(old.circuits)} ({told}); --keep {name} holds them"
