"""What happens to a ring of programs and when: the plan's script, laid out over the rounds in which the plan's settle steps ended."""

from collections.abc import Iterator, Sequence
from dataclasses import dataclass

from ..model import CLEAR, CUT
from ..plan import Plan, Step
from ..checks import SIDES

Fibre = tuple[int, str]  # the position and the side that it leaves
WINDOW = 128  # rounds between two looks at the ports of a ring that runs on
LONG = 8 * WINDOW  # rounds of a stretch after the script


@dataclass(frozen=True)
class Stretch:
    """Rounds in which nothing is changed: those of a settle step, or some of those after the script, whose `settle` is None."""

    settle: int | None
    first: int
    last: int
    conditions: dict[Fibre, str | int]
    records: tuple[bytes, ...]  # by position: what the node is given before the first of these rounds

    def is_dark(self, fibre: Fibre) -> bool:
        return self.conditions[fibre] == CUT

    def degree(self, fibre: Fibre) -> int:
        """Returns how many violations a frame has that this fibre carries."""
        condition = self.conditions[fibre]
        return condition if isinstance(condition, int) else 0


def record_of(plan: Plan, step: Step) -> tuple[Sequence[int], bytes]:
    """Returns the positions of the nodes that are given a step, and the record that they are given; none for a step of fibres."""
    if step.word in ("forced", "manual", "clear"):
        return (step.at,), f"{step.word} {step.side}\n".encode()
    if step.word == "hold":
        return (step.at,), f"hold {step.number}\n".encode()
    if step.word == "moment":
        return range(plan.size), f"moment {step.number}\n".encode()
    if step.word == "slip":
        circuit = next(circuit for circuit in plan.circuits if circuit.name == step.name)
        at = circuit.start if step.end == "a" else circuit.end
        return (at,), f"slip {step.name} {step.turn} {step.number}\n".encode()
    return (), b""


def condition_of(step: Step) -> str | int | None:
    """Returns what a step makes of its fibre, or None for one that changes no fibre."""
    return {"cut": CUT, "mend": CLEAR, "degrade": step.number}.get(step.word)


def stretches(plan: Plan, rounds: Sequence[int], more: int) -> Iterator[Stretch]:
    """Yields the stretches of a run whose settle steps end with these rounds, and which then runs on for `more` rounds."""
    conditions = dict.fromkeys(((at, side) for at in range(plan.size) for side in SIDES), CLEAR)
    records, first, ends = [b""] * plan.size, 0, iter(enumerate(rounds, 1))
    for step in plan.steps:
        if step.word == "settle":
            number, last = next(ends)
            yield Stretch(number, first, last, dict(conditions), tuple(records))
            records, first = [b""] * plan.size, last + 1
        elif (condition := condition_of(step)) is not None:
            conditions[step.at, step.side] = condition
        for at in record_of(plan, step)[0]:
            records[at] += record_of(plan, step)[1]
    yield from after(plan, conditions, first, more)


def after(plan: Plan, conditions: dict[Fibre, str | int], first: int, more: int) -> Iterator[Stretch]:
    """Yields the stretches after the script."""
    nothing = (b"",) * plan.size
    for begin in range(first, first + more, LONG):
        yield Stretch(None, begin, min(begin + LONG, first + more) - 1, conditions, nothing)
