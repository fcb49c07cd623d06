"""The delay of the fibres: lengths of spans from a table, and what they add to times that are counted in frames, by the rule of docs/RING.md."""

from __future__ import annotations

from collections.abc import Sequence
from dataclasses import dataclass

from .components import SPAN_COLUMNS, SPANS, Finder
from .model import Hop, route, scenes
from .plan import Circuit, Plan
from .tables import TableProblem, read_table

MS_OF_KM = 0.005  # light takes 5 microseconds for a kilometre of fibre
MS_OF_FRAME = 0.125
FEW = 2  # frames out, and fewer, take no fibre delay


def added_ms(frames: int, size: int, looped_km: float, longest_km: float) -> float:
    """Returns the fibre delay of an interruption of this number of frames in a ring of this size, in milliseconds.

    A switch takes up to 4n - 4 frames, and in most cases not fewer than 4n - 8: its word and then the bytes go over the
    spans that it leaves in use, of `looped_km` in all. Any other number of frames takes the delay of the longest span each.
    """
    if frames <= FEW:
        return 0.0
    if 4 * size - 8 <= frames <= 4 * size - 4:
        return 2 * looped_km * MS_OF_KM
    return frames * longest_km * MS_OF_KM


@dataclass(frozen=True)
class Lengths:
    """The kilometres of each span, by its position."""

    plan: Plan
    km: tuple[float, ...]
    file: str

    def looped(self, circuit: Circuit, applied: frozenset[int]) -> float:
        """Returns the kilometres that a circuit goes over protection: the spans that its switch leaves in use. 0 where it doesn't."""
        hops = route(self.plan, circuit, applied) or []
        return sum(self.km[span_of(hop)] for hop in hops if hop.protection)

    def way(self, circuit: Circuit, applied: frozenset[int]) -> float:
        """Returns the kilometres from port to port; 0 where the ends aren't joined."""
        return sum(self.km[span_of(hop)] for hop in route(self.plan, circuit, applied) or [])

    def with_fibre(self, frames: int, looped_km: float) -> float:
        """Returns the milliseconds of an interruption of this number of frames with its fibre delay."""
        return frames * MS_OF_FRAME + added_ms(frames, self.plan.size, looped_km, max(self.km))


@dataclass(frozen=True)
class Delays:
    """What the fibres add to the interruptions of a case: by the lengths, and by the spans that are applied at the end of each of its stages."""

    lengths: Lengths
    applied: dict[str, frozenset[int]]  # in the order of the stages

    def of(self, stage: str, frames: int, circuit: Circuit) -> float:
        """Returns the milliseconds with fibre for which a circuit was out in a stage: by its way over protection at the stage's end, or before it where that is longer."""
        names = list(self.applied)
        ends = [self.applied[stage], *(self.applied[name] for name in names[max(0, names.index(stage) - 1) : names.index(stage)])]
        return self.lengths.with_fibre(frames, max(self.lengths.looped(circuit, applied) for applied in ends))


def delays_of(lengths: Lengths | None, plan: Plan, stages: Sequence[str]) -> Delays | None:
    """Returns the delays of a case with these stages, its settle steps, by the restoration model; None where no lengths are known."""
    if lengths is None:
        return None
    ended = scenes(plan, [128 * number for number in range(1, len(stages) + 1)])
    return Delays(lengths, {name: scene.applied for name, scene in zip(stages, ended)})


def fibre_words(ms: float | None) -> str:
    """Returns what stands after a time without fibre; empty where no lengths are known."""
    return "" if ms is None else f" ({ms:.3f} ms with fibre)"


def span_of(hop: Hop) -> int:
    """Returns the span that a step of a way goes over: eastwards in working slots, and westwards on protection."""
    return hop.end if hop.protection else hop.start


def read_lengths(name: str, plan: Plan) -> tuple[Lengths, list[str]]:
    """Returns the length of each span by a table with `from`, `to` and `km`, and in words what of it wasn't read."""
    table, found, finder = read_table(name, SPAN_COLUMNS, ("from", "to", "km"), SPANS), {}, Finder(plan, plan.places)
    for row in table.rows:
        span = finder.span(row)
        if span in found:
            raise row.problem(f"{finder.span_name(span)} stood before")
        if (km := row.number("km")) is None:
            raise row.problem("`km` is empty, and the length of the span is wanted")
        found[span] = km
    if missing := [finder.span_name(span) for span in range(plan.size) if span not in found]:
        raise TableProblem(f"{name}: {', '.join(missing)}: no row has the length")
    return Lengths(plan, tuple(found[span] for span in range(plan.size)), name), table.notes()
