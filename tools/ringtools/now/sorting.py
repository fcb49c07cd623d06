"""The ring as alarms leave it, and what each command, each repair and each further failure makes of it: all by sdhwhatif."""

from __future__ import annotations

from collections.abc import Sequence
from dataclasses import dataclass
from functools import cached_property
from itertools import combinations

from ..desktable import IMPAIRED, KEPT, LOST, OVER, Case, Namer, Outcome, Reading, Table, last_scene, read_cases
from ..failures import LAST_MOMENT, span_fibres
from ..fibre import MS_OF_FRAME, MS_OF_KM, Lengths
from ..model import CLEAR, CUT, arc
from ..origin import Program
from ..plan import SIDES, Circuit, Plan, read_plan, write_plan
from .alarms import Standing

KINDS = ("fibre", "span", "node", "manual", "forced")
SECOND = ("fibre", "span", "node")
WORSE = {KEPT: 0, OVER: 1, IMPAIRED: 2, LOST: 3}
LOSES, IMPAIRS, HELPS, HARMLESS = "loses", "impairs", "helps", "harmless"
PAIRED = 6  # failed spans, up to which pairs of repairs are asked about


def own_texts(plan: Plan, leave_out: bool) -> list[str]:
    """Returns the plan's own script, where it does more than settle."""
    texts = [step.text for step in plan.steps]
    return [] if leave_out or set(texts) == {"settle"} else texts


def steps_of(plan: Plan, standing: Standing) -> list[str]:
    """Returns the steps that make a ring as the alarms have it, the settle steps among them."""
    place = lambda fibre: f"{plan.ids[fibre[0]]} {fibre[1]}"
    waiting = [place(fibre) for fibre in standing.waiting()]
    first = [*(f"cut {words}" for words in waiting), "settle", *(f"mend {words}" for words in waiting)] if waiting else []
    faults = [f"cut {place(fibre)}" if found == CUT else f"degrade {place(fibre)} {found}" for fibre, found in standing.conditions().items()]
    return [*first, *faults, *(f"{word} {place(side)}" for side, word in standing.commands().items())]


@dataclass(frozen=True)
class Change:
    """What becomes of whom where one thing is done or fails, each customer by his circuit."""

    lost: tuple[Circuit, ...]
    back: tuple[Circuit, ...]  # no longer lost
    impaired: tuple[Circuit, ...]  # over protection before
    better: tuple[Circuit, ...]  # no longer impaired
    moved: tuple[Circuit, ...]  # joined before and after, over other spans

    @property
    def kind(self) -> str:
        if self.lost:
            return LOSES
        if self.impaired:
            return IMPAIRS
        return HELPS if self.back or self.better else HARMLESS


@dataclass(frozen=True)
class Command:
    """A command at a side, what it is called, and what it changes. `stands` says that it is given already, or that there is nothing to clear."""

    step: str
    word: str
    at: int
    side: str
    called: str
    change: Change
    stands: bool


@dataclass(frozen=True)
class Repair:
    """The repair of spans: what it changes at once, and once the waiting is over."""

    spans: tuple[int, ...]
    at_once: Change
    waited: Change

    @property
    def worth(self) -> tuple[int, int, int]:
        """By which repairs are ordered: who comes back, who is better, and at once or not."""
        return len(self.waited.back), len(self.waited.better), len(self.at_once.back)


@dataclass(frozen=True)
class Customer:
    """What became of a circuit, over how many spans and kilometres it goes, and how many of these its own arc has."""

    circuit: Circuit
    called: str
    result: str
    spans: int
    own_spans: int
    km: float | None
    own_km: float | None

    @property
    def more_km(self) -> float | None:
        return None if self.km is None or self.own_km is None else self.km - self.own_km

    @property
    def more_ms(self) -> float:
        """The milliseconds by which the way is longer in the ring's own time, a frame a span."""
        return (self.spans - self.own_spans) * MS_OF_FRAME

    @property
    def more_ms_with_fibre(self) -> float | None:
        return None if self.more_km is None else self.more_ms + self.more_km * MS_OF_KM


class Now:
    """The ring as the plan's script and the alarms leave it."""

    def __init__(self, plan: Plan, standing: Standing, program: Program, lengths: Lengths | None = None, leave_out: bool = False):
        self.ring, self.standing, self.program, self.lengths = plan, standing, program, lengths
        self.own = own_texts(plan, leave_out)
        self.steps = steps_of(plan, standing)
        self.texts = [*self.own, *self.steps]
        self.document = self.document_after([])
        self.plan = read_plan(self.document)
        self.reading = Reading(self.plan, plan.places, (), KINDS)
        self.table: Table = read_cases(self.reading, program, self.document, "single")
        self.base: Case = self.table.cases[()]
        self.scene = last_scene(self.plan)

    def document_after(self, steps: Sequence[str]) -> bytes:
        """Returns the plan with these steps after what holds now, once that has settled."""
        texts = self.texts if self.texts[-1:] == ["settle"] else [*self.texts, "settle"]
        return write_plan(self.ring, [*texts, *([*steps, "settle"] if steps else [])]).encode()

    def outcome_after(self, steps: Sequence[str]) -> Outcome:
        """Asks the program what becomes of all circuits after these steps."""
        document = self.document_after(steps)
        reading = Reading(read_plan(document), self.ring.places, (), ("span",))
        return read_cases(reading, self.program, document, "single").cases[()].outcome

    def change(self, outcome: Outcome) -> Change:
        """Returns what differs from now."""
        was, now = self.base.outcome, outcome
        ways = [self.reading.model.goes(found.applied) for found in (was, now)]
        both = list(zip(self.plan.circuits, was.results, now.results, *ways))
        of = lambda test: tuple(circuit for circuit, old, new, *_ in both if test(old, new))
        return Change(
            of(lambda old, new: new == LOST != old),
            of(lambda old, new: old == LOST != new),
            of(lambda old, new: old == OVER and new == IMPAIRED),
            of(lambda old, new: old == IMPAIRED and new in (OVER, KEPT)),
            tuple(circuit for circuit, old, new, way, other in both if LOST not in (old, new) and way != other),
        )

    def command(self, word: str, at: int, side: str) -> Command:
        """Returns a command with what it changes: of the table of failures where it is there, or else asked about by itself."""
        step = f"{word} {self.plan.ids[at]} {side}"
        namer, given = Namer(self.plan, self.ring.places), self.scene.commands[at, side]
        if word == "clear":
            called = f"clear at {namer.place(at)} to {namer.place(self.plan.neighbour(at, side))}{namer.aside(side)}"
            outcome = self.outcome_after([step]) if given else self.base.outcome
            return Command(step, word, at, side, called, self.change(outcome), not given)
        case = next((case for case in self.table.singles(word) if self.failure(case).at == at and self.failure(case).side == side), None)
        outcome = case.outcome if case else self.outcome_after([step])
        return Command(step, word, at, side, namer.name(word, at, side), self.change(outcome), given == word)

    def failure(self, case: Case):
        return self.table.failures[case.failures[0]]

    @cached_property
    def commands(self) -> list[Command]:
        """All commands: for each side a forced and a manual switch, and to clear these."""
        sides = [(at, side) for at in range(self.plan.size) for side in SIDES]
        return [self.command(word, *place) for word in ("clear", "manual", "forced") for place in sides]

    @cached_property
    def failed_spans(self) -> list[int]:
        """The spans with a fibre that is cut or degraded."""
        bad = {fibre for fibre, found in self.scene.conditions.items() if found != CLEAR}
        return [span for span in range(self.plan.size) if bad & set(span_fibres(self.plan, span))]

    def repair(self, spans: Sequence[int]) -> Repair:
        """Returns what the repair of these spans changes: their fibres are mended together."""
        bad = [fibre for span in spans for fibre in span_fibres(self.plan, span) if self.scene.conditions[fibre] != CLEAR]
        mend = [f"mend {self.plan.ids[at]} {side}" for at, side in bad]
        later = f"moment {min(self.scene.moment + self.plan.wait, LAST_MOMENT)}"
        at_once = self.change(self.outcome_after(mend))
        return Repair(tuple(spans), at_once, self.change(self.outcome_after([*mend, "settle", later])) if self.plan.wait else at_once)

    @cached_property
    def repairs(self) -> list[Repair]:
        """Each repair, the one first by which most customers come back; two together where no single one brings any."""
        found = [self.repair([span]) for span in self.failed_spans]
        if self.base.lost and len(found) in range(2, PAIRED + 1) and not any(repair.waited.back for repair in found):
            found += [self.repair(pair) for pair in combinations(self.failed_spans, 2)]
        return sorted(found, key=lambda repair: repair.worth, reverse=True)

    @cached_property
    def seconds(self) -> list[tuple[Case, Change]]:
        """What each further failure changes, the worst first."""
        cases = [case for kind in SECOND for case in self.table.singles(kind)]
        return sorted(((case, self.change(case.outcome)) for case in cases), key=lambda one: -len(one[1].lost))

    @cached_property
    def customers(self) -> list[Customer]:
        """All customers, in the plan's order."""
        found = zip(self.plan.circuits, self.base.results, self.reading.model.goes(self.base.outcome.applied))
        return [self.customer(circuit, letter, way) for circuit, letter, (_, way) in found]

    def customer(self, circuit: Circuit, letter: str, spans: int) -> Customer:
        own, none = arc(self.plan, circuit), letter == LOST
        km = own_km = None
        if self.lengths is not None:
            own_km = sum(self.lengths.km[span] for span in own)
            km = None if none else self.lengths.way(circuit, self.base.outcome.applied)
        return Customer(circuit, self.ring.places.circuit(circuit.name), letter, 0 if none else spans, len(own), km, own_km)

    def of(self, letter: str) -> list[Customer]:
        return [customer for customer in self.customers if customer.result == letter]

    def names(self, circuits: Sequence[Circuit]) -> list[str]:
        return [self.ring.places.circuit(circuit.name) for circuit in circuits]
