"""What an answer comes to, in a line or three for a terminal; and whether it is what --fail-on names."""

from __future__ import annotations

from collections.abc import Iterator
from dataclasses import dataclass, field

from . import desktable
from .answers import SINGLE, Answers
from .desktable import Reading, ToldProblem, read_cases
from .fibre import fibre_words
from .interruptions import Interruptions
from .markup import count_of
from .opening import Opening
from .origin import CannotRun, Program
from .outages import frames_words
from .shown import shown
from .told import Told
from .verdicts import Verdict

LOST, IMPAIRED, INTERRUPTED = "lost", "impaired", "interrupted"
FAILS = (LOST, IMPAIRED, INTERRUPTED)
FAILED_ON = 5  # the status where it is what --fail-on names
NAMED = 6  # customers that a line names
SECOND = ("fibre", "span", "node")


def some(names: list[str]) -> str:
    """Returns the first few of these names."""
    return ", ".join(names[:NAMED]) + (f" and {len(names) - NAMED} more" if len(names) > NAMED else "")


def counted(number: int, what: str) -> str:
    return f"{number or 'none'} {what}"


@dataclass
class Found:
    """Which customers are lost, impaired or interrupted; None where that isn't asked. One that is lost is impaired and interrupted too."""

    lost: set[str] = field(default_factory=set)
    impaired: set[str] | None = None
    interrupted: set[str] | None = None

    def fails(self, on: str | None) -> bool:
        """Whether it is what --fail-on names."""
        worse = {LOST: self.lost, IMPAIRED: self.lost | (self.impaired or set()), INTERRUPTED: self.lost | (self.interrupted or set())}
        return on is not None and bool(worse[on])


class WorksInShort:
    """Works by what was counted of them, and of the opening of the spans that they free."""

    def __init__(self, verdict: Verdict, counted: Interruptions, opening: Opening | None, plan):
        self.plan, self.verdict, self.counted, self.opening = plan, verdict, counted, opening
        self.before, self.during = verdict.stage("before"), verdict.stage("during")
        self.found = Found(self.gone("lost"), self.gone("impaired"), {circuit.name for circuit in self.breaks()})

    def gone(self, kind: str) -> set[str]:
        """Returns who is so while the works go on, or after them, and wasn't before."""
        later = [stage for stage in self.verdict.stages if self.before and stage.name in ("during", "after", "waited")]
        return {name for stage in later for name in stage.all_of(kind)} - {name for name in self.before.all_of(kind)} if later else set()

    def parts(self) -> Iterator[tuple[Interruptions, str]]:
        """Yields each stage after the first of the works and of the opening, with what was counted of it."""
        opened = [(self.opening.counted, ("opened", "closed"))] if self.opening and self.opening.spans else []
        for counted, names in [(self.counted, ("during", "after", "waited")), *opened]:
            yield from ((counted, name) for name in names if name in counted.stages)

    def breaks(self) -> dict:
        """Returns who is out for a frame or more in some stage and comes back, with the longest of that in frames, and in milliseconds with fibre."""
        found: dict = {}
        for counted, stage in self.parts():
            for circuit in counted.hit(stage, self.plan.circuits):
                outage = counted.of(stage, circuit)
                if outage.out and not outage.is_out_still:
                    old = found.get(circuit, (0, 0.0))
                    found[circuit] = max(old[0], outage.longest), max(old[1], counted.fibre_ms(stage, outage.longest, circuit) or 0.0)
        return found

    def interrupted(self) -> str:
        if self.counted.problem:
            return f"how long customers are interrupted isn't known: {self.counted.problem}"
        breaks, of = self.breaks(), len(self.plan.circuits)
        if not breaks:
            return "no customer interrupted"
        ms = max(ms for _, ms in breaks.values()) if self.counted.delays else None
        return f"{len(breaks)} of {count_of(of, 'customer')} interrupted, at most {frames_words(max(frames for frames, _ in breaks.values()))}{fibre_words(ms)}"

    def lines(self, order: str) -> Iterator[str]:
        """Yields what the order comes to, and whether its spans can be opened."""
        if self.during is None:
            yield f"{order}: no report of the works, so nothing is known of them: {self.verdict.problem}"
            return
        called = self.plan.places.circuit
        lost, impaired = (sorted(map(called, found)) for found in (self.found.lost, self.found.impaired))
        told = [self.interrupted(), f"{len(lost)} LOST: {some(lost)}" if lost else "none lost"]
        told += [f"{len(impaired)} impaired: {some(impaired)}"] if impaired else []
        yield f"{order}: {'; '.join(told)}"
        if self.opening and self.opening.words():
            yield self.opening.words()


@dataclass(frozen=True)
class Seconds:
    """What one failure more comes to, by sdhwhatif: for each case its words and who is lost by it."""

    cases: list[tuple[str, list[str]]]
    problem: str = ""

    def line(self, when: str, customers: int) -> str:
        """Returns in how many cases customers are lost, and the worst of these."""
        if self.problem:
            return f"what one failure more {when} takes isn't known: {self.problem}"
        losing = [(words, lost) for words, lost in self.cases if lost]
        told = f"one failure more {when} loses customers in {counted(len(losing), f'of {len(self.cases)} cases')}"
        if not losing:
            return told
        words, lost = max(losing, key=lambda case: len(case[1]))
        return f"{told}; the worst, {words}: {len(lost)} of {customers}"


def seconds_of(plan, document: bytes, program: Program, kinds=SECOND) -> Seconds:
    """Asks sdhwhatif what each failure of these kinds loses besides what is lost already. `plan` has the script of the document."""
    try:
        table = read_cases(Reading(plan, plan.places, (), kinds), program, document, "single")
    except (ToldProblem, CannotRun) as problem:
        return Seconds([], str(problem))
    names = [circuit.name for circuit in plan.circuits]
    lost = lambda case: {name for name, letter in zip(names, case.results) if letter == desktable.LOST}
    already = lost(table.cases[()])
    return Seconds([(table.words(case), sorted(lost(case) - already)) for case in table.of_depth(1)])


def answers_lines(title: str, answers: Answers) -> Iterator[str]:
    """Yields what each failure alone, and each pair of spans, comes to."""
    total, before = len(answers.circuits), answers.lost_before()
    if before:
        yield f"{title}: {len(before)} of {count_of(total, 'customer')} LOST before anything fails: {some([answers.plan.places.circuit(name) for name in before])}"
    single = [kind for kind in (*SINGLE, "node") if kind in answers.kinds]
    if single:
        told = [kind_words(answers, kind) for kind in single]
        yield f"{title}: alone, customers are lost with {', '.join(told)}"
    if "pair" in answers.kinds:
        yield f"{title}: together, customers are lost with {kind_words(answers, 'pair')}{worst_words(answers)}"


def kind_words(answers: Answers, kind: str) -> str:
    """Returns in how many failures of a kind customers are lost; those that end at a lost node don't count."""
    failed = answers.failed((kind,))
    lost = answers.besides_ends if kind == "node" else answers.taken
    plural = {"pair": "pairs of spans", "node": "nodes"}.get(kind, f"{kind}s")
    besides = " besides those that end there" if kind == "node" else ""
    return f"{sum(bool(lost(verdict)) for verdict, _ in failed)} of {len(failed)} {plural}{besides}"


def worst_words(answers: Answers) -> str:
    """Returns the pair of spans with which the most customers are lost."""
    taken = [(len(answers.taken(verdict)), verdict.case.words) for verdict, _ in answers.failed(("pair",))]
    most = max(taken, key=lambda one: one[0], default=(0, ""))
    return f"; the worst, {most[1]}: {most[0]} of {len(answers.circuits)}" if most[0] else ""


def answers_found(answers: Answers) -> Found:
    """Returns who is lost in some failure or before any, those at a lost node left out; and who is impaired."""
    found = Found(set(answers.lost_before()), set())
    for verdict, stage in answers.failed(answers.kinds):
        found.lost |= set(answers.besides_ends(verdict) if verdict.case.kind == "node" else answers.taken(verdict))
        found.impaired |= set(stage.all_of("impaired"))
    return found


def told_lines(title: str, told: Told) -> Iterator[str]:
    """Yields in how many cases of each number of failures customers are lost, those that end at a lost node left out, and the worst."""
    total, base = len(told.names), told.table.cases.get(())
    if base is not None and base.lost:
        yield f"{title}: {base.lost} of {count_of(total, 'customer')} LOST before anything fails: {some([told.called[name] for name in told.lost(base)])}"
    for depth in told.depths():
        cases = [(len(told.besides(case)), case) for case in told.table.of_depth(depth)]
        losing = [one for one in cases if one[0]]
        failures = "1 failure" if depth == 1 else f"{depth} failures"
        words = f"{title}: with {failures}, customers are lost besides those that end at a lost node in {counted(len(losing), f'of {len(cases)} cases')}"
        most, worst = max(losing, key=lambda one: one[0], default=(0, None))
        yield f"{words}; the worst, {told.table.words(worst)}: {most} of {total}" if worst else words


def told_found(told: Told) -> Found:
    """Returns who is lost and who is impaired in some case; those that end at a lost node don't count as lost."""
    found = Found(set(), set())
    for case in told.all():
        found.lost |= set(told.besides(case))
        found.impaired |= set(told.of(case, desktable.IMPAIRED))
    return found


def tell(lines: Iterator[str]) -> None:
    """Writes lines to standard output at once, before pages are made."""
    for line in lines:
        print(shown(line), flush=True)
