"""Whether the spans that a works order frees can be opened under it.

That is what customers lose as the fibres of these spans are cut, and as they are joined again.
"""

from __future__ import annotations

from collections.abc import Iterator
from dataclasses import dataclass

from .escaping import Markup, html, joined
from .failures import OPENING_STAGES, Beforehand, Case, span_fibres
from .fibre import Lengths, delays_of
from .interruptions import Interruptions, count_case
from .kept import Store
from .markup import names
from .model import Scene, scenes
from .outages import read_outages
from .plan import Plan
from .report import ReportProblem


def during(beforehand: Beforehand, works: Case) -> Scene:
    """Returns what holds during the works, by the restoration model."""
    plan = beforehand.plan_of(works)
    rounds = [128 * number for number in range(1, len(works.stages) + 1)]
    return scenes(plan, rounds)[works.settles]


def freed_spans(plan: Plan, scene: Scene) -> list[int]:
    """Returns the spans that are applied during the works and have a switch at an end: those that may be opened."""
    return [span for span in sorted(scene.applied) if any(scene.commands[end] for end in span_fibres(plan, span))]


def with_orders(words: str) -> Markup:
    """Returns words in which what stands between backquotes is an order."""
    return joined(html("<code>{}</code>", part) if number % 2 else part for number, part in enumerate(words.split("`")))


@dataclass(frozen=True)
class Opening:
    """What was counted as the fibres of these spans are cut under the works, and as they are joined again."""

    plan: Plan
    spans: list[int]
    one_sided: list[int]  # of these, the spans that don't have a forced switch at both ends
    counted: Interruptions

    def costs(self) -> dict[str, str]:
        """Returns who is interrupted, and for how long at most, in each of the two stages in which any customer is."""
        stages = [stage for stage in OPENING_STAGES[2:] if stage in self.counted.stages]
        told = {stage: self.counted.stage_words(stage, self.plan) for stage in stages}
        return {stage: words for stage, words in told.items() if words}

    def sides(self) -> Iterator[str]:
        """Yields, of each span with a switch on one side alone, the order that has both."""
        for span in self.one_sided:
            order = f"span {'-'.join(map(str, self.plan.ends(span)))}"
            yield f"{self.plan.span_name(span)} has no forced switch on both its sides; under the order `{order}`, which has, none of this comes"

    def words(self) -> str:
        """Returns all of it in one sentence or two; empty where the works free no span."""
        if not self.spans:
            return ""
        called = names(map(self.plan.span_title, self.spans))
        if self.counted.problem:
            return f"Whether {called} can be opened under this order isn't known: {self.counted.problem}."
        if not (costs := self.costs()):
            told = "no customer is interrupted as the fibres are cut, and none as they are joined again"
            return f"{called} can be opened under this order: {told}."
        how = {"opened": "interrupted as the fibres are cut", "closed": "interrupted as they are joined again"}
        told = "; ".join(f"{how[stage]}: {words}" for stage, words in costs.items())
        first = f"{called} can't be opened under this order without interruptions"
        return ". ".join([first, told[0].upper() + told[1:], *self.sides()]) + "."

    def line(self) -> Markup:
        """Returns the words, the first sentence set off where the spans can't be opened."""
        if not self.counted.problem and not self.costs():
            return with_orders(self.words())
        first, end, rest = self.words().partition(". ")
        return html("<strong>{}</strong>{}{}", with_orders(first), end, with_orders(rest))


def opening_case(beforehand: Beforehand, works: Case) -> Case:
    """Returns the case in which the fibres of the spans that the works free are cut under them, and joined again; it cuts none where no span is freed."""
    spans = freed_spans(beforehand.plan, during(beforehand, works))
    fibres = tuple(fibre for span in spans for fibre in span_fibres(beforehand.plan, span))
    return Case("opening", "opening", "the opening", fibres, settles=works.settles)


def count_opening(store: Store, beforehand: Beforehand, works: Case, lengths: Lengths | None = None) -> Opening:
    """Has sdhoutage count what opening the freed spans takes, where the works free any."""
    plan, scene = beforehand.plan, during(beforehand, works)
    spans = freed_spans(plan, scene)
    one_sided = [span for span in spans if any(scene.commands[end] != "forced" for end in span_fibres(plan, span))]
    case = opening_case(beforehand, works)
    if not spans:
        return Opening(plan, spans, one_sided, Interruptions(store, case.name))
    count_case(store, beforehand, case)
    answer, text = store.both(case.name)
    try:
        if answer is None:
            raise ReportProblem("it was stopped")
        steps = read_outages(text, beforehand.plan_of(case))
        if len(steps) != len(case.stages):
            raise ReportProblem(f"{len(steps)} of {len(case.stages)} settle steps were counted")
    except ReportProblem as problem:
        why = f"{store.program.words[0]}: {problem}"
        return Opening(plan, spans, one_sided, Interruptions(store, case.name, problem=why, answer=answer))
    delays = delays_of(lengths, beforehand.plan_of(case), case.stages)
    counted = Interruptions(store, case.name, steps, case.settles - 1, names=OPENING_STAGES, delays=delays, answer=answer)
    return Opening(plan, spans, one_sided, counted)
