"""The failures that sdhring-whatif asks about, each with the script that makes it and mends it again; and the works of an order."""

import re
from dataclasses import dataclass, replace
from itertools import combinations

from .model import CUT, CLEAR, Script
from .naming import NoNode, with_identifiers
from .places import composed
from .plan import PlanProblem, read_step, write_plan

SCRIPT = "script"  # a settle step of the plan's own script, before the last one
STAGES = ("before", "failed", "mended", "waited")
WORKS_STAGES = ("before", "during", "after", "waited")
OPENING_STAGES = ("before", "during", "opened", "closed")
KINDS = ("fibre", "span", "node", "pair")
SIGN = re.compile("[-–]")
WORKS_FORMS = {"span": re.compile(".+[-–].+"), "node": re.compile("[0-9]+|.*[^-–0-9 ].*")}
WORKS_WORDS = {"span": "a span is named by the nodes at its ends, as `span 2-3`", "node": "a node is named alone, as `node 4`"}
LAST_MOMENT = 1_000_000_000


@dataclass(frozen=True)
class Case:
    """One failure: the fibres that are cut, each by the position and side that it leaves. Or the works, which cut nothing; or the opening of the
    fibres that the works free; or a case by its steps."""

    name: str  # also of its files
    kind: str  # fibre, span, node, pair, works, opening or told
    words: str
    fibres: tuple = ()
    steps: tuple = ()  # of a case of sdhwhatif's, which isn't mended
    settles: int = 1  # settle steps up to the stage `before`

    @property
    def own_stages(self):
        """The stages that are the case's own, without those of the plan's script."""
        return {"works": WORKS_STAGES, "opening": OPENING_STAGES, "told": STAGES[:2]}.get(self.kind, STAGES)

    @property
    def stages(self):
        return (SCRIPT,) * (self.settles - 1) + self.own_stages


def span_fibres(plan, span):
    return (span, "east"), ((span + 1) % plan.size, "west")


def cut_by(plan, kind, at, side=""):
    """The fibres that are cut where a fibre, span or node of the ring fails; anything else cuts none."""
    if kind == "fibre":
        return ((at, side),)
    spans = {"span": [at], "node": [(at - 1) % plan.size, at]}.get(kind, [])
    return tuple(fibre for span in spans for fibre in span_fibres(plan, span))


def span_slug(plan, span):
    return "{}-{}".format(*plan.ends(span))


def fibre_cases(plan, span):
    for at, side in span_fibres(plan, span):
        words = f"fibre {plan.node_name(at)} → {plan.node_name(plan.neighbour(at, side))}"
        yield Case(f"fibre-{plan.ids[at]}-{side}", "fibre", words, ((at, side),))


def span_case(plan, span):
    return Case(f"span-{span_slug(plan, span)}", "span", f"span {plan.span_title(span)}", span_fibres(plan, span))


def pair_case(plan, one, other):
    words = f"spans {plan.span_title(one)} and {plan.span_title(other)}"
    name = f"pair-{span_slug(plan, one)}-and-{span_slug(plan, other)}"
    return Case(name, "pair", words, span_fibres(plan, one) + span_fibres(plan, other))


def node_case(plan, at):
    return Case(f"node-{plan.ids[at]}", "node", f"node {plan.node_name(at)} lost", cut_by(plan, "node", at))


def failures_of(plan):
    """Each fibre alone, each span, each node, each pair of spans."""
    cases = []
    for span in range(plan.size):
        cases += [*fibre_cases(plan, span), span_case(plan, span)]
    cases += [node_case(plan, at) for at in range(plan.size)]
    return cases + [pair_case(plan, one, other) for one, other in combinations(range(plan.size), 2)]


def all_cases(beforehand, kinds=KINDS):
    """The works, where there are any, and each failure of these kinds."""
    works = [Case("works", "works", f"the works: {beforehand.works_words()}")] if beforehand.works else []
    found = works + [case for case in failures_of(beforehand.plan) if case.kind in kinds]
    return [replace(case, settles=beforehand.settles_before(case)) for case in found]


def shard_of(cases, shard, shards):
    """The `shard`-th of `shards` parts, counted from 1; put one after the other they are the whole."""
    return cases[len(cases) * (shard - 1) // shards : len(cases) * shard // shards]


def held(plan, steps):
    """The script as far as these steps, with what holds after them."""
    script = Script(plan)
    for step in steps:
        script.apply(step)
    return script


class Beforehand:
    """The steps before each failure, those of the works last, and what holds after them. `order` is the works order in its own words.

    `own` is the plan's own script, which ends in a settle step; where it is left out, `left_out` has its steps but for settle steps.
    """

    def __init__(self, plan, steps, works=(), order=(), script=(), left_out=()):
        self.plan, self.also, self.works, self.order, self.own = plan, tuple(steps), tuple(works), tuple(order), tuple(script)
        self.left_out = tuple(left_out)
        self.steps = self.own + self.also + self.works
        after = held(plan, self.steps)
        self.conditions, self.moment = after.conditions, after.moment

    def texts(self):
        return [step.text for step in self.steps]

    def also_texts(self):
        return [step.text for step in self.also]

    def works_texts(self):
        return [step.text for step in self.works]

    def own_texts(self):
        """What the plan's own script does, without its settle steps."""
        return [step.text for step in self.own if step.word != "settle"]

    def script_words(self):
        """The plan's own script in a cell of a table."""
        return "left out" if self.left_out else "; ".join(step.text for step in self.own)

    def works_words(self):
        """The order in its own words, and the steps that these stand for where they are others."""
        words, steps = "; ".join(self.order), "; ".join(self.works_texts())
        return words if words == steps else f"{words} ({steps})"

    def settled_texts(self):
        """The steps up to where the ring has settled before a failure; a plan's own script has settled already."""
        return self.settled(self.also + self.works)

    def settled(self, more):
        """The plan's own script, and these steps with a settle step after them. A script that only settles is left out where steps come after it."""
        texts = [step.text for step in self.own] if self.own_texts() or not more else []
        return texts + [step.text for step in more] + ["settle"] if more or not texts else texts

    def settles_before(self, case):
        """The number of settle steps up to the stage `before`."""
        return self.settled(self.also if case.kind in ("works", "opening") else self.also + self.works).count("settle")

    def later(self):
        """The moment when every wait that begins with the mending is over, as far as moments go."""
        return min(self.moment + self.plan.wait, LAST_MOMENT)

    def place(self, place):
        at, side = place
        return f"{self.plan.ids[at]} {side}"

    def condition_step(self, fibre, condition):
        words = {CUT: f"cut {self.place(fibre)}", CLEAR: f"mend {self.place(fibre)}"}
        return words.get(condition) or f"degrade {self.place(fibre)} {condition}"

    def undoing(self):
        """The steps that put back what the works changed, the last first."""
        before, places = held(self.plan, self.own + self.also), []
        for step in reversed(self.works):
            place = step.word in ("forced", "manual", "clear"), (step.at, step.side)
            if step.side is not None and place not in places:
                places.append(place)
        commands = lambda place: f"{before.commands[place] or 'clear'} {self.place(place)}"
        return [commands(place) if is_command else self.condition_step(place, before.conditions[place]) for is_command, place in places]

    def script(self, case):
        """The script of a case: up to `before`, then the failure, its mending and the wait, or the works, their end and the wait. A case by its steps isn't mended."""
        if case.kind == "told":
            return [*self.settled_texts(), *case.steps, "settle"]
        waited = ["settle", f"moment {self.later()}", "settle"]
        if case.kind == "works":
            return [*self.settled(self.also), *self.works_texts(), "settle", *self.undoing(), *waited]
        fail = [self.condition_step(fibre, CUT) for fibre in case.fibres]
        mend = [self.condition_step(fibre, self.conditions[fibre]) for fibre in case.fibres]
        if case.kind == "opening":
            return [*self.settled(self.also), *self.works_texts(), "settle", *fail, "settle", *mend, "settle"]
        return [*self.settled_texts(), *fail, "settle", *mend, *waited]

    def plan_of(self, case):
        steps = [read_step(text, place + 1, self.plan.ids) for place, text in enumerate(self.script(case))]
        return replace(self.plan, steps=tuple(steps))

    def document(self, case):
        return write_plan(self.plan, self.script(case)).encode()

    def document_of_nothing(self):
        return write_plan(self.plan, self.settled_texts()).encode()


def span_named(plan, one, other):
    """The position of the span between these two nodes; in a ring of two the one that leads eastwards from the first."""
    for span in range(plan.size):
        if plan.ends(span) == (one, other):
            return span
    return span_named(plan, other, one) if (other, one) in map(plan.ends, range(plan.size)) else None


def forced(plan, at, side):
    return f"forced {plan.ids[at % plan.size]} {side}"


def span_called(plan, words):
    """The position of the span between the nodes called so, as `3-4` or `Köln–Bonn`, or None; a place may have a hyphen of its own."""
    nodes = plan.places.positions(plan.ids)
    for sign in SIGN.finditer(words):
        one, other = (nodes.get(end.strip().casefold()) for end in (words[: sign.start()], words[sign.end() :]))
        if None not in (one, other):
            return span_named(plan, plan.ids[one], plan.ids[other])
    return None


def span_steps(plan, words):
    """A span in words, and forced switches on both its sides, so that no cut or mending during the works interrupts its customers again."""
    span = span_called(plan, words)
    if span is None:
        spans = ", ".join(plan.span_title(at).replace("–", "-", 1) for at in range(plan.size))
        raise PlanProblem(f"no span joins node {' and node '.join(SIGN.split(words, maxsplit=1))}; the spans are {spans}")
    return plan.span_title(span), [forced(plan, span, "east"), forced(plan, span + 1, "west")]


def node_steps(plan, words):
    """A node in words, and forced switches at both its neighbours, towards it."""
    at = plan.places.positions(plan.ids).get(words.casefold())
    if at is None:
        raise PlanProblem(f"no node {words}; the nodes are {', '.join(map(plan.node_name, range(plan.size)))}")
    return plan.node_name(at), [forced(plan, at - 1, "east"), forced(plan, at + 1, "west")]


def step_called(plan, text):
    """A step with the identifier of its node, which may be named by its place."""
    try:
        return with_identifiers(plan.ids, plan.places, text)
    except NoNode as problem:
        raise PlanProblem(str(problem)) from None


def works_part(plan, text):
    """A part of an order in words and in steps: `span A-B` and `node A` free these of traffic; any step stands for itself."""
    kind, _, words = text.partition(" ")
    if kind not in WORKS_FORMS:
        step = step_called(plan, text)
        return step, [step]
    if not WORKS_FORMS[kind].fullmatch(words):
        raise PlanProblem(f"`{text}` isn't a part of an order: {WORKS_WORDS[kind]}")
    called, steps = (span_steps if kind == "span" else node_steps)(plan, words)
    return f"{kind} {called}" if plan.places.nodes else text, steps


def parts_of(words):
    return [" ".join(part.split()) for part in composed(words or "").split(";") if part.strip()]


def read_steps_of(plan, texts):
    steps = [read_step(text, place + 1, plan.ids) for place, text in enumerate(texts)]
    if any(step.word == "settle" for step in steps):
        raise PlanProblem("sdhring-whatif settles the ring itself, so `settle` can't be among the steps before")
    return steps


def read_beforehand(plan, also, works=None, script=(), left_out=()):
    """The steps of `--also` and of `--works`, separated by semicolons, after those of the plan's own script where it counts."""
    order = [works_part(plan, part) for part in parts_of(works)]
    steps = [step for _, part in order for step in part]
    before = [step for part in parts_of(also) for step in works_part(plan, part)[1]]
    return Beforehand(plan, read_steps_of(plan, before), read_steps_of(plan, steps), [words for words, _ in order], script, left_out)
