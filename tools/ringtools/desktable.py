"""The cases of a ring: which failures, which spans are applied, and what becomes of each circuit. This module alone knows the form of sdhwhatif's table.

The table has all of it. The restoration model computes it again, and a case whose record differs from the model's in any byte is refused.
"""

import time
from dataclasses import dataclass
from functools import cached_property
from itertools import chain, combinations
from typing import NamedTuple

from .failures import span_fibres
from .model import CUT, DEGRADE, FAIL, FORCED, MANUAL, WAIT, applied_spans, arc, scenes, span_requests
from .plan import SIDES
from .reasons import REASONS
from .report import BAD_PLAN
from .programs import ask

KEPT, IMPAIRED, OVER, LOST = "k", "i", "o", "l"
GROUP = "group"  # failures of the ring that come together, as `own` words name them
RESULTS = {KEPT: "kept", IMPAIRED: "impaired", OVER: "over", LOST: "lost"}  # as a run shows them
KINDS = ("degraded", "fibre", "span", "node", "manual", "forced")  # of the ring's own failures
ALL_KINDS = (*KINDS, GROUP)
KIND_WORDS = ("degraded", "fibres", "spans", "nodes", "manual", "forced")  # as sdhwhatif calls these
DEPTHS = {"single": 1, "double": 2, "triple": 3}
WHOLE = (1, 1)  # the first part of one
FIELDS = ("number", "failures", "steps", "applied", "kept", "impaired", "over", "lost", "hops")  # before those of the circuits


class ToldProblem(Exception):
    """What the program wrote isn't a whole table of the plan."""


@dataclass(frozen=True)
class Failure:
    """One thing that fails or is switched: at a position, and of a side but for spans and nodes. Or a group of these, at no position."""

    kind: str
    at: int
    side: str
    name: str  # with places in place of numbers
    label: str  # as `span 3-4`
    called: str  # so in sdhwhatif's table
    steps: tuple
    members: tuple = ()  # of a group

    @property
    def parts(self):
        """What fails: the members of a group, or this alone."""
        return self.members or (self,)


@dataclass(frozen=True, eq=False)
class Outcome:
    """What becomes of all circuits where these spans are applied: a letter for each circuit, and the longest way in spans. A table has each once.

    A circuit is impaired that is kept, though a span of its own arc is degraded or asked for.
    """

    applied: frozenset
    results: str
    hops: int

    @cached_property
    def counts(self):
        return tuple(self.results.count(letter) for letter in (KEPT, IMPAIRED, OVER, LOST))


class Case(NamedTuple):
    """The numbers of what fails, which grow, and what comes of it."""

    failures: tuple
    outcome: Outcome

    @property
    def lost(self):
        return self.outcome.counts[3]

    @property
    def results(self):
        return self.outcome.results


@dataclass(frozen=True)
class Table:
    """All cases up to a depth, or a part of them, by the numbers of their failures, in the order of these."""

    failures: tuple
    cases: dict
    depth: str
    part: tuple = WHOLE
    text: bytes = b""  # as the program wrote it
    seconds: float = 0.0

    def words(self, case):
        """What fails, with places in place of numbers."""
        return " and ".join(self.failures[number].name for number in case.failures) or "nothing more"

    def labels(self, case):
        return tuple(self.failures[number].label for number in case.failures)

    def kinds(self, case):
        return tuple(self.failures[number].kind for number in case.failures)

    def steps(self, case):
        return tuple(step for failure in worst_last([self.failures[number] for number in case.failures]) for step in failure.steps)

    def of_depth(self, depth):
        return (case for case in self.cases.values() if len(case.failures) == depth)

    def singles(self, kind):
        for number, failure in enumerate(self.failures):
            if failure.kind == kind and (number,) in self.cases:
                yield self.cases[(number,)]


class Namer:
    """Names of failures: with places in place of numbers, and as labels with numbers alone. In a ring of two nodes a side distinguishes two names that would be alike."""

    def __init__(self, plan, places):
        self.plan, self.places = plan, places

    def place(self, at):
        return self.places.place(self.plan.ids[at % self.plan.size])

    def aside(self, side):
        return f" ({side})" if self.plan.size == 2 else ""

    def name(self, kind, at, side):
        if kind in ("span", "node"):
            return f"span {self.place(at)}–{self.place(at + 1)}" if kind == "span" else f"node {self.place(at)}"
        words = {"fibre": "fibre {0}>{1}{2} cut", "degraded": "fibre {0}>{1}{2} degraded", "manual": "manual switch at {0} to {1}{2}", "forced": "forced switch at {0} to {1}{2}"}
        return words[kind].format(self.place(at), self.place(self.plan.neighbour(at, side)), self.aside(side))

    def called(self, kind, at, side):
        here = self.plan.ids[at]
        if kind in ("span", "node"):
            return "span {}-{}".format(*self.plan.ends(at)) if kind == "span" else f"node {here}"
        return f"{kind} {here}>{self.plan.ids[self.plan.neighbour(at, side)]}"

    def label(self, kind, at, side):
        return self.called(kind, at, side) + (self.aside(side) if side else "")


def steps_of(plan, kind, at, side):
    place = f"{plan.ids[at]} {side}"
    cuts = lambda span: tuple(f"cut {plan.ids[here]} {way}" for here, way in span_fibres(plan, span))
    return {
        "degraded": (f"degrade {place} {plan.threshold}",),
        "fibre": (f"cut {place}",),
        "span": cuts(at),
        "node": cuts(at) + cuts((at - 1) % plan.size),
        "manual": (f"manual {place}",),
        "forced": (f"forced {place}",),
    }[kind]


def worst_last(failures: "list[Failure]") -> "list[Failure]":
    """Failures in the order of their steps, as the program has it: of two about one fibre or side the worse one comes later, and so holds."""
    return sorted(failures, key=lambda failure: {"degraded": 0, "forced": 2}.get(failure.kind, 1))


def group_failure(number, group, ring):
    """A group as one failure, with its members beside its name; `ring` has the ring's own by kind, position and side."""
    members = tuple(ring[member] for member in group.members)
    name, steps = f"group {group.name}", tuple(step for one in members for step in one.steps)
    shown = f"{name} ({', '.join(one.name for one in members)})"
    return Failure(GROUP, None, "", shown, name, f"own {number}", steps, members)


def failures_of(plan, places, groups=(), kinds=KINDS):
    """All failures of these kinds by their numbers, as docs/WHATIF.md counts them from 1; here from 0. Groups are the user's own."""
    namer, found = Namer(plan, places), []
    for kind in KINDS:
        for at in range(plan.size):
            for side in SIDES if kind not in ("span", "node") else ("",):
                words = [name(kind, at, side) for name in (namer.name, namer.label, namer.called)]
                found.append(Failure(kind, at, side, *words, steps_of(plan, kind, at, side)))
    ring = {(one.kind, one.at, one.side): one for one in found}
    found = [one for one in found if one.kind in kinds]
    return (*found, *(group_failure(number, group, ring) for number, group in enumerate(groups, 1)))


def rounds_of(settles):
    return [128 * (number + 1) for number in range(settles)]


def last_scene(plan):
    """What holds when the plan's script has come to its end."""
    return scenes(plan, rounds_of(sum(step.word == "settle" for step in plan.steps)))[-1]


class Model:
    """What the restoration model says of a case, beside what the plan's script leaves.

    A failure only ever raises what spans ask for, so a case asks for the highest of what the script left and of its failures. For each
    of these a set of spans is kept for each request; signal failures and forced switches, which are applied side by side, share one.
    """

    LEVELS = (FAIL, DEGRADE, MANUAL, WAIT)
    RAISES = {"degraded": DEGRADE, "fibre": FAIL, "span": FAIL, "node": FAIL, "manual": MANUAL, "forced": FORCED, GROUP: FAIL}

    def __init__(self, plan, failures):
        self.plan, self.last = plan, last_scene(plan)
        self.base = self.sets((span, request) for span, request in enumerate(span_requests(plan.size, self.last.requests)) if request)
        self.raised = [self.sets((span, self.RAISES[failure.kind]) for span in self.spans_of(failure)) for failure in failures]
        self.arcs = [frozenset(arc(plan, circuit)) for circuit in plan.circuits]
        self.lanes = [(circuit.start, len(own), sum(1 << span for span in own)) for circuit, own in zip(plan.circuits, self.arcs)]
        self.known, self.outcomes, self.ways = {}, {}, {}

    def sets(self, asked):
        """A number for each level, with a bit for each span that asks for it."""
        found = dict.fromkeys(self.LEVELS, 0)
        for span, request in asked:
            found[min(request, FAIL)] |= 1 << span
        return tuple(found.values())

    def spans_of(self, failure):
        if failure.members:
            return [span for one in failure.members for span in self.spans_of(one)]
        at, size = failure.at, self.plan.size
        if failure.kind in ("span", "node"):
            return [at] if failure.kind == "span" else [at, (at - 1) % size]
        return [self.plan.span(at, failure.side)]

    def mends(self, failure):
        """Whether a failure would take away what the script left; such cases aren't in the table."""
        place = failure.at, failure.side
        return failure.kind == "degraded" and self.last.conditions[place] == CUT or failure.kind == "manual" and self.last.commands[place] == "forced"

    def outcome(self, numbers):
        """What comes of these failures, by their numbers."""
        fail, degrade, manual, wait = self.base
        for number in numbers:
            raised = self.raised[number]
            fail, degrade, manual = fail | raised[0], degrade | raised[1], manual | raised[2]
        sets = (fail, 0, 0, 0) if fail else (0, degrade, manual, wait)
        key = sets, fail | degrade | manual
        if key not in self.known:
            troubled = {span for span in range(self.plan.size) if key[1] >> span & 1}
            self.known[key] = self.of_applied(self.applied(sets), troubled)
        return self.known[key]

    def applied(self, sets):
        highest = lambda span: max((level for level, spans in zip(self.LEVELS, sets) if spans >> span & 1), default=0)
        return applied_spans([highest(span) for span in range(self.plan.size)])

    def of_applied(self, applied, troubled):
        found = self.goes(applied)
        letters = "".join(IMPAIRED if letter == KEPT and troubled & own else letter for (letter, _), own in zip(found, self.arcs))
        if (applied, letters) not in self.outcomes:
            self.outcomes[applied, letters] = Outcome(applied, letters, max((way for _, way in found), default=0))
        return self.outcomes[applied, letters]

    def goes(self, applied):
        """Of each circuit, where these spans are applied, whether it is kept, over protection or lost, and over how many spans it goes."""
        if applied not in self.ways:
            spans = sum(1 << span for span in applied)
            self.ways[applied] = [self.way(*lane, spans) for lane in self.lanes]
        return self.ways[applied]

    def way(self, start, length, own, spans):
        """Of an arc, by where it begins, its length and its spans as bits, whether it is kept, over protection or lost where these spans are applied, and over how many spans.

        Over protection the way leads to the first applied span of the arc, all the way back to behind the last one, and on.
        """
        if not own & spans:
            return KEPT, length
        if spans & ~own:
            return LOST, 0
        size = self.plan.size
        struck = (spans >> start | spans << (size - start)) & ((1 << size) - 1)  # counted from the beginning of the arc
        first, last = (struck & -struck).bit_length() - 1, struck.bit_length() - 1
        return OVER, first + size - (last + 1 - first) + length - (last + 1)


class Reading:
    """Reads the text of one plan's table, whole or a part of it."""

    def __init__(self, plan, places, groups=(), kinds=KINDS):
        self.plan, self.failures = plan, failures_of(plan, places, groups, kinds)
        self.model = Model(plan, self.failures)
        self.head = ",".join([*FIELDS, *(circuit.name for circuit in plan.circuits)])
        self.steps = ["".join(f'""{step}"", ' for step in failure.steps) for failure in self.failures]
        self.first_group = len(self.failures) - len(groups)
        self.ends = {}

    def numbers(self, depth, part):
        """The failures of each case of this part, in the order of the table, and its number among all."""
        there = [number for number, failure in enumerate(self.failures) if not self.model.mends(failure)]
        found = chain.from_iterable(combinations(there, count) for count in range(DEPTHS[depth] + 1))
        return ((place, numbers) for place, numbers in enumerate(found) if part == WHOLE or place % part[1] == part[0] - 1)

    def begin(self, place, numbers):
        """What stands before the outcome of a case."""
        names = " + ".join(self.failures[number].called for number in numbers)
        return f'{place},{names},"{self.steps_text(numbers)}""settle""",'

    def steps_text(self, numbers: tuple[int, ...]) -> str:
        """The steps of a case as its record has them. The ring's own failures are in the order of their steps."""
        if numbers and numbers[-1] >= self.first_group:
            return "".join(f'""{step}"", ' for failure in worst_last([self.failures[number] for number in numbers]) for step in failure.steps)
        return "".join(self.steps[number] for number in numbers)

    def end(self, outcome):
        """The outcome of a case, as its record has it."""
        if outcome not in self.ends:
            spans = " ".join("{}-{}".format(*self.plan.ends(span)) for span in sorted(outcome.applied))
            cells = {KEPT: "", IMPAIRED: "i", LOST: "x"}
            ways = (way for _, way in self.model.goes(outcome.applied))
            fates = "".join(f",{cells.get(letter, way)}" for letter, way in zip(outcome.results, ways))
            self.ends[outcome] = "{},{},{},{},{},{}{}".format(spans, *outcome.counts, outcome.hops, fates)
        return self.ends[outcome]

    def lines(self, text):
        """The records of the cases of a whole text, or a ToldProblem."""
        head, *lines = text.decode("utf-8", "replace").split("\r\n")
        if head != self.head or lines[-1:] != [""]:
            raise ToldProblem(f"`{text.splitlines()[-1].decode('utf-8', 'replace')}`" if text else "nothing")
        return iter(lines[:-1])

    def case(self, place, numbers, lines):
        """The case of these failures, whose record is the next."""
        outcome, line = self.model.outcome(numbers), next(lines, "the end")
        if line != self.begin(place, numbers) + self.end(outcome):
            raise self.problem(place, numbers, line)
        return Case(numbers, outcome)

    def cases(self, texts, depth, part=WHOLE):
        """Each case of this part by its numbers, or a ToldProblem. The text is one, or those of all parts of the whole, the first part first."""
        parts, found = [self.lines(text) for text in texts], {}
        for place, numbers in self.numbers(depth, part):
            found[numbers] = self.case(place, numbers, parts[place % len(parts)] if len(parts) > 1 else parts[0])
        if any(next(lines, None) is not None for lines in parts):
            raise ToldProblem("the table has more lines than there are cases")
        return found

    def problem(self, place, numbers, line):
        words = " and ".join(self.failures[number].name for number in numbers) or "nothing"
        if line.startswith(self.begin(place, numbers)):
            return ToldProblem(f"of {words} the table says something else than the restoration model")
        return ToldProblem(f"`{line}` stands where {words} was to come")


def refused(text):
    """Why the program writes no table, in words where it is a reason of a plan."""
    said = text.decode("utf-8", "replace").strip()
    found = BAD_PLAN.fullmatch(said)
    return said + (f": {REASONS[int(found[1])].wrong}" if found and int(found[1]) in REASONS else "")


def words_for(failures, depth, part=WHOLE):
    """The words that ask the program for a part of its table of these failures."""
    own = ["; ".join(member.called for member in failure.members) for failure in failures if failure.members]
    there = {failure.kind for failure in failures}
    kinds = [word for kind, word in zip(KINDS, KIND_WORDS) if kind in there]
    if not own and len(kinds) == len(KINDS):
        kinds = []  # without a word for a kind all are taken; where `own` stands they have to be named
    return [depth, "head", *kinds, *(word for text in own for word in ("own", text)), *(() if part == WHOLE else ("part", *map(str, part)))]


def tell(program, document, words):
    """What the program writes where it is given these words."""
    text, status = ask(program, words, document)
    if status:
        raise ToldProblem(f"status {status}, {refused(text)}")
    return text


def read_cases(reading, program, document, depth="double", part=WHOLE):
    """The table of the program's answer about this document of the plan that is read."""
    begun = time.monotonic()
    text = tell(program, document, words_for(reading.failures, depth, part))
    seconds = time.monotonic() - begun
    return Table(reading.failures, reading.cases([text], depth, part), depth, part, text, seconds)


def merged(reading, texts, depth, seconds):
    """The whole table of the texts of all its parts, the first part first."""
    return Table(reading.failures, reading.cases(texts, depth), depth, WHOLE, b"".join(texts), seconds)
