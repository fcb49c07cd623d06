"""What a device's run of the suite says of each rule: which streams it failed in, and which rule explains most of that."""

from __future__ import annotations

from collections import Counter, defaultdict
from collections.abc import Iterable
from dataclasses import dataclass, field

from .differing import LEAVES, Difference, Field, is_rule
from .rules import EACH_FRAME, RULES, all_cases, rule_of, views

# How much it counts how seldom a case is obeyed elsewhere, beside how much of what is wrong its rule decides.
WEIGHT, WHOLE = 0.25, 0.05  # of the case that is obeyed least, and of the whole rule
# Rules that the answers hardly tell apart are named together: so many at most, and each nearly as likely as the first.
MOST, NEAR = 3, 0.75
OBEYED, BROKEN, NOT_REACHED = "obeyed", "broken", "not reached"


@dataclass(frozen=True)
class Failure:
    """The round of a stream in which a device went wrong."""

    stream: str
    why: str
    round: int
    difference: Difference
    kind: str = "differs"  # or died, hung, flooded


@dataclass
class Verdict:
    """What is said of a rule, a case of one, a word, a mark, a defect or an origin."""

    kind: str
    name: str
    words: str
    verdict: str
    rounds: int  # in which the device obeyed it
    reached: int  # rounds of the suite that reach it
    failure: Failure | None = None
    file: str = ""


LASTING, OFTEN = 4, 0.75  # wrong answers after which a port or an AU-4 is wrong for good, if no right one comes, and of how many of them a rule is one
PARITIES = "B1", "B2"


@dataclass
class Lane:
    """What was wrong in a stream with one word, port or AU-4: the cases that decide each wrong answer, and whether a right one came after them."""

    wrong: list[frozenset[str]] = field(default_factory=list)
    is_right: bool = False

    def cases(self) -> frozenset[str]:
        """Returns the cases of the first wrong answer, since later ones may come of it; where it is wrong for good, those of rules that decide most of them."""
        if self.is_right or len(self.wrong) < LASTING:
            return self.wrong[0]
        counts = Counter(rule for cases in self.wrong for rule in rules_of(cases))
        return frozenset(case for case in self.wrong[0] if counts[rule_of(case)] >= OFTEN * len(self.wrong)) or self.wrong[0]


@dataclass
class Judge:
    """What was seen of a device."""

    reached: Counter = field(default_factory=Counter)
    agreed: Counter = field(default_factory=Counter)
    passed: Counter = field(default_factory=Counter)  # the same by fields of answers, those of wrong ones too
    wrong: list[tuple[str, frozenset[str]]] = field(default_factory=list)  # the stream of each word, port or AU-4 that was wrong for the first time in it, and its cases
    failures: list[Failure] = field(default_factory=list)
    streams: int = 0
    rounds: int = 0
    hung: int = 0  # streams in which it hung at some time

    def saw(self, trace: dict, agrees: bool) -> None:
        """Counts the cases of a round, in which the device's answer was the right one, or the device wasn't asked any more."""
        found = {case for cases in trace.values() for case in cases}
        found.update(EACH_FRAME)
        self.reached.update(found)
        if agrees:
            self.agreed.update(found)
            self.rounds += 1

    def saw_wrong(self, differ: Iterable[Field], agree: Iterable[Field], lanes: dict[object, Lane]) -> None:
        """Counts what differs in a wrong answer, and the fields of it that agree. `lanes` are the words, ports and AU-4s that differed before in the stream."""
        is_first, agree = not lanes, list(agree)
        for one in differ:
            if one.lane in PARITIES and not is_first:
                continue  # they are of the frame before
            lane = lanes.setdefault(one.lane, Lane())
            if one.stage == LEAVES or not lane.wrong:  # what is heard and asked for later comes of what was before
                lane.wrong.append(one.difference.cases)
        for one in agree:
            self.passed.update(set(one.cases))
            if one.lane in lanes:
                lanes[one.lane].is_right = True

    def saw_right(self, passes: Counter, lanes: dict[object, Lane]) -> None:
        """Counts the fields of an answer that agrees."""
        self.passed.update(passes)
        for lane in lanes.values():
            lane.is_right = True

    def end_stream(self, stream: str, lanes: dict[object, Lane]) -> None:
        """Keeps the cases that may be the reason of what was wrong in a stream."""
        self.wrong += [(stream, lane.cases()) for lane in lanes.values()]

    def blamed(self) -> list[tuple[list[str], list[Failure]]]:
        """Returns rules with the failures that they explain, those first that explain most. Of rules that stand together the first one is likeliest."""
        left, found = [failure for failure in self.failures if any(map(is_rule, failure.difference.cases))], []
        while left:
            rules = self.likeliest(left)
            mine = [failure for failure in left if rules[0] in rules_of(failure.difference.cases)]
            found.append((rules, mine))
            left = [failure for failure in left if failure not in mine]
        return found

    def likeliest(self, failures: list[Failure]) -> list[str]:
        """Returns the rules that explain most of what went wrong in these streams, and are obeyed least elsewhere; of equals the one that a node comes to
        first."""
        streams = {failure.stream for failure in failures}
        wrong = [rules_of(cases) for stream, cases in self.wrong if stream in streams] + [rules_of(failure.difference.cases) for failure in failures]
        named = {rule for failure in failures for rule in rules_of(failure.difference.cases)}
        scores = {rule: score(rule, wrong, self.passed) for rule in RULES if rule in named}
        best = max(scores.values())
        ranked = sorted(scores, key=lambda rule: -round(scores[rule], 9))
        return [rule for rule in ranked if scores[rule] >= NEAR * best][:MOST]

    def verdicts(self) -> list[Verdict]:
        """Returns what is said of each rule, each case, and each word, mark, defect and origin."""
        broken = {rule: [failure for failure in failures if rule in rules_of(failure.difference.cases)] for rules, failures in reversed(self.blamed()) for rule in rules}
        found = []
        for name, rule in RULES.items():
            cases = [f"{name}/{case}" for case in rule.cases]
            found.append(self.verdict("rule", name, rule.words, cases, broken.get(name, [])))
            mine = broken.get(name, [])
            found += [self.verdict("case", case, rule.words, [case], [failure for failure in mine if case in failure.difference.cases]) for case in cases]
        for view in views():
            kind, _, name = view.partition("/")
            found.append(self.verdict(kind, name, "", [view], [failure for failure in self.failures if view in failure.difference.cases]))
        return found

    def verdict(self, kind: str, name: str, words: str, cases: list[str], failures: list[Failure]) -> Verdict:
        rounds, reached = sum(self.agreed[case] for case in cases), sum(self.reached[case] for case in cases)
        verdict = BROKEN if failures else OBEYED if rounds else NOT_REACHED
        return Verdict(kind, name, words, verdict, rounds, reached, failures[0] if failures else None)

    def uncovered(self) -> list[str]:
        """Returns the cases that no round of the suite reached."""
        return [case for case in all_cases() if not self.reached[case]]


def passes_of(trace: dict) -> Counter:
    """Returns in how many fields of an answer each case decides."""
    found = Counter(case for cases in trace.values() for case in set(cases))
    found.update(EACH_FRAME)
    return found


def rules_of(cases: Iterable[str]) -> dict[str, set[str]]:
    """Returns the rules of cases, each with its own."""
    made: dict[str, set[str]] = defaultdict(set)
    for case in cases:
        if is_rule(case):
            made[rule_of(case)].add(case)
    return made


def score(rule: str, wrong: list[dict[str, set[str]]], passed: Counter) -> float:
    """Returns how well a rule explains what is wrong: how much of it the rule decides, and how seldom the case that is obeyed least elsewhere is obeyed."""
    cases = Counter(case for rules in wrong for case in rules.get(rule, ()))
    explained = sum(rule in rules for rules in wrong)
    rarest = max(count / (count + max(0, passed[case])) for case, count in cases.items())
    whole = explained / (explained + sum(max(0, passed[f"{rule}/{case}"]) for case in RULES[rule].cases))
    return explained / len(wrong) * rarest**WEIGHT * whole**WHOLE
