"""Rules that rings have to keep, such as `single span: none lost`: how they are written, and which case breaks one.

    rule  := depth [kind {"," kind}] ":" most
    depth := "nothing" | "single" | "double" | "triple"
    kind  := "fibre" | "span" | "node" | "degraded" | "manual" | "forced" | "group"
    most  := ("none lost" | "at most " NUMBER " lost" | name {"," name} " not lost") [" besides ends"]

Without kinds a rule is about failures of all kinds; with some, each failure of a case is of one of them. `besides ends` leaves out, where
nodes are lost, the circuits that end at one of them. A circuit is named as the plan has it, or as its customer knows it.
"""

import re
from dataclasses import dataclass

from .cells import text_of_rows
from .desktable import ALL_KINDS, DEPTHS, GROUP
from .places import composed

COUNTS = {"nothing": 0, **DEPTHS}
RULE = re.compile(r"(?P<depth>\w+)(?: (?P<kinds>[\w, ]+))?: ?(?:(?P<none>none)|at most (?P<most>[0-9]{1,9})|(?P<names>.+) not) lost(?P<besides> besides ends)?")
COLUMNS = ("plan", "rule", "verdict", "cases", "breaking", "worst", "lost", "circuits", "problem", "customers")
HOLDS, BROKEN, NOT_ASKED = "holds", "broken", "not asked"


class RuleProblem(Exception):
    """A rule isn't written as one, or names what isn't there."""


@dataclass(frozen=True)
class Rule:
    text: str
    depth: int
    kinds: frozenset
    most: int = 0
    names: tuple = ()  # of circuits, where it is about these alone
    besides_ends: bool = False

    def names_groups(self):
        return GROUP in self.kinds and self.kinds != set(ALL_KINDS)

    def is_about(self, kinds):
        return len(kinds) == self.depth and self.kinds.issuperset(kinds)


def read_rule(text):
    text = composed(" ".join(text.split()))
    found = RULE.fullmatch(text)
    if not found or found["depth"] not in COUNTS:
        raise RuleProblem(f"`{text}` is no rule: `single span: none lost` is one, and `double: at most 2 lost`, and `single node: none lost besides ends`")
    kinds = [kind for kind in re.split("[, ]+", found["kinds"] or "") if kind]
    if unknown := [kind for kind in kinds if kind not in ALL_KINDS]:
        raise RuleProblem(f"`{text}`: `{unknown[0]}` is none of {', '.join(ALL_KINDS)}")
    names = tuple(name.strip() for name in (found["names"] or "").split(",") if name.strip())
    return Rule(text, COUNTS[found["depth"]], frozenset(kinds or ALL_KINDS), int(found["most"] or 0), names, bool(found["besides"]))


def depth_for(rules):
    """The least depth of a table in which all cases of these rules are."""
    deepest = max(1, *(rule.depth for rule in rules))
    return next(word for word, depth in DEPTHS.items() if depth == deepest)


def circuits_of(rule, told):
    """The circuits that a rule names."""
    called = {word: {name for name in told.names if word in (name, told.plan.places.circuits.get(name))} for word in rule.names}
    for word, found in called.items():
        if not found:
            raise RuleProblem(f"there is no circuit {word}")
        if len(found) > 1 and word in found:
            raise RuleProblem(f"{word} is a circuit, and the name of the customer of {', '.join(sorted(found - {word}))}: name the circuits")
    return set().union(*called.values())


def verdict_on(rule, told):
    """The cells of a record: whether the rule holds, how many cases it is about and how many break it, and the worst of these."""
    if rule.names_groups() and not any(one.kind == GROUP for one in told.table.failures):
        raise RuleProblem("there are no groups: --groups names them")
    wanted = circuits_of(rule, told)
    lost = lambda case: [name for name in (told.besides if rule.besides_ends else told.lost)(case) if not wanted or name in wanted]
    about = [(case, lost(case)) for case in told.all() if rule.is_about(told.table.kinds(case))]
    breaking = [(case, names) for case, names in about if len(names) > rule.most]
    if not breaking:
        return [HOLDS, len(about), 0, "", "", "", "", ""]
    worst, names = max(breaking, key=lambda one: len(one[1]))
    return [BROKEN, len(about), len(breaking), "; ".join(told.table.labels(worst)) or "nothing", len(names), " ".join(names), "", "; ".join(map(told.plan.places.circuit, names))]


def records(plan, rules, told):
    """A record for each rule about one plan."""
    for rule in rules:
        try:
            yield [plan, rule.text, *verdict_on(rule, told)]
        except RuleProblem as problem:
            yield [plan, rule.text, NOT_ASKED, "", "", "", "", "", str(problem), ""]


def not_asked(plan, rules, problem):
    """The records of a plan about which nothing could be asked."""
    return [[plan, rule.text, NOT_ASKED, "", "", "", "", "", problem, ""] for rule in rules]


def line_of(cells) -> str:
    return text_of_rows([cells])
