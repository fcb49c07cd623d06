"""Rules that a network has to keep, as `single place: none lost besides ends`: those of one ring, over all rings at once.

    rule  := depth [kind {"," kind}] ":" most
    depth := "nothing" | "single" | "double"
    kind  := "fibre" | "span" | "place" | "group" | "degraded" | "manual" | "forced"
    most  := ("none lost" | "at most " NUMBER " lost" | name {"," name} " not lost") [" besides ends"]

`node` stands for `place`. A name is a customer's.
"""

import re
from collections.abc import Callable
from dataclasses import dataclass

from ..required import BROKEN, HOLDS, RULE, RuleProblem
from .joining import Joined
from .model import Kind, Network, key_of
from .ringwork import Measure

COLUMNS = ("network", "rule", "verdict", "cases", "breaking", "worst", "lost", "customers", "problem")
DEPTHS = {"nothing": 0, "single": 1, "double": 2}
NAMES = {kind.value: kind for kind in Kind} | {"node": Kind.PLACE}
ALL_KINDS = tuple(Kind)


@dataclass(frozen=True)
class Rule:
    text: str
    depth: int
    kinds: frozenset[Kind]
    most: int = 0
    measure: Measure = Measure()
    problem: str = ""  # why it can't be asked of this network


def read_rule(text: str, network: Network) -> Rule:
    """Returns the rule of these words, or raises a RuleProblem."""
    text = " ".join(text.split())
    found = RULE.fullmatch(text)
    if not found or found["depth"] not in (*DEPTHS, "triple"):
        raise RuleProblem(
            f"`{text}` is no rule: `single span: none lost` is one, and `double: at most 2 lost`, and `single place: none lost besides ends`"
        )
    if found["depth"] == "triple":
        raise RuleProblem(
            f"`{text}`: a network is asked about nothing, single and double failures; `sdhring-whatif --require` asks one ring about triple ones"
        )
    words = [word for word in re.split("[, ]+", found["kinds"] or "") if word]
    if unknown := [word for word in words if word not in NAMES]:
        raise RuleProblem(f"`{text}`: `{unknown[0]}` is none of {', '.join(kind.value for kind in Kind)}")
    kinds = frozenset(NAMES[word] for word in words) or frozenset(ALL_KINDS)
    names, problem = names_in(found["names"], network)
    if words and kinds == {Kind.GROUP} and not network.groups:
        problem = "there are no groups in this network"
    return Rule(
        text, DEPTHS[found["depth"]], kinds, int(found["most"] or 0), Measure(names, bool(found["besides"])), problem
    )


def names_in(words: str | None, network: Network) -> tuple[tuple[str, ...], str]:
    """The customers that a rule names, as the network spells them, and what is wrong where there is no such customer."""
    if not words:
        return (), ""
    known = {key_of(customer.name): customer.name for customer in network.customers}
    missing = [word.strip() for word in words.split(",") if key_of(word) not in known]
    found = tuple(known[key_of(word)] for word in words.split(",") if key_of(word) in known)
    return found, f"there is no customer {missing[0]}" if missing else ""


def verdict_on(rule: Rule, joined: Joined, who: Callable[[tuple[str, ...], Measure], list[str]]) -> list[object]:
    """The cells of a record from its verdict on. `who` has the customers that are lost with these failures."""
    before = joined.lost_before(rule.measure)
    if rule.depth == 0:
        lost = who((), rule.measure) if before > rule.most else []
        return [BROKEN, 1, 1, "nothing", before, "; ".join(lost), ""] if lost else [HOLDS, 1, 0, "", "", "", ""]
    table = joined.alone(rule.measure) if rule.depth == 1 else joined.doubles(rule.measure)
    about = {
        kinds: count for kinds, count in table.items() if all(Kind(word) in rule.kinds for word in kinds.split("+"))
    }
    cases = sum(count.total for count in about.values())
    breaking = sum(count.above(rule.most - before) for count in about.values())
    if not breaking:
        return [HOLDS, cases, 0, "", "", "", ""]
    worst = max(about.values(), key=lambda count: count.most())
    names = worst.examples.get(worst.most(), ())
    return [
        BROKEN,
        cases,
        breaking,
        "; ".join(names) or "nothing",
        before + worst.most(),
        "; ".join(who(names, rule.measure)),
        "",
    ]
