"""Writes the pages of a network into a folder: its own, and the desk of each ring."""

from dataclasses import dataclass
from typing import Any

from ..availability import left_by
from ..components import Component as RingComponent
from ..components import Group as RingGroup
from ..deskpage import Desk, desk_page
from ..desktable import Reading, ToldProblem, read_cases
from ..failures import cut_by
from ..groups import MOST
from ..build import sum_of
from ..origin import Origin, now
from ..plan import Plan
from .asking import Asker, called
from .components import Components
from .document import FILE
from .joining import Joined
from .making import checked_plan
from .minutes import Minutes
from .model import INDEX, Kind, Network, NetworkProblem, Ring
from .page import MOST_RINGS, NetworkPage, PageParts
from .pagedata import KINDS, Failures, failures_of, ring_data
from .parting import WORK, Question, in_memory
from .rates import Rated, Rates
from .ringwork import ALL, Base, Ends, RingWork, base_of


@dataclass(frozen=True)
class Wanted:
    """What the pages are to have besides the answer: availability where there are rates, and titles."""

    title: str
    rates: Rates | None
    notes: tuple[str, ...] = ()


def ring_components(network: Network, ring: Ring, plan: Plan, components: list[Rated]) -> list[RingComponent]:
    """The components that touch a ring, as the tools of one ring have them."""
    found = []
    for one in components:
        parts = [part for part in one.parts if part.ring == ring.number]
        if parts:
            fibres = frozenset(fibre for part in parts for fibre in cut_by(plan, called(part.kind), part.at, part.side))
            at = parts[0].at if one.kind is Kind.PLACE else None
            found.append(RingComponent(one.name, called(one.kind), fibres, one.rate, one.hours, at))
    return found


def ring_groups(components: Components, ring: Ring) -> list[RingGroup]:
    """The groups that touch a ring, with their members in it."""
    found = []
    for group in components.groups:
        parts = group.within(ring.number)
        if parts:
            found.append(
                RingGroup(
                    group.name.removeprefix("group "), tuple((called(part.kind), part.at, part.side) for part in parts)
                )
            )
    return found


def desk_of(question: Question, ring: Ring, rates: Rates | None) -> str:
    """The desk page of a ring, with the groups of the network that touch it."""
    plan, data = checked_plan(question.network, question.folder, ring)
    groups = ring_groups(question.components(), ring)
    if len(groups) > MOST:
        raise NetworkProblem(f"{len(groups)} groups touch it, and a ring's page has at most {MOST}")
    try:
        table = read_cases(Reading(plan, plan.places, tuple(groups)), question.program, data, "double")
    except ToldProblem as problem:
        raise NetworkProblem(f"the answer isn't a table of its plan: {problem}") from None
    components = ring_components(question.network, ring, plan, rates.components) if rates else None
    origin = Origin(question.program, ring.file, sum_of(data), (now(),))
    return str(desk_page(ring.name, Desk(plan, plan.places, table, components, left_by(plan)), origin))


def locals_of(failures: Failures, cases_number: Any, ring: int) -> dict[int, int]:
    """The failures that touch a ring, each with its number there."""
    return {
        number: cases_number(one.within(ring)) for number, one in enumerate(failures.components) if ring in one.rings
    }


def work_on_pages(numbers: range) -> list[dict[str, Any]]:
    """What the pages need of these rings: the answer, the data, and the desk."""
    question: Question = WORK["question"]
    base: Base = WORK["base"]
    wanted: Wanted = WORK["wanted"]
    asker, ends, failures = question.asker(), Ends(question.network), failures_of(question.components())
    found = []
    for number in numbers:
        found.append(
            ring_part(
                question, asker, RingWork(asker, question.network.rings[number], base, ends, (ALL,)), failures, wanted
            )
        )
    return found


def ring_part(question: Question, asker: Asker, work: RingWork, failures: Failures, wanted: Wanted) -> dict[str, Any]:
    cases, ring = work.cases, work.ring
    numbers = locals_of(failures, cases.number, ring.number)
    part = {"result": work.result(True), "data": ring_data(ring, cases, cases.plan.rate // 2), "locals": numbers}
    part["circuits"] = {circuit.name: at for at, circuit in enumerate(cases.plan.circuits)}
    try:
        part["desk"] = desk_of(question, ring, wanted.rates)
    except NetworkProblem as problem:
        part["problem"] = str(problem)
    return part


def pages_of(question: Question, jobs: int, wanted: Wanted) -> dict[str, str]:
    """Returns the pages by their files' names: index.html, and one for each ring."""
    network = question.network
    if len(network.rings) > MOST_RINGS:
        raise NetworkProblem(
            f"{len(network.rings)} rings: a page draws at most {MOST_RINGS}; `whatif` has no such limit"
        )
    WORK["wanted"] = wanted
    rings = in_memory(question, jobs, work_on_pages)
    base = base_of(question.asker(), question.folder)
    joined = Joined(network, question.components(), base, (ALL,), [ring["result"] for ring in rings])
    failures = failures_of(question.components())
    locals_ = [
        [[at, ring["locals"][number]] for at, ring in enumerate(rings) if number in ring["locals"]]
        for number in range(len(failures.components))
    ]
    problems = {at: ring["problem"] for at, ring in enumerate(rings) if "problem" in ring}
    parts = PageParts(
        joined,
        failures,
        [ring["data"] for ring in rings],
        [ring["circuits"] for ring in rings],
        locals_,
        problems,
        notes=list(wanted.notes),
    )
    if wanted.rates:
        minutes = Minutes(network, question.folder, wanted.rates)
        parts.shares = [share for _, share in minutes.shares()]
        parts.savings = minutes.savings()
    document = dict(question.files())[FILE]
    origin = Origin(question.program, str(question.folder / FILE), sum_of(document), (now(),))
    pages = {INDEX: NetworkPage(wanted.title, network, parts, origin).page()}
    for ring, part in zip(network.rings, rings):
        if "desk" in part:
            pages[ring.page] = part["desk"]
    return pages


__all__ = ["KINDS", "Wanted", "pages_of"]
