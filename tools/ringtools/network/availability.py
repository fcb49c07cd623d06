"""For which part of the time a customer is lost end to end, exactly, where all components fail and are repaired independently of one another.

For a section only this counts: whether a span of its own arc is down, and one of the opposite arc; it is lost where both are. These are two
bits. Most components touch one section, and their part is computed section by section. A place or a duct may touch several sections: these
components are gone through first, all their states together, so that what they have in common is counted once. Nothing is subtracted.
"""

import math
from collections.abc import Iterable, Iterator
from dataclasses import dataclass
from functools import cached_property

from ..availability import MINUTES, Left, left_by
from ..failures import cut_by
from ..plan import Circuit, Plan
from .members import Part
from .model import Customer, Kind, Network, key_of
from .rates import Rated

OWN, OTHER = 1, 2
BOTH = OWN | OTHER
States = tuple[int, ...]


@dataclass(frozen=True)
class Arc:
    """A section: its ring, its circuit's own arc as spans, and what the plan's script leaves of it."""

    ring: int
    start: int
    end: int
    own: frozenset[int]
    base: int


def spans_of(plan: Plan, part: Part) -> set[int]:
    """The spans that a part takes down; a fibre takes its span down as a whole."""
    kind = "node" if part.kind is Kind.PLACE else part.kind.value
    return {plan.span(at, side) for at, side in cut_by(plan, kind, part.at, part.side)}


class RingRates:
    """What the components do in one ring: the spans that each takes down, by the component's number."""

    def __init__(self, plan: Plan, number: int, components: list[Rated], touching: Iterable[int]):
        self.number = number
        left: Left = left_by(plan)
        self.cut = frozenset({plan.span(at, side) for at, side in left.cut} | set(left.applied))
        self.spans: dict[int, frozenset[int]] = {}
        for place in touching:
            parts = (part for part in components[place].parts if part.ring == number)
            self.spans[place] = frozenset(span for part in parts for span in spans_of(plan, part))
        self.known: dict[tuple[int, int], dict[int, int]] = {}

    def arc(self, plan: Plan, circuit: Circuit) -> Arc:
        own = frozenset((circuit.start + i) % plan.size for i in range((circuit.end - circuit.start) % plan.size))
        return Arc(self.number, circuit.start, circuit.end, own, state_of(own, self.cut))

    def states(self, arc: Arc) -> dict[int, int]:
        """What each component is to a section, by its number: no bit, one, or both."""
        key = arc.start, arc.end
        if key not in self.known:
            self.known[key] = {place: state_of(arc.own, spans) for place, spans in self.spans.items()}
        return self.known[key]


def state_of(own: frozenset[int], spans: Iterable[int]) -> int:
    state = 0
    for span in spans:
        state |= OWN if span in own else OTHER
    return state


def any_down(components: Iterable[Rated]) -> float:
    """The probability that any of these is down: that the first is, or is up and any of the others is down."""
    found = 0.0
    for one in components:
        found = one.down + one.up * found
    return found


def all_up(components: Iterable[Rated]) -> float:
    return math.prod(one.up for one in components)


@dataclass(frozen=True)
class Share:
    """The part of the time in which a customer is lost, split by cause: the parts add up to the whole."""

    ends: float  # one of his own end places is down
    changes: float  # none of these is, and a place where he changes rings is down
    alone: float  # none of all these is, and another component is down that alone is enough
    together: float  # none such is down, and several together are enough
    script: float = 0.0  # he is lost by what the scripts of plans leave

    @property
    def whole(self) -> float:
        return math.fsum((self.ends, self.changes, self.alone, self.together, self.script))

    @property
    def minutes(self) -> float:
        return self.whole * MINUTES

    @property
    def nines(self) -> float | None:
        """Minus the decimal logarithm; None where the customer is never lost."""
        return -math.log10(self.whole) + 0.0 if self.whole > 0 else None


@dataclass(frozen=True)
class Cause:
    """One or two components with which a customer is lost when they are all down, which they are for these minutes a year."""

    components: tuple[Rated, ...]
    minutes: float


class SectionRest:
    """What touches one section alone of a customer and isn't enough alone: what takes its own arc down, and what takes the opposite one."""

    def __init__(self, own: list[Rated], other: list[Rated]):
        self.own, self.other = own, other
        self.down = any_down(own), any_down(other)
        self.up = all_up(own), all_up(other)

    def lost(self, state: int, down: tuple[float, float] | None = None) -> float:
        """The probability that the section is lost, where these bits are there already."""
        own, other = self.down if down is None else down
        return (1.0 if state & OWN else own) * (1.0 if state & OTHER else other)

    def kept(self, state: int, without: Rated | None = None) -> float:
        """The probability that it isn't lost: the own arc stands, or it doesn't and the opposite one does."""
        own_up, other_up = self.up if without is None else self.up_without(without)
        own_down = (
            self.down[0]
            if without is None or without not in self.own
            else any_down(one for one in self.own if one is not without)
        )
        if state == BOTH:
            return 0.0
        if state & OWN:
            return other_up
        return own_up if state & OTHER else own_up + own_down * other_up

    def up_without(self, without: Rated) -> tuple[float, float]:
        leave = lambda ones: all_up(one for one in ones if one is not without)
        return leave(self.own), leave(self.other)

    def without(self) -> Iterator[tuple[Rated, float, float]]:
        """Yields each component with the probabilities that the own arc and the opposite one are down if it never failed."""
        for ones, is_own in ((self.own, True), (self.other, False)):
            for one, down in zip(ones, down_without(ones)):
                yield (one, down, self.down[1]) if is_own else (one, self.down[0], down)


def down_without(ones: list[Rated]) -> list[float]:
    """For each of these, the probability that any of the others is down."""
    after = [0.0]
    for one in reversed(ones):
        after.append(one.down + one.up * after[-1])
    after.reverse()
    found, before = [], 0.0
    up = 1.0
    for place, one in enumerate(ones):
        found.append(before + up * after[place + 1])
        before, up = before + up * one.down, up * one.up
    return found


class Seen:
    """The components of a network as one customer sees them."""

    def __init__(
        self,
        network: Network,
        customer: Customer,
        arcs: list[Arc],
        rings: dict[int, RingRates],
        components: list[Rated],
    ):
        self.network, self.customer, self.arcs, self.components = network, customer, arcs, components
        self.states: dict[int, States] = {}
        for place, arc in enumerate(arcs):
            for number, state in rings[arc.ring].states(arc).items():
                if state:
                    before = self.states.setdefault(number, (0,) * len(arcs))
                    self.states[number] = (*before[:place], state, *before[place + 1 :])
        self.base: States = tuple(arc.base for arc in arcs)

    def is_lost(self, states: States) -> bool:
        """Whether a section is lost, beside what the scripts leave."""
        return any(state | base == BOTH for state, base in zip(states, self.base))

    @cached_property
    def fatal(self) -> list[int]:
        """The components that alone are enough."""
        return [number for number, states in self.states.items() if self.is_lost(states)]

    def has_node(self, component: Rated, places: Iterable[tuple[int, str]]) -> bool:
        nodes = {(ring, self.network.rings[ring].positions[key_of(place)]) for ring, place in places}
        return any(part.kind is Kind.PLACE and (part.ring, part.at) in nodes for part in component.parts)

    @cached_property
    def split(self) -> tuple[list[Rated], list[Rated], list[Rated]]:
        """The components that alone are enough: places where he ends, places where he changes rings, and others."""
        customer, sections = self.customer, self.customer.sections
        ends = [(sections[0].ring, customer.start), (sections[-1].ring, customer.end)]
        changes = [
            (ring, place)
            for number, place in enumerate(customer.changes)
            for ring in (sections[number].ring, sections[number + 1].ring)
        ]
        found: tuple[list[Rated], list[Rated], list[Rated]] = ([], [], [])
        for one in (self.components[number] for number in self.fatal):
            is_place = one.kind is Kind.PLACE
            found[
                0 if is_place and self.has_node(one, ends) else 1 if is_place and self.has_node(one, changes) else 2
            ].append(one)
        return found

    @cached_property
    def rests(self) -> list[SectionRest]:
        """For each section what touches it alone and isn't enough alone."""
        own: list[list[Rated]] = [[] for _ in self.arcs]
        other: list[list[Rated]] = [[] for _ in self.arcs]
        fatal = set(self.fatal)
        for number, states in self.states.items():
            touched = [place for place, state in enumerate(states) if state]
            if number not in fatal and len(touched) == 1:
                (own if states[touched[0]] == OWN else other)[touched[0]].append(self.components[number])
        return [SectionRest(*two) for two in zip(own, other)]

    @cached_property
    def common(self) -> list[tuple[Rated, States]]:
        """What touches several sections and isn't enough alone."""
        fatal = set(self.fatal)
        return [
            (self.components[number], states)
            for number, states in self.states.items()
            if number not in fatal and sum(map(bool, states)) > 1
        ]

    def joint(self, common: list[tuple[Rated, States]]) -> dict[States, float]:
        """The probability of each state of all sections, by these components alone, beside what the scripts leave."""
        found = {self.base: 1.0}
        for one, states in common:
            after: dict[States, float] = {}
            for before, probability in found.items():
                struck = tuple(here | more for here, more in zip(before, states))
                after[before] = after.get(before, 0.0) + probability * one.up
                after[struck] = after.get(struck, 0.0) + probability * one.down
            found = after
        return found

    def together(
        self, common: list[tuple[Rated, States]], place: int = -1, down: tuple[float, float] | None = None
    ) -> float:
        """The probability that components together are enough, none of which is alone. `down` replaces what is known of the section at `place`."""
        found = []
        for states, probability in self.joint(common).items():
            lost = 0.0
            for number in reversed(range(len(self.arcs))):
                rest, here = self.rests[number], down if number == place else None
                loses = rest.lost(states[number], here)
                lost = loses + (rest.kept(states[number]) if here is None else kept_by(states[number], here)) * lost
            found.append(probability * lost)
        return math.fsum(found)

    def share(self) -> Share:
        """Returns for which part of the time the customer is lost, split by cause."""
        if any(base == BOTH for base in self.base):
            return Share(0.0, 0.0, 0.0, 0.0, 1.0)
        ends, changes, others = self.split
        alone = all_up(ends + changes) * any_down(others)
        return Share(
            any_down(ends),
            all_up(ends) * any_down(changes),
            alone,
            all_up(ends + changes + others) * self.together(self.common),
        )

    def causes(self) -> list[Cause]:
        """Returns the components with which alone the customer is lost, and the pairs of others; the longest first."""
        if any(base == BOTH for base in self.base):
            return []
        fatal = set(self.fatal)
        found = [Cause((self.components[number],), self.components[number].down * MINUTES) for number in self.fatal]
        rest = [(self.components[number], states) for number, states in self.states.items() if number not in fatal]
        for at, (one, states) in enumerate(rest):
            for other, more in rest[at + 1 :]:
                if self.is_lost(tuple(here | beside for here, beside in zip(states, more))):
                    found.append(Cause((one, other), one.down * other.down * MINUTES))
        return sorted((cause for cause in found if cause.minutes), key=lambda cause: -cause.minutes)

    def saved(self) -> Iterator[tuple[Rated, float]]:
        """Yields by each component the part of the time that the customer is lost less if it never failed."""
        if any(base == BOTH for base in self.base):
            return
        fatal = [self.components[number] for number in self.fatal]
        together, up = self.together(self.common), all_up(fatal)
        for one, down in zip(fatal, down_without(fatal)):
            # Lost by this one alone: it is down, no other that is enough is, and several others aren't enough together.
            yield one, one.down * (1 - down) * (1 - together)
        for place, rest in enumerate(self.rests):
            for one, own, other in rest.without():
                yield one, up * (together - self.together(self.common, place, (own, other)))
        for number, (one, _) in enumerate(self.common):
            yield one, up * (together - self.together([*self.common[:number], *self.common[number + 1 :]]))


def kept_by(state: int, down: tuple[float, float]) -> float:
    own, other = (1.0 if state & OWN else down[0]), (1.0 if state & OTHER else down[1])
    return 1 - own * other
