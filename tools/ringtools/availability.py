"""For which part of the time a circuit is lost, exactly, where all components fail and are repaired independently of one another.

Of all that fails only this counts for a circuit: whether fibres are cut eastwards or westwards, on its own arc or on the opposite one.
These are four bits; so a circuit has 16 states, and their probabilities are computed by adding one component after the other.
"""

import math
from dataclasses import dataclass

from .model import CUT, FAIL, NONE, arc, scenes, span_requests
from .switching import frames_of

MINUTES = 525_600  # of a year of 365 days
OWN_EAST, OWN_WEST, OTHER_EAST, OTHER_WEST = 1, 2, 4, 8
OWN, OTHER = OWN_EAST | OWN_WEST, OTHER_EAST | OTHER_WEST
STATES = 16


def lost_shared(state):
    """A shared ring: a cut fibre has its span applied; the ends aren't joined where both arcs hold an applied span."""
    return bool(state & OWN and state & OTHER)


def lost_path(state):
    """A path ring: a port has two ways, and the circuit is lost where one of its ports has neither."""
    to_b = state & OWN_EAST and state & OTHER_WEST
    to_a = state & OWN_WEST and state & OTHER_EAST
    return bool(to_b or to_a)


def lost_unprotected(state):
    return bool(state & OWN)


PROTECTIONS = {"shared": lost_shared, "path": lost_path, "unprotected": lost_unprotected}


@dataclass(frozen=True)
class Left:
    """What a plan's script leaves: fibres that stay cut, spans that stay applied whatever else fails, and whether nothing at all is left."""

    cut: frozenset
    applied: frozenset
    is_healthy: bool


NOTHING_LEFT = Left(frozenset(), frozenset(), True)


def left_by(plan):
    """What holds when the script has come to its end; lower requests than a signal failure give way to any failure, and lose nobody alone."""
    settles = sum(step.word == "settle" for step in plan.steps)
    last = scenes(plan, [128 * (number + 1) for number in range(settles)])[-1]
    asked = span_requests(plan.size, last.requests)
    cut = frozenset(fibre for fibre, condition in last.conditions.items() if condition == CUT)
    return Left(cut, frozenset(span for span, request in enumerate(asked) if request >= FAIL), all(request == NONE for request in asked))


def state_of(plan, own, fibres):
    """What these fibres are to a circuit with this arc."""
    state = 0
    for at, side in fibres:
        bits = (OWN_EAST, OWN_WEST) if plan.span(at, side) in own else (OTHER_EAST, OTHER_WEST)
        state |= bits[side == "west"]
    return state


def probabilities(parts):
    """The probability of each state, of components as (state, component). Nothing is subtracted."""
    found = [0.0] * STATES
    found[0] = 1.0
    for state, one in parts:
        after = [0.0] * STATES
        for before, probability in enumerate(found):
            after[before] += probability * one.up
            after[before | state] += probability * one.down
        found = after
    return found


def all_up(components):
    return math.prod(one.up for one in components)


def any_down(components):
    """The probability that any of these is down: that the first is, or is up and any of the others is down."""
    found = 0.0
    for one in components:
        found = one.down + one.up * found
    return found


@dataclass(frozen=True)
class Share:
    """The part of the time in which a circuit is lost, split by cause: the parts add up to the whole."""

    ends: float  # one of its two end nodes is down
    alone: float  # both are up, and another component is down that alone is enough
    together: float  # none such is down, and several together are enough
    script: float = 0.0  # it is lost in the ring that the plan's script leaves

    @property
    def whole(self):
        return math.fsum((self.ends, self.alone, self.together, self.script))

    @property
    def minutes(self):
        return self.whole * MINUTES

    @property
    def nines(self):
        """Minus the decimal logarithm; None where the circuit is never lost."""
        return -math.log10(self.whole) + 0.0 if self.whole > 0 else None


@dataclass(frozen=True)
class Cause:
    """One or two components with which a circuit is lost when they are all down, which they are for these minutes a year."""

    components: tuple
    minutes: float


class Seen:
    """The components of a ring as a circuit sees them."""

    def __init__(self, plan, circuit, components, left=NOTHING_LEFT):
        self.plan, self.circuit, self.components, self.left = plan, circuit, components, left
        self.own = frozenset(arc(plan, circuit))
        self.states = [state_of(plan, self.own, component.fibres) for component in components]

    def base(self, protection):
        """What the script leaves; only a shared ring heeds commands."""
        fibres = self.left.cut
        if protection == "shared":
            fibres = [fibre for span in self.left.applied for fibre in ((span, "east"), ((span + 1) % self.plan.size, "west"))]
        return state_of(self.plan, self.own, fibres)

    def loses(self, protection):
        """Whether a state loses the circuit, beside what the script leaves."""
        base, lost = self.base(protection), PROTECTIONS[protection]
        return lambda state: lost(state | base)

    def is_end(self, component):
        return component.at in (self.circuit.start, self.circuit.end)

    def share(self, protection):
        """Returns for which part of the time the circuit is lost, split by cause."""
        loses = self.loses(protection)
        if loses(0):
            return Share(0.0, 0.0, 0.0, 1.0)
        fatal = [loses(state) for state in self.states]
        ends = [one for one, alone in zip(self.components, fatal) if alone and self.is_end(one)]
        others = [one for one, alone in zip(self.components, fatal) if alone and not self.is_end(one)]
        rest = [(state, one) for state, one, alone in zip(self.states, self.components, fatal) if not alone]
        together = math.fsum(probability for state, probability in enumerate(probabilities(rest)) if loses(state))
        return Share(any_down(ends), all_up(ends) * any_down(others), all_up(ends + others) * together)

    def causes(self, protection):
        """Returns the components with which alone the circuit is lost, and the pairs of others; the longest first."""
        loses, found = self.loses(protection), []
        if loses(0):
            return found
        single = [one for one, state in zip(self.components, self.states) if loses(state)]
        rest = [(one, state) for one, state in zip(self.components, self.states) if state and not loses(state)]
        found += [Cause((one,), one.down * MINUTES) for one in single]
        for at, (one, state) in enumerate(rest):
            found += [Cause((one, other), one.down * other.down * MINUTES) for other, beside in rest[at + 1 :] if loses(state | beside)]
        return sorted(found, key=lambda cause: -cause.minutes)

    def switches(self):
        """Returns how many failures a year the circuit survives by a switch, and the most frames it is out by them and by their repairs.

        Each failure is counted as one of a healthy ring that is repaired before the next. None, where the script leaves something.
        """
        if not self.left.is_healthy:
            return None, None
        struck = [one for one, state in zip(self.components, self.states) if state & OWN and not lost_shared(state)]
        frames = math.fsum(one.failures * sum(frames_of(self.plan, one.fibres)) for one in struck)
        return math.fsum(one.failures for one in struck), frames
