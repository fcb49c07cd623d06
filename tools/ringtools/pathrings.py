"""The same circuits in a path ring: which of them are lost where fibres are cut, by the rule of docs/PATHS.md."""

from .availability import lost_path, state_of
from .desktable import last_scene
from .failures import cut_by
from .markup import count_of
from .model import CUT, arc
from .plan import SIDES


class PathRing:
    """A path ring of a plan's nodes and circuits, in which its script has cut what it cuts. Switches and degradations are nothing to it.

    A circuit is lost where one of its two ports has AIS. Sets of fibres are numbers, with a bit for each.
    """

    def __init__(self, plan, failures):
        self.plan = plan
        self.bits = {(at, side): 1 << number for number, (at, side) in enumerate((at, side) for at in range(plan.size) for side in SIDES)}
        self.left = self.cut(fibre for fibre, condition in last_scene(plan).conditions.items() if condition == CUT)
        self.cuts = [self.cut(self.fibres_of(failure)) for failure in failures]
        self.parts = [self.parts_of(frozenset(arc(plan, circuit))) for circuit in plan.circuits]
        self.known = {}

    def cut(self, fibres):
        return sum(self.bits[fibre] for fibre in set(fibres))

    def fibres_of(self, failure):
        return [fibre for one in failure.parts for fibre in cut_by(self.plan, one.kind, one.at, one.side)]

    def parts_of(self, own):
        """The fibres eastwards and westwards on a circuit's arc and on the opposite one, each with its bit of a state."""
        found = {}
        for fibre, bit in self.bits.items():
            state = state_of(self.plan, own, [fibre])
            found[state] = found.get(state, 0) | bit
        return tuple(found.items())

    def lost(self, case):
        """The circuits that are lost in a case, by their places in the plan."""
        cut = self.left
        for number in case.failures:
            cut |= self.cuts[number]
        if cut not in self.known:
            states = (sum(state for state, fibres in parts if fibres & cut) for parts in self.parts)
            self.known[cut] = tuple(place for place, state in enumerate(states) if lost_path(state))
        return self.known[cut]

    def room(self):
        """What a reader has to know where there are more circuits than a path ring has room for."""
        count, room = len(self.plan.circuits), self.plan.rate // 2
        return f"A path ring of this rate has room for {count_of(room, 'circuit')} in all, and these are {count}: each is taken as if it were one of them." if count > room else ""
