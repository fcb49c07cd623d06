"""Which way round each circuit leads and in which slot, so that all fit and the largest load of a span is least.

A choice of ways is made first, under a bound on the load of each span, and then slots are given to its arcs; where that can't be
done the next choice is tried. Both searches are exhaustive unless a number of tries is set.
"""

import random
from collections.abc import Iterator
from dataclasses import dataclass
from itertools import combinations

EXACT_NODES = 8  # up to this size all choices are tried before it is said that there is none
QUICK_CHOICES = 30  # choices of ways that are drawn at random before all are gone through
CHOICES, STEPS = 400, 20_000  # in larger rings: choices of ways, and steps of the search for slots in each
ORDERS = 16  # in which circuits that don't all fit are laid, so that few are left over


@dataclass(frozen=True)
class Wanted:
    """A circuit between two positions. `way` is east or west as seen from `start`, and None where it is to be chosen, as is `slot`."""

    start: int
    end: int
    way: str | None = None
    slot: int | None = None
    is_held: bool = False  # whether it is in service, so that it comes before others


@dataclass(frozen=True)
class Laid:
    """A circuit that leads eastwards from `start` to `end` in a slot."""

    start: int
    end: int
    slot: int


@dataclass(frozen=True)
class Layout:
    laid: tuple  # one Laid for each circuit that was wanted
    load: int  # the largest load of a span
    bound: int  # no choice has a smaller one


def spans_of(size, start, end):
    return [(start + i) % size for i in range((end - start) % size)]


def arcs_of(size, wanted):
    """The arcs that a circuit may take, each by the position that it starts at; the shorter one first."""
    both = [(wanted.start, wanted.end), (wanted.end, wanted.start)]
    if wanted.way is not None:
        return both[:1] if wanted.way == "east" else both[1:]
    return sorted(both, key=lambda arc: (arc[1] - arc[0]) % size)


def loads_of(size, laid):
    return [sum(span in spans_of(size, one.start, one.end) for one in laid) for span in range(size)]


def parts(spans, pair):
    """Whether two spans part the ends of an arc of these spans."""
    return (pair[0] in spans) != (pair[1] in spans)


class Demand:
    """What has to be carried: the loads of the circuits whose way is given, and how many of the others each two spans part."""

    def __init__(self, size, wanted):
        self.size = size
        self.fixed = [0] * size
        self.parted = dict.fromkeys(combinations(range(size), 2), 0)
        for one in wanted:
            self.add(one)

    def add(self, one):
        spans = set(spans_of(self.size, *arcs_of(self.size, one)[0]))
        if one.way is not None:
            self.fixed = [load + (span in spans) for span, load in enumerate(self.fixed)]
        else:
            self.parted = {pair: count + parts(spans, pair) for pair, count in self.parted.items()}

    def need(self, pair):
        """What two spans have to carry together, whichever ways are chosen."""
        return self.parted[pair] + self.fixed[pair[0]] + self.fixed[pair[1]]

    def bound(self):
        """No choice of ways has a largest load below this."""
        halves = [(self.need(pair) + 1) // 2 for pair in self.parted]
        return max([*self.fixed, *halves], default=0)

    def fullest(self):
        """The pair of spans that has to carry most."""
        return max(self.parted, key=self.need)


class OutOfSteps(Exception):
    """A search has used up its steps."""


class Steps:
    """Counts the steps of a search down; `left` is None where they aren't counted."""

    left = None

    def step(self):
        if self.left is not None:
            self.left -= 1
            if self.left < 0:
                raise OutOfSteps


class Ways(Steps):
    """Goes through the choices of ways in which no span's load is above `most`. Circuits of the same ends and slot are alike."""

    def __init__(self, size, wanted, most, chance=None, steps=None):
        self.size, self.wanted, self.chance, self.left = size, wanted, chance, steps
        demand = Demand(size, wanted)
        self.room = [most - load for load in demand.fixed]
        self.parted = demand.parted
        self.groups = self.grouped()

    def grouped(self):
        """Indices of the circuits that are alike, those that can least be turned first."""
        alike = {}
        for index, one in enumerate(self.wanted):
            if one.way is None:
                alike.setdefault((*arcs_of(self.size, one)[0], one.slot) if one.slot else arcs_of(self.size, one)[0], []).append(index)
        groups = list(alike.values())
        if self.chance:
            self.chance.shuffle(groups)
        return sorted(groups, key=lambda group: -self.shorter(group))

    def shorter(self, group):
        start, end = arcs_of(self.size, self.wanted[group[0]])[0]
        return (end - start) % self.size

    def can_go_on(self):
        """Whether each two spans have room for what they still have to carry; where they have, parts of circuits could be carried."""
        room = self.room
        return min(room) >= 0 and all(parted <= room[s] + room[t] for (s, t), parted in self.parted.items())

    def take(self, group, turned, sign):
        """Puts a group onto its spans, `turned` of its circuits the longer way; with sign -1 it is taken away again."""
        start, end = arcs_of(self.size, self.wanted[group[0]])[0]
        inside = set(spans_of(self.size, start, end))
        self.room = [room - sign * (len(group) - turned if span in inside else turned) for span, room in enumerate(self.room)]
        for pair in self.parted:
            self.parted[pair] -= sign * len(group) * parts(inside, pair)

    def choices(self, at=0, chosen=()):
        """Each choice, as the set of the indices of those circuits that go the longer way."""
        if at == 0 and not self.can_go_on():
            return
        if at == len(self.groups):
            yield frozenset(chosen)
            return
        group = self.groups[at]
        self.step()
        for turned in self.numbers(len(group)):
            self.take(group, turned, 1)
            if self.can_go_on():
                yield from self.choices(at + 1, (*chosen, *group[:turned]))
            self.take(group, turned, -1)

    def numbers(self, count):
        """How many of a group may go the longer way, in the order in which it is tried."""
        numbers = list(range(count + 1))
        if self.chance and self.chance.random() < 0.3:
            self.chance.shuffle(numbers)
        return numbers


class Slots(Steps):
    """Gives slots to arcs of which each has a length, and perhaps a slot, so that none share a span and a slot.

    The ring is opened at the position that the fewest arcs lead past; those get slots first, and then the others position by position.
    """

    def __init__(self, size, count, arcs, steps=None):
        """`arcs` are (start, end, slot or None)."""
        self.size, self.count, self.left = size, count, steps
        self.opened = min(range(size), key=lambda at: sum(self.leads_past(arc, at) for arc in arcs))
        turn = lambda at: (at - self.opened) % size
        self.arcs = [(turn(start), turn(start) + (end - start) % size, slot) for start, end, slot in arcs]
        self.slot_of = [slot for _, _, slot in self.arcs]
        self.kept = [[] for _ in range(count + 1)]  # by slot: the stretches that arcs with a slot take
        self.starting = [[] for _ in range(size)]  # by position: the arcs that begin there, don't lead past the opening, and have no slot yet
        for index in sorted(range(len(arcs)), key=lambda index: -self.arcs[index][1]):
            first, last, slot = self.arcs[index]
            self.starting[first] += [index] if slot is None and last <= size else []
        self.failed = set()

    def leads_past(self, arc, at):
        return 0 < (at - arc[0]) % self.size < (arc[1] - arc[0]) % self.size

    def stretches(self, first, last):
        return [(first, last)] if last <= self.size else [(0, last - self.size), (first, self.size)]

    def is_free(self, slot, stretches):
        return all(last <= a or b <= first for first, last in stretches for a, b in self.kept[slot])

    def found(self):
        """A slot for each arc, or None."""
        for first, last, slot in self.arcs:
            if slot is not None:
                if not self.is_free(slot, self.stretches(first, last)):
                    return None
                self.kept[slot] += self.stretches(first, last)
        over = [index for index, (_, last, slot) in enumerate(self.arcs) if slot is None and last > self.size]
        return self.slot_of if self.opening(over) else None

    def opening(self, over):
        """Slots for the arcs that lead past the opening, and then for all others."""
        if not over:
            return self.at_position(0, [0] * (self.count + 1))
        index, tried = over[0], set()
        stretches = self.stretches(*self.arcs[index][:2])
        for slot in range(1, self.count + 1):
            looks = tuple(sorted(self.kept[slot]))
            if looks in tried or not self.is_free(slot, stretches):
                continue
            tried.add(looks)
            before, self.kept[slot] = self.kept[slot], self.kept[slot] + stretches
            self.slot_of[index] = slot
            if self.opening(over[1:]):
                return True
            self.kept[slot], self.slot_of[index] = before, None
        return False

    def at_position(self, at, until):
        """Whether all arcs from this position on can be given slots; `until` says how far each slot is taken."""
        if at == self.size:
            return True
        key = at, tuple(sorted((max(until[slot], at), self.ahead(slot, at)) for slot in range(1, self.count + 1)))
        if key in self.failed:
            return False
        if self.place(at, self.starting[at], until):
            return True
        self.failed.add(key)
        return False

    def ahead(self, slot, at):
        return tuple(sorted(stretch for stretch in self.kept[slot] if stretch[1] > at))

    def place(self, at, starting, until):
        """Slots for the arcs that start at this position, the longest first, each where the least room is left over."""
        if not starting:
            return self.at_position(at + 1, until)
        self.step()
        index, tried = starting[0], set()
        first, last, _ = self.arcs[index]
        for room, slot in sorted((self.room(slot, at, until), slot) for slot in range(1, self.count + 1)):
            looks = self.ahead(slot, at)
            if room < last - first or looks in tried:
                continue
            tried.add(looks)
            before, until[slot], self.slot_of[index] = until[slot], last, slot
            if self.place(at, starting[1:], until):
                return True
            until[slot], self.slot_of[index] = before, None
        return False

    def room(self, slot, at, until):
        """How far a slot is free from a position on."""
        if until[slot] > at:
            return 0
        return min((max(first - at, 0) for first, last in self.kept[slot] if last > at), default=self.size - at)


class Search:
    """The search for a layout of these circuits with this number of slots."""

    def __init__(self, size, count, wanted):
        self.size, self.count, self.wanted = size, count, tuple(wanted)
        self.bound = Demand(size, self.wanted).bound()
        self.steps = None if size <= EXACT_NODES else STEPS

    def arcs(self, turned):
        """The arcs of all circuits, where those of these indices go the longer way."""
        return [arcs_of(self.size, one)[index in turned] for index, one in enumerate(self.wanted)]

    def laid(self, turned, steps):
        """The circuits in slots, by this choice of ways; None where no slots can be given."""
        arcs = self.arcs(turned)
        slots = Slots(self.size, self.count, [(*arc, one.slot) for arc, one in zip(arcs, self.wanted)], steps).found()
        return None if slots is None else tuple(Laid(*arc, slot) for arc, slot in zip(arcs, slots))

    def quick(self, most):
        """A layout by the first choice of ways of a few searches in random orders; None where they find none."""
        for number in range(QUICK_CHOICES):
            ways = Ways(self.size, self.wanted, most, random.Random(number) if number else None, STEPS)
            try:
                turned = next(ways.choices(), None)
                if turned is None:
                    return None
                if (laid := self.laid(turned, STEPS)) is not None:
                    return laid
            except OutOfSteps:
                continue
        return None

    def thorough(self, most):
        """A layout by going through the choices of ways, or None; and whether the search came to its end."""
        left, is_whole = None if self.steps is None else CHOICES * len(self.wanted), True
        try:
            for turned in Ways(self.size, self.wanted, most, None, left).choices():
                try:
                    if (laid := self.laid(turned, self.steps)) is not None:
                        return laid, True
                except OutOfSteps:
                    is_whole = False
        except OutOfSteps:
            is_whole = False
        return None, is_whole

    def any_found(self):
        """A layout with a load that is small where that was easy to find, or None; and whether that is sure."""
        for most in range(self.bound, self.count + 1):
            if (laid := self.quick(most)) is not None:
                return laid, True
        return self.thorough(self.count) if self.bound <= self.count else (None, True)

    def layout(self):
        """The layout with the least largest load that is found. Without one, None, and whether it is sure that there is none."""
        found, is_sure = self.any_found()
        if found is None:
            return None, is_sure
        load, bound, is_sure = max(loads_of(self.size, found), default=0), self.bound, True
        for most in range(self.bound, load):
            better, is_whole = self.thorough(most)
            if better is not None:
                found, load = better, max(loads_of(self.size, better))
                break
            is_sure = is_sure and is_whole
            bound += is_sure
        return Layout(found, load, bound), is_sure


def layout_of(size, count, wanted):
    """A way and a slot for each circuit. Where none is found for all, None, and whether it is sure that there is none."""
    return Search(size, count, wanted).layout()


def free_slot(size, count, laid, arc, slot):
    """The lowest slot in which an arc is free beside these circuits, of the one that is wanted or of all."""
    spans = set(spans_of(size, *arc))
    taken = {one.slot for one in laid if spans & set(spans_of(size, one.start, one.end))}
    return next((number for number in ([slot] if slot else range(1, count + 1)) if number not in taken), None)


def added(size, count, wanted, laid):
    """A layout of these circuits, the last of which isn't among the laid ones yet; None where it is in the way."""
    for arc in arcs_of(size, wanted[-1]):
        if slot := free_slot(size, count, laid, arc, wanted[-1].slot):
            return (*laid, Laid(*arc, slot))
    search = Search(size, count, wanted)
    return search.quick(count) if search.bound <= count else None


def orders_of(size: int, wanted: list[Wanted]) -> Iterator[list[int]]:
    """Yields orders in which circuits may be laid, held ones first: the shortest first, and then mixtures of that.

    They go by what is wanted alone. So of one and the same circuits, in whichever order a table has them, as many are laid.
    """
    length = lambda one: min((end - start) % size for start, end in arcs_of(size, one))
    alike = lambda one: (not one.is_held, length(one), one.start, one.end, one.way or "", one.slot or 0)
    by_kind = sorted(range(len(wanted)), key=lambda index: (alike(wanted[index]), index))
    yield by_kind
    for number in range(1, ORDERS):
        chance = random.Random(number)
        mixed = {index: (not wanted[index].is_held, length(wanted[index]) + chance.uniform(0, size / 4)) for index in by_kind}
        yield sorted(by_kind, key=mixed.__getitem__)


def fitted_in(size: int, count: int, wanted: list[Wanted], order: list[int]) -> dict[int, Laid]:
    """Returns the layout of the circuits that fit when they are laid in this order, by their indices."""
    kept, laid = [], ()
    for index in order:
        more = added(size, count, [*(wanted[i] for i in kept), wanted[index]], laid)
        if more is not None:
            kept, laid = [*kept, index], more
    return dict(zip(kept, laid))


def fitted(size, count, wanted):
    """Of circuits that don't all fit, the layout of those that fit in the best of several orders; by index, with None for each that doesn't."""
    where = max((fitted_in(size, count, wanted, order) for order in orders_of(size, wanted)), key=len)
    return [where.get(index) for index in range(len(wanted))]
