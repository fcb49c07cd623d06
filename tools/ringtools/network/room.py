"""Used and free slots of each span, and the largest circuit that still fits beside all that is in service, without moving anything."""

from collections.abc import Iterable, Iterator
from dataclasses import dataclass

from ..slots import Laid, spans_of
from .model import Ring

COLUMNS = ("ring", "span", "slots", "used", "free", "largest", "from", "to", "slot")


@dataclass(frozen=True)
class Run:
    """A stretch of spans that is free in one slot: so many spans eastwards from a position."""

    start: int
    count: int
    slot: int

    def order(self) -> tuple[int, int, int]:
        """The largest first, in the lowest slot, and then eastwards."""
        return -self.count, self.slot, self.start


@dataclass(frozen=True)
class Room:
    """A ring's slots, and what takes them."""

    ring: Ring
    slots: int
    laid: tuple[Laid, ...]

    def taken(self) -> list[set[int]]:
        """Returns for each slot, from 1 on, the spans in which it is taken; the first set stands for no slot."""
        found: list[set[int]] = [set() for _ in range(self.slots + 1)]
        for one in self.laid:
            found[one.slot] |= set(spans_of(self.ring.size, one.start, one.end))
        return found

    def used(self, span: int) -> int:
        return sum(span in spans for spans in self.taken())

    def runs(self) -> Iterator[Run]:
        """Yields each longest free stretch in each slot. No circuit leads over all spans of a ring, so a stretch has one fewer at most."""
        size = self.ring.size
        for slot, spans in list(enumerate(self.taken()))[1:]:
            if not spans:
                yield from (Run(start, size - 1, slot) for start in range(size))
                continue
            for start in range(size):
                if start not in spans and (start - 1) % size in spans:
                    count = next(count for count in range(1, size + 1) if (start + count) % size in spans)
                    yield Run(start, count, slot)

    def largest(self, span: int | None = None) -> Run | None:
        """Returns the largest circuit that still fits, over this span or anywhere; in the lowest slot, and then the first eastwards."""
        found = [run for run in self.runs() if span is None or (span - run.start) % self.ring.size < run.count]
        return min(found, key=Run.order) if found else None

    def words(self) -> str:
        """Returns the largest circuit that still fits, in words."""
        run = self.largest()
        if run is None:
            return f"nothing more fits in {self.ring.name}"
        return f"the largest that still fits in {self.ring.name} is {self.ends(run)[0]} to {self.ends(run)[1]}, over {run.count} of its {self.ring.size} spans"

    def ends(self, run: Run) -> tuple[str, str]:
        places = self.ring.places
        return places[run.start % self.ring.size], places[(run.start + run.count) % self.ring.size]

    def rows(self) -> Iterator[list[object]]:
        """Yields a record for each span: its slots, how many are used and free, and the largest circuit over it that still fits."""
        taken = self.taken()
        for span in range(self.ring.size):
            used, run = sum(span in spans for spans in taken), self.largest(span)
            largest: list[object] = [0, "", "", ""]
            if run is not None:
                largest = [run.count, *self.ends(run), run.slot]
            yield [self.ring.name, self.ring.span_name(span), self.slots, used, self.slots - used, *largest]


def head_words(rooms: Iterable[Room]) -> str:
    """Returns used and free slots of all rings together, in words."""
    total = used = 0
    for room in rooms:
        total += room.slots * room.ring.size
        used += sum(map(len, room.taken()))
    return f"{used} of {total} slots of spans are used, {total - used} are free"
