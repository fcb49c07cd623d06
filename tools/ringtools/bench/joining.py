"""A process that joins some neighbouring nodes of a ring: it reads what each says, and passes its frames on to the nodes beside it.

Nothing stands in the middle of the ring: each such process knows the whole schedule beforehand, and waits for nobody but the nodes that it
joins and the fibres that lead to them. A frame goes from pipe to pipe without being copied.
"""

import json
import os
import select
from collections.abc import Sequence
from dataclasses import dataclass

from ..checks import SIDES
from .schedule import Fibre, Stretch
from .station import MOST_CHANGES, Station, Trouble, pump, put

WAITS_FOR_FIBRE = -1
Action = tuple[Station, int, bytes, int, int]


@dataclass(frozen=True)
class Ring:
    """What all processes have in common."""

    stations: Sequence[Station]
    fibres: dict[Fibre, tuple[int, int]]  # the pipes of fibres whose frames wait: where they come out, and where they go in
    stretches: Sequence[Stretch]
    nowhere: int
    document: bytes
    state: memoryview  # two numbers for each process: the round, and the position of the node that is waited for

    def neighbour(self, at: int, side: str) -> int:
        return (at + (1 if side == "east" else -1)) % len(self.stations)


def parted(size: int, count: int) -> list[range]:
    """Returns the positions of the nodes that each of `count` processes joins, about as many each."""
    return [range(number * size // count, (number + 1) * size // count) for number in range(count)]


def waiting_fibres(groups: Sequence[range]) -> list[Fibre]:
    """Returns the fibres that need a pipe of their own: those between two processes, and one within each, whose frame comes too early."""
    outer = [fibre for group in groups for fibre in ((group[0], "west"), (group[-1], "east"))]
    return outer + [(group[1], "west") for group in groups if len(group) > 1]


class Group:
    """The nodes that one process joins, from one position eastwards to another."""

    def __init__(self, ring: Ring, number: int, places: range, report: int) -> None:
        self.ring, self.number, self.report = ring, number, report
        self.stations = [ring.stations[at] for at in places]
        self.order = self.stations[::2] + self.stations[1::2]
        self.marks = {stretch.last for stretch in ring.stretches}
        self.last = ring.stretches[-1].last

    def tell(self, **what: object) -> None:
        """Says something to the process that watches."""
        put(self.report, json.dumps(what).encode() + b"\n")

    def line(self, stretch: Stretch, at: int) -> bytes:
        """Returns the record of a round that a node is given in a stretch, without the frames."""
        west, east = (self.ring.neighbour(at, "west"), "east"), (self.ring.neighbour(at, "east"), "west")
        return "round {} {}\n".format(*("dark" if stretch.is_dark(fibre) else "frame" for fibre in (west, east))).encode()

    def sink_of(self, fibre: Fibre) -> int:
        """Returns where the frames of a fibre go: right into the next node, or into a pipe in which they wait."""
        return self.ring.fibres[fibre][1] if fibre in self.ring.fibres else self.ring.stations[self.ring.neighbour(*fibre)].sink

    def way(self, stretch: Stretch, station: Station, side: str) -> int:
        """Returns where the frames go that a node sends on a side; nowhere where that fibre is cut."""
        fibre = station.at, side
        return self.ring.nowhere if stretch.is_dark(fibre) else self.sink_of(fibre)

    def action(self, stretch: Stretch, station: Station) -> Action:
        """Returns what is done with the frames of a node: where the one to the west goes, what begins the next node's record, and where
        that is and the other frame. Nothing begins the record of a node that another process joins, or that closes the group's ring."""
        station.degrade(*(0 if stretch.is_dark((station.at, side)) else stretch.degree((station.at, side)) for side in SIDES))
        is_last = station is self.stations[-1]
        line = b"" if is_last else self.line(stretch, station.at + 1)
        beside = self.ring.nowhere if is_last else self.ring.stations[station.at + 1].sink
        return station, self.way(stretch, station, "west"), line, beside, self.way(stretch, station, "east")

    def take_over(self, stretch: Stretch, fibre: Fibre) -> None:
        """Moves the frame that waits in a fibre's pipe into the node to which it leads."""
        if not stretch.is_dark(fibre):
            to = self.ring.stations[self.ring.neighbour(*fibre)]
            pump(self.ring.fibres[fibre][0], to.sink, to.size)

    def close(self, stretch: Stretch) -> None:
        """Gives the first and the last node what wasn't given them on the way: frames that wait come last."""
        first, last = self.stations[0], self.stations[-1]
        self.ring.state[2 * self.number + 1] = WAITS_FOR_FIBRE
        put(first.sink, self.line(stretch, first.at))
        self.take_over(stretch, (self.ring.neighbour(first.at, "west"), "east"))
        if first is not last:
            self.take_over(stretch, (first.at + 1, "west"))
        self.take_over(stretch, (self.ring.neighbour(last.at, "east"), "west"))

    def look(self, station: Station, now: int, text: bytes) -> None:
        """Looks at lines that aren't whole, or don't say the same as those before, and tells them; all are told in the last round of a stretch."""
        text, is_mark = station.whole(text), now in self.marks
        is_new = not station.is_same(text) and station.has_changed(text)
        if station.changes == MOST_CHANGES + 1:
            self.tell(at=station.at, round=now, many=True)
        if is_mark:
            station.changes = 0
        if is_new or is_mark:
            self.tell(at=station.at, round=now, **{"mark" if is_mark else "change": text.decode("latin-1")})

    def run_stretch(self, stretch: Stretch) -> None:
        """Hears the rounds before those of a stretch, and gives what leaves in them to the nodes for the stretch's rounds."""
        for station in self.stations if stretch.first else ():
            put(station.sink, stretch.records[station.at])
        actions = [self.action(stretch, station) for station in self.order]
        for now in range(max(stretch.first - 1, 0), stretch.last):
            self.ring.state[2 * self.number] = now
            self.run_round(actions, now, now in self.marks)
            self.close(stretch)

    def run_round(self, actions: Sequence[Action], now: int, is_mark: bool) -> None:
        """Hears all nodes of a round, and passes on what they send. Each call of the system that isn't made here makes a ring faster."""
        state, place, read, write, splice = self.ring.state, 2 * self.number + 1, os.read, os.write, os.splice
        for station, west, line, beside, east in actions:
            state[place], source, size = station.at, station.source, station.size
            text = read(source, station.length)
            if is_mark or not station.is_same(text):
                self.look(station, now, text)
            if not station.is_plain or (moved := splice(source, west, size)) < size:
                station.pass_on(west, 0, size - moved if station.is_plain else size)
            if line:
                write(beside, line)
            if not station.is_plain or (moved := splice(source, east, size)) < size:
                station.pass_on(east, 1, size - moved if station.is_plain else size)

    def run(self) -> None:
        """Runs the whole schedule."""
        for station in self.stations:
            self.ring.state[2 * self.number + 1] = station.at
            put(station.sink, self.ring.document + b"end of plan\n" + self.ring.stretches[0].records[station.at] + b"round none none\n")
        for stretch in self.ring.stretches:
            self.run_stretch(stretch)
        self.ring.state[2 * self.number] = self.last
        for station in self.order:
            self.ring.state[2 * self.number + 1] = station.at
            self.look(station, self.last, os.read(station.source, station.length))
            for side in range(2):
                station.pass_on(self.ring.nowhere, side, station.size)


def broken(group: Group) -> Station:
    """Returns the node that takes no more input; the one that was heard last where none is known."""
    waiting = select.poll()
    for station in group.stations:
        waiting.register(station.sink, 0)  # errors alone
    found = {number for number, _ in waiting.poll(0)}
    at = group.ring.state[2 * group.number + 1]
    return next((station for station in group.stations if station.sink in found), group.ring.stations[max(at, 0)])


def reason(group: Group, error: Exception) -> Trouble:
    """Returns which node is the reason for an error, and what it said at last."""
    if isinstance(error, BrokenPipeError | ConnectionError):
        return broken(group).farewell()
    if isinstance(error, EOFError):
        return Trouble(group.ring.state[2 * group.number + 1], "ended")
    return error if isinstance(error, Trouble) else Trouble(group.ring.state[2 * group.number + 1], str(error))


def run_group(group: Group) -> None:
    """Runs the schedule, and tells which node is the reason where that can't be done."""
    try:
        group.run()
        group.tell(done=True)
    except (Trouble, OSError, EOFError) as error:
        found = reason(group, error)
        group.tell(at=found.at, round=group.ring.state[2 * group.number], trouble=str(found))
