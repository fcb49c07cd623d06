"""A run of a ring of programs: processes that join its nodes are started, what they tell is taken in, and one that hangs is found."""

import json
import mmap
import os
import selectors
import signal
import time
from collections.abc import Callable, Iterator, Sequence
from dataclasses import dataclass, field

from ..origin import CannotRun
from .devices import Device, wide_pipe
from .joining import WAITS_FOR_FIBRE, Group, Ring, parted, run_group, waiting_fibres
from .schedule import Stretch
from .station import Station

TICK = 0.25  # seconds between two looks at the processes
PART = 1 << 20
Told = dict[str, object]


@dataclass(frozen=True)
class Wanted:
    """How a ring is run: its rate, what its nodes read first, when what happens, by how many processes, and how long a round may take."""

    rate: int
    document: bytes
    stretches: Sequence[Stretch]
    processes: int
    within: float


@dataclass
class Joiner:
    """A process that joins nodes, and what has come of its words."""

    process: int
    report: int
    begun: bytes = b""
    is_done: bool = False
    is_whole: bool = False  # its last word has come

    def taken(self) -> list[Told]:
        """Returns what it has told since the last time. Raises CannotRun where it ended without its last word."""
        part = os.read(self.report, PART)
        self.is_done = not part
        *lines, self.begun = (self.begun + part).split(b"\n")
        told = [json.loads(line) for line in lines]
        self.is_whole |= any("done" in one or "trouble" in one for one in told)
        if self.is_done and not self.is_whole:
            raise CannotRun("a process that joins nodes was ended from outside, or by a mistake of this tool")
        return [one for one in told if "done" not in one]


@dataclass
class Run:
    """A ring that runs."""

    devices: Sequence[Device]
    wanted: Wanted
    joiners: list[Joiner] = field(default_factory=list)
    state: memoryview = field(init=False)
    seen: tuple[int, ...] = ()
    since: float = 0.0

    def __post_init__(self) -> None:
        self.groups = parted(len(self.devices), min(self.wanted.processes, len(self.devices)))
        self.state = memoryview(mmap.mmap(-1, mmap.PAGESIZE)).cast("q")

    def ring(self) -> Ring:
        stations = [Station(at, device.source, device.sink, self.wanted.rate, device.line is not None) for at, device in enumerate(self.devices)]
        fibres = {fibre: wide_pipe() for fibre in waiting_fibres(self.groups)}
        return Ring(stations, fibres, self.wanted.stretches, os.open(os.devnull, os.O_WRONLY), self.wanted.document, self.state)

    def start(self) -> None:
        """Starts a process for each group of nodes."""
        ring = self.ring()
        for number, places in enumerate(self.groups):
            report, told = os.pipe()
            if process := os.fork():
                os.close(told)
                self.joiners.append(Joiner(process, report))
            else:
                self.join(Group(ring, number, places, told))

    def join(self, group: Group) -> None:
        """Runs a group's schedule in a process of its own, which ends with it."""
        signal.signal(signal.SIGINT, signal.SIG_IGN)
        signal.signal(signal.SIGPIPE, signal.SIG_IGN)
        try:
            run_group(group)
        finally:
            os._exit(0)

    def round(self) -> int:
        """Returns the round in which the last of the processes is."""
        return min(self.state[2 * number] for number in range(len(self.groups)))

    def hanging(self, now: float) -> Told | None:
        """Returns which node no process has heard for too long, or None."""
        seen = tuple(self.state[: 2 * len(self.groups)])
        if seen != self.seen:
            self.seen, self.since = seen, now
        if now - self.since < self.wanted.within:
            return None
        waits = [(seen[at], seen[at + 1]) for at in range(0, len(seen), 2) if seen[at + 1] != WAITS_FOR_FIBRE]
        round, at = min(waits, default=(min(seen[::2]), 0))
        return {"at": at, "round": round, "trouble": f"gave no whole answer within {self.wanted.within:g} seconds"}

    def follow(self, tick: Callable[[int], None]) -> Iterator[Told]:
        """Yields what is told until all is done, or something is told as trouble: that is the last then."""
        self.since = time.monotonic()
        with selectors.DefaultSelector() as waiting:
            for joiner in self.joiners:
                waiting.register(joiner.report, selectors.EVENT_READ, joiner)
            while waiting.get_map():
                told = [one for key, _ in waiting.select(TICK) for one in self.heard(waiting, key.data)]
                hanging = None if told else self.hanging(time.monotonic())
                told += [hanging] if hanging else []
                if any("trouble" in one for one in told):
                    yield from self.last_words(waiting, told)
                    return
                yield from told
                tick(self.round())

    def last_words(self, waiting: selectors.BaseSelector, told: list[Told]) -> list[Told]:
        """Returns what was told up to now, the first trouble last."""
        while waiting.get_map() and (ready := waiting.select(0)):
            told += [one for key, _ in ready for one in self.heard(waiting, key.data)]
        troubles = [one for one in told if "trouble" in one]
        return [*(one for one in told if "trouble" not in one), min(troubles, key=lambda one: one["round"])]

    def heard(self, waiting: selectors.BaseSelector, joiner: Joiner) -> list[Told]:
        """Returns what a process has told by now."""
        told = joiner.taken()
        if joiner.is_done:
            waiting.unregister(joiner.report)
        return told

    def close(self) -> None:
        """Ends all processes of the run."""
        for joiner in self.joiners:
            os.kill(joiner.process, signal.SIGKILL)
            os.waitpid(joiner.process, 0)
            os.close(joiner.report)
        self.joiners.clear()
