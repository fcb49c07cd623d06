"""Where ports lose their own customer's bytes and get them again in a settle step, by what sdhoutage says."""

import re
from dataclasses import dataclass

from .outages import KINDS, PORT
from .report import NUMBER, SETTLE, UNSETTLED, Lines

LOSES, GETS, JUMPS = "loses", "gets", "jumps"
WORDS = {LOSES: "without its own customer's bytes from here on", GETS: "gets its own customer's bytes again", JUMPS: "gets a frame that doesn't follow the one before, or is torn"}

ODD = "jump", "torn"
OWN = "in-order", *ODD
TRACED = re.compile(f"round {NUMBER} ({'|'.join(('in-order', *KINDS))})")
MORE = re.compile(f"more {NUMBER}")


@dataclass(frozen=True)
class Tick:
    """What happens to some ports of a node in a round. Port a of a circuit looks east, port b west."""

    round: int
    at: int
    side: str
    kind: str
    ports: tuple

    def label(self):
        shown = ", ".join(self.ports[:2])
        return shown + (f" +{len(self.ports) - 2}" if len(self.ports) > 2 else "")


def events(outage):
    """The rounds in which a port loses and gets its bytes, as pairs of a round and a kind; of more than one stretch the first and the last."""
    if outage.is_start:
        return [(outage.end + 1, GETS)]
    if not outage.out:
        return [(outage.begin, JUMPS)] if outage.begin is not None else []
    return [(outage.begin, LOSES)] + ([] if outage.is_out_still else [(outage.end + 1, GETS)])


def places(plan):
    """Each port's position and side."""
    for circuit in plan.circuits:
        yield (circuit.name, "a"), (circuit.start, "east")
        yield (circuit.name, "b"), (circuit.end, "west")


def ticks(plan, told, traced=None):
    """The ticks of what sdhoutage says of a settle step; ports of one side of a node share a tick. `traced` has events that were traced, by port."""
    found = {}
    for port, place in places(plan):
        for event in (traced or {}).get(port) or events(told.ports[port]):
            found.setdefault((*event, *place), []).append(" ".join(port))
    return [Tick(now, at, side, kind, tuple(ports)) for (now, kind, at, side), ports in sorted(found.items())]


def broken(steps):
    """Ports that are without their own bytes in more than one stretch of rounds of a settle step, which a trace shows."""
    found = {port for step in steps for port, outage in step.ports.items() if not outage.is_whole}
    return sorted(found)


def event_of(before, kind):
    """What a round of a kind is after one of another, None being the start of a ring."""
    is_out, was_out = kind not in OWN, before not in OWN
    if is_out != was_out:
        return LOSES if is_out else GETS
    return JUMPS if kind in ODD else None


def read_trace(text):
    """The events of each settle step by the text of sdhoutage trace."""
    lines, steps, kind = Lines(text), [], None
    while lines.try_take(SETTLE):
        found = []
        while change := lines.try_take(TRACED):
            event, kind = event_of(kind, change[2]), change[2]
            found += [(int(change[1]), event)] if event else []
        lines.try_take(MORE)
        lines.take(PORT, "the line of the port")
        steps.append(found)
    if lines.peek() not in ("done", "plant fault") and not lines.try_take(UNSETTLED):
        lines.fail("no line that sdhoutage trace writes here")
    return steps
