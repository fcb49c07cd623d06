"""The restoration model: what each port is owed, from the script alone. No K byte and no node state occurs in it."""

from dataclasses import dataclass

from .plan import SIDES
from .stream import CHUNK, stream_bytes

FORCED, FAIL, DEGRADE, MANUAL, WAIT, NONE = 13, 11, 8, 6, 5, 0
REQUEST_NAMES = {
    FORCED: "forced switch",
    FAIL: "signal fail",
    DEGRADE: "signal degrade",
    MANUAL: "manual switch",
    WAIT: "wait to restore",
    NONE: "no request",
}
CLEAR, CUT = "clear", "cut"
SHOWN = 16  # bytes of a chunk that a report shows


@dataclass(frozen=True)
class Scene:
    """What holds at the end of one settle step. A fibre is named by the position and side that it leaves."""

    number: int
    round: int
    steps: tuple  # the script's steps before this settle step
    conditions: dict  # fibre -> CLEAR, CUT or a degree
    commands: dict  # (position, side) -> forced, manual or None
    moment: int
    requests: dict  # (position, side) -> code
    applied: frozenset
    slips: dict  # (circuit's name, end) -> (ups, downs)


class SideHistory:
    """Defects of one side, round by round, and when the last one ended."""

    def __init__(self, fibre):
        self.fibre = fibre
        self.before = None  # the fibre's condition in the round before
        self.defect = NONE
        self.ended = None

    def see(self, now_round, condition, moment, threshold):
        defect = self.next_defect(now_round, condition, threshold)
        if self.defect != NONE and defect == NONE:
            self.ended = moment
        self.defect, self.before = defect, condition

    def next_defect(self, now_round, condition, threshold):
        if now_round == 0:
            return NONE
        if condition == CUT:
            return FAIL
        degree = self.before if now_round >= 2 and isinstance(self.before, int) else 0
        return DEGRADE if degree >= threshold else NONE

    def waits(self, moment, wait):
        return self.defect == NONE and self.ended is not None and moment < self.ended + wait


class Script:
    """The script as it goes on: conditions, commands and the moment, and the defects that follow from them."""

    def __init__(self, plan):
        self.plan = plan
        sides = [(at, side) for at in range(plan.size) for side in SIDES]
        self.conditions = dict.fromkeys(sides, CLEAR)
        self.commands = dict.fromkeys(sides)
        self.moment = 0
        self.slips = {(circuit.name, end): (0, 0) for circuit in plan.circuits for end in "ab"}
        self.histories = {place: SideHistory(incoming(plan, *place)) for place in sides}
        self.rounds = 0

    def apply(self, step):
        place = step.at, step.side
        if step.word in ("cut", "mend", "degrade"):
            self.conditions[place] = {"cut": CUT, "mend": CLEAR, "degrade": step.number}[step.word]
        elif step.word in ("forced", "manual", "clear"):
            self.commands[place] = None if step.word == "clear" else step.word
        elif step.word == "moment":
            self.moment = step.number
        elif step.word == "slip":
            ups, downs = self.slips.get((step.name, step.end), (0, 0))
            self.slips[step.name, step.end] = (ups + step.number, downs) if step.turn == "up" else (ups, downs + step.number)

    def run_to(self, last):
        """Rounds up to `last`. Nothing changes after three rounds of one step, so the others needn't be gone through."""
        for now_round in range(self.rounds, min(self.rounds + 3, last + 1)):
            for history in self.histories.values():
                history.see(now_round, self.conditions[history.fibre], self.moment, self.plan.threshold)
        self.rounds = last + 1

    def request(self, place):
        history = self.histories[place]
        applies = [history.defect]
        applies.append({"forced": FORCED, "manual": MANUAL, None: NONE}[self.commands[place]])
        applies.append(WAIT if history.waits(self.moment, self.plan.wait) else NONE)
        return max(applies)


def incoming(plan, at, side):
    """The fibre that ends at this side: by the position and side that it leaves."""
    return plan.neighbour(at, side), "west" if side == "east" else "east"


def span_requests(size, requests):
    return [max(requests[span, "east"], requests[(span + 1) % size, "west"]) for span in range(size)]


def applied_spans(of_spans):
    urgent = [span for span, request in enumerate(of_spans) if request >= FAIL]
    if urgent:
        return frozenset(urgent)
    highest = max(of_spans)
    holders = [span for span, request in enumerate(of_spans) if request == highest]
    return frozenset(holders if highest > NONE and len(holders) == 1 else [])


def scenes(plan, rounds):
    """One scene for each settle step that ended, where `rounds` has the last round of each."""
    script, result, since = Script(plan), [], []
    last_rounds = iter(rounds)
    for step in plan.steps:
        if step.word != "settle":
            script.apply(step)
            since.append(step)
            continue
        last = next(last_rounds, None)
        if last is None:
            break
        script.run_to(last)
        requests = {place: script.request(place) for place in script.histories}
        applied = applied_spans(span_requests(plan.size, requests))
        held = dict(script.conditions), dict(script.commands), script.moment, requests, applied, dict(script.slips)
        result.append(Scene(len(result) + 1, last, tuple(since), *held))
        since = []
    return result


def arc(plan, circuit):
    length = (circuit.end - circuit.start) % plan.size
    return [(circuit.start + i) % plan.size for i in range(length)]


def is_joined(plan, circuit, applied):
    own = set(arc(plan, circuit))
    opposite = set(range(plan.size)) - own
    return not own & applied or not opposite & applied


def is_impaired(plan, circuit, requests: list[int]) -> bool:
    """Returns whether a span of a circuit's own arc asks for more than to wait: one that is kept there is impaired. `requests` are the spans'."""
    return any(requests[span] > WAIT for span in arc(plan, circuit))


@dataclass(frozen=True)
class Hop:
    """One span of a route, walked from position `start` to position `end`."""

    start: int
    end: int
    protection: bool


def walk(size, start, count, way, protection):
    places = [(start + way * i) % size for i in range(count + 1)]
    return [Hop(here, there, protection) for here, there in zip(places, places[1:])]


def route(plan, circuit, applied):
    """The spans that a joined circuit goes over from port a to port b; None where its ends aren't joined."""
    if not is_joined(plan, circuit, applied):
        return None
    spans = arc(plan, circuit)
    struck = [place for place, span in enumerate(spans) if span in applied]
    if not struck:
        return walk(plan.size, circuit.start, len(spans), 1, False)
    first, last = struck[0], struck[-1]
    out = walk(plan.size, circuit.start, first, 1, False)
    back = walk(plan.size, circuit.start + first, plan.size - (last + 1 - first), -1, True)
    rest = walk(plan.size, circuit.start + last + 1, len(spans) - last - 1, 1, False)
    return out + back + rest


def owed(circuit, end, now_round, hops, slips=(0, 0)):
    """The pointer value and the first bytes that a port is owed that is joined over this many spans."""
    other = circuit.other(end)
    ups, downs = slips
    position = CHUNK * (now_round - hops) - 3 * ups + 3 * downs
    return (other.offset + ups - downs) % 783, stream_bytes(other, position, SHOWN)
