"""Alarms read from the records of a list, and what stands of them: raised and cleared, in the order of their times."""

from __future__ import annotations

import re
from dataclasses import dataclass, field

from ..checks import STEP_FORMS
from ..model import CLEAR as WHOLE_FIBRE
from ..model import CUT as CUT_FIBRE
from ..naming import NoNode, with_identifiers
from ..places import composed
from ..plan import Plan, PlanProblem, Step, read_step
from ..tables import quoted
from . import words
from .places import AT_NODE, FIBRE, NO_NODE, SIDE, Finder, NoPlace, Place
from .records import Record

STEPS = ("cut", "mend", "degrade", "forced", "manual", "clear")
DATED = re.compile(r"(\d{4})-(\d\d)-(\d\d)[t ]+(\d{1,2}):(\d\d)(?::(\d\d(?:\.\d+)?))?|(\d{1,2})\.(\d{1,2})\.(\d{4})[, ]+(\d{1,2}):(\d\d)(?::(\d\d(?:\.\d+)?))?")
SWITCHES = {words.FORCED: "forced", words.MANUAL: "manual"}


class NotRead(Exception):
    """A record can't be read."""


@dataclass(frozen=True)
class Alarm:
    """An alarm of one record: its name and kind, where it is, and whether it is raised or cleared."""

    line: int
    text: str
    name: str
    kind: str
    place: Place | None  # None of a path's alarm, which is about no span
    is_cleared: bool
    time: tuple = ()
    number: int = 0  # of a degradation, where a step has it

    def words(self, plan: Plan) -> str:
        where = f", {self.place.words(plan)}" if self.place else ""
        return f"{self.name}{where}{', cleared' if self.is_cleared else ''}"


def time_of(text: str) -> tuple:
    """Returns the date and time of a record, which can be compared; nothing where it has no date."""
    found = DATED.search(text.casefold())
    if not found:
        return ()
    year, month, day, hour, minute, second = found.groups()[:6] if found[1] else (found[9], found[8], found[7], *found.groups()[9:])
    return int(year), int(month), int(day), int(hour), int(minute), float(second or 0)


class Reader:
    """Reads records as alarms of a plan's ring."""

    def __init__(self, plan: Plan):
        self.plan, self.finder = plan, Finder(plan)

    def step_in(self, record: Record) -> Step | None:
        """Returns the step that a line is, as a script has it; None where it is none."""
        text = " ".join(composed(record.what).split())
        if text.split(" ")[0] not in STEPS or record.what != record.where:
            return None
        try:
            return read_step(with_identifiers(self.plan.ids, self.plan.places, text), 1, self.plan.ids)
        except (NoNode, PlanProblem):
            return None

    def of_step(self, record: Record, step: Step) -> Alarm:
        kind = {"cut": words.CUT, "degrade": words.DEGRADE, "mend": words.MEND, "clear": words.CLEAR}.get(step.word, step.word)
        name = {"degrade": "SD", "mend": "mended", "clear": "switches", "cut": "cut"}.get(step.word, f"{step.word} switch")
        is_cleared, place = step.word in ("mend", "clear"), SIDE if step.word in ("forced", "manual", "clear") else FIBRE
        return Alarm(record.line, record.text, name, kind, Place(place, step.at, step.side), is_cleared, time_of(record.time), step.number or 0)

    def read(self, record: Record) -> Alarm | None:
        """Returns the alarm of a record; None where it has neither an alarm nor a place. Raises NotRead."""
        if step := self.step_in(record):
            return self.of_step(record, step)
        what, where = composed(record.what).casefold(), composed(record.where).casefold()
        for pattern, _ in self.finder.named:  # so that no place is taken for a word of an alarm
            what = pattern.sub(" ", what)
        said = words.spoken(what)
        place, why = self.place_in(words.spoken(where).left if record.what == record.where else where, where)
        if not said.alarms and not said.is_cleared and why == NO_NODE:
            return None
        if not said.alarms and place is None:
            raise NotRead(why)
        name, kind = self.name_of(said)
        if place is None and kind != words.PATH:
            raise NotRead(why)
        is_cleared = self.is_cleared(record, said)
        if kind == words.PATH or place is None:
            return Alarm(record.line, record.text, name, kind, None, is_cleared, time_of(record.time))
        return self.checked(record, name, kind, place, is_cleared)

    def place_in(self, text: str, whole: str) -> tuple[Place | None, str]:
        """Returns where it is, or why that can't be said."""
        try:
            return self.finder.find(text), ""
        except NoPlace as problem:
            first = str(problem)
        try:
            return self.finder.find(whole), ""
        except NoPlace:
            return None, first

    def name_of(self, said: words.Spoken) -> tuple[str, str]:
        """Returns the one alarm that a text speaks of."""
        names, kinds = [name for name, _ in said.alarms], {kind for _, kind in said.alarms}
        if words.UNKNOWN in kinds:
            raise NotRead(f"{names[0]}: the ring of the plan has no such command")
        if len(kinds) > 1:
            raise NotRead(f"it names several alarms, {', '.join(names)}: one in a line is wanted")
        if not names:
            if said.is_cleared:
                raise NotRead("which alarm is cleared isn't said")
            raise NotRead("no alarm that is known is in it, such as LOS, SF, SD, cut, degraded, forced or manual switch")
        return names[0], kinds.pop()

    def is_cleared(self, record: Record, said: words.Spoken) -> bool:
        found = words.state_of(record.state)
        if found is None:
            raise NotRead(f"`{quoted(record.state)}` says neither that the alarm stands nor that it is cleared")
        return found or said.is_cleared or bool(re.search(r"\w", record.ended))

    def checked(self, record: Record, name: str, kind: str, place: Place, is_cleared: bool) -> Alarm:
        """Returns the alarm where it can be at this place."""
        if kind == words.MEND:
            is_cleared = True
        if kind == words.NODE and place.kind != AT_NODE:
            raise NotRead("what is lost or down isn't clear: a span is `cut`, or has LOS; a node is `lost`")
        if place.kind == AT_NODE and kind != words.NODE:
            ways = (f"{side} ({self.plan.node_name(self.plan.neighbour(place.at, side))})" for side in ("west", "east"))
            raise NotRead(f"the side of {self.plan.node_name(place.at)} is missing: {' or '.join(ways)}")
        if kind in (*SWITCHES, words.WAITS) and place.kind == FIBRE:
            place = Place(SIDE, place.at, place.side)
        if kind in (*SWITCHES, words.CLEAR, words.WAITS) and place.kind != SIDE:
            raise NotRead(f"which of the two sides isn't clear: name a node and its side, as `{name} {self.plan.ids[place.at]} east`")
        if kind == words.WAITS and not self.plan.wait:
            raise NotRead("the plan's `wait` is 0, so no side waits to restore")
        return Alarm(record.line, record.text, name, kind, place, is_cleared, time_of(record.time))


@dataclass
class Standing:
    """What stands after all alarms: the names of what each fibre has, the switches of each side, and who waits to restore."""

    plan: Plan
    fibres: dict[tuple[int, str], dict[str, Alarm]] = field(default_factory=dict)
    switches: dict[tuple[int, str], dict[str, Alarm]] = field(default_factory=dict)
    waits: dict[tuple[int, str], Alarm] = field(default_factory=dict)
    duplicates: list[Alarm] = field(default_factory=list)
    nothing_stood: list[Alarm] = field(default_factory=list)
    paths: list[Alarm] = field(default_factory=list)

    def take(self, alarm: Alarm) -> None:
        """Takes the next alarm."""
        if alarm.kind == words.PATH:
            self.paths.append(alarm)
        elif alarm.kind in (*SWITCHES, words.CLEAR):
            self.take_switch(alarm, self.switches.setdefault((alarm.place.at, alarm.place.side), {}))
        elif alarm.kind == words.WAITS:
            self.put(alarm, self.waits, alarm.place.fibres(self.plan)[0])
        else:
            self.take_fault(alarm)

    def put(self, alarm: Alarm, stands: dict, key) -> None:
        """Raises or clears one thing."""
        if alarm.is_cleared:
            if stands.pop(key, None) is None:
                self.nothing_stood.append(alarm)
        elif key in stands:
            self.duplicates.append(alarm)
        else:
            stands[key] = alarm

    def take_switch(self, alarm: Alarm, stands: dict) -> None:
        if alarm.kind != words.CLEAR:
            self.put(alarm, stands, SWITCHES[alarm.kind])
        elif stands:
            stands.clear()
        else:
            self.nothing_stood.append(alarm)

    def take_fault(self, alarm: Alarm) -> None:
        """A fault of one fibre or of several; what is mended has none any more."""
        fibres = [self.fibres.setdefault(fibre, {}) for fibre in alarm.place.fibres(self.plan, alarm.kind == words.FAR)]
        key = alarm.name
        stood = [stands for stands in fibres if (stands if alarm.kind == words.MEND else key in stands)]
        if alarm.is_cleared:
            self.nothing_stood += [] if stood else [alarm]
        elif len(stood) == len(fibres):
            self.duplicates.append(alarm)
        for stands in fibres:
            if not alarm.is_cleared:
                stands.setdefault(key, alarm)
            elif alarm.kind == words.MEND:
                stands.clear()
            else:
                stands.pop(key, None)

    def conditions(self) -> dict[tuple[int, str], object]:
        """Returns what each fibre with a fault is: cut, or degraded by a number."""
        found = {}
        for fibre, stands in sorted(self.fibres.items()):
            degrees = [alarm.number or self.plan.threshold for alarm in stands.values() if alarm.kind == words.DEGRADE]
            if any(alarm.kind != words.DEGRADE for alarm in stands.values()):
                found[fibre] = CUT_FIBRE
            elif degrees:
                found[fibre] = max(degrees)
        return found

    def commands(self) -> dict[tuple[int, str], str]:
        """Returns the switch that holds at each side: of two the forced one."""
        return {place: "forced" if "forced" in stands else "manual" for place, stands in sorted(self.switches.items()) if stands}

    def waiting(self) -> list[tuple[int, str]]:
        """Returns the fibres whose arriving side waits to restore."""
        bad = self.conditions()
        return [fibre for fibre in sorted(self.waits) if bad.get(fibre, WHOLE_FIBRE) == WHOLE_FIBRE]


def in_order(alarms: list[Alarm]) -> tuple[list[Alarm], str]:
    """Returns alarms, the first one first, and how that is known: by their dates and times, or by the lines."""
    times = [alarm.time for alarm in alarms]
    if not alarms or not all(times):
        return alarms, "in the order of the lines"
    newest_first = all(one >= other for one, other in zip(times, times[1:])) and times[0] > times[-1]
    alarms = list(reversed(alarms)) if newest_first else alarms
    return sorted(alarms, key=lambda alarm: alarm.time), "in the order of their times"


@dataclass
class Read:
    """What was read of a list: the alarms, the records that can't be read with the reason, and those without an alarm."""

    alarms: list[Alarm]
    unread: list[tuple[Record, str]]
    others: list[Record]
    order: str
    notes: list[str]

    @property
    def is_whole(self) -> bool:
        """Whether nothing is left that may be an alarm. A list of lines that are none is no list."""
        return not self.unread and bool(self.alarms or not self.others)

    def standing(self, plan: Plan) -> Standing:
        found = Standing(plan)
        for alarm in self.alarms:
            found.take(alarm)
        return found


def read_alarms(plan: Plan, records: list[Record], notes: list[str]) -> Read:
    """Reads all records."""
    reader, alarms, unread, others = Reader(plan), [], [], []
    for record in records:
        try:
            found = reader.read(record)
        except (NotRead, NoPlace) as problem:
            unread.append((record, str(problem)))
            continue
        others.append(record) if found is None else alarms.append(found)
    ordered, order = in_order(alarms)
    return Read(ordered, unread, others, order, notes)
