"""The text of sdhaps run, read strictly: what each node sends, hears and asks for, from round to round of each settle step."""

import re
from dataclasses import dataclass, field

from .kbytes import Word
from .plan import SIDES
from .report import NUMBER, SETTLE, STATES, Lines, Report, check_settle, read_last

ASKS = {"nr": "no request", "wtr": "wait to restore", "ms": "manual switch", "sd": "signal degrade", "sf": "signal fail", "fs": "forced switch"}
BYTES, HEARD, CODE = "([0-9a-f]{2} [0-9a-f]{2})", "([0-9a-f]{2} [0-9a-f]{2}|- -)", f"({'|'.join(ASKS)})"
LINE = re.compile(
    rf"round {NUMBER} node {NUMBER} ({'|'.join(STATES)}) far (-|{NUMBER}) west {BYTES} east {BYTES} heard {HEARD} {HEARD} asks {CODE} {CODE}"
)


@dataclass(frozen=True)
class Signals:
    """What holds at one node in a round. Words are by side; a side that hears none has None."""

    state: str
    far: int | None  # an identifier
    sent: dict
    heard: dict
    asks: dict

    def state_words(self):
        return STATES[self.state] + ("" if self.far is None else f", far end {self.far}")


@dataclass(frozen=True)
class Change:
    """A line: from this round on it is so at the node at a position."""

    round: int
    at: int
    signals: Signals


@dataclass
class Stretch:
    """The rounds of one settle step. `begin` is what held in the round before, by position; in a new ring it is empty."""

    number: int
    first: int
    last: int | None  # of a step that didn't settle the text doesn't say it
    begin: tuple
    changes: list = field(default_factory=list)

    @property
    def round(self):
        return self.last

    def end(self):
        """What holds at its end, by position."""
        now = dict(enumerate(self.begin))
        now.update((change.at, change.signals) for change in self.changes)
        return tuple(now[at] for at in sorted(now))

    def quiet(self):
        """The round of its last change; the one before its first where it has none."""
        return max((change.round for change in self.changes), default=self.first - 1)

    def history(self, at):
        """What holds at a position, from round to round where it changes: pairs of a round and Signals, what held before first."""
        before = [(self.first - 1, self.begin[at])] if self.begin else []
        return before + [(change.round, change.signals) for change in self.changes if change.at == at]


@dataclass
class Signalling:
    """The whole text: settle steps in order, and how it ended."""

    stretches: list
    last: str
    unsettled: int | None = None


def read_word(lines, text):
    if text == "- -":
        return None
    word = Word(*bytes.fromhex(text))
    lines.check(word.known(), "a K word that isn't known")
    return word


def read_signals(lines, plan, found):
    far = None if found[4] == "-" else int(found[4])
    lines.check(far is None or far in plan.ids, f"the ring has no node {far}")
    lines.check(far is None or found[3].startswith("switch"), "a node that doesn't switch has no far end")
    sent = dict(zip(SIDES, (read_word(lines, found[at]) for at in (6, 7))))
    heard = dict(zip(SIDES, (read_word(lines, found[at]) for at in (8, 9))))
    return Signals(found[3], far, sent, heard, dict(zip(SIDES, (found[10], found[11]))))


def read_change(lines, plan, now, before):
    """The next line, if it is one of a node. `now` is what holds by position, `before` where the line before stands: a round and a position."""
    found = lines.try_take(LINE)
    if not found:
        return None
    lines.check(int(found[2]) in plan.ids, f"the ring has no node {found[2]}")
    place = int(found[1]), plan.ids.index(int(found[2]))
    lines.check(place > before, "lines go by rounds, and in a round by the nodes' order in the ring")
    signals = read_signals(lines, plan, found)
    lines.check(now.get(place[1]) != signals, "a line that shows no change")
    return Change(*place, signals)


def read_stretch(lines, plan, before):
    """The lines of one settle step, up to its own or to where the text goes on otherwise."""
    first = before[-1].last + 1 if before else 0
    stretch = Stretch(len(before) + 1, first, None, before[-1].end() if before else ())
    now, place = dict(enumerate(stretch.begin)), (first, -1)
    while change := read_change(lines, plan, now, place):
        lines.check(len(now) == plan.size or (change.round, change.at) == (0, len(now)), "in round 0 each node has a line")
        stretch.changes.append(change)
        now[change.at], place = change.signals, (change.round, change.at)
    if stretch.changes and len(now) < plan.size:
        lines.fail(f"round 0 of node {plan.ids[len(now)]} was expected")
    return stretch


def read_end(lines, plan, stretches):
    """The last line, as in a report of sdhring."""
    report = Report("run" if stretches or lines.at else "none", stretches, [], "")
    read_last(lines, sum(step.word == "settle" for step in plan.steps), report)
    return report


def read_signalling(text, plan):
    """What the text shows of this plan, or a ReportProblem. A refusal has no settle steps."""
    lines, stretches = Lines(text), []
    while True:
        stretch = read_stretch(lines, plan, stretches)
        if not (found := lines.try_take(SETTLE)):
            break
        lines.check(stretch.end(), "the lines of round 0 were expected")
        check_settle(lines, int(found[1]), int(found[2]), stretches)
        lines.check(stretch.quiet() <= int(found[2]), "a change after the step's last round")
        stretch.last = int(found[2])
        stretches.append(stretch)
    report = read_end(lines, plan, stretches)
    if stretch.changes:
        stretches.append(stretch)
    return Signalling(stretches, report.last, report.unsettled)
