"""The program's text, read strictly: a line that isn't known, or stands where it can't, is an error with its number."""

import re
from dataclasses import dataclass, field

from .kbytes import Word

STATES = {
    "idle": "idle",
    "pass": "passes through",
    "switch-west": "switches west",
    "switch-east": "switches east",
    "isolated": "isolated",
}
WINDOW = 128  # a settle step ends with a multiple of this number of rounds
MOST_LINES = 20_000  # 64 settle steps of 16 nodes and 256 ports are 17,472 lines, and one ends the text
USAGE = "usage: sdhring run, check, drop NAME END, big NUMBER"
PLAIN_ENDS = {"done", "not toml", "plant fault", "too long", "no such port", "read fault", "not built", USAGE}
NUMBER = r"(0|[1-9][0-9]{0,17})"
BYTE = r"([0-9a-f]{2})"
SETTLE = re.compile(f"settle {NUMBER} round {NUMBER}")
NODE = re.compile(f"node {NUMBER} ({'|'.join(STATES)}) west {BYTE} {BYTE} east {BYTE} {BYTE}")
PORT = re.compile(rf"port ([a-z0-9_-]+) ([ab]) (?:ais|norm {NUMBER} ((?:[0-9a-f]{{2}}){{1,16}}))")
TABLE = re.compile(rf"node {NUMBER} (west|east) slot {NUMBER} ([a-z0-9_-]+) {NUMBER} {NUMBER}")
COUNT = re.compile(f"settle {NUMBER} round {NUMBER} norm {NUMBER} ais {NUMBER}")
CHUNK_LINE = re.compile("(?:[0-9a-f]{2}){1,261}")
BAD_PLAN = re.compile(f"bad plan {NUMBER} at {NUMBER}")
UNSETTLED = re.compile(f"unsettled {NUMBER}")


class ReportProblem(Exception):
    """The text isn't one that the program writes for this plan."""


@dataclass(frozen=True)
class NodeLine:
    state: str
    west: Word
    east: Word


@dataclass(frozen=True)
class PortLine:
    """What a port delivers; without a value it is AIS."""

    value: int | None
    data: bytes

    @property
    def ais(self):
        return self.value is None


@dataclass
class Settled:
    number: int
    round: int | None  # `drop` doesn't have it
    nodes: list = field(default_factory=list)  # by position; empty where the text has no states
    ports: dict = field(default_factory=dict)  # (circuit's name, end) -> PortLine
    chunk: list | None = None  # lines of `drop`
    counts: tuple | None = None  # of `big`: ports that deliver bytes, and AIS
    outages: object = None  # what sdhoutage reports of the step, where it was asked


@dataclass(frozen=True)
class TableLine:
    node: int
    side: str
    slot: int
    name: str
    start: int
    end: int


@dataclass
class Report:
    kind: str  # run, check, drop, big, or none where the text is a refusal alone
    settled: list
    table: list
    last: str
    reason: int | None = None
    place: int | None = None
    unsettled: int | None = None

    @property
    def done(self):
        return self.last == "done"

    @property
    def refused(self):
        return not self.done and not self.settled and self.unsettled is None and self.last != "plant fault"


class Lines:
    """The text's lines, with the number of the one that is looked at."""

    def __init__(self, text):
        try:
            whole = text.decode("ascii")
        except UnicodeDecodeError as error:
            line = text[: error.start].count(b"\n") + 1
            raise ReportProblem(f"line {line}: a byte that no text of the program has") from None
        if not whole:
            raise ReportProblem("the text is empty")
        if not whole.endswith("\n"):
            raise ReportProblem(f"line {whole.count(chr(10)) + 1}: the text breaks off within a line")
        self.lines = whole[:-1].split("\n")
        self.at = 0

    def fail(self, what):
        shown = self.peek()
        quoted = "the text ends here" if shown is None else f"`{shown[:80]}`"
        raise ReportProblem(f"line {self.at + 1}: {what}: {quoted}")

    def peek(self):
        return self.lines[self.at] if self.at < len(self.lines) else None

    def try_take(self, form):
        found = form.fullmatch(self.peek()) if self.peek() is not None else None
        self.at += found is not None
        return found

    def take(self, form, what):
        return self.try_take(form) or self.fail(f"{what} was expected")

    def check(self, holds, what):
        """Of the line that was taken last."""
        if not holds:
            self.at -= 1
            self.fail(what)


def read_node(lines, plan, at):
    found = lines.take(NODE, f"the line of node {plan.ids[at]}")
    lines.check(int(found[1]) == plan.ids[at], f"node {plan.ids[at]} was expected")
    west, east = (Word(int(found[i], 16), int(found[i + 1], 16)) for i in (3, 5))
    lines.check(west.known() and east.known(), "a K word that isn't known")
    return NodeLine(found[2], west, east)


def read_port_line(lines, name, end):
    found = lines.take(PORT, f"the line of port {name} {end}")
    lines.check((found[1], found[2]) == (name, end), f"port {name} {end} was expected")
    if found[3] is None:
        return PortLine(None, b"")
    lines.check(int(found[3]) <= 782, "a pointer value is at most 782")
    return PortLine(int(found[3]), bytes.fromhex(found[4]))


def check_settle(lines, number, now_round, before):
    lines.check(number == len(before) + 1, f"settle step {len(before) + 1} was expected")
    last = before[-1].round if before else 0
    lines.check(now_round > last and now_round % WINDOW == 0, "a settle step can't end with this round")


def read_run(lines, plan):
    settled = []
    while found := lines.try_take(SETTLE):
        step = Settled(int(found[1]), int(found[2]))
        check_settle(lines, step.number, step.round, settled)
        told = bool(settled[0].nodes) if settled else bool(lines.peek() and lines.peek().startswith("node "))
        step.nodes = [read_node(lines, plan, at) for at in range(plan.size)] if told else []
        for circuit in plan.circuits:
            for end in "ab":
                step.ports[circuit.name, end] = read_port_line(lines, circuit.name, end)
        settled.append(step)
    return settled


def read_counts(lines, plan):
    settled = []
    while found := lines.try_take(COUNT):
        number, now_round, norm, ais = map(int, found.groups())
        check_settle(lines, number, now_round, settled)
        lines.check(norm + ais == 2 * len(plan.circuits), f"{2 * len(plan.circuits)} ports were expected")
        settled.append(Settled(number, now_round, counts=(norm, ais)))
    return settled


def read_drops(lines, plan):
    """The chunks of `drop`, whose text has neither the port nor the rounds."""
    settled = []
    while lines.peek() == "ais" or (lines.peek() and CHUNK_LINE.fullmatch(lines.peek())):
        chunk = []
        if lines.peek() == "ais":
            lines.at += 1
        else:
            chunk = [bytes.fromhex(lines.take(CHUNK_LINE, "a line of a chunk")[0]) for _ in range(9)]
            lines.check(all(len(line) == 261 for line in chunk), "nine lines of 261 bytes were expected")
        settled.append(Settled(len(settled) + 1, None, chunk=chunk))
    return settled


def read_table(lines, plan):
    table = []
    while found := lines.try_take(TABLE):
        node, slot, start, end = (int(found[i]) for i in (1, 3, 5, 6))
        lines.check(node in plan.ids and found[4] in {c.name for c in plan.circuits}, "no such node or circuit in the plan")
        table.append(TableLine(node, found[2], slot, found[4], start, end))
    return table


def read_last(lines, steps_asked, report):
    """The last line, and whether it fits what stood before it."""
    line = lines.peek()
    if line is None:
        lines.fail("the last line is missing")
    ended = len(report.settled)
    if found := lines.try_take(BAD_PLAN):
        report.reason, report.place = int(found[1]), int(found[2])
        lines.check(1 <= report.reason <= 31, "a reason that isn't known")
    elif found := lines.try_take(UNSETTLED):
        report.unsettled = int(found[1])
        lines.check(report.unsettled == ended + 1 <= steps_asked, f"not step {report.unsettled} comes here")
    elif line in PLAIN_ENDS:
        lines.at += 1
    else:
        lines.fail("an unknown line")
    report.last = line
    if line == "done" and report.kind not in ("check", "none"):
        lines.check(ended == steps_asked, f"{steps_asked} settle steps were expected, {ended} are there")
    if line != "done" and line != "plant fault" and report.unsettled is None:
        lines.check(lines.at == 1, "a refusal stands alone")
    if lines.peek() is not None:
        lines.fail("a line after the last one")


def kind_of(lines, plan):
    first = lines.peek()
    if COUNT.fullmatch(first):
        return "big"
    if SETTLE.fullmatch(first):
        return "run"
    if TABLE.fullmatch(first) or (first == "done" and not plan.circuits):
        return "check"
    return "drop" if first == "ais" or CHUNK_LINE.fullmatch(first) else "none"


def check_length(text: bytes) -> None:
    """Raises ReportProblem where a text has more lines than any report."""
    if text.count(b"\n") > MOST_LINES:
        raise ReportProblem(f"it has more than {MOST_LINES:,} lines, the most of a report")


def read_report(text, plan):
    """The report of this plan. `plan` is None where it couldn't be read: then the text can only be a refusal."""
    check_length(text)
    lines = Lines(text)
    report = Report("none", [], [], "")
    if plan is not None:
        report.kind = kind_of(lines, plan)
        readers = {"run": read_run, "big": read_counts, "drop": read_drops}
        if report.kind == "check":
            report.table = read_table(lines, plan)
        elif report.kind in readers:
            report.settled = readers[report.kind](lines, plan)
    asked = sum(step.word == "settle" for step in plan.steps) if plan is not None else 0
    read_last(lines, asked, report)
    if report.done and report.kind == "none":
        lines.at -= 1
        lines.fail("reports of settle steps were expected")
    return report
