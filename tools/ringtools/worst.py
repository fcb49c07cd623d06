"""For how long each failure of a plan's ring, and its repair, interrupt which ports, as sdhoutage counts it: a table, and the worst of all in words."""

from collections.abc import Iterator
from dataclasses import dataclass

from .answers import limit_advice
from .asking import DIFFERS, INTERRUPTED, NOT_SETTLED, Stop, folder_of, keep_question, say
from .cells import write_rows
from .failures import all_cases, shard_of
from .fibre import MS_OF_FRAME, delays_of, fibre_words
from .framed import asked_of, check_room, counting_store_of, put_cases, read_kinds
from .inshort import FAILED_ON, Found, tell
from .markup import count_of
from .outages import SWITCH_MAX, frames_words, milliseconds, names_words, read_outages
from .progress import Progress
from .report import ReportProblem
from .running import processors, run_here
from .shown import shown
from .verdicts import SOURCE_OF_COUNTS, UNSETTLED, source_of_counts
from .writing import Folder

COLUMNS = ["Case", "Kind", "Failure", "Stage", "Longest", "Milliseconds", "Over", "None", "Still out", "Foreign", "Ports", "Milliseconds with fibre", "Customers"]


@dataclass(frozen=True)
class Interruption:
    """One stage of a case after the first: what sdhoutage counted of its settle step."""

    case: object
    stage: str
    told: object
    fibre_ms: float | None = None  # the longest with its fibre delay, where the lengths are known

    def lost(self, before):
        """The circuits that are out still, and weren't at the end of this stage."""
        still = lambda told: {name for (name, _), outage in told.ports.items() if outage.is_out_still}
        return still(self.told) - still(before)

    def interrupted(self):
        """The circuits that were out for a frame or more and came back."""
        return {name for (name, _), outage in self.told.ports.items() if outage.out and not outage.is_out_still}

    def cells(self, places):
        told = self.told
        foreign, ports = ("; ".join(" ".join(port) for port in found) for found in (told.foreign(), told.worst()))
        counts = [told.longest(), milliseconds(told.longest()), told.over(), told.spared(), told.still()]
        return [self.case.name, self.case.kind, self.case.words, self.stage, *counts, foreign, ports, "" if self.fibre_ms is None else f"{self.fibre_ms:.3f}", "; ".join(self.customers(places))]

    def customers(self, places):
        """The names of those that were out for longest and came back."""
        return [places.circuit(name) for name in dict.fromkeys(name for name, _ in self.told.worst())]

    def words(self):
        return f"{frames_words(self.told.longest())}{fibre_words(self.fibre_ms)}, {self.case.words}, {self.stage}: {names_words(self.told.worst())}"


def longest_ms(told, stage, delays, plan):
    """The longest interruption of a port that came back, with its fibre delay; None where no lengths are known."""
    if delays is None:
        return None
    circuits = {circuit.name: circuit for circuit in plan.circuits}
    return max((delays.of(stage, outage.longest, circuits[name]) for (name, _), outage in told.ports.items() if not outage.is_out_still), default=0.0)


def interruptions(case, plan, text, lengths=None):
    """Each stage of a case after the first that ended, and the first; that a new ring starts is no interruption."""
    steps, delays = read_outages(text, plan)[case.settles - 1 :], delays_of(lengths, plan, case.stages)
    return [Interruption(case, stage, told, longest_ms(told, stage, delays, plan)) for stage, told in zip(case.own_stages[1:], steps[1:])], steps[:1]


def summary(rows):
    """The worst interruption, how many were longer than a switch may take, and who got another circuit's bytes."""
    worst = max(rows, key=lambda row: (row.told.longest(), row.fibre_ms or 0), default=None)
    if worst is None or not worst.told.longest():
        yield "no failure interrupts any port that comes back"
    else:
        yield f"the worst interruption: {worst.words()}"
    over = sum(row.told.over() > 0 for row in rows)
    yield f"{over} of {len(rows)} stages have a port that was out for more than {SWITCH_MAX} frames, 50 ms, and came back"
    if slow := [row for row in rows if (row.fibre_ms or 0) > SWITCH_MAX * MS_OF_FRAME]:
        yield f"with fibre, {len(slow)} of {len(rows)} stages have one of more than 50 ms"
    for row in rows:
        if row.told.foreign():
            yield f"FOREIGN FRAMES: {row.case.words}, {row.stage}: {row.told.alarm()}"


@dataclass
class Counted:
    """What was counted: of each case by its name, and who was lost or interrupted in some case."""

    rows: dict
    answers: dict  # by the case's name
    found: Found
    losing: int = 0  # cases in which a customer is lost that doesn't end at a lost node
    odd: int = 0

    def add(self, case, plan, rows, first):
        self.rows[case.name] = rows
        failed = next((row for row in rows if row.stage == "failed"), None)
        lost = failed.lost(first[0]) - (ends_at(plan, case) if case.kind == "node" else set()) if failed else set()
        self.losing += bool(lost)
        self.found.lost |= lost
        for row in rows:
            self.found.interrupted |= row.interrupted()

    def line(self, title, plan):
        """How many failures lose customers, and how many customers some failure interrupts."""
        of, cases = len(plan.circuits), len(self.rows)
        ends = " besides those that end at a lost node" if any(name.startswith("node-") for name in self.rows) else ""
        told = f"{len(self.found.lost)} of {of} customers are LOST{ends}, in {self.losing}" if self.losing else f"no customer is lost{ends}"
        return f"{title}: {count_of(cases, 'failure')}, each alone and repaired: {told}; {len(self.found.interrupted)} of {of} are interrupted by some"


def ends_at(plan, case):
    """The circuits that end at the node of a case."""
    at = case.fibres[2][0]
    return {circuit.name for circuit in plan.circuits if at in (circuit.start, circuit.end)}


def run_cases(asked, store, cases):
    left = [case.name for case in cases if not store.is_done(case.name)]
    progress = Progress(len(cases), len(cases) - len(left))
    progress.tell(progress.done, last=True)
    if left:
        run_here(store, left, asked.jobs or processors(), progress)
        progress.tell(sum(store.is_done(case.name) for case in cases), last=True)


def read_answers(store, subject, cases, lengths=None):
    """What was counted of each case, and how many have no text that can be read."""
    counted = Counted({}, {}, Found(set(), None, set()))
    for case in cases:
        counted.answers[case.name], text = store.both(case.name)
        try:
            counted.add(case, subject.plan, *interruptions(case, subject.beforehand.plan_of(case), text, lengths))
        except ReportProblem as problem:
            say(f"{case.name}: {problem}")
            counted.odd += 1
    return counted


def all_rows(told, cases, counted) -> Iterator[list]:
    yield [*COLUMNS, *SOURCE_OF_COUNTS]
    for case in cases:
        source = source_of_counts(counted.answers[case.name], told)
        yield from ([*row.cells(told.beforehand.plan.places), *source] for row in counted.rows.get(case.name, ()))


def write_interruptions(folder: Folder, name: str, told, cases, counted) -> None:
    with folder.writing_text(name) as file:
        write_rows(file, all_rows(told, cases, counted))


def ended(subject, cases, counted):
    """The status, and a line where it isn't 0."""
    statuses = [answer and answer.status for answer in counted.answers.values()]
    unsettled = statuses.count(UNSETTLED)
    odd = max(counted.odd, len(cases) - unsettled - statuses.count(0))
    if odd:
        say(f"{odd} of {count_of(len(cases), 'case')} didn't end Ok, and not all of their stages are counted")
    if unsettled:
        say(f"{unsettled} of {count_of(len(cases), 'case')} didn't settle: {limit_advice(subject.plan)}")
    return DIFFERS if odd else NOT_SETTLED if unsettled else 0


def ask_outages(asked, subject):
    """Each failure of the kinds that are asked for, run and counted by the program."""
    shard, shards = asked.shard
    cases = shard_of(all_cases(subject.beforehand, read_kinds(asked.kinds, alone=True)), shard, shards)
    for case in cases[:1]:
        check_room(subject, case)
    store = counting_store_of(asked, subject)
    put_cases(asked, store, subject.beforehand, cases)
    try:
        run_cases(asked, store, cases)
    except KeyboardInterrupt:
        done = sum(store.is_done(case.name) for case in cases)
        raise Stop(f"stopped; {done} of {len(cases)} cases are kept, the same command goes on from there", INTERRUPTED) from None
    counted = read_answers(store, subject, cases, asked.lengths)
    found = counted.rows
    tell([counted.line(subject.title, subject.plan), *summary([row for case in cases for row in found.get(case.name, ())])])
    folder, table = folder_of(asked, subject.name), f"interruptions{'' if shards == 1 else f'-{shard}-of-{shards}'}.csv"
    keep_question(asked, subject)
    write_interruptions(folder, table, asked_of(asked, subject, store), cases, counted)
    print(shown(folder.path / table))
    return ended(subject, cases, counted) or (FAILED_ON if counted.found.fails(asked.fail_on) else 0)
