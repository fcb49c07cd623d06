"""Every failure of a plan alone, each two and each three, as sdhwhatif answers: tables and a page, rules, and some cases run frame by frame too."""

import shlex
import sys
import time
from collections.abc import Iterator
from functools import partial

from .against import Against, cases_of_table, cases_of_told
from .asking import DIFFERS, INTERRUPTED, Stop, folder_of, keep_question, say, subject_of, warn_of
from .casepage import draw_cases
from .checks import SETTLES
from .desktable import WHOLE, Reading, ToldProblem, merged, read_cases, words_for
from .files import FileProblem
from .framed import asked_of, judged, machines_of, put_cases, run_cases, store_of
from .groups import named_groups
from .inshort import FAILED_ON, tell, told_found, told_lines
from .origin import TELLER, CannotRun, Origin, Program, program_of, sum_of
from .required import BROKEN, COLUMNS, NOT_ASKED, Rule, depth_for, line_of, not_asked, records
from .running import made_pool, processors, tell_with_parallel
from .shown import shown
from .tables import TableProblem
from .told import Question, Told, case_to_run, differences, drawn, part_name
from .toldpage import beside_page, heading, told_page

PARTS = {"single": 1, "double": 8, "triple": 64}  # over machines


def teller_of(asked):
    return program_of(asked.teller, TELLER)


def told_of(asked, subject, depth, part=WHOLE):
    """The cases of a plan, and the program that answered."""
    program, reading = teller_of(asked), reading_of(asked, subject)
    try:
        if asked.sshlogin and part == WHOLE:
            begun, parts = time.monotonic(), PARTS[depth]
            words = words_for(reading.failures, depth, ("{}", parts))
            texts = tell_with_parallel(program, subject.document, words, parts, machines_of(asked))
            table = merged(reading, texts, depth, time.monotonic() - begun)
        else:
            table = read_cases(reading, program, subject.document, depth, part)
    except ToldProblem as problem:
        raise Stop(f"{subject.name}: {shlex.join(program.words)} writes no table: {problem}") from None
    return Told(subject.asked, table), program


def reading_of(asked, subject):
    """What reads the table of a plan, with the groups of --groups."""
    plan, places = subject.asked, subject.plan.places
    try:
        groups = named_groups(asked.groups, plan, places)
    except (FileProblem, TableProblem) as problem:
        raise Stop(str(problem)) from None
    for note in groups.notes:
        say(note)
    return Reading(plan, places, groups.found)


def against_of(asked, told, part):
    """This plan's cases beside those of --against: a table of an earlier run, or a plan, with its own script."""
    name = asked.against
    if name is None:
        return None
    this = cases_of_told("this plan", told)
    if name.endswith(".csv"):
        return Against(this, table_of(name))
    subject = subject_of(name, None, None, asked.without_script)
    other, _ = told_of(asked, subject, told.table.depth, part)
    return Against(this, cases_of_told(name, other, sum_of(subject.data)))


def table_of(name):
    """The cases of a table, of which it is said at once that anybody may have written it."""
    try:
        found = cases_of_table(name)
    except (FileProblem, TableProblem) as problem:
        raise Stop(str(problem)) from None
    say(f"{name}: a table, and it isn't known who wrote it: its rows add up, and nothing else of it was looked at")
    return found


def compare_tables(asked, name):
    """Two tables of earlier runs beside each other; nothing is asked."""
    if not asked.against or not asked.against.endswith(".csv"):
        raise Stop(f"{name}: a table in place of a plan is compared with another one: --all --against TABLE.csv")
    against, folder = Against(table_of(name), table_of(asked.against)), folder_of(asked, name)
    against.write_csv(folder, "against.csv")
    folder.write("against.html", beside_page(against))
    print(shown(folder.path / "against.csv"), shown(folder.path / "against.html"), sep="\n")
    return 0


class Writing:
    """What is written about the cases of a plan: once before any is run by frames, and once more after."""

    def __init__(self, asked, subject, told, teller, against):
        self.asked, self.subject, self.told, self.teller, self.against = asked, subject, told, teller, against
        self.question = Question(sum_of(subject.data), sum_of(subject.document), subject.beforehand)
        self.folder, self.end = folder_of(asked, subject.name), part_name(told.table.part)

    def name(self, kind: str) -> str:
        return f"all{self.end}.{kind}"

    def write_once(self):
        """What doesn't change by cases that are run: what was asked and answered, as it is, as JSON, and beside the other."""
        keep_question(self.asked, self.subject)
        self.folder.write(self.name("toml"), self.subject.document)
        self.folder.write(self.name("text"), self.told.table.text)
        self.told.write_json(self.folder, self.name("json"), self.question, self.teller)
        if self.against:
            self.against.write_csv(self.folder, f"against{self.end}.csv")

    def origin_of(self, program: Program, answers: tuple) -> Origin:
        """Returns where the answers of a program come from."""
        dates = tuple(answer.date for answer in answers)
        return Origin(program, self.subject.title, self.question.plan, dates, asked=self.question.asked, answers=answers)

    def write(self, store, checked):
        """The table and the page. `checked` has the cases that were run, each with its verdict."""
        told, subject = self.told, self.subject
        found = {case.failures: differences(told, case, verdict) for case, verdict in checked}
        known = tuple(verdict.answer for _, verdict in checked if verdict.answer) if store else ()
        programs = [(self.teller, ()), *([(store.program, known)] if store else [])]
        origins = [self.origin_of(*one) for one in programs]
        told.write_csv(self.folder, self.name("csv"), self.question, found)
        title = self.asked.title or heading(subject.title, subject.beforehand)
        page = told_page(title, subject.beforehand, told, found, origins, self.against)
        self.folder.write(self.name("html"), page)
        for case, _ in checked:
            for difference in found[case.failures]:
                say(f"{told.table.words(case)}: {difference}")
        return DIFFERS if any(found.values()) else 0

    def names(self) -> list[str]:
        files = [self.name(kind) for kind in ("csv", "json", "html")] + ([f"against{self.end}.csv"] if self.against else [])
        return [shown(self.folder.path / file) for file in files]


def run_some(asked, subject, told, chosen):
    """Runs these cases frame by frame, and draws each."""
    settles = subject.beforehand.settled_texts().count("settle")
    if settles >= SETTLES:
        raise Stop(f"the script has {settles} settle steps, so none fits after it that would run a case frame by frame: --frames 0 runs none")
    store = store_of(asked, subject)
    cases = [case_to_run(told, case, settles) for case in chosen]
    put_cases(asked, store, subject.beforehand, cases)
    try:
        run_cases(asked, store, subject.beforehand, cases)
    except KeyboardInterrupt:
        raise Stop("stopped; the cases that are done are kept", INTERRUPTED) from None
    draw_cases(asked_of(asked, subject, store), cases, asked.jobs or processors())
    return store, list(zip(chosen, [judged(subject, store, case) for case in cases]))


def ask_all(asked, subject):
    """Every failure alone and each two, or as deep as is asked for, and some of these cases frame by frame."""
    told, teller = told_of(asked, subject, asked.depth or "double", asked.shard)
    warn_of(teller)
    against = against_of(asked, told, asked.shard)
    chosen, unknown = drawn(told, asked.frames or ["8"])
    if unknown:
        raise Stop(f"--frames '{unknown[0]}': no case has these steps or failures; all.csv has those that there are")
    writing = Writing(asked, subject, told, teller, against)
    tell(told_lines(subject.title, told))
    writing.write_once()
    writing.write(None, [])
    print("\n".join(writing.names()), flush=True)
    status = writing.write(*run_some(asked, subject, told, chosen)) if chosen else 0
    return status or (FAILED_ON if asked.fail_on and told_found(told).fails(asked.fail_on) else 0)


def required(asked, rules: list[Rule], name: str) -> list[list]:
    """Returns a record for each rule about one plan."""
    try:
        told, _ = told_of(asked, subject_of(name, asked.also, asked.works, asked.without_script), depth_for(rules))
        return list(records(name, rules, told))
    except (Stop, CannotRun) as problem:
        return not_asked(name, rules, str(problem))


def each_required(asked, plans: list[str], rules: list[Rule]) -> Iterator[list[list]]:
    """Yields the records of each plan, in the order of the plans; as many are asked about at a time as there are processors, or --jobs."""
    ask, jobs = partial(required, asked, rules), min(asked.jobs or processors(), len(plans))
    one_by_one = jobs < 2 or asked.sshlogin or "-" in plans
    if one_by_one or (pool := made_pool(jobs)) is None:
        yield from map(ask, plans)
        return
    with pool:
        yield from pool.map(ask, plans)


def require(asked, plans: list[str], rules: list[Rule]) -> int:
    """Writes a table with a record for each plan and rule. The status is 1 where a rule is broken, or nothing could be asked."""
    sys.stdout.write(line_of(COLUMNS))
    status = 0
    for found in each_required(asked, plans, rules):
        sys.stdout.write("".join(map(line_of, found)))
        sys.stdout.flush()
        status = max(status, int(any({BROKEN, NOT_ASKED} & set(cells) for cells in found)))
    return status
