"""The cases of sdhring-whatif that the program runs frame by frame: put, run here or over machines, judged, and drawn."""

import shlex
from concurrent.futures import ThreadPoolExecutor
from dataclasses import dataclass

from .answers import Answers, limit_advice
from .asking import DIFFERS, INTERRUPTED, NOT_SETTLED, Stop, folder_of, keep_question, say, warn_of
from .casepage import Asked, answers_page, draw_cases
from .checks import SETTLES
from .failures import KINDS, all_cases, shard_of
from .inshort import FAILED_ON, SECOND, WorksInShort, answers_found, answers_lines, seconds_of, tell
from .interruptions import COUNTER, count_works, write_interruptions
from .kept import Store
from .markup import count_of
from .opening import count_opening, opening_case
from .origin import LAUNCHER, TELLER, program_of, sum_of
from .plan import read_plan
from .progress import Progress, duration
from .reasons import REASONS
from .report import ReportProblem, read_report
from .running import Machines, processors, run_here, run_one, run_with_parallel
from .shown import shown
from .verdicts import SOURCE_OF_COUNTS, UNSETTLED, judge, source_of_counts, write_table


@dataclass(frozen=True)
class WorksDone:
    """What was counted of the works and of the opening, what one failure more comes to, and who is touched; without works nothing."""

    counted: object = None
    opening: object = None
    second: str = ""
    found: object = None


NO_WORKS = WorksDone()


def read_kinds(words, alone):
    if words is None:
        return KINDS[:3] if alone else KINDS
    kinds = words.split(",")
    unknown = [kind for kind in kinds if kind not in KINDS]
    if unknown:
        raise Stop(f"--kinds {words}: `{unknown[0]}` is none of {', '.join(KINDS)}")
    return tuple(kinds)


def machines_of(asked):
    try:
        return Machines(tuple(asked.sshlogin), asked.jobs, tuple(shlex.split(asked.parallel)))
    except ValueError as error:
        raise Stop(f"--parallel `{asked.parallel}`: {error}") from None


def store_of(asked, subject):
    store = Store(folder_of(asked, subject.name).inside("cases"), program_of(asked.program, LAUNCHER))
    warn_of(store.program, subject.plan)
    return store


def counting_store_of(asked, subject):
    """Where what sdhoutage counts is kept."""
    program = program_of(asked.counter, COUNTER)
    warn_of(program)
    return Store(folder_of(asked, subject.name).inside("outages"), program)


def asked_of(asked, subject, store, part="", works=NO_WORKS):
    """What the pages of the cases have to know."""
    return Asked(subject.title, sum_of(subject.data), subject.beforehand, store, part, asked.title, works.counted, works.opening, works.second)


def check_room(subject, case):
    """A script has room for a number of settle steps."""
    more = subject.beforehand.script(case).count("settle")
    if more > SETTLES:
        raise Stop(f"the plan's script leaves no room: a case would have {more} settle steps, and a script has {SETTLES} at most; --without-script leaves it out")


def try_nothing(store, beforehand):
    """Runs the ring without a failure first: a refused plan is refused once, and its time shows how long the cases may take."""
    program, document = shlex.join(store.program.words), beforehand.document_of_nothing()
    store.put_plan("nothing", document)
    if not store.is_done("nothing"):
        say("the ring without a failure runs first")
        progress = Progress(1, 0)
        progress.what = "runs without a failure"
        run_here(store, ["nothing"], 1, progress)
    answer, text = store.both("nothing")
    if answer is None:
        raise KeyboardInterrupt
    try:
        report = read_report(text, read_plan(document))
    except ReportProblem as problem:
        raise Stop(f"{program} ended with status {answer.status}: {problem}") from None
    if report.done and not report.settled[0].nodes:
        raise Stop(f"{program} reports no node states, and whatif reads them")
    if answer.status == UNSETTLED:
        raise Stop(f"the ring doesn't settle even before anything fails: {limit_advice(beforehand.plan)}", NOT_SETTLED)
    if answer.status != 0:
        because = f": {REASONS[report.reason][1]}" if report.reason else ""
        raise Stop(f"the program refuses the ring before anything fails, status {answer.status}: {report.last}{because}")
    return answer.seconds


def estimate(beforehand, left, seconds, jobs):
    """Estimated from the time that the ring without a failure took, and from the settle steps of it and of the cases."""
    times = sum(len(case.stages) for case in left) / beforehand.settled_texts().count("settle")
    return times * seconds / min(jobs, len(left))


def run_cases(asked, store, beforehand, cases):
    seconds = try_nothing(store, beforehand)
    waiting = [case for case in cases if not store.is_done(case.name)]
    left, jobs = [case.name for case in waiting], asked.jobs or processors()
    expected = estimate(beforehand, waiting, seconds, jobs) if left else 0
    if left:
        where = "on this machine alone" if asked.sshlogin else f"{min(jobs, len(left))} at a time"
        say(f"{count_of(len(left), 'case')} to run, {where}: about {duration(expected)}; Ctrl-C stops, and what is done is kept")
    pace = (None, 1) if asked.sshlogin else (expected, min(jobs, max(1, len(left))))
    progress = Progress(len(cases), len(cases) - len(left), *pace)
    progress.tell(progress.done, last=True)
    if left and asked.sshlogin:
        run_with_parallel(store, left, machines_of(asked), progress)
    elif left:
        run_here(store, left, jobs, progress)
    if left:
        progress.tell(sum(store.is_done(case.name) for case in cases), last=True)


def put_cases(asked, store, beforehand, cases):
    for case in cases:
        store.put_plan(case.name, beforehand.document(case))
    others, strangers = store.others(case.name for case in cases)
    if others:
        say(f"{others} of {len(cases)} kept answers are another program's, and are run again")
    if strangers:
        say(f"{strangers} of {len(cases)} kept answers weren't written by this account's tools, and are run again")
    for case in cases if asked.anew else ():
        store.forget(case.name)


def write_answers(asked, subject, store, works, verdicts):
    shard, shards = asked.shard
    part = "" if shards == 1 else f"-{shard}-of-{shards}"
    told = asked_of(asked, subject, store, part and f"{shard} of {shards}", works)
    keep_question(asked, subject)
    folder = folder_of(asked, subject.name)
    write_table(folder, f"table{part}.csv", told, verdicts)
    draw_cases(told, [verdict.case for verdict in verdicts], asked.jobs or processors())
    folder.write(f"page{part}.html", answers_page(told, verdicts))
    print(shown(folder.path / f"table{part}.csv"), shown(folder.path / f"page{part}.html"), sep="\n")
    if works.counted:
        both = [works.counted, *([works.opening.counted] if works.opening.spans else [])]
        write_interruptions(folder, f"outages{part}.csv", SOURCE_OF_COUNTS, both, subject.plan, source_of_counts(works.counted.answer, told))
        print(shown(folder.path / f"outages{part}.csv"))


def ended(plan, verdicts, counted):
    """The status, and a line where it isn't 0."""
    unanswered = sum(verdict.answer is None for verdict in verdicts)
    unsettled = sum(verdict.unsettled for verdict in verdicts)
    odd = sum(bool(verdict.differs) or not (verdict.ok or verdict.unsettled) for verdict in verdicts)
    if odd:
        say(f"{odd} of {len(verdicts)} cases didn't end Ok, or differ from the restoration model; {unanswered} of them have no answer")
    if unsettled:
        say(f"{unsettled} of {len(verdicts)} cases didn't settle: {limit_advice(plan)}")
    if counted and counted.problem:
        say(f"how long the works interrupt customers isn't known: {counted.problem}")
    return DIFFERS if odd or not unsettled and counted and counted.problem else NOT_SETTLED if unsettled else 0


def judged(subject, store, case):
    answer, text = store.both(case.name)
    return judge(case, subject.beforehand.plan_of(case), text, answer)


def run_works(store, counting, beforehand, works):
    """Runs the works, and counts their frames and those of the opening, all at a time, before the failures run that may come meanwhile."""
    opening = opening_case(beforehand, works)
    counting.put_plan(works.name, beforehand.document(works))
    wanted = [(store, works), (counting, works)]
    if opening.fibres:
        counting.put_plan(opening.name, beforehand.document(opening))
        wanted.append((counting, opening))
    with ThreadPoolExecutor(len(wanted)) as pool:
        for run in [pool.submit(run_one, kept, case.name) for kept, case in wanted if not kept.is_done(case.name)]:
            run.result()


def ask_works(asked, subject, store, counting, works):
    """Says at once what the works come to, and returns what was counted of them and of the opening, and who is touched."""
    beforehand = subject.beforehand
    for name in ("works", "opening") if asked.anew else ():
        counting.forget(name)
    run_works(store, counting, beforehand, works)
    counted = count_works(counting, beforehand, works, store.text(works.name), asked.lengths)
    opening = count_opening(counting, beforehand, works, asked.lengths)
    short = WorksInShort(judged(subject, store, works), counted, opening, subject.plan)
    tell(short.lines(subject.order))
    second = tuple(kind for kind in SECOND if kind in read_kinds(asked.kinds, True))
    line = ""
    if second and short.during is not None:
        seconds = seconds_of(subject.asked, subject.document, program_of(asked.teller, TELLER), second)
        line = seconds.line("during the works", len(subject.plan.circuits))
        tell([line])
    return WorksDone(counted, opening, line, short.found)


def ask_by_frames(asked, subject):
    """Each failure of the kinds that are asked for, run by the program; the works first, where there are any."""
    beforehand, kinds = subject.beforehand, read_kinds(asked.kinds, asked.works)
    cases = shard_of(all_cases(beforehand, kinds), *asked.shard)
    for case in cases[:1]:
        check_room(subject, case)
    works = next((case for case in cases if case.kind == "works"), None)
    store, counting = store_of(asked, subject), works and counting_store_of(asked, subject)
    put_cases(asked, store, beforehand, cases)
    done = NO_WORKS
    try:
        if works:
            try_nothing(store, beforehand)
            done = ask_works(asked, subject, store, counting, works)
        run_cases(asked, store, beforehand, cases)
    except KeyboardInterrupt:
        kept = sum(store.is_done(case.name) for case in cases)
        raise Stop(f"stopped; {kept} of {len(cases)} cases are kept, the same command goes on from there", INTERRUPTED) from None
    verdicts, found = [judged(subject, store, case) for case in cases], done.found
    if found is None:
        answers = Answers(beforehand, verdicts)
        found = answers_found(answers)
        tell(answers_lines(subject.title, answers))
    write_answers(asked, subject, store, done, verdicts)
    return ended(subject.plan, verdicts, done.counted) or (FAILED_ON if found.fails(asked.fail_on) else 0)
