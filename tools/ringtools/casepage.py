"""The page of sdhring-whatif: what the failures come to, customers first; and a page with the drawing of each case."""

from dataclasses import dataclass
from functools import partial

from .answers import Answers
from .casetables import CaseTables
from .escaping import html, lines
from .failures import WORKS_STAGES
from .inshort import WorksInShort
from .look import looks
from .markup import count_of, listing, origin_list, warning, whole
from .model import scenes
from .origin import Origin
from .page import in_short, run_page, source, tools
from .report import ReportProblem, read_report
from .running import made_pool
from .sheet import first_sheet
from .works import Works


@dataclass(frozen=True)
class Asked:
    """What was asked: the plan's file and sum, the steps before, and where the answers are kept."""

    plan: str
    plan_sum: str
    beforehand: object
    store: object
    shard: str = ""
    title: str = ""  # the heading that was asked for, such as an order's number and time
    interruptions: object = None  # what sdhoutage counts of the works
    opening: object = None  # and of the opening of the spans that these free
    second: str = ""  # what one failure more during the works comes to

    def heading(self):
        """The title, with the plan below it; or the plan."""
        return (self.title, html("<p>Plan <code>{}</code></p>", self.plan)) if self.title else (f"What if: {self.plan}", "")

    def origin(self, answers):
        known = tuple(answer for answer in answers if answer is not None)
        return Origin(self.store.program, self.plan, self.plan_sum, tuple(answer.date for answer in known), answers=known)


def order_sheet(asked, answers):
    """The sheet to be signed, before everything else."""
    short = WorksInShort(answers.works, asked.interruptions, asked.opening, answers.plan)
    text = asked.store.text(answers.works.case.name)
    return first_sheet(asked, short, text)


def answers_page(asked, verdicts):
    answers, origin = Answers(asked.beforehand, verdicts, asked.shard), asked.origin([verdict.answer for verdict in verdicts])
    tables, plan = CaseTables(answers), answers.plan
    about = f"STM-{plan.rate}, {plan.size} nodes, {count_of(len(plan.circuits), 'circuit')}, wait {plan.wait}, limit {plan.limit}. "
    about += "Each failure settles, is mended, settles, and settles once more when every wait is over."
    title, below = asked.heading()
    counted = asked.interruptions and asked.interruptions.origin(asked.plan, asked.plan_sum)
    parts = [html("<h1>{}</h1>", title), below, *dict.fromkeys(warning(each) for each in (origin, counted) if each)]
    if asked.beforehand.works:
        parts += [order_sheet(asked, answers)] if answers.works and asked.interruptions else []
        parts += [Works(answers, asked.interruptions, asked.opening).section(), html("<section><h2>All failures during the works</h2>")]
    parts += [listing(answers.words()), html("<p>{}</p>", about), in_short(origin), tools(), html("</section>") if asked.beforehand.works else ""]
    if plan.circuits:
        parts.append(html('<section id="customers"><h2>Customers: {}</h2>{}</section>', tables.headline(), tables.customers()))
    parts.append(html('<section id="failures"><h2>Failures</h2>{}</section>', tables.failures()))
    if plan.circuits:
        parts.append(html('<section id="matrix"><h2>Each customer in each failure</h2>{}</section>', tables.matrix()))
    parts += [source(origin), html("<section><h2>Where the interruptions come from</h2>{}</section>", origin_list(counted)) if counted else ""]
    return whole(title, lines(*parts), ["whatif.css"], ["whatif.js"])


def draw_case(asked, case):
    """A page with the case's drawing: of a failure the stage in which it has settled, of the works each stage."""
    store, plan = asked.store, asked.beforehand.plan_of(case)
    answer, text = store.both(case.name)
    try:
        report = read_report(text, plan)
    except ReportProblem:
        return
    beside = asked.interruptions.put_beside(report.settled) if asked.interruptions and case.kind == "works" else None
    seen = looks(plan, scenes(plan, [step.round for step in report.settled]), report.settled)
    drawn = WORKS_STAGES if case.kind == "works" else ("failed",)
    shown = [look for look in seen if case.stages[look.scene.number - 1] in drawn] or seen[-1:]
    origin = Origin(store.program, f"{case.name}.toml", answer.plan, (answer.date,), answers=(answer,))
    title = f"{asked.title or asked.plan}: {case.words}"
    store.folder.write(f"{case.name}.html", run_page(title, plan, report, shown, origin, beside))


def draw_cases(asked, cases, jobs):
    done, draw = [case for case in cases if asked.store.is_done(case.name)], partial(draw_case, asked)
    if (pool := made_pool(jobs)) is None:
        list(map(draw, done))
        return
    with pool:
        list(pool.map(draw, done, chunksize=4))
