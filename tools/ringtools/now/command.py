"""The words of sdhring-now, and how it ends."""

from __future__ import annotations

import argparse
import shlex
import sys
from pathlib import Path

from ..desktable import ToldProblem
from ..fibre import read_lengths
from ..files import FileProblem, read_input
from ..inshort import FAILED_ON
from ..options import Options
from ..origin import TELLER, CannotRun, Origin, now, program_of, sum_of
from ..plan import PlanProblem, read_plan
from ..plans import tell_unnamed
from ..shown import say as say_of
from ..shown import shown
from ..tables import TableProblem
from ..writing import folder_of_file
from .alarms import read_alarms
from .page import now_page
from .record import as_json
from .records import Listing
from .sorting import Now
from .telling import Told

FAILED, NOT_READ = 1, 6
PROBLEMS = (FileProblem, TableProblem, PlanProblem, ToldProblem, CannotRun)


def say(what: object) -> None:
    say_of("sdhring-now", what)


def options(words: list[str]) -> argparse.Namespace:
    parser = Options(prog="sdhring-now", description="Says by a list of alarms who is lost in a ring, which commands help or do harm, and which repair comes first.")
    parser.add_argument("plan", metavar="PLAN", help="the plan, or - for standard input; the ring is the one that its script leaves")
    parser.add_argument("--alarms", metavar="FILE", required=True, help="the alarms that stand, a line each, or a table of a network manager; - for standard input")
    parser.add_argument("--spans", metavar="SPANS.csv", help="the lengths of the spans, from,to,km: how many kilometres longer ways are, and the fibre delay beside each time")
    parser.add_argument("--page", metavar="FILE", help="write a page too")
    parser.add_argument("--json", action="store_true", help="write all of it as JSON in place of words")
    parser.add_argument("--title", metavar="WORDS", default="", help="the page's heading (PLAN's name and the time)")
    parser.add_argument("--without-script", action="store_true", help="leave out the plan's own script")
    parser.add_argument("--fail-on", choices=("lost", "impaired"), help="end with status 5 where a customer is lost; or lost or impaired")
    parser.add_argument("--teller", metavar="CMD", help="the program that answers (sdhwhatif beside this one)")
    asked = parser.parse_args(words)
    if asked.plan == asked.alarms == "-":
        parser.error("only one of PLAN and the alarms can be standard input")
    return asked


def told_of(asked: argparse.Namespace, data: bytes) -> Told:
    """Returns all that is said of the ring."""
    try:
        plan = read_plan(data)
    except PlanProblem as problem:
        raise PlanProblem(f"{asked.plan}: {problem}") from None
    tell_unnamed("sdhring-now", asked.plan, plan)
    lengths, notes = read_lengths(asked.spans, plan) if asked.spans else (None, [])
    listing, program = Listing(asked.alarms), program_of(asked.teller, TELLER)
    read = read_alarms(plan, listing.records, [*listing.notes, *notes])
    if not program.proved:
        say(f"warning: the program {shlex.join(program.words)} is {program.proof}")
    try:
        return Told(Now(plan, read.standing(plan), program, lengths, asked.without_script), read, Path(asked.plan).name)
    except ToldProblem as problem:
        raise ToldProblem(f"{asked.plan}: {shlex.join(program.words)} writes no table: {problem}") from None


def write_page(asked: argparse.Namespace, told: Told, data: bytes) -> None:
    origin = Origin(told.now.program, told.title, sum_of(data), (now(),), asked=sum_of(told.now.document))
    heading = asked.title or f"{told.title}, {now().replace('T', ' ').removesuffix('Z')} UTC"
    folder, name = folder_of_file(asked.page)
    folder.write(name, now_page(told, heading, origin))


def status_of(asked: argparse.Namespace, told: Told) -> int:
    """Returns 6 where alarms weren't read, 5 where --fail-on says so."""
    if not told.read.is_whole:
        return NOT_READ
    kept, impaired, over, lost = told.now.base.outcome.counts
    return FAILED_ON if {"lost": lost, "impaired": lost + impaired, None: 0}[asked.fail_on] else 0


def main(words: list[str]) -> int:
    asked = options(words)
    try:
        data = read_input(asked.plan)
        told = told_of(asked, data)
        text = as_json(told, data) if asked.json else "".join(f"{shown(line)}\n" for line in told.lines())
        sys.stdout.write(text)
        sys.stdout.flush()
        if asked.page:
            write_page(asked, told, data)
    except PROBLEMS as problem:
        say(problem)
        return FAILED
    return status_of(asked, told)
