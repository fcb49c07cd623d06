"""What sdhring-conform does with its words."""

from __future__ import annotations

import os
import shlex
import sys
from argparse import Namespace
from dataclasses import replace
from pathlib import Path

from ..cells import text_of_rows
from ..files import FileProblem
from ..options import Options, decimal_number
from ..origin import LAUNCHER, CannotRun, program_of
from ..progress import Progress, duration
from ..shown import say
from ..writing import Folder, folder_of_file, named_folder, own_folder
from .arriving import Stream
from .device import Piped
from .judging import BROKEN, NOT_REACHED, OBEYED, Failure, Judge, Verdict
from .running import SuiteProblem, run_suite
from .suite import GROUPS, again, suite
from .telling import Told, as_json, as_junit, as_page, as_table

TOOL = "sdhring-conform"
FOLDER = "sdhring-conform.streams"
SHORT = 9  # of a short run: each so-many-th stream of a group
LIMIT = 60.0
ABOUT = "Runs a device through a suite of streams, and says of each rule whether it is obeyed, broken or not reached."
KINDS = (
    ("answers", "differs", "each round has an answer of the right form, and the stream ends with done"),
    ("lives", "died", "it runs as long as its stream does"),
    ("in time", "hung", "it answers within the limit"),
    ("when asked", "flooded", "it writes what is asked for, and no more"),
)


def options(words: list[str]) -> Namespace:
    own, command = (words[: words.index("--")], words[words.index("--") + 1 :]) if "--" in words else (words, [])
    parser = Options(prog=TOOL, description=ABOUT, usage=f"{TOOL} [OPTION ..] -- COMMAND ..")
    form = parser.add_mutually_exclusive_group()
    form.add_argument("--json", action="store_true", help="the verdicts as one object, in place of a table")
    form.add_argument("--junit", action="store_true", help="the verdicts as JUnit's XML")
    form.add_argument("--list", action="store_true", help="the streams of the suite, with the reason of each; no device is run")
    parser.add_argument("--page", metavar="FILE", type=Path, help="writes a page with the verdicts too")
    parser.add_argument("--keep", metavar="FOLDER", type=Path, help=f"where the streams are written in which the device fails ({FOLDER})")
    parser.add_argument("--limit", metavar="SECONDS", type=decimal_number, default=LIMIT, help=f"that a device may take for a stream ({LIMIT:g})")
    parser.add_argument("--only", metavar="GROUPS", help=f"streams of these groups alone: {','.join(GROUPS)}")
    parser.add_argument("--short", action="store_true", help=f"each {SHORT}th stream of a group alone")
    parser.add_argument("--program", metavar="PROGRAM", help="the sdhnode that says what is due")
    asked = parser.parse_args(own)
    asked.command = command
    asked.groups = tuple(asked.only.split(",")) if asked.only else tuple(GROUPS)
    if wrong := [group for group in asked.groups if group not in GROUPS]:
        parser.error(f"--only {asked.only}: `{wrong[0]}` is none of {', '.join(GROUPS)}")
    if not command and not asked.list:
        parser.error("the device's command is missing: it stands after --")
    if asked.limit == 0:
        parser.error("--limit 0: a device needs some time")
    return asked


def list_streams(asked: Namespace) -> int:
    """Writes the streams with their reasons."""
    rows = [["stream", "group", "node", "nodes", "rate", "rounds", "why"]]
    for stream in streams_of(asked):
        rows.append([stream.name, stream.key[0], str(stream.node), str(len(stream.plan.nodes)), str(stream.plan.rate), str(stream.rounds()), stream.why])
    sys.stdout.write(text_of_rows(rows))
    return 0


def streams_of(asked: Namespace):
    return suite(asked.groups, SHORT if asked.short else 1)


def settled(words: list[str]) -> list[str]:
    """Returns the command with its program's path made whole."""
    return [os.path.abspath(words[0]) if "/" in words[0] else words[0], *words[1:]]


def device_verdicts(judge: Judge) -> list[Verdict]:
    """Returns what is said of how the device runs."""
    found = []
    for name, kind, words in KINDS:
        failures = [failure for failure in judge.failures if failure.kind == kind and not failure.difference.cases]
        right = judge.streams - len(failures)
        verdict = BROKEN if failures else OBEYED if judge.rounds else NOT_REACHED
        found.append(Verdict("device", name, words, verdict, right, judge.streams, failures[0] if failures else None))
    return found


def folder_for(asked: Namespace) -> Folder:
    return named_folder(asked.keep) if asked.keep else own_folder(FOLDER)


def kept(asked: Namespace, verdicts: list[Verdict], keys: dict[str, tuple]) -> list[Verdict]:
    """Writes the stream of each rule that is broken, up to the round that shows it; returns the verdicts with their files."""
    files: dict[tuple[str, int], str] = {}
    for verdict in verdicts:
        failure = verdict.failure
        if failure is None or verdict.kind not in ("rule", "device") or (failure.stream, failure.round) in files:
            continue
        stream, folder = again(keys[failure.stream]), folder_for(asked)
        name = f"{stream.name}.round-{failure.round}.node-{stream.node}.stream"
        folder.write(name, stream.front(failure.round + 1))
        files[failure.stream, failure.round] = str(folder.path / name)
    return [replace(one, file=files.get((one.failure.stream, one.failure.round), "")) if one.failure else one for one in verdicts]


class Streams(Progress):
    """How many streams have run, on a terminal, and which of them a device failed in."""

    what, tool = "streams", TOOL

    def __init__(self) -> None:
        super().__init__(None, 0)
        self.keys: dict[str, tuple] = {}

    def line(self, gone: float) -> str:
        return f"{self.done} streams, {duration(gone)} gone"

    def ran(self, stream: Stream, failed: Failure | None) -> None:
        if failed:
            self.keys[failed.stream] = stream.key
        self.done += 1
        if sys.stderr.isatty():
            self.tell(self.done)

    def end(self) -> None:
        if sys.stderr.isatty():
            self.tell(self.done, last=True)


def ask(asked: Namespace) -> int:
    """Runs the suite, and tells what came of it."""
    program, judge, progress = program_of(asked.program, LAUNCHER.with_name("sdhnode")), Judge(), Streams()
    command = settled(asked.command)
    is_whole = run_suite(program, Piped(command, asked.limit), streams_of(asked), judge, progress.ran)
    progress.end()
    verdicts = kept(asked, [*device_verdicts(judge), *judge.verdicts()], progress.keys)
    told = Told(verdicts, judge, asked.command, program, is_whole)
    sys.stdout.write(as_json(told) if asked.json else as_junit(told) if asked.junit else as_table(told))
    if asked.page:
        folder, name = folder_of_file(asked.page)
        folder.write(name, as_page(told))
    say(TOOL, f"{shlex.join(asked.command)}: {told.summary()}")
    return 1 if judge.failures else 0


def main(words: list[str]) -> int:
    asked = options(words)
    try:
        return list_streams(asked) if asked.list else ask(asked)
    except (CannotRun, FileProblem, SuiteProblem) as problem:
        say(TOOL, problem)
        return 2
