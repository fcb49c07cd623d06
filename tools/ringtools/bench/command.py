"""The words of sdhring-bench, and what it does with them."""

import argparse
import json
import os
import re
import resource
import shlex
import sys
import time
from collections.abc import Iterator, Sequence
from dataclasses import dataclass, field
from pathlib import Path

from ..cells import text_of_rows
from ..files import FileProblem, read_input
from ..options import Options, decimal_number, whole_number
from ..origin import LAUNCHER, CannotRun, Program, program_of
from ..plan import Plan, PlanProblem, read_plan
from ..plans import tell_unnamed
from ..progress import Progress
from ..report import ReportProblem
from ..running import processors
from ..shown import say, shown
from ..writing import Folder, named_folder
from .devices import Device, connected, started, started_proved
from .due import Due, due_of
from .judging import DIFFERS, FAILED, HEAD, SEEN, Judge, Row
from .running import Run, Told, Wanted
from .schedule import stretches
from .station import MOST_CHANGES
from .tapping import tapped

TOOL = "sdhring-bench"
NODES_EACH, MOST_JOINERS = 6, 2  # nodes of a process that joins some, and such processes; more take more of the processors
DIFFERENT, CANNOT = 1, 2
MOST_ROUNDS = 1_000_000_000


def address(text: str) -> tuple[str, int]:
    """Returns the host and the port of `HOST:PORT`; an IPv6 address stands in brackets."""
    found = re.fullmatch(r"(?:\[([0-9a-fA-F:.]+)\]|([^:\s]+)):([0-9]{1,5})", text)
    if not found or not 0 < int(found[3]) < 65536:
        raise argparse.ArgumentTypeError(f"`{text}` isn't HOST:PORT")
    return found[1] or found[2], int(found[3])


def options(words: Sequence[str]) -> argparse.Namespace:
    parser = Options(prog=TOOL, description="Runs a plan in a ring of programs, any of them your own, and compares it with what is due.")
    parser.add_argument("plan", metavar="PLAN", help="the plan, a TOML document, or - for standard input")
    parser.add_argument("--instead", nargs=2, metavar=("ID", "CMD"), action="append", default=[], help="the command that is node ID; it is given `ID frames`")
    parser.add_argument("--connect", nargs=2, metavar=("ID", "HOST:PORT"), action="append", default=[], help="node ID is behind this TCP port")
    parser.add_argument("--more", type=whole_number, metavar="ROUNDS", default=0, help="run on after the script; nothing may change then")
    parser.add_argument("--within", type=decimal_number, metavar="SECONDS", default=10.0, help="how long an answer may take (10)")
    parser.add_argument("--keep", metavar="FOLDER", type=Path, help="write what each of these nodes was given and answered into files there")
    parser.add_argument("--processes", type=whole_number, metavar="COUNT", help="how many processes join the nodes")
    parser.add_argument("--program", metavar="CMD", help="the program that all other nodes are (sdhnode beside this one)")
    parser.add_argument("--all", action="store_true", help="show each port at the end of each settle step, also those that are right")
    parser.add_argument("--json", action="store_true", help="write JSON")
    asked = parser.parse_args(words)
    if asked.more > MOST_ROUNDS:
        parser.error(f"--more {asked.more}: at most {MOST_ROUNDS:,} rounds")
    if asked.processes == 0 or asked.within == 0:
        parser.error("--processes and --within are to be above 0")
    return asked


@dataclass(frozen=True)
class Place:
    """What is a node, where that isn't the program beside these tools: a command's words, or an address."""

    words: tuple[str, ...] = ()
    address: tuple[str, int] | None = None


def words_of_command(text: str) -> tuple[str, ...]:
    """Returns the words of a command, which has at least one; the name of a file is one word, whatever letters it has."""
    if os.path.isfile(text):
        return (text,)
    try:
        words = tuple(shlex.split(text))
    except ValueError as error:
        raise CannotRun(f"`{text}` is no command: {error}") from None
    if not words:
        raise CannotRun("--instead: a command of no word")
    return words


def places_of(asked: argparse.Namespace, plan: Plan) -> dict[int, Place]:
    """Returns what stands in for nodes, by identifier. Raises CannotRun for a node that the plan doesn't have or that is named twice."""
    found: dict[int, Place] = {}
    for option, pairs in (("--instead", asked.instead), ("--connect", asked.connect)):
        for word, what in pairs:
            if word not in map(str, plan.ids):
                raise CannotRun(f"{option} {word}: no such node in the plan, whose nodes are {', '.join(map(str, plan.ids))}")
            if int(word) in found:
                raise CannotRun(f"{option} {word}: the node is named twice")
            found[int(word)] = Place(words_of_command(what)) if option == "--instead" else Place(address=checked_address(what))
    return found


def checked_address(text: str) -> tuple[str, int]:
    try:
        return address(text)
    except argparse.ArgumentTypeError as problem:
        raise CannotRun(f"--connect: {problem}") from None


def processor_seconds() -> float:
    """Returns the time of processors that this process took, and all that have ended that it started."""
    return sum(used.ru_utime + used.ru_stime for used in map(resource.getrusage, (resource.RUSAGE_SELF, resource.RUSAGE_CHILDREN)))


@dataclass
class Bench:
    """One run: the plan, what is due of it, and the nodes that run."""

    asked: argparse.Namespace
    plan: Plan
    document: bytes
    devices: list[Device] = field(default_factory=list)
    rows: list[Row] = field(default_factory=list)
    trouble: Told | None = None
    seconds: float = 0.0
    rounds: int = 0
    processor: float = 0.0  # seconds of all processors that the run took on this machine

    def start(self, folder: Folder | None) -> None:
        """Starts all nodes."""
        places, program = places_of(self.asked, self.plan), program_of(self.asked.program, LAUNCHER.with_name("sdhnode"))
        for identifier in self.plan.ids:
            device = device_of(places.get(identifier), identifier, program)
            self.devices.append(tapped(device, folder, identifier) if folder and identifier in places else device)

    def run(self, due: Due) -> Iterator[Row]:
        """Runs the ring, and yields the rows as they are known."""
        parts = list(stretches(self.plan, due.rounds, self.asked.more))
        judge = Judge(due, parts, self.asked.all)
        count = self.asked.processes or max(1, min(MOST_JOINERS, processors() - 1, self.plan.size // NODES_EACH))
        document = self.document + (b"" if self.document.endswith(b"\n") else b"\n")
        run = Run(self.devices, Wanted(self.plan.rate, document, parts, count, self.asked.within))
        progress = Progress(parts[-1].last + 1, 0)
        progress.what, progress.tool = "rounds", TOOL
        begun, before = time.monotonic(), processor_seconds()
        run.start()
        try:
            for told in run.follow(lambda now: progress.tell(now) if now else None):
                if "trouble" in told:
                    self.trouble = told
                elif "many" in told:
                    yield Row(int(told["round"]), "node", str(self.plan.ids[int(told["at"])]), "changes of its lines", f"more than {MOST_CHANGES}", "", SEEN)
                else:
                    yield from judge.take(told)
        finally:
            self.seconds, self.rounds = time.monotonic() - begun, run.round() + 1
            run.close()
            self.end()
            self.processor = processor_seconds() - before
        if self.trouble:
            yield from judge.rest(min(self.trouble["round"], self.rounds - 1) - 1)  # to the last round that all nodes were heard in
            yield self.trouble_row(self.trouble)

    def end(self) -> None:
        """Ends all nodes."""
        for device in self.devices:
            device.close()

    def trouble_row(self, told: Told) -> Row:
        """Returns the row of a node that answers nothing more, or no answer."""
        at, what = int(told["at"]), shown(told["trouble"])
        more = f": {self.devices[at].end_words()}" if what.startswith("ended") else ""
        return Row(int(told["round"]), "node", str(self.plan.ids[at]), "answer", what + more, "an answer", FAILED)


def device_of(place: Place | None, identifier: int, program: Program) -> Device:
    """Starts what is a node."""
    if place is None:
        return started_proved(program, identifier)
    if place.address:
        return connected(*place.address)
    return started([*place.words, str(identifier), "frames"])


def summary(bench: Bench) -> str:
    """Returns what is said of a run at its end."""
    speed = f"{bench.rounds:,} rounds in {bench.seconds:.1f} s, {bench.rounds / max(bench.seconds, 0.001):,.0f} a second"
    if bench.trouble:
        return f"{speed}; then node {bench.plan.ids[int(bench.trouble['at'])]} failed"
    found = sum(row.verdict == DIFFERS for row in bench.rows)
    return f"{speed}; {'no difference' if not found else '1 difference' if found == 1 else f'{found} differences'}"


def document_of(bench: Bench) -> dict[str, object]:
    """Returns the run as JSON has it."""
    verdict = FAILED if bench.trouble else DIFFERS if any(row.verdict == DIFFERS for row in bench.rows) else "same"
    times = {"seconds": round(bench.seconds, 3), "processor_seconds": round(bench.processor, 3)}
    measured = {"rounds": bench.rounds, **times, "load": round(os.getloadavg()[0], 2)}
    ring = {"plan": shown(bench.asked.plan), "rate": bench.plan.rate, "nodes": list(bench.plan.ids)}
    return {**ring, **measured, "verdict": verdict, "records": [row._asdict() for row in bench.rows]}


def write(bench: Bench, due: Due) -> None:
    """Runs the ring and writes its rows as they come, or all of it as JSON."""
    if not bench.asked.json:
        sys.stdout.write(text_of_rows([HEAD]))
    for row in bench.run(due):
        bench.rows.append(row)
        if not bench.asked.json:
            sys.stdout.write(text_of_rows([row]))
            sys.stdout.flush()
    if bench.asked.json:
        print(json.dumps(document_of(bench), indent=1))


def main(words: Sequence[str]) -> int:
    asked = options(words)
    bench = None
    try:
        document = read_input(asked.plan)
        bench = Bench(asked, read_plan(document), document)
        tell_unnamed(TOOL, asked.plan, bench.plan)
        places = places_of(asked, bench.plan)
        if asked.keep and not places:
            raise CannotRun("--keep writes what your own nodes were given and answered, and no node is one: --instead or --connect names it")
        due = due_of(bench.plan, document)
        bench.start(named_folder(asked.keep) if asked.keep else None)
        write(bench, due)
    except (FileProblem, PlanProblem, ReportProblem, CannotRun) as problem:
        say(TOOL, problem)
        return CANNOT
    finally:
        if bench:
            bench.end()
    say(TOOL, summary(bench))
    return DIFFERENT if bench.trouble or any(row.verdict == DIFFERS for row in bench.rows) else 0
