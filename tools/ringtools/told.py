"""What sdhwhatif answers about a ring, case by case, as a table and as JSON; and whether the same cases run frame by frame show the same."""

import json
import random
from collections.abc import Iterator
from dataclasses import dataclass

from .cells import write_rows
from .components import Finder
from .desktable import DEPTHS, IMPAIRED, LOST, OVER, RESULTS, WHOLE, Namer
from .failures import Case
from .model import arc
from .naming import NoNode, with_identifiers
from .origin import sum_of
from .pathrings import PathRing
from .places import composed
from .verdicts import JOINED
from .writing import Folder

OF_CASE = ("Failures", "Depth", "Kind", "Steps", "Applied", "Kept", "Impaired", "Over", "Lost", "Longest", "Impaired circuits", "Over circuits", "Lost circuits", "Besides ends")
OF_PATHS = ("Path lost", "Path lost circuits")
COLUMNS = (*OF_CASE, *OF_PATHS, "Frames", "Script", "Also", "Works", "Plan", "Asked", "Impaired customers", "Over customers", "Lost customers")


@dataclass(frozen=True)
class Question:
    """What was asked about: the checksums of the plan's file and of the document that was asked about, its script, and what `--also` and `--works` put after it."""

    plan: str
    asked: str
    beforehand: object

    def record(self):
        before = self.beforehand
        script = None if before.left_out else [step.text for step in before.own]
        return {"plan": self.plan, "asked": self.asked, "script": script, "also": before.also_texts(), "works": before.works_texts()}

    def cells(self):
        before = self.beforehand
        return [before.script_words(), "; ".join(before.also_texts()), "; ".join(before.works_texts()), self.plan, self.asked]


def label_called(plan, text: str) -> str:
    """Returns a failure or a step with identifiers in place of the names of places; any other text stays as it is."""
    kind, _, words = composed(text).partition(" ")
    asked = f"fibre {words}" if kind in ("degraded", "manual", "forced") else composed(text)
    if member := Finder(plan, plan.places).members.get(asked.casefold()):
        return Namer(plan, plan.places).label(kind, *member[1:])
    try:
        return with_identifiers(plan.ids, plan.places, text)
    except NoNode:
        return text


class Told:
    """The cases of a plan with what is said of each: who is lost, who besides those that end at a lost node, and who in a path ring."""

    def __init__(self, plan, table):
        self.plan, self.table, self.path = plan, table, PathRing(plan, table.failures)
        self.names = [circuit.name for circuit in plan.circuits]
        self.called = {circuit.name: plan.circuit_name(circuit) for circuit in plan.circuits}
        self.ends = [(circuit.start, circuit.end) for circuit in plan.circuits]
        self.by = {}

    def all(self):
        return self.table.cases.values()

    def depths(self):
        return range(1, DEPTHS[self.table.depth] + 1)

    def steps(self, case):
        return "; ".join(self.table.steps(case)) or "nothing more"

    def name(self, case):
        """The name of its files, where it is run."""
        return f"told-{sum_of(self.steps(case).encode())[:12]}"

    def of(self, case, letter):
        """The names of the circuits that have this fate."""
        key = case.outcome, letter
        if key not in self.by:
            self.by[key] = tuple(name for name, found in zip(self.names, case.results) if found == letter)
        return self.by[key]

    def lost(self, case):
        return self.of(case, LOST)

    def lost_nodes(self, case):
        parts = (one for number in case.failures for one in self.table.failures[number].parts)
        return {one.at for one in parts if one.kind == "node"}

    def besides(self, case):
        """The circuits that are lost and end at no node that is."""
        nodes = self.lost_nodes(case)
        if not nodes:
            return self.lost(case)
        return tuple(name for name, found, ends in zip(self.names, case.results, self.ends) if found == LOST and not nodes & set(ends))

    def path_lost(self, case):
        return tuple(self.names[place] for place in self.path.lost(case))

    def find(self, words):
        """The case of these steps or failures, separated by semicolons; of two with the same steps the first, which has fewer failures."""
        wanted = tuple(label_called(self.plan, " ".join(part.split())) for part in words.split(";") if part.strip())
        return next((case for case in self.all() if wanted in (self.table.steps(case), self.table.labels(case))), None)

    def record(self, case):
        """What is said of a case, by the names of the JSON form."""
        kept, impaired, over, lost = case.outcome.counts
        return {
            "failures": list(self.table.labels(case)),
            "steps": list(self.table.steps(case)),
            "applied": ["{}-{}".format(*self.plan.ends(span)) for span in sorted(case.outcome.applied)],
            "kept": kept,
            "impaired": impaired,
            "over": over,
            "lost": lost,
            "longest": case.outcome.hops,
            "impaired_circuits": list(self.of(case, IMPAIRED)),
            "over_circuits": list(self.of(case, OVER)),
            "lost_circuits": list(self.lost(case)),
            "besides_ends": list(self.besides(case)),
            "path_lost_circuits": list(self.path_lost(case)),
        }

    def row(self, case):
        """The cells of the table up to what a run by frames showed."""
        found, table = self.record(case), self.table
        joined = lambda name, sign=" ": sign.join(found[name])
        begin = [joined("failures", "; ") or "nothing", len(case.failures), "+".join(table.kinds(case)), joined("steps", "; "), joined("applied")]
        counts = [found["kept"], found["impaired"], found["over"], found["lost"], found["longest"]]
        path = [len(found["path_lost_circuits"]), joined("path_lost_circuits")]
        return [*begin, *counts, *map(joined, ("impaired_circuits", "over_circuits", "lost_circuits", "besides_ends")), *path]

    def rows(self, question: Question, found) -> Iterator[list]:
        """A row for each case, after the names of the columns."""
        yield list(COLUMNS)
        for case in self.all():
            run = "" if case.failures not in found else "differs" if found[case.failures] else "the same"
            yield [*self.row(case), run, *question.cells(), *self.customers(case)]

    def customers(self, case) -> list[str]:
        """The names by which their customers know the circuits that are impaired, over protection and lost."""
        return ["; ".join(map(self.plan.places.circuit, found)) for found in (self.of(case, IMPAIRED), self.of(case, OVER), self.lost(case))]

    def write_csv(self, folder: Folder, name: str, question: Question, found) -> None:
        """`found` has the differences of the cases that were run too, by their failures."""
        with folder.writing_text(name) as file:
            write_rows(file, self.rows(question, found))

    def write_json(self, folder: Folder, name: str, question: Question, program) -> None:
        """One object: what was asked and who answered, the circuits, and the cases, one in a line."""
        table = self.table
        groups = {one.label: [member.label for member in one.members] for one in table.failures if one.members}
        head = {**question.record(), **program.lines(), "depth": table.depth, "part": list(table.part), "groups": groups, "circuits": self.names}
        with folder.writing_text(name) as file:
            file.write(json.dumps(head)[:-1] + ', "cases": [\n')
            for place, case in enumerate(self.all()):
                file.write((",\n" if place else "") + json.dumps(self.record(case)))
            file.write("\n]}\n")


def drawn(told, wanted):
    """The cases to be run: a number of cases drawn at random, and those that are named. Then the words that name no case."""
    found, unknown, cases = {}, [], list(told.all())
    for word in wanted:
        if word.isascii() and word.isdecimal() and len(word) <= 9:
            found |= {case.failures: case for case in random.SystemRandom().sample(cases, min(int(word), len(cases)))}
        elif case := told.find(word):
            found[case.failures] = case
        else:
            unknown.append(word)
    return list(found.values()), unknown


def case_to_run(told, case, settles):
    """The case for `sdhring run`, after this many settle steps."""
    return Case(told.name(case), "told", told.table.words(case), steps=told.table.steps(case), settles=settles)


def differences(told, case, verdict):
    """Where a run shows something else than the table says, in words."""
    stage = verdict.stage("failed")
    if stage is None:
        return [verdict.problem or "no answer"]
    cells, plan = stage.cells, told.plan
    ways = [len(arc(plan, circuit)) + cells[circuit.name].more for circuit in plan.circuits if cells[circuit.name].kind in JOINED]
    odd = [f"{name} is {RESULTS[letter]}, the run shows {cells[name].kind}" for name, letter in zip(told.names, case.results) if cells[name].kind != RESULTS[letter]]
    if max(ways, default=0) != case.outcome.hops:
        odd.append(f"the longest way has {case.outcome.hops} spans, the run shows {max(ways, default=0)}")
    return verdict.differs + odd


def part_name(part):
    """What is added to the names of a part's files."""
    return "" if part == WHOLE else f"-{part[0]}-of-{part[1]}"
