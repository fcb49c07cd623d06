"""What becomes of each circuit in each case, read from the program's text; and the same by the restoration model."""

from collections.abc import Iterator
from dataclasses import dataclass, field

from .cells import write_rows
from .model import Scene, arc, is_impaired, is_joined, owed, route, scenes, span_requests
from .report import ReportProblem, read_report
from .writing import Folder

UNSETTLED = 7
STATUSES = {
    0: "Ok",
    2: "Usage",
    3: "ReadFault",
    4: "WriteFault",
    5: "NotToml",
    6: "BadPlan",
    7: "Unsettled",
    8: "PlantFault",
    9: "TooLong",
    11: "NotBuilt",
    70: "Memory",
    71: "no words",
}


JOINED = ("kept", "impaired", "over")  # what becomes of a circuit whose ends are joined


@dataclass(frozen=True)
class Cell:
    """One circuit in one stage: kept on its own arc, impaired there, over protection with this number of spans more, lost, or odd."""

    kind: str
    more: int = 0

    def sign(self):
        """For a narrow cell of the page."""
        return {"kept": "·", "impaired": "i", "over": f"{self.more:+d}" if self.more else "=", "lost": "✕", "odd": "?"}[self.kind]

    def longer(self):
        spans = f"{abs(self.more)} span{'s' if abs(self.more) > 1 else ''}"
        return "as long" if self.more == 0 else f"{spans} {'more' if self.more > 0 else 'fewer'}"

    def words(self):
        over = f"over protection, {self.longer()}"
        return {"kept": "kept", "impaired": "kept, but impaired", "over": over, "lost": "lost", "odd": "odd: see its text"}[self.kind]

    def short(self):
        return f"over{self.more:+d}" if self.kind == "over" else self.kind


@dataclass
class Stage:
    name: str
    round: int
    applied: frozenset
    cells: dict  # circuit's name -> Cell

    def count(self, kind):
        return sum(cell.kind == kind for cell in self.cells.values())

    def all_of(self, kind):
        return [name for name, cell in self.cells.items() if cell.kind == kind]


@dataclass
class Verdict:
    """What came of one case. `problem` says why there are fewer stages than there should be."""

    case: object
    answer: object  # what is kept of it, or None
    stages: list = field(default_factory=list)
    problem: str = ""
    differs: list = field(default_factory=list)  # where the model says otherwise, in words
    unsettled: bool = False  # whether a stage didn't settle within the plan's limit

    @property
    def status(self):
        return self.answer and self.answer.status

    @property
    def ok(self):
        return self.status == 0 and not self.problem

    def stage(self, name):
        return next((stage for stage in self.stages if stage.name == name), None)

    def status_words(self):
        if self.status is None:
            return "no answer"
        return STATUSES.get(self.status, f"status {self.status}")


def switched(state, side):
    return state in (f"switch-{side}", "isolated")


def applied_by_states(plan, nodes):
    """The spans that the nodes at both their ends switch away from."""
    if not nodes:
        raise ReportProblem("the text has no node states")
    for span in range(plan.size):
        if switched(nodes[span].state, "east") != switched(nodes[(span + 1) % plan.size].state, "west"):
            raise ReportProblem(f"the nodes at span {plan.span_name(span)} don't agree whether it is switched")
    return frozenset(span for span in range(plan.size) if switched(nodes[span].state, "east"))


def cell_of(plan, circuit, settled, applied: frozenset[int], scene: Scene) -> Cell:
    """Lost where both ports have AIS; kept where both deliver their own customer's bytes; anything else is odd. What is asked for is the model's."""
    lines = {end: settled.ports[circuit.name, end] for end in "ab"}
    if all(line.ais for line in lines.values()):
        return Cell("lost")
    hops = route(plan, circuit, applied)
    if hops is None:
        return Cell("odd")
    for end, line in lines.items():
        other = "b" if end == "a" else "a"
        if (line.value, line.data) != owed(circuit, end, settled.round, len(hops), scene.slips[circuit.name, other]):
            return Cell("odd")
    if any(hop.protection for hop in hops):
        return Cell("over", len(hops) - len(arc(plan, circuit)))
    return Cell("impaired" if is_impaired(plan, circuit, span_requests(plan.size, scene.requests)) else "kept")


def compare(plan, stage, scene):
    """Where the text and the restoration model differ, in words."""
    result = []
    if stage.applied != scene.applied:
        result.append(f"{stage.name}: other spans are applied")
    for circuit in plan.circuits:
        joined, cell = is_joined(plan, circuit, scene.applied), stage.cells[circuit.name]
        if cell.kind == "odd" or joined != (cell.kind in JOINED):
            result.append(f"{stage.name}: {circuit.name} is {cell.short()}, by the model {'joined' if joined else 'not joined'}")
    return result


def judge(case, plan, text, answer):
    """The verdict on one case, from its plan and what the program answered."""
    verdict = Verdict(case, answer)
    status = verdict.status
    try:
        report = read_report(text, plan)
        for scene, settled in zip(scenes(plan, [step.round for step in report.settled]), report.settled):
            applied = applied_by_states(plan, settled.nodes)
            cells = {circuit.name: cell_of(plan, circuit, settled, applied, scene) for circuit in plan.circuits}
            stage = Stage(case.stages[scene.number - 1], settled.round, applied, cells)
            verdict.stages.append(stage)
            verdict.differs += compare(plan, stage, scene)
        if report.done != (status == 0):
            verdict.problem = f"status {status} doesn't go with the text's end `{report.last}`"
        elif not report.done:
            verdict.unsettled = report.unsettled is not None and status == UNSETTLED
            where = f" in stage `{case.stages[report.unsettled - 1]}`" if report.unsettled else ""
            verdict.problem = f"{verdict.status_words()}{where}: `{report.last}`"
    except ReportProblem as problem:
        answered = f"{verdict.status_words()}: " if status != 0 else ""
        verdict.problem = f"{answered}{problem}"
    return verdict


FIXED = ["Case", "Kind", "Failure", "Status", "Stage", "Round", "Applied", "Kept", "Impaired", "Over", "Lost", "Odd", "Model"]
SOURCE = ["Program", "Proof", "Version", "Sum", "Plan", "Script", "Also", "Works"]
SOURCE_OF_COUNTS = [*SOURCE, "Answer"]  # of what was counted


def table_head(plan):
    """Names of circuits have no capitals, so no two columns have one name."""
    return FIXED + SOURCE + [circuit.name for circuit in plan.circuits]


def source_cells(answer, asked):
    """Which program answered, whether it is proved, the checksum of the plan that was asked about, its script, and the steps before and of the works.

    No date is among them, so that two tables of one ring by one program are the same bytes.
    """
    told = [answer.program, answer.proof, answer.version, answer.sum] if answer else [""] * 4
    before = asked.beforehand
    return told + [asked.plan_sum, before.script_words(), "; ".join(before.also_texts()), "; ".join(before.works_texts())]


def source_of_counts(answer, asked) -> list[str]:
    """Returns the same of what was counted, and whether the answer was run for this table or kept: nothing else shows whether the program ran."""
    return [*source_cells(answer, asked), answer.came() if answer else ""]


def table_rows(asked, verdict):
    """One row for each stage of the case's own; empty cells where a stage didn't come."""
    plan, source = asked.beforehand.plan, source_cells(verdict.answer, asked)
    for name in verdict.case.own_stages:
        stage = verdict.stage(name)
        begin = [verdict.case.name, verdict.case.kind, verdict.case.words, verdict.status_words(), name]
        if stage is None:
            yield begin + [""] * 8 + source + [""] * len(plan.circuits)
            continue
        applied = " ".join(plan.span_name(span) for span in sorted(stage.applied))
        counts = [stage.count(kind) for kind in ("kept", "impaired", "over", "lost", "odd")]
        model = "differs" if any(words.startswith(f"{name}:") for words in verdict.differs) else "agrees"
        yield begin + [stage.round, applied, *counts, model, *source, *(stage.cells[circuit.name].short() for circuit in plan.circuits)]


def all_rows(asked, verdicts) -> Iterator[list]:
    yield table_head(asked.beforehand.plan)
    for verdict in verdicts:
        yield from table_rows(asked, verdict)


def write_table(folder: Folder, name: str, asked, verdicts) -> None:
    with folder.writing_text(name) as file:
        write_rows(file, all_rows(asked, verdicts))
