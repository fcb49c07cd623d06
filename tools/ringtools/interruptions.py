"""For how long the works of an order interrupt each customer, as sdhoutage counts it in frames: for the page, and as a table."""

from collections.abc import Sequence
from dataclasses import dataclass, field

from .cells import write_rows
from .escaping import Markup, html
from .failures import WORKS_STAGES
from .fibre import Delays, delays_of, fibre_words
from .kept import Answer, Store
from .markup import count_of
from .origin import LAUNCHER, Origin
from .plan import Circuit, Plan
from .outages import frames_words, milliseconds, put_beside, read_outages
from .report import ReportProblem, read_report
from .running import run_one
from .writing import Folder

COUNTER = LAUNCHER.with_name("sdhoutage")
BEGINNINGS = {"during": "as they begin", "after": "as they end", "waited": "after waiting"}
FIELDS = ["Stage", "Circuit", "Customer", "Port", "Node", "Place", "Frames", "Milliseconds", "Jumps", "Still out", "Milliseconds with fibre"]
NOT_COUNTED = "Fibre delay is not included."


@dataclass(frozen=True)
class Interruptions:
    """What was counted of each settle step of the works, which have these stages from the step `first` on; or why there is nothing."""

    store: Store
    name: str
    steps: list = field(default_factory=list)
    first: int = 0
    problem: str = ""
    names: tuple[str, ...] = WORKS_STAGES
    delays: Delays | None = None  # of the fibres, where their lengths are known
    answer: Answer | None = None  # which has it

    @property
    def stages(self):
        return dict(zip(self.names, self.steps[self.first :]))

    def origin(self, plan, plan_sum):
        known = (self.answer,) if self.answer else ()
        return Origin(self.store.program, plan, plan_sum, tuple(answer.date for answer in known), answers=known)

    def put_beside(self, settled):
        """Gives the settle steps of the works' report what was counted of them; returns where that comes from, or None."""
        if not self.steps:
            return None
        put_beside(self.steps, settled)
        program = self.store.program
        return html("{}, {}; <code>outages/{}.text</code>, whose checksum is <code>{}</code>", program.version or "a program", program.proof, self.name, self.answer.text)

    def of(self, stage, circuit):
        """The longer of the outages of a circuit's two ports."""
        told = self.stages[stage].ports
        return max((told[circuit.name, end] for end in "ab"), key=lambda outage: (outage.is_out_still, outage.out, outage.jumps))

    def is_hit(self, stage, circuit):
        """Whether a customer's bytes break off in a stage, or don't follow one another."""
        before = list(self.stages)[list(self.stages).index(stage) - 1]
        outage = self.of(stage, circuit)
        return bool(outage.out or outage.jumps) and not (outage.is_out_still and self.of(before, circuit).is_out_still)

    def hit(self, stage, circuits):
        return [circuit for circuit in circuits if self.is_hit(stage, circuit)]

    def told_stages(self, circuits):
        """The stages after the first; that of waiting only where it hits a customer."""
        return [name for name in BEGINNINGS if name in self.stages and (name != "waited" or self.hit(name, circuits))]

    def fibre_ms(self, stage: str, frames: int, circuit: Circuit) -> float | None:
        """Returns the milliseconds with fibre of so long an interruption; None where no lengths are known."""
        return None if self.delays is None else self.delays.of(stage, frames, circuit)

    def cell(self, stage, circuit):
        if not self.is_hit(stage, circuit):
            return html("<td>–</td>") if self.of(stage, circuit).out else html("<td>no</td>")
        outage = self.of(stage, circuit)
        words = "lost from then on" if outage.is_out_still else outage.words() if outage.out else count_of(outage.jumps, "jump")
        words += fibre_words(self.fibre_ms(stage, outage.longest, circuit)) if outage.out and not outage.is_out_still else ""
        return html('<td class="changed-cell">{}</td>', words)

    def stage_words(self, stage: str, plan: Plan) -> str:
        """Returns how many customers are interrupted in a stage, and for how long at most; empty where none is."""
        hit = self.hit(stage, plan.circuits)
        outages = {circuit: self.of(stage, circuit) for circuit in hit}
        breaks = {circuit: outage.longest for circuit, outage in outages.items() if outage.out and not outage.is_out_still}
        lost = sum(outage.is_out_still for outage in outages.values())
        parts = [f"{count_of(len(breaks), 'customer')} of {len(plan.circuits)} for at most {self.most_words(stage, breaks)}"] if breaks else []
        parts += [f"{count_of(lost, 'customer')} lost from then on"] if lost else []
        jumps = len(hit) - len(breaks) - lost
        return "; ".join(parts + ([f"{count_of(jumps, 'customer')} for no frame, but with a jump"] if jumps else []))

    def most_words(self, stage: str, breaks: dict[Circuit, int]) -> str:
        """Returns the longest of these interruptions, without the fibres and with them."""
        with_fibre = [ms for circuit, frames in breaks.items() if (ms := self.fibre_ms(stage, frames, circuit)) is not None]
        return frames_words(max(breaks.values())) + fibre_words(max(with_fibre, default=None))

    def words(self, plan):
        """How many customers are interrupted in each stage, and who for longest."""
        for stage in self.told_stages(plan.circuits):
            yield html("<strong>Interrupted {}</strong>: {}.", BEGINNINGS[stage], self.stage_words(stage, plan) or "no customer")
            if alarm := self.stages[stage].alarm():
                yield html("<strong>{}</strong>", alarm)


def with_fibre(delays: Delays) -> Markup:
    """Returns what is said of the milliseconds with fibre."""
    return html(
        "Times with fibre add its delay by the lengths of <code>{}</code>, 5 microseconds for a kilometre: twice the way over protection for a whole switch. "
        "That is an estimate, and neither proved nor tested.",
        delays.lengths.file,
    )


def note(interruptions: Interruptions) -> Markup:
    """Returns what was counted, or why nothing was."""
    if interruptions.problem:
        return html('<p class="alarm">How long customers are interrupted isn\'t known: {}</p>', interruptions.problem)
    fibre = with_fibre(interruptions.delays) if interruptions.delays else html("<strong>{}</strong>", NOT_COUNTED)
    counted = html("A customer's interruption is that of the port which is longer without his bytes, in frames of 125 microseconds, as <code>sdhoutage</code> counts them.")
    jump = "A jump is a frame that doesn't follow the one before: no switch is hitless."
    return html('<p class="note">{} {} {}</p>', counted, fibre, jump)


def count_case(store, beforehand, case) -> None:
    """Has sdhoutage count what a case takes, unless that is kept."""
    store.put_plan(case.name, beforehand.document(case))
    if not store.is_done(case.name):
        run_one(store, case.name)


def count_works(store, beforehand, case, text, lengths=None):
    """Has sdhoutage count what the works take. `text` is the report of the same works; the lengths of the fibres may be known."""
    count_case(store, beforehand, case)
    plan = beforehand.plan_of(case)
    answer, counted = store.both(case.name)
    try:
        if answer is None:
            raise ReportProblem("it was stopped")
        steps = read_outages(counted, plan)
        put_beside(steps, read_report(text, plan).settled)
    except ReportProblem as problem:
        return Interruptions(store, case.name, problem=f"{store.program.words[0]}: {problem}", answer=answer)
    first = len(case.stages) - len(WORKS_STAGES)
    return Interruptions(store, case.name, steps, first, delays=delays_of(lengths, plan, case.stages), answer=answer)


def rows(interruptions, plan, source):
    """A record for each port of each circuit and stage, but for the first, in which the ring starts. One that is out still is lost, for no number of frames."""
    for name in list(interruptions.stages)[1:]:
        for circuit in plan.circuits:
            for end in "ab":
                outage, number = interruptions.stages[name].ports[circuit.name, end], plan.ids[circuit.start if end == "a" else circuit.end]
                who = [name, circuit.name, plan.places.circuit(circuit.name), end, number, plan.places.nodes.get(number, "")]
                frames = ["", ""] if outage.is_out_still else [outage.out, milliseconds(outage.out)]
                ms = None if outage.is_out_still else interruptions.fibre_ms(name, outage.out, circuit)
                yield [*who, *frames, outage.jumps, "yes" if outage.is_out_still else "no", "" if ms is None else f"{ms:.3f}", *source]


def write_interruptions(folder: Folder, name: str, heads: Sequence[str], counted: Sequence[Interruptions], plan, source) -> None:
    """Writes what was counted of the works, and of the opening where there is one, whose stage `during` is that of the works."""
    records = [row for number, one in enumerate(counted) for row in rows(one, plan, source) if not number or row[0] != "during"]
    with folder.writing_text(name) as file:
        write_rows(file, [[*FIELDS, *heads], *records])
