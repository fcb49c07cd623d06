"""The first sheet of a works order, to be signed: the order, what comes of it, the ring with the customers that it touches, and what each stage costs."""

from __future__ import annotations

from collections.abc import Iterator
from dataclasses import replace

from . import drawing
from .escaping import Markup, drawn, html, joined, lines
from .failures import Beforehand, Case, span_fibres
from .fibre import fibre_words
from .inshort import WorksInShort
from .look import Look, looks
from .markup import count_of, listing, moment_words, names, table
from .model import scenes
from .opening import Opening
from .origin import now
from .outages import milliseconds
from .plan import Circuit
from .report import ReportProblem, read_report

MOST = 14  # customers for which the sheet has a row
SIGNED = ("Planned", "Approved", "Switched", "Cleared")


def stages_of(beforehand: Beforehand, opening: Opening | None) -> Iterator[tuple[str, str, list[str]]]:
    """Yields each stage of an order in which something is done: its name, what it is called, and its steps, in the order of the night."""
    yield "during", "1. switch", beforehand.works_texts()
    if opening and opening.spans:
        fibres = [fibre for span in opening.spans for fibre in span_fibres(beforehand.plan, span)]
        yield "opened", "2. open the fibres", [beforehand.condition_step(fibre, "cut") for fibre in fibres]
        yield "closed", "3. close them", [beforehand.condition_step(fibre, beforehand.conditions[fibre]) for fibre in fibres]
    yield "after", f"{4 if opening and opening.spans else 2}. clear", beforehand.undoing()


def cost_of(short: WorksInShort, stage: str) -> list[str]:
    """Returns the cells of what a stage costs: how many customers are interrupted, for how long, and how many jump or are lost."""
    counted = next((counted for counted, name in short.parts() if name == stage), None)
    if counted is None:
        return ["not known", "", ""]
    outages = {circuit: counted.of(stage, circuit) for circuit in counted.hit(stage, short.plan.circuits)}
    breaks = {circuit: outage.longest for circuit, outage in outages.items() if outage.out and not outage.is_out_still}
    lost = sum(outage.is_out_still for outage in outages.values())
    jumps = len(outages) - len(breaks) - lost
    rest = [f"{lost} lost"] * bool(lost) + [count_of(jumps, "jump")] * bool(jumps)
    if not breaks:
        return ["none", "0 frames", ", ".join(rest)]
    ms = [found for circuit, frames in breaks.items() if (found := counted.fibre_ms(stage, frames, circuit)) is not None]
    most = max(breaks.values())
    return [str(len(breaks)), f"{count_of(most, 'frame')}, {milliseconds(most)} ms{fibre_words(max(ms, default=None))}", ", ".join(rest)]


def stage_table(beforehand: Beforehand, short: WorksInShort) -> Markup:
    """Returns the stages of the order, each with its steps and the frames that it costs."""
    rows = []
    for name, called, steps in stages_of(beforehand, short.opening):
        rows.append([called, joined((html("<code>{}</code>", step) for step in steps), "; "), *cost_of(short, name)])
    return table("Stages of the order", ["stage", "steps", "customers interrupted", "at most", "besides"], rows)


def touched(short: WorksInShort) -> list[Circuit]:
    """Returns the customers that aren't as before in some stage, or that are interrupted."""
    own = [stage for stage in short.verdict.stages if stage.name in ("during", "after", "waited")]
    hit = {circuit for counted, stage in short.parts() for circuit in counted.hit(stage, short.plan.circuits)}
    differs = lambda circuit: any(stage.cells[circuit.name] != short.before.cells[circuit.name] for stage in own)
    return [circuit for circuit in short.plan.circuits if short.before and (differs(circuit) or circuit in hit)]


def customer_table(short: WorksInShort, found: list[Circuit]) -> Markup:
    breaks, rows = short.breaks(), []
    for number, circuit in enumerate(found[:MOST], 1):
        during = short.during.cells[circuit.name].words() if short.during else "–"
        frames, ms = breaks.get(circuit, (0, 0.0))
        out = f"{milliseconds(frames)} ms{fibre_words(ms if short.counted.delays else None)}" if frames else "–"
        rows.append([f"#{number} {short.plan.circuit_name(circuit)}", during, out])
    more = [short.plan.places.circuit(circuit.name) for circuit in found[MOST:]]
    rest = html("<p>And {} more, in the annex: {}.</p>", len(more), names(more, 3 * MOST)) if more else ""
    return (table("Touched customers", ["customer", "during the works", "interrupted at most"], rows) if rows else html("<p>No customer is touched.</p>")) + rest


def during_look(beforehand: Beforehand, case: Case, text: bytes, found: list[Circuit]) -> Look | None:
    """Returns the ring while the works go on, with these circuits alone; None where there is no report of it."""
    plan = beforehand.plan_of(case)
    try:
        settled = read_report(text, plan).settled
    except ReportProblem:
        return None
    if len(settled) <= case.settles:
        return None
    few = replace(plan, circuits=tuple(found))
    return looks(few, scenes(plan, [step.round for step in settled]), settled)[case.settles]


def figure(look: Look | None) -> Markup:
    """Returns the drawing."""
    if look is None:
        return html("")
    picture = drawing.Drawing(look, page=True)
    return html('<figure class="figure"><div class="frame">{}</div></figure>', drawn(picture.draw()))


def first_sheet(asked, short: WorksInShort, text: bytes) -> Markup:
    """Returns the sheet of what was asked, by the report of the works."""
    beforehand, found = asked.beforehand, touched(short)
    plan = beforehand.plan
    about = html("Plan <code>{}</code>, STM-{}, {} nodes, {}. Written {}.", asked.plan, plan.rate, plan.size, count_of(len(plan.circuits), "customer"), moment_words(now()))
    verdict = [*short.lines("; ".join(beforehand.order)), *([asked.second] if asked.second else [])]
    shown = figure(during_look(beforehand, short.verdict.case, text, found))
    signs = joined(html("<li>{}<span></span></li>", words) for words in SIGNED)
    parts = [html('<section class="sheet" id="order"><h2>Order: {}</h2><p>{}</p>', "; ".join(beforehand.order), about)]
    parts += [listing(html("<strong>{}</strong>", words) for words in verdict)]
    parts += [html('<div class="halves"><div>{}{}</div>{}</div>', stage_table(beforehand, short), customer_table(short, found), shown)]
    parts += [html('<ul class="signs">{}</ul><p class="note">What follows are annexes. {}</p></section>', signs, asked.heading()[0])]
    return lines(*parts)
