"""What sdhring-view draws of a plan's signalling: the text of sdhaps, and what sdhoutage says of the same rounds."""

from dataclasses import dataclass
from pathlib import Path

from .drawing import written
from .escaping import Markup
from .files import TEXT, read_input
from .markup import came_along
from .origin import LAUNCHER, CannotRun, Origin, Program, find_program, now, program_of, sum_of
from .outages import read_outages
from .report import ReportProblem
from .signalpage import signal_page
from .signals import read_signalling
from .spacetime import SpaceTime
from .programs import ask
from .ticks import broken, read_trace, ticks

TRACES = 16  # the most ports that are traced


def beside(name):
    """The program of a name beside sdhring."""
    return LAUNCHER.with_name(name)


def signalling_text(asked, name, data):
    """The text that says who sends what in a plan's run, and where it comes from."""
    if asked.signalling:
        return read_input(asked.signalling, TEXT), Origin(None, name, sum_of(data), note="not known, since the program's text doesn't name it")
    program = program_of(asked.program, beside("sdhaps"))
    text, _ = ask(program, ["run"], data)
    return text, Origin(program, name, sum_of(data), (now(),))


def traced(program: Program, steps, data: bytes):
    """The events of ports that are out more than once in a settle step, one dictionary by port for each settle step."""
    found = [{} for _ in steps]
    for port in broken(steps)[:TRACES]:
        text, _ = ask(program, ["trace", *port], data)
        for events, one in zip(found, read_trace(text)):
            events[port] = one
    return found


@dataclass(frozen=True)
class Outages:
    """What sdhoutage says of each settle step, the events that it traced, and where that comes from."""

    steps: list
    events: list | None
    source: str | Markup


NONE = Outages([], None, "not known: sdhoutage isn't here")


def outages_of(asked, data, plan):
    """What sdhoutage wrote before, or writes now. Where it isn't here there is nothing, and the words can be drawn all the same."""
    if asked.outages:
        text = read_input(asked.outages, TEXT)
        name = "standard input" if asked.outages == "-" else asked.outages
        return Outages(read_outages(text, plan), None, came_along(name, sum_of(text)))
    try:
        program = find_program([str(beside("sdhoutage"))])
    except CannotRun:
        return NONE
    steps = read_outages(ask(program, ["run"], data)[0], plan)
    return Outages(steps, traced(program, steps, data), f"{program.version or program.words[0]}, {program.proof}")


def ticks_of(plan, signalling, outages):
    """The ticks of each settle step; none of one of which sdhoutage says nothing. Both have to have run the same rounds."""
    found = [ticks(plan, step, outages.events and outages.events[number]) for number, step in enumerate(outages.steps)]
    for step, stretch in zip(outages.steps, signalling.stretches):
        if stretch.last is not None and step.round != stretch.last:
            raise ReportProblem(f"settle step {step.number} ends with round {stretch.last}, and with round {step.round} for sdhoutage")
    return found + [[] for _ in signalling.stretches[len(found) :]]


def drawn(asked, name, data, plan):
    """The page of a plan of this name; or the diagram of one settle step alone, where that was asked for."""
    text, origin = signalling_text(asked, name, data)
    signalling = read_signalling(text, plan)
    if not signalling.stretches:
        raise ReportProblem(f"nothing to draw: `{signalling.last}`")
    outages = outages_of(asked, data, plan)
    marks = ticks_of(plan, signalling, outages)
    if asked.svg is None:
        title = "standard input" if name == "-" else Path(name).name
        return signal_page(title, plan, signalling, marks, (origin, outages.source))
    if not 1 <= asked.svg <= len(signalling.stretches):
        raise ReportProblem(f"there is no settle step {asked.svg} in the text")
    return written(SpaceTime(plan, signalling.stretches[asked.svg - 1], marks[asked.svg - 1]).draw()) + "\n"
