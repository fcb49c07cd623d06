"""What a plan's script leaves when it has come to its end: fibres and switches that stay, and spans that wait."""

from __future__ import annotations

from dataclasses import dataclass

from .desktable import Namer, last_scene
from .escaping import Markup, html
from .markup import codes
from .model import CLEAR, CUT, WAIT, Scene, span_requests
from .places import Places
from .plan import Plan


@dataclass(frozen=True)
class ScriptLeft:
    """The steps of a plan's script, settle steps apart, and what holds after the last one."""

    plan: Plan
    places: Places
    steps: tuple[str, ...]
    scene: Scene

    @property
    def fibres(self) -> dict[tuple[int, str], str]:
        """Returns `fibre` or `degraded` for each fibre that isn't clear, by the position and side that it leaves."""
        found = {fibre: condition for fibre, condition in self.scene.conditions.items() if condition != CLEAR}
        return {fibre: "fibre" if condition == CUT else "degraded" for fibre, condition in found.items()}

    @property
    def switches(self) -> dict[tuple[int, str], str]:
        """Returns `forced` or `manual` for each side that has a command, by position and side."""
        return {place: command for place, command in self.scene.commands.items() if command}

    @property
    def waiting(self) -> list[int]:
        """Returns the spans whose highest request is to wait."""
        requests = span_requests(self.plan.size, self.scene.requests)
        return [span for span, request in enumerate(requests) if request == WAIT]

    @property
    def is_something(self) -> bool:
        return bool(self.fibres or self.switches or self.waiting)

    def degree_words(self, fibre: tuple[int, str]) -> str:
        """Returns by how many violations a degraded fibre is degraded; empty for a cut one."""
        condition = self.scene.conditions[fibre]
        if condition == CUT:
            return ""
        below = f", below the threshold of {self.plan.threshold}" if condition < self.plan.threshold else ""
        return f" by {condition}{below}"

    def words(self) -> list[str]:
        """Returns what is left, one thing in each text."""
        namer = Namer(self.plan, self.places)
        fibres = [namer.name(kind, *fibre) + self.degree_words(fibre) for fibre, kind in sorted(self.fibres.items())]
        switches = [namer.name(command, *place) for place, command in sorted(self.switches.items())]
        return fibres + switches + [f"{namer.name('span', span, '')} waits to restore" for span in self.waiting]

    def line(self) -> Markup:
        """Returns the first line of a page about the ring that the script left; empty if it only settles."""
        if not self.steps:
            return html("")
        steps = codes(self.steps)
        if not self.is_something:
            return html('<p class="script">The plan\'s script comes first, and leaves nothing: {}.</p>', steps)
        left = "; ".join(self.words())
        return html(
            '<p class="script alarm"><strong>The ring isn\'t whole.</strong> The plan\'s script comes first: {}. '
            "It leaves: <strong>{}</strong>. All that follows is beside that.</p>",
            steps,
            left,
        )


def script_left(plan: Plan, places: Places) -> ScriptLeft:
    """Returns what the script of a plan leaves."""
    return ScriptLeft(plan, places, tuple(step.text for step in plan.steps if step.word != "settle"), last_scene(plan))
