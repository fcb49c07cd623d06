"""Which steps of a script hold the controller of a node that passes traffic through then: of their settle steps it isn't promised whose bytes come."""

from .model import NONE, applied_spans, scenes, span_requests


def passes_through(asked, at):
    """Whether the node at a position of a quiet ring passes traffic through, under these requests of the spans."""
    applied, highest, beside = applied_spans(asked), max(asked), (at, at - 1)
    if applied:
        return not applied.intersection(span % len(asked) for span in beside)
    return highest > NONE and all(asked[span] < highest for span in beside)


def held_while_passing(plan):
    """Yields the place in the script, counted from 0, and the node of each such step. In a new ring no node passes through."""
    settles = sum(step.word == "settle" for step in plan.steps)
    ended, asked = iter(scenes(plan, [128 * (number + 1) for number in range(settles)])), None
    for place, step in enumerate(plan.steps):
        if step.word == "settle":
            asked = span_requests(plan.size, next(ended).requests)
        elif step.word == "hold" and asked and passes_through(asked, step.at):
            yield place, step.at
