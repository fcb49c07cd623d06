"""Steps of a script in which nodes are named by their places, as `cut Bonn east`: the same with identifiers, as a plan has them."""

from __future__ import annotations

from collections.abc import Sequence

from .checks import STEP_FORMS
from .places import Places, composed


class NoNode(Exception):
    """A word names no node of the ring."""


def number_called(ids: Sequence[int], places: Places, words: str) -> int | None:
    """Returns the identifier of the node that is called so, by it or by its place; None where there is none."""
    at = places.positions(ids).get(" ".join(composed(words).split()).casefold())
    return None if at is None else ids[at]


def known_nodes(ids: Sequence[int], places: Places) -> str:
    """Returns all nodes in words, for messages."""
    return ", ".join(map(places.node, ids))


def with_identifiers(ids: Sequence[int], places: Places, text: str) -> str:
    """Returns a step with the identifier of its node in place of the place's name, which may have blanks. Any other text stays as it is.

    Raises NoNode where a name, and no number, names none of the nodes.
    """
    first, *words = composed(text).split(" ")
    form = STEP_FORMS.get(first, ())
    if form[:1] != ("node",) or len(words) < len(form):
        return text
    count = len(words) + 1 - len(form)
    called, rest = " ".join(words[:count]), words[count:]
    number = number_called(ids, places, called)
    if number is not None:
        return " ".join([first, str(number), *rest])
    if places.nodes and not called.isdecimal():
        raise NoNode(f"`{text}`: `{called}` is no node of the ring; the nodes are {known_nodes(ids, places)}")
    return text
