"""Markup as a type of its own. It is made by functions that take texts and escape them, so that no text of a user's becomes markup."""

from __future__ import annotations

import json
import xml.etree.ElementTree as ElementTree
from collections.abc import Iterable
from html import escape
from typing import LiteralString

from .shown import shown


class Markup:
    """A piece of a page. It is made by the functions of this module alone, which escape each text that they are given.

    It is no text, and none can be had of it, so that no page is put together from texts.
    """

    __slots__ = ("_written",)

    def __init__(self) -> None:
        raise TypeError("markup is made by html, joined, lines, drawn and data")

    def __add__(self, other: object) -> Markup:
        return joined((self, other))

    def __radd__(self, other: object) -> Markup:
        return joined((other, self))

    def __eq__(self, other: object) -> bool:
        return isinstance(other, Markup) and self._written == other._written

    def __hash__(self) -> int:
        return hash(self._written)

    def __bool__(self) -> bool:
        return bool(self._written)

    def __str__(self) -> str:
        raise TypeError("a piece of a page is no text")

    __repr__ = __str__

    def __format__(self, form: str) -> str:
        return str(self)


def made(written: str) -> Markup:
    """Returns this as markup. Only functions beside it may call it, with what they have escaped."""
    markup = object.__new__(Markup)
    markup._written = written
    return markup


def written(part: object) -> str:
    """Returns a piece as it stands in a page: markup as it is, a text so that it is shown and does nothing else, with U+FFFD for signs that can't be seen."""
    return part._written if isinstance(part, Markup) else escape(shown(part))


def html(form: LiteralString, *parts: object) -> Markup:
    """Returns a form, which is written out where it is used, with these pieces at its `{}`."""
    return made(form.format(*map(written, parts)))


def joined(parts: Iterable[object], between: object = "") -> Markup:
    """Returns these pieces one after the other."""
    return made(written(between).join(map(written, parts)))


def lines(*parts: object) -> Markup:
    """Returns these pieces, each on a line of its own."""
    return joined(parts, html("\n"))


def drawn(element: ElementTree.Element) -> Markup:
    """Returns a drawing as a part of a page. ElementTree escapes the texts in it."""
    return made(ElementTree.tostring(element, encoding="unicode"))


def data(value: object) -> Markup:
    """Returns a value as a page's script reads it from an element, which no text in it ends."""
    packed = json.dumps(value, separators=(",", ":"), ensure_ascii=False).replace("<", "\\u003c")
    return made(packed)
