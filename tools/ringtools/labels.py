"""Where the labels of a drawing stand, so that none lies over another: of the places that a label may have the first one that is free."""

from __future__ import annotations

import math
from collections.abc import Sequence
from dataclasses import dataclass, field
from typing import NamedTuple

LETTER, HIGH, ROOM = 4.8, 9.0, 1.0  # the mean width of a letter and the height of a line at 8.5 px, and what is left free around


class Box(NamedTuple):
    """A rectangle of the drawing."""

    left: float
    top: float
    right: float
    bottom: float

    def overlap(self, other: Box) -> float:
        """Returns the area that two rectangles share."""
        wide = min(self.right, other.right) - max(self.left, other.left)
        high = min(self.bottom, other.bottom) - max(self.top, other.top)
        return max(wide, 0) * max(high, 0)


def width_of(words: str) -> float:
    return LETTER * len(words)


def line_box(words: str, x: float, baseline: float, way: int) -> Box:
    """Returns the room of a level line of words that goes from x to the right, or to the left where `way` is -1."""
    ends = sorted((x, x + way * width_of(words)))
    return Box(ends[0], baseline - HIGH + 2, ends[1], baseline + 2)


def turned_box(words: str, middle: tuple[float, float], lift: float, degrees: float) -> Box:
    """Returns the room of words that are turned about their middle and lifted from there by `lift` before that."""
    turn, half = math.radians(degrees), width_of(words) / 2
    up = lift - HIGH / 2 + 2
    x, y = middle[0] - up * math.sin(turn), middle[1] + up * math.cos(turn)
    wide = half * abs(math.cos(turn)) + HIGH / 2 * abs(math.sin(turn))
    high = half * abs(math.sin(turn)) + HIGH / 2 * abs(math.cos(turn))
    return Box(x - wide, y - high, x + wide, y + high)


@dataclass
class Labels:
    """What is taken of a drawing."""

    taken: list[Box] = field(default_factory=list)

    def take(self, box: Box) -> None:
        self.taken.append(Box(box.left - ROOM, box.top - ROOM, box.right + ROOM, box.bottom + ROOM))

    def covered(self, box: Box) -> float:
        """Returns how much of a rectangle is taken."""
        return sum(box.overlap(other) for other in self.taken)

    def choose(self, boxes: Sequence[Box]) -> int:
        """Returns the number of the first free rectangle, or of the one of which least is taken, and takes it."""
        number = min(range(len(boxes)), key=lambda number: (self.covered(boxes[number]), number))
        self.take(boxes[number])
        return number
