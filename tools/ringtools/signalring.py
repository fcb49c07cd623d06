"""The ring in one round: the state of each node, and the word that is on each fibre. A page's script puts other rounds in its place."""

import math
import xml.etree.ElementTree as ElementTree

from .drawing import NODE, add, anchor, arc_path, cross, point, set_limits, zigzag
from .kbytes import CODES
from .model import CLEAR, CUT
from .plan import SIDES

TURN = 2 * math.pi
FAR = 7  # how far a fibre lies from the middle of its span
NAMED = 16  # how far its letters lie from there


def fibre_words(plan, at, side, word):
    """What is sent on a fibre, in words."""
    sender, there = plan.node_name(at), plan.node_name(plan.neighbour(at, side))
    return f"node {sender} sends {side}, to node {there}: {word.hexadecimal()}: {word.words()}"


def shown_state(signals):
    """A node's state and far end, as a report has the one."""
    return signals.state if signals.far is None else f"{signals.state}, far {signals.far}"


class SignalRing:
    """A drawing of what holds at a settle step's end; `conditions` are those of the fibres in the step."""

    def __init__(self, plan, stretch, conditions):
        self.plan, self.stretch, self.conditions = plan, stretch, conditions
        self.ring = max(150.0, 20.0 * plan.size)
        self.step = TURN / plan.size
        wide, high = 2 * (self.ring + 145), 2 * (self.ring + 58)
        self.root = ElementTree.Element("svg", {"class": "drawing signalring", "viewBox": f"{-wide / 2:.0f} {-high / 2:.0f} {wide:.0f} {high:.0f}"})
        self.root.set("role", "img")
        set_limits(self.root, 0.72 * wide, wide)

    def draw(self):
        now = self.stretch.end()
        add(self.root, "title", f"The ring at the end of settle step {self.stretch.number}")
        for at in range(self.plan.size):
            for side in SIDES:
                self.draw_fibre(at, side, now[at].sent[side])
        for at in range(self.plan.size):
            self.draw_node(at, now[at])
        return self.root

    def draw_fibre(self, at, side, word):
        """A fibre with the word that is sent on it. Eastward ones lie outside."""
        span, way = self.plan.span(at, side), 1 if side == "east" else -1
        radius, clear = self.ring + way * FAR, (NODE + 4) / self.ring
        start, end = self.step * span + clear, self.step * (span + 1) - clear
        group = add(self.root, "g", class_=f"signal code-{CODES[word.code][0]}", data_fibre=f"{at} {side}")
        add(group, "title", fibre_words(self.plan, at, side, word))
        condition = self.conditions[at, side]
        shape = arc_path(radius, start, end) if condition in (CLEAR, CUT) else zigzag(radius, start, end)
        add(group, "path", class_="way", d=shape)
        self.draw_tip(group, radius, end if way > 0 else start, way)
        if condition == CUT:
            cross(group, radius, (start + end) / 2 - way * 9 / radius, 4.5)
        middle = (start + end) / 2
        x, y = point(self.ring + way * (FAR + NAMED), middle)
        inside = {"middle": "middle", "start": "end", "end": "start"}
        add(group, "text", word.letters(), class_="letters", x=x, y=y + 4, text_anchor=anchor(middle) if way > 0 else inside[anchor(middle)])

    def draw_tip(self, group, radius, angle, way):
        back = -8 * way / radius
        points = [point(radius, angle), point(radius + 4, angle + back), point(radius - 4, angle + back)]
        add(group, "path", class_="tip", d="M" + " L".join("{:.1f} {:.1f}".format(*one) for one in points) + "Z")

    def draw_node(self, at, signals):
        angle = self.step * at
        x, y = point(self.ring, angle)
        group = add(self.root, "g", class_="node-of", data_node=at, data_state=signals.state)
        add(group, "circle", class_="node", cx=x, cy=y, r=NODE)
        for side, way in (("west", -1), ("east", 1)):
            inner = NODE - 1.5
            (x1, y1), (x2, y2) = point(inner, angle), point(inner, angle + math.pi)
            shape = f"M{x + x1:.1f} {y + y1:.1f} A{inner} {inner} 0 0 {int(way > 0)} {x + x2:.1f} {y + y2:.1f}Z"
            add(group, "path", class_=f"half half-{side}", d=shape)
        add(group, "text", str(self.plan.ids[at]), class_="identifier", x=x, y=y + 5, text_anchor="middle")
        x, y = point(self.ring + NODE + 26, angle)
        add(group, "text", shown_state(signals), class_="state", x=x, y=y + 4, text_anchor=anchor(angle))
