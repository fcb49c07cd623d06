"""The ring of a desk page, as the plan's script left it: what can be made to fail or switched is a button, and each circuit lies on its own arc."""

import math
import xml.etree.ElementTree as ElementTree

from .desktable import LOST, OVER, Outcome
from .drawing import NODE, Measures, add, anchor, arc_path, point
from .model import arc
from .places import Places
from .plan import SIDES, Plan
from .scriptleft import ScriptLeft

SWITCH = 12  # how wide and how far from its node's edge a switch is drawn
LETTERS = {"forced": "F", "manual": "M"}  # in a switch that was given a command


class DeskDrawing:
    """`left` is what the script left, and `outcome` what becomes of the circuits by that alone."""

    def __init__(self, plan: Plan, places: Places, failures: tuple, left: ScriptLeft, outcome: Outcome):
        self.plan, self.places, self.left, self.outcome = plan, places, left, outcome
        self.m = Measures(plan)
        self.numbers = {(one.kind, one.at, one.side): number for number, one in enumerate(failures)}
        self.failures = failures
        wide, high = self.m.wide + 60, self.m.high + 30
        box = f"{-wide / 2:.0f} {-high / 2:.0f} {wide:.0f} {high:.0f}"
        self.root = ElementTree.Element("svg", {"id": "ring", "viewBox": box, "role": "group", "aria-label": "the ring"})
        self.root.set("data-whole", f"{wide:.0f}")

    def draw(self):
        for span in range(self.plan.size):
            self.draw_fibre(span, "east", self.m.ring + 6)
            self.draw_fibre((span + 1) % self.plan.size, "west", self.m.ring - 6)
            self.draw_span(span)
        for number, circuit in enumerate(self.plan.circuits):
            self.draw_circuit(number, circuit)
        add(self.root, "path", id="way", d="")
        for at in range(self.plan.size):
            for side in SIDES:
                self.draw_switch(at, side)
            self.draw_node(at)
        return self.root

    def button(self, class_, **data):
        """A part of the drawing that can be clicked, or reached and pressed by keys, once there are scripts."""
        return add(self.root, "g", class_=f"button {class_}", **data)

    def draw_fibre(self, at, side, radius):
        """A fibre by the position and the side that it leaves; as drawn it is the span's outer or inner line."""
        span = self.plan.span(at, side)
        clear = (NODE + SWITCH + 4) / self.m.ring
        path = arc_path(radius, self.m.angle(span) + clear, self.m.angle(span) + self.m.step - clear)
        item = self.button("fibre", data_fibre=f"{at} {side}", **self.left_at(self.left.fibres, at, side))
        add(item, "title", self.failures[self.numbers["fibre", at, side]].name.removesuffix(" cut") + self.fibre_words(at, side))
        add(item, "path", class_="hit", d=path)
        add(item, "path", class_="line", d=path)

    def left_at(self, found: dict[tuple[int, str], str], at: int, side: str) -> dict[str, str]:
        """Returns the attribute of what the script left there, as the stylesheet and the page's script read it."""
        return {"data_left": found[at, side]} if (at, side) in found else {}

    def fibre_words(self, at: int, side: str) -> str:
        """Returns what the script left of a fibre, behind the fibre's name."""
        if (at, side) not in self.left.fibres:
            return ""
        return ", cut by the script" if self.left.fibres[at, side] == "fibre" else f", degraded{self.left.degree_words((at, side))} by the script"

    def draw_span(self, span):
        number = self.numbers["span", span, ""]
        x, y = point(self.m.ring + 33, self.m.angle(span) + self.m.step / 2)
        item = self.button("span is-applied" if span in self.outcome.applied else "span", data_failure=number)
        add(item, "title", self.failures[number].name)
        add(item, "rect", x=x - 23, y=y - 10, width=46, height=20, rx=10)
        add(item, "text", "{}–{}".format(*self.plan.ends(span)), x=x, y=y + 4, text_anchor="middle")

    def draw_switch(self, at, side):
        """The switch of a side: a small square on the span, beside its node; a letter in it says what it was given."""
        way = 1 if side == "east" else -1
        x, y = point(self.m.ring, self.m.angle(at) + way * (NODE + SWITCH / 2 + 1) / self.m.ring)
        given = self.left.switches.get((at, side), "")
        item = self.button("switch", data_switch=f"{at} {side}", **self.left_at(self.left.switches, at, side))
        add(item, "title", self.failures[self.numbers["manual", at, side]].name.removeprefix("manual ") + (f", {given} by the script" if given else ""))
        add(item, "rect", class_="hit", x=x - SWITCH, y=y - SWITCH, width=2 * SWITCH, height=2 * SWITCH)
        add(item, "rect", x=x - SWITCH / 2, y=y - SWITCH / 2, width=SWITCH, height=SWITCH, rx=2)
        add(item, "text", LETTERS.get(given, ""), class_="given", x=x, y=y + 4, text_anchor="middle")

    def draw_node(self, at):
        number, angle = self.numbers["node", at, ""], self.m.angle(at)
        x, y = point(self.m.ring, angle)
        item = self.button("node", data_failure=number)
        add(item, "title", self.failures[number].name)
        add(item, "circle", cx=x, cy=y, r=NODE)
        add(item, "text", str(self.plan.ids[at]), x=x, y=y + 5, text_anchor="middle")
        x, y = point(self.m.ring + NODE + 10, angle)
        shown = self.places.drawn(self.plan.ids[at])
        add(self.root, "text", shown, class_="place", x=x, y=y + 4 - 4 * math.cos(angle), text_anchor=anchor(angle))

    def draw_circuit(self, number, circuit):
        start, aside = self.m.angle(circuit.start), self.m.aside(circuit.slot)
        end = start + len(arc(self.plan, circuit)) * self.m.step
        result = {OVER: " over", LOST: " lost"}.get(self.outcome.results[number], "")
        item = add(self.root, "g", class_=f"circuit{result}", data_customer=number)
        add(item, "title", self.places.circuit(circuit.name))
        add(item, "path", d=arc_path(self.m.working(circuit.slot), start + aside, end - aside))
        for angle in (start + aside, end - aside):
            x, y = point(self.m.working(circuit.slot), angle)
            add(item, "circle", cx=x, cy=y, r=2.6)

    def lanes(self):
        """What the page's script wants to draw a way: of each circuit its positions, its two radii and how far aside it ends."""
        for circuit in self.plan.circuits:
            radii = self.m.working(circuit.slot), self.m.protection(circuit.slot)
            yield [circuit.start, len(arc(self.plan, circuit)), *(round(radius, 1) for radius in radii), round(self.m.aside(circuit.slot), 4)]
