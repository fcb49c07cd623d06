"""One settle step of a ring as a drawing (SVG)."""

import math
import xml.etree.ElementTree as ElementTree

from .markup import in_light, web
from .model import CLEAR, CUT

TURN = 2 * math.pi
NODE = 16  # radius of a node
PORT = 8  # how far the first slot's ports lie from their node's middle


def add(parent, tag, text=None, **attributes):
    """A new element below `parent`. Numbers are written short, `class_` is `class`, `a_b` is `a-b`."""
    written = {}
    for key, value in attributes.items():
        key = "class" if key == "class_" else key.replace("_", "-")
        written[key] = f"{value:.1f}" if isinstance(value, float) else str(value)
    element = ElementTree.SubElement(parent, tag, written)
    element.text = text
    return element


def set_limits(root: ElementTree.Element, least: float, most: float) -> None:
    """Tells between which widths in pixels a page shows a drawing."""
    root.set("data-least", f"{least:.0f}")
    root.set("data-most", f"{most:.0f}")


class Measures:
    """Radii and angles of a drawing; angle 0 is above, east is clockwise."""

    def __init__(self, plan):
        self.plan = plan
        slots = sorted({circuit.slot for circuit in plan.circuits})
        self.lane_of = {slot: lane for lane, slot in enumerate(slots)}
        self.lanes = len(slots)
        self.gap = 17 if self.lanes <= 2 else 13 if self.lanes <= 4 else 10.5
        inside = 2 * self.gap * self.lanes
        self.ring = max(165, 20 * plan.size, 44 + inside + 60)
        named = 14 if plan.places.nodes else 0
        self.wide = 2 * (self.ring + 128 + named)
        self.high = 2 * (self.ring + 66 + named)

    def angle(self, position):
        return TURN * position / self.plan.size

    @property
    def step(self):
        return TURN / self.plan.size

    def working(self, slot):
        return self.ring - 36 - self.gap * self.lane_of[slot]

    def protection(self, slot):
        return self.ring - 46 - self.gap * (self.lanes + self.lane_of[slot])

    def aside(self, slot):
        """How far from a node's middle a slot's ports and turns lie, as an angle; no two slots at the same place."""
        lane = self.lane_of[slot]
        room = 0.33 * self.step - PORT / self.ring
        between = min(4.5 / self.protection(max(self.lane_of)), room / max(1, self.lanes))
        return PORT / self.ring + between * lane


def point(radius, angle):
    return radius * math.sin(angle), -radius * math.cos(angle)


def arc_to(radius, start, end):
    """The path's pieces from `start` to `end`; clockwise where `end` is larger."""
    count = max(1, math.ceil(abs(end - start) / 2))
    sweep = 1 if end > start else 0
    places = [start + (end - start) * (i + 1) / count for i in range(count)]
    return " ".join("A{0:.1f} {0:.1f} 0 0 {1} {2:.1f} {3:.1f}".format(radius, sweep, *point(radius, place)) for place in places)


def arc_path(radius, start, end):
    return "M{:.1f} {:.1f} ".format(*point(radius, start)) + arc_to(radius, start, end)


def anchor(angle):
    """How a text outside the ring is put to its point, so that it leads away from the ring."""
    return "middle" if abs(math.sin(angle)) < 0.35 else "start" if math.sin(angle) > 0 else "end"


def zigzag(radius, start, end):
    count = max(6, int(abs(end - start) * radius / 5))
    places = [start + (end - start) * i / count for i in range(count + 1)]
    points = [point(radius + (3 if i % 2 else -3), place) for i, place in enumerate(places)]
    return "M" + " L".join("{:.1f} {:.1f}".format(*place) for place in points)


def cross(parent, radius, angle, size):
    x, y = point(radius, angle)
    add(parent, "circle", class_="cross-ground", cx=x, cy=y, r=size + 1.5)
    for dx, dy in ((size, size), (size, -size)):
        add(parent, "line", class_="cross", x1=x - dx, y1=y - dy, x2=x + dx, y2=y + dy)


def along(parent, text, radius, place, size, name):
    """Text in the middle of a stretch of a lane, bent with it and never upside down. `name` is the path's own."""
    start, end = place
    below = math.cos((start + end) / 2) < 0
    add(parent, "path", id=name, d=arc_path(radius, end, start) if below else arc_path(radius, start, end))
    label = add(parent, "text", class_="label", text_anchor="middle", dy=f"{0.36 * size:.1f}", font_size=size)
    add(label, "textPath", text, href=f"#{name}", startOffset="50%")


class Drawing:
    """A step's drawing; on its own, with its style, unless a page will hold it."""

    def __init__(self, look, page=False):
        self.look, self.plan, self.scene = look, look.plan, look.scene
        self.m = Measures(look.plan)
        box = "{:.0f} {:.0f} {:.0f} {:.0f}".format(-self.m.wide / 2, -self.m.high / 2, self.m.wide, self.m.high)
        self.root = ElementTree.Element("svg", {"class": "drawing", "viewBox": box, "role": "img"})
        if not page:
            self.root.set("xmlns", "http://www.w3.org/2000/svg")
            self.root.set("width", f"{self.m.wide:.0f}")
            self.root.set("height", f"{self.m.high:.0f}")
            add(self.root, "style", in_light(web("drawing.css")))
        else:
            set_limits(self.root, 0.6 * self.m.wide, self.m.wide)

    def draw(self):
        add(self.root, "title", self.look.title())
        for span in sorted(self.scene.applied):
            self.draw_applied(span)
        for span in range(self.plan.size):
            self.draw_fibre(span, span, "east", self.m.ring + 5)
            self.draw_fibre(span, (span + 1) % self.plan.size, "west", self.m.ring - 5)
            self.draw_degrees(span)
        self.under = add(self.root, "g", class_="under")
        for number, circuit in enumerate(self.plan.circuits):
            self.draw_circuit(number, circuit)
        for at in range(self.plan.size):
            self.draw_node(at)
        return self.root

    def between(self, span):
        """Angles where a span's lines begin and end, clear of its nodes."""
        clear = (NODE + 3) / self.m.ring
        return self.m.angle(span) + clear, self.m.angle(span) + self.m.step - clear

    def draw_applied(self, span):
        group = add(self.root, "g", class_="mark")
        add(group, "title", f"span {self.plan.span_title(span)}: applied")
        start, end = self.between(span)
        add(group, "path", class_="applied-edge", d=arc_path(self.m.ring, start, end))
        add(group, "path", class_="applied", d=arc_path(self.m.ring, start + 0.006, end - 0.006))

    def draw_fibre(self, span, at, side, radius):
        fibre = at, side
        condition = self.scene.conditions[fibre]
        start, end = self.between(span)
        group = add(self.root, "g", class_="fibre-item item")
        add(group, "title", self.look.fibre_words(fibre))
        if fibre in self.look.changed_fibres:
            add(group, "path", class_="changed", d=arc_path(radius, start, end))
        if condition == CLEAR or condition == CUT:
            add(group, "path", class_="fibre" if condition == CLEAR else "fibre-cut", d=arc_path(radius, start, end))
        else:
            add(group, "path", class_="fibre-degraded", d=zigzag(radius, start, end))
        self.draw_arrow(group, radius, end - 0.1 * (end - start) if side == "east" else start + 0.1 * (end - start), side)
        if condition == CUT:
            cross(group, radius, (start + end) / 2 + (-8 if side == "east" else 8) / radius, 4.5)

    def draw_arrow(self, group, radius, angle, side):
        back = -7 / radius if side == "east" else 7 / radius
        points = [point(radius, angle), point(radius + 3.5, angle + back), point(radius - 3.5, angle + back)]
        add(group, "path", class_="arrow", d="M" + " L".join("{:.1f} {:.1f}".format(*p) for p in points) + "Z")

    def draw_degrees(self, span):
        """How far the span's fibres are degraded, outside the ring at its middle."""
        fibres = (span, "east"), ((span + 1) % self.plan.size, "west")
        words = ["{}{}".format("→" if i == 0 else "←", self.scene.conditions[f]) for i, f in enumerate(fibres) if isinstance(self.scene.conditions[f], int)]
        if words:
            angle = self.m.angle(span) + self.m.step / 2
            x, y = point(self.m.ring + 17, angle)
            y += 9 if math.cos(angle) < -0.35 else 0
            add(self.root, "text", " ".join(words), class_="note label", x=x, y=y + 3, text_anchor=anchor(angle))

    def draw_node(self, at):
        angle = self.m.angle(at)
        x, y = point(self.m.ring, angle)
        state = self.look.state(at)
        group = add(self.root, "g", class_="node-item item")
        add(group, "title", self.look.node_words(at))
        if at in self.look.changed_nodes:
            add(group, "circle", class_="changed-node", cx=x, cy=y, r=NODE + 6)
        add(group, "circle", class_=f"node node-{state}", cx=x, cy=y, r=NODE)
        for side in ("west", "east"):
            if state == f"switch-{side}":
                self.draw_half(group, x, y, angle, side)
        kind = "identifier identifier-isolated" if state == "isolated" else "identifier"
        add(group, "text", str(self.plan.ids[at]), class_=kind, x=x, y=y + 5, text_anchor="middle")
        self.draw_node_text(group, at, angle)

    def draw_half(self, group, x, y, angle, side):
        """The half of a node that looks to the switched side."""
        way = 1 if side == "east" else -1
        inner = NODE - 1.5
        (x1, y1), (x2, y2) = point(inner, angle), point(inner, angle + math.pi)
        add(group, "path", class_="half", d=f"M{x + x1:.1f} {y + y1:.1f} A{inner} {inner} 0 0 {int(way > 0)} {x + x2:.1f} {y + y2:.1f}Z")

    def draw_node_text(self, group, at, angle):
        place, state = self.plan.places.drawn(self.plan.ids[at]), self.look.state(at)
        lines = [(place, False)] if place else []
        lines += [(state, at in self.look.changed_nodes)] if state else []
        for side in ("west", "east"):
            command = self.scene.commands[at, side]
            if command is not None:
                lines.append((f"⚑ {command} {side}", (at, side) in self.look.changed_commands))
        x, y = point(self.m.ring + NODE + 9, angle)
        up = 13 * (len(lines) - 1)
        y += -up if math.cos(angle) > 0.35 else 8 if math.cos(angle) < -0.35 else 4 - up / 2
        for i, (line, changed) in enumerate(lines):
            kind = "state changed-text" if changed else "state"
            add(group, "text", line, class_=kind, x=x, y=y + 13 * i, text_anchor=anchor(angle))

    def draw_circuit(self, number, circuit):
        way = self.look.ways[circuit.name]
        group = add(self.root, "g", class_="circuit item", data_circuit=circuit.name)
        add(group, "title", self.look.circuit_words(circuit))
        changed = circuit.name in self.look.changed_circuits
        if way.hops is None:
            self.draw_lost(group, circuit, changed)
        elif not way.over:
            self.draw_own(group, circuit, changed)
        else:
            self.draw_over(group, circuit, changed)
        for end in "ab":
            self.draw_port(group, circuit, end)
        self.draw_name(group, number, circuit)

    def ends_of(self, circuit):
        """Angles of its two ports along the arc, b's not below a's."""
        start, aside = self.m.angle(circuit.start), self.m.aside(circuit.slot)
        length = (circuit.end - circuit.start) % self.plan.size
        return start + aside, start + length * self.m.step - aside

    def line(self, group, kind, path, changed):
        """What sets a line off lies below all circuits."""
        if changed:
            add(self.under, "path", class_="changed", d=path)
        add(group, "path", class_=kind, d=path)

    def draw_lost(self, group, circuit, changed):
        self.line(group, "lost", arc_path(self.m.working(circuit.slot), *self.ends_of(circuit)), changed)

    def draw_own(self, group, circuit, changed):
        self.line(group, "own", arc_path(self.m.working(circuit.slot), *self.ends_of(circuit)), changed)

    def turns_of(self, circuit):
        """Angles where a route over protection leaves its arc and where it joins it again, once round before."""
        hops = self.look.ways[circuit.name].hops
        begin, finish = self.ends_of(circuit)
        out = next(i for i, hop in enumerate(hops) if hop.protection)
        back = sum(hop.protection for hop in hops)
        middle, aside = self.m.angle(circuit.start) + out * self.m.step, self.m.aside(circuit.slot)
        leave = middle - aside if out else begin
        rejoin = middle - back * self.m.step + aside if out + back < len(hops) else finish - TURN
        return leave, rejoin

    def draw_over(self, group, circuit, changed):
        outer, inner = self.m.working(circuit.slot), self.m.protection(circuit.slot)
        (begin, finish), (leave, rejoin) = self.ends_of(circuit), self.turns_of(circuit)
        add(group, "path", class_="unused", d=arc_path(outer, leave, rejoin + TURN))
        for start, end in ((begin, leave), (rejoin, finish - TURN)):
            if end - start > 0.001:
                self.line(group, "over", arc_path(outer, start, end), changed)
        inward = "M{:.1f} {:.1f} L{:.1f} {:.1f} ".format(*point(outer, leave), *point(inner, leave))
        outward = " L{:.1f} {:.1f}".format(*point(outer, rejoin))
        self.line(group, "over protection", inward + arc_to(inner, leave, rejoin) + outward, changed)

    def draw_port(self, group, circuit, end):
        angle = self.ends_of(circuit)[end == "b"]
        radius = self.m.working(circuit.slot)
        x, y = point(radius, angle)
        size = 4 if self.m.gap > 12 else 3.2
        verdict = self.look.port(circuit.name, end)
        mark = add(group, "g", class_="mark")
        add(mark, "title", self.look.port_words(circuit, end))
        if verdict == "own":
            kind = "port over" if self.look.ways[circuit.name].over else "port own"
            add(mark, "circle", class_=kind, cx=x, cy=y, r=size)
        elif verdict == "ais":
            add(mark, "rect", class_="port-ais", x=x - size, y=y - size, width=2 * size, height=2 * size)
            for dy in (size, -size):
                add(mark, "line", x1=x - size, y1=y - dy, x2=x + size, y2=y + dy, class_="port-cross")
        elif verdict == "wrong":
            d = f"M{x:.1f} {y - 7:.1f} L{x + 7:.1f} {y + 5:.1f} L{x - 7:.1f} {y + 5:.1f}Z"
            add(mark, "path", class_="port-wrong", d=d)

    def name_place(self, circuit):
        """The stretch of the working lane that has most room for the name."""
        begin, finish = self.ends_of(circuit)
        if not self.look.ways[circuit.name].over:
            return begin, finish
        leave, rejoin = self.turns_of(circuit)
        return max((begin, leave), (rejoin + TURN, finish), (leave, rejoin + TURN), key=lambda place: place[1] - place[0])

    def draw_name(self, group, number, circuit):
        """The circuit's name along its lane; its number in the table where the name is too long."""
        radius, (begin, finish) = self.m.working(circuit.slot), self.name_place(circuit)
        size = 10.5 if self.m.gap > 12 else 8
        fits = 0.64 * size * len(circuit.name) <= (finish - begin) * radius - 14
        text = circuit.name if fits else f"#{number + 1}"
        along(group, text, radius, (begin, finish), size, f"lane{self.scene.number}-{number + 1}")


def written(element):
    return ElementTree.tostring(element, encoding="unicode")
