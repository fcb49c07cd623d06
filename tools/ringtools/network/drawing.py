"""A network as a drawing (SVG): rings that touch where they share a place. What can be made to fail is a button once there are scripts."""

import math
import xml.etree.ElementTree as ElementTree
from urllib.parse import quote

from ..drawing import add
from .layout import Drawn, Layout, Point
from .model import Network, Ring, key_of

NODE = 8.0
LABEL = 15.0
LETTERS = 18  # of a place's name
MARGIN, LARGE = 80.0, 1.4  # around all, and how many pixels a unit has where there is room


def shortened(name: str) -> str:
    return name if len(name) <= LETTERS else name[: LETTERS - 1] + "…"


class NetworkDrawing:
    """The drawing of a network. `failures` are the numbers of spans, by ring and position, and of places, by their keys."""

    def __init__(self, network: Network, spans: dict[tuple[int, int], int], places: dict[str, int]):
        self.network, self.spans, self.places = network, spans, places
        self.at: Drawn = Layout(network).drawn()
        left, top, wide, high = self.at.box(MARGIN)
        box = f"{left:.0f} {top:.0f} {wide:.0f} {high:.0f}"
        self.root = ElementTree.Element(
            "svg", {"id": "network", "viewBox": box, "role": "group", "aria-label": "the network"}
        )
        self.root.set("width", f"{wide * LARGE:.0f}")
        self.root.set("height", f"{high * LARGE:.0f}")

    def draw(self) -> str:
        for ring in self.network.rings:
            self.draw_spans(ring)
        for ring in self.network.rings:
            self.draw_name(ring)
        for key, number in self.places.items():
            self.draw_place(key, number)
        return self.root

    def point(self, ring: Ring, at: int) -> Point:
        return self.at.places[key_of(ring.places[at % ring.size])]

    def curve(self, ring: Ring, span: int) -> str:
        """A span as a curve that goes on smoothly into its neighbours; in a ring of two nodes each span bends outwards."""
        (ax, ay), (bx, by) = self.point(ring, span), self.point(ring, span + 1)
        if ring.size == 2:
            dx, dy = (bx - ax) * 0.45, (by - ay) * 0.45
            return f"M{ax:.1f} {ay:.1f} Q{(ax + bx) / 2 + dy:.1f} {(ay + by) / 2 - dx:.1f} {bx:.1f} {by:.1f}"
        (px, py), (nx, ny) = self.point(ring, span - 1), self.point(ring, span + 2)
        one = ax + (bx - px) / 6, ay + (by - py) / 6
        other = bx - (nx - ax) / 6, by - (ny - ay) / 6
        return f"M{ax:.1f} {ay:.1f} C{one[0]:.1f} {one[1]:.1f} {other[0]:.1f} {other[1]:.1f} {bx:.1f} {by:.1f}"

    def draw_spans(self, ring: Ring) -> None:
        for at in range(ring.size):
            item = add(
                self.root,
                "g",
                class_="button span",
                data_failure=self.spans[ring.number, at],
                data_span=f"{ring.number} {at}",
            )
            add(item, "title", f"span {ring.span_name(at)} in {ring.name}")
            path = self.curve(ring, at)
            add(item, "path", class_="hit", d=path)
            add(item, "path", class_="line", d=path)

    def draw_name(self, ring: Ring) -> None:
        """A ring's name in its middle, as a link to its own page."""
        x = sum(self.point(ring, at)[0] for at in range(ring.size)) / ring.size
        y = sum(self.point(ring, at)[1] for at in range(ring.size)) / ring.size
        link = add(self.root, "a", href=quote(ring.page))
        add(
            link, "text", shortened(ring.name), class_="ring-name", x=f"{x:.1f}", y=f"{y + 4:.1f}", text_anchor="middle"
        )

    def draw_place(self, key: str, number: int) -> None:
        (x, y), rings = self.at.places[key], self.network.rings_at[key]
        item = add(self.root, "g", class_=f"button place{' shared' if len(rings) > 1 else ''}", data_failure=number)
        name = self.network.place_names[key]
        add(item, "title", f"place {name}")
        add(item, "circle", class_="hit", cx=f"{x:.1f}", cy=f"{y:.1f}", r=f"{NODE + 6:.0f}")
        add(
            item,
            "circle",
            class_="node",
            cx=f"{x:.1f}",
            cy=f"{y:.1f}",
            r=f"{NODE if len(rings) == 1 else NODE + 2:.0f}",
        )
        dx, dy = self.away(key)
        anchor = "start" if dx > 0.35 else "end" if dx < -0.35 else "middle"
        add(
            item,
            "text",
            shortened(name),
            x=f"{x + LABEL * dx:.1f}",
            y=f"{y + LABEL * dy + 4 + 5 * dy:.1f}",
            text_anchor=anchor,
        )

    def away(self, key: str) -> Point:
        """The direction from a place in which its name stands: out of its ring, or across where it is shared."""
        x, y = self.at.places[key]
        rings = self.network.rings_at[key]
        middles = [self.at.middles[ring.number] for ring in rings]
        dx, dy = x - sum(mx for mx, _ in middles) / len(middles), y - sum(my for _, my in middles) / len(middles)
        if len(rings) > 1:
            dx, dy = -(middles[0][1] - y), middles[0][0] - x
            dx, dy = (dx, dy) if dx >= 0 else (-dx, -dy)
        far = math.hypot(dx, dy) or 1.0
        return dx / far, dy / far
