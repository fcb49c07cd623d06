"""The space-time diagram of a settle step: nodes as columns in ring order, rounds downwards, each change of a word as a slanted line."""

import math
import xml.etree.ElementTree as ElementTree
from itertools import accumulate, pairwise

from .drawing import add, set_limits
from .flights import flights
from .kbytes import CODES, MARK_LETTERS
from .labels import Box, Labels, line_box, turned_box, width_of
from .markup import in_light, web
from .outages import milliseconds
from .plan import SIDES
from .ticks import GETS, JUMPS, LOSES, WORDS

BAR = 15  # width of a node's bar
TOP, FOOT, LEFT, RIGHT = 44, 14, 92, 22
LETTERS, STOPPED = (0.29, 0.36, 0.5, 0.64, 0.71), (0.5, 0.8, 1.1)  # of the way: where the middle of a word's letters may be, best first
LIFTS, LOW = (-2.5, 9.0, -11.0, 18.0), (9.0, 18.0, -2.5, -11.0)  # of letters over a line, below it, and farther away, best first
TICK_LIFTS = 3, -5, 11, 19, -13  # of a tick's label below its sign
STEP = 4  # rounds from one number to the next
LIFT = 12  # how much higher the code that a side asks for stands above the sign of a port in the same round
MILLISECOND = 8  # rounds
LONG, CLEAR, SQUEEZED = 24, 6, 0.25  # rounds without an event that are many, how many of them stay as they are at each end, and how high the others are
WAYS = {"west": -1, "east": 1}


def still_rounds(events):
    """The stretches of rounds that are drawn closer together, since nothing happens in them; events are rounds."""
    return [range(one + CLEAR, other - CLEAR) for one, other in pairwise(sorted(set(events))) if other - one > LONG]


class Scale:
    """Where columns and rounds are. The first node has a second column at the end, since the ring goes on there."""

    def __init__(self, plan, stretch, events):
        self.size, self.first, self.until = plan.size, stretch.first, max(events)
        self.pitch = 172 if plan.size <= 4 else 122 if plan.size <= 8 else 104
        self.still = still_rounds(events)
        heights = [SQUEEZED if self.is_still(now) else 1 for now in range(self.first - 1, self.until + 1)]
        self.row = 15 if sum(heights) <= 32 else 12 if sum(heights) <= 64 else 9
        self.ys = [TOP + self.row * rows for rows in accumulate(heights, initial=0)]
        self.wide = LEFT + RIGHT + self.pitch * plan.size
        self.high = round(FOOT + self.ys[-1])

    def is_still(self, now):
        return any(now in rounds for rounds in self.still)

    def x(self, column):
        return float(LEFT + self.pitch * column)

    def y(self, now):
        return float(self.ys[now - self.first + 1])

    def column(self, at, side):
        """The column of a position from which its lines on a side leave."""
        return at or (self.size if side == "west" else 0)

    def gap(self, flight):
        """The columns between which a flight is drawn."""
        here = self.column(flight.at, flight.side)
        return here, here + WAYS[flight.side]


def events_of(stretch, found, ticks):
    """The rounds in which something happens; the last one is that with which the diagram ends."""
    events = [stretch.first - 1, stretch.first, stretch.first + 3, *(change.round for change in stretch.changes)]
    events += [flight.arrives() for flight in found] + [tick.round for tick in ticks]
    return [*events, max(events) + 2]


class SpaceTime:
    """The diagram of one settle step; on its own, with its style, unless a page will hold it."""

    def __init__(self, plan, stretch, ticks=(), page=False):
        self.plan, self.stretch, self.ticks = plan, stretch, ticks
        self.flights = flights(plan, stretch)
        self.scale = Scale(plan, stretch, events_of(stretch, self.flights, ticks))
        self.labels = Labels()
        wide, high = self.scale.wide, self.scale.high
        self.root = ElementTree.Element("svg", {"class": "drawing spacetime", "viewBox": f"0 0 {wide} {high}", "role": "img"})
        if page:
            set_limits(self.root, 0.8 * wide, 1.35 * wide)
        else:
            self.root.set("xmlns", "http://www.w3.org/2000/svg")
            self.root.set("width", str(wide))
            self.root.set("height", str(high))
            add(self.root, "style", in_light(web("drawing.css") + web("spacetime.css")))

    def title(self):
        return f"Settle step {self.stretch.number} from round {self.stretch.first} on: who sends what, and when it is heard"

    def draw(self):
        add(self.root, "title", self.title())
        self.draw_times()
        for column in range(self.plan.size + 1):
            self.draw_column(column)
        self.take_fixed()
        for flight in sorted(self.flights, key=lambda flight: flight.round):
            self.draw_flight(flight)
        for at in range(self.plan.size):
            self.draw_asks(at)
        for tick in self.ticks:
            self.draw_tick(tick)
        return self.root

    def take_fixed(self):
        """Takes the room of what stands where it has to: bars, what sides ask for, and the signs of ports."""
        scale = self.scale
        for column in range(self.plan.size + 1):
            self.labels.take(Box(scale.x(column) - BAR / 2, TOP, scale.x(column) + BAR / 2, scale.high))
        for at, side in ((at, side) for at in range(self.plan.size) for side in SIDES):
            for now, code, _ in asks_of(self.stretch, at, side):
                self.labels.take(self.ask_box(at, side, now, code))
        for tick in self.ticks:
            x, y = self.tick_place(tick)
            self.labels.take(Box(x - 5, y - 5, x + 5, y + 5))

    # Time

    def draw_times(self):
        scale = self.scale
        right = scale.x(self.plan.size) + 10
        add(self.root, "text", "round", class_="note head", x=LEFT - 52, y=TOP - 22, text_anchor="end")
        add(self.root, "text", "ms", class_="note head", x=LEFT - 16, y=TOP - 22, text_anchor="end")
        for rounds in scale.still:
            self.draw_still(rounds, right)
        shown = [now for now in range(scale.first, scale.until + 1, STEP) if not (scale.is_still(now) and (now - scale.first) % (2 * MILLISECOND))]
        for now in shown:
            y, is_whole = scale.y(now), (now - scale.first) % MILLISECOND == 0
            add(self.root, "line", class_="grid whole" if is_whole else "grid", x1=LEFT - 12, x2=right, y1=y, y2=y)
            add(self.root, "text", str(now), class_="note", x=LEFT - 52, y=y + 3, text_anchor="end")
            add(self.root, "text", milliseconds(now - scale.first), class_="note", x=LEFT - 16, y=y + 3, text_anchor="end")

    def draw_still(self, rounds, right):
        """A band behind rounds that are drawn closer together."""
        top, bottom = self.scale.y(rounds[0]), self.scale.y(rounds[-1] + 1)
        group = add(self.root, "g", class_="mark")
        add(group, "title", f"rounds {rounds[0]} to {rounds[-1]}, in which nothing changes, are drawn closer together")
        add(group, "rect", class_="still", x=LEFT - 12, y=top, width=right - LEFT + 12, height=bottom - top)

    # Nodes

    def draw_column(self, column):
        scale, at = self.scale, column % self.plan.size
        x, kind = scale.x(column), "column again" if column == self.plan.size else "column"
        group = add(self.root, "g", class_=kind)
        history = self.stretch.history(at)
        ends = [begun for begun, _ in history[1:]] + [scale.until + 1]
        for begun, end, signals in merged(history, ends):
            self.draw_bar(group, x, (begun, end), (at, signals))
        place = self.plan.places.drawn(self.plan.ids[at])
        add(group, "text", str(self.plan.ids[at]), class_="identifier", x=x, y=TOP - 14 if place else TOP - 8, text_anchor="middle")
        if place:
            add(group, "text", place, class_="note", x=x, y=TOP - 3, text_anchor="middle")

    def draw_bar(self, parent, x, rounds, place):
        """The bar of a state that a position has from one round up to another."""
        at, signals = place
        top, bottom = (self.scale.y(now) for now in rounds)
        group = add(parent, "g", class_=f"bar bar-{signals.state} mark")
        add(group, "title", f"node {self.plan.node_name(at)} from round {max(0, rounds[0])} on: {signals.state_words()}")
        add(group, "rect", class_="whole", x=x - BAR / 2, y=top, width=BAR, height=bottom - top)
        if signals.state.startswith("switch"):
            left = x if signals.state == "switch-east" else x - BAR / 2
            add(group, "rect", class_="half", x=left, y=top, width=BAR / 2, height=bottom - top)
        words = fitting(bar_words(signals), bottom - top)
        if words:
            middle = (top + bottom) / 2
            add(group, "text", words, x=x, y=middle, transform=f"rotate(90 {x:.1f} {middle:.1f})", text_anchor="middle", dy="3")

    # Words

    def draw_flight(self, flight):
        scale, (here, there) = self.scale, self.scale.gap(flight)
        way = WAYS[flight.side]
        x, y = scale.x(here) + way * BAR / 2, scale.y(flight.round)
        to_x, to_y = scale.x(there) - way * BAR / 2, scale.y(flight.arrives())
        name = CODES[flight.word.code][0]
        group = add(self.root, "g", class_=f"flight code-{name} mark" + (" alone" if flight.is_mark else ""))
        add(group, "title", self.flight_words(flight))
        if flight.heard is None:
            to_x, to_y = x + 0.45 * (to_x - x), y + 0.45 * (to_y - y)
            add(group, "line", class_="stop", x1=to_x, x2=to_x, y1=to_y - 4, y2=to_y + 4)
        add(group, "line", class_="way", x1=x, y1=y, x2=to_x, y2=to_y)
        if flight.heard is not None:
            add(group, "path", class_="tip", d=tip(x, y, to_x, to_y))
        ends = (x, y), (to_x, to_y)
        self.draw_letters(group, flight, ends, WAYS[flight.side] * math.degrees(math.atan2(to_y - y, abs(to_x - x))))

    def draw_letters(self, group, flight, ends, angle):
        """A word's letters along its line, where they lie over nothing else; of a mark that alone is new only the mark's."""
        (x, y), (to_x, to_y) = ends
        mark = MARK_LETTERS[flight.word.mark]
        letters = mark if flight.is_mark else flight.word.letters() + (f"/{mark}" if self.scale.pitch > 110 else "")
        is_heard = flight.heard is not None
        # what isn't heard has its letters below the line, since what asks for it stands above
        choice = [(share, lift) for lift in (LIFTS if is_heard else LOW) for share in (LETTERS if is_heard else STOPPED)]
        middles = [(x + share * (to_x - x), y + share * (to_y - y)) for share, _ in choice]
        number = self.labels.choose([turned_box(letters, middle, lift, angle) for middle, (_, lift) in zip(middles, choice)])
        (x, y), lift = middles[number], choice[number][1]
        add(group, "text", letters, class_="letters", x=x, y=y, dy=f"{lift:g}", text_anchor="middle", transform=f"rotate({angle:.1f} {x:.1f} {y:.1f})")

    def flight_words(self, flight):
        sender, there = self.plan.node_name(flight.at), self.plan.node_name(self.plan.neighbour(flight.at, flight.side))
        sent = f"round {flight.round}: node {sender} sends {flight.side} {flight.word.hexadecimal()}: {flight.word.words()}"
        if flight.heard is None:
            return f"{sent}; node {there} doesn't hear it as it is"
        return f"{sent}; node {there} hears it in round {flight.heard}"

    # Causes and effects

    def draw_asks(self, at):
        """What a side asks for by itself, where that changes."""
        for side in SIDES:
            for now, code, before in asks_of(self.stretch, at, side):
                self.draw_ask(at, side, now, (code, before))

    def ask_box(self, at, side, now, code):
        """Where what a side asks for stands."""
        is_beside_tick = any((tick.at, tick.side, tick.round) == (at, side, now) for tick in self.ticks)
        way, y = WAYS[side], self.scale.y(now) - (LIFT if is_beside_tick else 0)
        x = self.scale.x(self.scale.column(at, side)) + way * (BAR / 2 + 2)
        ends = sorted((x, x + way * (6 * len(code) + 6)))
        return Box(ends[0], y - 12, ends[1], y - 1)

    def draw_ask(self, at, side, now, asked):
        (code, before), box = asked, self.ask_box(at, side, now, asked[0])
        group = add(self.root, "g", class_="ask mark")
        add(group, "title", f"round {now}: the {side} side asks for {code.upper()} by itself, in place of {before.upper()}")
        add(group, "rect", x=box.left, y=box.top, width=box.right - box.left, height=11, rx=2)
        add(group, "text", code.upper(), x=(box.left + box.right) / 2, y=box.bottom - 2.5, text_anchor="middle")

    def tick_place(self, tick):
        """The middle of a port's sign."""
        way = WAYS[tick.side]
        return self.scale.x(self.scale.column(tick.at, tick.side)) + way * (BAR / 2 + 9), self.scale.y(tick.round)

    def draw_tick(self, tick):
        way, (x, y) = WAYS[tick.side], self.tick_place(tick)
        group = add(self.root, "g", class_=f"tick {tick.kind} mark")
        add(group, "title", f"round {tick.round}: {WORDS[tick.kind]}: port {', '.join(tick.ports)}")
        add(group, "line", x1=x - way * (BAR + 9), x2=x - way * 3, y1=y, y2=y)
        add(group, "path", d=sign(tick.kind, x, y))
        label = shortened([tick.label(), f"{len(tick.ports)} ports" if tick.ports[1:] else tick.ports[0]], self.scale.pitch - BAR - 24)
        boxes = [line_box(label, x + way * 6, y + lift, way) for lift in TICK_LIFTS]
        lift = TICK_LIFTS[self.labels.choose(boxes)]
        add(group, "text", label, x=x + way * 6, y=y + lift, text_anchor="start" if way > 0 else "end")


def shortened(choice, room):
    """Returns the first of these words that has room, or the last one with less of its name, and the port's end."""
    words = next((words for words in choice if width_of(words) <= room), choice[-1])
    name, _, end = words.rpartition(" ")
    most = int(room // width_of("x")) - len(end) - 2
    return words if width_of(words) <= room else f"{name[:most]}… {end}"


def merged(history, ends):
    """Stretches of one state and far end: the rounds from which and up to which, and what holds at first."""
    found = []
    for (begun, signals), end in zip(history, ends):
        if found and (found[-1][2].state, found[-1][2].far) == (signals.state, signals.far):
            found[-1] = found[-1][0], end, found[-1][2]
        else:
            found.append((begun, end, signals))
    return found


def bar_words(signals):
    """What may stand in a bar, the longest first."""
    if not signals.state.startswith("switch"):
        return [signals.state]
    side = signals.state.removeprefix("switch-")
    return [f"switch {side}, far {signals.far}", f"{side}, {signals.far}"] if signals.far is not None else [f"switch {side}", side]


def fitting(choice, room):
    return next((words for words in choice if 5.6 * len(words) + 4 <= room), "")


def asks_of(stretch, at, side):
    """Each change of what a side asks for by itself: the round, the code, and the one before."""
    before = stretch.begin[at].asks[side] if stretch.begin else "nr"
    for now, signals in stretch.history(at):
        if signals.asks[side] != before:
            yield now, signals.asks[side], before
        before = signals.asks[side]


def tip(x, y, to_x, to_y):
    """The tip of an arrow at the end of a line."""
    length = math.hypot(to_x - x, to_y - y)
    dx, dy = (to_x - x) / length, (to_y - y) / length
    back = to_x - 7 * dx, to_y - 7 * dy
    wings = [(back[0] + 3 * turn * dy, back[1] - 3 * turn * dx) for turn in (1, -1)]
    return "M" + " L".join("{:.1f} {:.1f}".format(*point) for point in ((to_x, to_y), *wings)) + "Z"


def sign(kind, x, y):
    """A triangle down where bytes are lost, one up where they come, and a square on its corner for a jump."""
    points = {LOSES: ((-4, -4), (4, -4), (0, 4)), GETS: ((-4, 4), (4, 4), (0, -4)), JUMPS: ((-4, 0), (0, -4), (4, 0), (0, 4))}[kind]
    return "M" + " L".join(f"{x + dx:.1f} {y + dy:.1f}" for dx, dy in points) + "Z"
