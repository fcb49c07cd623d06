"""What is to be seen of one settle step: the script's side of it, the program's text, and what changed since the step before."""

from dataclasses import dataclass

from .model import CLEAR, CUT, REQUEST_NAMES, arc, is_impaired, owed, route, span_requests
from .plan import SIDES
from .report import STATES


def condition_words(condition):
    return {CLEAR: "clear", CUT: "cut"}.get(condition) or f"degraded by {condition}"


@dataclass(frozen=True)
class Way:
    """How a circuit goes now; without hops its ends aren't joined."""

    hops: tuple | None
    length: int  # spans of its own arc
    is_asked_for: bool = False  # whether a span of its own arc is degraded or asked for

    @property
    def impaired(self) -> bool:
        """Whether it is kept on its own arc, though a span of that is degraded or asked for."""
        return self.is_asked_for and self.hops is not None and not self.over

    @property
    def over(self):
        return self.hops is not None and any(hop.protection for hop in self.hops)

    @property
    def more(self):
        """The number of spans more than its own arc, in words."""
        return len(self.hops) - self.length


def ends_words(plan, circuit):
    return f"{plan.node_name(circuit.start)} to {plan.node_name(circuit.end)}, slot {circuit.slot}"


def longer_words(more):
    return "as many as its own arc" if more == 0 else f"{abs(more)} {'more' if more > 0 else 'fewer'} than its own arc"


def judge_port(circuit, end, line, way, scene):
    """Whether a port delivers what it is owed: own, ais, or wrong."""
    if way.hops is None or line.ais:
        return "ais" if way.hops is None and line.ais else "wrong"
    slips = scene.slips[circuit.name, "b" if end == "a" else "a"]
    return "own" if (line.value, line.data) == owed(circuit, end, scene.round, len(way.hops), slips) else "wrong"


class Look:
    """One settle step. `settled` is what the text shows of it, `before` the look of the step before."""

    def __init__(self, plan, scene, settled, before=None):
        self.plan, self.scene, self.settled, self.before = plan, scene, settled, before
        self.ways = {}
        for circuit in plan.circuits:
            hops = route(plan, circuit, scene.applied)
            asked_for = is_impaired(plan, circuit, self.requests())
            self.ways[circuit.name] = Way(None if hops is None else tuple(hops), len(arc(plan, circuit)), asked_for)
        self.verdicts = {}
        for circuit in plan.circuits:
            for end in "ab":
                line = settled.ports.get((circuit.name, end))
                if line is not None:
                    self.verdicts[circuit.name, end] = judge_port(circuit, end, line, self.ways[circuit.name], scene)
        self.find_changes()

    def find_changes(self):
        old = self.before
        differ = (lambda now, then: {key for key in now if now[key] != then[key]}) if old else (lambda now, then: set())
        self.changed_fibres = differ(self.scene.conditions, old and old.scene.conditions)
        self.changed_commands = differ(self.scene.commands, old and old.scene.commands)
        self.changed_circuits = differ(self.fates(), old and old.fates())
        self.changed_nodes = differ(self.states(), old and old.states())
        self.changed_words = differ(self.words(), old and old.words())
        self.changed_requests = differ(dict(enumerate(self.requests())), old and dict(enumerate(old.requests())))
        self.changed_spans = self.changed_requests | (self.scene.applied ^ old.scene.applied if old else set())

    def fates(self):
        """What counts as a change of a circuit: the spans that it goes over, and whether it is impaired."""
        return {name: (way.hops, way.impaired) for name, way in self.ways.items()}

    def states(self):
        return {at: node.state for at, node in enumerate(self.settled.nodes)}

    def words(self):
        return {(at, side): getattr(node, side) for at, node in enumerate(self.settled.nodes) for side in SIDES}

    def title(self):
        at = "" if self.settled.round is None else f", round {self.settled.round}"
        return f"Settle step {self.scene.number}{at}"

    def state(self, at):
        return self.settled.nodes[at].state if self.settled.nodes else ""

    def port(self, name, end):
        return self.verdicts.get((name, end))

    def wrong_ports(self):
        return [place for place, verdict in self.verdicts.items() if verdict == "wrong"]

    def fibre_words(self, fibre):
        at, side = fibre
        there = self.plan.node_name(self.plan.neighbour(at, side))
        return f"fibre {self.plan.node_name(at)} → {there}: {condition_words(self.scene.conditions[fibre])}"

    def node_words(self, at):
        lines = [f"node {self.plan.node_name(at)}"]
        if self.settled.nodes:
            node = self.settled.nodes[at]
            lines[0] += f": {STATES[node.state]}"
            for side, word in (("west", node.west), ("east", node.east)):
                lines.append(f"sends {side} {word.hexadecimal()}: {word.words()}")
        for side in ("west", "east"):
            request = self.scene.requests[at, side]
            if request:
                lines.append(f"{side} side: {REQUEST_NAMES[request]}")
        return "\n".join(lines)

    def route_words(self, circuit):
        """As '1 → 2, back on protection 2 → 1 → 4 → 3'."""
        way = self.ways[circuit.name]
        if way.hops is None:
            return "not joined"
        parts, now = [], None
        for hop in way.hops:
            if hop.protection != now:
                parts.append(("protection " if hop.protection else "") + str(self.plan.ids[hop.start]))
                now = hop.protection
            parts[-1] += f" → {self.plan.ids[hop.end]}"
        return ", ".join(parts)

    def spans_words(self, circuit):
        way = self.ways[circuit.name]
        if way.hops is None:
            return "lost"
        count = f"{len(way.hops)} span" + ("s" if len(way.hops) > 1 else "")
        return f"{count} over protection, {longer_words(way.more)}" if way.over else f"{count}, impaired" if way.impaired else count

    def result(self, circuit):
        """What the text shows of a customer: odd, lost, over, impaired, kept, or untold."""
        verdicts = [self.port(circuit.name, end) for end in "ab"]
        if None in verdicts:
            return "untold"
        way = self.ways[circuit.name]
        joined = "over" if way.over else "impaired" if way.impaired else "kept"
        return "odd" if "wrong" in verdicts else "lost" if way.hops is None else joined

    def circuit_words(self, circuit):
        ends = ends_words(self.plan, circuit)
        return f"circuit {self.plan.circuit_name(circuit)}, {ends}: {self.route_words(circuit)}, {self.spans_words(circuit)}"

    def port_words(self, circuit, end):
        at = self.plan.node_name(circuit.start if end == "a" else circuit.end)
        verdict, line = self.port(circuit.name, end), self.settled.ports.get((circuit.name, end))
        if verdict is None:
            return f"port {circuit.name} {end} at node {at}: not told by this text"
        what = "AIS" if line.ais else f"value {line.value}, {line.data.hex()}"
        words = {"own": "its own customer's bytes", "ais": "AIS, as it is owed", "wrong": "NOT what it is owed"}[verdict]
        out = self.settled.outages
        outage = f"; out in this step: {out.ports[circuit.name, end].words()}" if out else ""
        return f"port {circuit.name} {end} at node {at}: {words} ({what}){outage}"

    def span_words(self, span):
        return REQUEST_NAMES[self.requests()[span]] + (", applied" if span in self.scene.applied else "")

    def requests(self):
        return span_requests(self.plan.size, self.scene.requests)

    def customer_changes(self):
        """Which customers go another way than in the step before, in words."""
        found = [circuit for circuit in self.plan.circuits if circuit.name in self.changed_circuits]
        return [f"circuit {circuit.name}: {self.spans_words(circuit)} (was: {self.before.spans_words(circuit)})" for circuit in found]

    def ring_changes(self):
        """What else changed since the step before, by kind and in words."""
        if self.before is None:
            return {}
        return {"fibre": self.fibre_changes(), "command": self.command_changes(), "span": self.span_changes(), "node": self.node_changes()}

    def fibre_changes(self):
        was = self.before.scene.conditions
        return [self.fibre_words(fibre) + f" (was {condition_words(was[fibre])})" for fibre in sorted(self.changed_fibres)]

    def command_changes(self):
        now, was = self.scene.commands, self.before.scene.commands
        shown = lambda at, side: f"command {now[at, side] or 'none'} (was {was[at, side] or 'none'})"
        return [f"node {self.plan.node_name(at)}, {side} side: {shown(at, side)}" for at, side in sorted(self.changed_commands)]

    def span_changes(self):
        shown = lambda span: f"{self.span_words(span)} (was {self.before.span_words(span)})"
        return [f"span {self.plan.span_title(span)}: {shown(span)}" for span in sorted(self.changed_spans)]

    def node_changes(self):
        shown = lambda at: f"{STATES[self.state(at)]} (was: {STATES[self.before.state(at)]})"
        return [f"node {self.plan.node_name(at)}: {shown(at)}" for at in sorted(self.changed_nodes)]


def looks(plan, scenes, settled):
    result = []
    for scene, step in zip(scenes, settled):
        result.append(Look(plan, scene, step, result[-1] if result else None))
    return result
