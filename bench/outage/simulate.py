#!/usr/bin/env python3
"""A plain simulation of the shared ring, and what `sdhoutage` must write of it. It shares no rule with the crates or the tools.

  bench/outage/simulate.py run < PLAN              what `sdhoutage run` must write
  bench/outage/simulate.py trace NAME END < PLAN   what `sdhoutage trace NAME END` must write
  bench/outage/simulate.py tags < PLAN             what `run` must write for customers whose chunks are all unlike, and sooner
  bench/outage/simulate.py report < PLAN           what `sdhring run` must write, to hold the simulation against its worked rows

Words, pointers and connections are run round by round, without frames: in place of its payload each AU-4 has a tag, which
customer's bytes it is, from which byte on, and how they were put in. `tags` gives the rounds' kinds by these alone. `run` and `trace`
make the bytes of them that a port delivers, and look for these in the customer's stream (looking.py): where the length of a text divides
2340, VC-4s look alike, and a jump may not be seen. The plan has to be a good one. Ends with the status."""

import sys
from pathlib import Path

sys.path.insert(0, str(Path(__file__).resolve().parents[2] / "tools"))
from ringtools.benching import good_plan, refuse
from ringtools.starting import start

from collections import Counter
from functools import lru_cache
from itertools import groupby

import signalling
from customers import CHUNK, LENGTHS, Clock, Stream
from pointers import NEW_INTERPRETER, generate, interpret

WEST, EAST = 0, 1
SIDES = "west", "east"
WINDOW = 128
AIS = ("ais", 0, None, None)  # an action, a value, a payload and the bytes H3
SILENCE = (0xFFFF, "ones", "ones")  # an AU-4 of ones
TOLD = 64  # the most changes that are written of a settle step


class Node:
    """What a node keeps from round to round."""

    def __init__(self, aus):
        self.commands, self.defects, self.ended = [None, None], [0, 0], [None, None]
        self.brought, self.held = [(None,) * 3, (None,) * 3], 0
        self.state, self.words = ("idle", None), None
        self.interpreters = {key: NEW_INTERPRETER for key in aus}
        self.generators = {key: None for key in aus}
        self.heard, self.local = (None, None), (0, 0)

    def looks(self):
        """All that has to stay the same in a calm round."""
        return self.words, self.heard, self.state, self.local, self.interpreters, self.generators


class Ring:
    """Positions are counted from 0; a fibre is named by the position and the side that it leaves."""

    def __init__(self, plan):
        self.plan, self.ids, self.n = plan, tuple(plan["nodes"]), len(plan["nodes"])
        self.circuits = plan.get("circuit", [])
        self.slots = sorted({circuit["slot"] for circuit in self.circuits})
        self.on_span = {}
        self.ends = []
        for number, circuit in enumerate(self.circuits):
            first, last = self.ids.index(circuit["from"]), self.ids.index(circuit["to"])
            self.ends.append((first, last))
            for i in range((last - first) % self.n):
                self.on_span[(first + i) % self.n, circuit["slot"]] = number
        aus = [(side, kind, slot) for side in (WEST, EAST) for kind in "wp" for slot in self.slots]
        self.nodes = [Node(aus) for _ in range(self.n)]
        for p, node in enumerate(self.nodes):
            node.words = tuple((signalling.NR, to, self.ids[p], signalling.SHORT, signalling.IDLE) for to in self.neighbours(p))
        self.conditions, self.before = {}, {}
        self.clocks = {(c, end): Clock(circuit.get(f"offset_{end}", 0)) for c, circuit in enumerate(self.circuits) for end in "ab"}
        self.carried, self.delivered = {}, {}
        self.t, self.moment = -1, 0
        self.origins = lru_cache(maxsize=None)(self.origins)

    def neighbours(self, p):
        return self.ids[p - 1], self.ids[(p + 1) % self.n]

    def span(self, p, d):
        return p if d == EAST else (p - 1) % self.n

    def fibre_into(self, p, d):
        return ((p + 1) % self.n, WEST) if d == EAST else ((p - 1) % self.n, EAST)

    def circuit_at(self, p, d, slot):
        return self.on_span.get((self.span(p, d), slot))

    # Steps of the script.

    def do(self, words):
        """Does one step that isn't `settle`."""
        if words[0] == "moment":
            self.moment = int(words[1])
        elif words[0] == "hold":
            self.nodes[self.ids.index(int(words[1]))].held = int(words[2])
        elif words[0] == "slip":
            names = [circuit["name"] for circuit in self.circuits]
            self.clocks[names.index(words[1]), words[2]].waiting[words[3]] += int(words[4])
        else:
            p, d = self.ids.index(int(words[1])), SIDES.index(words[2])
            if words[0] in ("cut", "mend", "degrade"):
                self.conditions[p, d] = {"cut": "cut", "mend": 0}.get(words[0]) or int((words + ["0"])[3])
            else:
                self.nodes[p].commands[d] = {"forced": signalling.FS, "manual": signalling.MS, "clear": None}[words[0]]

    # One round: what comes in, the state, the connections, what leaves.

    def round(self):
        """Runs a round, and returns whether it was calm."""
        self.t += 1
        before = [node.looks() for node in self.nodes]
        calm = self.t > 0
        came = []
        for p, node in enumerate(self.nodes):
            fails = self.sees(p, node)
            if node.held:
                node.held -= 1
                calm = False
            else:
                seen = self.ids[p], self.neighbours(p), node.local, fails, node.heard
                node.state, node.words = signalling.step(self.ids, *seen)
            came.append(self.taken(p, node, fails))
        sent = {port: clock.next() for port, clock in self.clocks.items()}
        self.deliver(came)
        self.carried = {}
        for p, node in enumerate(self.nodes):
            self.send(p, node, came[p], sent)
        self.before = dict(self.conditions)
        return calm and before == [node.looks() for node in self.nodes]

    def sees(self, p, node):
        """Defects, words and local requests; returns which sides fail."""
        fails, local, heard = [False, False], [0, 0], [None, None]
        for d in (WEST, EAST):
            fibre = self.fibre_into(p, d)
            now, then = self.conditions.get(fibre, 0), self.before.get(fibre, 0)
            fails[d] = self.t >= 1 and now == "cut"
            is_degraded = self.t >= 2 and "cut" not in (now, then) and then >= self.plan["threshold"]
            defect = signalling.SF if fails[d] else signalling.SD if is_degraded else 0
            if node.defects[d] and not defect:
                node.ended[d] = self.moment
            node.defects[d] = defect
            waits = not defect and node.ended[d] is not None and self.moment < node.ended[d] + self.plan["wait"]
            local[d] = max(node.commands[d] or 0, defect, signalling.WTR if waits else 0)
            brought = None if self.t == 0 or fails[d] else self.carried[fibre][0]
            node.brought[d] = *node.brought[d][1:], brought
            heard[d] = signalling.hears(node.brought[d])
        node.local, node.heard = tuple(local), tuple(heard)
        return tuple(fails)

    def taken(self, p, node, fails):
        """What each AU-4 that comes in is by its interpreter: an action, a value, a payload and the bytes H3."""
        if self.t == 0:
            return dict.fromkeys(node.interpreters, AIS)
        came, kept = {}, {}
        frames = [self.carried[self.fibre_into(p, d)][1] for d in (WEST, EAST)]
        for key in node.interpreters:
            word, payload, h3 = SILENCE if fails[key[0]] else frames[key[0]][key[1:]]
            kept[key], action = interpret(node.interpreters[key], word)
            came[key] = AIS if action == "ais" else (action, kept[key][1], payload, h3)
        node.interpreters = kept
        return came

    def may_carry(self, p, d, slot, far):
        """Whether the circuit on the span of a switched side has both its ends on the way from there to the far end."""
        circuit = self.circuit_at(p, d, slot)
        if circuit is None or far is None:
            return False
        first, last = (self.ids.index(far), p) if d == EAST else (p, self.ids.index(far))
        return all((end - first) % self.n <= (last - first) % self.n for end in self.ends[circuit])

    def stands_for(self, p, state, d, slot):
        """What the working arrival of a slot from a side stands for: the AU-4 that is taken, or None for AIS."""
        name, far = state
        if name == "isolated":
            return None
        if name == ("switch-west", "switch-east")[d]:
            return (1 - d, "p", slot) if self.may_carry(p, d, slot, far) else None
        return d, "w", slot

    def working(self, p, state, d, slot):
        """What leaves on a side in a working slot: an AU-4 that came in, a port as (circuit, end), or None for AIS."""
        circuit = self.circuit_at(p, d, slot)
        if state[0] == "isolated" or circuit is None:
            return None
        if p == self.ends[circuit][0 if d == EAST else 1]:
            return circuit, "a" if d == EAST else "b"
        return self.stands_for(p, state, 1 - d, slot)

    def protection(self, p, state, d, slot):
        e = 1 - d
        if state[0] == "pass":
            return e, "p", slot
        if state[0] == ("switch-west", "switch-east")[e] and self.may_carry(p, e, slot, state[1]):
            return self.working(p, state, e, slot)
        return None

    def origins(self, p, state):
        """For each AU-4 that leaves a node in this state, what it comes from."""
        made = {}
        for d in (WEST, EAST):
            for slot in self.slots:
                made[d, "w", slot] = self.working(p, state, d, slot)
                made[d, "p", slot] = self.protection(p, state, d, slot)
        return made

    def send(self, p, node, came, sent):
        kept, leaves = {}, ({}, {})
        for key, origin in self.origins(p, node.state).items():
            if origin is None:
                action, value, payload, h3 = AIS
            elif len(origin) == 2:
                position, action = sent[origin]
                value, payload, h3 = self.clocks[origin].value, (*origin, position, action), (*origin, position)
            else:
                action, value, payload, h3 = came[origin]
            word, kept[key] = generate(node.generators[key], action, value)
            is_down = action == "down" and not word >> 12 == 9
            leaves[key[0]][key[1:]] = SILENCE if word == 0xFFFF else (word, payload, h3 if is_down else "zeros")
        node.generators = kept
        for d in (WEST, EAST):
            self.carried[p, d] = node.words[d], leaves[d]

    def deliver(self, came):
        for c, ends in enumerate(self.ends):
            for end, p, d in (("a", ends[0], EAST), ("b", ends[1], WEST)):
                origin = self.stands_for(p, self.nodes[p].state, d, self.circuits[c]["slot"])
                self.delivered[c, end] = AIS if origin is None else came[p][origin]

    def settle(self, seen):
        """Runs rounds until a quiet window ends, `seen` after each; returns whether one did."""
        calm = 0
        for _ in range(self.plan["limit"]):
            calm = calm + 1 if self.round() else 0
            seen()
            if calm >= 3 * self.n and self.t % WINDOW == 0:
                return True
        return False


def bytes_of(delivered):
    """Whose bytes a port delivers: `ais`, `ones`, `strange`, or (circuit, end, first byte, number of bytes)."""
    action, _, payload, h3 = delivered
    if action == "ais":
        return "ais"
    if payload == "ones":
        return "ones" if action != "down" or h3 == "ones" else "strange"
    form = "normal" if action == "new" else action
    if payload[3] != form or form == "down" and h3 != payload[:3]:
        return "strange"
    return (*payload[:3], LENGTHS[form])


FRONT, BACK = 783, 1560  # the bytes before the place of a justification, and those behind all that one changes there
OUT = "ais", "ones", "strange", "foreign"  # kinds of rounds without own bytes
COUNTED = "ais", "ones", "jump", "torn", "strange", "foreign"
SWITCH = 400  # rounds, 50 ms


def pieces_of(delivered):
    """Whose bytes stand in an AU-4, and from which byte on before and behind the place of a justification, whatever else it holds."""
    *port, start, form = delivered[2]
    return tuple(port), start, start + LENGTHS[form] - BACK


class Outage:
    """What one port delivered in the rounds of a settle step; `follows` is the byte that would come next, if the round before brought own bytes.

    Own are bytes of the circuit's other port, from 71 chunks before that of the round to 6 after it. Foreign are as near ones of another circuit."""

    def __init__(self, line, other):
        self.line, self.other, self.follows = line, other, None
        self.begin()

    def begin(self):
        self.first, self.last, self.whose = "-", "-", None
        self.kinds = []

    def is_near(self, t, start, count):
        return CHUNK * (t - 71) <= start and start + count <= CHUNK * (t + 7)

    def kind(self, t, delivered):
        came, before, self.follows = bytes_of(delivered), self.follows, None
        if isinstance(came, tuple) and came[:2] == self.other and self.is_near(t, *came[2:]):
            self.follows = came[2] + came[3]
            return "order" if before in (None, came[2]) else "jump"
        return came if came in ("ais", "ones") else self.torn(t, delivered)

    def torn(self, t, delivered):
        """The kind of a round that brought neither AIS nor ones nor own bytes as one part."""
        if delivered[2] == "ones":
            return "strange"
        port, front, back = pieces_of(delivered)
        near = self.is_near(t, front, FRONT), self.is_near(t, back, BACK)
        if port == self.other and all(near):
            return "torn"
        return self.foreign(port) if port[0] != self.other[0] and any(near) else "strange"

    def foreign(self, port):
        self.whose = self.whose or port
        return "foreign"

    def see(self, t, delivered):
        kind = self.kind(t, delivered)
        self.kinds.append((t, kind))
        if kind != "order":
            self.first, self.last = t if self.first == "-" else self.first, t

    def counts(self):
        counted = Counter(kind for _, kind in self.kinds)
        return {kind: counted[kind] for kind in COUNTED}

    def out(self):
        return sum(self.counts()[kind] for kind in OUT)

    def runs(self):
        """How many rounds there are in each run of rounds without own bytes. One that goes on from the step before counts from the first round."""
        return [len([*run]) for is_out, run in groupby(kind in OUT for _, kind in self.kinds) if is_out]

    def longest(self):
        return max(self.runs(), default=0)

    def is_back(self):
        """Whether the step's last round brought own bytes."""
        return self.kinds[-1][1] not in OUT

    def changes(self):
        """The rounds of the step that were of another kind than the one before, with their kinds; its first round always."""
        before = [None, *(kind for _, kind in self.kinds)]
        return [(t, kind) for (t, kind), last in zip(self.kinds, before) if kind != last]

    def told(self, names):
        longest, whose = self.longest(), self.whose
        return (
            f"{self.line} out {self.out()} runs {len(self.runs())} longest {longest} ms {milliseconds(longest)} from {self.first} to {self.last} "
            + " ".join(f"{kind} {count}" for kind, count in self.counts().items())
            + f" of {f'{names[whose[0]]} {whose[1]}' if whose else '- -'}"
        )


def milliseconds(rounds):
    return f"{rounds * 125 // 1000}.{rounds * 125 % 1000:03}"


class Outages:
    """The text of `sdhoutage run`, by the tags."""

    def __init__(self, ring):
        self.ring, self.ports, self.names = ring, {}, [circuit["name"] for circuit in ring.circuits]
        made = self.made()
        for c, circuit in enumerate(ring.circuits):
            for end, other in ("ab", "ba"):
                self.ports[c, end] = made(f"port {circuit['name']} {end}", (c, other))

    def made(self):
        """What makes the outage of a port, of the front of its line and of the circuit's other port."""
        return Outage

    def begin(self):
        for port in self.ports.values():
            port.begin()

    def see(self):
        for key, port in self.ports.items():
            port.see(self.ring.t, self.ring.delivered[key])

    def lines(self):
        ports = self.ports.values()
        back = [port.longest() for port in ports if port.is_back()]
        longest, over, none = max(back, default=0), sum(run > SWITCH for run in back), sum(port.out() == 0 for port in ports)
        foreign = sum(port.whose is not None for port in ports)
        return [
            *(port.told(self.names) for port in ports),
            f"longest {longest} ms {milliseconds(longest)} over {over} none {none} still {len(ports) - len(back)}",
            *([f"foreign ports {foreign}"] if foreign else []),
        ]


class Traces:
    """The text of `sdhoutage trace` of one port, whose kinds of rounds a teller of outages has."""

    def __init__(self, outages, port):
        self.outages, self.port = outages, port
        self.begin, self.see = outages.begin, outages.see

    def lines(self):
        port = self.outages.ports[self.port]
        changes = [f"round {t} {'in-order' if kind == 'order' else kind}" for t, kind in port.changes()]
        return [*changes[:TOLD], *([f"more {len(changes) - TOLD}"] if len(changes) > TOLD else []), port.told(self.outages.names)]


def streams_of(circuits):
    """Text, trace and offset of each port, by circuit and end."""
    ports = [(c, circuit, end) for c, circuit in enumerate(circuits) for end in "ab"]
    traces = {(c, end): circuit.get(f"trace_{end}", circuit["name"]) for c, circuit, end in ports}
    return {(c, end): (circuit[f"text_{end}"].encode(), traces[c, end].encode(), circuit.get(f"offset_{end}", 0)) for c, circuit, end in ports}


class Reports:
    """The text of `sdhring run`."""

    def __init__(self, ring):
        self.ring = ring
        self.streams = {port: Stream(*given) for port, given in streams_of(ring.circuits).items()}

    def begin(self):
        pass

    def see(self):
        pass

    def port(self, key):
        came = bytes_of(self.ring.delivered[key])
        if came == "ais":
            return "ais"
        shown = self.streams[came[:2]].bytes(came[2], 16).hex() if isinstance(came, tuple) else {"ones": "ff" * 16}.get(came, "?")
        return f"norm {self.ring.delivered[key][1]} {shown}"

    def lines(self):
        made = []
        for identifier, node in zip(self.ring.ids, self.ring.nodes):
            west, east = map(signalling.written, node.words)
            made.append(f"node {identifier} {node.state[0]} west {west} east {east}")
        for c, circuit in enumerate(self.ring.circuits):
            made += [f"port {circuit['name']} {end} {self.port((c, end))}" for end in "ab"]
        return made


def run(plan, kind=Outages):
    """The status and the text."""
    ring = Ring(plan)
    teller, lines, settled = kind(ring), [], 0
    for step in plan["script"]:
        if step != "settle":
            ring.do(step.split(" "))
            continue
        settled += 1
        teller.begin()
        if not ring.settle(teller.see):
            return 7, "\n".join([*lines, f"unsettled {settled}", ""])
        lines += [f"settle {settled} round {ring.t}", *teller.lines()]
    return 0, "\n".join([*lines, "done", ""])


def trace(plan, name, end, kind=Outages):
    """The status and the text of one port, by this kind of outages."""
    names = [circuit["name"] for circuit in plan.get("circuit", [])]
    if name not in names:
        return 10, "no such port\n"
    return run(plan, lambda ring: Traces(kind(ring), (names.index(name), end)))


def main(words):
    from looking import Looks

    kinds = {"run": Looks, "tags": Outages, "report": Reports}
    if len(words) == 1 and words[0] in kinds:
        status, text = run(good_plan(sys.stdin.buffer.read()), kinds[words[0]])
    elif len(words) == 3 and words[0] == "trace" and words[2] in ("a", "b"):
        status, text = trace(good_plan(sys.stdin.buffer.read()), *words[1:], Looks)
    else:
        refuse(__doc__, words)
    sys.stdout.write(text)
    return status


if __name__ == "__main__":
    start(main)
