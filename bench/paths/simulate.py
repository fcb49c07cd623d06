"""A plain simulation of a path ring: words and payloads slot by slot, without frames, and without any code of the crates.

Pointers and customers are those of the simulation of shared rings beside this one."""
import sys
from pathlib import Path

sys.path.append(str(Path(__file__).resolve().parents[1] / "outage"))

from customers import CHUNK, Stream
from pointers import NEW_INTERPRETER, ONES, generate, interpret


class Ring:
    """A ring of n nodes. `circuits` are (name, from, to, slot, port a, port b), with positions."""

    def __init__(self, n, circuits):
        self.n, self.circuits, self.t = n, circuits, 0
        self.cut = set()  # fibres by the position that they leave and the side, 0 west and 1 east
        keys = [(p, d, c) for p in range(n) for d in (0, 1) for c in range(len(circuits))]
        self.interpreters = dict.fromkeys(keys, NEW_INTERPRETER)
        self.generators = dict.fromkeys(keys)
        self.carried = {}
        self.delivered = {}

    def source(self, p, d):
        """The fibre that ends at position p on side d."""
        return ((p - 1) % self.n, 1) if d == 0 else ((p + 1) % self.n, 0)

    def receive(self):
        """What comes in: for each place an action, a value and a payload."""
        came = {}
        for key, kept in self.interpreters.items():
            p, d, c = key
            if self.t == 0:
                came[key] = ("ais", 0, None)
                continue
            fibre = self.source(p, d)
            word, payload = (ONES, None) if fibre in self.cut else self.carried[fibre + (c,)]
            self.interpreters[key], action = interpret(kept, word)
            came[key] = (action, self.interpreters[key][1], payload)
        return came

    def ends(self, c):
        return (self.circuits[c][1], self.circuits[c][2])

    def send(self, came):
        self.carried = {}
        for key, kept in self.generators.items():
            p, d, c = key
            if p in self.ends(c):
                end = self.ends(c).index(p)
                action, value, payload = "normal", self.circuits[c][4 + end][2], (c, end, self.t)
            else:
                action, value, payload = came[(p, 1 - d, c)]
            word, self.generators[key] = generate(kept, action, value)
            self.carried[key] = (word, None if word == ONES else payload)

    def deliver(self, came):
        for c in range(len(self.circuits)):
            for end, p in enumerate(self.ends(c)):
                main = 1 - end  # the arc comes in on the east of port a and on the west of port b
                ways = [came[(p, main, c)], came[(p, 1 - main, c)]]
                self.delivered[(c, end)] = next((way for way in ways if way[0] != "ais"), None)

    def states(self):
        return dict(self.interpreters), dict(self.generators)

    def round(self):
        """Runs a round, and answers whether it was calm."""
        before = self.states()
        came = self.receive()
        self.deliver(came)
        self.send(came)
        self.t += 1
        return self.t > 1 and before == self.states()

    def settle(self, limit):
        """Runs a settle step, and answers whether it ended with a quiet window."""
        calm = 0
        for _ in range(limit):
            calm = calm + 1 if self.round() else 0
            if calm >= 3 * self.n and (self.t - 1) % 128 == 0:
                return True
        return False

    def line(self, c, end):
        name = self.circuits[c][0]
        got = self.delivered[(c, end)]
        head = f"port {name} {'ab'[end]}"
        if got is None:
            return f"{head} ais\n"
        _, value, payload = got
        first = "ff" * 16
        if payload is not None:
            circuit, other, t = payload
            first = Stream(*self.circuits[circuit][4 + other]).bytes(CHUNK * t, 16).hex()
        return f"{head} norm {value} {first}\n"


def shared(circuits):
    """The first two circuits that share a slot, counted from 1: the second is the first that shares one with an earlier one."""
    for j, second in enumerate(circuits):
        for i, first in enumerate(circuits[:j]):
            if first[3] == second[3]:
                return i + 1, j + 1
    return None


def answer(nodes, limit, circuits, script):
    """Status and text of a plan that is accepted."""
    for k, step in enumerate(script, 1):
        if step.split()[0] not in ("cut", "mend", "degrade", "settle"):
            return 14, f"no such step {k}\n"
    if pair := shared(circuits):
        return 13, f"same slot {pair[0]} {pair[1]}\n"
    ring, text, number = Ring(len(nodes), circuits), "", 0
    for step in script:
        words = step.split()
        if words[0] == "settle":
            number += 1
            if not ring.settle(limit):
                return 7, f"{text}unsettled {number}\n"
            text += f"settle {number} round {ring.t - 1}\n"
            text += "".join(ring.line(c, end) for c in range(len(circuits)) for end in (0, 1))
            continue
        fibre = (nodes.index(int(words[1])), ("west", "east").index(words[2]))
        if words[0] == "cut":
            ring.cut.add(fibre)
        else:
            ring.cut.discard(fibre)
    return 0, text + "done\n"
