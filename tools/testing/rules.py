"""The restoration model once more, straight from its definitions and apart from the tools' own code.

A plan is its TOML data as it stands. What holds in a round is looked up in the script's whole history, round by round.
"""

from functools import cache, reduce
from operator import xor

CHUNK = 2349


class Rules:
    def __init__(self, data, rounds):
        """`rounds` gives the last round of each settle step."""
        self.data, self.rounds = data, rounds
        self.nodes = data["nodes"]
        self.n = len(self.nodes)
        self.circuits = data.get("circuit", [])
        self.settle_of, self.steps_in = cache(self.settle_of), cache(self.steps_in)
        self.cond_in, self.now_in = cache(self.cond_in), cache(self.now_in)
        self.defect, self.local, self.applied = cache(self.defect), cache(self.local), cache(self.applied)

    def settle_of(self, t):
        """The settle step that round t belongs to, counted from 0."""
        return sum(last < t for last in self.rounds)

    def steps_in(self, settle):
        """The script's steps that were done before this settle step."""
        steps, passed = [], 0
        for step in self.data["script"]:
            if step == "settle" and passed == settle:
                break
            passed += step == "settle"
            steps += [step.split(" ")] if step != "settle" else []
        return steps

    def steps_before(self, t):
        return self.steps_in(self.settle_of(t))

    def cond(self, at, side, t):
        return self.cond_in(at, side, self.settle_of(t))

    def cond_in(self, at, side, settle):
        """The condition of the fibre that leaves this side: clear, cut or a number."""
        now = "clear"
        for word, *rest in self.steps_in(settle):
            if word in ("cut", "mend", "degrade") and rest[:2] == [str(self.nodes[at]), side]:
                now = {"cut": "cut", "mend": "clear"}.get(word) or int(rest[2])
        return now

    def now(self, t):
        return self.now_in(self.settle_of(t))

    def now_in(self, settle):
        return max([0] + [int(rest[0]) for word, *rest in self.steps_in(settle) if word == "moment"])

    def order(self, p, d, t):
        now = "clear"
        for word, *rest in self.steps_before(t):
            if word in ("forced", "manual", "clear") and rest == [str(self.nodes[p]), d]:
                now = word
        return now

    def defect(self, p, d, t):
        fibre = ((p + 1) % self.n, "west") if d == "east" else ((p - 1) % self.n, "east")
        if t >= 1 and self.cond(*fibre, t) == "cut":
            return "SF"
        if t >= 2 and self.cond(*fibre, t) != "cut":
            then = self.cond(*fibre, t - 1)
            if isinstance(then, int) and then >= self.data["threshold"]:
                return "SD"
        return None

    def waits(self, p, d, t):
        if self.defect(p, d, t):
            return False
        ended = [u for u in range(1, t + 1) if self.defect(p, d, u - 1) and not self.defect(p, d, u)]
        return bool(ended) and self.now(t) < self.now(ended[-1]) + self.data["wait"]

    def local(self, p, d, t):
        codes = [0]
        codes += [13] if self.order(p, d, t) == "forced" else []
        codes += [6] if self.order(p, d, t) == "manual" else []
        codes += {"SF": [11], "SD": [8], None: []}[self.defect(p, d, t)]
        codes += [5] if self.waits(p, d, t) else []
        return max(codes)

    def requests(self, t):
        return [max(self.local(s, "east", t), self.local((s + 1) % self.n, "west", t)) for s in range(self.n)]

    def applied(self, t):
        request = self.requests(t)
        if any(r >= 11 for r in request):
            return {s for s in range(self.n) if request[s] >= 11}
        top = [s for s in range(self.n) if request[s] == max(request)]
        return set(top) if max(request) > 0 and len(top) == 1 else set()

    def arc(self, circuit):
        here, there = self.nodes.index(circuit["from"]), self.nodes.index(circuit["to"])
        spans = []
        while here != there:
            spans.append(here)
            here = (here + 1) % self.n
        return spans

    def joined(self, circuit, applied):
        arc = self.arc(circuit)
        return not any(s in applied for s in arc) or not any(s in applied for s in range(self.n) if s not in arc)

    def hops(self, circuit, applied):
        arc = self.arc(circuit)
        hit = [i for i, s in enumerate(arc) if s in applied]
        return 2 * hit[0] + self.n + len(arc) - 2 * (hit[-1] + 1) if hit else len(arc)

    def state(self, p, t):
        applied = self.applied(t)
        west, east = (p - 1) % self.n in applied, p in applied
        if west or east:
            return "isolated" if west and east else "switch-east" if east else "switch-west"
        if applied:
            return "pass"
        request = [max(self.local(s, "east", t), self.local((s + 1) % self.n, "west", t)) for s in range(self.n)]
        top = max(request)
        return "pass" if top > 0 and request[p] < top and request[p - 1] < top else "idle"


def bip8(vc):
    """Exclusive or of all bytes: of the nine rows first, since that is quick."""
    rows = reduce(xor, (int.from_bytes(vc[261 * r : 261 * r + 261], "big") for r in range(9)))
    return reduce(xor, rows.to_bytes(261, "big"))


class Stream:
    """A customer's stream; for its parities VC-4 after VC-4 is made, as a whole list of bytes."""

    def __init__(self, text, trace, offset):
        self.text, self.trace, self.offset = text.encode(), trace.encode().ljust(64), offset
        self.vcs = []

    def vc(self, v):
        while len(self.vcs) <= v:
            number = len(self.vcs)
            b3 = bip8(self.vcs[-1]) if self.vcs else 0
            first = [self.trace[number % 64], b3, 1, 0, 0, 0, 0, 0, 0]
            begin = 2340 * number % len(self.text)
            rest = (self.text * (2340 // len(self.text) + 2))[begin : begin + 2340]
            self.vcs.append(b"".join(bytes([first[r]]) + rest[260 * r : 260 * r + 260] for r in range(9)))
        return self.vcs[v]

    def byte(self, p):
        q = p + (CHUNK - (783 + 3 * self.offset) % CHUNK) % CHUNK
        v, (row, column) = q // CHUNK, divmod(q % CHUNK, 261)
        if column > 0:
            return self.text[(2340 * v + 260 * row + column - 1) % len(self.text)]
        if row == 1:
            return self.vc(v)[261]
        return self.trace[v % 64] if row == 0 else int(row == 2)

    def bytes(self, p, count):
        return bytes(self.byte(p + i) for i in range(count))
