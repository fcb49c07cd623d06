#!/usr/bin/env python3
"""A plain model of what sdhwhatif writes: the rules once more, written from their words in docs/WHATIF.md and docs/RING.md."""

import sys
from pathlib import Path

sys.path.insert(0, str(Path(__file__).resolve().parents[2] / "tools"))
from ringtools.benching import good_plan, refuse
from ringtools.starting import start

import itertools
import json
from dataclasses import dataclass, field

FORCED, FAIL, DEGRADE, MANUAL, WAIT = 13, 11, 8, 6, 5
SIDES = "west", "east"
DEPTHS = {"single": 1, "double": 2, "triple": 3}
KINDS = "degraded", "fibres", "spans", "nodes", "manual", "forced"
OWN = "own"  # failures of the ring that come together, as the words name them
MOST = 16  # of the user's own, and of names in one
COLUMNS = ["number", "failures", "steps", "applied", "kept", "impaired", "over", "lost", "hops"]


@dataclass(frozen=True)
class Ring:
    """What a plan says; `nodes` are the identifiers, and a circuit is its name, the position that it starts at and the one it ends at."""

    nodes: list
    threshold: int
    wait: int
    circuits: list
    script: list  # of steps, each as its words

    def beside(self, at, side):
        return (at + (1 if side == "east" else -1)) % len(self.nodes)

    def far_end(self, at, side):
        """The side at which the fibre that leaves a node comes in."""
        return self.beside(at, side), "west" if side == "east" else "east"


@dataclass
class Side:
    """One side of a node: the fibre that comes in, the command, the defect at the last settle step, and when the last one ended."""

    condition: int = 0  # violations of a frame; None where the fibre is cut
    command: str = "clear"
    moment: int = 0
    defect: int = 0
    ended: int = None

    def settle(self, threshold):
        now = FAIL if self.condition is None else DEGRADE if self.condition >= threshold else 0
        if self.defect and not now:
            self.ended = self.moment
        self.defect = now

    def asks(self, wait):
        codes = [self.defect, {"forced": FORCED, "manual": MANUAL, "clear": 0}[self.command]]
        if not self.defect and self.ended is not None and self.moment < self.ended + wait:
            codes.append(WAIT)
        return max(codes)


@dataclass
class State:
    ring: Ring
    sides: dict = field(default_factory=dict)

    def after(self, steps):
        """The ring after these steps too; this one stays as it is."""
        made = State(self.ring, {place: Side(**vars(side)) for place, side in self.sides.items()})
        for step in steps:
            made.take(step.split())
        return made

    def take(self, words):
        verb, ring = words[0], self.ring
        if verb == "settle":
            for side in self.sides.values():
                side.settle(ring.threshold)
        elif verb == "moment":
            for side in self.sides.values():
                side.moment = int(words[1])
        elif verb in ("cut", "mend", "degrade"):
            side = self.sides[ring.far_end(ring.nodes.index(int(words[1])), words[2])]
            side.condition = None if verb == "cut" else 0 if verb == "mend" else int(words[3])
        elif verb in ("forced", "manual", "clear"):
            self.sides[ring.nodes.index(int(words[1])), words[2]].command = verb

    def asked(self):
        """What is asked for on each span, by its two sides."""
        n = len(self.ring.nodes)
        return [max(self.sides[s, "east"].asks(self.ring.wait), self.sides[(s + 1) % n, "west"].asks(self.ring.wait)) for s in range(n)]

    def applied(self):
        """The spans that traffic goes round."""
        asked = self.asked()
        top = max(asked)
        if top >= FAIL:
            return {s for s in range(len(asked)) if asked[s] >= FAIL}
        return {asked.index(top)} if top and asked.count(top) == 1 else set()

    def troubled(self):
        """The spans that are degraded or asked for by a command, and not applied."""
        return {s for s, code in enumerate(self.asked()) if code >= MANUAL} - self.applied()


def fresh(ring):
    return State(ring, {(at, side): Side() for at in range(len(ring.nodes)) for side in SIDES})


@dataclass(frozen=True)
class Failure:
    """A kind of its own, its name, its steps, and the step of the script that it would take the place of."""

    kind: str
    name: str
    steps: list
    taken: tuple = None


def span_name(ring, s):
    return f"{ring.nodes[s]}-{ring.nodes[ring.beside(s, 'east')]}"


def failures(ring):
    """All of them in their order."""
    places = [(at, side) for at in range(len(ring.nodes)) for side in SIDES]
    step = lambda verb, at, side, more="": f"{verb} {ring.nodes[at]} {side}{more}"
    both = lambda s: [step("cut", s, "east"), step("cut", ring.beside(s, "east"), "west")]
    to = lambda at, side: f"{ring.nodes[at]}>{ring.nodes[ring.beside(at, side)]}"
    made = [Failure("degraded", f"degraded {to(*place)}", [step("degrade", *place, f" {ring.threshold}")], ("cut", place)) for place in places]
    made += [Failure("fibres", f"fibre {to(*place)}", [step("cut", *place)]) for place in places]
    made += [Failure("spans", f"span {span_name(ring, s)}", both(s)) for s in range(len(ring.nodes))]
    made += [Failure("nodes", f"node {ring.nodes[at]}", both(at) + both(ring.beside(at, "west"))) for at in range(len(ring.nodes))]
    made += [Failure("manual", f"manual {to(*place)}", [step("manual", *place)], ("forced", place)) for place in places]
    return made + [Failure("forced", f"forced {to(*place)}", [step("forced", *place)]) for place in places]


def own_failures(ring, texts):
    """The user's own, each some failures of the ring that come together; None in place of one with a name that the ring hasn't."""
    there, made = {}, []
    for failure in failures(ring):
        there.setdefault(failure.name, failure)  # in a ring of two nodes two fibres have one name, and the first is meant
    for number, text in enumerate(texts, 1):
        found = [there.get(name.removeprefix(" ")) for name in text.split(";")]
        steps = None if None in found or len(found) > MOST or number > MOST else [step for failure in found for step in failure.steps]
        made.append(steps and Failure(OWN, f"own {number}", steps))
    return made


SEVERITY = {"degrade": 0, "cut": 1, "manual": 1, "forced": 2}


def worst_last(steps):
    """The steps of a case in an order in which no worse one is followed by a lesser one, which would take its place."""
    return sorted(steps, key=lambda step: SEVERITY[step.split()[0]])


def mends(state, taken):
    if taken is None:
        return False
    what, place = taken
    return state.sides[state.ring.far_end(*place)].condition is None if what == "cut" else state.sides[place].command == "forced"


def way(n, circuit, applied):
    """How many steps lead from one end to the other, and whether over the circuit's own arc; None where its ends aren't joined."""
    _, start, end = circuit
    arc = [(start + i) % n for i in range((end - start) % n)]
    if not applied & set(arc):
        return len(arc), True
    if applied - set(arc):
        return None
    steps, at = 0, start
    while at not in applied:  # eastwards, to the first applied span
        steps, at = steps + 1, (at + 1) % n
    beyond = (arc[max(arc.index(span) for span in applied)] + 1) % n
    while at != beyond:  # back, the whole other way round, to the far side of the last one
        steps, at = steps + 1, (at - 1) % n
    while at != end:
        steps, at = steps + 1, (at + 1) % n
    return steps, False


def fates(state):
    """What becomes of each circuit: kept, impaired, the spans that it goes over, or lost; and the longest way."""
    n, applied, troubled = len(state.ring.nodes), state.applied(), state.troubled()
    found, longest = {}, 0
    for name, start, end in state.ring.circuits:
        how = way(n, (name, start, end), applied)
        longest = max(longest, how[0] if how else 0)
        own = {(start + i) % n for i in range((end - start) % n)}
        found[name] = "lost" if how is None else how[0] if not how[1] else "impaired" if own & troubled else "kept"
    return found, longest


@dataclass(frozen=True)
class Asked:
    """What the words ask for."""

    depth: int
    kinds: tuple = ()
    form: str = "table"  # head, json or summary
    part: int = 1
    parts: int = 1
    own: tuple = ()  # a text for each failure of the user's own

    def takes(self, failure):
        return failure.kind in self.kinds or not self.kinds and not self.own


def taken(ring, asked):
    """The failures that are taken, in their order: the ring's, and then the user's own."""
    return [failure for failure in failures(ring) if asked.takes(failure)] + own_failures(ring, asked.own)


def cases(ring, state, asked):
    """The failures of each case, in the order of the table."""
    there = [failure for failure in taken(ring, asked) if not mends(state, failure.taken)]
    return [list(some) for count in range(asked.depth + 1) for some in itertools.combinations(there, count)]


def counts(found):
    values = list(found.values())
    return [values.count("kept"), values.count("impaired"), sum(isinstance(value, int) for value in values), values.count("lost")]


def record(state, number, case, form):
    """A case's line."""
    steps = [*worst_last(itertools.chain.from_iterable(failure.steps for failure in case)), "settle"]
    after = state.after(steps)
    found, hops = fates(after)
    applied = [span_name(state.ring, s) for s in sorted(after.applied())]
    names = [failure.name for failure in case]
    if form == "json":
        told = dict(zip(COLUMNS, [number, names, steps, applied, *counts(found), hops]))
        return json.dumps({**told, "circuits": found}, separators=(",", ":")) + "\n"
    body = ", ".join(f'""{step}""' for step in steps)
    short = {"kept": "", "impaired": "i", "lost": "x"}
    cells = [number, " + ".join(names), f'"{body}"', " ".join(applied), *counts(found), hops, *(short.get(fate, fate) for fate in found.values())]
    return ",".join(map(str, cells)) + "\r\n"


def summary(ring, state, asked):
    """What each failure alone takes, kind by kind."""
    text = "kind,cases,losing,most\r\n"
    there = [failure for failure in taken(ring, asked) if not mends(state, failure.taken)]
    named = [*asked.kinds, *[OWN][: len(asked.own)]] or KINDS
    for kind in [kind for kind in (*KINDS, OWN) if kind in named]:
        made = [failure for failure in there if failure.kind == kind]
        lost = [counts(fates(state.after([*worst_last(failure.steps), "settle"]))[0])[3] for failure in made]
        text += f"{kind},{len(lost)},{sum(k > 0 for k in lost)},{max(lost, default=0)}\r\n"
    return text


def table(ring, asked):
    """All that is written for a ring with its script."""
    own = own_failures(ring, asked.own)
    if None in own:
        return f"bad plan 24 at {own.index(None) + 1}\n"
    state = fresh(ring).after(ring.script)
    if asked.form == "summary":
        return summary(ring, state, asked)
    told = [(number, case) for number, case in enumerate(cases(ring, state, asked)) if number % asked.parts == asked.part - 1]
    head = ",".join([*COLUMNS, *(name for name, *_ in ring.circuits)]) + "\r\n" if asked.form == "head" else ""
    return head + "".join(record(state, number, case, asked.form) for number, case in told)


def asked_of(words):
    """What words ask for; they have one of the forms that there are."""
    first, *rest = words
    found = {"depth": DEPTHS[first], "kinds": (), "own": ()}
    while rest:
        word = rest.pop(0)
        if word in KINDS:
            found["kinds"] += (word,)
        elif word == OWN:
            found["own"] += (rest.pop(0),)
        elif word == "part":
            found["part"], found["parts"] = int(rest.pop(0)), int(rest.pop(0))
        else:
            found["form"] = word
    return Asked(**found)


def ring_of(document):
    """The ring of a plan's document, as tomllib reads it."""
    nodes = document["nodes"]
    circuits = [(c["name"], nodes.index(c["from"]), nodes.index(c["to"])) for c in document.get("circuit", [])]
    return Ring(nodes, document["threshold"], document["wait"], circuits, document["script"])


def main(words):
    """What `sdhwhatif WORD.. < PLAN` has to write."""
    sys.stdout.reconfigure(newline="")
    if words[:1] not in [[depth] for depth in DEPTHS]:
        refuse(main.__doc__, words)
    sys.stdout.write(table(ring_of(good_plan(sys.stdin.buffer.read())), asked_of(words)))


if __name__ == "__main__":
    start(main)
