"""The suite: streams made by rules of their own, each with the reason why it is there, the same ones in every run."""

from __future__ import annotations

import random
from collections.abc import Callable, Iterator

from .arriving import Making, Plan, Stream, circuit
from .lanes import pointer_streams
from .terms import COLUMNS, EAST, FS, HEAD, LONG, MS, NR, ONES, RR, SD, SF, SHORT, SIDES, WEST, WTR

RINGS = (  # identifiers in ring order; none is its own position
    (7, 2),
    (4, 9, 1),
    (3, 1, 4, 2),
    (10, 15, 0, 6, 5),
    (8, 3, 11, 1, 14, 6, 0, 9),
    (5, 12, 0, 9, 3, 15, 7, 1, 14, 6, 2, 11, 8, 4, 13, 10),
)
RATES = 4, 16
REQUESTS = WTR, MS, SD, SF, FS
HEARD = 3  # rounds after which a word is heard
MADE = {  # K1 and K2 fields that no word has
    "code": (2, 3, 4, 7, 9, 10, 12, 14, 15),
    "mark": (3, 4, 5),
}


def around(plan: Plan, p: int, dice: random.Random) -> None:
    """Adds circuits in all slots: through the node, to it, from it, past it, and none, by chance."""
    n = len(plan.nodes)
    for slot in range(1, plan.rate // 2 + 1):
        cuts = sorted(dice.sample(range(n), dice.randint(2, min(n, 3))))
        if dice.randrange(3) == 0 and p not in cuts:
            cuts = sorted({*cuts[1:], p})
        for first, last in zip(cuts, cuts[1:] + cuts[:1]):
            if first != last and dice.randrange(6):
                circuit(plan, first, last, slot, offset_a=dice.randrange(783), offset_b=dice.choice((0, 522, 782)))


def plan_of(rate: int, nodes: tuple[int, ...], p: int, seed: str, **more) -> Plan:
    """Returns a plan with circuits around a position."""
    plan = Plan(rate, nodes, **more)
    around(plan, p, random.Random(seed))
    return plan


def some_word(making: Making, d: int) -> tuple:
    """Returns a word that may come on a side, mostly one that a ring has."""
    dice, others = making.dice, making.plan.nodes
    code, mark = dice.choice((NR, RR, *REQUESTS, *REQUESTS)), dice.choice((0, 0, 1, 2, 6))
    kind = dice.choice(("idle", "short", "short", "short", "about", "about", "long", "long", "relayed", "relayed", "own", "other", "foreign", "low", "stray"))
    if kind == "idle":
        return making.short(d, NR, mark)
    if kind == "short":
        return making.short(d, code, mark)
    if kind == "about":
        return making.long(d, max(code, WTR), None, mark)
    if kind == "long":
        return making.long(d, max(code, WTR), dice.choice(others), mark)
    if kind == "relayed":
        return max(code, WTR), dice.choice(others), dice.choice(others), LONG, mark
    if kind == "own":
        return max(code, WTR), dice.choice(others), making.me, LONG, mark
    if kind == "other":
        return code, dice.choice(others), dice.choice(others), SHORT, mark
    if kind == "foreign":
        return max(code, WTR), dice.choice((making.me, dice.randrange(16))), dice.randrange(16), LONG, mark
    return dice.choice((NR, RR)) if kind == "low" else code, dice.randrange(16), dice.randrange(16), LONG, mark


def situation(making: Making) -> None:
    """Changes commands, time and words by chance, and lets them be heard over sides that do or don't fail."""
    dice = making.dice
    for d in (WEST, EAST):
        if (kind := dice.choice(("", "", "", "clear", "manual", "forced"))) and dice.randrange(2):
            making.say(f"{kind} {SIDES[d]}")
    if dice.randrange(3) == 0:
        making.pass_time(dice.choice((1, making.plan.wait, making.plan.wait)))
    if dice.randrange(16) == 0:
        making.say(f"hold {dice.choice((1, 2, 4))}")
    making.words(some_word(making, WEST), some_word(making, EAST))
    kinds = [dice.choice(("frame",) * 9 + ("dark", "dark", "degraded", "degraded", "nearly", "unframed", "ms-ais")) for _ in SIDES]
    making.round(*kinds, count=dice.choice((HEARD, HEARD, HEARD, 4, 4, 2)))
    making.round()


def states() -> Iterator[Callable[[], Stream]]:
    """Every node of every ring at both rates, in situations by chance."""
    for nodes in RINGS:
        for p in range(len(nodes)):
            for rate, count in ((4, 6), (16, 2)):
                yield lambda nodes=nodes, p=p, rate=rate, count=count: state_stream(f"states-{len(nodes)}-{p}-{rate}", nodes, p, rate, count)
    for more in range(24):
        yield lambda more=more: state_stream(f"situations-{more}", RINGS[1 + more % 4], more % len(RINGS[1 + more % 4]), 4, 14)


def state_stream(name: str, nodes: tuple[int, ...], p: int, rate: int, count: int) -> Stream:
    why = f"node {nodes[p]} of a ring of {len(nodes)} at STM-{rate}: requests, failures and words in many combinations"
    making = Making(name, why, plan_of(rate, nodes, p, name), p)
    making.begin(2)
    for _ in range(count):
        situation(making)
    return making.stream


def requests() -> Iterator[Callable[[], Stream]]:
    """A side that asks for each request, while each word is heard from either side: what is sent, and whether it switches."""
    for d in (WEST, EAST):
        for own in ("none", "manual", "degraded", "dark", "forced", "waiting"):
            for heard in ("short", "about", "against", "relayed"):
                yield lambda d=d, own=own, heard=heard: request_stream(d, own, heard)


def request_stream(d: int, own: str, heard: str) -> Stream:
    nodes, p = (2, 6, 9, 13, 4), 2
    name = f"asks-{SIDES[d]}-{own}-{heard}"
    making = Making(name, f"the {SIDES[d]} side asks for {own}, and words of each code come: {heard}", plan_of(4, nodes, p, name), p)
    making.begin(3)
    kinds = ["frame", "frame"]
    if own in ("manual", "forced"):
        making.say(f"{own} {SIDES[d]}")
    elif own == "waiting":
        kinds[d] = "dark"
        making.round(*kinds)
        kinds[d] = "frame"
    elif own != "none":
        kinds[d] = own
    making.round(*kinds, count=2)
    for code in (NR, RR, *REQUESTS):
        for side in (WEST, EAST):
            words = [making.short(WEST, NR), making.short(EAST, NR)]
            words[side] = word_of(making, heard, side, code)
            making.words(*words)
            making.round(*kinds, count=HEARD)
    return making.stream


def word_of(making: Making, heard: str, side: int, code: int) -> tuple:
    """Returns a word of a code that comes on a side, by what it is to the node."""
    nodes, p = making.plan.nodes, making.p
    if heard == "short":
        return making.short(side, code)
    if heard == "about":
        return making.long(side, code)
    other = nodes[(p + 2) % len(nodes)]
    if heard == "against":
        return making.long(side, code, other)
    return code, other, nodes[(p + 3) % len(nodes)], LONG, 1


def relaying() -> Iterator[Callable[[], Stream]]:
    """Long words of two codes from both sides at once, with and without a request: pass, one way alone, and what leaves the other way."""
    for own in (0, WTR, MS, SD):
        yield lambda own=own: relaying_stream(own)


def relaying_stream(own: int) -> Stream:
    nodes, p = (2, 6, 9, 13, 4, 11), 1
    name = f"relays-{own}"
    making = Making(name, "long words of others from both sides, of every two codes, beside a request of the node's own or its neighbour's", plan_of(4, nodes, p, name), p)
    making.begin(3)
    for one in (0, *REQUESTS):
        for two in (0, *REQUESTS):
            west = (one, 13, 4, LONG, 1) if one else making.short(WEST, own)
            east = (two, 4, 13, LONG, 2) if two else making.short(EAST, own)
            making.words(west, east)
            making.round(count=HEARD)
    return making.stream


def filtering() -> Iterator[Callable[[], Stream]]:
    """Words that differ in one field for one or two rounds, and rounds without a word."""
    for number, code in enumerate(REQUESTS):
        yield lambda d=number % 2, code=code: filter_stream(d, code)


def filter_stream(d: int, code: int) -> Stream:
    nodes, p = (3, 1, 4, 2), 2
    name = f"filter-{SIDES[d]}-{code}"
    making = Making(name, "words that come once, twice, and with one field changed, on one side: a word counts once three rounds agree", plan_of(4, nodes, p, name), p)
    making.begin(4)
    short, long = making.short(d, code), making.long(d, code, 3)
    other = SF if code != SF else SD
    changes = [(other, *short[1:]), (code, 9, *short[2:]), (code, short[1], 9, *short[3:]), (*short[:3], LONG, 0), (*short[:4], 6), (*short[:4], 1)]
    changes += [(bad, *short[1:]) for bad in MADE["code"]] + [(*short[:4], bad) for bad in MADE["mark"]]
    for changed in changes:
        for word, count in ((short, 3), (changed, 1), (short, 2), (changed, 2), (short, 1)):
            set_word(making, d, word)
            making.round(count=count)
    for kind in ("none", "dark", "ms-ais", "unframed"):
        set_word(making, d, long)
        making.round(count=3)
        making.round(*(kind if side == d else "frame" for side in (WEST, EAST)))
        making.round(count=3)
    return making.stream


def set_word(making: Making, d: int, word: tuple) -> None:
    making.sides[d].word = word


def defects() -> Iterator[Callable[[], Stream]]:
    """Frames that are wrong in one place, and those that come after them."""
    for threshold in (1, 2, 3, 12):
        yield lambda threshold=threshold: degraded_stream(threshold, 4)
    yield lambda: degraded_stream(48, 16)
    yield lambda: degraded_stream(7, 4, is_close=True)
    for rate in RATES:
        yield lambda rate=rate: framing_stream(rate)
        yield lambda rate=rate: parity_stream(rate)
    yield forgotten_stream


def degraded_stream(threshold: int, rate: int, is_close: bool = False) -> Stream:
    nodes, p = (4, 9, 1), 1
    name, where = (f"threshold-{threshold}-close", "several in a byte") if is_close else (f"threshold-{threshold}-{rate}", "in all its bytes and bits")
    making = Making(name, f"violations of B2 around the threshold {threshold}, {where}", plan_of(rate, nodes, p, "degraded", threshold=threshold), p)
    making.begin(3)
    for wrong in (threshold - 1, threshold, threshold + 1, threshold, threshold - 1, 24 * rate, 0):
        for d in (WEST, EAST):
            broken = making.sides[d].frame(wrong=wrong, is_close=is_close)
            making.round(*(broken if side == d else "frame" for side in (WEST, EAST)))
            making.pass_time(4)
    making.round(count=3)
    return making.stream


def framing_stream(rate: int) -> Stream:
    """Each first and last byte of A1 and A2 with one wrong bit."""
    nodes, p = (3, 1, 4, 2), 1
    making = Making(f"framing-{rate}", "one wrong bit of A1 or A2: the frame isn't framed; J0, and B1 wrong: it is", plan_of(rate, nodes, p, "framing"), p)
    making.begin(3)
    places = [at for at in (0, 1, 3 * rate - 1, 3 * rate, 6 * rate - 1)]
    for number, at in enumerate([*places, 6 * rate, COLUMNS * rate]):
        d = number % 2
        broken = making.sides[d].frame(after=((at, 1 << number),))
        if at < 6 * rate:
            making.sides[d].is_new = True
        making.round(*(broken if side == d else "frame" for side in (WEST, EAST)))
        making.round(count=2)
        making.pass_time(20)
    return making.stream


def parity_stream(rate: int) -> Stream:
    """One bit that changes on the way, in every part of a frame: B2 of the next frame shows it, or doesn't."""
    nodes, p = (3, 1, 4, 2), 3
    why = "one bit inverted on the way in each part of a frame: B2 of the frame after it shows it, but for the first three rows of overhead"
    making = Making(f"parities-{rate}", why, plan_of(rate, nodes, p, "parity", threshold=1), p)
    making.begin(3)
    width, head = COLUMNS * rate, HEAD * rate
    places = [6 * rate, head - 1, head, width - 1, width, 2 * width - 1, 2 * width + head - 1, 2 * width + head, 3 * width + head, 4 * width + 8 * rate, 6 * width, 8 * width + 5, 9 * width - 1]
    for number, at in enumerate(places):
        d = number % 2
        broken = making.sides[d].frame(after=((at, 1 << number % 8),))
        making.round(*(broken if side == d else "frame" for side in (WEST, EAST)))
        making.round(count=2)
        making.pass_time(20)
    return making.stream


def forgotten_stream() -> Stream:
    """The parities of the frame before don't outlast what isn't a frame."""
    nodes, p = (3, 1, 4, 2), 0
    why = "a frame whose B2 is wrong, right after darkness, nothing, an unframed one and MS-AIS: the parities of the frame before are forgotten, or not"
    making = Making("forgotten", why, plan_of(4, nodes, p, "forgotten", wait=0), p)
    making.begin(3)
    for kind in ("dark", "unframed", "none", "ms-ais", "frame"):
        for d in (WEST, EAST):
            making.round(*(kind if side == d else "frame" for side in (WEST, EAST)))
            making.round(*("degraded" if side == d else "frame" for side in (WEST, EAST)))
            making.round()
    return making.stream


def waiting() -> Iterator[Callable[[], Stream]]:
    """Defects that end, and how long a side waits to restore."""
    for wait in (0, 1, 10):
        for kind in ("dark", "degraded", "ms-ais"):
            yield lambda wait=wait, kind=kind: waiting_stream(wait, kind)


def waiting_stream(wait: int, kind: str) -> Stream:
    nodes, p = (10, 15, 0, 6, 5), 3
    why = f"a side that was {kind} waits {wait} moments: to the moment before the end, at the end, anew after another defect, under commands"
    making = Making(f"waiting-{wait}-{kind}", why, plan_of(4, nodes, p, "waiting", wait=wait), p)
    making.begin(3)
    making.pass_time(7)
    for d in (WEST, EAST):
        kinds = [kind if side == d else "frame" for side in (WEST, EAST)]
        making.round(*kinds)
        making.round()
        for more in (max(0, wait - 1), 1, 1):
            making.pass_time(more)
            making.round()
        making.round(*kinds, count=2)
        making.pass_time(3)
        making.round()
        making.pass_time(max(0, wait - 1))
        making.round(*kinds)
        making.pass_time(1)
        making.round()
        for command in ("manual", "forced", "clear"):
            making.say(f"{command} {SIDES[d]}")
            making.round()
        making.pass_time(wait)
        making.round()
    return making.stream


def commands() -> Iterator[Callable[[], Stream]]:
    """Commands on each side: given, replaced, cleared, under and over defects."""
    for nodes in RINGS[:4]:
        yield lambda nodes=nodes: command_stream(nodes)


def command_stream(nodes: tuple[int, ...]) -> Stream:
    why = "forced and manual switches on each side: given, replaced, cleared, beside defects and beside each other"
    making = Making(f"commands-{len(nodes)}", why, plan_of(4, nodes, 1, "commands"), 1)
    making.begin(4)
    for words in ("manual west", "forced west", "manual west", "clear west", "forced east", "manual east", "manual west", "clear east", "forced west", "forced east", "clear west", "clear east"):
        making.say(words)
        making.round(count=2)
    for words, kind in (("manual east", "degraded"), ("forced east", "dark"), ("manual east", "dark"), ("clear east", "dark"), ("manual west", "degraded")):
        making.say(words)
        making.round("frame", kind, count=2)
    return making.stream


def holding() -> Iterator[Callable[[], Stream]]:
    """A controller that misses rounds."""
    for nodes in (RINGS[0], RINGS[2]):
        for first in (True, False):
            yield lambda nodes=nodes, first=first: hold_stream(nodes, first)


def hold_stream(nodes: tuple[int, ...], first: bool) -> Stream:
    why = "a held controller repeats its words and keeps its state, while frames go on; in its first round it says that it asks for nothing"
    making = Making(f"hold-{len(nodes)}-{'first' if first else 'later'}", why, plan_of(4, nodes, 0, "hold"), 0)
    if first:
        making.say("hold 3")
        making.say("forced east")
    making.begin(4)
    for held, again in ((1, None), (5, None), (100, 2), (2, 4)):
        making.words(making.long(WEST, SF), making.short(EAST, SF))
        making.say(f"hold {held}")
        making.round("frame", "dark")
        if again:
            making.say(f"hold {again}")
        making.round("frame", "dark", count=6)
        making.idle()
        making.pass_time(10)
        making.round(count=4)
    return making.stream


def connections() -> Iterator[Callable[[], Stream]]:
    """Each state with each far end, over circuits of every kind."""
    for nodes in RINGS:
        size = len(nodes)
        for p in range(size) if size <= 5 else (0, size // 2, size - 1):
            for again in range(2):
                yield lambda nodes=nodes, p=p, again=again: connection_stream(nodes, p, again)
    for p in range(2):
        yield lambda p=p: silent_stream(p)


def connection_stream(nodes: tuple[int, ...], p: int, again: int) -> Stream:
    name, size = f"connects-{len(nodes)}-{p}-{again}", len(nodes)
    making = Making(name, f"node {nodes[p]} of {size} in each state and with each far end: where each AU-4 comes from", plan_of(4, nodes, p, name), p)
    making.begin(3)
    making.words((SD, nodes[(p + 1) % size], nodes[p - 1], LONG, 0), (SD, nodes[p - 1], nodes[(p + 1) % size], LONG, 0))
    if size > 3:
        making.words((SD, nodes[(p + 2) % size], nodes[p - 1], LONG, 0), (SD, nodes[p - 2], nodes[(p + 1) % size], LONG, 0))
    making.round(count=4)
    for d in (WEST, EAST):
        kinds = ["dark" if side == d else "frame" for side in (WEST, EAST)]
        fars = [nodes[(p + i) % size] for i in range(size)]
        fars = fars if size <= 8 else [fars[i] for i in (0, 1, 2, 7, 8, 13, 14, 15)]
        for far in fars:
            set_word(making, 1 - d, making.long(1 - d, SF, far, 1))
            making.round(*kinds, count=HEARD)
        making.round("dark", "dark", count=2)
        making.pass_time(20)
        making.idle()
        making.round(count=4)
    return making.stream


def silent_stream(p: int) -> Stream:
    """Connections that lead to AU-4s which are AIS."""
    nodes = (3, 1, 4, 2)
    plan = Plan(4, nodes)
    circuit(plan, 0, 2, 1)
    circuit(plan, 3, 2, 2)
    making = Making(f"silent-{p}", "AU-4s that come are AIS while the node passes through, and while it switches and bridges: AIS goes where they go", plan, p)
    making.begin(4)
    for d in (WEST, EAST):
        kinds = ["dark" if side == d else "frame" for side in (WEST, EAST)]
        for far in (*nodes[p + 1 :], *nodes[:p]):
            set_word(making, 1 - d, making.long(1 - d, SF, far, 1))
            silently(making, kinds, HEARD + 1)
        making.pass_time(20)
        making.words((SD, nodes[p - 2], nodes[p - 1], LONG, 0), (SD, nodes[p - 1], nodes[p - 2], LONG, 0))
        silently(making, ["frame", "frame"], HEARD + 2)
    return making.stream


def silently(making: Making, kinds: list[str], rounds: int) -> None:
    """Runs rounds in which each pointer word that comes is all ones."""
    for _ in range(rounds):
        for side in making.sides:
            side.pointers = dict.fromkeys(range(making.plan.rate), ONES)
        making.round(*kinds)


def customers() -> Iterator[Callable[[], Stream]]:
    """What ports send: traces, texts, offsets, and clocks that slip."""
    for rate in RATES:
        yield lambda rate=rate: customer_stream(rate)
    for offset in (0, 1, 521, 522, 523, 782):
        yield lambda offset=offset: slip_stream(offset)
    yield isolated_stream


def customer_stream(rate: int) -> Stream:
    plan = Plan(rate, (4, 9, 1))
    long = "".join(chr(32 + (7 * i) % 95) for i in range(64))
    for slot in range(1, rate // 2 + 1):
        circuit(plan, 1, 2, slot, text_a=long[: 7 * slot], trace_a=long[slot:][:64], offset_a=(261 * slot) % 783)
        circuit(plan, 2, 1, slot, text_b=long[slot:], trace_b="b" * slot, offset_b=522 + slot)
    making = Making(f"customers-{rate}", "what customers send for longer than a trace of 64 bytes lasts: path overhead, texts and offsets", plan, 1)
    making.round("none", "none", count=70 if rate == 4 else 12)
    return making.stream


def slip_stream(offset: int) -> Stream:
    plan = Plan(4, (4, 9, 1))
    circuit(plan, 1, 2, 1, offset_a=offset)
    circuit(plan, 0, 1, 2, offset_b=offset)
    why = f"clocks that slip, from the pointer value {offset}: before round 4, one after the other, ups before downs, sixteen of them"
    making = Making(f"slips-{offset}", why, plan, 1)
    making.say("slip c0 up 2")
    making.say("slip c1 down 3")
    making.round("none", "none", count=12)
    making.say("slip c0 down 3")
    making.say("slip c0 up 1")
    making.round("none", "none", count=3)
    making.say("slip c0 up 12")
    making.say("slip c1 up 1")
    making.round("none", "none", count=26)
    making.say("slip c0 down 7")
    making.say("slip c1 down 1")
    making.round("none", "none", count=2)
    making.say("slip c1 down 15")
    making.round("none", "none", count=44)
    return making.stream


def isolated_stream() -> Stream:
    """Ports that begin to send again in a round in which they justify."""
    plan = Plan(4, (4, 9, 1), wait=0)
    circuit(plan, 1, 2, 1, offset_a=9)
    circuit(plan, 0, 1, 2, offset_b=782)
    why = "clocks that slip while the node is isolated now and then: what leaves first is new data, an increment or a decrement too"
    making = Making("slips-isolated", why, plan, 1)
    making.begin(3)
    making.say("slip c0 up 16")
    making.say("slip c1 down 16")
    for _ in range(9):
        making.round("dark", "dark", count=2)
        making.round()
    return making.stream


def wild() -> Iterator[Callable[[], Stream]]:
    """What no ring sends: bytes by chance, and bits that are wrong anywhere."""
    for number in range(6):
        yield lambda number=number: wild_stream(number)


def wild_stream(number: int) -> Stream:
    nodes, name = RINGS[1 + number % 4], f"wild-{number}"
    making = Making(name, "bytes by chance, right frames with wrong bits, any K bytes", plan_of(4, nodes, 1, name), 1)
    making.begin(2)
    dice, whole = making.dice, COLUMNS * 9 * 4
    for _ in range(24):
        for d in (WEST, EAST):
            if dice.randrange(4) == 0:
                set_word(making, d, tuple(dice.randrange(count) for count in (16, 16, 16, 2, 8)))
        came = []
        for d in (WEST, EAST):
            kind = dice.choice(("frame",) * 8 + ("noise", "bits", "bits", "any"))
            flips = tuple((dice.randrange(24 if dice.randrange(3) == 0 else whole), 1 << dice.randrange(8)) for _ in range(dice.choice((1, 2, 30))))
            came.append(making.sides[d].frame(after=flips) if kind == "bits" else dice.randbytes(whole) if kind == "any" else kind)
        making.round(*came)
    return making.stream


GROUPS = {
    "states": states,
    "requests": requests,
    "relaying": relaying,
    "filtering": filtering,
    "defects": defects,
    "waiting": waiting,
    "commands": commands,
    "holding": holding,
    "connections": connections,
    "pointers": pointer_streams,
    "customers": customers,
    "wild": wild,
}


def suite(groups: tuple[str, ...] = tuple(GROUPS), every: int = 1) -> Iterator[Stream]:
    """Gives the streams of these groups; with `every`, each so-many-th of a group alone."""
    for group in groups:
        for number, make in enumerate(GROUPS[group]()):
            if number % every == 0:
                yield named(make(), (group, number))


def named(stream: Stream, key: tuple[str, int]) -> Stream:
    stream.key = key
    return stream


def again(key: tuple[str, int]) -> Stream:
    """Returns the stream of a key once more."""
    group, number = key
    return next(named(make(), key) for at, make in enumerate(GROUPS[group]()) if at == number)
