"""A node of the ring as docs/NODE.md has it, plainly, that notes which rule decided each field of an answer.

The suite is measured with it: which rules a stream reaches. It says nothing of what is right, which `sdhnode` alone says. A comment at the end of
a line names the rule that the line and those after it belong to.
"""

from __future__ import annotations

from collections import defaultdict
from functools import cache, lru_cache, reduce
from operator import xor

from .terms import (
    AIS, BRIDGED, CHUNK, CODES, COLUMNS, EAST, FRONT, FS, HEAD, IDLE, LETTERS, LONG, LOST, MARKS, MS, MS_AIS, NEW, NORM, NR, ONES, PAYLOAD, RDI, ROWS, RR, SD, SF,
    SHORT, SIDES, SWITCH, SWITCHED, WEST, WTR, carried, compared, counted, origin_rule, to_port, word_rules,
)  # fmt: skip


# -- 1 and 9, section overhead


@cache
def sequence(n):
    """What the scrambler adds to a frame, as a number."""
    bits = [1] * 7  # 9.scrambling
    while len(bits) < 8 * 127:
        bits.append(bits[-6] ^ bits[-7])
    period = bytes(int("".join(map(str, bits[at : at + 8])), 2) for at in range(0, 8 * 127, 8))
    length = (ROWS * COLUMNS - HEAD) * n
    return int.from_bytes((period * (length // 127 + 1))[:length], "big")


def turned(n, frame):
    """A frame with the scrambling added, or taken away."""
    return (int.from_bytes(frame, "big") ^ sequence(n)).to_bytes(len(frame), "big")  # 9.scrambling


def folded(data, width):
    """The exclusive or of all stretches of a width."""
    value, count = int.from_bytes(data, "big"), len(data) // width
    while count > 1:
        half = 8 * width * (count // 2)
        value = value >> half ^ value & (1 << half) - 1
        count -= count // 2
    return value.to_bytes(width, "big")


def b1_of(line):
    return folded(line, 1)[0]  # 9.b1


def b2_of(n, clear):
    """BIP-24N: all of a frame but the first 9 N columns of its first three rows."""
    width = COLUMNS * n
    parts = [clear[width * row + HEAD * n : width * (row + 1)] for row in range(3)]  # 9.b2
    return folded(b"".join([*parts, clear[3 * width :]]), 3 * n)


def is_framed(n, frame):
    return frame[: 6 * n] == b"\xf6" * (3 * n) + b"\x28" * (3 * n)  # 1.framing


@lru_cache(maxsize=512)
def opened(n, frame):
    """A frame without scrambling and its parity, or None where it isn't framed."""
    if not is_framed(n, frame):
        return None
    clear = turned(n, frame)
    return clear, b2_of(n, clear)


def violations(brought, before):
    """How many bits of B2 differ from the parity of the frame before."""
    return (int.from_bytes(brought, "big") ^ int.from_bytes(before, "big")).bit_count()  # 1.violations


class Inlet:
    """One side that receives."""

    def __init__(self, n, threshold):
        self.n, self.threshold, self.before = n, threshold, None

    def take(self, came):
        """The defect, the word, the frame without scrambling, and the rules of the defect and of the word."""
        if came == "none":  # 2.unknown
            self.before = None  # 1.forgotten
            return 0, None, None, "2.unknown/none", "2.unknown/none"  # 2.unknown
        if came == "dark":  # 2.fails
            self.before = None  # 1.forgotten
            return SF, None, None, "2.fails/dark", "2.fails/dark"  # 2.fails
        found = opened(self.n, came)  # 1.framing
        if found is None:  # 1.framing
            self.before = None  # 1.forgotten
            return SF, None, None, "1.framing/wrong", "1.framing/wrong"  # 1.framing
        clear, parity = found
        before, self.before = self.before, parity  # 1.violations
        fifth = 4 * COLUMNS * self.n  # 1.violations|2.word
        k1, k2 = clear[fifth + 3 * self.n], clear[fifth + 6 * self.n]  # 2.word
        if k2 & 7 == MS_AIS:  # 2.fails
            return SF, None, None, "2.fails/ms-ais", "2.fails/ms-ais"
        word, rule = decoded(k1, k2)
        if before is None:  # 1.forgotten
            return 0, word, clear, "1.forgotten/first", rule
        wrong = violations(clear[fifth : fifth + 3 * self.n], before)  # 1.violations
        reading = "2.degraded/none" if wrong == 0 else "2.degraded/below" if wrong < self.threshold else "2.degraded/at" if wrong == self.threshold else "2.degraded/above"
        return SD if wrong >= self.threshold else 0, word, clear, reading, rule  # 2.degraded


# -- 2, words


def decoded(k1, k2):
    """The word of two bytes and its rule; no word where their code or mark isn't listed."""
    code, mark = k1 >> 4, k2 & 7  # 2.word
    if code not in CODES:
        return None, "2.word/code"
    if mark not in MARKS:
        return None, "2.word/mark"
    return (code, k1 & 15, k2 >> 4, LONG if k2 & 8 else SHORT, mark), "2.word/listed"


def hears(brought):
    """The word that is heard of what the last three rounds brought, and the rule."""
    first, second, last = brought
    if None in brought:  # 2.heard
        return None, "2.heard/fewer"
    for at, part in enumerate(("code", "destination", "source", "path")):
        if not first[at] == second[at] == last[at]:
            return None, f"2.heard/{part}"
    rule = "2.heard/three" if first[4] == second[4] == last[4] else "2.heard/marks"
    return last, rule


# -- 3, local requests


class Side:
    """What a side keeps for its request."""

    def __init__(self):
        self.command, self.defect, self.ended = None, 0, None

    def asks(self, defect, moment, wait):
        """The local request, and the rules that decide it."""
        rules = []
        if self.defect and not defect:  # 3.waiting
            self.ended = moment
            rules.append(f"3.waiting/after-{LETTERS[self.defect]}")
        self.defect = defect
        waits = not defect and self.ended is not None and moment < self.ended + wait
        local = max(self.command or 0, defect, WTR if waits else 0)  # 3.highest|3.command|3.waiting
        return local, rules + self.rules_of(local, defect, waits)

    def rules_of(self, local, defect, waits):
        """The rules that decide a local request."""
        found = []
        if self.ended is not None and not defect:
            found.append("3.waiting/waits" if waits else "3.waiting/over")
        if self.command:
            found.append(f"3.command/{LETTERS.get(self.command)}" if local == self.command else "3.highest/defect-above")
        if defect:
            found.append("3.highest/defect-alone" if local == defect else "3.highest/command-above")
        if self.command and waits:
            found.append("3.highest/command-above-wtr")
        return found or ["3.command/none"]


# -- 4, the state and the words that are sent


class Look:
    """What a node sees in a round, and the rules by which it is looked at, for each field."""

    def __init__(self, me, neighbours, local, fails, heard):
        self.me, self.neighbours, self.local, self.fails, self.heard = me, neighbours, local, fails, heard
        self.rules = defaultdict(list)
        self.short = [self.short_on(d) for d in (WEST, EAST)]
        self.long = [self.long_on(d) for d in (WEST, EAST)]
        self.weight = [max(local[d], self.short[d]) for d in (WEST, EAST)]  # 4.weight
        for d in (WEST, EAST):
            if local[d] or self.short[d]:
                self.note(compared(local[d], self.short[d]), "4.weight")

    def note(self, case, rule, fields=("state", "far", "west", "east")):
        for field in fields:
            self.rules[field].append(f"{rule}/{case}")

    def short_on(self, d):
        """The code that the neighbour asks for by the short path."""
        word = self.heard[d]
        if word is None or word[3] != SHORT:  # 4.short
            self.note("none", "4.short")
            return 0
        if word[1] != self.me:
            self.note("other-destination", "4.short")
            return 0
        if word[2] != self.neighbours[d]:
            self.note("other-source", "4.short")
            return 0
        if word[0] < WTR:
            self.note("low-code", "4.short")
            return 0
        self.note("counts", "4.short")
        return word[0]

    def long_on(self, d):
        """The long word that counts."""
        word = self.heard[d]
        if word is None or word[3] != LONG:  # 4.long
            return self.note("none", "4.long")
        if word[0] < WTR:
            return self.note("low-code", "4.long")
        self.note("counts", "4.long")
        return word

    def is_about(self, d):
        """Whether the long word that came on the other side speaks of the span on this one."""
        word = self.long[1 - d]
        return word is not None and word[1:3] == (self.me, self.neighbours[d])  # 4.about|4.against

    def offered(self, d):
        """The words that could leave on a side, by kind, each with its weight."""
        e, words = 1 - d, {}
        if self.weight[d] > 0:
            code = self.local[d] if self.local[d] >= self.short[d] else RR  # 4.short-word
            words["short"] = self.weight[d], (code, self.neighbours[d], self.me, SHORT)
        if self.weight[e] > 0:
            words["long"] = self.weight[e], (self.weight[e], self.neighbours[e], self.me, LONG)  # 4.long-word
        word = self.long[e]
        if word and word[1] == self.me:  # 4.relays
            self.note("to-itself", "4.relays", (SIDES[d], "state"))
        elif word and word[2] == self.me:
            self.note("its-own", "4.relays", (SIDES[d], "state"))
        elif word:
            words["relayed"] = word[0], word
            self.note("relayed", "4.relays", (SIDES[d], "state"))
        return words

    def chosen(self, d):
        """The kind of the word that leaves on a side, and the word."""
        words, fields = self.offered(d), (SIDES[d], "state")
        if self.weight[d] >= SF:  # 4.first-11
            self.note("this-side", "4.first-11", fields)
            return "short", words["short"][1]
        if self.weight[1 - d] >= SF:
            self.note("other-side", "4.first-11", fields)
            return "long", words["long"][1]
        top = max((weight for weight, _ in words.values()), default=0)  # 4.heaviest
        for kind in ("short", "long", "relayed"):
            if kind in words and words[kind][0] == top:
                weights = [weight for weight, _ in words.values()]
                self.note(f"{kind}-{'alone' if len(words) == 1 else 'of-equals' if weights.count(top) > 1 else 'above'}", "4.heaviest", fields)
                return kind, words[kind][1]
        self.note("none", "4.no-word", fields)
        return "none", (NR, self.neighbours[d], self.me, SHORT)  # 4.no-word

    def switches(self, d):
        """Whether the node switches away from a side."""
        mine, fields = self.weight[d], ("state", "far")
        if mine >= SF:  # 4.switches-11
            self.note(LETTERS[mine], "4.switches-11", fields)
            return True
        self.note("below", "4.switches-11", fields)
        if not WTR <= mine <= SD:  # 4.switches-lower
            self.note("no-request", "4.switches-lower", fields)
            return False
        if self.weight[1 - d] >= mine:  # 4.switches-lower
            self.note("other-side-as-high", "4.switches-lower", fields)
            return False
        near, far = self.long[d], None if self.is_about(d) else self.long[1 - d]  # 4.about|4.against
        if self.is_about(d):
            self.note("about-this-span", "4.about", fields)
        for word, where in ((near, "same-side"), (far, "other-side")):
            if word is not None and word[0] >= mine:  # 4.against
                self.note(f"{where}-{'equal' if word[0] == mine else 'heavier'}", "4.against", fields)
                return False
            if word is not None:
                self.note(f"{where}-lighter", "4.against", fields)
        self.note(LETTERS[mine], "4.switches-lower", fields)
        return True

    def far_end(self, d, identifiers):
        """The far end of a node that switches away from a side."""
        came = self.long[1 - d]
        if came is None:  # 4.far
            return self.note("none-heard", "4.far", ("far", "west", "east"))
        if came[2] not in identifiers:
            return self.note("not-in-ring", "4.far", ("far", "west", "east"))
        if came[2] == self.me:
            return self.note("itself", "4.far", ("far", "west", "east"))
        self.note("source", "4.far", ("far", "west", "east"))
        return came[2]


@lru_cache(maxsize=4096)
def step(identifiers, *seen):
    """The state, the two words, and the rules by field, of what a node sees (`Look`)."""
    look = Look(*seen)
    switched = [d for d in (WEST, EAST) if look.switches(d)]
    kinds, words = zip(*(look.chosen(d) for d in (WEST, EAST)))
    name, far = "idle", None
    if len(switched) == 2:  # 4.isolated
        name = "isolated"
        look.note("both", "4.isolated", ("state", "west", "east"))
    elif switched:
        name = SWITCH[switched[0]]  # 4.switches-11|4.switches-lower
        look.note("one-side", "4.isolated", ("state",))
        far = look.far_end(switched[0], identifiers)
    elif kinds == ("relayed", "relayed"):  # 4.passes
        name = "pass"
        look.note("both-ways", "4.passes", ("state",))
    elif "relayed" in kinds:
        look.note("one-way", "4.passes", ("state",))
    else:
        look.note("idle", "4.passes", ("state",))
    own = SWITCHED if far is not None else BRIDGED if len(switched) == 1 else IDLE  # 4.marks
    left = []
    for d in (WEST, EAST):
        if kinds[d] == "relayed":
            left.append(words[d])
            look.note("as-heard", "4.marks", (SIDES[d],))
            continue
        mark = RDI if look.fails[d] else own
        left.append((*words[d], mark))
        look.note({IDLE: "idle", BRIDGED: "bridged", SWITCHED: "bridged-switched", RDI: "rdi"}[mark], "4.marks", (SIDES[d],))
        if kinds[d] == "short":
            look.note(LETTERS[words[d][0]], "4.short-word", (SIDES[d],))
        if kinds[d] == "long":
            look.note(LETTERS[words[d][0]], "4.long-word", (SIDES[d],))
    return (name, far), tuple(left), {field: tuple(rules) for field, rules in look.rules.items()}


def written(word):
    """A word's two bytes."""
    code, to, source, path, mark = word
    return code << 4 | to, source << 4 | path << 3 | mark  # 9.k-bytes


def hexadecimal(word):
    return "- -" if word is None else f"{word[0]:x}{word[1]:x} {word[2]:x}{8 * word[3] + word[4]:x}"


# -- 5 and 8, pointers


def read_word(kept, word):
    """What a pointer word is to an interpreter, its value, and the rules of its reading."""
    mode, value, since = kept[0], kept[1], kept[6]
    flags, v = word >> 12, word & 0x3FF  # 5.flag
    if word == ONES:  # 5.three-ais
        return "ais", v, ()
    normal, enabled = (flags ^ 0b0110).bit_count(), (flags ^ 0b1001).bit_count()  # 5.flag
    if normal > 1 and enabled > 1:
        return "bad", v, ("5.flag/neither",)
    ranged = f"5.range/{'right' if v < 782 else 'highest' if v == 782 else 'above'}"
    if enabled <= 1:  # 5.flag|5.new-data
        reading = f"5.flag/enabled-{enabled}", ranged
        return "new data" if v <= 782 else "bad", v, reading  # 5.range
    if mode == NORM and v == value:  # 5.same
        return "same", v, (f"5.flag/normal-{normal}",)
    kind, reading = justification(v, value) if mode == NORM else (None, ())  # 5.majority|5.spacing
    if kind and since == 3:  # 5.spacing
        return kind, v, (*reading, "5.spacing/in-time")
    reading = ("5.spacing/too-soon",) if kind else reading
    return "new" if v <= 782 else "bad", v, (*reading, ranged)  # 5.range


def justification(v, value):
    """Whether a value's bits are those of another one with the bits of an increment or of a decrement inverted, and the rule."""
    increments, decrements = ((v ^ value) & 0x2AA).bit_count(), ((v ^ value) & 0x155).bit_count()  # 5.majority
    kind = "up" if increments >= 3 and decrements <= 2 else "down" if decrements >= 3 and increments <= 2 else None
    reading = (f"5.majority/{kind or 'none'}-{increments}-{decrements}",)
    return kind, reading


@lru_cache(maxsize=65536)
def interpret(kept, word):
    """What an interpreter keeps after a word, its action, and the rules."""
    mode, value, silent, invalid, candidate, times, since = kept
    kind, v, reading = read_word(kept, word)
    grown = min(since + 1, 3) if mode == NORM else 0  # 5.spacing
    then, action, row = (mode, value, 0, 0, 0, 0, grown), "normal", f"5.same/{mode}"  # 5.three-new|5.three-ais|5.eight-invalid|5.same
    if kind == "new data" and mode != LOST:  # 5.new-data
        then, action, row = (NORM, v, 0, 0, 0, 0, 0), "new", f"5.new-data/{mode}"
    elif kind == "up":  # 5.increment
        then, action, row = (NORM, (value + 1) % 783, 0, 0, 0, 0, 0), "up", "5.increment/over" if value == 782 else "5.increment/norm"  # 5.increment
    elif kind == "down":  # 5.decrement
        then, action, row = (NORM, (value - 1) % 783, 0, 0, 0, 0, 0), "down", "5.decrement/over" if value == 0 else "5.decrement/norm"  # 5.decrement
    elif kind == "new":  # 5.three-new
        times = times + 1 if times and candidate == v else 1  # 5.three-new
        row = f"5.three-new/{mode}-{times}"
        if times < 3:
            then = (mode, value, 0, 0, v, times, grown)
        else:
            then, action = (NORM, v, 0, 0, 0, 0, grown), "new"
    elif kind == "ais" and mode != AIS:  # 5.three-ais
        row = f"5.three-ais/{mode}-{silent + 1}"
        then = (mode, value, silent + 1, 0, 0, 0, grown) if silent < 2 else (AIS, value, 0, 0, 0, 0, 0)  # 5.three-ais
    elif kind == "bad" and mode != LOST:  # 5.eight-invalid
        row = f"5.eight-invalid/{mode}-{invalid + 1}"
        then = (mode, value, 0, invalid + 1, 0, 0, grown) if invalid < 7 else (LOST, value, 0, 0, 0, 0, 0)  # 5.eight-invalid
    elif kind != "same":
        row = f"5.stays/{mode}-{kind.replace(' ', '-')}"  # 5.stays
    return then, action if then[0] == NORM else "ais", (row, *reading)  # 5.three-ais|5.eight-invalid|5.stays|7.ais


@lru_cache(maxsize=65536)
def generate(kept, action, value):
    """The pointer word that a generator sends, what it keeps then, and the rule."""
    if action == "ais":  # 8.ais
        return ONES, None, "8.ais/ones"
    normal = 0x6800  # 8.same|8.increment|8.decrement
    enabled = 0x9800  # 8.new-data
    if kept is not None:  # 8.new-data|8.same
        if action == "normal" and value == kept:  # 8.same
            return normal | kept, kept, "8.same/same"
        if action == "up" and value == (kept + 1) % 783:  # 8.increment
            return normal | kept ^ 0x2AA, value, "8.increment/inverted"
        if action == "down" and value == (kept - 1) % 783:  # 8.decrement
            return normal | kept ^ 0x155, value, "8.decrement/inverted"
    rule = "first" if kept is None else "same-value" if value == kept else "other-value"
    return enabled | value, value, f"8.new-data/{rule}-{action}"  # 8.new-data


# -- what a port's customer sends


class Clock:
    """Says in each round from which byte of its stream a port sends, and how."""

    def __init__(self, offset):
        self.value, self.position, self.t = offset, 0, 0
        self.waiting, self.justified = {"up": 0, "down": 0}, None

    def next(self):
        """The round's first byte, its form and the rules; the value then is that after the round."""
        form, rule, waits = "normal", "8.clock/none-waits", any(self.waiting.values())
        if self.t >= 4 and (self.justified is None or self.t - self.justified > 3):  # 8.clock
            form = "up" if self.waiting["up"] else "down" if self.waiting["down"] else "normal"
            rule = f"8.clock/{form}" if waits else rule
        elif waits:
            rule = "8.clock/early" if self.t < 4 else "8.clock/too-soon"
        position = self.position
        self.position += {"normal": CHUNK, "up": CHUNK - 3, "down": CHUNK + 3}[form]  # 8.justification
        if form != "normal":
            self.waiting[form] -= 1  # 8.clock
            self.justified = self.t
            before, self.value = self.value, (self.value + (1 if form == "up" else -1)) % 783  # 8.value
            rule = "8.value/over" if abs(before - self.value) > 1 else rule
        self.t += 1
        return position, form, rule


class Stream:
    """The bytes of a port's VC-4s, one after the other."""

    def __init__(self, text, trace, offset):
        self.text, self.trace = text, trace.ljust(64)
        self.skipped = (CHUNK - (783 + 3 * offset) % CHUNK) % CHUNK  # path.offset
        self.parities, self.vcs, self.made = [0], {}, {}  # path.b3

    def texts(self, v):
        start = 2340 * v % len(self.text)  # path.text
        return (self.text * (2340 // len(self.text) + 2))[start : start + 2340]  # path.text|path.b3

    def parity(self, v):
        """B3: over all bytes of the VC-4 before."""
        while len(self.parities) <= v:
            before = len(self.parities) - 1
            self.parities.append(reduce(xor, self.texts(before)) ^ self.trace[before % 64] ^ self.parities[-1] ^ 1)  # path.b3
        return self.parities[v]

    def vc(self, v):
        if v not in self.vcs:
            head = [self.trace[v % 64], self.parity(v), 1, 0, 0, 0, 0, 0, 0]  # path.overhead
            texts = self.texts(v)
            self.vcs[v] = b"".join(bytes([head[row]]) + texts[260 * row : 260 * row + 260] for row in range(9))
        return self.vcs[v]

    def part(self, start, count):
        first, skip = divmod(start + self.skipped, CHUNK)  # path.offset
        return b"".join(self.vc(first + i) for i in range((skip + count) // CHUNK + 1))[skip : skip + count]

    def payload(self, start, form):
        """What fills an AU-4, and its H3 bytes."""
        if (start, form) not in self.made:
            self.made[start, form] = self.filled(start, form)
        return self.made[start, form]

    def filled(self, start, form):
        if form == "up":
            return self.part(start, FRONT) + bytes(3) + self.part(start + FRONT, CHUNK - FRONT - 3), bytes(3)  # 8.justification
        if form == "down":
            return self.part(start, FRONT) + self.part(start + FRONT + 3, CHUNK - FRONT), self.part(start + FRONT, 3)
        return self.part(start, CHUNK), bytes(3)


@lru_cache(maxsize=64)
def stream_of(text, trace, offset):
    return Stream(text, trace, offset)


# -- the frame that leaves


def head(n, b1):
    """The nine rows of overhead, in which pointers and K bytes are still to stand."""
    rows = [bytes(HEAD * n) for _ in range(ROWS)]  # 9.row-1
    rows[0] = b"\xf6" * (3 * n) + b"\x28" * (3 * n) + b"\x01" + b"\xaa" * (3 * n - 1)
    rows[1] = bytes([b1]) + bytes(HEAD * n - 1)  # 9.b1
    rows[3] = b"\xff" * (HEAD * n)  # 9.pointer-row
    return rows


def clear_frame(n, parities, word, leaves):
    """A frame before the scrambler: `leaves` are AU-4s, each with its number, its pointer word, its payload and its H3 bytes."""
    b1, b2 = parities
    rows = head(n, b1)
    fourth, fifth = bytearray(rows[3]), bytearray(rows[4])
    fifth[: 3 * n] = b2  # 9.b2
    fifth[3 * n], fifth[6 * n] = written(word)  # 9.k-bytes
    body = bytearray(b"\xff" * (PAYLOAD * n * ROWS))  # 9.columns|8.ais
    for au, pointer, payload, h3 in leaves:
        if pointer == ONES:
            continue
        fourth[au::n] = bytes([pointer >> 8, 0x9B, 0x9B, pointer & 255, 255, 255]) + h3  # 9.pointer-row
        body[au::n] = payload  # 9.columns
    rows[3], rows[4] = bytes(fourth), bytes(fifth)
    width = PAYLOAD * n
    return b"".join(rows[row] + body[width * row : width * (row + 1)] for row in range(ROWS))


@lru_cache(maxsize=1024)
def sent_frame(n, parities, word, leaves):
    """A frame on the line, and the parities that come in the frame after it."""
    clear = clear_frame(n, parities, word, leaves)
    line = turned(n, clear)
    return line, (b1_of(line), b2_of(n, clear))  # 9.b1|9.b2


class Outlet:
    """One side that sends."""

    def __init__(self, n):
        self.n, self.parities = n, (0, bytes(3 * n))

    def next(self, word, leaves):
        line, self.parities = sent_frame(self.n, self.parities, word, leaves)
        return line


@lru_cache(maxsize=512)
def aus_of(n, clear):
    """The pointer word, the payload and the H3 bytes of each AU-4 of a frame."""
    width = COLUMNS * n
    rows = [clear[at : at + width] for at in range(0, len(clear), width)]
    body = b"".join(row[HEAD * n :] for row in rows)  # 5.place
    found = []
    for au in range(n):
        pointers = rows[3][au : HEAD * n : n]  # 5.place
        found.append((pointers[0] << 8 | pointers[3], body[au::n], pointers[6:9]))
    return found


# -- the whole node


class Node:
    """One node of a plan's ring."""

    def __init__(self, plan, identifier):
        self.plan, self.n = plan, plan["rate"]
        self.ids, self.me = tuple(plan["nodes"]), identifier
        self.size, self.p = len(self.ids), self.ids.index(identifier)
        self.neighbours = self.ids[self.p - 1], self.ids[(self.p + 1) % self.size]
        self.circuits = plan.get("circuit", [])
        self.on_span, self.ends = {}, []
        for number, circuit in enumerate(self.circuits):
            first, last = self.ids.index(circuit["from"]), self.ids.index(circuit["to"])
            self.ends.append((first, last))
            for i in range((last - first) % self.size):
                self.on_span[(first + i) % self.size, circuit["slot"]] = number
        self.ports = [(c, end) for c, ends in enumerate(self.ends) for end, at in zip("ab", ends) if at == self.p]
        self.clocks = {(c, end): Clock(self.circuits[c].get(f"offset_{end}", 0)) for c, end in self.ports}
        self.streams = {(c, end): self.stream(self.circuits[c], end) for c, end in self.ports}
        self.sides = Side(), Side()
        self.inlets, self.outlets = [Inlet(self.n, plan["threshold"]) for _ in SIDES], [Outlet(self.n) for _ in SIDES]
        self.brought = [((None, ()),) * 3, ((None, ()),) * 3]
        self.state, self.words = ("idle", None), tuple((NR, to, identifier, SHORT, IDLE) for to in self.neighbours)  # 4.held
        aus = [(d, kind, slot) for d in (WEST, EAST) for kind in "wp" for slot in range(1, self.n // 2 + 1)]
        self.interpreters, self.generators = dict.fromkeys(aus, NEW), dict.fromkeys(aus)
        self.held, self.moment, self.t, self.trace, self.named, self.was_held = 0, 0, -1, {}, ["", ""], False

    @staticmethod
    def stream(circuit, end):
        return stream_of(circuit[f"text_{end}"].encode(), circuit.get(f"trace_{end}", circuit["name"]).encode(), circuit.get(f"offset_{end}", 0))

    def tell(self, words):
        """Does a record that is no round."""
        if words[0] in ("forced", "manual", "clear"):
            self.sides[SIDES.index(words[1])].command = {"forced": FS, "manual": MS, "clear": None}[words[0]]  # 3.command
        elif words[0] == "moment":
            self.moment = int(words[1])  # 3.waiting
        elif words[0] == "hold":
            self.held = int(words[1])  # 4.held
        else:
            names = [circuit["name"] for circuit in self.circuits]
            port = next(port for port in self.ports if names[port[0]] == words[1])
            self.clocks[port].waiting[words[2]] += int(words[3])  # 8.clock

    def round(self, west, east):
        """A round over what came on both sides: `none`, `dark`, or a frame. Returns the lines and the two frames."""
        return self.answer(*self.hear(west, east))

    def count(self):
        """Begins a round."""
        self.t, self.trace = self.t + 1, defaultdict(list)

    def hear(self, west, east):
        """The first half of a round, after which the node has its state and its words. Returns requests, words heard, and what came in."""
        self.count()
        came = west, east
        taken = [inlet.take(one) for inlet, one in zip(self.inlets, came)]
        local, heard = zip(*(self.look(d, taken[d]) for d in (WEST, EAST)))
        self.act(local, tuple(one[0] == SF for one in taken), heard)  # 4.marks
        return local, heard, [one[2] for one in taken], [one == "none" for one in came]  # 5.unknown

    def answer(self, local, heard, frames, unknown):
        """The second half: what ports deliver, and what leaves."""
        read = self.read(frames, unknown)
        delivered = [self.deliver(port, read) for port in self.ports]
        return self.lines(local, heard, delivered), self.send(read)

    def look(self, d, taken):
        """The local request and the word heard of a side."""
        defect, word, _, why, rule = taken
        self.brought[d] = *self.brought[d][1:], (word, (rule,))  # 2.heard
        heard, filtered = hears(tuple(one for one, _ in self.brought[d]))
        self.trace[f"heard {SIDES[d]}"] += [filtered, *(why for _, before in self.brought[d] for why in before)]
        local, rules = self.sides[d].asks(defect, self.moment, self.plan["wait"])
        self.trace[f"asks {SIDES[d]}"] += [*rules, why, *counted(why), *([] if taken[2] is None else ["1.framing/right"]), *self.defect_rules(d, defect, why)]
        if heard:
            self.trace[f"heard {SIDES[d]}"] += word_rules("heard", heard)
        return local, heard

    def defect_rules(self, d, defect, why):
        """The defect that a side has, or the one that has just ended."""
        name = {"dark": "dark", "wrong": "unframed", "ms-ais": "ms-ais", "none": "not-known", "at": "degraded", "above": "degraded"}.get(why.partition("/")[2], "")
        before, self.named[d] = self.named[d], name
        ends = before not in ("", "not-known") and not defect and before != name
        return ([f"defect/{name}"] if name else []) + ([f"defect/{before}-ends"] if ends else [])

    def act(self, local, fails, heard):
        """The state and the words, unless the controller is held."""
        self.note_hold()
        if self.held:
            self.held -= 1  # 4.held
            return
        self.state, self.words, rules = step(self.ids, self.me, self.neighbours, local, fails, heard)
        for field, found in rules.items():
            self.trace[field] += found
        for d in (WEST, EAST):
            self.trace[SIDES[d]] += word_rules("sent", self.words[d])

    def note_hold(self):
        """Notes where a hold or its end decides the state and the words."""
        case = ("first-round" if self.t == 0 else "keeps") if self.held else "over" if self.was_held else ""
        self.was_held = self.held > 0
        for field in ("state", "far", "west", "east") if case else ():
            self.trace[field].append(f"4.held/{case}")

    def read(self, frames, unknown):
        """What each AU-4 that came is: an action, a value, a payload, the H3 bytes, and the rules."""
        came = {}
        aus = [None if clear is None else aus_of(self.n, clear) for clear in frames]
        for key in self.interpreters:
            d, kind, slot = key
            if unknown[d]:
                came[key] = "ais", 0, None, None, ("5.unknown/stays",)  # 5.unknown
                continue
            au = slot - 1 + (self.n // 2 if kind == "p" else 0)  # 6.place
            word, payload, h3 = (ONES, b"\xff" * CHUNK, b"\xff" * 3) if aus[d] is None else aus[d][au]  # 2.fails
            self.interpreters[key], action, rules = interpret(self.interpreters[key], word)  # 7.ais
            came[key] = action, self.interpreters[key][1], payload, h3, (*rules, "5.place/bytes", f"6.place/{'working' if kind == 'w' else 'protection'}", *(["2.fails/not", "5.unknown/known"] if aus[d] else ["2.fails/ones"]))
        return came

    # 6, connections: each with the rule that decides it.

    def span(self, d):
        return self.p if d == EAST else (self.p - 1) % self.size

    def circuit_at(self, d, slot):
        return self.on_span.get((self.span(d), slot))

    def may_carry(self, d, slot):
        """Whether the circuit on the span of a switched side has both its ends on the way from there to the far end."""
        circuit, far = self.circuit_at(d, slot), self.state[1]
        if circuit is None:
            return False
        if far is None:  # 6.squelch
            return False
        first, last = (self.ids.index(far), self.p) if d == EAST else (self.p, self.ids.index(far))
        return all((end - first) % self.size <= (last - first) % self.size for end in self.ends[circuit])

    def why_not(self, d, slot):
        return "no-circuit" if self.circuit_at(d, slot) is None else "no-far-end" if self.state[1] is None else "end-is-cut-off"

    def stands_for(self, d, slot):
        """What the working arrival of a slot from a side stands for: an AU-4 that came, or None for AIS."""
        if self.state[0] == "isolated":  # 6.isolated|6.through
            return None, "6.isolated/ais"
        if self.state[0] == SWITCH[d]:  # 6.switch|6.through|6.squelch
            if self.may_carry(d, slot):  # 6.switch|6.squelch
                return (1 - d, "p", slot), "6.switch/from-protection"
            return None, f"6.squelch/{self.why_not(d, slot)}"
        return (d, "w", slot), "6.through/working"  # 6.through

    def working(self, d, slot):
        """What leaves on a side in a working slot: an AU-4 that came, a port, or None for AIS."""
        circuit = self.circuit_at(d, slot)
        if self.state[0] == "isolated":  # 6.isolated|6.through|6.port
            return None, "6.isolated/ais"
        if circuit is None:  # 6.free
            return None, "6.free/ais"
        if self.p == self.ends[circuit][0 if d == EAST else 1]:  # 6.port
            return (circuit, "a" if d == EAST else "b"), "6.port/own"
        return self.stands_for(1 - d, slot)  # 6.through

    def protection(self, d, slot):
        """What leaves on a side in a protection slot."""
        e, name = 1 - d, self.state[0]
        if name == "pass":  # 6.pass|6.protection
            return (e, "p", slot), "6.pass/protection"
        if name == SWITCH[e]:  # 6.bridge|6.protection|6.squelch
            if self.may_carry(e, slot):  # 6.bridge|6.squelch
                return self.working(e, slot)[0], "6.bridge/onto-protection"
            return None, f"6.squelch/{self.why_not(e, slot)}"
        return None, f"6.protection/{name if name in ('idle', 'isolated') else 'other-side'}"  # 6.protection

    # 7, deliveries.

    def deliver(self, port, came):
        """What a port delivers, as an answer has it."""
        c, end = port
        slot, name = self.circuits[c]["slot"], f"port {self.circuits[c]['name']} {end}"
        origin, rule = self.stands_for(EAST if end == "a" else WEST, slot)  # 7.deliver
        rule = rule if origin is None or came[origin][0] != "ais" else f"{rule.partition('/')[0]}/silent"
        self.trace[name, "place"] += [to_port(rule), *carried(rule), "7.deliver/side", f"origin/port-{self.state[0]}-{origin_rule(origin)}"]
        if origin is None:
            return f"{name} ais"
        action, value, payload, _, rules = came[origin]
        self.trace[name, "pointer"] += rules
        self.trace[name, "pointer"].append("7.ais/ais" if action == "ais" else "7.ais/bytes")
        return f"{name} ais" if action == "ais" else f"{name} norm {value} {payload[:16].hex()}"  # 7.ais

    # 8 and 9, what leaves.

    def send(self, came):
        sent, leaves = {port: clock.next() for port, clock in self.clocks.items()}, ([], [])
        for key in self.generators:
            d, kind, slot = key
            au = slot - 1 + (self.n // 2 if kind == "p" else 0)  # 6.place
            origin, rule = self.working(d, slot) if kind == "w" else self.protection(d, slot)
            action, value, payload, h3 = self.source(origin, came, sent, ("au", d, au))
            rule = rule if origin is None or action != "ais" else f"{rule.partition('/')[0]}/silent"
            self.trace["au", d, au, "place"] += [rule, *carried(rule), f"6.place/{'working' if kind == 'w' else 'protection'}", f"origin/{'working' if kind == 'w' else 'protection'}-{self.state[0]}-{origin_rule(origin)}"]
            word, self.generators[key], row = generate(self.generators[key], action, value)
            self.trace["au", d, au, "pointer"].append(row)
            is_down = action == "down" and word >> 12 != 9  # 8.justification
            self.trace["au", d, au, "h3"].append("8.justification/down" if is_down else "8.justification/none")
            leaves[d].append((au, word, payload, h3 if is_down else bytes(3)))
        return [self.outlets[d].next(self.words[d], tuple(leaves[d])) for d in (WEST, EAST)]

    def source(self, origin, came, sent, place):
        """The action, the value, the payload and the H3 bytes of what an AU-4 comes from."""
        if origin is None:
            return "ais", 0, None, None
        if len(origin) == 2:
            position, form, rule = sent[origin]
            payload, h3 = self.streams[origin].payload(position, form)
            self.trace[*place, "pointer"].append(rule)
            self.trace[*place, "payload"] += ["path.text/own", "path.overhead/own", "path.b3/own", f"path.offset/{self.offset_rule(origin)}"]
            self.trace[*place, "payload"] += [f"8.justification/{form}"] if form != "normal" else []
            self.trace[*place, "pointer"] += ["8.value/moved"] if form != "normal" else []
            return form, self.clocks[origin].value, payload, h3  # 8.value
        action, value, payload, h3, rules = came[origin]
        self.trace[*place, "pointer"] += rules
        self.trace[*place, "payload"].append("5.place/bytes")
        return action, value, payload, h3

    def offset_rule(self, port):
        offset = self.circuits[port[0]].get(f"offset_{port[1]}", 0)
        return str(offset) if offset in (0, 522, 782) else "other"

    def lines(self, local, heard, delivered):
        west, east = map(hexadecimal, self.words)
        far = "-" if self.state[1] is None else self.state[1]
        told = f"heard {hexadecimal(heard[WEST])} {hexadecimal(heard[EAST])} asks {LETTERS[local[WEST]]} {LETTERS[local[EAST]]}"
        return [f"round {self.t} node {self.me} {self.state[0]} far {far} west {west} east {east} {told}", *delivered]
