#!/usr/bin/env python3
"""What `sdhnode` must write for a stream, plainly: the rules of one node from the simulation of the shared ring (../outage), over frames
that are read and made plainly by ITU-T G.707 (../aps/frames.py). It shares no rule with the crates or the tools.

  bench/node/model.py ID [lines|frames] < STREAM

The words have to be good ones, and so has the plan, but records and frames may be any. Ends with the status."""

import sys
from pathlib import Path

sys.path.insert(0, str(Path(__file__).resolve().parents[2] / "tools"))
from ringtools.benching import refuse
from ringtools.starting import start

import re
import tomllib

HERE = Path(__file__).resolve().parent
sys.path[:0] = [str(HERE.parent / "outage"), str(HERE.parent / "aps")]

import signalling
from customers import CHUNK
from frames import A1, A2, COLUMNS, HEAD, ROWS, Scrambler, Sender, b2_of, differing
from pointers import NEW_INTERPRETER, interpret
from signalled import line_of
from simulate import AIS, EAST, SIDES, SILENCE, WEST, Ring

END = b"end of plan\n"
HEAD_MAX = 1_048_576 + len(END)
LINE_MAX = 64
SLIPS = 16
CODES = {signalling.NR, signalling.RR, signalling.WTR, signalling.MS, signalling.SD, signalling.SF, signalling.FS}
MARKS = {signalling.IDLE, signalling.BRIDGED, signalling.BRIDGED_SWITCHED, signalling.RDI}
MS_AIS = 7
NAMED = {"forced": signalling.FS, "manual": signalling.MS, "clear": None}
CAME = "none", "dark", "frame"


class Refused(Exception):
    """A record can't be done: the number of the reason."""


def size(n):
    return ROWS * COLUMNS * n


def decoded(k1, k2):
    """The word of two bytes, or None where their code or mark isn't listed."""
    code, mark = k1 >> 4, k2 & 7
    if code not in CODES or mark not in MARKS:
        return None
    return code, k1 & 15, k2 >> 4, signalling.LONG if k2 & 8 else signalling.SHORT, mark


class Inlet:
    """One side that receives: the parities of the frame before, and what stands in the frame that came last."""

    def __init__(self, n, threshold):
        self.n, self.threshold, self.scrambler, self.last = n, threshold, Scrambler(n), None

    def is_framed(self, line):
        return line[: 6 * self.n] == bytes([A1] * 3 * self.n + [A2] * 3 * self.n)

    def take(self, came):
        """The defect, the word and the frame without scrambling, or None in place of one that counts as ones."""
        if not isinstance(came, bytes) or not self.is_framed(came):
            self.last = None
            return (0 if came == "none" else signalling.SF), None, None
        clear, before = self.scrambler.turn(came), self.last
        self.last = b2_of(self.n, clear)
        fifth = 4 * COLUMNS * self.n
        k1, k2 = clear[fifth + 3 * self.n], clear[fifth + 6 * self.n]
        if k2 & 7 == MS_AIS:
            return signalling.SF, None, None
        wrong = 0 if before is None else differing(clear[fifth : fifth + 3 * self.n], before)
        return (signalling.SD if wrong >= self.threshold else 0), decoded(k1, k2), clear


class Given(Sender):
    """A side that sends: what goes into an AU-4 is bytes that came in, or a port's."""

    def payload(self, tag):
        return tag if isinstance(tag, bytes) else super().payload(tag)

    def h3(self, tag):
        return tag if isinstance(tag, bytes) else super().h3(tag)


class Bench(Ring):
    """One node of a plan's ring, over any frames."""

    def __init__(self, plan, p):
        super().__init__(plan)
        n = plan["rate"]
        self.p, self.me, self.rate = p, self.nodes[p], n
        self.slots = range(1, n // 2 + 1)
        aus = [(side, kind, slot) for side in (WEST, EAST) for kind in "wp" for slot in self.slots]
        self.me.interpreters = dict.fromkeys(aus, NEW_INTERPRETER)
        self.me.generators = dict.fromkeys(aus)
        self.inlets = [Inlet(n, plan["threshold"]) for _ in SIDES]
        self.senders = [Given(self, p, d) for d in (WEST, EAST)]
        self.streams = self.senders[0].streams
        self.ports = [(c, "ab"[end]) for c, ends in enumerate(self.ends) for end in (0, 1) if ends[end] == p]

    def run(self, west, east):
        """A round over what came on both sides: `none`, `dark`, or the bytes of a frame."""
        node, self.t = self.me, self.t + 1
        taken = [inlet.take(came) for inlet, came in zip(self.inlets, (west, east))]
        fails, local, heard = zip(*(self.asks(node, d, *taken[d][:2]) for d in (WEST, EAST)))
        node.local, node.heard = tuple(local), tuple(heard)
        if node.held:
            node.held -= 1
        else:
            node.state, node.words = signalling.step(self.ids, self.ids[self.p], self.neighbours(self.p), node.local, fails, node.heard)
        frames = [self.au_4s(taken[d][2]) for d in (WEST, EAST)]
        came = self.read(node, frames, [one == "none" for one in (west, east)])
        sent = {port: clock.next() for port, clock in self.clocks.items()}
        self.drop(came)
        self.carried = {}
        self.send(self.p, node, came, sent)
        return [sender.next() for sender in self.senders]

    def asks(self, node, d, defect, word):
        """Whether a side fails, its local request, and the word that it hears."""
        if node.defects[d] and not defect:
            node.ended[d] = self.moment
        node.defects[d] = defect
        waits = not defect and node.ended[d] is not None and self.moment < node.ended[d] + self.plan["wait"]
        node.brought[d] = *node.brought[d][1:], word
        return defect == signalling.SF, max(node.commands[d] or 0, defect, signalling.WTR if waits else 0), signalling.hears(node.brought[d])

    def au_4s(self, clear):
        """The pointer word, the payload and the bytes H3 of each AU-4 of a frame."""
        if clear is None:
            return None
        n, made = self.rate, {}
        rows = [clear[at : at + COLUMNS * n] for at in range(0, len(clear), COLUMNS * n)]
        for kind, first in (("w", 0), ("p", n // 2)):
            for slot in self.slots:
                au = first + slot - 1
                pointers = rows[3][au : HEAD * n : n]
                payload = b"".join(row[HEAD * n + au :: n] for row in rows)
                made[kind, slot] = pointers[0] << 8 | pointers[3], payload, pointers[6:9]
        return made

    def read(self, node, frames, unknown):
        """What each AU-4 is by its interpreter. Where nothing is known of a side its interpreters read nothing."""
        came, kept = {}, dict(node.interpreters)
        for key in node.interpreters:
            if unknown[key[0]]:
                came[key] = AIS
                continue
            word, payload, h3 = SILENCE if frames[key[0]] is None else frames[key[0]][key[1:]]
            kept[key], action = interpret(node.interpreters[key], word)
            came[key] = AIS if action == "ais" else (action, kept[key][1], payload, h3)
        node.interpreters = kept
        return came

    def drop(self, came):
        for c, end in self.ports:
            d, slot = EAST if end == "a" else WEST, self.circuits[c]["slot"]
            origin = self.stands_for(self.p, self.me.state, d, slot)
            self.delivered[c, end] = AIS if origin is None else came[origin]

    # What is written.

    def chunk(self, delivered):
        """The first bytes that a port delivers, or None for AIS."""
        action, value, payload, h3 = delivered
        if action == "ais":
            return None
        whole = b"\xff" * CHUNK if payload == "ones" else payload
        return value, whole[:16]

    def lines(self):
        made = [f"round {self.t} {line_of(self, self.p)}"]
        for c, end in self.ports:
            shown = self.chunk(self.delivered[c, end])
            told = "ais" if shown is None else f"norm {shown[0]} {shown[1].hex()}"
            made.append(f"port {self.circuits[c]['name']} {end} {told}")
        return made

    # Records.

    def own(self, name):
        """The port at the node of the circuit of a name."""
        found = [port for port in self.ports if self.circuits[port[0]]["name"] == name]
        if not found:
            raise Refused(30)
        return found[0]

    def tell(self, words):
        """Does a record that is no round."""
        first, others = words[0], words[1:]
        counts = {"forced": 1, "manual": 1, "clear": 1, "moment": 1, "hold": 1, "slip": 3}
        if first not in counts:
            raise Refused(22)
        if len(others) != counts[first]:
            raise Refused(23)
        getattr(self, "do_" + ("command" if first in NAMED else first))(first, *others)

    def do_command(self, word, side):
        self.me.commands[SIDES.index(one_of(SIDES, side))] = NAMED[word]

    def do_moment(self, _, number):
        now = numeral(number, 0, 1_000_000_000)
        if now < self.moment:
            raise Refused(27)
        self.moment = now

    def do_hold(self, _, number):
        self.me.held = numeral(number, 1, 100)

    def do_slip(self, _, name, turn, count):
        port = self.own(name)
        turn, more = one_of(("up", "down"), turn), numeral(count, 1, 16)
        waiting = self.clocks[port].waiting
        if sum(waiting.values()) + more > SLIPS:
            raise Refused(31)
        waiting[turn] += more


def one_of(listed, word):
    if word not in listed:
        raise Refused(25)
    return word


def numeral(word, low, high):
    if not re.fullmatch(r"0|[1-9][0-9]*", word) or not low <= int(word) <= high:
        raise Refused(26)
    return int(word)


class Stream:
    """Bytes that are read as far as they are asked for."""

    def __init__(self, given):
        self.given, self.at = given, 0

    def take(self, count):
        """So many bytes."""
        part = self.given[self.at : self.at + count]
        self.at += len(part)
        if len(part) < count:
            raise Refused(32)
        return part

    def line(self):
        """The words of a line, or None at the end."""
        if self.at == len(self.given):
            return None
        part = self.given[self.at : self.at + LINE_MAX + 1]
        if b"\n" not in part:
            self.at += len(part)
            raise Refused(33 if len(part) > LINE_MAX else 32)
        said = part[: part.index(b"\n")]
        self.at += len(said) + 1
        words = said.decode("latin-1").split(" ")
        if "" in words:
            raise Refused(23)
        return words

    def head(self):
        """The document, or the status and the line without one."""
        read = self.given[:HEAD_MAX]
        place = 0 if read.startswith(END) else read.find(b"\n" + END) + 1
        if not place and not read.startswith(END):
            self.at = len(read)
            return (9, "too long\n") if len(read) == HEAD_MAX else (17, "bad record 32 at 0\n")
        self.at = place + len(END)
        return read[:place]


def came_in(stream, words, n):
    """What came on both sides, by a record."""
    if len(words) != 3:
        raise Refused(23)
    said = [one_of(CAME, word) for word in words[1:]]
    return [stream.take(size(n)) if word == "frame" else word for word in said]


def serve(stream, bench, with_frames):
    """The answers to all records, as bytes, and how they end."""
    made, number = [], 0
    while True:
        number += 1
        try:
            words = stream.line()
            if words is None:
                return 0, b"".join([*made, b"done\n"])
            if words[0] != "round":
                bench.tell(words)
                continue
            west, east = bench.run(*came_in(stream, words, bench.rate))
        except Refused as refused:
            return 17, b"".join([*made, f"bad record {refused.args[0]} at {number}\n".encode()])
        made.append("\n".join([*bench.lines(), ""]).encode())
        if with_frames:
            made.append(b"bytes %d\n" % (len(west) + len(east)) + west + east)


def answer(given, identifier, with_frames=False):
    """The status and the text."""
    stream = Stream(given)
    document = stream.head()
    if isinstance(document, tuple):
        return document[0], document[1].encode()
    plan = tomllib.loads(document.decode())
    if identifier not in plan["nodes"]:
        return 15, b"no such node\n"
    return serve(stream, Bench(plan, plan["nodes"].index(identifier)), with_frames)


def main(words):
    if not (words and words[0].isdecimal() and words[1:] in ([], ["lines"], ["frames"])):
        refuse(__doc__, words)
    status, text = answer(sys.stdin.buffer.read(), int(words[0]), words[1:] == ["frames"])
    sys.stdout.buffer.write(text)
    return status


if __name__ == "__main__":
    start(main)
