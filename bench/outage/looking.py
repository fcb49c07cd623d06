"""The kinds of rounds by looking at the bytes that a port delivers, as the program does, and not at the simulation's tags. So it says what
is to be seen also where two of a customer's chunks are alike."""
from customers import CHUNK, Stream
from simulate import BACK, FRONT, Outage, Outages, streams_of

BEFORE, NEAR = 71, 78  # in chunks: where the bytes that can be on their way begin, and how many there are


class Written:
    """A customer's stream as far as it was asked for."""

    def __init__(self, stream):
        self.stream, self.whole, self.vcs = stream, b"", 0

    def upto(self, end):
        """Its bytes up to this one and some more, VC-4 after VC-4; the first is begun where the stream begins in it."""
        made = []
        while len(self.whole) < end and CHUNK * self.vcs - self.stream.skipped < end + CHUNK * NEAR:
            made.append(self.stream.vc(self.vcs)[0 if self.vcs else self.stream.skipped :])
            self.vcs += 1
        self.whole += b"".join(made)
        return self.whole

    def part(self, start, count):
        return self.upto(start + count)[start : start + count]

    def has(self, part, t):
        """Whether this stands, as a whole, among the bytes that are near in a round."""
        start = CHUNK * max(0, t - BEFORE)
        return self.upto(start + CHUNK * NEAR).find(part, start, start + CHUNK * NEAR) >= 0


class LookedAt(Outage):
    """What one port delivered, by its bytes; `before` are those of the round before, none where that brought AIS."""

    def __init__(self, line, other, written):
        super().__init__(line, other)
        self.written, self.before = written, None

    def bytes_of(self, delivered):
        """What an AU-4 brings: what was put in, with H3, taken out as the interpreter says."""
        action, _, payload, h3 = delivered
        h3 = b"\xff" * 3 if h3 == "ones" else bytes(3) if h3 == "zeros" else self.written[h3[:2]].part(h3[2] + 783, 3)
        if payload == "ones":
            payload = b"\xff" * CHUNK
        else:
            *port, start, form = payload
            stream, skipped = self.written[tuple(port)], {"up": -3, "down": 3}.get(form, 0)
            rest = stream.part(start + 783 + max(0, skipped), CHUNK - 783 + min(0, skipped))
            payload = stream.part(start, 783) + bytes(3 if form == "up" else 0) + rest
        return {"up": payload[:783] + payload[786:], "down": payload[:783] + h3 + payload[783:]}.get(action, payload)

    def kind(self, t, delivered):
        if delivered[0] == "ais":
            self.before = None
            return "ais"
        before, now, near = self.before, self.bytes_of(delivered), self.written[self.other]
        self.before = now
        if now == b"\xff" * len(now):
            return "ones"
        if not near.has(now, t):
            return self.others(t, now)
        return "jump" if before is not None and near.has(before, t) and not near.has(before + now, t) else "order"


    def others(self, t, now):
        """The kind of a round that brought neither AIS nor ones nor own bytes as one part, by its two pieces."""
        pieces = now[:FRONT], now[len(now) - BACK :]
        if all(self.written[self.other].has(piece, t) for piece in pieces):
            return "torn"
        for port, written in self.written.items():
            if port[0] != self.other[0] and any(written.has(piece, t) for piece in pieces):
                return self.foreign(port)
        return "strange"


class Looks(Outages):
    """The text of `sdhoutage run`, by the bytes."""

    def made(self):
        written = {port: Written(Stream(*given)) for port, given in streams_of(self.ring.circuits).items()}
        return lambda line, other: LookedAt(line, other, written)
