"""What a customer sends: a clock that slips, and the bytes of its stream at any place."""
from functools import cache, reduce
from operator import xor

CHUNK = 2349
LENGTHS = {"normal": CHUNK, "up": CHUNK - 3, "down": CHUNK + 3}


class Clock:
    """Says in each round from which byte of its stream a port sends, and how: as it stands, or with a justification."""

    def __init__(self, offset):
        self.value, self.position, self.t = offset, 0, 0
        self.waiting = {"up": 0, "down": 0}
        self.justified = None

    def next(self):
        """The round's first byte and its form; the value then is that after the round."""
        form = "normal"
        if self.t >= 4 and (self.justified is None or self.t - self.justified > 3):
            form = "up" if self.waiting["up"] else "down" if self.waiting["down"] else "normal"
        position = self.position
        self.position += LENGTHS[form]
        if form != "normal":
            self.waiting[form] -= 1
            self.justified = self.t
            self.value = (self.value + (1 if form == "up" else -1)) % 783
        self.t += 1
        return position, form


class Stream:
    """The bytes of a port's VC-4s, one after the other, of its text and trace as bytes."""

    def __init__(self, text, trace, offset):
        self.text, self.trace = text, trace.ljust(64)
        self.skipped = (CHUNK - (783 + 3 * offset) % CHUNK) % CHUNK
        self.parities = [0]
        self.sum_of_texts = cache(self.sum_of_texts)

    def sum_of_texts(self, start):
        """Exclusive or of a VC-4's text, which begins at this byte of the port's."""
        return reduce(xor, (self.text * (2340 // len(self.text) + 2))[start : start + 2340])

    def parity(self, v):
        """B3 of VC-4 number v: over all bytes of the one before."""
        while len(self.parities) <= v:
            before = len(self.parities) - 1
            texts = self.sum_of_texts(2340 * before % len(self.text))
            self.parities.append(texts ^ self.trace[before % 64] ^ self.parities[-1] ^ 1)
        return self.parities[v]

    def vc(self, v):
        """VC-4 number v, row by row."""
        first, start = [self.trace[v % 64], self.parity(v), 1, 0, 0, 0, 0, 0, 0], 2340 * v % len(self.text)
        texts = (self.text * (2340 // len(self.text) + 2))[start : start + 2340]
        return b"".join(bytes([first[row]]) + texts[260 * row : 260 * row + 260] for row in range(9))

    def byte(self, position):
        v, place = divmod(position + self.skipped, CHUNK)
        row, column = divmod(place, 261)
        if column:
            return self.text[(2340 * v + 260 * row + column - 1) % len(self.text)]
        return self.parity(v) if row == 1 else self.trace[v % 64] if row == 0 else int(row == 2)

    def bytes(self, position, count):
        return bytes(self.byte(position + i) for i in range(count))
