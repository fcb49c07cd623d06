"""K1 and K2 in words."""

from dataclasses import dataclass

CODES = {
    13: ("FS", "forced switch"),
    11: ("SF", "signal fail"),
    8: ("SD", "signal degrade"),
    6: ("MS", "manual switch"),
    5: ("WTR", "wait to restore"),
    1: ("RR", "reverse request"),
    0: ("NR", "no request"),
}
MARKS = {7: "MS-AIS", 6: "RDI", 2: "bridged and switched", 1: "bridged", 0: "idle"}
MARK_LETTERS = {7: "AIS", 6: "RDI", 2: "BrSw", 1: "Br", 0: "Id"}


@dataclass(frozen=True)
class Word:
    k1: int
    k2: int

    @property
    def code(self):
        return self.k1 >> 4

    @property
    def mark(self):
        return self.k2 & 7

    @property
    def to(self):
        return self.k1 & 15

    @property
    def sender(self):
        return self.k2 >> 4

    @property
    def path(self):
        return "long" if self.k2 & 8 else "short"

    @property
    def counts(self):
        """What makes it another word for those who hear it: all of it but the mark."""
        return self.k1, self.k2 >> 3

    def known(self):
        return self.code in CODES and self.mark in MARKS

    def hexadecimal(self):
        return f"{self.k1:02x} {self.k2:02x}"

    def words(self):
        """As 'SF (signal fail) to 3 from 2, long path, bridged and switched'."""
        short, long = CODES[self.code]
        return f"{short} ({long}) to {self.to} from {self.sender}, {self.path} path, {MARKS[self.mark]}"

    def letters(self):
        """Code, destination, source and path, as 'SF/3/2/L'."""
        return f"{CODES[self.code][0]}/{self.to}/{self.sender}/{self.path[0].upper()}"
