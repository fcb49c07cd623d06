"""Pointer words for interpreters: many at once, one in each AU-4 that leaves the node again on the other side or at a port."""

from __future__ import annotations

import random
from collections.abc import Callable, Iterator

from .arriving import Making, Plan, Stream, circuit
from .node import EAST, LOST, NEW, NORM, ONES, WEST, interpret

NORMAL, ENABLED = 0x6000, 0x9000
SS = 0x0800
ROUNDS = 44
# What comes in a row after the pointer is at rest: a letter for each word, as `word` reads it.
SCRIPTS = (
    "s s a s a a s a a a s n", "a a a a n n s n n n s", "b b b b b b b s b b b b b b b b s n n n", "b b b b b b b b d s a a a n s n n n s u",
    "n m n n m m n n n s", "n n s n n n s m m a m b m m m s", "d s s s u s s s v s s s u u u s s s v v", "d u s d s u s s d s s u s s s u",
    "a a b a a s b a b b b b b b b s", "E s F s 0 s 0 s f s g s", "x s y s x x x s d y y y y y y y y s", "a a a b b b b b b b s a a a b b b b b b b b n n n d s",
    "b b b b b b b s x b b b b b b b b d d n n s n n n s", "N N N s n s D s D D s", "d d d s a a d a a a d s", "b b b b b b b b a a a a d n n n s u s",
)

# Every number of inverted bits I beside every number of inverted bits D.
JUSTIFICATIONS = tuple(" ".join(f"{up}{down} s s s" for down in range(6)) for up in range(6))
# After every event: words that lead to AIS, to loss of pointer and to a new value, and a justification too soon and in time.
EVENTS = ("s", "d", "D", "30", "03", "n n n", "a", "b", "n", "a a a", "b b b b b b b b")
AFTER = ("a a a s d", "b b b b b b b b n n n", "n n n s", "O O s s", "s s u s s s", "s s s v s s s")
EFFECTS = tuple(" ".join(f"s s s {event} {after}" for after in AFTER) for event in EVENTS)


def odd(dice: random.Random, word: int, mask: int, count: int) -> int:
    """Returns a word in which this number of the mask's bits is inverted."""
    for bit in dice.sample([1 << at for at in range(16) if mask >> at & 1], count):
        word ^= bit
    return word


class Lane:
    """One AU-4 whose pointer words are chosen one by one, by what the interpreter keeps."""

    def __init__(self, dice: random.Random, script: str = "") -> None:
        self.dice, self.kept, self.script = dice, NEW, ["d", "s", "s", "s", *script.split()]
        self.fresh = [dice.randrange(783) for _ in range(2)]

    def next(self) -> int:
        """Returns the next word."""
        letter = self.script.pop(0) if self.script else self.any_letter()
        word = self.word(letter)
        self.kept = interpret(self.kept, word)[0]
        return word

    def any_letter(self) -> str:
        mode, _, _, _, _, times, _ = self.kept
        letters = [*"ssssuvduvnnmabxyEFfg0D", "30", "41", "22", "32", "33", "53", "24", "03", "15"] if mode == NORM else [*"nnnmmdabsxy"]
        if times:
            letters += "nnnnmm"
        if mode == LOST or self.kept[3] > 2:
            letters += "bbbbbb"
        letter = self.dice.choice(letters)
        if letter in "nb" and self.dice.randrange(3) == 0:
            self.script = [letter] * self.dice.choice((2, 3, 7, 8) if letter == "b" else (1, 2, 3))
        return letter

    def word(self, letter: str) -> int:
        """Returns the word of a letter: the same, an increment, a decrement, new data, a new value, AIS, an invalid one, and forms of these."""
        dice, value = self.dice, self.kept[1]
        base = NORMAL | dice.choice((0, 0x0400, SS, SS, SS, 0x0C00))
        made = {
            "s": base | value,
            "u": base | value ^ 0x2AA,
            "v": base | value ^ 0x155,
            "n": base | self.fresh[0],
            "m": base | self.fresh[1],
            "a": ONES,
            "x": base | dice.choice((783, 784, 1000, 1023)),
            "y": ENABLED | dice.choice((783, 800, 1023)),
            "d": ENABLED | SS | dice.choice((0, 1, 782, dice.randrange(783))),
            "D": ENABLED | SS | value,
            "N": base | dice.choice((0, 782)),
            "O": base,
        }
        if letter in made:
            return made[letter]
        return self.other_word(letter, base, value)

    def other_word(self, letter: str, base: int, value: int) -> int:
        dice = self.dice
        if letter == "b":
            return dice.choice((0x0000, 0x3000, 0xA000, 0xC000, 0x5000 ^ 0x9000, 0xF000)) | dice.randrange(1023)
        if letter in "EFfg":
            flags = {"E": NORMAL, "F": ENABLED, "f": NORMAL, "g": ENABLED}[letter]
            count = 1 if letter in "EF" else 2
            return odd(dice, flags | SS | value, 0xF000, count)
        if letter == "0":
            return odd(dice, NORMAL | SS | value, 0x3FF, 1)
        up, down = map(int, letter)  # inverted bits of those that an increment inverts, and of those of a decrement
        return odd(dice, odd(dice, base | value, 0x2AA, up), 0x155, down)


def pointer_streams() -> Iterator[Callable[[], Stream]]:
    """Words in each state of an interpreter: those of scripts first, then words by chance."""
    for number in range(0, len(SCRIPTS), 4):
        for again in range(2):
            yield lambda number=number, again=again: lane_stream(f"pointer-rows-{number}-{again}", 4, SCRIPTS[number : number + 4], to_ports=again == 1)
    for again in range(2):
        yield lambda again=again: lane_stream(f"pointer-bits-0-{again}", 4, JUSTIFICATIONS[:4], to_ports=again == 1)
        yield lambda again=again: lane_stream(f"pointer-bits-1-{again}", 4, JUSTIFICATIONS[2:], to_ports=again == 1)
    for number in range(0, len(EFFECTS), 4):
        for again in range(2):
            yield lambda number=number, again=again: lane_stream(f"pointer-effects-{number}-{again}", 4, EFFECTS[number : number + 4], 86, to_ports=again == 1)
    for number in range(6):
        yield lambda number=number: lane_stream(f"pointer-words-{number}", 4, ())
    yield origin_stream
    for number in range(3):
        yield lambda number=number: lane_stream(f"pointer-words-{number}-16", 16, SCRIPTS if number == 0 else ())


def origin_stream() -> Stream:
    """What leaves comes from elsewhere in the very round in which that justifies: it is sent as new data."""
    plan = Plan(4, (3, 1, 4, 2))
    for slot in (1, 2):
        circuit(plan, 0, 2, slot)
    making = Making("pointer-origins", "an AU-4 that leaves changes its origin in the round in which the new origin brings an increment or a decrement", plan, 1)
    making.begin(3)
    making.sides[EAST].word = making.long(EAST, 11, 3)
    making.round(count=4)
    for words, bits in (("forced west", 0x155), ("clear west", 0x2AA), ("forced west", 0x2AA), ("clear west", 0x155)):
        making.say(words)
        for side in making.sides:
            side.pointers = {au: (NORMAL | SS | value) ^ bits for au, value in enumerate(side.values)}
            side.values = [(value + (1 if bits == 0x2AA else -1)) % 783 for value in side.values]
        making.round(count=5)
    return making.stream


def lane_stream(name: str, rate: int, scripts: tuple[str, ...], rounds: int = ROUNDS, to_ports: bool = False) -> Stream:
    """Words for interpreters: what they take leaves again on the other side, or, for some slots or all, is delivered at ports."""
    plan = Plan(rate, (3, 1, 4, 2))
    for slot in range(1, rate // 2 + 1):
        if to_ports or slot % 4 == 3:
            circuit(plan, 0, 1, slot)
            circuit(plan, 1, 2, slot)
        else:
            circuit(plan, 0, 2, slot)
    making = Making(name, "pointer words in each state of an interpreter, right and wrong ones: what is taken, and what leaves for it", plan, 1)
    keys = [(d, slot) for slot in range(1, rate // 2 + 1) for d in (WEST, EAST)]
    lanes = {key: Lane(making.dice, scripts[at] if at < len(scripts) else "") for at, key in enumerate(keys)}
    making.round("none", "none")
    for _ in range(rounds):
        for (d, slot), lane in lanes.items():
            making.sides[d].pointers[slot - 1] = lane.next()
        making.round()
    return making.stream
