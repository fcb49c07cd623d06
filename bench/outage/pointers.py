"""Pointer interpreters and generators by their tables, each as a function of what it keeps; it shares nothing with the crates.

What an interpreter keeps is (mode, value, AIS words, invalid words, candidate, times that it came, steps since a change)."""
from functools import lru_cache

ONES = 0xFFFF
NORM, SILENT, LOST = "norm", "ais", "lop"
NEW_INTERPRETER = (SILENT, 0, 0, 0, 0, 0, 0)


def bits(number):
    return bin(number).count("1")


def event_of(kept, word):
    """What a word is to an interpreter, and the value that it brings."""
    mode, value, since = kept[0], kept[1], kept[6]
    flags, v = word >> 12, word & 0x3FF
    if word == ONES:
        return "ais", 0
    is_normal, is_enabled = bits(flags ^ 0b0110) <= 1, bits(flags ^ 0b1001) <= 1
    if not is_normal and not is_enabled:
        return "bad", 0
    if is_enabled:
        return ("ndf", v) if v <= 782 else ("bad", 0)
    if mode == NORM and v == value:
        return "same", 0
    if mode == NORM and since == 3:
        increments, decrements = bits((v ^ value) & 0x2AA), bits((v ^ value) & 0x155)
        if increments >= 3 and decrements <= 2:
            return "up", 0
        if decrements >= 3 and increments <= 2:
            return "down", 0
    return ("new", v) if v <= 782 else ("bad", 0)


@lru_cache(maxsize=None)
def interpret(kept, word):
    """What an interpreter keeps after a word, and its action."""
    mode, value, silent, invalid, candidate, times, since = kept
    kind, v = event_of(kept, word)
    grown = min(since + 1, 3) if mode == NORM else 0
    then, action = (mode, value, 0, 0, 0, 0, grown), "normal"
    if kind == "ndf" and mode != LOST:
        then, action = (NORM, v, 0, 0, 0, 0, 0), "new"
    elif kind == "up":
        then, action = (NORM, (value + 1) % 783, 0, 0, 0, 0, 0), "up"
    elif kind == "down":
        then, action = (NORM, (value - 1) % 783, 0, 0, 0, 0, 0), "down"
    elif kind == "new":
        times = times + 1 if times and candidate == v else 1
        if times < 3:
            then = (mode, value, 0, 0, v, times, grown)
        else:
            then, action = (NORM, v, 0, 0, 0, 0, grown), "new"
    elif kind == "ais" and mode != SILENT:
        then = (mode, value, silent + 1, 0, 0, 0, grown) if silent < 2 else (SILENT, value, 0, 0, 0, 0, 0)
    elif kind == "bad" and mode != LOST:
        then = (mode, value, 0, invalid + 1, 0, 0, grown) if invalid < 7 else (LOST, value, 0, 0, 0, 0, 0)
    return then, action if then[0] == NORM else "ais"


@lru_cache(maxsize=None)
def generate(kept, action, value):
    """The word that a generator sends, and what it keeps then: a value, or None while it sends AIS."""
    if action == "ais":
        return ONES, None
    normal, enabled = 0x6800, 0x9800
    if kept is not None:
        if action == "normal" and value == kept:
            return normal | kept, kept
        if action == "up" and value == (kept + 1) % 783:
            return normal | kept ^ 0x2AA, value
        if action == "down" and value == (kept - 1) % 783:
            return normal | kept ^ 0x155, value
    return enabled | value, value
