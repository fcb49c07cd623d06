"""Answers of one node on the bench: lines, and frames between them. What `sdhnode` writes is read strictly, and what differs in two such
texts is named by its field and its rule."""

from __future__ import annotations

import re
from dataclasses import dataclass
from functools import cache

LETTERS = "(?:fs|sf|sd|ms|wtr|rr|nr)"
WORD = "(?:[0-9a-f]{2} [0-9a-f]{2})"
STATES = "(?:idle|pass|switch-west|switch-east|isolated)"
FIRST = re.compile(
    rf"round (?P<round>0|[1-9][0-9]{{0,17}}) node (?P<node>[0-9]|1[0-5]) (?P<state>{STATES}) far (?P<far>-|[0-9]|1[0-5])"
    rf" west (?P<west>{WORD}) east (?P<east>{WORD})"
    rf" heard (?P<heard_west>{WORD}|- -) (?P<heard_east>{WORD}|- -) asks (?P<asks_west>{LETTERS}) (?P<asks_east>{LETTERS})"
)
PORT = re.compile(r"port (?P<name>[a-z0-9_-]{1,16} [ab]) (?P<delivers>ais|norm (?:0|[1-9][0-9]{0,17}) (?:[0-9a-f]{2})*)")
BYTES = re.compile(r"bytes (0|[1-9][0-9]{0,17})")
# The rule of a node's round (docs/RING.md) that decides each field, in the order of the rules.
RULES = (
    ("round", "the round's number", "the order of answers: one for each round"),
    ("node", "the node's identifier", "the node that is on the bench"),
    ("heard_west", "the word heard from the west", "2, defects and words: three frames in a row have to agree"),
    ("heard_east", "the word heard from the east", "2, defects and words: three frames in a row have to agree"),
    ("asks_west", "what the west side asks for", "3, local requests: by defect, command and moment"),
    ("asks_east", "what the east side asks for", "3, local requests: by defect, command and moment"),
    ("state", "the state", "4, the state"),
    ("far", "the far end", "4, the state: the source of the long word that came round"),
    ("west", "the word sent to the west", "4, the words that are sent"),
    ("east", "the word sent to the east", "4, the words that are sent"),
)
ROWS, COLUMNS, HEAD = 9, 270, 9


Difference = tuple[str, str, str, str]  # the field, ours, theirs, and the rule
SCRAMBLING = "9, section overhead and scrambling: all bytes but the first 9 N are scrambled, from seven ones on"


class BenchProblem(Exception):
    """A text isn't one of answers."""


@dataclass(frozen=True)
class Answer:
    fields: dict
    ports: tuple  # of (name and end, what it delivers)
    frames: bytes | None


def line_at(text, at):
    """A line, and where the next one begins."""
    end = text.find(b"\n", at)
    if end < 0:
        raise BenchProblem(f"byte {at + 1}: a line without its newline byte")
    return text[at:end].decode("latin-1"), end + 1


def read_answers(text):
    """The answers, and the last line."""
    answers, at = [], 0
    while True:
        line, after = line_at(text, at)
        if not line.startswith("round "):
            if after != len(text):
                raise BenchProblem(f"byte {at + 1}: `{line[:60]}` stands where an answer or the last line is due")
            return answers, line
        answer, at = read_answer(text, at)
        answers.append(answer)


def read_answer(text, at):
    """One answer, and where the next one begins."""
    line, after = line_at(text, at)
    if not (found := FIRST.fullmatch(line)):
        raise BenchProblem(f"byte {at + 1}: `{line[:120]}` is no line of a round")
    ports = []
    while text.startswith(b"port ", after):
        line, then = line_at(text, after)
        if not (port := PORT.fullmatch(line)):
            raise BenchProblem(f"byte {after + 1}: `{line[:120]}` is no line of a port")
        ports.append((port["name"], port["delivers"]))
        after = then
    if not text.startswith(b"bytes ", after):
        return Answer(found.groupdict(), tuple(ports), None), after
    line, start = line_at(text, after)
    if not (count := BYTES.fullmatch(line)) or len(text) - start < int(count[1]):
        raise BenchProblem(f"byte {after + 1}: `{line[:60]}`, and fewer bytes follow")
    after = start + int(count[1])
    return Answer(found.groupdict(), tuple(ports), text[start:after]), after


def place_of(frame_size, at):
    """The field of a frame that a byte belongs to, by row and column counted from 1, and its rule."""
    n = frame_size // (ROWS * COLUMNS)
    row, column = divmod(at, COLUMNS * n)
    where = f"row {row + 1}, column {column + 1}"
    if column >= HEAD * n:
        return where, f"payload of AU-4 {column % n + 1}", "6 and 7, connections and what ports send"
    if row == 3:
        return where, f"pointer of AU-4 {column % n + 1}", "8, pointer generators"
    if row == 4 and column in (3 * n, 6 * n):
        return where, "K1" if column == 3 * n else "K2", "4, the words that are sent"
    if (row, column) == (1, 0):
        return where, "B1", "9, section overhead: over the frame before, as it was on the line"
    if row == 4 and column < 3 * n:
        return where, "B2", "9, section overhead: over the frame before, without scrambling"
    return where, "section overhead", "9, section overhead and scrambling"


def first_difference(ours, theirs):
    """What differs first in two answers, as (field, ours, theirs, rule), or None."""
    for key, name, rule in RULES:
        if ours.fields[key] != theirs.fields[key]:
            return name, ours.fields[key], theirs.fields[key], rule
    for mine, other in zip(ours.ports, theirs.ports):
        if mine != other:
            return f"what port {mine[0]} delivers", mine[1], f"port {other[0]} {other[1]}" if mine[0] != other[0] else other[1], "5 to 7, interpreters, connections, deliveries"
    if len(ours.ports) != len(theirs.ports):
        return "the number of ports", str(len(ours.ports)), str(len(theirs.ports)), "the circuits of the plan that end at the node"
    return first_byte(ours.frames, theirs.frames)


@cache
def sequence(n: int) -> bytes:
    """Returns what the scrambler of ITU-T G.707 adds to a frame of STM-n: nothing to the first 9n bytes, then 1 + x^6 + x^7 from seven ones on."""
    bits = [1] * 7
    while len(bits) < 8 * 127:
        bits.append(bits[-6] ^ bits[-7])
    period = bytes(int("".join(map(str, bits[at : at + 8])), 2) for at in range(0, 8 * 127, 8))
    clear, length = HEAD * n, ROWS * COLUMNS * n
    return bytes(clear) + (period * (length // 127 + 1))[: length - clear]


def added(frame: bytes, other: bytes) -> bytes:
    """Returns the exclusive or of two stretches of one length."""
    return (int.from_bytes(frame, "big") ^ int.from_bytes(other, "big")).to_bytes(len(frame), "big")


def is_scrambled_otherwise(ours: bytes, theirs: bytes, n: int) -> bool:
    """Returns whether two frames, from which the sequence was taken, differ all over their section overhead: then another sequence was added."""
    places = [row * COLUMNS * n + column for row in range(1, ROWS) for column in range(HEAD * n)]
    differing = sum(ours[at] != theirs[at] for at in places)
    return 2 * differing > len(places)


def first_in_frame(ours: bytes, theirs: bytes) -> Difference | None:
    """Returns the first byte of two frames on the line that differs, with its values before the scrambler."""
    n = len(ours) // (ROWS * COLUMNS)
    clear, other = (added(frame, sequence(n)) for frame in (ours, theirs))
    at = next((i for i, pair in enumerate(zip(clear, other)) if pair[0] != pair[1]), None)
    if at is None:
        return None
    where, field, rule = place_of(len(ours), at)
    if is_scrambled_otherwise(clear, other, n):
        used = added(theirs, clear)
        return f"{where}, the scrambling: what is added here to the frame", f"{sequence(n)[at]:02x}", f"{used[at]:02x}", SCRAMBLING
    return f"{where}, {field}, before the scrambler", f"{clear[at]:02x}", f"{other[at]:02x}", rule


def first_byte(ours: bytes | None, theirs: bytes | None) -> Difference | None:
    """Returns the first byte of two pairs of frames that differs."""
    if ours == theirs:
        return None
    if ours is None or theirs is None:
        told = ["no frames" if frames is None else f"{len(frames)} bytes" for frames in (ours, theirs)]
        return "the frames that leave", *told, "the word `frames`, with which each answer has the two frames that leave"
    if len(ours) != len(theirs):
        return "the bytes of both frames", str(len(ours)), str(len(theirs)), "the rate of the plan"
    if len(ours) % (2 * ROWS * COLUMNS):
        return "the bytes of both frames", str(len(ours)), f"{len(theirs)} others", "the rate of the plan: two frames of 2430 bytes for each AU-4"
    size = len(ours) // 2
    for side, begin in (("west", 0), ("east", size)):
        if found := first_in_frame(ours[begin : begin + size], theirs[begin : begin + size]):
            place, here, there, rule = found
            return f"the frame to the {side}, {place}", here, there, rule
    return None
