#!/usr/bin/env python3
"""Compares the program's answers on changed plans with those of a second reading, plans.py.

  mutate.py [--count N] [--seed S] [--batch B] [--jobs J] COMMAND..

Plans are made by chance from the seed, and each is changed in one to four places: bytes, numbers, words, lines, keys, whole tables.
COMMAND reads one plan from standard input; of what it writes, the last line counts: `bad plan R at P`, `not toml`, and anything
else for a plan that is accepted. With --batch it reads many documents at once, each after its length in decimal and a newline, and
writes one such line for each. Prints each document on which the two differ, and at the end how often each answer came.
Exits with 1 where a document differs, or where a reason 1 to 29 never came.
"""

import sys
from pathlib import Path

sys.path.insert(0, str(Path(__file__).resolve().parents[2] / "tools"))
from ringtools.starting import start

import argparse
import collections
import concurrent.futures
import random
import re
import subprocess

from plans import answer

NUMBERS = (
    "0 1 -1 2 3 4 5 8 9 12 13 15 16 17 48 49 782 783 1000 65536 65537 1000000 1000001 1000000000 1000000001 4294967297 "
    "9223372036854775807 9223372036854775808 -9223372036854775808 18446744073709551617 +3 03 0x4 0b11 1_0 1__0 4.0 1e1 1e999 inf nan"
).split()
VALUES = NUMBERS + [
    "true", "'2'", '""', "''", "[]", "{}", "[1]", "[[]]", "['settle']", '"c1"', '"\\u0041"', '"\\x41"', '"\\e"', '"\\u00e9"', "'''\n1'''",
    '"""a"""', "2026-01-02", "10:30", "2026-01-02 10:30:00Z", "2026-02-30", "{a = 1}", "{a = 1,\n}", "[1,\n 2,]", "[{}]", "[" * 81 + "]" * 81,
]  # fmt: skip
WORDS = "cut mend degrade forced manual clear moment settle hold slip lock Cut west east up down a b c0 c1 c9 East 0 1 2 3 7 9 12 13 15 16 48 49 05 +1 1000000000 1000000001 5 4 \u00e9".split() + [""]
BYTES = [b"\n", b"\r\n", b"\r", b"\t", b" ", b"  ", b"#", b"=", b",", b".", b"[", b"]", b"{", b"}", b'"', b"'", b'"""', b"\\", b"_", b"-", b"0", b"1", b"9", b"a", b"\x00", b"\x7f", b"\x80", b"\xc3\xa9", b"\xef\xbb\xbf"]  # fmt: skip
KEYS = "rate nodes threshold wait limit script circuit name from to slot text_a text_b trace_a trace_b offset_a offset_b colour".split()
NAMES = ["c1", "c2", "a-b_c", "x" * 16, "x" * 17, "C1", "", "c 1", "~", "\u00e9"]
TEXTS = ["ALPHA", "BETA!", " ", "~", "", "x" * 64, "x" * 65, "\u00e9", "\\t", "\x7f"]

BORDERS = {
    "rate": (4, 5, 8, 16, 17),
    "nodes": ("[1]", "[]", "[1, 1]", "[3, 16, 3]", "[0, -1]", "[1, 2, 3, 2, 1]", list(range(17)), list(range(16)), "[1, '2']"),
    "threshold": (0, 1, 12, 13, 48, 49),
    "wait": (-1, 0, 1000000, 1000001),
    "limit": (0, 1, 65536, 65537),
    "script": ('["slip c0 a up 9", "slip c0 a down 8", "settle"]', '["slip c0 a up 9", "settle", "slip c0 a down 8", "slip c0 b up 16", "settle"]', "[]", '["settle", 1]', '["moment 9", "moment 8"]', '["moment 1000000000", "moment 1000000001", "settle"]', '"settle"', '["settle", ""]'),
    "circuit": ("[]", "{}", "[1]", "3", "[[]]"),
    "from": (0, 1, 2, 3, 16, -1),
    "to": (0, 1, 2, 3, 16, -1),
    "slot": (0, 1, 2, 3, 8, 9),
    "offset_a": (-1, 0, 782, 783),
    "offset_b": (-1, 0, 782, 783),
}


def plan(chance):
    """A plan, nearly always one that is accepted."""
    rate = chance.choice((4, 16))
    nodes = chance.sample(range(16), chance.randint(2, 16 if chance.random() < 0.2 else 5))
    lines = [
        f"rate = {rate}",
        f"nodes = {nodes}",
        f"threshold = {chance.choice((1, 3, 3 * rate))}",
        f"wait = {chance.choice((0, 10, 1000000))}",
        f"limit = {chance.choice((1, 2, 65536) if chance.random() < 0.1 else (1,))}",
        f"script = [{', '.join(map(quoted, script(chance, rate, nodes)))}]",
    ]
    if chance.random() < 0.3:
        chance.shuffle(lines)
    count = chance.choice((0, 1, 1, 2, 2, 3, 6))
    tables = [circuit(chance, rate, nodes, place) for place in range(min(count, rate // 2 + (chance.random() < 0.1)))]
    if tables and chance.random() < 0.15:
        lines.append("circuit = [" + ", ".join("{" + ", ".join(table) + "}" for table in tables) + "]")
    else:
        lines += [line for table in tables for line in ["[[circuit]]"] + table]
    return chance.choice(("\n", "\n", "\n", "\r\n")).join(lines) + chance.choice(("\n", ""))


def circuit(chance, rate, nodes, place):
    start, end = chance.sample(nodes, 2)
    lines = [
        f"name = {quoted(f'c{place}' if chance.random() < 0.95 else chance.choice(NAMES))}",
        f"from = {start}",
        f"to = {end}",
        f"slot = {place % (rate // 2) + 1 if chance.random() < 0.95 else chance.randint(1, rate // 2)}",
        f"text_a = {quoted('ALPHA')}",
        f"text_b = {quoted('BETA!')}",
    ]
    for key in ("trace_a", "trace_b"):
        if chance.random() < 0.3:
            lines.append(f"{key} = {quoted(chance.choice(TEXTS[:4]))}")
    for key in ("offset_a", "offset_b"):
        if chance.random() < 0.3:
            lines.append(f"{key} = {chance.choice((0, 522, 782))}")
    if chance.random() < 0.3:
        chance.shuffle(lines)
    return lines


def script(chance, rate, nodes):
    if chance.random() < 0.02:
        return ["settle"] * chance.choice((63, 64, 65, 66))
    if chance.random() < 0.005:
        return ["mend %d east" % nodes[0]] * chance.choice((998, 999, 1000)) + ["settle"]
    steps, moment = [], 0
    for _ in range(chance.choice((0, 1, 2, 3, 8))):
        node, side = chance.choice(nodes), chance.choice(("west", "east"))
        moment = min(1_000_000_000, moment + chance.choice((0, 1, 1000, 500_000_000)))
        steps.append(
            chance.choice(
                (f"cut {node} {side}", f"mend {node} {side}", f"degrade {node} {side} {chance.randint(1, 3 * rate)}",
                 f"forced {node} {side}", f"manual {node} {side}", f"clear {node} {side}", f"hold {node} {chance.choice((1, 2, 99, 100))}",
                 f"slip c{chance.randint(0, 2)} {chance.choice('ab')} {chance.choice(('up', 'down'))} {chance.choice((1, 2, 5, 16))}", f"moment {moment}", "settle")
            )
        )  # fmt: skip
    return steps + ["settle"]


def quoted(text):
    return f"'{text}'" if "'" not in text and len(text) % 3 == 0 else f'"{text}"'


def changed(chance, data):
    change = chance.choice((a_border, a_border, a_step, a_byte, a_byte, a_number, a_number, a_value, a_value, a_word, a_word, a_word, a_line, a_line, a_key, a_text, a_circuit))
    return change(chance, data)


def place_of(chance, data, pattern):
    found = list(re.finditer(pattern, data))
    return chance.choice(found) if found else None


def put(chance, data, pattern, choices):
    found = place_of(chance, data, pattern)
    if not found:
        return data
    new = chance.choice(choices)
    return data[: found.start()] + (new.encode() if isinstance(new, str) else new) + data[found.end() :]


def a_byte(chance, data):
    at = chance.randrange(len(data) + 1)
    return data[:at] + chance.choice(BYTES + [b""]) + data[at + chance.choice((0, 0, 1, 1, 3)) :]


def a_number(chance, data):
    return put(chance, data, rb"\d+", NUMBERS)


def a_value(chance, data):
    return put(chance, data, rb"(?<== )[^\n]*", VALUES)


def a_border(chance, data):
    """A value at the edge of its range, in place of one or besides."""
    key = chance.choice(list(BORDERS))
    line = f"{key} = {chance.choice(BORDERS[key])}".encode()
    lines = [at for at in re.finditer(rb"(?m)^" + key.encode() + rb" = [^\n]*", data)]
    if lines:
        at = chance.choice(lines)
        return data[: at.start()] + line + data[at.end() :]
    circuits = [at.start() for at in re.finditer(rb"(?m)^slot", data)] if key.startswith("offset") else [0]
    at = chance.choice(circuits) if circuits else 0
    return data[:at] + line + b"\n" + data[at:]


def a_step(chance, data):
    """A step more, of the eight forms, which needn't be one of this ring."""
    step = chance.choice(("cut 1 east", "mend 15 west", "degrade 2 east 12", "degrade 3 west 13", "degrade 1 west 49", "forced 0 up", "manual 2 west", "clear 7 east", "moment 0", "moment 6", "moment 1000000000", "settle", "settle now"))  # fmt: skip
    return put(chance, data, rb"(?<=\[)(?=['\"])|(?<=, )(?=['\"])", [f'"{step}", '])


def a_word(chance, data):
    found = place_of(chance, data, rb"script = [^\n]*")
    if not found:
        return data
    line = found.group()
    line = chance.choice(
        (
            lambda: put(chance, line, rb"[\w+]+", WORDS),
            lambda: put(chance, line, rb" (?=\w)", ["  ", "", " \t", " a "]),
            lambda: put(chance, line, rb"(?<=['\"])(?=\w)", [" ", "a "]),
            lambda: put(chance, line, rb"(?<=\w)(?=['\"])", [" ", " 5", " west", "s"]),
            lambda: put(chance, line, rb"(?<=\[)", ['"moment 7", ', '"degrade 2 east 48", ', '"", ', "1, ", '"cut 1 west", ', '"lock  1", ']),
            lambda: put(chance, line, rb"(?=\])", [', "moment 3"', ', "mend 3 west"', ', ""', ', "settle"', ","]),
        )
    )()
    return data[: found.start()] + line + data[found.end() :]


def a_line(chance, data):
    lines = data.split(b"\n")
    at, to = chance.randrange(len(lines)), chance.randrange(len(lines))
    change = chance.choice("drop drop twice swap move new".split())
    if change == "drop":
        del lines[at]
    elif change == "twice":
        lines.insert(at, lines[at])
    elif change == "swap":
        lines[at], lines[to] = lines[to], lines[at]
    elif change == "move":
        lines.insert(to, lines.pop(at))
    else:
        lines.insert(at, f"{chance.choice(KEYS)} = {chance.choice(VALUES)}".encode())
    return b"\n".join(lines)


def a_key(chance, data):
    return put(chance, data, rb"(?m)^\w+(?= =)", KEYS + ['"rate"', "'slot'", "a.b", "circuit.x", ".".join("a" * 80), ".".join("a" * 81)])


def a_text(chance, data):
    key = chance.choice((b"name", b"text_a", b"text_b", b"trace_a", b"trace_b"))
    return put(chance, data, rb"(?<=" + key + rb" = )[^\n,}]*", [quoted(text) for text in (NAMES if key == b"name" else TEXTS)])


def a_circuit(chance, data):
    """A table more, or its header changed."""
    if chance.random() < 0.3:
        return put(chance, data, rb"\[\[circuit\]\]", ["[circuit]", "[[circuits]]", "[circuit.x]", "[[circuit.x]]", "", "[[ circuit ]]", "[[circuit]] # x"])
    header = b"\n[[circuit]]\n"
    table = [line.encode() for line in circuit(chance, chance.choice((4, 16)), [1, 2, 3], chance.randrange(4))]
    return data + header + b"\n".join(table) + b"\n"


def document(seed):
    chance = random.Random(seed)
    data = plan(chance).encode()
    for _ in range(chance.choice((0, 1, 1, 1, 2, 2, 3, 4))):
        data = changed(chance, data)
    return data


def last_line(text):
    lines = text.decode("utf-8", "replace").rstrip("\n").split("\n")
    return shown(lines[-1])


def shown(line):
    return line if line == "not toml" or line.startswith("bad plan ") else "plan"


def given(words, batch, documents):
    if not batch:
        return [last_line(subprocess.run(words, input=data, capture_output=True).stdout) for data in documents]
    text = b"".join(b"%d\n" % len(data) + data for data in documents)
    lines = subprocess.run(words, input=text, capture_output=True).stdout.decode().splitlines()
    return [shown(line) for line in lines] + ["nothing"] * (len(documents) - len(lines))


def compare(seeds, words, batch):
    documents = [document(seed) for seed in seeds]
    told = given(words, batch, documents)
    return [(seed, data, answer(data), line) for seed, data, line in zip(seeds, documents, told)]


def main(given_words):
    parser = argparse.ArgumentParser(description=__doc__, formatter_class=argparse.RawDescriptionHelpFormatter)
    parser.add_argument("--count", type=int, default=1000)
    parser.add_argument("--seed", type=int, default=1)
    parser.add_argument("--batch", type=int, default=0)
    parser.add_argument("--jobs", type=int, default=2)
    parser.add_argument("command", nargs=argparse.REMAINDER)
    words = parser.parse_args(given_words)
    if not words.command:
        parser.error("no command")
    seeds = range(words.seed * 1_000_000_000, words.seed * 1_000_000_000 + words.count)
    size = words.batch or 100
    parts = [seeds[at : at + size] for at in range(0, words.count, size)]
    answers, differ = collections.Counter(), 0
    with concurrent.futures.ProcessPoolExecutor(words.jobs) as pool:
        count = len(parts)
        for results in pool.map(compare, parts, [words.command] * count, [words.batch] * count):
            for seed, data, wanted, line in results:
                answers[wanted] += 1
                if wanted != line:
                    differ += 1
                    print(f"seed {seed}: {line!r}, wanted {wanted!r}\n{data!r}", flush=True)
    reasons = collections.Counter()
    for line, times in answers.items():
        reasons[line.rsplit(" at ", 1)[0]] += times
    for line, times in sorted(reasons.items(), key=lambda item: [int(d) for d in re.findall(r"\d+", item[0])]):
        print(f"{times:8} {line}")
    missing = [reason for reason in range(1, 32) if not reasons[f"bad plan {reason}"]]
    print(f"{words.count} documents, {differ} differ, {len(answers)} answers" + (f", reasons that never came: {missing}" if missing else ""))
    return 1 if differ or missing else 0


if __name__ == "__main__":
    start(main)
