"""Whole frames of the plain simulation (bench/aps): held against the proved sdhring, against G.707, and against a reader of frames."""

import re
import subprocess
import sys
import tomllib
import unittest
from functools import cache, reduce
from operator import xor

from common import PATIENCE, RINGS, TOOLS

from rules import Stream

ROOT = TOOLS.parent
BENCH, SDHRING, SDHAPS = ROOT / "bench" / "aps", ROOT / "dist" / "sdhring", ROOT / "dist" / "sdhaps"
sys.path.insert(0, str(BENCH))

import frames  # noqa: E402
import signalled  # noqa: E402

CUT = ROOT / "examples" / "span-cut.toml"
# The first bytes of the scrambling sequence of SDH, as test sets and textbooks print it.
SEQUENCE = "fe041851e459d4fa1c49b5bd8d2ee655"
SLIPS = """rate = 16
nodes = [3, 9, 5]
threshold = 1
wait = 0
limit = 1000
script = ["slip c1 a up 3", "slip c1 b down 2", "settle"]
[[circuit]]
name = "c1"
from = 9
to = 3
slot = 2
text_a = "from the one end"
text_b = "from the other"
offset_a = 300
offset_b = 521
"""


def text_of(plan, *words):
    return subprocess.run([SDHRING, *words], input=plan, capture_output=True).stdout.decode()


@cache
def sent(plan, node, side, first, count):
    return frames.frames(tomllib.loads(plan), node, side, first, count)


def clear(rate, line):
    return frames.Scrambler(rate).turn(line)


def au(rate, frame, number):
    """Pointer bytes and payload of an AU-4, counted from 1, of a frame without scrambling."""
    rows = [frame[270 * rate * row : 270 * rate * (row + 1)] for row in range(9)]
    return rows[3][number - 1 : 9 * rate : rate], b"".join(row[9 * rate + number - 1 :: rate] for row in rows)


class Sequence(unittest.TestCase):
    def test_first_bytes_and_period(self):
        self.assertEqual(frames.sequence(16).hex(), SEQUENCE)
        self.assertEqual(frames.sequence(254), 2 * frames.sequence(127))

    def test_turned_twice_is_as_before(self):
        for rate in (4, 16):
            frame = bytes(i * i % 251 for i in range(2430 * rate))
            turned = clear(rate, frame)
            self.assertEqual(turned[: 9 * rate], frame[: 9 * rate])
            key = (frames.sequence(127) * (20 * rate))[: 2421 * rate]
            self.assertEqual(turned[9 * rate :], bytes(x ^ y for x, y in zip(frame[9 * rate :], key)))
            self.assertEqual(clear(rate, turned), frame)


class Parities(unittest.TestCase):
    def test_of_a_frame_of_one_byte(self):
        for at, b1, lane in ((5, 0x81, None), (36, 0x81, 0), (38, 0x81, 2), (1080, 0x81, None), (3 * 1080, 0x81, None)):
            frame = bytearray(9720)
            frame[at] = 0x81
            self.assertEqual(frames.b1_of(bytes(frame)), b1)
            if lane is not None:
                self.assertEqual(frames.b2_of(4, bytes(frame))[lane], 0x81)
            else:
                self.assertEqual(sum(frames.b2_of(4, bytes(frame))) > 0, at >= 3 * 1080)

    def test_a_wrong_bit_is_counted(self):
        lines = sent(CUT.read_text(), 2, "west", 0, 3)
        reader = frames.Reader(4)
        self.assertEqual([reader.read(line)["wrong"] for line in lines], [None, (0, 0), (0, 0)])
        for at, wrong in ((9000, (1, 1)), (60, (1, 1)), (1090, (1, 0))):
            spoilt, reader = bytearray(lines[0]), frames.Reader(4)
            spoilt[at] ^= 0x10
            self.assertEqual([reader.read(line)["wrong"] for line in (bytes(spoilt), lines[1], lines[2])][1:], [wrong, (0, 0)])


HEALTHY = """rate = 4
nodes = [1, 2, 3, 4]
threshold = 3
wait = 10
limit = 1000
script = ["settle"]
[[circuit]]
name = "c1"
from = 1
to = 3
slot = 1
text_a = "0123456789A"
text_b = "abcdefghijk"
"""


def key():
    """The bytes that are added to a frame at STM-4: 36 that aren't scrambled, and then the sequence, bit by bit."""
    bits, register = [], [1] * 7
    for _ in range(8 * 9684):
        bits.append(register[6])
        register = [register[5] ^ register[6], *register[:6]]
    return bytes(36) + bytes(sum(bit << 7 - i for i, bit in enumerate(bits[at : at + 8])) for at in range(0, len(bits), 8))


def by_hand():
    """The first two frames that node 2 sends eastwards in a new ring, byte by byte, as on the line.

    In round 0 it asks for nothing and has nothing but AIS. In round 1 the circuit's AU-4 comes through, whose port began in round 0."""
    first = bytearray(b"\xff" * 9720)
    for row in (0, 1, 2, 4, 5, 6, 7, 8):
        first[1080 * row : 1080 * row + 36] = bytes(36)
    first[:36] = bytes.fromhex("f6" * 12 + "28" * 12 + "01" + "aa" * 11)
    first[4332], first[4344] = 0x03, 0x20
    lines = [bytes(x ^ y for x, y in zip(first, key()))]
    second = bytearray(first)
    second[1080] = reduce(xor, lines[0])
    counted = [i for i in range(9720) if i >= 3240 or i % 1080 >= 36]
    second[4320:4332] = bytes(reduce(xor, (first[i] for i in counted if i % 12 == lane)) for lane in range(12))
    second[3240:3276:4] = bytes.fromhex("989b9b00ffff000000")
    chunk = Stream("0123456789A", "c1", 0).bytes(0, 2349)
    for row in range(9):
        second[1080 * row + 36 : 1080 * row + 1080 : 4] = chunk[261 * row : 261 * row + 261]
    return [*lines, bytes(x ^ y for x, y in zip(second, key()))]


class ByHand(unittest.TestCase):
    def test_two_frames(self):
        made = sent(HEALTHY, 2, "east", 0, 2)
        for line, wanted in zip(made, by_hand(), strict=True):
            self.assertEqual([(i, line[i], wanted[i]) for i in range(9720) if line[i] != wanted[i]][:4], [])


@unittest.skipUnless(SDHRING.is_file(), "there is no release yet")
class Beside(unittest.TestCase):
    """What sdhring, which is proved, says of the same plan."""

    def test_words_of_the_last_round(self):
        plan = CUT.read_text()
        told = re.findall(r"node (\d+) \S+ west (.. ..) east (.. ..)", text_of(CUT.read_bytes(), "run"))
        self.assertEqual(len(told), 4)
        for node, *words in told:
            for side, word in zip(("west", "east"), words):
                (line,) = sent(plan, int(node), side, 128, 1)
                self.assertEqual(frames.Reader(4).read(line)["k"], word)

    def delivered(self, plan, end, node, side):
        """What a port delivers in the last round, and the AU-4s that came from that side of a node: pointers and payload by number."""
        chunk = bytes.fromhex(text_of(plan.encode(), "drop", "c1", end).split("done")[0].replace("\n", ""))
        rate = tomllib.loads(plan)["rate"]
        (line,) = sent(plan, node, side, 127, 1)
        return chunk, [au(rate, clear(rate, line), number) for number in range(1, rate + 1)]

    def test_payload_that_comes_on_the_working_way(self):
        chunk, aus = self.delivered(CUT.read_text(), "a", 2, "west")
        self.assertEqual(aus[0], (bytes.fromhex("689b9b00ffff000000"), chunk))

    def test_payload_that_comes_on_protection(self):
        chunk, aus = self.delivered(CUT.read_text(), "b", 4, "west")
        self.assertEqual(aus[2], (bytes.fromhex("689b9b00ffff000000"), chunk))
        self.assertEqual(aus[1], (b"\xff" * 9, b"\xff" * 2349))

    def test_values_after_slips(self):
        for end, node, side, value in (("a", 5, "west", 519), ("b", 5, "east", 303)):
            chunk, aus = self.delivered(SLIPS, end, node, side)
            self.assertEqual(aus[1], (bytes([0x68 + (value >> 8), 0x9B, 0x9B, value & 0xFF, 0xFF, 0xFF, 0, 0, 0]), chunk))

    def test_justifications(self):
        """Of the first slip, in round 4: an increment inverts the I bits and stuffs three bytes, a decrement inverts the D bits and uses H3."""
        plan = SLIPS.replace("slip c1 a up 3", "slip c1 a up 1")
        (line,) = sent(plan, 9, "east", 4, 1)
        pointers, payload = au(16, clear(16, line), 2)
        self.assertEqual(int.from_bytes(pointers[0:4:3], "big"), 0x6800 | 300 ^ 0x2AA)
        self.assertEqual(payload[783:786], bytes(3))
        (line,) = sent(plan, 3, "west", 4, 1)
        pointers, payload = au(16, clear(16, line), 2)
        self.assertEqual(int.from_bytes(pointers[0:4:3], "big"), 0x6800 | 521 ^ 0x155)
        self.assertIn(pointers[6:].decode(), "from the other" * 3)


@unittest.skipUnless(SDHAPS.is_file(), "there is no release yet")
class OnTheLine(unittest.TestCase):
    """The frames that the built sdhaps writes are those of the simulation, byte for byte: places, scrambling, both parities, K bytes, pointer
    words and payloads, at both rates, over the rounds of a settle step in which most changes, and the same after it."""

    def told(self, plan, node, side, first, count):
        words = ["frames", str(node), side, str(first), str(count)]
        return subprocess.run([SDHAPS, *words], input=plan.encode(), capture_output=True, timeout=PATIENCE).stdout

    def test_frames(self):
        """Among them a span that is cut, with the nodes that switch and one that passes, and a node that is cut off, at which two circuits of
        one slot end."""
        off = (RINGS / "node-cut-off.toml").read_text()
        for plan, nodes in ((HEALTHY, (1, 2, 3, 4)), (CUT.read_text(), (2, 3, 4)), (off, (1, 2, 3)), (SLIPS, (9, 5, 3))):
            for node in nodes:
                for side in ("west", "east"):
                    for first, count in ((0, 16), (120, 9)):
                        with self.subTest(plan=plan, node=node, side=side, first=first):
                            made = b"".join(sent(plan, node, side, first, count))
                            self.assertTrue(self.told(plan, node, side, first, count) == made)


class Compare(unittest.TestCase):
    """The driver that holds a built program against the simulation, with the simulation as the program."""

    def test_what_agrees_and_what_differs(self):
        words = [sys.executable, str(BENCH / "compare")]
        agrees = subprocess.run([*words, str(BENCH / "signalled.py"), "4", "3"], capture_output=True, text=True)
        self.assertEqual((agrees.returncode, agrees.stderr), (0, ""))
        self.assertIn("0 texts differ", agrees.stdout)
        differs = subprocess.run([*words, "/bin/true", "1", "3"], capture_output=True, text=True)
        self.assertEqual(differs.returncode, 1)
        self.assertIn("2 texts differ", differs.stdout)

    def test_frames_by_the_words_of_the_program(self):
        plan = CUT.read_bytes()
        ended = subprocess.run([sys.executable, BENCH / "signalled.py", "frames", "3", "east", "10", "2"], input=plan, capture_output=True)
        self.assertEqual((ended.returncode, ended.stdout), (0, b"".join(sent(plan.decode(), 3, "east", 10, 2))))
        self.assertEqual(signalled.run(tomllib.loads(plan.decode()))[0], 0)


if __name__ == "__main__":
    unittest.main()
