"""One node on the bench: its plain model held against worked rows and against a ring's simulation, and what compares two nodes."""

import io
import random
import re
import subprocess
import sys
import tempfile
import tomllib
import unittest
from contextlib import redirect_stdout
from functools import cache
from importlib.machinery import SourceFileLoader
from importlib.util import module_from_spec, spec_from_loader
from pathlib import Path

from common import PATIENCE, TOOLS, call

from ringtools.benched import BenchProblem, first_difference, read_answers
from ringtools.rows import read_rows

TOP = TOOLS.parent
NODE = TOOLS / "testing" / "node"
SDHAPS, SDHNODE = TOP / "dist" / "sdhaps", TOP / "dist" / "sdhnode"
sys.path[:0] = [str(TOP / "bench" / name) for name in ("node", "aps", "outage")]

import frames  # noqa: E402
import model  # noqa: E402


def module(name, path):
    """The module of a file that has no suffix."""
    loader = SourceFileLoader(name, str(path))
    made = module_from_spec(spec_from_loader(name, loader))
    loader.exec_module(made)
    return made


def answer(name):
    """The status and the text that the model gives to a row."""
    row = next(row for row in read_rows(NODE) if row.name == name)
    return model.answer(row.given, int(row.words[0]), row.words[1:] == (b"frames",))


class Rows(unittest.TestCase):
    def test_the_model_agrees_with_what_was_worked_out_by_hand(self):
        for row in read_rows(NODE):
            if row.status in (0, 9, 15, 17) and row.given is not None:
                with self.subTest(row=row.name):
                    self.assertEqual(model.answer(row.given, int(row.words[0])), (row.status, row.text))

    def test_no_text_is_forgotten(self):
        table = (NODE / "rows.md").read_text()
        self.assertEqual({path.name for path in NODE.iterdir() if path.name != "rows.md" and f"| {path.name} |" not in table}, set())
        self.assertEqual({row.status for row in read_rows(NODE)}, {0, 2, 3, 4, 5, 6, 9, 15, 17})


class Rings(unittest.TestCase):
    def test_the_model_of_one_node_agrees_with_the_ring(self):
        compare = module("bench_node_compare", TOP / "bench" / "node" / "compare")
        document = (NODE / "two.stream").read_bytes().removesuffix(model.END)
        script = ["settle", "cut 2 east", "cut 3 west", "settle", "slip c2 a up 2", "hold 2 2", "mend 2 east", "degrade 3 west 5", "settle"]
        plan = {**tomllib.loads(document.decode()), "script": script}
        driven = compare.Driven(plan, document, random.Random(5))
        driven.run()
        for told in driven.nodes:
            wanted = b"".join([*told.wanted, b"done\n"])
            self.assertEqual(model.answer(b"".join(told.given), plan["nodes"][told.p], told.with_frames), (0, wanted))
            self.assertIn(b"switch-" if told.p in (1, 2) else b"idle", wanted)


@unittest.skipUnless(SDHNODE.is_file(), "dist/ has no sdhnode")
class Fed(unittest.TestCase):
    """The proved sdhnode, fed with what the proved sdhaps writes of its neighbours."""

    ROUNDS = 420
    PLAN = (TOP / "examples" / "round-by-round.toml").read_bytes()

    def asked(self, program, *words, given):
        done = subprocess.run([program, *words], input=given, capture_output=True, timeout=PATIENCE)
        self.assertEqual(done.returncode, 0, done.stderr)
        return done.stdout

    @cache
    def sent(self, node, side):
        """What a node of the ring sends on a side, frame by frame."""
        text = self.asked(SDHAPS, "frames", str(node), side, "0", str(self.ROUNDS), given=self.PLAN)
        size = len(text) // self.ROUNDS
        self.assertEqual((size, len(text)), (9720, 9720 * self.ROUNDS))
        return [text[at : at + size] for at in range(0, len(text), size)]

    def stream(self):
        """What comes to node 2. Its settle steps take 129 rounds at first, and then 128; after the first one its span to node 3 is cut."""
        parts = [self.PLAN, model.END]
        for t in range(self.ROUNDS):
            dark = 129 <= t < 257
            parts += [b"moment 10\n"] * (t == 385)
            parts.append(f"round {'frame' if t else 'none'} {'dark' if dark else 'frame' if t else 'none'}\n".encode())
            parts += [self.sent(1, "east")[t - 1]] * (t > 0) + [self.sent(3, "west")[t - 1]] * (t > 0 and not dark)
        return b"".join(parts)

    def test_a_node_that_is_fed_with_its_neighbours_frames_sends_its_own(self):
        answers, last = read_answers(self.asked(SDHNODE, "2", "frames", given=self.stream()))
        self.assertEqual((len(answers), last), (self.ROUNDS, "done"))
        states = [answer.fields["state"] for answer in answers]
        self.assertEqual((states[128], states[256], states[300], states[419]), ("idle", "switch-east", "switch-east", "idle"))
        for t, answer in enumerate(answers):
            self.assertTrue(answer.frames == self.sent(2, "west")[t] + self.sent(2, "east")[t], f"the frames of round {t}")

    def test_its_lines_are_those_of_the_ring(self):
        text = self.asked(SDHNODE, "2", given=self.stream()).decode().splitlines()
        lines = [line.split(" ", 2) for line in text if line.startswith("round ")]
        changed = [" ".join(line) for before, line in zip([None, *lines], lines) if before is None or before[2] != line[2]]
        ring = self.asked(SDHAPS, "node", "2", given=self.PLAN).decode().splitlines()
        self.assertEqual(changed, [line for line in ring if line.startswith("round ") and int(line.split(" ")[1]) < self.ROUNDS])
        self.assertGreater(len(changed), 10)


class Comparing(unittest.TestCase):
    def setUp(self):
        self.folder = tempfile.TemporaryDirectory()
        self.addCleanup(self.folder.cleanup)
        self.compare_node = module("compare_node", TOOLS / "sdhring-compare-node")
        self.text = answer("told")[1]

    def compare(self, ours, theirs):
        paths = [Path(self.folder.name) / name for name in ("ours", "theirs")]
        for path, text in zip(paths, (ours, theirs)):
            path.write_bytes(text)
        with redirect_stdout(io.StringIO()) as said:
            status = self.compare_node.main([str(path) for path in paths])
        return status, said.getvalue()

    def test_equal_texts_differ_in_nothing(self):
        self.assertEqual(self.compare(self.text, self.text), (0, "no difference\n"))

    def test_the_first_field_is_named_with_its_rule(self):
        for old, new, words in (
            (b"round 3 node 2 switch-east far - west b3 29", b"round 3 node 2 switch-east far - west b3 2a", "round 3: the word sent to the west: ours b3 29, theirs b3 2a"),
            (b"asks nr sf", b"asks nr sd", "round 3: what the east side asks for: ours sf, theirs sd\nrule 3"),
            (b"round 7 node 2 isolated", b"round 7 node 2 idle", "round 7: the state: ours isolated, theirs idle\nrule 4"),
        ):
            status, said = self.compare(self.text, self.text.replace(old, new, 1))
            self.assertEqual(status, 1)
            self.assertIn(words, said)

    def test_texts_that_end_elsewhere_differ(self):
        cut = self.text[: self.text.index(b"round 11 ")] + b"bad record 32 at 20\n"
        self.assertEqual(self.compare(self.text, cut)[0], 1)
        self.assertIn("ours has 12 answers, theirs 11", self.compare(self.text, cut)[1])

    def test_a_byte_of_a_frame_is_named_by_its_place(self):
        given = (NODE / "ran.stream").read_bytes()
        ours = model.answer(given, 2, True)[1]
        theirs = bytearray(ours)
        theirs[ours.index(b"bytes 19440\n") + 12 + 9720 + 4 * 1080 + 24] ^= 1
        status, said = self.compare(ours, bytes(theirs))
        self.assertEqual(status, 1)
        self.assertIn("round 0: the frame to the east, row 5, column 25, K2, before the scrambler: ours ", said)

    def framed(self):
        """An answer of the model with frames, where these begin, and the first one as it is before the scrambler."""
        text = model.answer((NODE / "ran.stream").read_bytes(), 2, True)[1]
        begin = text.index(b"bytes 19440\n") + 12
        return text, begin, frames.Scrambler(4).turn(text[begin : begin + 9720])

    def test_values_are_those_before_the_scrambler(self):
        """A new-data flag that isn't set: the words are told as a maker writes them."""
        text, begin, clear = self.framed()
        at = 3 * 1080 + 1  # row 4, the first byte of the pointer of AU-4 2
        planted = bytearray(clear)
        planted[at] ^= 0xF0
        theirs = text[:begin] + frames.Scrambler(4).turn(bytes(planted)) + text[begin + 9720 :]
        said = f"round 0: the frame to the west, row 4, column 2, pointer of AU-4 2, before the scrambler: ours {clear[at]:02x}, theirs {clear[at] ^ 0xF0:02x}\nrule 8"
        self.assertIn(said, self.compare(text, theirs)[1])

    def test_a_mistake_of_the_scrambler_is_called_that(self):
        """A sequence one byte ahead, none at all, and one that isn't set anew: the same frame before the scrambler."""
        text, begin, clear = self.framed()
        sequence = frames.sequence(127) * 80
        for name, used in (("one byte ahead", sequence[1:]), ("none", bytes(9720)), ("not set anew", sequence[9720 % 127 :])):
            added = bytes(one ^ two for one, two in zip(clear[36:], used))
            status, said = self.compare(text, text[:begin] + clear[:36] + added + text[begin + 9720 :])
            with self.subTest(name):
                self.assertEqual(status, 1)
                self.assertIn(f"row 1, column 37, the scrambling: what is added here to the frame: ours {sequence[0]:02x}, theirs {used[0]:02x}\nrule 9", said)

    def test_answers_without_frames_differ_from_those_with(self):
        text, begin, _ = self.framed()
        without = model.answer((NODE / "ran.stream").read_bytes(), 2, False)[1]
        said = "round 0: the frames that leave: ours 19440 bytes, theirs no frames\nrule the word `frames`"
        self.assertIn(said, self.compare(text, without)[1])
        self.assertEqual(self.compare(without, text)[0], 1)

    def test_what_is_no_text_of_answers_is_refused(self):
        for text in (b"", b"done", b"round 0 node 2\n", b"round x\ndone\n", self.text + b"more\n", self.text.replace(b"asks", b"wants")):
            with self.assertRaises(BenchProblem):
                read_answers(text)

    def test_what_is_equal_has_no_difference(self):
        answers, last = read_answers(self.text)
        self.assertEqual((len(answers), last), (12, "done"))
        self.assertEqual([first_difference(one, one) for one in answers], [None] * 12)

    def test_the_stand_in_passes_on_what_it_hears(self):
        relays = module("relays_its_own", TOP / "examples" / "bench" / "relays-its-own")
        line = "round 9 node 2 idle far - west 01 20 east 03 20 heard b2 39 01 20 asks nr nr"
        self.assertEqual(" ".join(relays.changed(line.split(" "))), line.replace("east 03 20", "east b2 39"))


if __name__ == "__main__":
    unittest.main()
