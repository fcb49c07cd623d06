"""The suite for whoever builds a node: sdhnode obeys all of it, wrong nodes are found and the broken rule is named, and a device that dies, hangs or
floods is told as that. What the page of a node says is what sdhnode does."""

import csv
import io
import json
import re
import subprocess
import sys
import tempfile
import time
import unittest
import xml.etree.ElementTree as xml
from collections import Counter
from importlib.machinery import SourceFileLoader
from importlib.util import module_from_spec, spec_from_loader
from pathlib import Path

from common import TOOLS, Page, call

TOP = TOOLS.parent
sys.path[:0] = [str(TOP / "bench" / "conform"), str(TOP / "bench" / "aps")]

import frames as plain_frames
import equal
import mutating
import remade
from ringtools.conform.arriving import Making, Plan, circuit
from ringtools.conform.judging import Judge
from ringtools.conform.rules import RULES, views
from ringtools.conform.suite import GROUPS, RINGS, suite
from ringtools.conform.telling import Told, as_junit, as_page, as_table
from ringtools.origin import find_program

SDHNODE = TOP / "dist" / "sdhnode"
TRIAL = TOP / "examples" / "bench" / "node-in-python"
PAGE = (TOP / "docs" / "NODE.md").read_text(encoding="utf-8")
SHORT = 12  # each so-many-th stream of a group is run here
# The ten mutants: where a mistake is made, what is changed, and the rule that is broken.
TEN = (
    ("hears", "if not first[at] == second[at] == last[at]: left out", "2.heard"),
    ("Inlet.take", "wrong >= self.threshold -> wrong > self.threshold", "2.degraded"),
    ("Inlet.take", "if k2 & 7 == MS_AIS: left out", "2.fails"),
    ("Side.asks", "moment < self.ended + wait -> moment <= self.ended + wait", "3.waiting"),
    ("Look.far_end", "if came[2] == self.me: left out", "4.far"),
    ("Look.switches", "word[0] >= mine -> word[0] > mine", "4.against"),
    ("interpret", "silent < 2 -> silent <= 2", "5.three-ais"),
    ("interpret", "invalid < 7 -> invalid <= 7", "5.eight-invalid"),
    ("Node.may_carry", "all -> any", "6.squelch"),
    ("generate", "if action == 'down' and value == (kept - 1) % 783: left out", "8.decrement"),
)
# The six mistakes of a maker: the line of the node in Python that is changed, and the rule that is named; the group of streams that finds each.
SIX = (
    ("B1 over the frame without scrambling", "self.parities[d] = parity(line, 1)[0]", "self.parities[d] = parity(clear, 1)[0]", "9.b1", "commands"),
    ("a word heard after two frames", "self.words = [*self.words[1:], word]", "self.words = [*self.words[1:], word][-2:]", "2.heard", "filtering"),
    ("no RDI", "marks = [RDI if side.defect == SF else own for side in sides]", "marks = [own for side in sides]", "4.marks", "holding"),
    ("it relays its own word", "if self.long[e] and self.me not in self.long[e][1:3]:", "if self.long[e]:", "4.relays", "requests"),
    ("it never squelches", "return all((end - first) % self.size <= (last - first) % self.size for end in self.ends[circuit])", "return True", "6.squelch", "connections"),
    ("it doesn't wait to restore", "waits = not defect and", "waits = False and not defect and", "3.waiting", "waiting"),
)  # fmt: skip


def module(name, path):
    """The module of a file that has no suffix."""
    loader = SourceFileLoader(name, str(path))
    made = module_from_spec(spec_from_loader(name, loader))
    loader.exec_module(made)
    return made


MUTANTS = module("mutants", TOP / "bench" / "conform" / "mutants")


def conform(*words, **more):
    """The tool; a device has as long as a loaded machine may take, unless the words say otherwise."""
    return call("sdhring-conform", *(() if "--limit" in words else ("--limit", "3600")), *words, **more)


def records(text):
    return list(csv.DictReader(io.StringIO(text.decode())))


def answers(making):
    """The lines of sdhnode for a stream that was made, one list of words for each round."""
    given = b"".join(making.stream.parts())
    text = subprocess.run([SDHNODE, str(making.stream.node), "lines"], input=given, capture_output=True, check=True).stdout.decode()
    return [line.split(" ") for line in text.splitlines() if line.startswith("round ")], text


class Proved(unittest.TestCase):
    @classmethod
    def setUpClass(cls):
        cls.ended = conform("--short", "--", str(SDHNODE))
        cls.records = records(cls.ended.stdout)

    def test_the_proved_node_obeys_all_rules(self):
        self.assertEqual((self.ended.returncode, [one for one in self.records if one["verdict"] == "broken"]), (0, []))
        self.assertIn(b"0 of ", self.ended.stderr)

    def test_the_short_suite_reaches_nearly_all_rules(self):
        missing = [one["name"] for one in self.records if one["kind"] == "rule" and one["verdict"] == "not reached"]
        self.assertLessEqual(set(missing), {"8.value"})

    def test_there_is_a_record_for_everything(self):
        kinds = Counter(one["kind"] for one in self.records)
        self.assertEqual(kinds["rule"], len(RULES))
        self.assertEqual(kinds["case"], sum(len(rule.cases) for rule in RULES.values()))
        self.assertEqual(sum(kinds[kind] for kind in ("word", "mark", "defect", "origin")), len(views()))
        self.assertTrue(all(kinds.values()))

    def test_each_stream_has_a_reason_and_all_nodes_of_all_rings_are_there(self):
        listed = records(conform("--list", "--only", "waiting,commands,holding").stdout)
        self.assertEqual([one["stream"] for one in listed if not one["why"]], [])
        self.assertEqual(sorted(map(len, RINGS)), [2, 3, 4, 5, 8, 16])
        makers = list(GROUPS["states"]())
        self.assertGreaterEqual(len(makers), 2 * sum(map(len, RINGS)))
        self.assertEqual([makers[number]().name for number in (0, 1, 75)], ["states-2-0-4", "states-2-0-16", "states-16-15-16"])


class Mutants(unittest.TestCase):
    @classmethod
    def setUpClass(cls):
        """Ten wrong nodes answer streams in this process."""
        sites = {(site.place, site.what): site for site in mutating.sites()}
        program = find_program([str(TOP / "sdhnode")])
        cls.mutants = [MUTANTS.Mutant(number, sites[place, what]) for number, (place, what, _) in enumerate(TEN)]
        cls.reached = Counter(), Counter()
        functions = {name: getattr(mutating.plain, name) for name in mutating.ENTRIES}
        for stream in suite(tuple(group for group in GROUPS if group != "states"), SHORT):
            calls = {name: MUTANTS.Calls(function) for name, function in functions.items()}
            mutating.plain.__dict__.update(calls)
            rounds = MUTANTS.rounds_of(program, stream)
            mutating.plain.__dict__.update(functions)
            for round in rounds:
                cls.reached[0].update(round.cases)
                cls.reached[1].update(round.passes())
            for mutant in cls.mutants:
                mutant.run(stream, rounds, calls)

    def test_each_is_found_and_its_rule_is_named(self):
        for mutant, (place, what, rule) in zip(self.mutants, TEN):
            with self.subTest(place=place, what=what):
                self.assertIsNone(mutant.raised)
                self.assertIn(rule, mutant.site.rules)
                self.assertIn(rule, MUTANTS.named(mutant, self.reached)[0])

    def test_what_is_listed_as_the_same_is_a_place_that_can_be_changed(self):
        keys = {site.key for site in mutating.sites()}
        self.assertEqual(set(equal.EQUAL) - keys - set(remade.SOURCE_OF), set())

    def test_each_wrong_body_of_a_crate_of_nodes_is_made_again_or_left_out(self):
        listed = {*remade.SOURCE_OF, *(name for names in remade.LEFT_OUT.values() for name in names)}
        crates = {name.partition("/")[0] for name in listed}
        there = {f"{crate}/{path.stem}" for crate in crates for folder in (f"crates/{crate}/must-fail", f"bench/wrong-bodies/{crate}") for path in (TOP / folder).glob("*.edit")}
        endings = {name for name in there if "/always_" in name}
        self.assertEqual(there - endings - listed, set())
        self.assertEqual(listed - there, set())

    def test_a_mutant_over_pipes_says_what_it_says_in_this_process(self):
        number = next(at for at, site in enumerate(mutating.sites()) if (site.place, site.what) == TEN[0][:2])
        ended = conform("--only", "filtering", "--short", "--", sys.executable, str(TOP / "bench" / "conform" / "mutant"), str(number), cwd=tempfile.gettempdir())
        self.assertEqual(ended.returncode, 1)
        self.assertRegex(ended.stderr, rb"broken: (?:[^,;]+ or )?2\.heard\b")


class Trial(unittest.TestCase):
    """The node in Python, written from the page."""

    def setUp(self):
        self.folder = tempfile.TemporaryDirectory()
        self.addCleanup(self.folder.cleanup)

    def test_it_obeys(self):
        ended = conform("--short", "--only", "filtering,defects,waiting,holding,pointers", "--", str(TRIAL), cwd=self.folder.name)
        self.assertEqual((ended.returncode, [one for one in records(ended.stdout) if one["verdict"] == "broken"]), (0, []))

    def planted(self, name, line, changed):
        """The node with one mistake, beside the same tools."""
        text = TRIAL.read_text(encoding="utf-8")
        self.assertEqual(text.count(line), 1, name)
        path = Path(self.folder.name) / "wrong"
        path.write_text(text.replace(line, changed).replace("HERE.parents[1]", f"Path({str(TOP)!r})"), encoding="utf-8")
        return [sys.executable, str(path)]

    def test_each_of_six_mistakes_is_found_and_named(self):
        for name, line, changed, rule, group in SIX:
            ended = conform("--only", group, *(["--short"] if group != "waiting" else []), "--", *self.planted(name, line, changed), cwd=self.folder.name)
            with self.subTest(name):
                self.assertEqual(ended.returncode, 1)
                named = re.search(r"broken: ([^,;]+)", ended.stderr.decode())
                self.assertIn(rule, named[1].split(" or "))

    def test_what_is_broken_is_repeated_by_its_file_alone(self):
        wrong = self.planted(*SIX[2][:3])
        ended = conform("--only", "holding", "--short", "--keep", f"{self.folder.name}/kept", "--", *wrong)
        found = next(one for one in records(ended.stdout) if one["kind"] == "rule" and one["verdict"] == "broken")
        node, texts = re.search(r"node-([0-9]+)\.stream$", found["file"])[1], []
        for number, command in enumerate(([SDHNODE], wrong)):
            text = subprocess.run([*command, node, "frames"], input=Path(found["file"]).read_bytes(), capture_output=True, check=True).stdout
            path = Path(self.folder.name) / f"{number}.text"
            path.write_bytes(text)
            texts.append(path)
        said = call("sdhring-compare-node", *texts).stdout.decode()
        self.assertIn(f"round {found['round']}: {found['field']}: ours {found['due']}, theirs {found['came']}", said)


class Devices(unittest.TestCase):
    """Devices that don't answer as one does."""

    def setUp(self):
        self.folder = tempfile.TemporaryDirectory()
        self.addCleanup(self.folder.cleanup)

    def device(self, *command, limit="2"):
        begun = time.monotonic()
        ended = conform("--limit", limit, "--only", "waiting", "--short", "--", *command, cwd=self.folder.name)
        return ended, {one["name"]: one for one in records(ended.stdout) if one["kind"] == "device"}, time.monotonic() - begun

    def python(self, text):
        return [sys.executable, "-c", text]

    def test_how_a_device_misbehaves_is_told(self):
        for name, command, said in (
            ("lives", ["false"], "it ended with status 1"),
            ("lives", self.python("import os; os.kill(os.getpid(), 9)"), "it was ended by signal 9"),
            ("in time", self.python("import time; time.sleep(60)"), "nothing more came within 2 seconds"),
            ("in time", self.python("import sys\nfor part in iter(lambda: sys.stdin.buffer.read(4096), b''): pass"), "nothing more came within 2 seconds"),
            ("when asked", self.python("import sys\nprint('round 0')\nwhile True: print('port c0 a ais')"), "it wrote"),
            ("when asked", self.python("while True: print('round 0 node 1 idle')"), "it wrote"),
            ("answers", self.python("import sys\nfor line in sys.stdin.buffer: sys.stdout.write('what?\\n'); sys.stdout.flush()"), "what?"),
        ):
            ended, found, _ = self.device(*command)
            with self.subTest(command=command):
                self.assertEqual(ended.returncode, 1)
                broken = [one for one in found.values() if one["verdict"] == "broken"]
                self.assertIn(name, [one["name"] for one in broken], ended.stdout[:900])
                self.assertIn(said, " ".join(one["came"] for one in broken))
                self.assertNotIn(b"Traceback", ended.stderr)

    def test_a_device_that_hangs_is_asked_three_times_alone(self):
        ended, _, seconds = self.device(*self.python("import time; time.sleep(60)"), limit="0.5")
        self.assertIn(b"hung", ended.stderr)
        self.assertLess(seconds, 60)

    def test_a_device_that_answers_right_but_goes_on_is_told(self):
        more = "import subprocess, sys\nsys.stdout.buffer.write(subprocess.run([%r, *sys.argv[1:]], stdin=sys.stdin, capture_output=True).stdout + b'more')" % str(SDHNODE)
        ended, found, _ = self.device(*self.python(more))
        self.assertEqual(ended.returncode, 1)
        self.assertEqual(found["in time"]["verdict"], "broken")  # it keeps its answers back until the stream ends, and so none comes in time

    def test_words_that_are_wrong_are_refused_in_a_line(self):
        for words, said in (
            ([], b"the device's command is missing"), (["--only", "all", "--", "true"], b"is none of"), (["--limit", "0", "--", "true"], b"a device needs some time"),
            (["--", "no-such-program"], b"No such file"), (["--program", "no-such-program", "--", "true"], b"no-such-program"),
        ):  # fmt: skip
            ended = conform(*words, cwd=self.folder.name)
            with self.subTest(words):
                self.assertEqual((ended.returncode, ended.stdout), (2, b""))
                self.assertIn(said, ended.stderr)
                self.assertNotIn(b"Traceback", ended.stderr)


class Forms(unittest.TestCase):
    @classmethod
    def setUpClass(cls):
        with tempfile.TemporaryDirectory() as folder:
            hostile = "<script>alert(1)</script>"
            words = ("--only", "waiting", "--short", "--page", f"{folder}/page.html", "--keep", f"{folder}/kept")
            command = ("--", sys.executable, "-c", f"print('{hostile}')", hostile)
            cls.json = json.loads(conform(*words, "--json", *command).stdout)
            cls.junit = xml.fromstring(conform(*words, "--junit", *command).stdout)
            cls.page = (Path(folder) / "page.html").read_text(encoding="utf-8")

    def test_json_has_all_records(self):
        self.assertEqual(self.json["verdicts"][0]["kind"], "device")
        self.assertEqual(len(self.json["verdicts"]), 4 + len(RULES) + sum(len(rule.cases) for rule in RULES.values()) + len(views()))
        self.assertTrue(self.json["failed"][0]["why"])

    def test_junit_counts_what_failed_and_what_was_not_reached(self):
        self.assertEqual(int(self.junit.get("tests")), len(self.junit.findall("testcase")))
        self.assertEqual(int(self.junit.get("failures")), len(self.junit.findall("testcase/failure")))
        self.assertEqual(int(self.junit.get("skipped")), len(self.junit.findall("testcase/skipped")))
        self.assertGreater(int(self.junit.get("failures")), 0)

    def test_the_page_has_the_verdict_and_runs_nothing_of_the_device(self):
        page = Page(self.page)
        self.assertIn("Does this node obey", " ".join(page.words))
        self.assertEqual(len(dict(page.tables)["Rules"]), 1 + len(RULES))
        self.assertNotIn("<script>alert", self.page)

    def test_an_empty_run_can_be_told_too(self):
        told = Told(Judge().verdicts(), Judge(), ["true"], find_program([str(TOP / "sdhnode")]), False)
        self.assertIn("0 broken", told.summary())
        for text in (as_table(told), as_junit(told), as_page(told)):
            self.assertIn("2.heard", text)


class Said(unittest.TestCase):
    """What the page of a node says is what sdhnode and sdhaps do."""

    def test_the_worked_frame_is_that_of_sdhaps(self):
        plan = (TOP / "examples" / "round-by-round.toml").read_bytes()
        line = subprocess.run([TOP / "dist" / "sdhaps", "frames", "2", "east", "129", "1"], input=plan, capture_output=True, check=True).stdout
        clear = plain_frames.Scrambler(4).turn(line)
        rows = [bytes.fromhex(found) for found in re.findall(r"^row [1-9]   ([0-9a-f ]+)$", PAGE, re.M)]
        self.assertEqual(rows, [clear[1080 * row : 1080 * row + 36] for row in range(9)])
        payload = re.search(r"first bytes of the payload are `([0-9a-f ]+)`", " ".join(PAGE.split()))[1]
        self.assertTrue(clear[36:].startswith(bytes.fromhex(payload)))
        sent = re.search(r"begins with `([0-9a-f ]+)`: the values", " ".join(PAGE.split()))[1]
        self.assertTrue(line[36:].startswith(bytes.fromhex(sent)))
        sequence = bytes.fromhex(re.search(r"It begins with ([0-9A-F ]+)\.", PAGE)[1])
        self.assertTrue(plain_frames.sequence(127).startswith(sequence))

    def test_each_rule_is_on_the_page(self):
        self.assertEqual([name for name in RULES if not re.search(rf"\b{re.escape(name)}\b", PAGE) and name not in ("9.row-1", "9.pointer-row", "9.columns", "5.place", "6.place", "5.stays")], [])

    def making(self, **more):
        plan = Plan(4, (2, 6, 9, 13, 4), **more)
        circuit(plan, 1, 3, 1)
        making = Making("said", "", plan, 2)  # node 9 between 6 and 13
        making.begin(3)
        return making

    def test_each_way_is_decided_by_itself(self):
        """A lighter request of the neighbour's, and a heavier long word: that one is relayed, and the other way the node's own long word leaves."""
        making = self.making()
        making.words(making.short(0, 6), (8, 13, 4, 1, 1))
        making.round(count=3)
        rows, _ = answers(making)
        self.assertEqual(" ".join(rows[-1][4:13]), "idle far - west 8d 49 east 66 98")

    def test_a_word_stands_against_a_switch_unless_it_is_about_the_same_span(self):
        for word, state in (((6, 9, 13, 1, 0), "switch-east"), ((6, 9, 4, 1, 0), "idle"), ((6, 4, 13, 1, 0), "idle"), ((5, 9, 4, 1, 0), "switch-east")):
            making = self.making()
            making.say("manual east")
            making.words(word, making.short(1, 0))
            making.round(count=3)
            with self.subTest(word=word):
                self.assertEqual(answers(making)[0][-1][4], state)

    def test_the_same_word_from_the_same_side_stands_against_it(self):
        making = self.making()
        making.say("manual east")
        making.words(making.short(0, 0), (6, 9, 13, 1, 0))
        making.round(count=3)
        self.assertEqual(answers(making)[0][-1][4], "idle")

    def test_the_marks_of_an_isolated_node(self):
        making = self.making()
        making.say("forced east")
        making.round("dark", "frame")
        self.assertEqual(" ".join(answers(making)[0][-1][4:13]), "isolated far - west b6 96 east dd 90")

    def test_a_node_that_is_held_in_its_first_round(self):
        making = Making("held", "", Plan(4, (2, 6, 9)), 1)
        making.say("hold 2")
        making.say("forced east")
        making.round("none", "none", count=3)
        rows, _ = answers(making)
        self.assertEqual([" ".join(row[4:13]) for row in rows[:2]], ["idle far - west 02 60 east 09 60"] * 2)
        self.assertEqual(rows[2][4], "switch-east")

    def delivered(self, words):
        """What the port of the interpreter delivers, by pointer words from the west."""
        plan = Plan(4, (2, 6, 9))
        circuit(plan, 0, 1, 1)
        making = Making("pointers", "", plan, 1)
        making.round("none", "none")
        for word in words:
            making.sides[0].pointers[0] = word
            making.round()
        _, text = answers(making)
        return [int(line.split(" ")[4]) if " norm " in line else None for line in text.splitlines() if line.startswith("port ")][1:]

    def test_thresholds_of_an_interpreter(self):
        """New data at once; three new values; three words of ones; eight invalid words, and loss of pointer that new data doesn't end."""
        new, other, ones, bad = 0x9800 | 100, 0x6800 | 200, 0xFFFF, 0x0000
        self.assertEqual(self.delivered([new, other, other, other]), [100, 100, 100, 200])
        self.assertEqual(self.delivered([new, ones, ones, ones, new]), [100, 100, 100, None, 100])
        self.assertEqual(self.delivered([new, *[bad] * 8, new, other, other, other]), [100] * 8 + [None] * 4 + [200])
        self.assertEqual(self.delivered([other, other, other]), [None, None, 200])

    def test_majorities_and_spacing_of_justifications(self):
        """Three of five bits count beside two wrong ones, and only in the fourth word after new data."""
        same = 0x6800 | 100
        for up, down, value in ((5, 0, 101), (3, 2, 101), (3, 3, 100), (2, 0, 100), (0, 3, 99), (2, 5, 99)):
            bits = [(0x2AA, up), (0x155, down)]
            word = same ^ sum(mask & -mask if count else 0 for mask, count in ()) ^ sum(self.low(mask, count) for mask, count in bits)
            with self.subTest(up=up, down=down):
                self.assertEqual(self.delivered([0x9800 | 100, same, same, same, word])[-1], value)
        self.assertEqual(self.delivered([0x9800 | 100, same, same, same ^ 0x2AA])[-1], 100)
        self.assertEqual(self.delivered([0x9800 | 100, same, same, same, same ^ 0x2AA, 0x6800 | 101, 0x6800 | 101, (0x6800 | 101) ^ 0x2AA])[-1], 101)

    @staticmethod
    def low(mask, count):
        """So many of the lowest bits of a mask."""
        return sum([1 << at for at in range(10) if mask >> at & 1][:count])

    def test_flags_count_with_one_bit_wrong(self):
        for flag, value in ((0b1001, 7), (0b1101, 7), (0b0001, 7), (0b1111, 100), (0b0000, 100)):
            with self.subTest(flag=flag):
                self.assertEqual(self.delivered([0x9800 | 100, flag << 12 | 0x0800 | 7])[-1], value)


if __name__ == "__main__":
    unittest.main()
