"""Plans and texts: what is read, and that broken input is refused with its place."""

import tempfile
import unittest
from pathlib import Path

from common import RINGS, bytes_of, call, ring

from ringtools.plan import PlanProblem, read_plan, write_plan
from ringtools.report import ReportProblem, read_report


def changed(text, number, line):
    """The text with its line of this number replaced; without a line it is left out."""
    lines = text.split(b"\n")
    lines[number - 1 : number] = [] if line is None else [line]
    return b"\n".join(lines)


class Texts(unittest.TestCase):
    def setUp(self):
        plan, self.text = bytes_of("span-cut")
        self.plan = read_plan(plan)

    def refused(self, text, number, plan=None):
        with self.assertRaises(ReportProblem) as caught:
            read_report(text, plan or self.plan)
        self.assertTrue(str(caught.exception).startswith(f"line {number}:"), str(caught.exception))

    def test_a_text_is_read(self):
        report = read_report(self.text, self.plan)
        self.assertTrue(report.done)
        self.assertEqual([node.state for node in report.settled[0].nodes], ["pass", "switch-east", "switch-west", "pass"])

    def test_an_unknown_line_is_refused_wherever_it_stands(self):
        lines = self.text.split(b"\n")
        for number in range(1, len(lines)):
            self.refused(b"\n".join(lines[: number - 1] + [b"ring 1 well"] + lines[number - 1 :]), number)

    def test_a_missing_line_is_refused(self):
        for number in range(2, 9):
            self.refused(changed(self.text, number, None), number)

    def test_broken_lines_are_refused(self):
        cases = [
            (1, b"settle 2 round 128"),
            (1, b"settle 1 round 129"),
            (1, b"settle 1 round 0"),
            (1, b"settle 01 round 128"),
            (2, b"node 2 pass west b3 2a east b2 3a"),
            (2, b"node 1 resting west b3 2a east b2 3a"),
            (2, b"node 1 pass west 43 2a east b2 3a"),
            (2, b"node 1 pass west b3 2b east b2 3a"),
            (2, b"node 1 pass west b3 2a east 22 3a"),
            (2, b"node 1 pass west B3 2a east b2 3a"),
            (2, b"node 1 pass west b3 2a east b2"),
            (6, b"port c1 b ais"),
            (6, b"port c2 a ais"),
            (6, b"port c1 a norm 783 00"),
            (6, b"port c1 a norm 0 0"),
            (6, b"port c1 a norm 0 00636465666761626364656667616263ff"),
            (6, b"port c1 a lop"),
            (8, b"unsettled 1"),
            (8, b"bad plan 4 at 1"),
            (8, b"finished"),
            (8, b"done "),
        ]
        for number, line in cases:
            with self.subTest(line=line):
                self.refused(changed(self.text, number, line), number)

    def test_broken_ends_are_refused(self):
        self.refused(self.text + b"done\n", 9)
        self.refused(self.text[:-1], 8)
        self.refused(self.text[:-5], 8)
        self.refused(self.text[:40], 2)
        self.refused(b"done\n", 1)
        self.refused(b"bad plan 32 at 1\n", 1)
        self.refused(self.text.replace(b"pass", b"p\xe4ss"), 2)
        with self.assertRaises(ReportProblem):
            read_report(b"", self.plan)

    def test_a_text_of_another_plan_is_refused(self):
        self.refused(self.text, 2, read_plan(bytes_of("two-nodes")[0]))

    def test_a_missing_settle_step_is_refused(self):
        plan, text = bytes_of("mending")
        lines = text.split(b"\n")
        self.refused(b"\n".join(lines[:7] + lines[14:]), 8, read_plan(plan))


class Plans(unittest.TestCase):
    def test_what_is_written_is_read(self):
        for path in RINGS.glob("*.toml"):
            try:
                plan = read_plan(path.read_bytes())
            except PlanProblem:
                continue
            with self.subTest(plan=path.name):
                script = [step.text for step in plan.steps]
                self.assertEqual(read_plan(write_plan(plan, script).encode()), plan)

    def test_signs_in_texts_are_kept(self):
        data = bytes_of("healthy")[0].replace(b'"ALPHA"', rb'"a\"b\\c #"')
        plan = read_plan(data)
        self.assertEqual(plan.circuits[0].a.text, b'a"b\\c #')
        self.assertEqual(read_plan(write_plan(plan, ["settle"]).encode()), plan)

    def test_broken_plans_are_refused_by_name(self):
        good = bytes_of("healthy")[0]
        cases = [
            (b"rate = 4", b"rate = true"),
            (b"rate = 4", b"rate = 8"),
            (b"nodes = [1, 2, 3]", b"nodes = [1]"),
            (b"nodes = [1, 2, 3]", b"nodes = [1, 2, 2]"),
            (b"nodes = [1, 2, 3]", b'nodes = "1 2 3"'),
            (b"nodes = [1, 2, 3]", b"nodes = [1, 2, 16]"),
            (b"threshold = 3", b"threshold = 13"),
            (b"wait = 10", b"wait = -1"),
            (b"limit = 1000", b"limit = 0"),
            (b'script = ["settle"]', b"script = []"),
            (b'script = ["settle"]', b"script = [1]"),
            (b'script = ["settle"]', b'script = ["cut 1 east"]'),
            (b'script = ["settle"]', b'script = ["cut 9 east", "settle"]'),
            (b'script = ["settle"]', b'script = ["cut  1 east", "settle"]'),
            (b'script = ["settle"]', b'script = ["cut 1 up", "settle"]'),
            (b'script = ["settle"]', b'script = ["moment 01", "settle"]'),
            (b"to = 2", b"to = 1"),
            (b"to = 2", b"to = 4"),
            (b"slot = 1", b"slot = 3"),
            (b'name = "c1"', b'name = "C1"'),
            (b'name = "c1"', b"name = 1"),
            (b'text_a = "ALPHA"', b'text_a = ""'),
            (b"slot = 1", b"slot = 1\nlane = 1"),
            (b"rate = 4", b"rate = 4\nspeed = 4"),
            (b"[[circuit]]", b"[circuit]"),
            (b"rate = 4", b"rate = "),
            (b"ALPHA", b"ALPH\xc4"),
        ]
        for old, new in cases:
            with self.subTest(new=new), self.assertRaises(PlanProblem):
                self.assertIn(old, good)
                read_plan(good.replace(old, new))


class Calls(unittest.TestCase):
    def refused(self, plan, text, *words):
        with tempfile.TemporaryDirectory() as folder:
            files = Path(folder) / "plan", Path(folder) / "text"
            for file, data in zip(files, (plan, text)):
                file.write_bytes(data)
            ended = call("sdhring-view", *files, *words)
        self.assertEqual((ended.returncode, ended.stdout), (1, b""))
        self.assertNotIn(b"Traceback", ended.stderr)
        return ended.stderr.decode()

    def test_view_names_the_line(self):
        plan, text = bytes_of("span-cut")
        self.assertIn("line 3: ", self.refused(plan, changed(text, 3, b"what is this")))

    def test_view_names_a_plan_that_cannot_be_read(self):
        plan, text = bytes_of("span-cut")
        self.assertIn("the plan can't be read", self.refused(b"rate = ", text))
        self.assertIn("the plan can't be read", self.refused(plan.replace(b"slot = 1", b"slot = 9"), text))

    def test_view_draws_no_step_that_is_not_there(self):
        self.assertIn("no settle step 2", self.refused(*bytes_of("span-cut"), "--svg", "2"))
        self.assertIn("nothing to draw", self.refused(*bytes_of("bad-slot"), "--svg", "1"))

    def test_files_that_are_not_there(self):
        for tool, words in (("sdhring-view", ("/nowhere/plan", "/nowhere/text")), ("sdhring-whatif", ("/nowhere/plan",))):
            ended = call(tool, *words)
            self.assertEqual(ended.returncode, 1)
            self.assertIn(b"/nowhere/plan: No such file", ended.stderr)


if __name__ == "__main__":
    unittest.main()
