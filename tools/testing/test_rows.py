"""Worked rows: what differs is reported, and the table names all that is there."""

import json
import os
import subprocess
import sys
import tempfile
import unittest
from pathlib import Path

from common import RINGS, TOOLS, call

from ringtools.rows import RowsProblem, changed, read_rows

# Answers each row by what stands in a file beside it. Python itself can't read from a folder.
PROGRAM = """#!/bin/sh
if [ -d /dev/stdin ]; then exec {python} -IS {beside}.py {beside} folder "$@" </dev/null; fi
exec {python} -IS {beside}.py {beside} file "$@"
"""
ANSWERS = """
import json, os, sys
answers, kind, *words = sys.argv[1:]
given = None if kind == "folder" else sys.stdin.buffer.read()
is_full = os.fstat(1).st_rdev == os.stat("/dev/full").st_rdev
status, text = json.load(open(answers))[repr(([os.fsencode(word) for word in words], given, is_full))]
try:
    os.write(1, text.encode())
except OSError:
    pass
os._exit(status)
"""


class Rows(unittest.TestCase):
    def setUp(self):
        folder = tempfile.TemporaryDirectory()
        self.addCleanup(folder.cleanup)
        self.folder = Path(folder.name)

    def program(self, text="", status=""):
        """Answers each row by its table, but for one with another text, and one with another status."""
        answers = {}
        for row in read_rows():
            told = (row.text or b"").decode()
            told = told.replace("norm 0", "norm 1") if row.name == text else told
            answers[repr((list(row.words), row.given, row.text is None))] = 0 if row.name == status else row.status, told
        file, beside = self.folder / "program", self.folder / "answers"
        beside.write_text(json.dumps(answers))
        beside.with_suffix(".py").write_text(ANSWERS)
        file.write_text(PROGRAM.format(python=sys.executable, beside=beside))
        os.chmod(file, 0o755)
        return file

    def test_a_program_that_answers_every_row(self):
        ended = call("rows", self.program())
        self.assertEqual((ended.returncode, ended.stderr), (0, b""))
        self.assertIn(f"{len(read_rows())} passed, 0 failed".encode(), ended.stdout)

    def test_what_differs_is_named(self):
        ended = call("rows", self.program(text="span-cut", status="too-long"), "write-fault", "span-cut", "too-long", "tie")
        said = ended.stdout.decode()
        self.assertEqual(ended.returncode, 1)
        self.assertIn("span-cut: run\n", said)
        self.assertIn("-port c1 a norm 0 00636465666761626364656667616263\n", said)
        self.assertIn("+port c1 a norm 1 00636465666761626364656667616263\n", said)
        self.assertIn("too-long: run\n  status 0, wanted 9\n", said)
        self.assertIn(", 2 failed", said)

    def test_some_rows_alone(self):
        self.assertIn(b"2 passed, 0 failed", call("rows", self.program(text="tie"), "healthy", "usage").stdout)
        self.assertEqual(call("rows", self.program(text="tie"), "tie").returncode, 1)
        ended = call("rows", self.program(), "no-such-row")
        self.assertEqual((ended.returncode, ended.stderr), (2, b"rows: no such row: no-such-row\n"))

    def test_a_program_that_is_not_there(self):
        ended = call("rows", self.folder / "nothing", "healthy")
        self.assertEqual(ended.returncode, 2)
        self.assertNotIn(b"Traceback", ended.stderr)

    def test_no_text_and_no_example_is_forgotten(self):
        table = (RINGS / "rows.md").read_text()
        texts = {path.name for path in RINGS.glob("*.text")} - {"large.text"}
        self.assertEqual({name for name in texts if f"| {name} |" not in table}, set())
        examples = {path.name for path in (RINGS.parents[2] / "examples").glob("*.toml")}
        self.assertEqual({name for name in examples if f"| examples/{name} |" not in table}, set())

    def test_every_status_that_can_be_brought_about(self):
        self.assertEqual({row.status for row in read_rows()}, {0, 2, 3, 4, 5, 6, 7, 9, 10, 71})

    def test_limits_within_which_a_ring_always_settles(self):
        for row in read_rows():
            if row.name.endswith("-within-bound"):
                lines = dict(line.split(b" = ", 1) for line in row.given.splitlines() if b" = " in line)
                with self.subTest(row=row.name):
                    self.assertEqual(int(lines[b"limit"]), 64 * len(lines[b"nodes"].split(b",")) + 512)

    def test_changes(self):
        plan = b'limit = 5\nscript = ["settle"]\n'
        self.assertEqual(changed(plan, "limit = 6"), b'limit = 6\nscript = ["settle"]\n')
        self.assertEqual(changed(plan, "offset_a = 7"), plan + b"offset_a = 7\n")
        self.assertEqual(changed(plan, "2 times settle"), b"limit = 5\nscript = ['settle', 'settle']\n")
        self.assertEqual(changed(plan, "spaces up to 40 bytes"), plan + b" " * (40 - len(plan)))
        with self.assertRaises(RowsProblem):
            changed(plan + plan, "limit = 6")

    def test_rows_of_lines(self):
        rows = {row.name: row for row in read_rows(RINGS.parent / "lines")}
        self.assertEqual(rows["slow-line"].given, rows["slow-line-of-letters"].given)
        self.assertEqual([row.status for row in rows.values()], [0, 0, 0, 12, 0, 0, 0, 9, 2, 2, 2, 3, 4])
        self.assertTrue(rows["drift"].text.endswith(b"drift 4\n"))

    def test_rows_of_watches(self):
        folder = RINGS.parent / "watches"
        rows = read_rows(folder)
        self.assertEqual({row.status for row in rows}, {0, 2, 3, 4, 5, 6, 7})
        table = (folder / "rows.md").read_text()
        self.assertEqual({path.name for path in folder.glob("*.text") if f"| {path.name} |" not in table}, set())

    def test_a_broken_table(self):
        (self.folder / "rows.md").write_text("| Row | Words |\n|---|---|\n| a | run |\n")
        with self.assertRaises(RowsProblem):
            read_rows(self.folder)


class Chosen(unittest.TestCase):
    """tools/test runs what its words name, and nothing where a word names nothing."""

    def ended(self, *words):
        return subprocess.run([TOOLS / "test", *words], capture_output=True, text=True)

    def test_help_runs_nothing(self):
        helped = self.ended("--help")
        self.assertEqual((helped.returncode, helped.stderr), (0, ""))
        self.assertIn("usage: test [NAME ..]", helped.stdout)

    def test_a_word_that_names_nothing_is_refused(self):
        refused = self.ended("sdhretime", "test_nothing")
        self.assertEqual((refused.returncode, refused.stdout), (2, ""))
        self.assertEqual(refused.stderr, "test: no module of tools/testing, and no program with rows, is called 'test_nothing'\n")


if __name__ == "__main__":
    unittest.main()
