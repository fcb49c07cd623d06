"""What is too large, too deep or endless is refused in a line, within seconds and megabytes."""

import resource
import subprocess
import sys
import tempfile
import unittest
from pathlib import Path

from common import TOOLS, bytes_of, call

from ringtools.against import MOST_CASES
from ringtools.checks import CIRCUITS
from ringtools.explaining import COUNTED, MOST, explain
from ringtools.files import CASES, PLAN, TABLE
from ringtools.plan import DEEPEST, POINTS, PlanProblem, read_plan
from ringtools.source import SHOWN
from ringtools.tables import CELL, COLUMNS, ROWS, TableProblem, read_table

MEGABYTES = 200
SECONDS = 20  # of a processor: ten times what is promised, so that a loaded or slow machine doesn't matter
GOOD = bytes_of("span-cut")[0].decode()
BEFORE, _, AFTER = GOOD.partition("script = ")
HEAD = "Failures,Depth,Kept,Impaired,Over,Lost,Impaired circuits,Over circuits,Lost circuits\n"


def with_script(script):
    """The plan with another script."""
    return f"{BEFORE}script = {script}\n{AFTER.partition(']')[2]}"


def circuits(count):
    return "".join(f'[[circuit]]\nname = "d{number}"\nfrom = 1\nto = 2\nslot = 1\ntext_a = "a"\ntext_b = "b"\n' for number in range(count))


PLANS = {
    "many wrong steps in a line": with_script("[" + '"settled",' * 80_000 + "]"),
    "many good steps in a line": with_script("[" + '"settle",' * 100_000 + "]"),
    "a long step": with_script('["' + "a " * 400_000 + '"]'),
    "a long word": with_script('["' + "a" * 900_000 + '"]'),
    "many keys": "".join(f"k{number} = 1\n" for number in range(70_000)),
    "many empty circuits": GOOD + "[[circuit]]\n" * 70_000,
    "many circuits": GOOD + circuits(10_000),
    "many nodes": "rate = 4\nnodes = [" + "1," * 300_000 + "1]\n",
    "a key of many parts": "a." * 200_000 + "a = 1\n",
    "many keys of many parts": "".join(f"a.{number}" + ".b" * 70 + " = 1\n" for number in range(5_000)),
    "deep arrays": "a = " + "[" * 500_000,
    "deep tables": "a = " + "{a = " * 150_000,
    "a number of many digits": "rate = " + "9" * 900_000,
    "a hexadecimal number of many digits": "rate = 0x" + "F" * 900_000,
    "a number beyond 64 bits": GOOD.replace("rate = 4", "rate = 0x" + "F" * 5_000),
    "many escapes": 'a = "' + "\\n" * 400_000 + '"\n',
    "many quotes": '"' * 900_000,
    "many apostrophes": "'" * 900_000,
    "many names": GOOD + "".join(f"# node {number} is x\n" for number in range(40_000)),
    "many tables": "".join(f"[a{number}]\n" for number in range(70_000)),
    "blanks": " " * 1_000_000,
    "too long": "#" * (PLAN.bytes + 1),
}
TABLES = {
    "rows": "name,from,to\n" + "a,1,2\n" * (ROWS + 1),
    "bytes": "name,from,to\n" + "a,1,2\n" * (TABLE.bytes // 6),
    "empty rows": "name,from,to\n" + "\n" * 3_000_000,
    "columns": "name,from,to" + ",x" * (COLUMNS - 2) + "\n",
    "many columns": "name,from,to" + ",x" * 1_500_000 + "\n",
    "a long cell": f"name,from,to\n{'a' * (CELL + 1)},1,2\n",
    "a very long cell": f"name,from,to\n{'a' * 3_000_000},1,2\n",
    "an open quote": 'name,from,to\n"' + "a\n" * 1_000_000,
    "semicolons": ";" * 3_000_000,
}


def limited():
    """Makes a process end that takes more than is promised."""
    resource.setrlimit(resource.RLIMIT_AS, (MEGABYTES << 20, MEGABYTES << 20))
    resource.setrlimit(resource.RLIMIT_CPU, (SECONDS, SECONDS))


class Limits(unittest.TestCase):
    def setUp(self):
        folder = tempfile.TemporaryDirectory()
        self.addCleanup(folder.cleanup)
        self.top = Path(folder.name)

    def run_tool(self, tool, *words):
        """What a tool says within the limits, and its status, which is none of a signal, of memory, or of a mistake."""
        ended = subprocess.run([sys.executable, TOOLS / tool, *words], cwd=self.top, capture_output=True, preexec_fn=limited)
        self.assertIn(ended.returncode, range(10), ended.stderr[-2000:])
        self.assertNotIn(b"Traceback", ended.stderr)
        self.assertLess(len(ended.stdout) + len(ended.stderr), 50_000)
        return ended.stdout.decode() + ended.stderr.decode(), ended.returncode

    def test_each_plan_is_explained(self):
        for name, text in PLANS.items():
            (self.top / "plan.toml").write_text(text)
            with self.subTest(plan=name):
                self.run_tool("sdhring-explain", "plan.toml")

    def test_each_plan_is_refused_by_those_that_read_plans(self):
        (self.top / "spans.csv").write_text("from,to,cuts,hours\n")
        for name in ("many wrong steps in a line", "many nodes", "a number beyond 64 bits", "many circuits", "too long"):
            (self.top / "plan.toml").write_text(PLANS[name])
            with self.subTest(plan=name):
                said, status = self.run_tool("sdhring-availability", "plan.toml", "spans.csv")
                self.assertEqual((status, said.count("\n")), (1, 1), said)
                self.assertRaises(PlanProblem, read_plan, PLANS[name].encode())

    def test_each_table_is_refused(self):
        (self.top / "nodes.csv").write_text("place,node\nA,1\nB,2\n")
        for name, text in TABLES.items():
            (self.top / "t.csv").write_text(text)
            with self.subTest(table=name):
                said, status = self.run_tool("sdhring-plan", "import", "t.csv", "--nodes", "nodes.csv")
                self.assertEqual((status, said.count("\n")), (1, 1), said)
                self.assertIn("t.csv", said)

    def test_a_table_at_its_limits_is_read(self):
        file = self.top / "t.csv"
        file.write_text("name" + ",x" * (COLUMNS - 1) + "\n" + f"{'a' * CELL}\n" * (ROWS // 32))
        self.assertEqual(len(read_table(str(file), ("name",), ("name",)).rows), ROWS // 32)
        file.write_text("name\n" + "a\n" * ROWS)
        self.assertEqual(len(read_table(str(file), ("name",), ("name",)).rows), ROWS)
        file.write_text("name\n" + "a\n" * 5)
        with self.assertRaisesRegex(TableProblem, ":5: this table has at most 3 rows"):
            read_table(str(file), ("name",), ("name",), 3)

    def test_texts_of_more_lines_than_a_report_has(self):
        for name, text in {"newlines": "\n" * 3_900_000, "lines": "done\n" * 3_300_000, "steps": "settle 1 round 128\n" * 800_000, "one line": "a" * 16_000_000}.items():
            (self.top / "a.text").write_text(text)
            with self.subTest(text=name):
                said, status = self.run_tool("sdhring-report", "--json", "a.text")
                self.assertEqual((status, said.count("\n")), (1, 1), said)

    def test_groups_that_touch_one_ring(self):
        """Each two of them would be asked about."""
        (self.top / "t").mkdir()
        (self.top / "t" / "rings.csv").write_text(f"ring,rate,places\nNorth,4,{';'.join('ABCDEFGH')}\n")
        (self.top / "t" / "circuits.csv").write_text("name,from,to\none,A,C\n")
        self.assertEqual(self.run_tool("sdhring-network", "import", "t", "--to", "net")[1], 0)
        document = self.top / "net" / "network.toml"
        good = document.read_text()
        group = '[[group]]\nname = "g{}"\nmembers = ["span A-B", "span {}-{}"]\n'
        groups = [group.format(number, *"BCDEFGH"[number % 6 : number % 6 + 2]) for number in range(1000)]
        document.write_text(good + "".join(groups))
        for words in (("whatif", "net", "--summary", "--dir", "o"), ("page", "net", "--to", "p"), ("room", "net"), ("availability", "net")):
            said, status = self.run_tool("sdhring-network", *words)
            self.assertEqual((status, said), (1, "sdhring-network: net/network.toml: 1,000 groups touch ring North, and at most 64 may\n"))
        document.write_text(good + "".join(groups[:64]))
        self.assertEqual(self.run_tool("sdhring-network", "room", "net")[1], 0)
        (self.top / "t" / "groups.csv").write_text("group,members\n" + "".join(f"g{number},span A-B; span C-D\n" for number in range(65)))
        self.assertIn("65 groups touch ring North", self.run_tool("sdhring-network", "import", "t", "--to", "new")[0])
        self.assertFalse((self.top / "new").exists())

    def test_tables_of_all_cases(self):
        tables = {
            "rows": HEAD + "".join(f"fibre {number},1,9,0,0,0,,,\n" for number in range(MOST_CASES)),
            "circuits": HEAD + "".join(f"fibre {number},1,9,0,1,0,,c{number},\n" for number in range(CIRCUITS + 1)),
            "bytes": HEAD + "#" * CASES.bytes,
            "short": HEAD + "fibre 1\n",
            "heads": "Failures\nfibre 1\n",
        }
        for name, text in tables.items():
            (self.top / "a.csv").write_text(text)
            with self.subTest(table=name):
                said, status = self.run_tool("sdhring-whatif", "--all", "--against", "a.csv", "a.csv")
                self.assertEqual((status, said.count("\n")), (1, 1), said)

    def test_numbers_of_thousands_of_digits_and_odd_words(self):
        (self.top / "ring.toml").write_text(GOOD)
        digits = "9" * 5_000
        (self.top / "nodes.csv").write_text(f"place,node\nA,{digits}\n")
        (self.top / "circuits.csv").write_text(f"name,from,to,offset_a\nc,1,2,{digits}\n")
        (self.top / "good.csv").write_text("place,node\nA,1\nB,2\n")
        (self.top / "t.text").write_text(f"settle 1 round {digits}\ndone\n")
        tried = (
            ("sdhring-plan", "import", "circuits.csv", "--nodes", "nodes.csv"),
            ("sdhring-plan", "import", "circuits.csv", "--nodes", "good.csv"),
            ("sdhring-report", "--json", "t.text"),
            ("sdhring-report", "--csv", "--plan", "ring.toml", "t.text"),
            ("sdhring-view", "ring.toml", "t.text"),
            ("sdhring-whatif", "--shard", f"{digits}/{digits}", "ring.toml"),
            ("sdhring-whatif", "--all", "--frames", digits, "ring.toml"),
            ("sdhring-whatif", "--require", f"single: at most {digits} lost", "ring.toml"),
            ("sdhring-whatif", "--all", "--teller", '"x', "ring.toml"),
            ("sdhring-whatif", "--all", "--teller", " ", "ring.toml"),
            ("sdhring-whatif", "--all", "--teller", "a\0b".replace("\0", "\x01"), "ring.toml"),
            ("sdhring-desk", "--teller", '"x', "ring.toml"),
            ("sdhring-view", "--program", "", "ring.toml"),
            ("sdhring-capture", "--program", "'", "--node", "1", "--side", "east", "--rounds", "1:2", "ring.toml"),
            ("sdhring-capture", "--node", digits, "--side", "east", "--rounds", f"{digits}:{digits}", "ring.toml"),
        )
        (self.top / "spans.csv").write_text("from,to,cuts,hours\n1,2,1e308,4\n")
        tried += (("sdhring-availability", "ring.toml", "spans.csv"), ("sdhring-availability", "--cuts-per-1000-km", "1e999", "ring.toml", "spans.csv"))
        for tool, *words in tried:
            ended = call(tool, *words, cwd=self.top)
            with self.subTest(tool=tool, words=[word[:40] for word in words]):
                self.assertIn(ended.returncode, range(1, 10), ended.stderr[-600:])
                self.assertNotIn(b"Traceback", ended.stderr)
                self.assertNotIn(b"a mistake of this tool", ended.stderr)


class Explained(unittest.TestCase):
    def test_refusals_are_counted_up_to_a_number(self):
        told = explain(with_script("[" + '"settled",' * 900 + '"settle"]').encode())
        self.assertEqual((len(told.findings), told.count), (MOST, COUNTED))
        told = explain(with_script("[" + '"settled",' * 30 + '"settle"]').encode())
        self.assertEqual((len(told.findings), told.count), (MOST, 30))

    def test_a_place_keeps_a_part_of_its_line(self):
        for finding in explain(with_script("[" + '"settled",' * 900 + '"settle"]').encode()).findings:
            self.assertLessEqual(len(finding.place.part), SHOWN)
            self.assertTrue(finding.place.part[finding.place.at :].startswith("settled"))

    def test_points(self):
        key = ".".join("a" * DEEPEST)
        self.assertEqual(explain(f"{key} = 1\n".encode()).status, 6)
        self.assertEqual(explain(f"{key}.a = 1\n".encode()).findings[0].head, f"not toml: a key has more than {DEEPEST} parts")
        self.assertEqual(explain((GOOD + "# " + "." * POINTS).encode()).status, 0)
        self.assertEqual(explain(GOOD.replace("text_a = \"", 'text_a = "' + "." * 50, 1).encode()).status, 0)
        self.assertEqual(explain(("a = [" + "1.5," * (POINTS + 1) + "]\n").encode()).status, 1)


if __name__ == "__main__":
    unittest.main()
