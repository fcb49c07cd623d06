"""A planner's way from three tables to a printed page, by the commands as README has them, with the programs in dist/."""

import csv
import random
import re
import shlex
import shutil
import subprocess
import tempfile
import unittest
from pathlib import Path

from common import PATIENCE, TOOLS
from pages import BROWSER, Seen

TOP = TOOLS.parent
PLACES = ["Köln", "Bonn", "Bad Münstereifel", "Koblenz", "Mainz", "Frankfurt", "Darmstadt", "Mannheim", "Straßburg", "Trier", "Luxembourg", "Aachen"]
CUTS = 2  # cuts a year of 1,000 km, as README has them


def commands():
    """What a planner types by README, in its section on tables."""
    section = (TOP / "README.md").read_text(encoding="utf-8").split("### From tables to a page")[1].split("\n## ")[0]
    return [line.strip() for line in section.splitlines() if line.startswith("    ./")]


def write(file, head, rows):
    with open(file, "w", newline="", encoding="utf-8") as opened:
        csv.writer(opened).writerows([head, *rows])


def circuits_of(chance):
    """40 circuits that fit: in each of eight slots the ring falls into six pieces, of which five are circuits; either end may come first."""
    pairs = []
    for _ in range(8):
        marks = sorted(chance.sample(range(12), 6))
        pieces = chance.sample(list(zip(marks, marks[1:] + marks[:1])), 5)
        pairs += [chance.sample(piece, 2) for piece in pieces]
    chance.shuffle(pairs)
    return [(f"Customer {number}", PLACES[one], PLACES[other]) for number, (one, other) in enumerate(pairs, 1)]


@unittest.skipUnless((TOP / "dist" / "sdhwhatif").is_file(), "dist/ has no programs")
class Trial(unittest.TestCase):
    @classmethod
    def setUpClass(cls):
        folder = tempfile.TemporaryDirectory()
        cls.addClassCleanup(folder.cleanup)
        cls.top, chance = Path(folder.name), random.Random(12)
        cls.circuits = circuits_of(chance)
        write(cls.top / "circuits.csv", ["name", "from", "to"], cls.circuits)
        write(cls.top / "nodes.csv", ["place", "failures", "hours"], [[place, 0.1, 4] for place in PLACES])
        cls.kilometres = [chance.randint(20, 200) for _ in PLACES]
        write(cls.top / "spans.csv", ["from", "to", "km", "hours"], [[*two, km, 8] for *two, km in zip(PLACES, PLACES[1:] + PLACES[:1], cls.kilometres)])
        cls.said = []
        for line in commands():
            cls.said.append(subprocess.run(line.replace("./sdhring", f"{shlex.quote(str(TOP))}/sdhring"), shell=True, cwd=cls.top, capture_output=True, text=True))
        cls.page = Seen((cls.top / "ring.html").read_text(encoding="utf-8"))

    def test_three_commands(self):
        self.assertEqual([(ended.returncode, ended.stderr.count("Traceback")) for ended in self.said], [(0, 0)] * 3)

    def test_each_circuit_leads_between_its_places(self):
        rows = {row["customer"]: row for row in self.page.table_named("Customers, and")}
        self.assertEqual(set(rows), {name for name, _, _ in self.circuits})
        for name, *ends in self.circuits:
            shown = [rows[name][column].split(" ", 1)[1] for column in ("from", "to")]
            self.assertEqual(sorted(shown), sorted(ends), name)

    def test_minutes_are_those_of_the_rates(self):
        """Of each circuit the unprotected minutes, worked out from kilometres: its arc's spans and nodes and its ends, one after the other."""
        rows = {row["customer"]: row for row in self.page.table_named("Customers, and")}
        text = self.said[1].stdout
        for name, *_ in self.circuits:
            start, end = (PLACES.index(rows[name][column].split(" ", 1)[1]) for column in ("from", "to"))
            arc = [(start + i) % 12 for i in range((end - start) % 12)]
            up = 1.0
            for span in arc:
                down = CUTS * self.kilometres[span] / 1000 * 8 / 8760
                up /= 1 + down
            up /= (1 + 0.1 * 4 / 8760) ** (len(arc) + 1)
            shown = float(rows[name]["unprotected"])
            self.assertAlmostEqual(shown, (1 - up) * 525_600, delta=0.01 * shown)
            self.assertRegex(text, rf"(?m)^{name} ")

    def test_each_number_is_there(self):
        """Who survives what, which pairs hurt most, minutes a year; and where all of it comes from."""
        text = self.page.text().replace("\u2060", "")
        for words in ("Fibres cut, one alone : customers are lost in none.", "Two spans cut : customers are lost in", "all of these end there", "Proved yes", "spans.csv , checksum"):
            self.assertIn(words, text)
        matrix = self.page.table_named("Customers lost, spans by spans")
        self.assertEqual([len(row) for row in matrix], [13] * 12)
        worst = self.page.table_named("Up to 10 cases")
        self.assertEqual(len(worst), 10)
        self.assertEqual(max(int(row["lost"]) for row in worst), int(worst[0]["lost"]))

    @unittest.skipUnless(BROWSER and shutil.which("pdftotext"), "there is no chromium, or no pdftotext")
    def test_the_printed_page(self):
        pdf = self.top / "ring.pdf"
        words = [BROWSER, "--headless=new", "--no-sandbox", "--disable-gpu", f"--user-data-dir={self.top}/own", "--virtual-time-budget=5000", "--no-pdf-header-footer"]
        subprocess.run([*words, f"--print-to-pdf={pdf}", (self.top / "ring.html").as_uri()], capture_output=True, timeout=PATIENCE)
        text = subprocess.run(["pdftotext", "-layout", str(pdf), "-"], capture_output=True, text=True).stdout
        missing = [name for name, *_ in self.circuits if not re.search(rf"{name}\b", text)]
        self.assertEqual(missing, [])
        for words in ("Spans by spans", "The worst cases", "Signed", "approved by", "min/year"):
            self.assertIn(words, text)


if __name__ == "__main__":
    unittest.main()
