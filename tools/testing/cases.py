"""A ring of four, its failures, and how the tests ask `sdhring-whatif` about it."""

import csv
import io
import tempfile
import unittest
from itertools import combinations
from pathlib import Path

from common import STANDIN, call
from pages import Seen

IDS = [5, 2, 9, 4]
RING = """rate = 4
nodes = [5, 2, 9, 4]
threshold = 3
wait = 10
limit = 1000
script = ["settle"]
"""
CIRCUITS = [("near", 5, 2, 1), ("far", 2, 4, 1), ("round", 5, 4, 2), ("back", 4, 5, 1)]


def document(circuits=CIRCUITS, head=RING):
    parts = [head]
    for name, start, end, slot in circuits:
        parts.append(f'[[circuit]]\nname = "{name}"\nfrom = {start}\nto = {end}\nslot = {slot}\n')
        parts.append(f'text_a = "{name}!"\ntext_b = "to {name}"\noffset_a = 390\noffset_b = {37 * slot}\n')
    return "".join(parts)


def spans(*places):
    return [(span, side) for span in places for side in ("east", "west")]


def failures():
    """Each failure of a ring of four by its files' name: the spans it cuts, and on which sides of them."""
    name = lambda span: f"{IDS[span]}-{IDS[(span + 1) % 4]}"
    found = {}
    for span in range(4):
        found[f"fibre-{IDS[span]}-east"] = [(span, "east")]
        found[f"fibre-{IDS[(span + 1) % 4]}-west"] = [(span, "west")]
        found[f"span-{name(span)}"] = spans(span)
        found[f"node-{IDS[span]}"] = spans((span - 1) % 4, span)
    for one, other in combinations(range(4), 2):
        found[f"pair-{name(one)}-and-{name(other)}"] = spans(one, other)
    return found


def script_of(cut, also=()):
    """The script that cuts these and mends them again, a settle step each."""
    places = [f"{IDS[span]} east" if side == "east" else f"{IDS[(span + 1) % 4]} west" for span, side in cut]
    return [*also, "settle", *(f"cut {p}" for p in places), "settle", *(f"mend {p}" for p in places), "settle", "moment 10", "settle"]


def expected(rules, last):
    """What becomes of each circuit at the end of a settle step, by the model."""
    applied, cells = rules.applied(last), {}
    for circuit in rules.circuits:
        longer = rules.hops(circuit, applied) - len(rules.arc(circuit)) if rules.joined(circuit, applied) else None
        struck = applied & set(rules.arc(circuit))
        kept = "impaired" if any(rules.requests(last)[span] >= 6 for span in rules.arc(circuit)) else "kept"
        cells[circuit["name"]] = "lost" if longer is None else f"over{longer:+d}" if struck else kept
    return cells


class Asking(unittest.TestCase):
    """A folder of its own for each test, with the plan in it."""

    def setUp(self):
        self.folder = tempfile.TemporaryDirectory()
        self.addCleanup(self.folder.cleanup)
        self.top = Path(self.folder.name)
        self.plan = self.top / "plan.toml"
        self.plan.write_text(document())

    def ask(self, *words, program=STANDIN, wanted=0, plan=None, **more):
        ended = call("sdhring-whatif", plan or self.plan, "--dir", self.top / "out", "--program", program, *words, **more)
        self.assertEqual(ended.returncode, wanted, ended.stderr.decode())
        self.assertNotIn(b"Traceback", ended.stderr)
        return ended

    def table(self, name="table.csv"):
        return list(csv.DictReader(io.StringIO((self.top / "out" / name).read_text())))

    def page(self, name="page.html"):
        return Seen((self.top / "out" / name).read_text())

    def words(self):
        return self.page().text().replace("\u2060", "")

    def cases(self):
        return self.top / "out" / "cases"

    def times(self):
        """When each answer was written, that about no failure apart."""
        return {path.name: path.stat().st_mtime_ns for path in self.cases().glob("*.answer") if path.stem != "nothing"}

    def script(self, name, line, status):
        """A program of this name that answers each plan with one line and this status."""
        script = self.top / name
        script.write_text(f"#!/bin/sh\necho '{line}'\nexit {status}\n")
        script.chmod(0o755)
        return str(script)

    def copy(self, name):
        """The stand-in as another program, of one file."""
        program = self.top / name
        program.write_text(f'#!/bin/sh\n# {name}\nexec {STANDIN} "$@"\n')
        program.chmod(0o755)
        return str(program)
