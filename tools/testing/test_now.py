"""sdhring-now: lists of alarms as people write them, what is said of the ring, and commands sorted as sdhring's own runs have it."""

import json
import re
import subprocess
import tempfile
import unittest
from pathlib import Path

from common import TESTING, TOOLS, call
from pages import Seen

from ringtools.now.alarms import read_alarms
from ringtools.now.records import Listing
from ringtools.now.sorting import steps_of
from ringtools.plan import read_plan

TOP = TOOLS.parent
ALARMS = TESTING / "alarms"
PLACES = ("Köln", "Bonn", "Koblenz", "Mainz", "Wiesbaden", "Frankfurt am Main", "Gießen", "Siegen", "Hagen", "Dortmund", "Essen", "Düsseldorf")
CIRCUITS = (("north", 1, 3, 1), ("south", 2, 3, 2), ("police", 3, 6, 1), ("bank", 9, 11, 1), ("radio", 12, 2, 3), ("far", 5, 2, 4))
CALLED = {"police": "Police & fire <112>"}
KM = (66, 44, 75, 108, 31, 34, 93, 37, 71, 99, 32, 89)
# What each list comes to: the steps that make the ring so, the lines that can't be read, and those without an alarm.
READ = {
    "01-one-cut.txt": ("cut 2 east; cut 3 west", [], []),
    "02-nms-semicolons.csv": ("cut 2 east; cut 3 west; degrade 8 east 3", [], []),
    "03-commas-with-states.csv": ("degrade 8 east 3", [], []),
    "04-tabs.csv": ("cut 3 east; cut 4 west; degrade 12 west 3", [], []),
    "05-newest-first.csv": ("cut 11 east; cut 12 west", [], []),
    "06-pasted-with-times.txt": ("cut 6 east; cut 7 west; degrade 9 east 3", [], [1]),
    "07-numbers.txt": ("cut 2 east; cut 3 west; degrade 9 east 3; degrade 10 west 3; cut 11 west", [], []),
    "08-spans-and-arrows.txt": ("cut 1 east; cut 2 west; cut 4 east; degrade 7 east 3; degrade 8 west 3; cut 11 east", [], []),
    "09-switches.txt": ("forced 2 east; forced 3 west; manual 9 east", [], []),
    "10-duplicates.txt": ("cut 3 west", [], []),
    "11-cleared.txt": ("degrade 5 west 3", [], []),
    "12-steps-of-a-script.txt": ("cut 2 east; degrade 9 east 5", [], []),
    "13-node-lost.txt": ("cut 7 east; cut 8 east; cut 8 west; cut 9 west", [], []),
    "14-waits.txt": ("cut 4 east; cut 5 west; settle; mend 4 east; mend 5 west", [], []),
    "15-paths-and-sections.csv": ("cut 3 west", [], []),
    "16-what-cannot-be-read.txt": ("cut 10 west", [1, 2, 3, 4, 5, 6, 7], []),
    "17-umlauts-decomposed.txt": ("cut 1 west; cut 12 east", [], []),
    "18-windows.csv": ("cut 6 west", [], []),
    "19-a-end-z-end.csv": ("cut 1 west; degrade 3 west 3", [], []),
    "20-states-unknown.csv": ("cut 5 west", [2, 4], []),
}


def document(script=("settle",)):
    lines = [f"# node {number} is {place}" for number, place in enumerate(PLACES, 1)] + [f"# circuit {name} is {called}" for name, called in CALLED.items()]
    lines += ["rate = 16", f"nodes = {[*range(1, 13)]}", "threshold = 3", "wait = 10", "limit = 1280", f"script = {json.dumps(script)}"]
    for name, start, end, slot in CIRCUITS:
        lines += ["[[circuit]]", f'name = "{name}"', f"from = {start}", f"to = {end}", f"slot = {slot}", f'text_a = "{name}!"', f'text_b = "to {name}"']
    return "\n".join(lines) + "\n"


class Asking(unittest.TestCase):
    def setUp(self):
        made = tempfile.TemporaryDirectory()
        self.addCleanup(made.cleanup)
        self.top = Path(made.name)
        self.plan = self.top / "ring.toml"
        self.plan.write_text(document(), encoding="utf-8")
        rows = [f"{here},{there},{km}" for here, there, km in zip(PLACES, PLACES[1:] + PLACES[:1], KM)]
        (self.top / "spans.csv").write_text("\n".join(["from,to,km", *rows]) + "\n", encoding="utf-8")

    def ask(self, alarms, *words, wanted=0, plan="ring.toml"):
        given = {"input": alarms.encode()} if isinstance(alarms, str) else {}
        ended = call("sdhring-now", plan, "--alarms", "-" if given else alarms, *words, cwd=self.top, **given)
        self.assertEqual(ended.returncode, wanted, ended.stderr.decode())
        self.assertNotIn(b"Traceback", ended.stderr)
        return ended.stdout.decode()

    def record(self, alarms, *words, wanted=0):
        return json.loads(self.ask(alarms, "--json", *words, wanted=wanted))


class Lists(Asking):
    def read(self, name):
        """What a list comes to, and its steps."""
        plan = read_plan(document().encode())
        listing = Listing(str(ALARMS / name))
        found = read_alarms(plan, listing.records, listing.notes)
        return found, steps_of(plan, found.standing(plan))

    def test_twenty_lists(self):
        """Each is read as its lines mean, or what can't be read is named by its line."""
        self.assertEqual(sorted(path.name for path in ALARMS.iterdir()), sorted(READ))
        for name, (steps, unread, others) in READ.items():
            with self.subTest(list=name):
                found, made = self.read(name)
                self.assertEqual("; ".join(made), steps)
                self.assertEqual([record.line for record, _ in found.unread], unread)
                self.assertEqual([record.line for record in found.others], others)

    def test_nothing_is_dropped(self):
        """Each line with a letter or a digit that is no comment and doesn't name the columns is said once, as it was read or not."""
        for name in READ:
            found, _ = self.read(name)
            said = [*(alarm.line for alarm in found.alarms), *(record.line for record, _ in found.unread), *(record.line for record in found.others)]
            lines = (ALARMS / name).read_text(encoding="utf-8-sig").splitlines()
            wanted = [at for at, line in enumerate(lines, 1) if re.search(r"\w", line) and not line.startswith("#")]
            with self.subTest(list=name):
                self.assertEqual(sorted(said), wanted[1:] if name.endswith(".csv") else wanted)

    def test_the_tool_reads_them_so(self):
        for name in ("02-nms-semicolons.csv", "20-states-unknown.csv"):
            found = self.record(ALARMS / name, wanted=6 if READ[name][1] else 0)
            self.assertEqual(("; ".join(found["steps"]), [one["line"] for one in found["list"]["unread"]]), READ[name][:2])

    def test_why_a_line_is_not_read(self):
        text = self.ask(ALARMS / "16-what-cannot-be-read.txt", wanted=6)
        self.assertTrue(text.startswith("NOT READ: 7 of 8 alarms, so all of this may be wrong: lines 1, 2, 3, 4, 5, 6, 7\n"))
        for why in ("the side of 2 Bonn is missing: west (1 Köln) or east (3 Koblenz)", "no span joins 2 Bonn and 4 Mainz", "`wien` is no node of the ring", "no alarm that is known is in it"):
            self.assertIn(why, " ".join(text.split()))
        why = [one["why"] for one in self.record(ALARMS / "16-what-cannot-be-read.txt", wanted=6)["list"]["unread"]]
        self.assertIn("lockout: the ring of the plan has no such command", why)
        self.assertIn("`13` is no node of the ring", why)

    def test_what_else_is_said_of_a_list(self):
        notes = lambda name, wanted=0: " ".join(self.ask(ALARMS / name, wanted=wanted).split("Of the list")[1].split())
        self.assertIn("said again: lines 2, 3, 4", notes("10-duplicates.txt"))
        self.assertIn("cleared, and nothing stood: line 4", notes("09-switches.txt"))
        self.assertIn("paths' alarms, which follow from others: lines 3, 4", notes("15-paths-and-sections.csv"))
        self.assertIn("no alarm and no place: line 1", notes("06-pasted-with-times.txt"))
        self.assertIn("in the order of their times", notes("05-newest-first.csv"))

    def test_columns_that_are_not_read_are_named(self):
        found = self.record("node,side,alarm,shelf\nBonn,east,LOS,7\n")
        self.assertEqual(found["list"]["notes"], ["-: columns that aren't read: shelf"])

    def test_lists_that_are_none(self):
        self.assertEqual(self.record("# none\n-----\n")["steps"], [])
        self.ask("", wanted=1)
        self.assertTrue(self.ask("[[[[\n", wanted=6).startswith("NOT READ: no alarm is in the list, whose 1 line "))
        self.ask("x" * 5000, wanted=1)
        self.ask("LOS Bonn east\n" * 5000, wanted=1)
        self.ask(Path("missing.txt"), wanted=1)
        text = self.ask(Path("ring.toml"), wanted=6)  # a plan in place of the list
        self.assertTrue(text.startswith("NOT READ: no alarm is in the list, whose "), text[:200])


class Answers(Asking):
    CUT = "LOS Bonn east\nLOS Koblenz west\nSD Dortmund west\n"

    def test_customers_by_name(self):
        """Span 2-3 is cut, and 9-10 degraded: who crosses the first goes the other way round, who crosses the second alone is impaired."""
        found = {one["circuit"]: one for one in self.record(self.CUT, "--spans", "spans.csv")["customers"]}
        self.assertEqual({name: one["result"] for name, one in found.items()}, {"north": "over", "south": "over", "police": "kept", "bank": "impaired", "radio": "kept", "far": "impaired"})
        ring = sum(KM)
        # north leads 1 to 3: out over 66 km, back over all but span 2-3; its own arc has 66 + 44.
        self.assertEqual((found["north"]["spans"], found["north"]["own_spans"]), (1 + 11, 2))
        self.assertEqual((found["north"]["km"], found["north"]["own_km"]), (66 + ring - 44, 110))
        self.assertAlmostEqual(found["north"]["longer_ms"], 10 * 0.125)
        self.assertAlmostEqual(found["north"]["longer_ms_with_fibre"], 10 * 0.125 + (66 + ring - 44 - 110) * 0.005)
        text = self.ask(self.CUT, "--spans", "spans.csv")
        self.assertTrue(text.startswith("ring.toml: no customer of 6 lost, 2 impaired, 2 over protection, 2 on their own way\n"))
        self.assertIn(f"north: 12 spans in place of 2, +{66 + ring - 44 - 110} km, +1.250 ms (+{1.25 + (66 + ring - 44 - 110) * 0.005:.3f} ms with fibre)", text)

    def test_lost_customers_and_the_repair(self):
        """Two cut spans: who has one on his arc and one off it is lost, and comes back with the repair of either."""
        lists = self.CUT + "LOS Mainz east\nLOS Wiesbaden west\n"
        found = self.record(lists)
        lost = {one["circuit"] for one in found["customers"] if one["result"] == "lost"}
        self.assertEqual(lost, {"north", "south", "police"})
        self.assertEqual([sorted(one["after_waiting"]["back"]) for one in found["repairs"][:2]], [sorted(lost), sorted(lost)])
        text = self.ask(lists, "--fail-on", "lost", wanted=5)
        self.assertIn("LOST (3): north, south, Police & fire <112>", text)
        self.assertIn("repair first: span 2–3 (Bonn–Koblenz): 3 lost come back", text)

    def test_statuses(self):
        self.ask(self.CUT, "--fail-on", "lost")
        self.ask(self.CUT, "--fail-on", "impaired", wanted=5)
        self.ask("LOS Bonn\n", "--fail-on", "lost", wanted=6)

    def test_commands(self):
        """With a span cut, a forced switch elsewhere loses those who are over protection or cross it; clearing one that stands there brings them back."""
        found = {one["command"]: one for one in self.record("LOS Bonn east\nforced 5 east\n")["commands"]}
        self.assertEqual(len(found), 12 * 2 * 3)
        self.assertEqual((found["clear 5 east"]["class"], sorted(found["clear 5 east"]["back"])), ("helps", ["far", "north", "police", "south"]))
        self.assertEqual((found["clear 1 east"]["class"], found["clear 1 east"]["stands"]), ("harmless", True))
        self.assertEqual((found["forced 5 east"]["class"], found["forced 5 east"]["stands"]), ("harmless", True))
        self.assertEqual((found["forced 9 east"]["class"], found["forced 9 east"]["lost"]), ("loses", ["bank"]))
        self.assertEqual(found["manual 9 east"]["class"], "harmless")

    def test_the_plan_s_own_script(self):
        self.plan.write_text(document(("settle", "cut 5 east", "settle")), encoding="utf-8")
        found = self.record(self.CUT)
        self.assertEqual(found["script"], ["cut 5 east"])
        self.assertIn("police", [one["circuit"] for one in found["customers"] if one["result"] == "lost"])
        self.assertIn("after the plan's own script: cut 5 east", self.ask(self.CUT))
        self.assertEqual(self.record(self.CUT, "--without-script")["script"], [])

    def test_page(self):
        self.ask(self.CUT, "--page", "now.html", "--spans", "spans.csv", "--title", "Night of <b>1 December</b>")
        page = Seen((self.top / "now.html").read_text(encoding="utf-8"))
        self.assertIn("ring.toml: no customer of 6 lost", page.text())
        rows = {row["customer"]: row for row in page.table_named("Customers that are lost")}
        self.assertEqual({name: row["now"] for name, row in rows.items()}, {"north": "over protection", "south": "over protection", "bank": "impaired", "far": "impaired"})
        self.assertEqual([row["read as"] for row in page.table_named("Alarms")][0], "LOS, 2 Bonn east, towards 3 Koblenz")
        self.assertFalse(page.all("b"))
        self.assertIn("sdhwhatif", page.text())

    def test_the_list_on_the_other_input(self):
        ended = call("sdhring-now", "-", "--alarms", "-", cwd=self.top, input=b"")
        self.assertEqual(ended.returncode, 2)
        ended = call("sdhring-now", "-", "--alarms", ALARMS / "01-one-cut.txt", cwd=self.top, input=self.plan.read_bytes())
        self.assertEqual(ended.returncode, 0, ended.stderr.decode())

    def test_a_program_that_answers_something_else(self):
        for line in ("nothing of the kind", ""):
            script = self.top / "teller"
            script.write_text(f"#!/bin/sh\necho '{line}'\n")
            script.chmod(0o755)
            ended = call("sdhring-now", "ring.toml", "--alarms", ALARMS / "01-one-cut.txt", "--teller", script, cwd=self.top)
            self.assertEqual((ended.returncode, b"writes no table" in ended.stderr, ended.stdout), (1, True, b""))


class Sorted(unittest.TestCase):
    def test_commands_of_ten_rings_as_sdhring_runs_them(self):
        ended = subprocess.run([TOP / "bench" / "now" / "compare", TOP / "dist" / "sdhring", "10", "1", "4"], capture_output=True, text=True)
        self.assertEqual(ended.returncode, 0, ended.stdout + ended.stderr)
        self.assertRegex(ended.stdout, r"^10 rings, [0-9]{2,} commands, 0 differences\n$")


if __name__ == "__main__":
    unittest.main()
