"""How long works interrupt customers: the page and the table of a works order, against the plain simulation and the rule of a forced switch."""

import re
import shlex
import shutil
import subprocess
import sys
import unittest

from cases import CIRCUITS, IDS, Asking
from common import TOOLS, command
from pages import Seen

SIMULATE = command(TOOLS.parent / "bench" / "outage" / "simulate.py")
PORT = re.compile(r"port (\S+) ([ab]) out (\d+) runs \d+ longest \d+ ms \d+\.\d{3} from (\S+) to (\S+) ais \d+ ones \d+ jump (\d+) torn ")
STAGES = ["before", "during", "after", "waited"]
BEGIN, END = "interrupted as they begin", "interrupted as they end"


def simulated(plan):
    """What the simulation says of each stage of this plan's script: by stage, circuit and port the frames, milliseconds, jumps, first round and whether it is out to the end."""
    text = subprocess.run([*shlex.split(SIMULATE), "run"], input=plan, capture_output=True, check=True).stdout.decode()
    found = {}
    for stage, part in zip(STAGES, text.split("settle ")[-len(STAGES) :]):
        last = part.split()[2]
        for name, end, frames, begin, to, jumps in PORT.findall(part):
            found[stage, name, end] = int(frames), f"{int(frames) / 8:.3f}", int(jumps), begin, to == last and frames != "0"
    return found


class Interruptions(Asking):
    def order(self, works, *words, **more):
        return self.ask("--works", works, "--kinds", "node", *words, **more)

    def check_table(self):
        """Each port in each stage but the first, in which the ring starts: as the simulation has it."""
        wanted = simulated((self.top / "out" / "outages" / "works.toml").read_bytes())
        opened = self.opened()
        rows = self.table("outages.csv")
        self.assertEqual(len(rows), (5 if opened else 3) * 2 * len(CIRCUITS))
        for row in rows:
            frames, milliseconds, jumps, _, is_lost = (wanted | opened)[row["Stage"], row["Circuit"], row["Port"]]
            counted = ("", "") if is_lost else (str(frames), milliseconds)
            self.assertEqual((row["Frames"], row["Milliseconds"], row["Jumps"], row["Still out"]), (*counted, str(jumps), "yes" if is_lost else "no"))
        ends = {name: (str(start), str(end)) for name, start, end, _ in CIRCUITS}
        self.assertEqual({row["Node"] for row in rows if (row["Circuit"], row["Port"]) == ("far", "b")}, {ends["far"][1]})
        return wanted

    def opened(self):
        """The same of the opening and the closing of the spans that the order frees, if it frees any."""
        plan = self.top / "out" / "outages" / "opening.toml"
        found = simulated(plan.read_bytes()) if plan.exists() else {}
        names = {"after": "opened", "waited": "closed"}
        return {(names[stage], *port): told for (stage, *port), told in found.items() if stage in names}

    def touched(self):
        return {row["customer"]: row for row in self.page().table_named("Customers that the works touch")}

    def test_a_forced_switch(self):
        """It costs 4n - 4 frames in a ring of n nodes, and clearing it none but a jump; whoever isn't on the span loses nothing."""
        self.order("span 2-9")
        self.check_table()
        out = 4 * len(IDS) - 4
        words, rows = f"{out} frames, {out / 8:.3f} ms", self.touched()
        self.assertEqual(sorted(rows), ["far", "round"])
        self.assertEqual({(row[BEGIN], row[END]) for row in rows.values()}, {(words, "1 jump")})
        self.assertIn(f"Interrupted as they begin : 2 customers of 4 for at most {words}.", self.words())
        self.assertIn("Interrupted as they end : 2 customers for no frame, but with a jump.", self.words())
        self.assertNotIn("Interrupted after waiting", self.words())
        self.assertIn("Fibre delay is not included.", self.words())

    def test_a_lost_customer(self):
        """Those that end at the node are out from then on; what they are out as the works end counts from there."""
        self.order("node 2")
        wanted, rows = self.check_table(), self.touched()
        for name in ("near", "far"):
            self.assertEqual(rows[name][BEGIN], "lost from then on")
            frames, ms, *_ = max(wanted["after", name, end] for end in "ab")
            self.assertTrue(rows[name][END].startswith(f"{frames} frame"), rows[name][END])
            self.assertIn(f"{ms} ms", rows[name][END])
        self.assertIn("2 customers lost from then on", self.words())
        drawn = Seen((self.cases() / "works.html").read_text())
        during = {row["circuit"]: row for row in drawn.table_named("Circuits", 1)}
        for name in ("near", "far"):
            shown = [during[name][f"out at port {end}"] for end in "ab"]
            self.assertEqual(shown, [f"lost from round {wanted['during', name, end][3]} on" for end in "ab"])
        self.assertNotIn("16.000 ms", drawn.text())

    def test_what_was_lost_before_is_not_interrupted(self):
        self.order("manual 9 east", "--also", "cut 5 east; cut 2 east")
        self.check_table()
        self.assertNotIn("from then on", self.words())

    def test_works_after_the_plan_s_script(self):
        """Its settle steps come before those of the works, and what it leaves cut stays cut: a customer who has lost one way loses the other."""
        self.plan.write_text(self.plan.read_text().replace('["settle"]', '["settle", "cut 4 west", "settle", "moment 3", "settle"]'))
        self.order("span 5-2")
        wanted, rows = self.check_table(), self.touched()
        self.assertEqual(rows["near"][BEGIN], "lost from then on")
        self.assertTrue(wanted["during", "near", "a"][-1])
        self.assertEqual(len(list(Seen((self.cases() / "works.html").read_text()).tables_of("Customers after"))[0][0]), 1 + len(STAGES))

    def test_where_they_come_from(self):
        """The drawing has them too. They are the proved sdhoutage's; of another command that isn't known, and it is said."""
        self.order("span 2-9")
        page = Seen((self.cases() / "works.html").read_text())
        self.assertIn("The longest interruption in this step: 12 frames, 1.500 ms", page.text())
        self.assertIn("outages/works.text", page.text())
        self.assertIn("Where the interruptions come from", self.words())
        rows = self.table("outages.csv")
        self.assertEqual({row["Proof"] for row in rows}, {"proved"})
        self.order("span 2-9", "--counter", self.another())
        again = self.table("outages.csv")
        self.assertEqual([list(row.values())[:10] for row in again], [list(row.values())[:10] for row in rows])
        self.assertEqual({row["Proof"] for row in again}, {"not known to be proved"})

    def another(self):
        """A program that runs the one beside."""
        program = self.top / "another"
        program.write_text(f'#!/bin/sh\nexec {shlex.quote(str(TOOLS.parent / "sdhoutage"))} "$@"\n')
        program.chmod(0o755)
        return str(program)

    def test_answers_are_kept(self):
        self.order("span 2-9")
        kept = self.top / "out" / "outages" / "works.answer"
        before = kept.stat().st_mtime_ns
        self.order("span 2-9")
        self.assertEqual(kept.stat().st_mtime_ns, before)
        self.order("span 2-9", "--anew")
        self.assertNotEqual(kept.stat().st_mtime_ns, before)

    def test_a_text_that_is_not_of_these_works(self):
        for line in ("done", "settle 1 round 128", "no text of it"):
            ended = self.order("span 2-9", "--counter", self.script("counter", line, 0), wanted=4)
            self.assertIn(b"how long the works interrupt customers isn't known", ended.stderr)
            self.assertIn("How long customers are interrupted isn't known", self.words())

    def test_without_works(self):
        self.assertIn(b"--counter goes with --works", self.ask("--counter", "sdhoutage", wanted=1).stderr)
        self.ask("--kinds", "span")
        self.assertFalse((self.top / "out" / "outages.csv").exists())

    def test_only_the_part_with_the_works_counts(self):
        self.order("span 2-9", "--shard", "2/2")
        self.assertEqual([path.name for path in (self.top / "out").glob("outages*")], [])
        self.order("span 2-9", "--shard", "1/2")
        self.assertTrue((self.top / "out" / "outages-1-of-2.csv").exists())


class Opening(Asking):
    """Whether the spans that works free can be opened, against the plain simulation of the same steps."""

    LOST = re.compile(r"(\d+) customers? of 4 for at most (\d+) frames?, (\d+\.\d{3}) ms")

    def order(self, works):
        ended = self.ask("--works", works, "--kinds", "span")
        return ended.stdout.decode().replace("\u2060", "")

    def wanted(self, steps, fibres, called):
        """What the simulation says of cutting these fibres under the steps, and of mending them: the most frames of a circuit that comes back."""
        script = ["settle", *steps, "settle", *(f"cut {one}" for one in fibres), "settle", *(f"mend {one}" for one in fibres), "settle"]
        plan = self.plan.read_text().replace('["settle"]', str(script).replace("'", '"'))
        found = simulated(plan.encode())
        for stage in ("after", "waited"):
            out = {name: max(found[stage, name, end][0] for end in "ab" if not found[stage, name, end][-1]) for name, *_ in CIRCUITS}
            hit = [frames for frames in out.values() if frames]
            yield f"{len(hit)} customer{'s' * (len(hit) > 1)} of 4 for at most {max(hit)} frames, {max(hit) / 8:.3f} ms" if hit else None

    def test_a_switch_on_one_side(self):
        said = self.order("forced 2 east")
        opened, closed = self.wanted(["forced 2 east"], ["2 east", "9 west"], "2–9")
        self.assertTrue(opened and closed)
        words = (
            f"2–9 can't be opened under this order without interruptions. Interrupted as the fibres are cut: {opened}; interrupted as they are joined again: {closed}. "
            "2–9 has no forced switch on both its sides; under the order `span 2-9`, which has, none of this comes."
        )
        shown = words.replace("interruptions.", "interruptions .").replace("`span 2-9`", " span 2-9 ")
        self.assertIn(" ".join(shown.split()), self.words())
        self.assertIn(f"{words}\n", said)

    def test_switches_on_both_sides(self):
        for works, steps, fibres, called in (
            ("span 2-9", ["forced 2 east", "forced 9 west"], ["2 east", "9 west"], "2–9"),
            ("node 2", ["forced 5 east", "forced 9 west"], ["5 east", "2 west", "2 east", "9 west"], "5–2, 2–9"),
        ):
            with self.subTest(works=works):
                shutil.rmtree(self.top / "out", ignore_errors=True)
                said = self.order(works)
                if called == "2–9":
                    self.assertEqual(list(self.wanted(steps, fibres, called)), [None, None])
                words = f"{called} can be opened under this order: no customer is interrupted as the fibres are cut, and none as they are joined again."
                self.assertIn(words, self.words())
                self.assertIn(words, said)

    def test_an_order_without_a_switch_frees_nothing(self):
        self.assertNotIn("opened", self.order("degrade 2 east 4"))
        self.assertNotIn("opened", self.words())

    def test_what_was_not_counted_is_told(self):
        self.ask("--works", "span 2-9", "--kinds", "span", "--counter", self.script("counter", "done", 0), wanted=4)
        self.assertIn("Whether 2–9 can be opened under this order isn't known: ", self.words())


class Title(Asking):
    TITLE = "Order 4711 <night>, 01:00 to 05:00"

    def test_an_order_has_its_number_in_the_heading(self):
        self.ask("--works", "span 2-9", "--kinds", "node", "--title", self.TITLE)
        self.assertTrue(self.words().startswith(f"{self.TITLE} {self.TITLE} Plan plan.toml"), self.words()[:120])
        self.assertIn(f"{self.TITLE}: the works: span 2-9", Seen((self.cases() / "works.html").read_text()).text())

    def test_so_has_a_page_of_all_failures(self):
        self.ask("--all", "--frames", "0", "--works", "span 2-9", "--title", self.TITLE)
        self.assertTrue(self.page("all.html").text().startswith(self.TITLE))


if __name__ == "__main__":
    unittest.main()
