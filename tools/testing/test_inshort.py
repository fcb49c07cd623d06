"""The answer in a line or three on the terminal, the status of --fail-on, the fibres' delay beside times, and names of places in steps."""

import json
import tempfile
import unittest
from pathlib import Path

from cases import CIRCUITS, IDS, Asking, document, failures
from common import STANDIN, TOOLS, call
from test_works import rules_of
from test_whatif_all import TELLER

from ringtools.failures import Case, read_beforehand
from ringtools.fibre import MS_OF_KM, added_ms, delays_of, read_lengths
from ringtools.model import arc
from ringtools.plan import PlanProblem, read_plan
from ringtools.tables import TableProblem

KM = (40, 25.5, 60, 10)  # of the spans 5-2, 2-9, 9-4, 4-5
NAMES = "# node 5 is Köln am Rhein\n# node 2 is Bonn\n# node 9 is Bad Ems-Nord\n# node 4 is Mainz\n# circuit far is Far & away\n"
FORCED = 4 * len(IDS) - 4  # frames that a forced switch costs (docs/RING.md)


class InShort(Asking):
    def setUp(self):
        super().setUp()
        self.spans = self.top / "spans.csv"
        ends = list(zip(IDS, IDS[1:] + IDS[:1], KM))
        self.spans.write_text("".join(f"{line}\n" for line in ["from,to,km", *(",".join(map(str, row)) for row in ends)]))

    def lines(self, *words, **more):
        return self.ask(*words, **more).stdout.decode().splitlines()

    def test_works(self):
        """The order, its opening and one failure more, before the files; by the rules, and by what a forced switch costs."""
        lines = self.lines("--works", "span 2-9", "--kinds", "span")
        self.assertEqual(lines[0], f"span 2-9: 2 of 4 customers interrupted, at most {FORCED} frames, {FORCED / 8:.3f} ms; none lost")
        self.assertTrue(lines[1].startswith("2–9 can be opened under this order"))
        steps, spans = ["forced 2 east", "forced 9 west"], [name for name in failures() if name.startswith("span")]
        lost = lambda name: [c for c in rules_of([*steps, "settle", *self.cuts(name), "settle"]).circuits if self.is_lost(steps, name, c)]
        losing = [name for name in spans if lost(name)]
        self.assertTrue(lines[2].startswith(f"one failure more during the works loses customers in {len(losing)} of {len(spans)} cases; the worst, "), lines[2])
        self.assertTrue(lines[2].endswith(f"{max(map(len, map(lost, spans)))} of 4"), lines[2])
        self.assertTrue(all(line.startswith(str(self.top / "out")) for line in lines[3:]))

    def cuts(self, name):
        return [f"cut {IDS[span]} east" if side == "east" else f"cut {IDS[(span + 1) % 4]} west" for span, side in failures()[name]]

    def is_lost(self, steps, name, circuit):
        rules = rules_of([*steps, "settle", *self.cuts(name), "settle"])
        return not rules.joined(circuit, rules.applied(256))

    def test_the_fibres(self):
        """A switch takes twice the spans that it leaves in use: the ring without the span."""
        with_fibre = FORCED / 8 + 2 * (sum(KM) - KM[1]) * 0.005
        lines = self.lines("--works", "span 2-9", "--kinds", "span", "--spans", self.spans)
        self.assertIn(f"at most {FORCED} frames, {FORCED / 8:.3f} ms ({with_fibre:.3f} ms with fibre)", lines[0])
        rows = [row for row in self.table("outages.csv") if row["Stage"] == "during" and row["Frames"] == str(FORCED)]
        self.assertEqual({row["Milliseconds with fibre"] for row in rows}, {f"{with_fibre:.3f}"})
        self.assertIn(f"{FORCED / 8:.3f} ms ({with_fibre:.3f} ms with fibre)", self.words())
        self.assertIn("Times with fibre add its delay", self.words())
        lines = self.lines("--outages", "--kinds", "span", "--spans", self.spans, "--dir", self.top / "o", program=None)
        shortest = min(KM)
        worst = FORCED / 8 + 2 * (sum(KM) - shortest) * 0.005
        self.assertIn(f"the worst interruption: {FORCED} frames, {FORCED / 8:.3f} ms ({worst:.3f} ms with fibre), span 4–5, failed", lines[1])

    def ask(self, *words, program=STANDIN, wanted=0, **more):
        if program is not None:
            return super().ask(*words, program=program, wanted=wanted, **more)
        ended = call("sdhring-whatif", self.plan, *words)
        self.assertEqual(ended.returncode, wanted, ended.stderr.decode())
        return ended

    def test_lost_and_one_sided(self):
        lines = self.lines("--works", "node 2", "--kinds", "span")
        self.assertIn("2 LOST: far, near", lines[0])
        lines = self.lines("--works", "forced 2 east", "--kinds", "span", "--dir", self.top / "one")
        self.assertIn("can't be opened under this order without interruptions", lines[1])
        self.assertIn("under the order `span 2-9`, which has, none of this comes", lines[1])

    def test_failures(self):
        lines = self.lines("--kinds", "fibre,span,node,pair")
        self.assertTrue(lines[0].startswith("plan.toml: alone, customers are lost with 0 of 8 fibres, 0 of 4 spans, 0 of 4 nodes besides"), lines[0])
        self.assertRegex(lines[1], r"^plan\.toml: together, customers are lost with \d of 6 pairs of spans; the worst, spans ")
        lines = self.lines("--all", "--teller", TELLER, "--frames", "0", "--depth", "single")
        self.assertTrue(lines[0].startswith("plan.toml: with 1 failure, customers are lost besides those that end at a lost node in none of "), lines[0])

    def test_fail_on(self):
        works = ("--works", "span 2-9", "--kinds", "span")
        self.ask(*works, "--fail-on", "lost")
        self.ask(*works, "--fail-on", "impaired")
        self.ask(*works, "--fail-on", "interrupted", wanted=5)
        node = ("--works", "node 2", "--kinds", "span", "--dir", self.top / "n")
        for word in ("lost", "impaired", "interrupted"):
            self.ask(*node, "--fail-on", word, wanted=5)
        self.ask("--kinds", "span", "--fail-on", "lost", "--dir", self.top / "s")
        self.ask("--kinds", "pair", "--fail-on", "lost", "--dir", self.top / "s", wanted=5)
        for words in (("--fail-on", "interrupted"), ("--require", "single: none lost", "--fail-on", "lost"), ("--spans", self.spans), ("--outages", "--fail-on", "impaired")):
            ended = call("sdhring-whatif", self.plan, *words)
            self.assertEqual((ended.returncode, ended.stdout), (1, b""), words)

    def test_an_order_with_a_title_has_a_folder_of_its_own(self):
        for title in ("Order 4711, 01:00 to 05:00", "Order 4712"):
            call("sdhring-whatif", self.plan, "--works", "span 2-9", "--kinds", "span", "--program", STANDIN, "--title", title, cwd=self.top)
        made = sorted(path.name for path in self.top.glob("*.whatif"))
        self.assertEqual(made, ["plan.order-4711-01-00-to-05-00.span-2-9.whatif", "plan.order-4712.span-2-9.whatif"])
        folder = made[0]
        ended = call("sdhring-whatif", self.plan, "--works", "span 2-9", "--kinds", "span", "--program", STANDIN, "--title", "Order 4713", "--dir", folder, cwd=self.top)
        self.assertEqual((ended.returncode, b"would be written over" in ended.stderr), (1, True))

    def test_the_first_sheet(self):
        """Order, date, rate, verdict, stages with their frames, the customers that are touched alone, and lines to sign, before all else."""
        self.ask("--works", "span 2-9", "--kinds", "span", "--title", "Order 4711 <night>")
        page = self.page()
        stages = page.table_named("Stages of the order")
        self.assertEqual([row["stage"] for row in stages], ["1. switch", "2. open the fibres", "3. close them", "4. clear"])
        self.assertEqual([row["steps"] for row in stages], ["forced 2 east; forced 9 west", "cut 2 east; cut 9 west", "mend 2 east; mend 9 west", "clear 9 west; clear 2 east"])
        self.assertEqual([row["customers interrupted"] for row in stages], ["2", "none", "none", "none"])
        self.assertEqual((stages[0]["at most"], stages[3]["besides"]), (f"{FORCED} frames, {FORCED / 8:.3f} ms", "2 jumps"))
        self.assertEqual([row["customer"] for row in page.table_named("Touched customers")], ["#1 far", "#2 round"])
        text, markup = page.text(), (self.top / "out" / "page.html").read_text()
        self.assertLess(text.index("STM-4, 4 nodes, 4 customers. Written"), text.index("Not touched by the works"))
        for word in ("Planned", "Approved", "Switched", "Cleared"):
            self.assertIn(f"<li>{word}<span></span></li>", markup)
        sheet = markup[markup.index('class="sheet"') : markup.index("</section>")]
        self.assertEqual(sheet.count("<svg"), 1)
        self.assertTrue('data-circuit="far"' in sheet and 'data-circuit="near"' not in sheet)


class Fibres(unittest.TestCase):
    def test_the_rule(self):
        """docs/RING.md, Fibre delay: from 4n - 8 on twice the spans in use, 2 and 0 nothing, any other number the longest span for each."""
        n, in_use, longest = 16, 15 * 50.0, 50.0
        self.assertAlmostEqual(4 * n * 0.125 - 0.5 + added_ms(4 * n - 4, n, in_use, longest), 15.0)  # the example there
        self.assertEqual([added_ms(frames, n, in_use, longest) for frames in (0, 1, 2)], [0, 0, 0])
        for frames in range(4 * n - 8, 4 * n - 3):
            self.assertAlmostEqual(added_ms(frames, n, in_use, longest), 2 * in_use * MS_OF_KM)
        for frames in (3, 20, 4 * n - 9, 4 * n - 3, 5 * n - 3):
            self.assertAlmostEqual(added_ms(frames, n, in_use, longest), frames * longest * MS_OF_KM)
        self.assertEqual((TOOLS.parent / "docs" / "RING.md").read_text().count("Frames out, where the table has 4n - 8 or more"), 1)

    def test_by_the_ways_that_are_taken(self):
        """Of a circuit over protection, the spans of its way back; in a lost node's ring those are two fewer than the ring's."""
        plan = read_plan(document().encode())
        with self.subTest("lengths"):
            lengths = self.lengths(plan, [f"{one},{other},{km}" for one, other, km in zip(IDS, IDS[1:] + IDS[:1], KM)])
        far = next(circuit for circuit in plan.circuits if circuit.name == "far")
        self.assertEqual([plan.ids[span] for span in arc(plan, far)], [2, 9])
        self.assertEqual(lengths.looped(far, frozenset()), 0)
        self.assertEqual(lengths.looped(far, frozenset({1})), sum(KM) - KM[1])
        self.assertEqual(lengths.looped(far, frozenset({1, 2})), KM[0] + KM[3])
        self.assertEqual(lengths.way(far, frozenset({1})), sum(KM) - KM[1] + KM[2])
        self.assertEqual(lengths.way(far, frozenset()), KM[1] + KM[2])

    def test_stages(self):
        plan = read_plan(document().encode())
        lengths = self.lengths(plan, [f"{one},{other},{km}" for one, other, km in zip(IDS, IDS[1:] + IDS[:1], KM)])
        beforehand = read_beforehand(plan, "", "span 2-9")
        case = Case("works", "works", "")
        delays = delays_of(lengths, beforehand.plan_of(case), case.stages)
        self.assertEqual([sorted(found) for found in delays.applied.values()], [[], [1], [], []])
        far = next(circuit for circuit in plan.circuits if circuit.name == "far")
        self.assertAlmostEqual(delays.of("during", FORCED, far), FORCED / 8 + 2 * (sum(KM) - KM[1]) * MS_OF_KM)
        self.assertEqual(delays.of("after", 0, far), 0)

    def lengths(self, plan, rows):
        with tempfile.TemporaryDirectory() as folder:
            file = Path(folder) / "spans.csv"
            file.write_text("\n".join(["from,to,km", *rows]) + "\n")
            return read_lengths(str(file), plan)[0]

    def test_tables_that_are_not_whole(self):
        plan = read_plan(document().encode())
        for rows, why in ((["5,2,40"], "no row has the length"), (["5,2,"], "`km` is empty"), (["5,2,1", "2,5,1"], "stood before")):
            with self.assertRaisesRegex(TableProblem, why):
                self.lengths(plan, rows)


class Places(Asking):
    """Steps in which nodes are named by their places."""

    def setUp(self):
        super().setUp()
        self.plan.write_text(NAMES + self.plan.read_text(), encoding="utf-8")

    def test_steps(self):
        plan = read_plan(self.plan.read_bytes())
        texts = lambda also: read_beforehand(plan, also).also_texts()
        self.assertEqual(texts("cut Bonn east; degrade Köln am Rhein west 4; hold bad ems-nord 3"), ["cut 2 east", "degrade 5 west 4", "hold 9 3"])
        self.assertEqual(texts("span Bonn–Bad Ems-Nord; node Mainz"), ["forced 2 east", "forced 9 west", "forced 9 east", "forced 5 west"])
        self.assertEqual(read_beforehand(plan, "", "forced Bonn east; manual 4 west").works_texts(), ["forced 2 east", "manual 4 west"])
        for words, why in (("cut Trier east", "`Trier` is no node of the ring; the nodes are 5 Köln am Rhein"), ("cut 8 east", "`8` is no node of the ring"), ("cut Bonn up", "`up` is no side")):
            with self.assertRaisesRegex(PlanProblem, why):
                texts(words)

    def test_cases_to_run(self):
        self.ask("--all", "--teller", TELLER, "--depth", "double", "--frames", "span Bonn-Bad Ems-Nord; node Mainz", "--frames", "cut Bonn east")
        run = [row for row in self.table("all.csv") if row["Frames"]]
        self.assertEqual([(row["Failures"], row["Frames"]) for row in run], [("fibre 2>9", "the same"), ("span 2-9; node 4", "the same")])
        lost = next(row for row in self.table("all.csv") if row["Failures"] == "node 4")
        self.assertIn("Far & away", lost["Lost customers"].split("; "))

    def test_rules_name_customers(self):
        ended = call("sdhring-whatif", self.plan, "--teller", TELLER, "--require", "single node: Far & away not lost")
        self.assertEqual(ended.stdout.splitlines()[1].split(b",")[-1], b"Far & away")

    def test_an_imported_plan_s_script(self):
        (self.top / "c.csv").write_text("name,from,to\none,Bonn,Trier\n")
        (self.top / "n.csv").write_text("place\nBonn\nTrier\nBad Ems\n")
        ended = call("sdhring-plan", "import", "c.csv", "--nodes", "n.csv", "--steps", "cut Bad Ems west", cwd=self.top)
        self.assertEqual(read_plan(ended.stdout).steps[0].text, "cut 3 west", ended.stderr.decode())
        ended = call("sdhring-plan", "import", "c.csv", "--nodes", "n.csv", "--steps", "cut Ulm west", cwd=self.top)
        self.assertEqual((ended.returncode != 0, b"`Ulm` is no node of the ring" in ended.stderr), (True, True))

    def test_frames_of_a_node(self):
        words = ("--side", "east", "--rounds", "0:3")
        named, numbered = (call("sdhring-capture", self.plan, "--node", node, *words) for node in ("bonn", "2"))
        self.assertEqual((named.returncode, named.stdout), (0, numbered.stdout), named.stderr.decode())
        ended = call("sdhring-capture", self.plan, "--node", "Trier", *words)
        self.assertEqual((ended.returncode, b"this is no node of the ring" in ended.stderr), (1, True))


if __name__ == "__main__":
    unittest.main()
