"""Names of places and of customers in what is written and drawn of a plan, and in the plans that are made of it."""

import unittest

from cases import Asking
from common import STANDIN, bytes_of, call, ring
from pages import Seen
from test_whatif_all import TELLER

from ringtools.drawing import Measures
from ringtools.failures import works_part
from ringtools.places import read_places
from ringtools.plan import read_plan, write_plan

NAMES = "# node 5 is Köln <Süd>\n# node 2 is Bad Münstereifel-Arloff\n# node 1 is no node of this ring\n# circuit near is Near & dear\n"
NODES, CIRCUITS = {5: "Köln <Süd>", 2: "Bad Münstereifel-Arloff"}, {"near": "Near & dear"}


class Kept(unittest.TestCase):
    def test_a_derived_plan_has_the_names_of_its_nodes_and_circuits(self):
        data = bytes_of("healthy")[0]
        names = "# node 3 is Köln\n# node 7 is none of this ring\n# circuit c1 is a is b\n# circuit c7 is none\n".encode()
        derived = read_plan(write_plan(read_plan(names + data), ["cut 1 east", "settle"]).encode())
        self.assertEqual((derived.places.nodes, derived.places.circuits), ({3: "Köln"}, {"c1": "a is b"}))
        self.assertEqual(derived.circuits, read_plan(data).circuits)
        self.assertEqual([step.text for step in derived.steps], ["cut 1 east", "settle"])

    def test_what_is_no_name_is_none(self):
        for comment in (f"# node 1 is {'x' * 61}", f"# node {'9' * 5000} is x", "# node 01 is x", "# node ١ is x", "# node 1 is a\u200bb"):
            self.assertEqual(read_plan(comment.encode() + b"\n" + bytes_of("healthy")[0]).places.nodes, {}, comment[:40])

    def test_names_change_no_plan(self):
        data = bytes_of("healthy")[0]
        self.assertEqual(read_plan(b"# node 1 is x\n" + data), read_plan(data))


class Explained(unittest.TestCase):
    def told(self, before):
        ended = call("sdhring-explain", "-", "--name", "plan", input=before.encode() + ring("healthy")[0].read_bytes())
        self.assertEqual(ended.returncode, 0)
        return ended.stdout.decode().splitlines()

    def test_beside_numbers(self):
        told = self.told("# node 3 is Köln\n# circuit c1 is North line\n")
        self.assertIn("  nodes eastwards: 1, 2, 3 Köln", told)
        self.assertIn("  circuit c1 (North line): 1>2, slot 1, 1 span", told)
        self.assertTrue(any("no circuit ends at node 3 Köln" in line for line in told))

    def test_two_names_of_one_node(self):
        told = self.told("# node 3 is Köln\n# node 3 is Bonn\n")
        self.assertIn("plan: warning: line 2: node 3 is named Bonn, and Köln before; so no names are shown", told)
        self.assertIn("  nodes eastwards: 1 2 3", told)


class Shown(Asking):
    def setUp(self):
        super().setUp()
        self.plan.write_text(NAMES + self.plan.read_text(), encoding="utf-8")

    def view(self, *words):
        ended = call("sdhring-view", *words, self.plan, "--program", STANDIN)
        self.assertEqual(ended.returncode, 0, ended.stderr.decode())
        return ended.stdout.decode()

    def test_a_run(self):
        page = Seen(self.view())
        self.assertEqual([row["node"] for row in page.table_named("Nodes")], ["5 Köln <Süd>", "2 Bad Münstereifel-Arloff", "9", "4"])
        spans = [row["span"].replace("\u2060", "") for row in page.table_named("Spans")]
        self.assertEqual(spans, ["5–2 (Köln <Süd>–Bad Münstereifel-Arloff)", "2–9 (Bad Münstereifel-Arloff–9)", "9–4", "4–5 (4–Köln <Süd>)"])
        ends = {row["circuit"]: row["from, to"] for row in page.table_named("Circuits")}
        self.assertEqual(ends["near (Near & dear)"], "5 Köln <Süd> to 2 Bad Münstereifel-Arloff, slot 1")
        self.assertIn("fibre 5 Köln <Süd> → 2 Bad Münstereifel-Arloff: clear", page.titles)
        self.assertTrue({"Köln <Süd>", "Bad Münstereifel-…"} <= set(page.drawn))

    def test_a_drawing_with_names_has_room_for_them(self):
        """Three lines and a name at a node above or below, and a name at its side, at 13 a line and 6.5 a letter."""
        m = Measures(read_plan(self.plan.read_bytes()))
        self.assertGreaterEqual(m.high / 2, m.ring + 16 + 9 + 13 * 3 + 11)
        self.assertGreaterEqual(m.wide / 2, m.ring + 16 + 9 + 18 * 6.5)
        self.assertIn("Köln &lt;Süd&gt;", self.view("--svg", "1"))

    def test_each_failure(self):
        self.ask("--kinds", "fibre,span,node")
        failures = {row["Case"]: row["Failure"] for row in self.table()}
        self.assertEqual(failures["fibre-5-east"], "fibre 5 Köln <Süd> → 2 Bad Münstereifel-Arloff")
        self.assertEqual(failures["span-4-5"], "span 4–5 (4–Köln <Süd>)")
        self.assertEqual((failures["node-5"], failures["node-9"]), ("node 5 Köln <Süd> lost", "node 9 lost"))
        row = next(row for row in self.page().table_with("customer", "in short") if row["customer"] == "near (Near & dear)")
        self.assertEqual(row["from, to"], "5 Köln <Süd> to 2 Bad Münstereifel-Arloff, slot 1")
        places = read_places((self.cases() / "node-5.toml").read_bytes())
        self.assertEqual((places.nodes, places.circuits), (NODES, CIRCUITS))
        self.assertIn("node 5 Köln <Süd> lost", Seen((self.cases() / "node-5.html").read_text(encoding="utf-8")).text())

    def test_works(self):
        self.ask("--works", "span 5-2", "--kinds", "span")
        self.assertIn("1 span, 5–2 (Köln <Süd>–Bad Münstereifel-Arloff)", self.words())
        self.assertIn("The works: span 5–2 (Köln <Süd>–Bad Münstereifel-Arloff)", self.words())
        row = next(row for row in self.page().table_with("customer", "during") if row["customer"] == "near (Near & dear)")
        self.assertEqual(row["from, to"], "5 Köln <Süd> to 2 Bad Münstereifel-Arloff, slot 1")

    def test_works_on_places(self):
        """A place may have a hyphen of its own, and is known in small letters too."""
        plan = read_plan(self.plan.read_bytes())
        both = ("span 5–2 (Köln <Süd>–Bad Münstereifel-Arloff)", ["forced 5 east", "forced 2 west"])
        for words in ("span Köln <Süd>-Bad Münstereifel-Arloff", "span bad münstereifel-arloff – köln <süd>", "span 5-Bad Münstereifel-Arloff"):
            self.assertEqual(works_part(plan, words), both)
        self.assertEqual(works_part(plan, "node Köln <Süd>"), ("node 5 Köln <Süd>", ["forced 4 east", "forced 2 west"]))
        self.assertEqual(works_part(plan, "span 9-4"), ("span 9–4", ["forced 9 east", "forced 4 west"]))
        told = self.ask("--works", "span Köln <Süd>-9", wanted=1).stderr.decode()
        self.assertIn("no span joins node Köln <Süd> and node 9; the spans are 5-2 (Köln <Süd>–Bad Münstereifel-Arloff), 2-9 (", told)
        self.assertIn("no node Mainz; the nodes are 5 Köln <Süd>, ", self.ask("--works", "node Mainz", wanted=1).stderr.decode())

    def test_customers_are_called_by_their_names(self):
        """While works free both spans of node 9, the span 5–2 takes the customer between its nodes."""
        self.ask("--works", "node 9", "--kinds", "span")
        self.assertRegex(self.words(), "At risk during the works: [^.]*Near & dear")
        rows = self.page().table_with("second failure", "customers that are lost") + self.page().table_with("failure", "customers that are lost")
        taking = [row["customers that are lost"] for row in rows if "5\u2060–\u20602" in "".join(map(str, row.values()))]
        self.assertEqual([words.count("Near & dear") for words in taking], [1, 1])
        self.assertIn('<option value="near">near (Near &amp; dear)</option>', (self.top / "out" / "page.html").read_text(encoding="utf-8"))

    def test_all_failures(self):
        self.ask("--all", "--teller", TELLER, "--frames", "0", "--also", "cut 5 east")
        page = self.page("all.html")
        self.assertIn("Nodes eastwards: 5 Köln <Süd>, 2 Bad Münstereifel-Arloff, 9, 4.", page.text().replace(" .", "."))
        self.assertIn("near (Near & dear)", [row["customer"] for row in page.table_named("customers")])
        places = read_places((self.top / "out" / "all.toml").read_bytes())
        self.assertEqual((places.nodes, places.circuits), (NODES, CIRCUITS))


if __name__ == "__main__":
    unittest.main()
