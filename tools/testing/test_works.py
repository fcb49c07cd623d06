"""A works order: customers before, during and after, and which second failures hurt, against the model by its definitions."""

import tomllib
import unittest
from collections import Counter

from cases import CIRCUITS, Asking, document, expected, failures, script_of
from common import STANDIN, call
from pages import Seen
from rules import Rules

from ringtools.failures import read_beforehand, works_part
from ringtools.plan import PlanProblem, read_plan

NAMES = [name for name, *_ in CIRCUITS]


def works_steps(plan, text):
    return works_part(plan, text)[1]


def rules_of(script):
    return Rules(tomllib.loads(document()) | {"script": script}, [128 * (k + 1) for k in range(script.count("settle"))])


class Orders(unittest.TestCase):
    """What an order comes to in steps, and how they are undone."""

    def setUp(self):
        self.plan = read_plan(document().encode())

    def test_spans_and_nodes(self):
        self.assertEqual(works_steps(self.plan, "span 2-9"), ["forced 2 east", "forced 9 west"])
        self.assertEqual(works_steps(self.plan, "span 9–2"), ["forced 2 east", "forced 9 west"])
        self.assertEqual(works_steps(self.plan, "span 5-4"), ["forced 4 east", "forced 5 west"])
        self.assertEqual(works_steps(self.plan, "node 5"), ["forced 4 east", "forced 2 west"])
        self.assertEqual(works_steps(self.plan, "manual 2 east"), ["manual 2 east"])
        for words in ("span 5-9", "span 2-2", "span 2-7", "node 3"):
            with self.subTest(words=words), self.assertRaises(PlanProblem):
                works_steps(self.plan, words)

    def test_a_ring_of_two(self):
        """Both its spans join the same nodes: the one that leads eastwards from the first is meant."""
        plan = read_plan(document([("p", 5, 2, 1)]).replace("nodes = [5, 2, 9, 4]", "nodes = [5, 2]").encode())
        self.assertEqual([works_steps(plan, words) for words in ("span 5-2", "span 2-5")], [["forced 5 east", "forced 2 west"], ["forced 2 east", "forced 5 west"]])

    def test_undoing(self):
        """All is put back to what it was before the works, and what they set twice only once."""
        also, works = "manual 2 east; degrade 9 east 4; cut 4 west", "forced 2 east; cut 9 east; mend 4 west; cut 5 east; manual 2 east; moment 7"
        beforehand = read_beforehand(self.plan, also, works)
        self.assertEqual(beforehand.undoing(), ["manual 2 east", "mend 5 east", "cut 4 west", "degrade 9 east 4"])
        self.assertEqual(read_beforehand(self.plan, "", "clear 2 east; forced 2 east").undoing(), ["clear 2 east"])


class Works(Asking):
    def check_stages(self, script):
        """The rows of the works, and their table in the page."""
        rows = [row for row in self.table() if row["Case"] == "works"]
        self.assertEqual([row["Stage"] for row in rows], ["before", "during", "after", "waited"])
        rules = rules_of(script)
        stages = [expected(rules, 128 * (k + 1)) for k in range(4)]
        self.assertEqual([{name: row[name] for name in NAMES} for row in rows], stages)
        touched = [name for name in NAMES if len({stage[name] for stage in stages}) > 1]
        shown = self.page().table_named("Customers that the works touch")
        self.assertEqual([row["customer"] for row in shown], touched)
        for row in shown:
            self.assertEqual(row["during"].startswith("over protection"), stages[1][row["customer"]].startswith("over"))
            self.assertEqual(row["during"] == "lost", stages[1][row["customer"]] == "lost")
        return stages

    def second(self, works, kinds):
        """Who is lost in each second failure of these kinds besides those lost in the works, by the failure's name."""
        found = {}
        for name, cut in failures().items():
            if name.startswith(kinds):
                rules = rules_of(script_of(cut, works))
                before, failed = expected(rules, 128), expected(rules, 256)
                found[name] = [c for c in NAMES if failed[c] == "lost" and before[c] != "lost"]
        return found

    def check_second(self, works, kinds=("fibre", "span", "node"), of_what="a fibre, a span or a node"):
        second, words = self.second(works, kinds), self.words()
        hurting = {name: taken for name, taken in second.items() if taken}
        self.assertIn(f"Customers are lost with {len(hurting)} of {len(second)} second failures of {of_what} during the works.", words)
        links = [found["href"] for found in self.page().all("a")]
        self.assertTrue(all(f"cases/{name}.html" in links for name in hurting))
        by_effect = Counter(", ".join(taken) for taken in hurting.values())
        for row in self.page().table_with("second failure"):
            taken = row["customers that are lost"].split(": ")[1]
            self.assertEqual(len(row["second failure"].split(", ")), by_effect.pop(taken))
        self.assertFalse(by_effect)

    def test_a_forced_switch(self):
        self.ask("--works", "span 2-9")
        self.assertEqual(Counter(row["Kind"] for row in self.table()), {"works": 4, "fibre": 32, "span": 16, "node": 16})
        steps = ["forced 2 east", "forced 9 west"]
        stages = self.check_stages(["settle", *steps, "settle", "clear 9 west", "clear 2 east", "settle", "moment 10", "settle"])
        self.assertEqual(stages[0], stages[2])
        self.check_second(steps)
        self.assertIn("Free of traffic under each of them: 1 span, 2–9.", self.words())
        self.assertEqual(self.words().count("each customer as before."), 2)
        self.assertIn("no switch is hitless", self.words())
        self.assertIn("The works: span 2-9", self.words())
        self.assertEqual({(row["Also"], row["Works"]) for row in self.table()}, {("", "forced 2 east; forced 9 west")})

    def test_a_manual_switch_gives_way(self):
        self.ask("--works", "manual 2 east")
        self.check_second(["manual 2 east"])
        gives_way = [name for name, cut in failures().items() if not name.startswith("pair") and 1 not in rules_of(script_of(cut, ["manual 2 east"])).applied(256)]
        self.assertIn(f"The switch gives way under {len(gives_way)} of them: traffic comes back to 2–9, while people work there.", self.words())

    def test_customers_on_a_degraded_fibre_are_touched(self):
        """By a degradation that isn't applied, since a cut span is: they are kept, and impaired."""
        also, works = ["cut 2 east", "cut 9 west"], ["degrade 5 east 4"]
        self.ask("--also", "; ".join(also), "--works", "; ".join(works), "--kinds", "span")
        stages = self.check_stages([*also, "settle", *works, "settle", "mend 5 east", "settle", "moment 10", "settle"])
        impaired = [name for name in NAMES if stages[1][name] == "impaired"]
        self.assertEqual(impaired, ["near"])
        shown = {row["customer"]: row["during"] for row in self.page().table_named("Customers that the works touch")}
        self.assertEqual(shown["near"], "kept, but impaired")
        self.assertIn("During : 2 over protection, 1 on their own arc, but impaired, 1 on their own arc.", self.words())
        self.assertNotRegex(self.words(), r"Not touched by the works \(\d+\): [^.]*near")
        drawn = Seen((self.top / "out" / "cases" / "works.html").read_text()).text()
        self.assertIn("Kept on their own arc, but impaired: a span of it is degraded or asked for (1): near", drawn)
        self.assertIn("2 over protection, 1 impaired, 1 kept", drawn)
        self.assertIn("circuit near: 1 span, impaired (was: 1 span)", drawn)

    def test_works_on_a_node(self):
        """Its own customers are lost meanwhile, and second failures aren't blamed for them."""
        self.ask("--works", "node 2", "--kinds", "span,pair")
        steps = ["forced 5 east", "forced 9 west"]
        stages = self.check_stages(["settle", *steps, "settle", "clear 9 west", "clear 5 east", "settle", "moment 10", "settle"])
        self.assertEqual([name for name in NAMES if stages[1][name] == "lost"], ["near", "far"])
        self.check_second(steps, ("span",), "a span")

    def test_a_second_order_leaves_the_first_alone(self):
        """In a folder of its own where none is named; in a folder with answers to another question it is refused."""
        whatif = lambda *words: call("sdhring-whatif", "plan.toml", "--kinds", "span", "--program", STANDIN, *words, cwd=self.top)
        orders = ((), ("--works", "span 2-9"), ("--works", "span 4-5"), ("--works", "span 4-5", "--also", "cut 2 east"), ("--without-script",))
        folders = ["", ".span-2-9", ".span-4-5", ".span-4-5.after-cut-2-east", ".without-script"]
        for words, folder in zip(orders, folders):
            ended = whatif(*words)
            self.assertIn(f"plan{folder}.whatif/page.html", ended.stdout.decode().splitlines(), ended.stderr.decode())
        first = (self.top / "plan.span-2-9.whatif" / "page.html").read_bytes()
        ended = whatif("--works", "span 4-5", "--dir", "plan.span-2-9.whatif")
        said = "sdhring-whatif: plan.span-2-9.whatif has the answers to another question, --works 'forced 2 east; forced 9 west', and they would be written over: "
        self.assertEqual((ended.returncode, ended.stderr.decode()), (1, said + "--dir names another folder, or remove this one\n"))
        self.assertEqual((self.top / "plan.span-2-9.whatif" / "page.html").read_bytes(), first)
        for words in (("--all", "--frames", "0"), ("--outages",)):
            words = [word for word in ("plan.toml", *words, "--dir", "plan.span-2-9.whatif")]
            self.assertEqual(call("sdhring-whatif", *words, cwd=self.top).returncode, 1)
        self.assertEqual(whatif("--works", "span 9-2", "--dir", "plan.span-2-9.whatif").returncode, 0)  # the same order in other words
        question = self.top / "plan.span-2-9.whatif" / "question"
        question.rename(self.top / "kept")
        question.symlink_to(self.top / "kept")
        ended = whatif("--works", "span 2-9")
        self.assertEqual((ended.returncode, "another question, which can't be read" in ended.stderr.decode()), (1, True))
        self.assertTrue(question.is_symlink())

    def test_unknown_orders(self):
        self.assertIn(b"no span joins node 5 and node 9; the spans are 5-2, 2-9, 9-4, 4-5", self.ask("--works", "span 5-9", wanted=1).stderr)
        for words in ("span 2", "span 2 9", "span"):
            self.assertIn(f"`{words}` isn't a part of an order: a span is named by the nodes at its ends, as `span 2-3`", self.ask("--works", words, wanted=1).stderr.decode())
        self.assertIn(b"`node 2-9` isn't a part of an order: a node is named alone", self.ask("--works", "node 2-9", wanted=1).stderr)
        known = b"`lockout` isn't known; right would be: cut, mend, degrade, forced, manual, clear, moment, hold, slip, settle"
        self.assertIn(known, self.ask("--works", "lockout 5 east", wanted=1).stderr)
        self.assertIn(b"`8` is no node of the ring; right would be: 5, 2, 9, 4", self.ask("--works", "forced 8 east", wanted=1).stderr)


if __name__ == "__main__":
    unittest.main()
