"""Rules that rings have to keep: how they are read, and what `sdhring-whatif --require` says of many rings."""

import csv
import io
import re
import shlex
import subprocess
import sys
import unittest

from cases import CIRCUITS, IDS, Asking, document, failures
from common import TOOLS, call, call_without_processes, command

from ringtools.required import RuleProblem, read_rule

MODEL = TOOLS.parent / "bench" / "whatif" / "model.py"
TELLER = command(MODEL)


class Rules(unittest.TestCase):
    def test_what_is_read(self):
        for text, depth, kinds, most, names, besides in (
            ("single span: none lost", 1, {"span"}, 0, (), False),
            ("double span,node: at most 12 lost besides ends", 2, {"span", "node"}, 12, (), True),
            ("triple fibre, span:none lost", 3, {"fibre", "span"}, 0, (), False),
            ("nothing: none lost", 0, None, 0, (), False),
            ("  single:  c1,  North line not lost ", 1, None, 0, ("c1", "North line"), False),
        ):
            rule = read_rule(text)
            everything = {"degraded", "fibre", "span", "node", "manual", "forced", "group"}
            self.assertEqual((rule.depth, rule.kinds, rule.most, rule.names, rule.besides_ends), (depth, kinds or everything, most, names, besides), text)

    def test_what_is_none(self):
        for text in ("", "single span", "single span: lost", "four: none lost", "single spans: none lost", "single: at most some lost", "single: at most -1 lost"):
            with self.subTest(text=text), self.assertRaises(RuleProblem):
                read_rule(text)


class Required(Asking):
    def require(self, *words, wanted=0, rules=()):
        ended = call("sdhring-whatif", *words, "--teller", TELLER, *(word for rule in rules for word in ("--require", rule)), cwd=self.top)
        self.assertEqual(ended.returncode, wanted, ended.stderr.decode())
        return list(csv.DictReader(io.StringIO(ended.stdout.decode())))

    def verdicts(self, *rules, wanted=1):
        return [(row["verdict"], row["cases"], row["breaking"], row["worst"], row["lost"], row["circuits"]) for row in self.require("plan.toml", rules=rules, wanted=wanted)]

    def test_what_holds_and_what_is_broken(self):
        """No fibre or span alone loses a circuit of this ring, and each lost node loses those that end there and no other."""
        at = [sum(node in (start, end) for _, start, end, _ in CIRCUITS) for node in IDS]
        worst = at.index(max(at))
        names = " ".join(name for name, start, end, _ in CIRCUITS if IDS[worst] in (start, end))
        self.assertEqual(
            self.verdicts("single span,fibre: none lost", "single node: none lost", "single node: none lost besides ends", f"single node: at most {max(at)} lost"),
            [("holds", "12", "0", "", "", ""), ("broken", "4", str(sum(map(bool, at))), f"node {IDS[worst]}", str(max(at)), names), ("holds", "4", "0", "", "", ""), ("holds", "4", "0", "", "", "")],
        )

    def test_many_rings_are_one_table_in_their_order(self):
        """However many are asked about at a time; and so by each command of the pages that has rules."""
        rings = self.top / "rings"
        rings.mkdir()
        for number in range(5):
            (rings / f"ring{number}.toml").write_text(document() if number % 2 else document(CIRCUITS[:2]))
        (rings / "ring9.toml").write_text("rate = 5\n")
        whatif = lambda *words: call("sdhring-whatif", "--teller", TELLER, *words, cwd=self.top)
        one, two = (whatif("--require", "single span: none lost", "--jobs", jobs, "rings") for jobs in ("1", "2"))
        self.assertEqual((one.stdout, one.returncode), (two.stdout, 1))
        alone = call_without_processes("sdhring-whatif", "--teller", TELLER, "--require", "single span: none lost", "--jobs", "2", "rings", cwd=self.top)
        self.assertEqual((alone.stdout, alone.returncode, alone.stderr), (one.stdout, 1, one.stderr))
        rows = list(csv.DictReader(io.StringIO(one.stdout.decode())))
        self.assertEqual([row["plan"] for row in rows], [f"rings/ring{number}.toml" for number in (0, 1, 2, 3, 4, 9)])
        self.assertEqual([row["verdict"] for row in rows], ["holds"] * 5 + ["not asked"])
        pages = [(TOOLS.parent / "docs" / name).read_text() for name in ("LOOKING.md", "sdhring-whatif.1")]
        shown = [line.strip() for page in pages for line in page.splitlines() if re.match(r"(    |\\&)\S*.*sdhring-whatif .*--require", line)]
        self.assertEqual(len(shown), 3)
        for line in shown:
            command = line.removeprefix("\\&").replace("./sdhring-whatif", shlex.join([sys.executable, str(TOOLS / "sdhring-whatif"), "--teller", TELLER])).replace(" > rules.csv", "")
            text = subprocess.run(["bash", "-c", command], cwd=self.top, capture_output=True, text=True).stdout
            self.assertEqual((text.count("plan,rule,"), len(text.splitlines())), (1, 1 + 6 * line.count("--require")), line)

    def test_circuits_by_name(self):
        self.plan.write_text("# circuit near is North line\n" + document())
        pairs = [cut for name, cut in failures().items() if name.startswith("pair")]
        own = lambda start, end: {(IDS.index(start) + i) % 4 for i in range((IDS.index(end) - IDS.index(start)) % 4)}
        parted = [cut for cut in pairs if len({span in own(5, 2) for span, _ in cut}) == 2]  # of `near`, which leads from 5 to 2
        row = self.verdicts("double span: North line not lost")[0]
        self.assertEqual((row[0], row[1], row[2], row[4], row[5]), ("broken", str(len(pairs)), str(len(parted)), "1", "near"))
        self.assertEqual([row[0] for row in self.verdicts("nothing: near, far not lost", wanted=0)], ["holds"])
        (row,) = self.require("plan.toml", rules=["single: none of this not lost"], wanted=1)
        self.assertEqual((row["verdict"], row["problem"]), ("not asked", "there is no circuit none of this"))

    def test_many_rings(self):
        """One record for each ring and rule, with nothing in it that changes from night to night; a ring that can't be asked about breaks nothing, but isn't passed over."""
        rings = self.top / "rings"
        rings.mkdir()
        (rings / "north.toml").write_text(document())
        (rings / "south.toml").write_text(document().replace('script = ["settle"]', 'script = ["cut 5 east", "settle"]'))
        (rings / "bad.toml").write_text("rate = 5\n")
        rules = ["single span: none lost", "single node: none lost besides ends"]
        rows = self.require("rings", rules=rules, wanted=1)
        self.assertEqual([(row["plan"], row["rule"]) for row in rows], [(f"rings/{name}.toml", rule) for name in ("bad", "north", "south") for rule in rules])
        self.assertEqual([row["verdict"] for row in rows], ["not asked"] * 2 + ["holds"] * 2 + ["broken"] * 2)
        self.assertIn("rings/bad.toml: ", rows[0]["problem"])
        self.assertEqual(self.require("rings", rules=rules, wanted=1), rows)
        (rings / "bad.toml").unlink()
        self.assertEqual([row["verdict"] for row in self.require("rings", "--without-script", rules=rules)], ["holds"] * 4)

    def test_during_works(self):
        (row,) = self.require("plan.toml", "--works", "span 5-2", rules=["single span: none lost"], wanted=1)
        self.assertEqual((row["verdict"], row["worst"].split()[0]), ("broken", "span"))

    def test_groups(self):
        """A span of each arc in one duct loses `near`, which no span alone does; the group's name is where a failure's is."""
        (self.top / "groups.csv").write_text("group,members,failures,hours\nduct,span 5-2;span 9-4,1,1\n")
        rules = ["single span: none lost", "single group: none lost", "single: near not lost besides ends"]
        rows = self.require("plan.toml", "--groups", "groups.csv", rules=rules, wanted=1)
        found = [(row["verdict"], row["cases"], row["breaking"], row["worst"]) for row in rows]
        self.assertEqual(found, [("holds", "4", "0", ""), ("broken", "1", "1", "group duct"), ("broken", "41", "1", "group duct")])
        (row,) = self.require("plan.toml", rules=["single group: none lost"], wanted=1)
        self.assertEqual((row["verdict"], row["problem"]), ("not asked", "there are no groups: --groups names them"))

    def test_refusals(self):
        for words, status, said in (
            (["--require", "single spam: none lost"], 2, "`spam` is none of degraded, fibre, span, node, manual, forced"),
            (["--require", "no rule"], 2, "`no rule` is no rule: "),
            (["--require", "single: none lost", "--dir", "x"], 1, "--require writes no files"),
        ):
            ended = call("sdhring-whatif", "plan.toml", *words, cwd=self.top)
            self.assertEqual((ended.returncode, ended.stdout), (status, b""))
            self.assertIn(said, ended.stderr.decode())


if __name__ == "__main__":
    unittest.main()
