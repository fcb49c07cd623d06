"""Networks of rings: sdhring-network against a second reading of the documents, and against what `sdhring run` reports of each ring."""

import csv
import io
import json
import random
import re
import shlex
import shutil
import tempfile
import unittest
from collections import Counter
from itertools import combinations
from pathlib import Path

from common import TOOLS, call
from networks import Network, drawn, rated, unavailability

DIST = TOOLS.parent / "dist"
EXAMPLE = TOOLS.parent / "examples" / "network"
PROGRAM = [str(DIST / "sdhring")]


class Folder(unittest.TestCase):
    """A folder of its own for each test."""

    def setUp(self):
        folder = tempfile.TemporaryDirectory()
        self.addCleanup(folder.cleanup)
        self.top = Path(folder.name)

    def network(self, *words, wanted=0):
        ended = call("sdhring-network", *words, cwd=self.top)
        self.assertEqual(ended.returncode, wanted, ended.stderr.decode() + ended.stdout.decode()[-500:])
        self.assertNotIn(b"Traceback", ended.stderr)
        return ended.stdout.decode(), ended.stderr.decode()

    def rows(self, path):
        text = path if isinstance(path, str) else path.read_text(encoding="utf-8")
        return list(csv.DictReader(io.StringIO(text, newline="")))

    def drawn(self, seed, **more):
        """A random network of which all circuits fit, imported."""
        while True:
            tables = drawn(seed, self.top / f"tables-{seed}", **more)
            ended = call("sdhring-network", "import", self.top / f"tables-{seed}", "--to", self.top / f"net-{seed}")
            if ended.returncode == 0:
                return tables, Network(self.top / f"net-{seed}")
            self.assertRegex(ended.stderr.decode(), "can't be fitted|no way leads")
            seed += 1000


class SecondReading(Folder):
    """Everything that `whatif` says of random networks, against all cases one by one."""

    def compare(self, seed, scripts=False):
        """Compares all tables of one network. With scripts one ring or two have fibres cut already."""
        _, network = self.drawn(seed)
        chance = random.Random(seed)
        for ring in chance.sample(range(len(network.rings)), 2) if scripts else ():
            network = network.script(ring, [f"cut {chance.choice(network.plans[ring]['nodes'])} {chance.choice(('east', 'west'))}" for _ in range(chance.randint(1, 3))])
        out = self.top / f"out-{seed}"
        self.network("whatif", network.folder, "--dir", out)
        components, self.before = network.components(), network.lost([])
        alone = {name: network.lost(parts) for name, (_, parts) in components.items()}
        pairs = {(one, other): lost for one, other, lost in network.pairs(components)}
        self.singles(out, network, components, alone)
        self.summary(out, components, alone, pairs)
        self.customers(out, network, components, alone, pairs)
        self.doubles(out, alone, pairs)
        self.sections(out, network, alone, pairs)
        return len(pairs)

    def singles(self, out, network, components, alone):
        rows = {row["failure"]: row for row in self.rows(out / "singles.csv")}
        self.assertEqual(set(rows), set(components))
        for name, lost in alone.items():
            besides = [number for number in lost if not network.ends_at(number, components[name][1])]
            self.assertEqual((int(rows[name]["lost"]), int(rows[name]["besides_ends"])), (len(lost), len(besides)), name)
            counts = [int(rows[name][column]) for column in ("kept", "impaired", "over", "lost")]
            self.assertEqual(sum(counts), len(network.customers))

    def summary(self, out, components, alone, pairs):
        order = ["degraded", "fibre", "span", "place", "manual", "forced", "group"]
        kinds = lambda *names: "+".join(sorted((components[name][0] for name in names), key=order.index))
        wanted = {}
        for depth, cases in (("single", {(name,): lost for name, lost in alone.items()}), ("double", pairs)):
            for names, lost in cases.items():
                entry = wanted.setdefault((depth, kinds(*names)), [0, 0, 0])
                entry[:] = entry[0] + 1, entry[1] + bool(lost), max(entry[2], len(lost))
        rows = self.rows(out / "summary.csv")
        found = {(row["depth"], row["kinds"]): [int(row[column]) for column in ("cases", "losing", "most")] for row in rows[1:]}
        self.assertEqual(found, wanted)
        for row in rows[1:]:
            names = tuple(row["worst"].split("; ")) if row["worst"] else ()
            if names:
                lost = alone[names[0]] if len(names) == 1 else pairs.get(names) if names in pairs else pairs[names[::-1]]
                self.assertEqual(len(lost), int(row["most"]), row)

    def customers(self, out, network, components, alone, pairs):
        for number, row in enumerate(self.rows(out / "customers.csv")):
            if number in self.before:
                self.assertEqual((int(row["pairs"]), int(row["pairs_together"])), (len(pairs), 0))
                continue
            fatal = [name for name, lost in alone.items() if number in lost]
            counts = Counter(components[name][0] for name in fatal)
            self.assertEqual({kind: int(row[kind]) for kind in ("fibre", "span", "place")}, {kind: counts[kind] for kind in ("fibre", "span", "place")})
            losing = [names for names, lost in pairs.items() if number in lost]
            together = [names for names in losing if not set(names) & set(fatal)]
            self.assertEqual((int(row["pairs"]), int(row["pairs_together"])), (len(losing), len(together)), row)
            self.assertEqual(int(row["besides_ends"]), sum(not network.ends_at(number, components[name][1]) for name in fatal))

    def doubles(self, out, alone, pairs):
        """Just the pairs that lose somebody whom neither loses alone."""
        found = {frozenset((row["failure"], row["other"])): (int(row["lost"]), int(row["beyond"])) for row in self.rows(out / "doubles.csv")}
        wanted = {}
        for (one, other), lost in pairs.items():
            beyond = set(lost) - set(alone[one]) - set(alone[other])
            if beyond:
                wanted[frozenset((one, other))] = len(lost), len(beyond)
        self.assertEqual(found, wanted)

    def sections(self, out, network, alone, pairs):
        """By name, with the section that breaks."""
        ring = {row["name"]: at for at, row in enumerate(network.rings)}
        names = [customer["name"] for customer in network.customers]
        found, wanted = set(), set()
        for row in self.rows(out / "lost.csv"):
            found.add((frozenset(filter(None, (row["failure"], row["other"]))), names.index(row["customer"]), ring[row["ring"]]))
        wanted |= {(frozenset(), number, at) for number, rings in self.before.items() for at in rings}
        for name, lost in alone.items():
            wanted |= {(frozenset([name]), number, at) for number, rings in lost.items() if number not in self.before for at in rings}
        for (one, other), lost in pairs.items():
            beyond = set(lost) - set(alone[one]) - set(alone[other])
            wanted |= {(frozenset((one, other)), number, at) for number in beyond for at in lost[number]}
        self.assertEqual(found, wanted)

    def test_random_networks(self):
        pairs = sum(self.compare(seed) for seed in range(1, 8))
        self.assertGreater(pairs, 4_000)

    def test_after_what_scripts_leave(self):
        """Also where a customer is lost by that alone."""
        before = 0
        for seed in range(11, 17):
            self.compare(seed, scripts=True)
            before += len(self.before)
        self.assertGreater(before, 0)


class Runs(Folder):
    def test_a_verdict_is_the_conjunction_of_the_reports_of_its_sections(self):
        """Ten random networks, three cases each of one to four failures."""
        lost = 0
        for seed in range(101, 111):
            chance = random.Random(seed)
            _, network = self.drawn(seed)
            components = network.components()
            for _ in range(3):
                names = chance.sample(sorted(components), chance.randint(1, 4))
                names = [name for name in names if "(" not in name] or ["place P0"]
                parts = [part for name in names for part in components[name][1]]
                found, _ = self.network("whatif", network.folder, "--case", "; ".join(names))
                said = {row["customer"] for row in self.rows(found) if row["fate"] == "lost"}
                wanted = network.lost_by_runs(parts, PROGRAM)
                self.assertEqual(said, {network.customers[number]["name"] for number in wanted}, (seed, names))
                lost += len(wanted)
        self.assertGreater(lost, 10)


class Availability(Folder):
    def test_it_equals_the_enumeration_of_all_sets(self):
        """To 12 digits, in networks with shared places and groups over several rings."""
        done = shared = 0
        for seed in range(201, 260):
            tables, network = self.drawn(seed, most_places=3, rates=True)
            components = rated(network.folder, network)
            if not 3 <= len(components) <= 12:
                continue
            found, _ = self.network("availability", network.folder, "--json")
            wanted = unavailability(network, components)
            for record, one in zip(json.loads(found), wanted, strict=True):
                self.assertAlmostEqual(record["unavailability"], one, delta=one * 1e-12, msg=(seed, record))
                parts = sum(record[part] for part in ("ends", "changes", "alone", "together", "script"))
                self.assertAlmostEqual(parts, record["minutes"], delta=record["minutes"] * 1e-12)
            shared += any(len({part[0] for part in parts}) > 1 for _, parts in components)
            done += 1
            if done == 12:
                break
        self.assertEqual(done, 12)
        self.assertGreater(shared, 4)


class Rules(Folder):
    def test_verdicts_are_those_of_all_cases(self):
        """Random rules about random networks, over kinds, customers, and besides ends."""
        broken = 0
        for seed in range(301, 305):
            _, network = self.drawn(seed)
            chance, components = random.Random(seed), network.components()
            cases = {(name,): parts for name, (_, parts) in components.items()}
            cases |= {(one, other): [*components[one][1], *components[other][1]] for one, other in combinations(components, 2)}
            rules, wanted = [], []
            for _ in range(6):
                depth, kinds = chance.randint(1, 2), chance.sample(("fibre", "span", "place"), chance.randint(1, 3))
                names, besides = chance.sample(range(len(network.customers)), chance.randint(0, 1)), chance.random() < 0.5
                most = 0 if names else chance.randint(0, 2)
                words = f"{network.customers[names[0]]['name']} not" if names else f"at most {most}"
                rules.append(f"{('single', 'double')[depth - 1]} {', '.join(kinds)}: {words} lost{' besides ends' if besides else ''}")
                about = [parts for names_, parts in cases.items() if len(names_) == depth and all(components[name][0] in kinds for name in names_)]
                lost = [[number for number in network.lost(parts) if (not names or number in names) and not (besides and network.ends_at(number, parts))] for parts in about]
                breaking = [one for one in lost if len(one) > most]
                wanted.append((len(about), len(breaking), max(map(len, breaking), default=0)))
            asked = [word for rule in rules for word in ("--require", rule)]
            found = call("sdhring-network", "whatif", network.folder, *asked)
            for row, (count, breaking, lost) in zip(self.rows(found.stdout.decode()), wanted, strict=True):
                self.assertEqual((int(row["cases"]), int(row["breaking"]), int(row["lost"] or 0)), (count, breaking, lost), (seed, row))
                self.assertEqual(row["verdict"], "broken" if breaking else "holds")
                self.assertEqual(len(row["customers"].split("; ")) if breaking else 0, lost, row)
                broken += breaking > 0
        self.assertGreater(broken, 8)


class Impaired(Folder):
    def test_two_degraded_spans_of_one_ring(self):
        """Then none is applied, and who has one of them on his own arc is kept but impaired; by name, and never where one is degraded alone."""
        self.network("import", EXAMPLE, "--to", "net")
        network = Network(self.top / "net")
        self.network("whatif", "net", "--kinds", "degraded", "--dir", "out")
        fibres = {name: (ring, at if side == "east" else (at - 1) % network.size(ring)) for name, (_, [(ring, _, at, side)]) in network.components(("fibre",)).items()}
        wanted = set()
        for (one, (ring, span)), (other, (beside, there)) in combinations(fibres.items(), 2):
            if ring == beside and span != there:
                for number, sections in enumerate(network.sections):
                    if any(at == ring and {span, there} & network.arc(ring, circuit) for at, circuit in sections):
                        wanted.add((frozenset(name.replace("fibre", "degraded", 1) for name in (one, other)), network.customers[number]["name"]))
        rows = self.rows(self.top / "out" / "lost.csv")
        self.assertEqual({(frozenset((row["failure"], row["other"])), row["customer"]) for row in rows}, wanted)
        self.assertEqual({row["fate"] for row in rows}, {"impaired"})
        summary = {(row["depth"], row["kinds"]): row for row in self.rows(self.top / "out" / "summary.csv")}
        self.assertEqual(int(summary["double", "degraded+degraded"]["impairing"]), len({case for case, _ in wanted}))
        self.assertEqual((summary["single", "degraded"]["impairing"], summary["double", "degraded+degraded"]["losing"]), ("0", "0"))


class Against(Folder):
    def test_who_gains_and_who_loses(self):
        """The bridge with one span of North: nobody is lost with it alone. And an earlier answer in place of a network."""
        self.network("import", EXAMPLE, "--to", "net")
        self.network("whatif", "net", "--dir", "before")
        document = self.top / "net" / "network.toml"
        document.write_text(document.read_text(encoding="utf-8").replace("'span Hannover-Berlin', ", ""), encoding="utf-8")
        self.network("whatif", "net", "--dir", "now", "--against", "before")
        rows = self.rows(self.top / "now" / "against.csv")
        alone = {(row["failure"], row["customer"], row["before"], row["now"], row["change"]) for row in rows if not row["other"]}
        self.assertEqual(alone, {("group Leine bridge", name, "lost", "survives", "gains") for name in ("bank", "press-1", "press-2")})
        self.assertEqual({row["change"] for row in rows}, {"gains"})
        self.assertTrue(all("group Leine bridge" in (row["failure"], row["other"]) for row in rows))
        self.assertNotIn("span Hannover–Berlin in North", {name for row in rows for name in (row["failure"], row["other"])})  # with it all three are cut as before
        self.network("import", EXAMPLE, "--to", "other")
        _, said = self.network("whatif", "net", "--dir", "again", "--against", "other")
        self.assertEqual(self.rows(self.top / "again" / "against.csv"), rows)
        self.assertNotIn("only in", said)
        self.assertIn("beside other: none of 6 customers moves", said)
        self.network("whatif", "other", "--dir", "back", "--against", "net")
        turned = [{**row, "before": row["now"], "now": row["before"], "change": "loses"} for row in rows]
        order = lambda row: tuple(row.values())
        self.assertEqual(sorted(self.rows(self.top / "back" / "against.csv"), key=order), sorted(turned, key=order))

    def test_who_moves(self):
        """Beside a network in which one customer leads the other way round in another slot, and one lies in another slot alone."""
        self.network("import", EXAMPLE, "--to", "net")
        shutil.copytree(self.top / "net", self.top / "old")
        plans = {ring: self.top / "old" / "rings" / f"{ring}.toml" for ring in ("north", "south")}
        turned = self.shifted(self.turned(plans["north"].read_text(encoding="utf-8"), "radio"), "radio")
        plans["north"].write_text(turned, encoding="utf-8")
        plans["south"].write_text(self.shifted(plans["south"].read_text(encoding="utf-8"), "fair"), encoding="utf-8")
        _, said = self.network("whatif", "net", "--dir", "out", "--against", "old")
        rows = [tuple(row.values()) for row in self.rows(self.top / "out" / "moves.csv")]
        self.assertEqual(rows, [("radio", "North", "other way"), ("radio", "North", "other slot"), ("fair", "South", "other slot")])
        self.assertIn("beside old: 2 of 6 customers move (1 other way, 2 other slot): radio, fair", said)

    def turned(self, plan, name):
        """A plan in which a circuit leads the other way round."""
        block = next(part for part in plan.split("[[circuit]]") if f'name = "{name}"' in part)
        start, end = (re.search(rf"^{key} = ([0-9]+)", block, re.M)[1] for key in ("from", "to"))
        other = re.sub(r"^from = .*", f"from = {end}", re.sub(r"^to = .*", f"to = {start}", block, flags=re.M), flags=re.M)
        return plan.replace(block, other)

    def shifted(self, plan, name):
        """A plan in which a circuit lies in the last slot."""
        block = next(part for part in plan.split("[[circuit]]") if f'name = "{name}"' in part)
        last = int(re.search(r"^rate = ([0-9]+)", plan, re.M)[1]) // 2
        return plan.replace(block, re.sub(r"^slot = .*", f"slot = {last}", block, flags=re.M))


class Example(Folder):
    """The worked example of NETWORKS.md."""

    def test_a_customer_that_each_ring_alone_calls_safe_is_lost_with_the_bridge(self):
        self.network("import", EXAMPLE, "--to", "net")
        rules = ("--require", "single span: none lost", "--require", "single fibre: none lost")
        ended = call("sdhring-whatif", *rules, "net/rings", cwd=self.top)
        self.assertEqual((ended.returncode, {row["verdict"] for row in self.rows(ended.stdout.decode())}), (0, {"holds"}))
        found, _ = self.network("whatif", "net", *rules, "--require", "single group: none lost", wanted=1)
        self.assertEqual([(row["verdict"], row["customers"]) for row in self.rows(found)], [("holds", ""), ("holds", ""), ("broken", "bank; press-1; press-2")])

    def test_minutes_by_hand(self):
        self.network("import", EXAMPLE, "--to", "net")
        found, _ = self.network("availability", "net", "--cuts-per-1000-km", "2", "--json")
        bank = json.loads(found)[0]
        v, w, g = 0.2 / 8760.2, 0.08 / 8760.08, 0.96 / 8760.96
        for part, wanted in (("ends", 1 - (1 - v) ** 2), ("changes", (1 - v) ** 2 * (1 - (1 - w) ** 2)), ("alone", (1 - v) ** 2 * (1 - w) ** 2 * g)):
            self.assertAlmostEqual(bank[part], wanted * 525_600, delta=1e-6)

    def test_the_page_has_what_the_tools_write(self):
        blocks = re.findall(r"(?:^    .*\n|^\n(?=    ))+", (TOOLS.parent / "docs" / "NETWORKS.md").read_text(encoding="utf-8"), re.M)
        lines = [line.strip() for block in blocks for line in block.splitlines() if line.strip()]
        commands = [line for line in lines if line.startswith("./sdhring")]
        self.network("import", EXAMPLE, "--to", "net")
        said = ""
        for command in commands:
            tool, *words = shlex.split(command.removeprefix("./"))
            if words[0] in ("whatif", "availability") and "--dir" not in words or tool == "sdhring-whatif":
                said += call(tool, *words, cwd=self.top).stdout.decode()
        shown = [line for line in lines if not line.startswith(("./sdhring", "sbatch", ".."))]
        self.assertGreater(len(shown), 15)
        self.assertEqual([line for line in shown if line not in said], [])


if __name__ == "__main__":
    unittest.main()
