"""Availability beside an enumeration of all sets of failures by the restoration model, a simulation in time, and a page's example."""

import json
import math
import random
import re
import tempfile
import unittest
from collections import defaultdict
from pathlib import Path
from runpy import run_path

from common import TOOLS, call, command

from ringtools.availability import MINUTES, NOTHING_LEFT, PROTECTIONS, Seen, left_by
from ringtools.components import HOURS, Component
from ringtools.model import CUT, FAIL, applied_spans, incoming, is_joined, scenes, span_requests
from ringtools.plan import read_plan
from ringtools.switching import frames_of
from ringtools.tables import TableProblem

AVAILABILITY, PLAN = run_path(str(TOOLS / "sdhring-availability")), run_path(str(TOOLS / "sdhring-plan"))
DOCS = TOOLS.parent / "docs"
TELLER = command(TOOLS.parent / "bench" / "whatif" / "model.py")
STEPS = ("cut", "cut", "mend", "forced", "manual", "clear", "degrade", "settle")


def document(chance, size, script):
    """A plan whose circuits have slots of their own."""
    lines = ["rate = 16", f"nodes = {list(range(size))}", "threshold = 3", "wait = 10", "limit = 9999", f"script = {json.dumps(script)}"]
    for slot in range(1, chance.randint(1, 3) + 1):
        start, end = chance.sample(range(size), 2)
        lines += ["[[circuit]]", f'name = "c{slot}"', f"from = {start}", f"to = {end}", f"slot = {slot}", 'text_a = "a"', 'text_b = "b"']
    return "\n".join(lines).encode()


def script_of(chance, size):
    """Nothing in most rings; in others steps that may leave something applied, waiting or degraded."""
    steps = []
    for _ in range(chance.choice((0, 0, 1, 2, 4))):
        word = chance.choice(STEPS)
        place = f"{word} {chance.randrange(size)} {chance.choice(('west', 'east'))}"
        steps.append("settle" if word == "settle" else f"{place} 4" if word == "degrade" else place)
    return [*steps, "settle"]


def both(size, span):
    return frozenset([(span, "east"), ((span + 1) % size, "west")])


def components_of(chance, size, most):
    """Components of all kinds with rates and times of all sizes, up to a number of them."""
    sides = [(at, side) for at in range(size) for side in ("west", "east")]
    made = [("span", both(size, span), None) for span in range(size)]
    made += [("node", both(size, at) | both(size, (at - 1) % size), at) for at in range(size)]
    made += [("fibre", frozenset([chance.choice(sides)]), None) for _ in range(2)]
    groups = [frozenset(chance.sample(sides, chance.randint(1, min(5, len(sides))))) for _ in range(2)]
    made += [("group", frozenset().union(fibres, *(both(size, chance.randrange(size)) for _ in range(chance.randint(0, 1)))), None) for fibres in groups]
    chosen = chance.sample(made, min(most, len(made)))
    rate = lambda: chance.choice((0, 10 ** chance.uniform(-6, 0), 10 ** chance.uniform(-1, 3), 10 ** chance.uniform(3, 9)))
    return [Component(f"{kind} {number}", kind, fibres, rate(), 10 ** chance.uniform(-1, 2), at) for number, (kind, fibres, at) in enumerate(chosen)]


class Rules:
    """What is lost where these fibres are cut beside what the script leaves: the model's applied spans and joined ends, and the two ways of docs/PATHS.md."""

    def __init__(self, plan):
        self.plan, size = plan, plan.size
        self.last = scenes(plan, [128 * (at + 1) for at in range(sum(step.word == "settle" for step in plan.steps))])[-1]
        self.sides = [(at, side) for at in range(size) for side in ("west", "east")]
        self.known = {}

    def applied(self, cut):
        requests = {place: max(self.last.requests[place], FAIL if incoming(self.plan, *place) in cut else 0) for place in self.sides}
        return applied_spans(span_requests(self.plan.size, requests))

    def way(self, here, there, side):
        """The fibres that lead from one position to another on a side."""
        fibres = []
        while here != there:
            fibres.append((here, side))
            here = self.plan.neighbour(here, side)
        return set(fibres)

    def lost(self, circuit, cut):
        """By kind of protection."""
        key = circuit.name, cut
        if key not in self.known:
            all_cut = cut | {fibre for fibre in self.sides if self.last.conditions[fibre] == CUT}
            a, b = circuit.start, circuit.end
            main, back = self.way(a, b, "east"), self.way(b, a, "west")
            port_b = main & all_cut and self.way(a, b, "west") & all_cut
            port_a = back & all_cut and self.way(b, a, "east") & all_cut
            shared = not is_joined(self.plan, circuit, self.applied(cut))
            self.known[key] = {"shared": shared, "path": bool(port_a or port_b), "unprotected": bool((main | back) & all_cut)}
        return self.known[key]


def all_sets(components):
    """Each set of components that are down: its number in binary digits, its probability, and the fibres that it cuts."""
    found = [(0, 1.0, frozenset())]
    for at, one in enumerate(components):
        found = [(number, p * one.up, cut) for number, p, cut in found] + [(number | 1 << at, p * one.down, cut | one.fibres) for number, p, cut in found]
    return found


def enumerated(plan, components):
    """The shares of each circuit and kind of protection, by going through all sets of components that are down."""
    rules, parts, sets = Rules(plan), defaultdict(list), all_sets(components)
    for circuit in plan.circuits:
        ends = sum(1 << at for at, one in enumerate(components) if one.at in (circuit.start, circuit.end))
        nothing, alone = rules.lost(circuit, frozenset()), [rules.lost(circuit, one.fibres) for one in components]
        for protection in PROTECTIONS:
            single = sum(1 << at for at, lost in enumerate(alone) if lost[protection])
            for number, probability, cut in sets:
                if rules.lost(circuit, cut)[protection]:
                    part = "script" if nothing[protection] else "ends" if number & ends else "alone" if number & single else "together"
                    parts[circuit.name, protection, part].append(probability)
    return {key: math.fsum(found) for key, found in parts.items()}


class Enumeration(unittest.TestCase):
    def test_three_hundred_small_rings_to_twelve_digits(self):
        seen_parts, beside = defaultdict(int), 0
        for seed in range(300):
            chance = random.Random(seed)
            size = chance.randint(2, 6)
            plan = read_plan(document(chance, size, script_of(chance, size)))
            components = components_of(chance, size, chance.randint(1, 10))
            expected, left = enumerated(plan, components), left_by(plan)
            beside += not left.is_healthy
            for circuit in plan.circuits:
                seen = Seen(plan, circuit, components, left)
                for protection in PROTECTIONS:
                    share = seen.share(protection)
                    with self.subTest(seed=seed, circuit=circuit.name, protection=protection):
                        for part in ("ends", "alone", "together", "script"):
                            wanted = expected.get((circuit.name, protection, part), 0.0)
                            self.assertTrue(math.isclose(getattr(share, part), wanted, rel_tol=1e-12, abs_tol=0), (part, getattr(share, part), wanted))
                            seen_parts[protection, part] += wanted > 0
        self.assertEqual(seen_parts.pop(("unprotected", "together")), 0)  # whatever cuts its arc takes such a circuit alone
        self.assertEqual(len(seen_parts), 11)
        self.assertGreater(min(seen_parts.values()), 5)
        self.assertGreater(beside, 40)

    def test_causes_are_the_smallest_sets_that_take_a_circuit(self):
        for seed in range(60):
            chance = random.Random(seed)
            size = chance.randint(2, 6)
            plan = read_plan(document(chance, size, script_of(chance, size)))
            components, rules = components_of(chance, size, 7), Rules(plan)
            for circuit in plan.circuits:
                seen = Seen(plan, circuit, components, left_by(plan))
                for protection in PROTECTIONS:
                    takes = lambda *some: rules.lost(circuit, frozenset().union(*(one.fibres for one in some)))[protection]
                    single = [one for one in components if takes(one)]
                    pairs = [(one, two) for at, one in enumerate(components) for two in components[at + 1 :] if takes(one, two)]
                    wanted = {(one.name,): one.down * MINUTES for one in single}
                    wanted |= {(one.name, two.name): one.down * two.down * MINUTES for one, two in pairs if one not in single and two not in single}
                    found = seen.causes(protection)
                    with self.subTest(seed=seed, circuit=circuit.name, protection=protection):
                        self.assertEqual({tuple(one.name for one in cause.components): cause.minutes for cause in found}, {} if takes() else wanted)
                        self.assertEqual([cause.minutes for cause in found], sorted((cause.minutes for cause in found), reverse=True))


class InTime(unittest.TestCase):
    def test_a_simulation_in_time_comes_to_the_same(self):
        """Components fail and are repaired at random, one event after the other, for many years; each batch of them is one measurement."""
        plan = read_plan(document(random.Random(5), 4, ["settle"]))
        circuit, size = plan.circuits[0], 4
        components = [Component(f"span {span}", "span", both(size, span), 20, 30.0 + span) for span in range(size)]
        components += [Component("node 2", "node", both(size, 1) | both(size, 2), 5, 20, 2), Component("fibre", "fibre", frozenset([(0, "west")]), 9, 40)]
        components += [Component("group", "group", both(size, 0) | both(size, 2), 2, 50)]
        rules, chance = Rules(plan), random.Random(1)
        batches = [self.simulated(rules, circuit, components, chance, 60.0) for _ in range(30)]
        seen = Seen(plan, circuit, components)
        for protection in PROTECTIONS:
            self.comes_to([batch[protection] for batch in batches], seen.share(protection).whole)
        own = {(at, side) for span in rules.way(circuit.start, circuit.end, "east") for at, side in both(size, span[0])}
        self.assertGreater(seen.switches()[0], 0)
        struck = [one for one in components if one.fibres & own and not rules.lost(circuit, one.fibres)["shared"]]
        self.comes_to([sum(batch["failures"][one.name] for one in struck) for batch in batches], seen.switches()[0])

    def comes_to(self, measured, wanted):
        """Within four times the error of the mean."""
        mean = math.fsum(measured) / len(measured)
        error = math.sqrt(math.fsum((one - mean) ** 2 for one in measured) / (len(measured) - 1) / len(measured))
        self.assertLess(abs(mean - wanted), 4 * error)
        self.assertLess(error, 0.05 * wanted)

    def simulated(self, rules, circuit, components, chance, years):
        """The parts of the time that a circuit is lost, and each component's failures a year."""
        lasts = lambda one, is_down: chance.expovariate(HOURS / one.hours if is_down else one.rate)
        is_down = [chance.random() < one.down for one in components]
        next_event = [lasts(one, down) for one, down in zip(components, is_down)]
        now, spent, failures = 0.0, defaultdict(float), defaultdict(float)
        while now < years:
            at = min(range(len(components)), key=next_event.__getitem__)
            until = min(next_event[at], years)
            lost = rules.lost(circuit, frozenset().union(*(one.fibres for one, down in zip(components, is_down) if down)))
            for protection in PROTECTIONS:
                spent[protection] += (until - now) / years * lost[protection]
            now = until
            is_down[at] = not is_down[at]
            failures[components[at].name] += is_down[at] / years
            next_event[at] = now + lasts(components[at], is_down[at])
        return {**spent, "failures": failures}


class Switching(unittest.TestCase):
    def rows(self):
        """The rows of docs/RING.md: what happens, and the frames by n."""
        page = (DOCS / "RING.md").read_text().split("| What happens | Frames out |", 1)[1].split("\n\n", 1)[0]
        return {cells[0]: cells[1] for cells in ([cell.strip() for cell in line.strip("| ").split(" | ")] for line in page.splitlines()[2:])}

    def value(self, words, n):
        return max(int(found[1] or 1) * n - int(found[2]) if found[2] else int(words) for found in re.finditer(r"(\d*)n - (\d+)|\d+", words))

    def test_frames_are_those_of_the_table(self):
        rows = self.rows()
        for n in range(4, 17):
            for wait in (0, 10):
                plan = read_plan(document(random.Random(1), n, ["settle"]).replace(b"wait = 10", b"wait = %d" % wait))
                mended = rows["a cut span mended where `wait` is 0" if wait == 0 else "a cut span mended, and waiting to restore"]
                found = frames_of(plan, both(n, 2))
                self.assertEqual(found, (self.value(rows["healthy ring: a span cut both ways"], n), self.value(mended, n)))
                fibre = frames_of(plan, frozenset([(2, "east")]))
                self.assertEqual(fibre[0], self.value(rows["healthy ring: one fibre cut"], n))
                if wait:
                    self.assertEqual(fibre[1], self.value(rows["one cut fibre mended, and waiting to restore"], n))
                node = frames_of(plan, both(n, 2) | both(n, 1))
                self.assertEqual(node, (self.value(rows["healthy ring: a node lost, for those who have another way"], n), 5 * n - 3))
                self.assertEqual(frames_of(plan, both(n, 2) | both(n, 0)), (5 * n - 3,) * 2 if n > 3 else node)
                self.assertEqual(frames_of(plan, both(n, 0) | both(n, 1) | both(n, 2)), (12 * n + 102,) * 2)

    def test_nothing_is_told_of_switches_beside_a_script(self):
        plan = read_plan(document(random.Random(2), 4, ["forced 1 east", "settle"]))
        components = [Component("span", "span", both(4, span), 1, 1) for span in range(4)]
        self.assertEqual(Seen(plan, plan.circuits[0], components, left_by(plan)).switches(), (None, None))
        self.assertNotEqual(Seen(plan, plan.circuits[0], components, NOTHING_LEFT).switches(), (None, None))


SPANS = "from,to,cuts,hours\n" + "".join(f"{a},{b},1,8\n" for a, b in ("12", "23", "34", "41"))
HEADS = {
    "shares": "plan circuit called from to from_place to_place protection unavailability minutes nines ends alone together script switches frames",
    "causes": "plan circuit called protection component other minutes",
}


class Command(unittest.TestCase):
    def setUp(self):
        self.folder = Path(self.enterContext(tempfile.TemporaryDirectory()))
        self.plan("north=1>3", "west=4>1", "--rate", "16")

    def plan(self, *words):
        (self.folder / "plan.toml").write_text(PLAN["made_for"](PLAN["options"](["new", *words])).document)

    def made(self, *words, **tables):
        """What the tool writes, without a process of its own."""
        for name, text in ({"spans": SPANS} | tables).items():
            (self.folder / f"{name}.csv").write_text(text)
        more = [word for name in tables if name != "spans" for word in (f"--{name}", str(self.folder / f"{name}.csv"))]
        words = str(self.folder / "plan.toml"), str(self.folder / "spans.csv"), *more, *words
        return AVAILABILITY["answer"](AVAILABILITY["options"](words))

    def test_the_page_s_example(self):
        page = (DOCS / "AVAILABILITY.md").read_text()
        for name in ("circuits", "nodes", "spans", "groups"):
            table = page.split(f"`{name}.csv`:\n\n", 1)[1].split("\n\n", 1)[0]
            (self.folder / f"{name}.csv").write_text(re.sub(r"^    ", "", table, flags=re.M) + "\n")
        (self.folder / "plan.toml").unlink()
        commands = [re.sub(r"^    \./", "", line).split() for line in page.split("The tool:\n\n", 1)[1].splitlines()[:2]]
        made, found = (call(*command, cwd=self.folder) for command in commands)
        self.assertEqual((made.returncode, found.returncode), (0, 0), made.stderr + found.stderr)
        shown = page.split(" --groups groups.csv\n\n")[2].split("\n\nShared and path ring differ", 1)[0]
        self.assertEqual(found.stdout.decode(), re.sub(r"^    ", "", shown, flags=re.M) + "\n")

    def test_records_are_regular(self):
        nodes = "node,failures,hours\n" + "".join(f"{number},0.02,4\n" for number in (1, 2, 3, 4))
        for kind, more in (("shares", ()), ("causes", ("--causes",))):
            rows = [line.split(",") for line in self.made("--csv", *more, nodes=nodes).splitlines()]
            text = self.made("--json", *more, nodes=nodes)
            records = json.loads(text)
            self.assertEqual(rows[0], HEADS[kind].split())
            self.assertEqual({len(row) for row in rows}, {len(rows[0])})
            self.assertEqual([list(record) for record in records], [rows[0]] * (len(rows) - 1))
            self.assertEqual([["" if value is None else str(value) for value in record.values()] for record in records], rows[1:])
            self.assertEqual(len(text.splitlines()), len(records) + 2)
        self.assertEqual(len(json.loads(self.made("--json"))), 2 * len(PROTECTIONS))

    def test_rates_from_lengths_and_fibres(self):
        head = "From;To;km;Cuts per 1000 km;hours;fibre failures;fibre hours\n"
        rows = "1;2;100;;8,5;0,5;2\n3;2;200;2,5;8;;\n3;4;0;;8;;\n1;4;50;;8;;\n"
        found = json.loads(self.made("--json", "--causes", "--cuts-per-1000-km", "4", spans=head + rows))
        alone = {record["component"]: record["minutes"] for record in found if (record["circuit"], record["protection"]) == ("north", "unprotected")}
        down = lambda rate, hours: rate * hours / (HOURS + rate * hours) * MINUTES
        wanted = {"span 1–2": down(0.4, 8.5), "span 2–3": down(0.5, 8), "fibre 1>2": down(0.5, 2), "fibre 2>1": down(0.5, 2)}
        self.assertEqual(alone.keys(), wanted.keys())
        for name, minutes in wanted.items():
            self.assertTrue(math.isclose(alone[name], minutes, rel_tol=1e-12))

    def test_a_number_that_may_have_two_meanings_is_refused(self):
        """As 1.028, which is 1028 or 1,028, where commas don't separate the cells and no other cell shows what its mark is."""
        table = lambda *km: {"spans": "from;to;km;cuts_per_1000_km;hours\n" + "".join(f"{a};{b};{one};2;8\n" for (a, b), one in zip(("12", "23", "34", "41"), km))}
        minutes = lambda *km: [record["minutes"] for record in json.loads(self.made("--json", **table(*km)))]
        self.refused("spans.csv:3: `km` is `1.028`, which may be 1028 or 1,0280: write one of these", **table("80,5", "1.028", "7", "8"))
        self.refused("spans.csv:2: `km` is `1,028`, which may be 1028 or 1,0280: write one of these", **table("1,028", "80", "7", "8"))
        self.refused("spans.csv:2: `km` is `12.345.678`, which may be 12345678", **table("12.345.678", "80", "7", "8"))
        self.assertEqual(minutes("80.5", "1.028", "7", "8"), minutes("80,5", "1,0280", "7", "8"))
        self.assertEqual(minutes("80,5", "1028", "0.250", "8"), minutes("80,5", "1028", "0,25", "8"))
        with_commas = {"spans": table("80.5", "1.028", "7", "8")["spans"].replace(";", ",")}
        self.assertEqual([record["minutes"] for record in json.loads(self.made("--json", **with_commas))], minutes("80.5", "1.028", "7", "8"))

    def test_what_the_script_leaves_is_said_and_may_be_left_out(self):
        plan = self.folder / "plan.toml"
        plan.write_text(plan.read_text().replace('    "settle",\n', '    "forced 1 east",\n    "settle",\n', 1))
        self.assertIn("The ring is the one that the plan's script leaves: 1–2; switches aren't counted", self.made())
        self.assertNotIn("script", self.made("--without-script"))
        shared = json.loads(self.made("--json"))[0]
        self.assertTrue(math.isclose(shared["minutes"], 2 * MINUTES * 8 / 8768, rel_tol=1e-3))
        self.assertEqual((shared["together"], shared["switches"], shared["frames"]), (0, None, None))

    def test_a_ring_of_two_nodes(self):
        self.plan("1>2", "--nodes", "1-2")
        groups = "group,members,failures,hours\nduct,span 1-2;fibre 1>2,1,1\nboth,span 2-1; span 1–2,1,1\n"
        found = json.loads(self.made("--json", "--causes", spans="from,to,cuts,hours\n2,1,1,8\n1,2,2,8\n", groups=groups))
        shared = [(record["component"], record["other"]) for record in found if record["protection"] == "shared"]
        self.assertEqual(shared, [("group both", ""), ("span 1–2", "span 2–1"), ("span 2–1", "group duct")])

    def refused(self, said, **tables):
        with self.assertRaises(TableProblem) as raised:
            self.made(**tables)
        self.assertIn(said, str(raised.exception))

    def test_a_refusal_is_a_line_and_status_1(self):
        (self.folder / "spans.csv").write_text("from,to\n")
        ended = call("sdhring-availability", "plan.toml", "spans.csv", cwd=self.folder)
        self.assertEqual((ended.returncode, ended.stdout), (1, b""))
        self.assertEqual(ended.stderr, b"sdhring-availability: spans.csv:1: the first line is to name the columns, and `hours` is missing; there are from, to\n")
        self.assertEqual(call("sdhring-availability", "plan.toml", "spans.csv", "--causes", cwd=self.folder).returncode, 2)

    def test_words_that_are_refused_say_what_to_do(self):
        for said, *words in (
            ("spans.csv is a table, and stands where a plan is due: the plan is named first, and then its table of spans", "spans.csv", "plan.toml"),
            ("spans.xlsx is a spreadsheet: save its table as `CSV UTF-8`, and name that file", "plan.toml", "spans.xlsx"),
            ("argument --cuts-per-1000-km: `2,5`: a number with a point is wanted that isn't below 0, as 2.5", "plan.toml", "spans.csv", "--cuts-per-1000-km", "2,5"),
            ("argument --cuts-per-1000-km: `-1`: a number with a point is wanted that isn't below 0", "plan.toml", "spans.csv", "--cuts-per-1000-km=-1"),
        ):
            ended = call("sdhring-availability", *words, cwd=self.folder)
            self.assertEqual((ended.returncode, ended.stderr.decode().splitlines()[-1]), (2, f"sdhring-availability: {said}; sdhring-availability --help shows the words"))

    def test_a_column_that_is_not_read_is_told_with_the_nearest_name(self):
        (self.folder / "spans.csv").write_text(SPANS.replace("hours", "hours,fibre_failure,cuts_per_1000km,Owner").replace(",8", ",8,2,9,DB"))
        (self.folder / "groups.csv").write_text("group,members,failures,hours,since\nduct,span 1-2,1,1,1999\n")
        ended = call("sdhring-availability", "plan.toml", "spans.csv", "--groups", "groups.csv", cwd=self.folder)
        read = "spans.csv: not read: fibre_failure (nearest: fibre_failures), cuts_per_1000km (nearest: cuts_per_1000_km), Owner"
        said = f"sdhring-availability: {read}\nsdhring-availability: groups.csv: not read: since\n"
        self.assertEqual((ended.returncode, ended.stderr.decode()), (0, said))
        words = "--all", "--depth", "single", "--frames", "0", "--groups", "groups.csv", "--teller", TELLER
        ended = call("sdhring-whatif", *words, "plan.toml", cwd=self.folder)
        self.assertIn("sdhring-whatif: groups.csv: not read: since\n", ended.stderr.decode())

    def test_tables_that_are_refused(self):
        line = lambda row: {"spans": "from,to,cuts,km,hours\n" + row}
        group = lambda row: {"groups": "group,members,failures,hours\n" + row}
        for said, tables in (
            ("spans.csv:1: the first line is to name the columns, and `hours` is missing", {"spans": "from,to\n"}),
            ("spans.csv: span 2–3, span 3–4, span 4–1: they have no row", line("1,2,1,,8\n")),
            ("spans.csv:3: span 1–2 stood before", line("1,2,1,,8\n2,1,1,,8\n")),
            ("spans.csv:2: no span of the ring joins 1 and 3", line("1,3,1,,8\n")),
            ("spans.csv:2: `to` is `7`, and the nodes of the plan are 1, 2, 3, 4", line("1,7,1,,8\n")),
            ("spans.csv:2: `hours` is empty", line("1,2,1,,\n")),
            ("spans.csv:2: `hours` is `-8`, and a number is wanted that isn't below 0", line("1,2,1,,-8\n")),
            ("spans.csv:2: `cuts` is `nan`", line("1,2,nan,,8\n")),
            ("spans.csv:2: `cuts` a year are wanted, or `km`", line("1,2,,80,8\n")),
            ("spans.csv:2: `fibre_hours` is `8`, and `fibre_failures`, the failures a year", {"spans": "from,to,cuts,hours,fibre_hours\n1,2,1,8,8\n"}),
            ("nodes.csv: node 2, node 3, node 4: they have no row", {"nodes": "node,failures,hours\n1,0,4\n"}),
            ("nodes.csv:3: node 1 stood before", {"nodes": "node,failures,hours\n1,0,4\n1,0,4\n"}),
            ("nodes.csv:1: the first line is to name the column `node`", {"nodes": "failures,hours\n0,4\n"}),
            ("groups.csv:2: `span 1-3` is no span, node or fibre of the plan", group("duct,span 1-2; span 1-3,1,1\n")),
            ("groups.csv:2: `members` is empty", group("duct,;,1,1\n")),
            ("groups.csv:3: the group duct stood before", group("duct,node 1,1,1\nduct,node 2,1,1\n")),
            ("groups.csv:2: `failures` is empty", group("duct,node 1,,1\n")),
        ):
            with self.subTest(said=said):
                self.refused(said, **tables)
        plan = self.folder / "plan.toml"
        plan.write_text(plan.read_text() + "# node 1 is A\n# node 1 is B\n")
        self.refused("node 1 is named B, and A before")
        plan.write_text("rate = 5\n")
        self.refused("plan.toml: `rate` is to be 4 or 16")


if __name__ == "__main__":
    unittest.main()
