"""What a switch costs: docs/RING.md against the worked rows of sdhoutage, and these against a plain simulation.

The simulation is held against the worked rows of sdhring first, since the rows of sdhoutage come from it."""

import csv
import itertools
import random
import re
import subprocess
import sys
import tempfile
import tomllib
import types
import unittest
from functools import cache
from pathlib import Path
from runpy import run_path

from common import RINGS, TOOLS, command

from ringtools.rows import read_rows
from rules import Rules, Stream

ROOT = TOOLS.parent
PAGE, OUTAGES, BENCH = ROOT / "docs" / "RING.md", RINGS.parent / "outages", ROOT / "bench" / "outage"
sys.path.insert(0, str(BENCH))

import looking  # noqa: E402
import simulate  # noqa: E402

COUNTED = "ais", "ones", "jump", "torn", "strange", "foreign"
PORT = re.compile(
    r"port (\S+) ([ab]) out (\d+) runs (\d+) longest (\d+) ms (\d+\.\d{3}) from (\d+|-) to (\d+|-) "
    + " ".join(rf"{kind} (\d+)" for kind in COUNTED)
    + r" of (\S+ [ab]|- -)"
)
SPARED = {"beside", "far", "short"}  # circuits of the worked plans whose arcs don't hold the span
SIZES = 3, 4, 8, 16
KEYS = "out", "runs", "longest", "ms", "from", "to", *COUNTED, "of"
WORDS = "ms", "of"  # that aren't numbers


class Step:
    """One settle step of a text: its first and last round, and its ports by (name, end)."""

    def __init__(self, first, lines):
        ports = [line for line in lines[1:] if line.startswith("port ")]
        self.first, self.last, self.ports, self.longest = first, int(lines[0].split()[3]), {}, lines[len(ports) + 1 :]
        for line in ports:
            name, end, *numbers = PORT.fullmatch(line).groups()
            self.ports[name, end] = {key: told if told == "-" or key in WORDS else int(told) for key, told in zip(KEYS, numbers)}

    def kept(self, spared=SPARED):
        """The ports over the span that have another way: they aren't out at the end of the step."""
        return [told for (name, _), told in self.ports.items() if name not in spared and told["to"] != self.last]

    def over(self, spared=SPARED):
        """How many rounds after the event no port is out any more; a round of a jump is in order itself."""
        ends = [told["to"] + bool(told["out"]) for told in self.kept(spared) if told["to"] != "-"]
        return max(ends, default=self.first) - self.first


def steps_in(text):
    lines, steps, first = text.splitlines(), [], 0
    starts = [at for at, line in enumerate(lines) if line.startswith("settle ")]
    for start, end in zip(starts, [*starts[1:], len(lines) - 1]):
        steps.append(Step(first, lines[start:end]))
        first = steps[-1].last + 1
    return steps


@cache
def steps_of(name):
    return steps_in((OUTAGES / f"{name}.text").read_text())


@cache
def rows():
    return {row.name: row for row in read_rows(OUTAGES)}


@cache
def every_arc(name, n):
    """The worked plan in a ring of n nodes, with a circuit along each arc of n - 1 spans, in place of its own circuits."""
    plan = tomllib.loads(rows()[f"{name}-16"].given.decode())
    nodes = [6, 7, 8, *range(9, 6 + n)]
    both = {"text_a": "-", "text_b": "-"}
    circuits = [{"name": f"from-{nodes[i]}", "from": nodes[i], "to": nodes[i - 1], "slot": i, **both} for i in range(n)]
    return steps_in(simulate.run({**plan, "nodes": nodes, "circuit": circuits})[1])


def value(formula, n):
    """A number, or a number times n, more or less."""
    times, sign, more = re.fullmatch(r"(?:(\d*)n)?(?: ([+-]) )?(\d*)", formula).groups()
    times = 0 if times is None else int(times or 1)
    return times * n + int(f"{sign or ''}{more or 0}")


def bounds(cell, n):
    """The lowest and the highest number of a cell."""
    ends = cell.removesuffix(", and a jump").split(" to ")
    return value(ends[0], n), value(ends[-1], n)


def table():
    """The rows of the section's table: what happens, the cells, and the worked plan with the number of its report."""
    section = PAGE.read_text().split("## What a switch costs\n")[1].split("\n## ")[0]
    lines = [line.strip("| ").split(" | ") for line in section.splitlines() if line.startswith("|")][2:]
    return [(*cells, *re.fullmatch(r"`([a-z-]+)`, (\d)", plan).groups()) for *cells, plan in lines]


class Table(unittest.TestCase):
    """The table of docs/RING.md is what the worked plans show."""

    def check(self, step, row, n, spared=SPARED):
        what, frames, over = row[0], row[1], row[4]
        outs = [told["out"] for told in step.kept(spared)]
        self.assertEqual((min(outs), max(outs)), bounds(frames, n), what)
        if "jump" in frames:
            self.assertEqual({told["jump"] for told in step.kept(spared)}, {1}, what)
        self.assertLessEqual(step.over(spared), value(over, n), what)

    def test_frames_and_milliseconds_of_sixteen_nodes(self):
        for _, frames, at_16, ms, *_ in table():
            self.assertEqual(bounds(at_16, 16), bounds(frames, 16))
            self.assertEqual(ms.split(" to "), [f"{out * 0.125:.3f}" for out in sorted({*bounds(frames, 16)})])

    def test_every_row_is_what_its_worked_plans_show(self):
        checked = 0
        for row in table():
            for n in SIZES:
                if n > 3 and f"{row[5]}-{n}" in rows():
                    with self.subTest(row=row[0], n=n):
                        self.check(steps_of(f"{row[5]}-{n}")[int(row[6]) - 1], row, n)
                        checked += 1
        self.assertEqual(checked, len(table()) + 2 * 3)  # three rows have plans of 4 and 8 nodes too

    def test_the_longest_arcs_show_when_all_is_over(self):
        spared = {"from-8"}
        for n, row in itertools.product((4, 5, 8), table()):
            with self.subTest(row=row[0], n=n):
                step = every_arc(row[5], n)[int(row[6]) - 1]
                self.check(step, row, n, spared)
                self.assertEqual(step.over(spared), value(row[4], n))


class Facts(unittest.TestCase):
    """What the section says besides its table."""

    def test_customers_round_the_span_lose_nothing(self):
        untouched = dict.fromkeys(KEYS, 0) | {"ms": "0.000", "from": "-", "to": "-", "of": "- -"}
        for name in rows():
            if re.search("^(?!trace-).*-(3|4|8|16)$", name):
                spared = SPARED - {"far"} if name.startswith("node") else SPARED
                for step in steps_of(name)[1:]:
                    for (circuit, end), told in step.ports.items():
                        self.assertTrue(circuit not in spared or told == untouched, f"{name}, {circuit} {end}")

    def test_three_nodes(self):
        outs = lambda name, number: {told["out"] for told in steps_of(name)[number - 1].kept()}
        self.assertEqual([outs("span-3", number) for number in (2, 3, 4)], [{8}, {6}, {0}])
        for name in ("fibre-3", "degraded-3", "forced-3", "manual-3"):
            self.assertEqual(outs(name, 2), {8, 9}, name)
        for name in ("fibre-3", "degraded-3"):
            self.assertEqual(outs(name, 3), {7, 8}, name)
        self.assertEqual(outs("node-3", 2), {4})

    def test_two_nodes(self):
        self.assertEqual({told["out"] for told in steps_of("two-nodes")[1].ports.values()}, {0, 4})

    def test_the_page_of_outages_shows_a_run(self):
        """Its first block of a text is the waiting example's."""
        page = (ROOT / "docs" / "OUTAGES.md").read_text()
        shown = page[page.index("    settle 1 ") :].split("\n\n")[0]
        self.assertEqual(shown.replace("    ", "") + "\n", (OUTAGES / "example-waiting.text").read_text())

    def test_customers_of_a_lost_node_have_ais_alone(self):
        for n in (3, 16):
            step = steps_of(f"node-{n}")[1]
            for name in ("over", "far"):
                for end in "ab":
                    told = step.ports[name, end]
                    self.assertEqual((told["to"], told["out"]), (step.last, told["ais"] + told["ones"]))
                    self.assertLessEqual(told["from"] + told["ones"], step.first + 3 * n - 6)

    def test_works_with_a_switch_on_one_side(self):
        longest = [max(told["out"] for told in step.kept()) for step in steps_of("works-one-side-16")]
        self.assertEqual(longest[1:], [60, 58, 60, 0, 0])
        self.assertEqual({told["jump"] for told in steps_of("works-16")[5].kept()}, {1})
        self.assertEqual([max(told["out"] for told in step.kept()) for step in steps_of("works-16")][1:], [60, 0, 0, 0, 0])

    def test_examples_tell_the_truth(self):
        comment = lambda name: (ROOT / "examples" / name).read_text().split("rate = ")[0].replace("\n# ", " ")
        works, waiting = steps_of("example-before-works"), steps_of("example-waiting")
        outs = [{told["out"] for (name, _), told in step.ports.items() if name != "south"} for step in works[1:]]
        self.assertEqual(outs, [{12}, {10, 12}, {0}])
        self.assertIn("lose twelve frames while the manual switch is made, and ten or twelve once more", comment("before-works.toml"))
        self.assertEqual({told["out"] for step in works[1:] for (name, _), told in step.ports.items() if name == "south"}, {0})
        self.assertEqual([{told["out"] for told in step.ports.values()} for step in waiting[1:]], [{10}, {0}, {0}])
        self.assertIn("the mending, though the switch stays, costs each port ten frames", comment("waiting.toml"))
        for last in (works[3].ports["north", "a"], waiting[3].ports["c1", "a"]):
            self.assertEqual((last["out"], last["jump"]), (0, 1))


class Rows(unittest.TestCase):
    def test_the_simulation_tells_what_the_rows_of_sdhring_say(self):
        checked = 0
        for row in read_rows():
            if row.words == (b"run",) and row.status in (0, 7) and row.given and not row.name.endswith("-within-bound"):
                with self.subTest(row=row.name):
                    status, text = simulate.run(tomllib.loads(row.given.decode()), simulate.Reports)
                    self.assertEqual((status, text.encode()), (row.status, row.text))
                    checked += 1
        self.assertGreaterEqual(checked, 30)

    def runs(self):
        return [row for row in rows().values() if row.words == (b"run",) and row.status in (0, 7) and row.text]

    def check(self, row, kind):
        with self.subTest(row=row.name):
            status, text = simulate.run(tomllib.loads(row.given.decode()), kind)
            self.assertEqual((status, text.encode()), (row.status, row.text))

    def test_the_rows_are_what_the_simulation_tells(self):
        for row in self.runs():
            self.check(row, looking.Looks if row.name == "alike" else simulate.Outages)

    def traces(self):
        return [row for row in rows().values() if row.words[:1] == (b"trace",) and row.status in (0, 7, 10)]

    def traced(self, row, kind):
        return simulate.trace(tomllib.loads(row.given.decode()), *(word.decode() for word in row.words[1:]), kind)

    def test_the_traces_are_what_the_simulation_tells(self):
        self.assertGreaterEqual(len(self.traces()), 9)
        for row in self.traces():
            with self.subTest(row=row.name):
                status, text = self.traced(row, looking.Looks if row.name == "trace-alike" else simulate.Outages)
                self.assertEqual((status, text.encode()), (row.status, row.text))
                if row.name in ("trace-waiting", "trace-slips-amid", "trace-held-controller"):
                    self.assertEqual(self.traced(row, looking.Looks)[1], text)

    def test_traces_agree_in_themselves(self):
        """A change is of another kind than the one before, the rounds come to the port's line, and this is that of the run."""
        for row in self.traces():
            text, runs = row.text.decode().split("settle ")[1:], self.run_of(row)
            for step, (told, run) in enumerate(zip(text, runs)):
                settle, *changes, port = told.splitlines()[: told.count("\nround ") + 2]
                self.assertEqual([settle, port], [line for line in run.splitlines() if line[0] in "0123456789" or line.startswith(port.split(" out ")[0])])
                rounds, kinds = zip(*(re.fullmatch(rf"round (\d+) (in-order|{'|'.join(COUNTED)})", line).groups() for line in changes))
                self.assertTrue(all(kind != other for kind, other in zip(kinds, kinds[1:])), row.name)
                ends = [*map(int, rounds), int(settle.split()[2]) + 1]
                self.assertEqual(ends[0], int(runs[step - 1].split()[2]) + 1 if step else 0)
                counted = {kind: sum(end - start for start, end, other in zip(ends, ends[1:], kinds) if other == kind) for kind in COUNTED}
                self.assertEqual(" ".join(f"{kind} {count}" for kind, count in counted.items()), port[port.index("ais ") : port.index(" of ")])
                self.check_runs(PORT.fullmatch(port), ends, kinds)

    def check_runs(self, port, ends, kinds):
        """Runs of rounds without own bytes, put together of the changes: one of AIS and one of ones after it are one run."""
        runs, before = [], False
        for start, end, kind in zip(ends, ends[1:], kinds):
            is_out = kind in ("ais", "ones", "strange", "foreign")
            if is_out and before:
                runs[-1] += end - start
            elif is_out:
                runs.append(end - start)
            before = is_out
        self.assertEqual((int(port[4]), int(port[5])), (len(runs), max(runs, default=0)))

    def run_of(self, row):
        kind = looking.Looks if row.name == "trace-alike" else simulate.Outages
        return simulate.run(tomllib.loads(row.given.decode()), kind)[1].split("settle ")[1:]

    def test_more_changes_than_are_told(self):
        told = simulate.Outage("port c1 a", (0, "b"))
        told.kinds = [(t, ("ais", "order")[t % 2]) for t in range(100)]
        teller = simulate.Traces(types.SimpleNamespace(ports={(0, "a"): told}, names=["c1"], begin=None, see=None), (0, "a"))
        self.assertEqual(teller.lines()[62:-1], ["round 62 ais", "round 63 in-order", "more 36"])

    def test_the_bytes_say_what_the_tags_say(self):
        for row in self.runs():
            if row.name in ("example-waiting", "held-controller", "node-cut-off", "slip-up", "slips-amid", "two-nodes"):
                self.check(row, looking.Looks)

    def test_a_jump_that_cannot_be_seen(self):
        plan = tomllib.loads(rows()["alike"].given.decode())
        by_tags, by_bytes = (steps_in(simulate.run(plan, kind)[1])[2] for kind in (simulate.Outages, looking.Looks))
        self.assertEqual({told["jump"] for told in by_tags.ports.values()}, {1})
        self.assertEqual({told["jump"] for told in by_bytes.ports.values()}, {0})

    def test_every_status_and_no_text_is_forgotten(self):
        self.assertEqual({row.status for row in rows().values()}, {0, 2, 3, 4, 5, 6, 7, 9, 10})
        listed = (OUTAGES / "rows.md").read_text()
        self.assertEqual({path.name for path in OUTAGES.glob("*.t*") if f"| {path.name} |" not in listed}, set())

    def summary_of(self, step):
        """The lines after those of the ports, by what these show. A port is out still where its last round wasn't in order."""
        ports = step.ports.values()
        back = [told["longest"] for told in ports if told["to"] != step.last]
        longest, over, none = max(back, default=0), sum(run > 400 for run in back), sum(told["out"] == 0 for told in ports)
        foreign = sum(told["foreign"] > 0 for told in ports)
        lines = [f"longest {longest} ms {longest * 0.125:.3f} over {over} none {none} still {len(ports) - len(back)}"]
        return lines + ([f"foreign ports {foreign}"] if foreign else [])

    def test_lines_agree_in_themselves(self):
        for row in self.runs():
            for step in steps_in(row.text.decode()):
                self.assertEqual(step.longest, self.summary_of(step), row.name)
                for told in step.ports.values():
                    self.assertEqual(told["out"], told["ais"] + told["ones"] + told["strange"] + told["foreign"])
                    self.assertEqual(told["ms"], f"{told['longest'] * 0.125:.3f}")
                    self.assertEqual(told["foreign"] == 0, told["of"] == "- -")
                    self.assertTrue(told["longest"] <= told["out"] <= told["runs"] * told["longest"])
                    if told["to"] != "-":
                        self.assertTrue(step.first <= told["from"] <= told["to"] <= step.last)
                        self.assertLessEqual(told["out"] + told["jump"] + told["torn"], told["to"] - told["from"] + 1)

    def test_a_foreign_frame_is_found(self):
        """By bytes as by tags; docs/OUTAGES.md shows it, and the example's comment tells it."""
        row = rows()["example-held-controllers"]
        step = steps_in(row.text.decode())[1]
        self.assertEqual({port: told["foreign"] for port, told in step.ports.items() if told["foreign"]}, {("v", "b"): 1})
        self.assertEqual((step.ports["v", "b"]["of"], step.longest[-1]), ("u a", "foreign ports 1"))
        self.check(row, looking.Looks)
        self.assertIn("\nround 138 foreign\nround 139 ais\n", rows()["trace-held-controllers"].text.decode())
        text = (OUTAGES / "example-held-controllers.text").read_text()
        shown = "".join(f"    {line}\n" for line in text[text.index("settle 2") : text.index("settle 3")].splitlines())
        self.assertIn(shown, (ROOT / "docs" / "OUTAGES.md").read_text())

    def test_a_run_is_cut_in_two_by_the_start_of_a_step(self):
        """The example's port v b is out when the second step begins, and has bytes again from its third round on."""
        first, second = (step.ports["v", "b"] for step in steps_of("example-held-controllers")[:2])
        self.assertEqual((first["runs"], first["longest"], first["to"]), (1, 129, 128))
        self.assertEqual((second["runs"], second["longest"], second["from"], second["out"]), (2, 12, 129, 14))

    def test_texts_of_the_worked_plans_show_each_jump(self):
        plans = [path for path in OUTAGES.glob("*.toml") if path.stem != "alike"]
        for path in [*plans, *(ROOT / "examples" / name for name in ("before-works.toml", "waiting.toml"))]:
            texts = [circuit[f"text_{end}"] for circuit in tomllib.loads(path.read_text())["circuit"] for end in "ab"]
            self.assertEqual([text for text in texts if 2340 % len(text) == 0], [], path.name)
            self.assertEqual(len(set(texts)), len(texts), path.name)

    def test_the_text_of_the_waiting_example_is_owed(self):
        """By the restoration model, which knows neither words nor pointers."""
        plan, text = tomllib.loads((ROOT / "examples" / "waiting.toml").read_text()), (RINGS / "waiting.text").read_text()
        rounds = [int(line.split()[3]) for line in text.splitlines() if line.startswith("settle ")]
        rules, told = Rules(plan, rounds), [line for line in text.splitlines() if line.startswith("port ")]
        (circuit,) = plan["circuit"]
        wanted = []
        for last in rounds:
            for end, other in ("ab", "ba"):
                start = 2349 * (last - rules.hops(circuit, rules.applied(last)))
                stream = Stream(circuit[f"text_{other}"], "c1", 0)
                wanted.append(f"port c1 {end} norm 0 {stream.bytes(start, 16).hex()}")
        self.assertEqual(told, wanted)


def slipped(script, settle, name, end):
    """Ups less downs that a port was told of before this settle step, counted from 0."""
    before = " ".join(script).split("settle")[: settle + 1]
    found = re.findall(rf"slip {name} {end} (up|down) (\d+)", " ".join(before))
    return sum(int(count) if turn == "up" else -int(count) for turn, count in found)


class Model(unittest.TestCase):
    """What the simulation reports of random plans is what the restoration model says, which knows neither words nor pointers."""

    def wanted(self, plan, rules, last, settle):
        yield from (rules.state(at, last) for at in range(len(plan["nodes"])))
        applied = rules.applied(last)
        for circuit in plan["circuit"]:
            for end, other in ("ab", "ba"):
                slips, offset = slipped(plan["script"], settle, circuit["name"], other), circuit[f"offset_{other}"]
                stream = Stream(circuit[f"text_{other}"], circuit[f"trace_{other}"], offset)
                if not rules.joined(circuit, applied):
                    yield f"{circuit['name']} {end} ais"
                else:
                    start = 2349 * (last - rules.hops(circuit, applied)) - 3 * slips
                    yield f"{circuit['name']} {end} norm {(offset + slips) % 783} {stream.bytes(start, 16).hex()}"

    def test_random_plans(self):
        dice, maker = random.Random(2), run_path(str(BENCH / "compare"), run_name="compare")["Maker"]
        for number in range(12):
            plan = maker(dice).plan()
            lines = simulate.run(plan, simulate.Reports)[1].splitlines()
            rounds = [int(line.split()[3]) for line in lines if line.startswith("settle ")]
            rules = Rules(plan, rounds)
            told = [line.split(" ", 2)[2].split(" ")[0] if line.startswith("node ") else line[5:] for line in lines if line.startswith(("node ", "port "))]
            wanted = [word for settle, last in enumerate(rounds) for word in self.wanted(plan, rules, last, settle)]
            self.assertEqual(told, wanted, number)


class Worst(unittest.TestCase):
    """The worst interruption over all failures of a plan, with the simulation as the program."""

    def ask(self, folder, *words):
        program = command(BENCH / "simulate.py")
        asked = [TOOLS / "sdhring-whatif", "--outages", "--counter", program, "--dir", folder, "--without-script", *words, ROOT / "examples" / "waiting.toml"]
        return subprocess.run([sys.executable, *map(str, asked)], capture_output=True, text=True)

    def test_each_span_of_a_ring_of_four(self):
        """A span over which the circuit goes costs 4n - 4 frames, its mending 4n - 6, and the end of waiting none."""
        with tempfile.TemporaryDirectory() as folder:
            ended = self.ask(folder, "--kinds", "span")
            with open(Path(folder) / "interruptions.csv", newline="") as file:
                rows = [*csv.DictReader(file)]
        self.assertEqual(ended.returncode, 0, ended.stderr)
        hit = ["12", "10", "0"]
        self.assertEqual([row["Longest"] for row in rows], hit + hit + ["0"] * 6)
        self.assertEqual([row["Stage"] for row in rows[:3]], ["failed", "mended", "waited"])
        self.assertEqual({(row["Over"], row["Still out"], row["Foreign"]) for row in rows}, {("0", "0", "")})
        verdict, worst, over, table = ended.stdout.splitlines()
        self.assertEqual(worst, "the worst interruption: 12 frames, 1.500 ms, span 1–2, failed: c1 a, c1 b")
        self.assertEqual(over, "0 of 12 stages have a port that was out for more than 400 frames, 50 ms, and came back")

    def test_words_that_do_not_go_together(self):
        ended = self.ask("/nowhere", "--all")
        self.assertEqual((ended.returncode, ended.stdout), (1, ""))
        self.assertEqual(ended.stderr, "sdhring-whatif: --outages goes with none of --all, --require, --works, --sshlogin and --program\n")


class Compare(unittest.TestCase):
    """The driver that holds a built program against the simulation, with the simulation as the program."""

    def test_what_agrees_and_what_differs(self):
        words = [sys.executable, str(BENCH / "compare")]
        agrees = subprocess.run([*words, str(BENCH / "simulate.py"), "2", "3"], capture_output=True, text=True)
        self.assertEqual((agrees.returncode, agrees.stderr), (0, ""))
        self.assertIn("2 plans, 0 texts differ", agrees.stdout)
        differs = subprocess.run([*words, "/bin/true", "1", "3"], capture_output=True, text=True)
        self.assertEqual(differs.returncode, 1)
        self.assertIn("1 plans, 2 texts differ", differs.stdout)


if __name__ == "__main__":
    unittest.main()
