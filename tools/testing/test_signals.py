"""Who says what, round by round: the reading of such lines, by rows that were worked out by hand, and what is drawn of them."""

import math
import re
import sys
import tempfile
import tomllib
import unittest
import xml.etree.ElementTree as ElementTree
from functools import cache
from pathlib import Path

from common import TOOLS, call, command
from pages import BROWSER, Seen, browsed, failures

from ringtools.flights import Flight, flights
from ringtools.kbytes import Word
from ringtools.outages import read_outages
from ringtools.plan import read_plan
from ringtools.report import ReportProblem
from ringtools.rows import read_rows
from ringtools.signals import read_signalling
from ringtools.spacetime import Scale, still_rounds
from ringtools.ticks import Tick, broken, event_of, read_trace, ticks

ROOT = TOOLS.parent
SIGNALS, OUTAGES = TOOLS / "testing" / "signals", TOOLS / "testing" / "outages"
WORKS = ROOT / "examples" / "before-works.toml"
ROUNDS = ROOT / "examples" / "round-by-round.toml"
sys.path.insert(0, str(ROOT / "bench" / "aps"))

import signalled  # noqa: E402
import simulate  # noqa: E402
from looking import Looks  # noqa: E402


@cache
def rows():
    return {row.name: row for row in read_rows(SIGNALS)}


@cache
def read(name):
    """A row's plan, and what its text shows."""
    row = rows()[name]
    plan = read_plan(row.given)
    return plan, read_signalling(row.text, plan)


def step_of(name, number):
    plan, signalling = read(name)
    return plan, signalling.stretches[number - 1]


def drawn(name, *words):
    """What is drawn of a row, with the outages of a plain simulation, so that no program is asked."""
    row = rows()[name]
    with tempfile.TemporaryDirectory() as folder:
        plan, text, outages = (Path(folder) / name for name in ("plan.toml", "lines", "outages"))
        plan.write_bytes(row.given)
        text.write_bytes(row.text)
        outages.write_text(simulate.run(tomllib.loads(row.given.decode()), Looks)[1])
        return call("sdhring-view", "--signalling", text, "--outages", outages, *words, plan)


@cache
def page_of(name):
    return drawn(name).stdout.decode()


class Reading(unittest.TestCase):
    def test_steps_and_rounds(self):
        _, signalling = read("mended")
        self.assertEqual([(one.first, one.last, one.quiet(), len(one.changes)) for one in signalling.stretches], [(0, 128, 3, 8), (129, 256, 141, 20), (257, 384, 269, 30), (385, 512, 391, 16)])
        self.assertEqual((signalling.last, signalling.unsettled), ("done", None))

    def test_fields_of_a_line(self):
        _, stretch = step_of("cut", 2)
        signals = stretch.end()[1]
        self.assertEqual((signals.state, signals.far, signals.asks), ("switch-east", 3, {"west": "nr", "east": "sf"}))
        self.assertEqual((signals.sent["east"], signals.heard["west"], signals.heard["east"]), (Word(0xB3, 0x26), Word(0xB2, 0x3A), None))
        self.assertEqual(signals.sent["west"].words(), "SF (signal fail) to 3 from 2, long path, bridged and switched")
        self.assertEqual(signals.sent["west"].letters(), "SF/3/2/L")

    def test_a_run_that_ends_unsettled(self):
        _, signalling = read("unsettled")
        self.assertEqual((len(signalling.stretches), signalling.stretches[0].last, signalling.unsettled), (1, None, 1))

    def test_a_refusal(self):
        plan = read_plan(rows()["cut"].given)
        self.assertEqual(read_signalling(b"bad plan 13 at 0\n", plan).stretches, [])

    def refused(self, old, new, said):
        row = rows()["cut"]
        text = row.text.decode()
        self.assertEqual(text.count(old), 1, old)
        with self.assertRaises(ReportProblem) as caught:
            read_signalling(text.replace(old, new).encode(), read_plan(row.given))
        self.assertIn(said, str(caught.exception))

    def test_what_the_program_does_not_write(self):
        last = "round 141 node 2 switch-east far 3 west b3 2a east b3 26 heard b2 3a - - asks nr sf"
        self.refused("round 129 node 2 switch-east far -", "round 129 node 2 switched far -", "line 10: an unknown line")
        self.refused(last, last.replace("node 2", "node 7"), "line 28: the ring has no node 7")
        self.refused(last, last.replace("far 3", "far 8"), "line 28: the ring has no node 8")
        self.refused("round 135 node 1 pass far -", "round 135 node 1 pass far 3", "line 18: a node that doesn't switch")
        self.refused(last, last.replace("b3 26", "23 26"), "line 28: a K word that isn't known")
        self.refused(last, last.replace("round 141", "round 139"), "line 28: lines go by rounds")
        self.refused("round 0 node 2 idle far - west 01 20 east 03 20 heard - - - - asks nr nr\n", "", "line 2: in round 0 each node has a line")
        self.refused("round 3 node 1", "round 0 node 1", "line 5: lines go by rounds")
        self.refused("settle 2 round 256", "settle 2 round 255", "line 30: a settle step can't end with this round")
        self.refused("settle 2 round 256", "settle 3 round 256", "line 30: settle step 2 was expected")
        self.refused("settle 2 round 256\n", "", "line 30: 2 settle steps were expected, 1 are there")
        self.refused("done\n", "", "the last line is missing")

    def test_a_line_that_shows_no_change(self):
        line = "round 140 node 4 pass far - west b3 2a east b2 3a heard b2 3a b3 2a asks nr nr\n"
        self.refused(line, line + "round 141 node 1 pass far - west b3 2a east b2 3a heard b2 3a b3 2a asks nr nr\n", "line 28: a line that shows no change")


class Flights(unittest.TestCase):
    """By hand, of the cut."""

    def test_words_on_their_way(self):
        long2, long3 = Word(0xB3, 0x29), Word(0xB2, 0x39)
        done2, done3 = Word(0xB3, 0x2A), Word(0xB2, 0x3A)
        wanted = [
            Flight(0, "west", 132, long2, False, 135),
            Flight(0, "west", 139, done2, True, 140),
            Flight(0, "east", 135, long3, False, 138),
            Flight(0, "east", 140, done3, True, 141),
            Flight(1, "west", 129, long2, False, 132),
            Flight(1, "west", 138, done2, True, 139),
            Flight(1, "east", 129, Word(0xB3, 0x26), False, None),
            Flight(2, "west", 129, Word(0xB2, 0x36), False, None),
            Flight(2, "east", 129, long3, False, 132),
            Flight(2, "east", 138, done3, True, 139),
            Flight(3, "west", 135, long2, False, 138),
            Flight(3, "west", 140, done2, True, 141),
            Flight(3, "east", 132, long3, False, 135),
            Flight(3, "east", 139, done3, True, 140),
        ]
        self.assertEqual(flights(*step_of("cut", 2)), wanted)

    def test_a_new_ring(self):
        found = flights(*step_of("cut", 1))
        self.assertEqual({(one.round, one.heard, one.is_mark) for one in found}, {(0, 3, False)})
        self.assertEqual(len(found), 8)


class Ticks(unittest.TestCase):
    """By the worked rows of sdhoutage."""

    def test_loses_and_gets(self):
        plan = read_plan(WORKS.read_bytes())
        steps = read_outages((OUTAGES / "example-before-works.text").read_bytes(), plan)
        found = ticks(plan, steps[1])
        self.assertEqual(found[0], Tick(129, 1, "east", "loses", ("works a",)))
        self.assertEqual(found[-1], Tick(144, 2, "west", "gets", ("north b", "works b")))
        self.assertEqual([tick.kind for tick in ticks(plan, steps[3])], ["jumps"] * 3)
        self.assertEqual({tick.kind for tick in ticks(plan, steps[0])}, {"gets"})
        self.assertEqual(broken(steps), [("north", "b"), ("works", "b")])

    def test_traces(self):
        text = (OUTAGES / "trace-held-controllers.text").read_bytes()
        steps = read_trace(text)
        self.assertEqual(len(steps), text.count(b"settle "))
        kinds = [(None, "ais", None), ("ais", "in-order", "gets"), ("in-order", "jump", "jumps"), ("jump", "in-order", None), ("jump", "ones", "loses"), ("ones", "ais", None), ("in-order", "torn", "jumps"), ("foreign", "torn", "gets"), ("torn", "foreign", "loses")]
        for before, kind, event in kinds:
            self.assertEqual(event_of(before, kind), event)
        with self.assertRaises(ReportProblem):
            read_trace(text.replace(b"done\n", b""))

    def test_both_have_to_be_of_the_same_rounds(self):
        with tempfile.TemporaryDirectory() as folder:
            lines = Path(folder) / "lines"
            lines.write_text(signalled.run(tomllib.loads(WORKS.read_text()))[1])
            outages = Path(folder) / "outages"
            outages.write_bytes((OUTAGES / "example-before-works.text").read_bytes().replace(b"settle 4 round 512", b"settle 4 round 640"))
            ended = call("sdhring-view", "--signalling", lines, "--outages", outages, WORKS)
        self.assertEqual(ended.returncode, 1)
        self.assertEqual(ended.stderr, b"sdhring-view: settle step 4 ends with round 512, and with round 640 for sdhoutage\n")


class Scales(unittest.TestCase):
    def test_many_rounds_in_which_nothing_happens(self):
        self.assertEqual(still_rounds([0, 24, 10, 24]), [])
        self.assertEqual(still_rounds([40, 0, 15]), [range(21, 34)])
        plan, stretch = step_of("cut", 2)
        scale = Scale(plan, stretch, [128, 129, 160, 162])
        steps = [round(scale.y(now + 1) - scale.y(now), 2) for now in range(128, 162)]
        self.assertEqual(steps, [15] * 7 + [3.75] * 19 + [15] * 8)

    def test_columns(self):
        plan, stretch = step_of("cut", 2)
        scale = Scale(plan, stretch, [128, 140])
        self.assertEqual([scale.column(at, side) for at in (0, 1, 3) for side in ("west", "east")], [4, 0, 1, 1, 3, 3])
        self.assertEqual([scale.gap(Flight(at, side, 0, None, False, None)) for at, side in ((0, "west"), (3, "east"), (1, "west"))], [(4, 3), (3, 4), (1, 0)])


def corners(text):
    """The corners of a label's letters, by about their size."""
    x, y = float(text.get("x")), float(text.get("y")) + float(text.get("dy") or 0)
    wide = 4.2 * len(text.text)
    left = {"middle": x - wide / 2, "end": x - wide}.get(text.get("text-anchor"), x)
    turn = [float(word) for word in re.findall(r"[-0-9.]+", text.get("transform") or "rotate(0 0 0)")]
    angle = math.radians(turn[0])
    sides = [(left, y - 6), (left + wide, y - 6), (left + wide, y), (left, y)]
    beside = [(a - turn[1], b - turn[2]) for a, b in sides]
    cosine, sine = math.cos(angle), math.sin(angle)
    return [(turn[1] + a * cosine - b * sine, turn[2] + a * sine + b * cosine) for a, b in beside]


def lie_apart(one, other):
    """Whether a line along a side of one of two rectangles has them on its two sides."""
    for (ax, ay), (bx, by) in [*zip(one, one[1:]), *zip(other, other[1:])]:
        here, there = ([(bx - ax) * (y - ay) - (by - ay) * (x - ax) for x, y in shape] for shape in (one, other))
        if max(here) <= min(there) or max(there) <= min(here):
            return True
    return False


@unittest.skipUnless((ROOT / "dist" / "sdhaps").is_file(), "dist/ has no sdhaps")
class Labels(unittest.TestCase):
    """Of the largest rings, whose columns are close together."""

    STEPS = ["settle", "cut 0 east", "cut 1 west", "settle", "mend 0 east", "mend 1 west", "settle"]

    def drawn(self, names, step):
        lines = ["rate = 4", f"nodes = {list(range(16))}", "threshold = 3", "wait = 10", "limit = 2000", f"script = {self.STEPS}"]
        for (begin, end), name in names.items():
            lines += ["[[circuit]]", f'name = "{name}"', f"from = {begin}", f"to = {end}", "slot = 1", 'text_a = "0123456789A"', 'text_b = "abcdefghijk"']
        with tempfile.TemporaryDirectory() as folder:
            plan = Path(folder) / "plan.toml"
            plan.write_text("\n".join(lines).replace("'", '"') + "\n")
            ended = call("sdhring-view", "--signalling", plan, "--svg", step)
        self.assertEqual(ended.returncode, 0, ended.stderr)
        return ElementTree.fromstring(ended.stdout)

    def test_none_lies_over_another_and_ports_have_their_names(self):
        svg = "{http://www.w3.org/2000/svg}"
        for step in (1, 2, 3):
            drawing = self.drawn({(8, 7): "c1"}, step)
            labels = [text for group in drawing.iter(f"{svg}g") if re.match("flight|ask|tick", group.get("class") or "") for text in group.iter(f"{svg}text")]
            shapes = [(text.text, corners(text)) for text in labels]
            over = [(one, other) for place, (one, shape) in enumerate(shapes) for other, another in shapes[:place] if not lie_apart(shape, another)]
            self.assertEqual(over, [], step)
            ticks = [text.text for group in drawing.iter(f"{svg}g") if (group.get("class") or "").startswith("tick") for text in group.iter(f"{svg}text")]
            self.assertEqual(set(ticks), {"c1 a", "c1 b"}, step)

    def test_a_long_name_is_shortened(self):
        drawing = self.drawn({(2, 9): "l006-mainz-frank"}, 2)
        ticks = [text for text in re.findall(r">(l006[^<]*)</text>", ElementTree.tostring(drawing, encoding="unicode").replace("ns0:", ""))]
        self.assertEqual(ticks, [])
        drawing = self.drawn({(8, 7): "l006-mainz-frank"}, 2)
        ticks = set(re.findall(r">(l006[^<]*)</text>", ElementTree.tostring(drawing, encoding="unicode").replace("ns0:", "")))
        self.assertEqual({words[-3:] for words in ticks}, {"… a", "… b"})


class Documents(unittest.TestCase):
    def test_lines_of_the_walk_are_those_worked_out_by_hand(self):
        quoted = re.findall(r"^    ((?:round [0-9]|settle).*)$", (ROOT / "docs" / "SIGNALLED.md").read_text(), re.M)
        self.assertGreater(len(quoted), 20)
        self.assertEqual(set(quoted) - set(rows()["mended"].text.decode().splitlines()), set())

    def test_the_drawing_is_of_today(self):
        self.assertEqual((ROOT / "docs" / "signalled-cut.svg").read_bytes(), drawn("mended", "--svg", "2").stdout)


LOOK = """
const told = [];
const step = document.querySelector("#step2"), slider = step.querySelector("input");
const row = (node) => [...step.querySelectorAll("tbody tr")][node - 1].textContent;
slider.value = "135";
slider.dispatchEvent(new Event("input"));
told.push(step.querySelector("output").textContent, row(1), step.querySelectorAll(".changed-cell").length);
told.push(step.querySelector('[data-fibre="0 east"] .letters').textContent, step.querySelector('[data-node="0"]').dataset.state);
step.querySelector(".on").click();
told.push(step.querySelector("output").textContent);
step.querySelector(".back").click();
step.querySelector(".back").click();
told.push(step.querySelector("output").textContent, row(1));
const line = step.querySelector(".now"), grid = [...step.querySelectorAll(".grid")].find((one) => Number(one.getAttribute("y1")) === Number(line.getAttribute("y1")));
told.push(grid !== undefined);
told.push(document.documentElement.scrollWidth <= document.documentElement.clientWidth);
"""


class Pages(unittest.TestCase):
    def test_each_step_that_changes_anything_has_a_diagram(self):
        page = page_of("mended")
        self.assertEqual(page.count('class="drawing spacetime" viewBox'), 4)
        self.assertEqual([f'id="step{number}"' in page for number in range(1, 6)], [True] * 4 + [False])

    def test_words_of_the_diagram(self):
        titles = Seen(page_of("cut")).titles
        self.assertIn("round 129: node 2 sends west b3 29: SF (signal fail) to 3 from 2, long path, bridged; node 1 hears it in round 132", titles)
        self.assertIn("round 129: node 2 sends east b3 26: SF (signal fail) to 3 from 2, short path, RDI; node 3 doesn't hear it as it is", titles)
        self.assertIn("round 129: the east side asks for SF by itself, in place of NR", titles)
        self.assertIn("node 1 from round 135 on: passes through", titles)

    def test_the_table_shows_the_steps_end(self):
        row = Seen(page_of("cut")).table_named("Nodes in this round", 1)[1]
        self.assertEqual(row["state"], "switches east, far end 3")
        self.assertEqual((row["sends west"], row["hears east"], row["asks east"]), ("b3 2a SF/3/2/L", "-", "SF"))

    def test_a_diagram_alone_needs_no_palette(self):
        alone, none = drawn("cut", "--svg", "2").stdout.decode(), drawn("cut", "--svg", "3")
        self.assertTrue(alone.startswith("<svg"))
        self.assertNotIn("var(", alone)
        self.assertEqual((none.returncode, none.stderr), (1, b"sdhring-view: there is no settle step 3 in the text\n"))

    def test_a_program_that_is_not_known_to_be_proved(self):
        program = command(ROOT / "bench" / "aps" / "signalled.py")
        with tempfile.TemporaryDirectory() as folder:
            outages = Path(folder) / "outages"
            outages.write_text(simulate.run(tomllib.loads(ROUNDS.read_text()), Looks)[1])
            page = call("sdhring-view", "--signalling", "--program", program, "--outages", outages, ROUNDS).stdout.decode()
        self.assertEqual(page.count('class="drawing spacetime" viewBox'), 4)
        self.assertIn("not known to be proved", page)

    @unittest.skipUnless((ROOT / "dist" / "sdhaps").is_file(), "dist/ has no sdhaps")
    def test_the_programs_are_run(self):
        """Both of them: the drawing has the words of sdhaps, and the ticks of sdhoutage."""
        alone = call("sdhring-view", "--signalling", "--svg", "2", ROUNDS).stdout
        self.assertEqual(alone, (ROOT / "docs" / "signalled-cut.svg").read_bytes())
        page = call("sdhring-view", "--signalling", ROUNDS).stdout.decode()
        self.assertIn("sdhaps ", page)
        self.assertNotIn("sdhoutage isn't here", page)

    def test_what_cannot_be_drawn(self):
        plan = SIGNALS / "four.toml"
        said = lambda *words, **more: call("sdhring-view", *words, **more).stderr.decode()
        self.assertIn("nothing to draw: `bad plan 13 at 0`", said("--signalling", "-", plan, input=b"bad plan 13 at 0\n"))
        self.assertIn("nowhere/lines: No such file", said("--signalling", "nowhere/lines", plan))
        for words in (("--signalling", "a", plan, "b"), ("--signalling", "a", "--to", "b", plan)):
            self.assertIn("--signalling goes without REPORT and --to", said(*words))
        self.assertIn("the following arguments are required: PLAN", said("--svg", "2"))
        self.assertIn("several plans, or a folder, go with --to", said("--signalling", "a", plan, plan, plan))
        self.assertIn("only one of PLAN, the signalling and the outages can be standard input", said("--signalling", "-", "-"))
        self.assertIn("nowhere/sdhaps: No such file", said("--signalling", "--program", "nowhere/sdhaps", plan))
        self.assertIn("examples/refused.toml: ", said("--signalling", ROOT / "examples" / "refused.toml"))

    @unittest.skipUnless(BROWSER, "there is no chromium")
    def test_no_script_of_the_page_fails(self):
        self.assertEqual(failures(page_of("cut")), [])
        self.assertEqual(len(failures("<script>none.such</script>")), 1)

    @unittest.skipUnless(BROWSER, "there is no chromium")
    def test_rounds_in_a_browser(self):
        told = browsed(page_of("cut"), LOOK)
        shown = "1passes throughb3 29 SF/3/2/Lb2 39 SF/2/3/Lb2 39 SF/2/3/Lb3 29 SF/3/2/LNRNR"
        self.assertEqual(told[:5], ["135, 0.750 ms", shown, "6", "SF/2/3/L", "pass"])
        self.assertEqual(told[5:7], ["136, 0.875 ms", "133, 0.500 ms"])
        self.assertEqual(told[7], "1idleb3 29 SF/3/2/L02 10 NR/2/1/S-b3 29 SF/3/2/LNRNR")
        self.assertEqual(told[8:], ["true", "true"])


if __name__ == "__main__":
    unittest.main()
