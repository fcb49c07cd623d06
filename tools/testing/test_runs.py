"""Facts of the pages of sdhring-view over rings whose texts are known."""

import re
import tempfile
import unittest
import xml.etree.ElementTree as ElementTree
from functools import cache

from common import RINGS, TOOLS, call, ring
from pages import Seen

DONE = [
    "healthy", "two-nodes", "no-circuits", "four-nodes", "span-cut", "fibre-cut", "two-cuts-in-one-arc", "node-cut-off",
    "forced-on-healthy-spans", "mending", "tie", "end-of-waiting", "degraded-below-threshold", "degraded", "pre-emption",
    "longest-route", "before-maintenance", "all-dark", "slip-up", "slip-down",
]  # fmt: skip
REFUSED = {
    "too-many-nodes": ("a ring has 2 to 16 nodes", "in the document itself"),
    "repeated-node": ("an earlier node has this identifier", "at node 3, `1`"),
    "bad-slot": ("the slot isn't one of the rate's", "in circuit 1, `c1`"),
    "overlap": ("an earlier circuit has one of its spans in its slot", "in circuit 2, `c2`"),
    "no-settle-at-the-end": ("the last step isn't `settle`", "at step 1, `cut 2 east`"),
    "unknown-step": ("the step's first word isn't known", "at step 2, `lock 2 east`"),
    "moment-back": ("the moment lies before the one that was set last", "at step 2, `moment 4`"),
    "slip-of-no-port": ("the step's port isn't one of the plan's", "at step 1, `slip c9 a up 1`"),
    "too-many-slips": ("more than 16 slips of one port since the last settle step", "at step 2, `slip c1 a down 1`"),
    "not-toml": ("isn't a TOML document", "no TOML document"),
    "no-such-port": ("The port that was asked for isn't one of the plan's", ""),
    "usage": ("words that it doesn't know", ""),
}


@cache
def page_of(name, *words):
    ended = call("sdhring-view", *ring(name), *words)
    if ended.returncode != 0:
        raise AssertionError(ended.stderr.decode())
    return ended.stdout.decode()


@cache
def read(name):
    return Seen(page_of(name))


class Pages(unittest.TestCase):
    def spans_of(self, name, step, circuit):
        """Way and result of a circuit in one settle step, as its table has them."""
        for row in read(name).table_named("Circuits", step - 1):
            if row["circuit"] == circuit:
                return row["way from a to b now"], row["what became of it"]
        raise AssertionError(f"no {circuit}")

    def test_every_line_of_the_text_is_told(self):
        for name in DONE:
            with self.subTest(ring=name):
                page = read(name)
                text = page.text()
                for line in ring(name)[1].read_text().splitlines():
                    if line.startswith("node "):
                        west, east = re.search("west (.*) east (.*)", line).groups()
                        self.assertTrue(west in text and east in text, line)
                    elif " norm " in line:
                        self.assertIn(line.split(" ")[-1], text)
                    elif line.startswith("settle "):
                        self.assertIn("Settle step {1}, round {3}".format(*line.split(" ")), text)

    def test_no_port_has_what_it_is_not_owed(self):
        for name in DONE:
            with self.subTest(ring=name):
                text = read(name).text()
                self.assertNotIn("Not what the restoration model says", text)
                count = len(re.findall(" norm ", ring(name)[1].read_text()))
                self.assertEqual(text.count("its own customer's bytes, value"), count)

    def words_of_changed(self, name, old, new):
        """The page of a ring whose text was changed."""
        plan, text = ring(name)
        self.assertIn(old, text.read_text())
        with tempfile.NamedTemporaryFile("w") as changed:
            changed.write(text.read_text().replace(old, new))
            changed.flush()
            return Seen(call("sdhring-view", plan, changed.name).stdout.decode()).text()

    def test_what_is_not_owed_stands_first(self):
        words = self.words_of_changed("span-cut", "00636465", "00646566")
        self.assertIn("Not what they are owed (1): c1", words)
        self.assertIn("c1 not what it is owed 1 → 2, protection", words)

    def test_what_is_not_owed_is_seen(self):
        said = "Not what the restoration model says: port "
        self.assertIn(f"{said}c1 a.", self.words_of_changed("span-cut", "00636465", "00646566"))
        self.assertIn(f"{said}c1 a.", self.words_of_changed("span-cut", "norm 0 00636465", "norm 1 00636465"))
        self.assertIn(f"{said}c1 b.", self.words_of_changed("span-cut", "port c1 b norm 0 00434445464741424344454647414243", "port c1 b ais"))
        self.assertIn(f"{said}x a.", self.words_of_changed("node-cut-off", "port x a ais", "port x a norm 0 00414243"))

    def test_states_of_a_cut_span(self):
        nodes = read("span-cut").tables_of("Nodes")[0]
        self.assertEqual([row[1] for row in nodes], ["passes through", "switches east", "switches west", "passes through"])
        self.assertEqual(nodes[1][3], "b3 26 SF (signal fail) to 3 from 2, short path, RDI")
        self.assertEqual(nodes[0][2], "b3 2a SF (signal fail) to 3 from 2, long path, bridged and switched")
        spans = read("span-cut").tables_of("Spans")[0]
        self.assertEqual(spans[1], ["2–3", "2 → 3: cut", "3 → 2: cut", "signal fail", "applied"])
        self.assertEqual([row[4] for row in spans], ["", "applied", "", ""])

    def test_ways(self):
        over = "kept over protection, "
        self.assertEqual(self.spans_of("span-cut", 1, "c1"), ("1 → 2, protection 2 → 1 → 4 → 3", over + "4 spans, 2 more than its own arc"))
        self.assertEqual(self.spans_of("two-cuts-in-one-arc", 1, "c1"), ("protection 1 → 4", over + "1 span, 2 fewer than its own arc"))
        self.assertEqual(self.spans_of("four-nodes", 1, "c1"), ("1 → 2 → 3", "kept, 2 spans"))
        self.assertEqual(self.spans_of("two-nodes", 2, "p")[1], over + "1 span, as many as its own arc")
        self.assertEqual(self.spans_of("longest-route", 1, "c1")[1], over + "29 spans, 14 more than its own arc")
        self.assertEqual(self.spans_of("before-maintenance", 2, "l3-2"), ("protection 2 → 1 → 4 → 3", over + "3 spans, 2 more than its own arc"))
        self.assertEqual(self.spans_of("node-cut-off", 1, "x"), ("not joined", "lost: AIS at both ports"))
        self.assertEqual(self.spans_of("forced-on-healthy-spans", 1, "y"), ("2 → 3", "kept, 1 span"))
        self.assertEqual(self.spans_of("tie", 2, "c1")[1], "kept, 2 spans")

    def test_changes_are_told(self):
        text = read("end-of-waiting").text()
        self.assertIn("fibre 2 → 3: clear (was cut)", text)
        self.assertIn("span 2–3: wait to restore, applied (was signal fail, applied)", text)
        self.assertIn("circuit c1: 2 spans (was: 4 spans over protection, 2 more than its own arc)", text)
        self.assertIn("node 2: idle (was: switches east)", text)
        self.assertIn("node 2, east side: command manual (was none)", read("before-maintenance").text())

    def test_degrees_and_commands_are_drawn(self):
        self.assertIn("→3", read("degraded").drawn)
        self.assertIn("⚑ forced east", read("forced-on-healthy-spans").drawn)
        self.assertIn("fibre 2 → 3: degraded by 3", read("degraded").titles)

    def test_drawings_have_all_their_parts(self):
        for name in DONE:
            for step, svg in enumerate(re.findall(r"<svg class=\"drawing\" viewBox.*?</svg>", page_of(name), re.S)):
                parts = ElementTree.fromstring(svg) if "<title>" in svg else None
                if parts is None:
                    continue
                with self.subTest(ring=name, svg=step):
                    titles = [title.text for title in parts.iter("title")]
                    nodes = re.search(r"nodes = \[(.*)\]", ring(name)[0].read_text())[1].split(", ")
                    circuits = ring(name)[0].read_text().count("[[circuit]]")
                    self.assertEqual(sum(title.startswith("node ") for title in titles), len(nodes))
                    self.assertEqual(sum(title.startswith("fibre ") for title in titles), 2 * len(nodes))
                    self.assertEqual(sum(title.startswith("circuit ") for title in titles), circuits)
                    self.assertEqual(sum(title.startswith("port ") for title in titles), 2 * circuits)

    def test_one_drawing_alone(self):
        drawing = ElementTree.fromstring(page_of("mending", "--svg", "2"))
        self.assertEqual(drawing.tag, "{http://www.w3.org/2000/svg}svg")
        self.assertEqual(drawing.find("{http://www.w3.org/2000/svg}title").text, "Settle step 2, round 256")

    def test_pages_are_whole_by_themselves(self):
        for name in [*DONE, *REFUSED]:
            self.assertIsNone(re.search(r"https?://(?!www\.w3\.org)|<link|@import|url\(|<(script|img|iframe)[^>]*src|fetch\(|import\(", page_of(name)))

    def test_refusals_say_why_and_where(self):
        for name, (why, where) in REFUSED.items():
            with self.subTest(ring=name):
                text = read(name).text()
                self.assertIn("The program refused this.", text)
                self.assertIn(why, text)
                self.assertIn(where, text)
                self.assertIn(ring(name)[1].read_text().strip(), text)

    def test_a_report_of_a_path_ring_is_refused(self):
        paths = RINGS.parent / "paths"
        for name in ("one-fibre-cut", "both-ways-cut"):
            plan, text = paths / f"{name}.toml", paths / f"{name}.text"
            ended = call("sdhring-view", plan, text)
            self.assertEqual((ended.returncode, ended.stdout), (1, b""))
            self.assertIn(f"sdhring-view: {text}: a report without a line of a node, as sdhpath writes them", ended.stderr.decode())
        ended = call("sdhring-view", paths / "shared-slot.toml", paths / "shared-slot.text")
        self.assertEqual((ended.returncode, ended.stdout), (1, b""))
        self.assertIn(b"is a refusal of sdhpath, whose path ring isn't drawn", ended.stderr)

    def test_a_run_that_does_not_settle(self):
        self.assertIn("Settle step 1 didn't settle within the limit of 128 rounds", read("limit-too-small").text())

    def test_other_texts(self):
        table = read("squelch-tables").tables_of("Squelch tables")[0]
        self.assertEqual(table, [["1", "east", "1", "c1", "1", "2"], ["2", "west", "1", "c1", "1", "2"]])
        self.assertIn("delivers this chunk", read("dropped-chunk").text())
        self.assertIn("20 ports deliver bytes, 4 AIS.", read("large").text())

    def test_all_rings_are_asked(self):
        known = {*DONE, *REFUSED, "limit-too-small", "squelch-tables", "dropped-chunk", "large"}
        self.assertEqual({path.stem for path in RINGS.glob("*.toml")}, known)


OUTAGES = RINGS.parent / "outages"
WORKS = TOOLS.parent / "examples" / "before-works.toml", RINGS / "before-works.text"
WORKS_OUT = OUTAGES / "example-before-works.text"


class Outages(unittest.TestCase):
    """A page with what `sdhoutage` reports beside the ports."""

    def page(self, outages=WORKS_OUT, plan=WORKS):
        ended = call("sdhring-view", "--outages", outages, *plan)
        self.assertEqual((ended.returncode, ended.stderr), (0, b""))
        return Seen(ended.stdout.decode())

    def said(self, old, new):
        """What is said of a text in which this is changed."""
        text = WORKS_OUT.read_text()
        self.assertIn(old, text)
        with tempfile.NamedTemporaryFile("w") as changed:
            changed.write(text.replace(old, new, 1))
            changed.flush()
            ended = call("sdhring-view", "--outages", changed.name, *WORKS)
        self.assertEqual((ended.returncode, ended.stdout), (1, b""))
        return ended.stderr.decode().replace(changed.name, "FILE")

    def test_customers_by_steps(self):
        rows = {row["customer"]: row for row in self.page().table_named("Customers")}
        self.assertEqual(rows["north"]["step 2"], "protection, 4 spans out: 12 frames, 1.500 ms")
        self.assertEqual(rows["north"]["step 3"], "protection, 4 spans out: a: 10 frames, 1.250 ms; b: 12 frames, 1.500 ms, 1 jump")
        self.assertEqual(rows["works"]["step 4"], "kept out: none, 1 jump")
        self.assertEqual([rows["south"][f"step {number}"] for number in (2, 3, 4)], ["kept out: none"] * 3)

    def test_each_step_has_them_beside_its_ports(self):
        page = self.page()
        for caption in ("Circuits", "Ports"):
            north, south, _ = page.table_named(caption, 2)
            self.assertEqual((north["out at port a"], north["out at port b"]), ("10 frames, 1.250 ms", "12 frames, 1.500 ms, 1 jump"))
            self.assertEqual((south["out at port a"], south["out at port b"]), ("none", "none"))
        self.assertIn("The longest interruption in this step: 12 frames, 1.500 ms, at north b, works b. 2 of 6 ports had none.", page.text())
        self.assertIn("No port was without its own customer's bytes in this step.", page.text())
        self.assertTrue(any("port works b at node 3" in title and title.endswith("out in this step: 12 frames, 1.500 ms, 1 jump") for title in page.titles))
        self.assertIn(f"it isn't known who or which program wrote this, the file {WORKS_OUT} , whose checksum is", page.text())

    def test_a_port_that_stays_out(self):
        rows = self.page(OUTAGES / "node-cut-off.text", ring("node-cut-off")).table_named("Circuits")
        self.assertEqual({row[f"out at port {end}"] for row in rows for end in "ab"}, {"lost from round 0 on"})

    def test_every_outage_of_a_text_is_told(self):
        for name in ("two-nodes", "slip-up", "no-circuits"):
            page, told = self.page(OUTAGES / f"{name}.text", ring(name)), []
            for number in range(len(page.tables_of("Circuits"))):
                told += [row[f"out at port {end}"] for row in page.table_named("Circuits", number) for end in "ab"]
            wanted = [[line.split(" ")[at] for at in (4, 10, 12)] for line in (OUTAGES / f"{name}.text").read_text().splitlines() if line.startswith("port ")]
            begin = lambda first: "none; first bytes after " if first == "0" else ""
            frames = lambda out, ms, first: "none" if out == "0" else f"{begin(first)}{out} frame{'s' if out != '1' else ''}, {ms} ms"
            self.assertEqual(told, [frames(*line) for line in wanted])

    def test_the_ring_s_start_is_no_outage(self):
        page = self.page()
        rows = {row["customer"]: row for row in page.table_named("Customers")}
        shown = {row["step 1"] for name, row in rows.items() if not name.startswith("all")}
        self.assertEqual(shown, {f"kept out: none; first bytes after {words}" for words in ("1 frame, 0.125 ms", "2 frames, 0.250 ms")})
        self.assertIn("each port's first bytes came after at most 2 frames, 0.250 ms. Else no port was without its own customer's bytes in this step.", page.text())

    def test_a_start_and_more_in_one_stretch(self):
        """Rounds that brought bytes amid those that brought none: the start isn't all of it."""
        line = "port north a out 2 runs 1 longest 2 ms 0.250 from 0 to 1 ais 2 ones 0 jump 0 torn 0 strange 0 foreign 0 of - -"
        text = WORKS_OUT.read_text()
        self.assertEqual(text.count(line), 1)
        with tempfile.NamedTemporaryFile("w") as changed:
            changed.write(text.replace(line, line.replace("to 1", "to 9")))
            changed.flush()
            page = self.page(changed.name)
        self.assertIn("2 frames, 0.250 ms, the ring's start among them", page.text())
        self.assertIn("The longest interruption in this step: 2 frames, 0.250 ms, at north a. 5 of 6 ports had none.", page.text())

    def test_without_them_a_page_is_as_it_was(self):
        page = Seen(call("sdhring-view", *WORKS).stdout.decode())
        self.assertEqual(list(page.table_named("Circuits")[0]), ["circuit", "what became of it", "way from a to b now", "from, to", "#"])
        self.assertNotIn("out:", page.text())
        self.assertNotIn("without its own customer's bytes", page.text())

    def test_standard_input(self):
        ended = call("sdhring-view", "--outages", "-", *WORKS, input=WORKS_OUT.read_bytes())
        self.assertEqual(ended.returncode, 0)
        self.assertIn("the file <code>standard input</code>, whose checksum is", ended.stdout.decode())
        ended = call("sdhring-view", "--outages", "-", WORKS[0], "-", input=b"")
        self.assertEqual(ended.stderr, b"sdhring-view: only one of PLAN, REPORT and the outages can be standard input\n")

    def test_texts_that_are_none_or_another_s(self):
        line = "port north a out 12 runs 1 longest 12 ms 1.500 from 130 to 141 ais 10 ones 2 jump 0 torn 0 strange 0 foreign 0 of - -"
        for changed in (
            line.replace("out 12", "out 13"), line.replace("1.500", "1.501"), line.replace("to 141", "to 140"), line.replace("from 130", "from -"),
            line.replace("north", "south"), line.replace("130", "128"), line.replace("141", "257"), line + " ", line.replace("ais 10", "ais 010"),
            line.replace("runs 1", "runs 0"), line.replace("runs 1", "runs 13"), line.replace("of - -", "of south a"), line.replace("longest 12 ms 1.500", "longest 11 ms 1.375"),
        ):  # fmt: skip
            self.assertIn("sdhring-view: FILE: line 10: ", self.said(line, changed), changed)
        self.assertIn("line 16: not what the ports' lines come to", self.said("longest 12 ms 1.500 over 0 none 2 still 0", "longest 12 ms 1.500 over 0 none 3 still 0"))
        self.assertIn("line 9: a settle step can't end with this round", self.said("settle 2 round 256", "settle 2 round 250"))
        self.assertIn("settle step 4 ends with round 640, and in the report with round 512", self.said("settle 4 round 512", "settle 4 round 640"))
        self.assertIn("line 33: no line that sdhoutage run writes here", self.said("done\n", "usage: sdhoutage run, trace NAME END\n"))
        self.assertIn("line 34: a line after the last one", self.said("done\n", "done\ndone\n"))
        self.assertIn("line 33: no line that sdhoutage run writes here", self.said("done\n", ""))
        whole = WORKS_OUT.read_text()
        self.assertIn("it has 3 settle steps, and the report of 4", self.said(whole[whole.index("settle 4") :], "unsettled 4\n"))


if __name__ == "__main__":
    unittest.main()
