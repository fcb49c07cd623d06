"""The page of a desk: its cases beside the plain model of sdhwhatif, what it says of customers, and what a reader does with it in a browser."""

import base64
import hashlib
import json
import random
import re
import sys
import tempfile
import tomllib
import unittest
import zlib
from functools import cache
from itertools import combinations
from pathlib import Path
from runpy import run_path

from common import RINGS, TOOLS, call, command
from pages import BROWSER, PRINTS, Seen, browsed, printed

from ringtools.deskdrawing import DeskDrawing
from ringtools.deskindex import index_page
from ringtools.escaping import html
from ringtools.deskpage import Desk, data_of, key_of
from ringtools.desktable import Reading, ToldProblem, merged, read_cases, tell, words_for
from ringtools.origin import Program
from ringtools.places import Places
from ringtools.plan import read_plan

MODEL = TOOLS.parent / "bench" / "whatif" / "model.py"
TELLER = command(MODEL)
PLAN = """rate = 4
nodes = [5, 2, 9, 0]  # node 5 is Köln
# node 2 is Bad <Ems>
# circuit far is Far & wide
threshold = 3
wait = 10
limit = 1000
script = ["settle"]
circuit = [
  { name = "far", from = 5, to = 9, slot = 1, text_a = "a", text_b = "b" },
  { name = "near", from = 5, to = 2, slot = 2, text_a = "a", text_b = "b" },
]
"""
SPANS = "from,to,cuts,hours\nKöln,2,1,8\n2,9,1,8\n9,0,1,8\n0,5,1,8\n"
SCRIPTS = (
    ["cut 2 east", "degrade 9 west 4", "settle", "mend 2 east", "settle"],
    ["forced 5 west", "manual 9 east", "settle"],
    ["cut 5 east", "settle", "mend 5 east", "settle", "moment 10", "manual 0 west", "settle"],
)
# What a reader does, and what is said, pressed and drawn after each.
DEEDS = """
const told = [], ring = document.getElementById("ring");
const item = (name) => [...ring.querySelectorAll(".button")].find((one) => one.getAttribute("aria-label") === name);
const note = () => told.push(document.getElementById("told").textContent);
const unpacked = async () => { while (document.getElementById("told").textContent.includes("being unpacked")) await new Promise((done) => setTimeout(done, 20)); };
const click = (element) => element.dispatchEvent(new MouseEvent("click", { bubbles: true }));
const key = (element, name) => { element.focus(); element.dispatchEvent(new KeyboardEvent("keydown", { key: name, bubbles: true })); };
note();
click(item("span Köln–Bad <Ems>").querySelector("rect")); note();
told.push([...document.querySelectorAll("#customers .now")].map((cell) => cell.textContent).join());
document.querySelector("#customers tbody .name button").click();
told.push(document.getElementById("whose").value + " " + (document.getElementById("way").getAttribute("d").match(/A/g) || []).length);
key(item("node 9"), "Enter"); note();
told.push(item("node 9").getAttribute("aria-pressed") + " " + document.activeElement.getAttribute("aria-label"));
key(item("node 9"), " "); note();
document.getElementById("clear").click();
document.querySelector('input[value="degraded"]').click();
click(item("fibre Köln>Bad <Ems>").querySelector(".hit")); note();
document.querySelector('input[value="fibre"]').click();
click(item("fibre 9>0").querySelector(".hit")); note();
click(item("span 9–0").querySelector("rect")); await unpacked(); note();
document.getElementById("clear").click();
const letter = (name) => item(name).dataset.kind + item(name).querySelector(".given").textContent;
key(item("switch at Bad <Ems> to 9"), "Enter"); note();
told.push(letter("switch at Bad <Ems> to 9") + " " + item("switch at Bad <Ems> to 9").getAttribute("aria-pressed"));
document.querySelector('input[value="manual"]').click();
click(item("switch at 9 to 0").querySelector(".hit")); note();
told.push(letter("switch at 9 to 0") + letter("switch at 9 to Bad <Ems>"));
key(item("switch at Bad <Ems> to 9"), " "); note();
click(item("span Köln–Bad <Ems>").querySelector("rect")); click(item("node 9").querySelector("circle")); note();
document.getElementById("clear").click();
document.getElementById("clear").click();
const cell = [...document.querySelectorAll("#matrix button.case")][2];
told.push(cell.getAttribute("aria-label"));
cell.click(); note();
const heads = () => [...document.querySelectorAll("#customers tbody th")].map((cell) => cell.textContent).join();
document.querySelector("#customers thead button").click(); told.push(heads());
document.querySelector("#customers thead button").click(); told.push(heads());
document.getElementById("filter").value = "wide";
document.getElementById("filter").dispatchEvent(new Event("input"));
told.push([...document.querySelectorAll("#customers tbody tr")].filter((row) => !row.hidden).length);
told.push(document.documentElement.scrollWidth <= document.documentElement.clientWidth);
"""
SAID = [
    "Nothing fails. 0 lost. 0 over protection. 2 kept.",
    "span Köln–Bad <Ems>. 0 lost. 2 over protection: Far & wide, near. 0 kept.",
    "over protection,over protection",
    "0 4",
    "span Köln–Bad <Ems> and node 9. 2 lost: Far & wide, near. 0 over protection. 0 kept.",
    "true node 9",
    "span Köln–Bad <Ems>. 0 lost. 2 over protection: Far & wide, near. 0 kept.",
    "fibre Köln>Bad <Ems> degraded. 0 lost. 2 over protection: Far & wide, near. 0 kept.",
    "fibre Köln>Bad <Ems> degraded and fibre 9>0 cut. 0 lost. 0 over protection. 2 kept but impaired: Far & wide, near. 0 kept.",
    "fibre Köln>Bad <Ems> degraded and fibre 9>0 cut and span 9–0. 0 lost. 0 over protection. 2 kept but impaired: Far & wide, near. 0 kept.",
    "forced switch at Bad <Ems> to 9. 0 lost. 1 over protection: Far & wide. 1 kept.",
    "forcedF true",
    "forced switch at Bad <Ems> to 9 and manual switch at 9 to 0. 0 lost. 1 over protection: Far & wide. 1 kept.",
    "manualM",
    "manual switch at 9 to 0. 0 lost. 0 over protection. 2 kept.",
    "manual switch at 9 to 0 and span Köln–Bad <Ems> and node 9. 2 lost: Far & wide, near. 0 over protection. 0 kept.",
    "span Köln–Bad <Ems> and span 9–0: 2 lost",
    "span Köln–Bad <Ems> and span 9–0. 2 lost: Far & wide, near. 0 over protection. 0 kept.",
    "Far & wide,near",
    "near,Far & wide",
    "1",
    "true",
]


@cache
def page():
    with tempfile.TemporaryDirectory() as folder:
        for name, text in (("plan.toml", PLAN), ("spans.csv", SPANS)):
            (Path(folder) / name).write_text(text, encoding="utf-8")
        ended = call("sdhring-desk", "plan.toml", "--spans", "spans.csv", "--teller", TELLER, "--title", "Ring <1>", cwd=folder)
    if ended.returncode or ended.stderr:
        raise AssertionError(ended.stderr.decode())
    return ended.stdout.decode()


class Cases(unittest.TestCase):
    def test_all_of_a_table_is_read_also_after_scripts(self):
        program = Program((sys.executable, str(MODEL)), "")
        plans = [(PLAN.replace('["settle"]', json.dumps(script)), "double") for script in SCRIPTS] + [((RINGS / "two-nodes.toml").read_text(), "triple")]
        for document, depth in plans:
            plan = read_plan(document.encode())
            table = read_cases(Reading(plan, Places()), program, document.encode(), depth)
            with self.subTest(plan=document):
                self.assertGreater(len(table.cases), 10 * plan.size)
                count = len(table.failures)
                keys = sorted(key_of(numbers, count) for numbers in table.cases if len(numbers) < 3)
                self.assertEqual(len(set(keys)), len(keys))
                self.assertLessEqual(keys[-1], count * (count + 1) // 2)

    def test_tables_after_scripts_drawn_by_chance_are_read(self):
        """The model that the tools hold a table against agrees with each record of the plain model, whatever the script left."""
        sys.path.insert(0, str(MODEL.parent))
        plain, drawing = run_path(str(MODEL)), run_path(str(MODEL.with_name("compare")))
        for seed in range(25):
            chance = random.Random(seed)
            nodes = chance.sample(range(16), chance.choice((2, 3, 4, 5)))
            circuits = drawing["circuits_of"](chance, len(nodes), 2)
            text = drawing["document"](4, nodes, 3, circuits, drawing["script_of"](chance, nodes, 3, circuits))
            depth = "double" if len(nodes) < 4 else "single"
            table = plain["table"](plain["ring_of"](tomllib.loads(text)), plain["Asked"](plain["DEPTHS"][depth], form="head"))
            plan = read_plan(text.encode())
            with self.subTest(seed=seed):
                self.assertEqual(len(Reading(plan, Places()).cases([table.encode()], depth)), table.count("settle"))

    def test_parts_together_are_the_whole(self):
        document = (RINGS / "two-nodes.toml").read_bytes()
        plan, program = read_plan(document), Program((sys.executable, str(MODEL)), "")
        reading = Reading(plan, Places())
        whole = read_cases(reading, program, document, "triple")
        results = lambda table: [(numbers, sorted(case.outcome.applied), case.results) for numbers, case in table.cases.items()]
        for count in (2, 3, 21):  # 21 is the base of a case's number
            texts = [tell(program, document, words_for(reading.failures, "triple", (number, count))) for number in range(1, count + 1)]
            self.assertEqual(results(merged(reading, texts, "triple", 0)), results(whole))
            with self.assertRaises(ToldProblem):
                merged(reading, texts[:-1] + texts[:1], "triple", 0)

    def test_packed_cases_are_the_table(self):
        """Each case of three failures is found at its place, with the spans and results that the table has for it."""
        document = (RINGS / "two-nodes.toml").read_bytes()
        plan = read_plan(document)
        table = read_cases(Reading(plan, Places()), Program((sys.executable, str(MODEL)), ""), document, "triple")
        desk = Desk(plan, Places(), table)
        data = data_of(desk, DeskDrawing(plan, Places(), table.failures, desk.script, desk.nothing.outcome))
        unpacked = {name: zlib.decompress(base64.b64decode(text)) for name, text in data["triples"].items()}
        outcomes = data["outcomes"] + json.loads(unpacked["outcomes"])
        places = [int.from_bytes(unpacked["cases"][at : at + 2], "little") for at in range(0, len(unpacked["cases"]), 2)]
        for numbers, place in zip(combinations(range(len(table.failures)), 3), places, strict=True):
            case = table.cases.get(numbers)
            self.assertEqual(outcomes[place - 1] if place else None, case and [sorted(case.outcome.applied), case.results])

    def test_a_table_that_says_something_else_is_refused(self):
        for deed, said in (
            ("s/^\\(17,.*\\),0,0,2,0,/\\1,1,0,1,0,/", "says something else than the restoration model"),
            ("/^[0-9]*,manual 5>0,/d", "stands where manual switch at 5 to 0 was to come"),
        ):
            with tempfile.TemporaryDirectory() as folder:
                script = Path(folder) / "wrong"
                script.write_text(f"#!/bin/sh\n{TELLER} \"$@\" | sed '{deed}'\n")
                script.chmod(0o755)
                with self.assertRaisesRegex(ToldProblem, said):
                    read_cases(Reading(read_plan(PLAN.encode()), Places()), Program((str(script),), ""), PLAN.encode())


class Pages(unittest.TestCase):
    def test_what_is_in_the_tables(self):
        seen = Seen(page())
        rows = seen.table_named("Customers, and")
        self.assertEqual([row["customer"] for row in rows], ["Far & wide", "near"])
        self.assertEqual([row["from"] for row in rows], ["5 Köln", "5 Köln"])
        self.assertEqual([(row["spans"], row["nodes besides its ends"], row["pairs of spans"]) for row in rows], [("0", "0", "4"), ("0", "0", "3")])
        self.assertEqual([row["pairs in a path ring"] for row in rows], ["4", "3"])  # a cut of a span cuts both directions
        matrix = seen.table_named("Customers lost, spans by spans")
        self.assertEqual([[int(cell) for cell in list(row.values())[1:]] for row in matrix], [[0, 1, 2, 2], [1, 0, 1, 1], [2, 1, 0, 0], [2, 1, 0, 0]])
        self.assertIn("Ring <1>", seen.text())
        self.assertIn("Spans cut, one alone : customers are lost in none.", seen.text())
        self.assertIn("sdhwhatif triple answered about 10701 cases of up to three failures", seen.text())
        self.assertEqual(len(seen.all("section", id="signed")), 1)

    def test_where_the_rates_come_from(self):
        self.assertIn(f"spans.csv , checksum {hashlib.sha256(SPANS.encode()).hexdigest()}", Seen(page()).text())

    def test_a_column_that_is_not_read_is_told_on_the_page_too(self):
        with tempfile.TemporaryDirectory() as folder:
            spans = SPANS.replace("hours", "hours,fibre_failure").replace(",8", ",8,2")
            groups = "group,members,fibre <since>\nduct,span 2-9\n"
            for name, text in (("plan.toml", PLAN), ("spans.csv", spans), ("groups.csv", groups)):
                (Path(folder) / name).write_text(text, encoding="utf-8")
            for words, said in (
                (("--spans", "spans.csv"), "spans.csv: not read: fibre_failure (nearest: fibre_failures)"),
                (("--groups", "groups.csv"), "groups.csv: not read: fibre <since>"),
            ):
                ended = call("sdhring-desk", "plan.toml", *words, "--depth", "double", "--teller", TELLER, cwd=folder)
                self.assertEqual((ended.returncode, ended.stderr.decode()), (0, f"sdhring-desk: {said}\n"))
                self.assertIn(f"Not all of a table was read : {said}.", Seen(ended.stdout.decode()).text())

    def test_availability_is_that_of_the_tool(self):
        tool = run_path(str(TOOLS / "sdhring-availability"))
        with tempfile.TemporaryDirectory() as folder:
            for name, text in (("plan.toml", PLAN), ("spans.csv", SPANS)):
                (Path(folder) / name).write_text(text, encoding="utf-8")
            found = json.loads(tool["answer"](tool["options"]([f"{folder}/plan.toml", f"{folder}/spans.csv", "--json"])))
        minutes = [record["minutes"] for record in found if record["protection"] == "shared"]
        shown = [float(row["min/year"]) for row in Seen(page()).table_named("Customers, and")]
        for one, other in zip(minutes, shown, strict=True):
            self.assertAlmostEqual(one, other, delta=one / 1000)

    def test_the_page_needs_nothing_else(self):
        self.assertEqual(re.findall(r"""(?:src|href)=["']?[^#"']""", page()), [])
        self.assertNotRegex(page(), r"https?://(?!www\.w3\.org)")

    def test_what_is_drawn_has_a_name(self):
        for kind, count in (("fibre", 8), ("switch", 8), ("span", 4), ("node", 4)):
            found = re.findall(rf'<g class="button {kind}"[^>]*><title>([^<]+)</title>', page())
            self.assertEqual(len(set(found)), count)

    @unittest.skipUnless(BROWSER, "there is no chromium")
    def test_a_fourth_failure_takes_the_first_away_and_says_so(self):
        deeds = """
const told = [], choose = document.getElementById("choose"), said = () => document.getElementById("told").textContent;
const add = (name) => { choose.value = [...choose.options].find((one) => one.textContent === name).value; choose.dispatchEvent(new Event("change")); };
["node 9", "node 0", "span 9–0", "fibre 9>0 cut"].forEach(add); told.push(said().split(" fibre")[0]);
document.getElementById("clear").click(); told.push(said());
"""
        gone = "node 9 is taken away, since at most three failures are shown together. node 0 and span 9–0 and"
        self.assertEqual(browsed(page(), deeds), [gone, "Nothing fails. 0 lost. 0 over protection. 2 kept."])

    @unittest.skipUnless(BROWSER, "there is no chromium")
    def test_clicks_and_keys_on_a_phone(self):
        self.assertEqual(browsed(page(), DEEDS), SAID)


@unittest.skipUnless(PRINTS, "there is no chromium, or no pdftotext")
class Printed(unittest.TestCase):
    def test_tables_have_their_heads_on_each_sheet(self):
        """Also where the head is made of buttons, by which the table is sorted."""
        rows = re.search(r'(<section id="customers">.*?<tbody>)(.*?)(</tbody>)', page(), re.S)
        sheets = printed(page().replace(rows[2], rows[2] * 30)).split("\f")
        beside = [sheet for sheet in sheets if sheet.count("5 Köln") > 5]
        self.assertGreater(len(beside), 1)
        for sheet in beside:
            self.assertIn("pairs of spans", sheet)


BROKEN = PLAN.replace('script = ["settle"]', 'script = ["cut 2 east", "cut 9 west", "degrade 0 east 4", "degrade 5 east 2", "manual 0 west", "forced 5 west", "settle"]')
LEFT = (
    "fibre Köln>Bad <Ems> degraded by 2, below the threshold of 3; fibre Bad <Ems>>9 cut; fibre 9>Bad <Ems> cut; fibre 0>Köln degraded by 4; "
    "forced switch at Köln to 0; manual switch at 0 to 9"
)


class AfterScript(unittest.TestCase):
    """The desk of a ring that the plan's script leaves broken."""

    @classmethod
    def setUpClass(cls):
        with tempfile.TemporaryDirectory() as name:
            folder = Path(name)
            (folder / "ring.toml").write_text(BROKEN, encoding="utf-8")
            (folder / "again.toml").write_text(PLAN.replace('"settle"]', '"cut 2 east", "settle", "mend 2 east", "settle", "moment 99", "settle"]'), encoding="utf-8")
            ended = call("sdhring-desk", "--to", "pages", "--teller", TELLER, "--depth", "double", ".", cwd=folder)
            if ended.returncode or ended.stderr:
                raise AssertionError(ended.stderr.decode())
            cls.page, cls.again, cls.index = ((folder / "pages" / f"{name}.html").read_text(encoding="utf-8") for name in ("ring", "again", "index"))

    def test_the_steps_of_the_script_are_the_first_line(self):
        head, first = self.page.split("</h1>\n", 1)[0], self.page.split("</h1>\n", 1)[1].splitlines()[0]
        self.assertTrue(head.endswith("ring"))
        steps = "cut 2 east , cut 9 west , degrade 0 east 4 , degrade 5 east 2 , manual 0 west , forced 5 west"
        said = f"The ring isn't whole. The plan's script comes first: {steps} . It leaves: {LEFT} . All that follows is beside that."
        self.assertEqual(Seen(first).text(), said)
        self.assertNotIn("script comes first", page())
        self.assertIn("The plan's script comes first, and leaves nothing: cut 2 east , mend 2 east , moment 99 .", Seen(self.again).text())
        self.assertNotIn("isn't whole", self.again)

    def test_the_numbers_are_beside_what_the_script_left(self):
        said = Seen(self.page).text()
        self.assertIn("Nothing more fails : 1 lost: Far & wide; 0 over protection; 0 kept but impaired; 1 kept. All numbers below count them too.", said)
        self.assertIn("Spans cut, one more : customers are lost", said)
        self.assertIn("Two more spans cut : customers are lost", said)
        self.assertIn("Fibres cut, each one more (8)", said)
        self.assertIn("Spans cut, one alone : customers", Seen(page()).text())

    def test_what_the_script_left_is_drawn(self):
        drawn = lambda kind, page_: sorted((one[f"data-{kind}"], one["data-left"]) for one in Seen(page_).all("g") if f"data-{kind}" in one and "data-left" in one)
        self.assertEqual(drawn("fibre", self.page), [("0 east", "degraded"), ("1 east", "fibre"), ("2 west", "fibre"), ("3 east", "degraded")])
        self.assertEqual(drawn("switch", self.page), [("0 west", "forced"), ("3 west", "manual")])
        self.assertEqual([drawn(kind, self.again) for kind in ("fibre", "switch")], [[], []])
        self.assertIn("<title>fibre Bad &lt;Ems&gt;&gt;9, cut by the script</title>", self.page)
        self.assertIn("<title>switch at 0 to 9, manual by the script</title>", self.page)
        self.assertEqual(sorted(re.findall(r">([FM])<", self.page)), ["F", "M"])
        self.assertEqual(len(re.findall('class="button span is-applied"', self.page)), 2)
        self.assertEqual(re.findall('class="(circuit[^"]*)"', self.page), ["circuit lost", "circuit"])

    def test_the_index_says_so_too(self):
        rows = Seen(self.index).table_named("Rings")
        self.assertEqual([row["ring"] for row in rows], ["again", "ring after cut 2 east; cut 9 west; degrade 0 east 4; degrade 5 east 2; manual 0 west; forced 5 west"])

    @unittest.skipUnless(BROWSER, "there is no chromium")
    def test_nothing_more_fails(self):
        deeds = """
const told = [document.getElementById("told").textContent], ring = document.getElementById("ring");
const item = (name) => [...ring.querySelectorAll(".button")].find((one) => one.getAttribute("aria-label").startsWith(name));
const down = () => told.push([...ring.querySelectorAll(".fibre.struck")].map((one) => one.dataset.fibre).join());
item("node 0").dispatchEvent(new MouseEvent("click", { bubbles: true })); down();
told.push([...ring.querySelectorAll(".given")].map((one) => one.textContent).join(""));
"""
        self.assertEqual(browsed(self.page, deeds), ["Nothing more fails. 1 lost: Far & wide. 0 over protection. 1 kept.", "2 east,3 west,3 east,0 west", "FM"])

    @unittest.skipUnless(PRINTS, "there is no chromium, or no pdftotext")
    def test_it_is_printed(self):
        said = " ".join(printed(self.page).split("\f")[0].split())
        self.assertIn("The ring isn't whole.", said)
        self.assertIn("Nothing more fails", said)


class Groups(unittest.TestCase):
    def made(self, *words):
        with tempfile.TemporaryDirectory() as folder:
            groups = "group,members,failures,hours\nduct <1>,span Köln-2; span 9-0,0.01,48\nyard,node 9,0.02,10\n"
            for name, text in (("plan.toml", PLAN), ("spans.csv", SPANS), ("groups.csv", groups)):
                (Path(folder) / name).write_text(text, encoding="utf-8")
            ended = call("sdhring-desk", "plan.toml", "--groups", "groups.csv", "--teller", TELLER, "--depth", "double", *words, cwd=folder)
        self.assertEqual((ended.returncode, ended.stderr), (0, b""))
        return ended.stdout.decode()

    def test_each_group_is_a_failure_with_its_members_beside_it(self):
        seen = Seen(self.made())
        rows = seen.table_named("Shared-risk groups")
        self.assertEqual([row["case"].replace("\u2060", "") for row in rows], ["group duct <1> (span Köln–Bad <Ems>, span 9–0)", "group yard (node 9)"])
        self.assertEqual([(row["over protection"], row["lost"]) for row in rows], [("0", "2"), ("0", "1")])
        self.assertIn("Shared-risk groups, one alone : customers are lost in 2 of 2; at most 2.", seen.text())
        self.assertNotIn("min/year", seen.text())
        self.assertIn("Groups are those of these files; it isn't known who wrote them: groups.csv , checksum", seen.text())
        self.assertIn("min/year", self.made("--spans", "spans.csv"))
        self.assertNotIn("roups", Seen(page()).text())

    @unittest.skipUnless(BROWSER, "there is no chromium")
    def test_a_group_is_chosen_from_the_list(self):
        deeds = """
const told = [], choose = document.getElementById("choose"), last = choose.querySelector("optgroup:last-child");
told.push(last.label);
choose.value = last.children[1].value;
choose.dispatchEvent(new Event("change")); told.push(document.getElementById("told").textContent);
"""
        self.assertEqual(browsed(self.made(), deeds), ["shared-risk groups", "group yard (node 9). 1 lost: Far & wide. 0 over protection. 1 kept."])


class Many(unittest.TestCase):
    def test_a_page_for_each_plan_and_an_index(self):
        with tempfile.TemporaryDirectory() as name:
            folder = Path(name)
            (folder / "north ring.toml").write_text(PLAN, encoding="utf-8")
            (folder / "north ring.spans.csv").write_text(SPANS, encoding="utf-8")
            (folder / "two.toml").write_bytes((RINGS / "two-nodes.toml").read_bytes())
            ended = call("sdhring-desk", "--to", "pages", "--teller", TELLER, "north ring.toml", "two.toml", cwd=folder)
            self.assertEqual((ended.returncode, ended.stderr), (0, b""))
            index = Seen((folder / "pages" / "index.html").read_text(encoding="utf-8"))
            self.assertEqual([link["href"] for link in index.all("a")], ["north%20ring.html", "two.html"])
            north, two = index.table_named("Rings")
            heads = ("lost with a fibre", "with a span", "with a node", "of these besides its ends", "with two spans")
            self.assertEqual([north[head] for head in heads], ["0", "0", "2", "0", "2"])
            self.assertEqual((north["pairs of spans with some lost"], north["least available"], two["min/year"]), ("5 of 6", "Far & wide", ""))
            self.assertIn("min/year", (folder / "pages" / "north ring.html").read_text(encoding="utf-8"))
            self.assertNotIn("min/year", (folder / "pages" / "two.html").read_text(encoding="utf-8"))


    def test_a_folder_of_plans_one_of_which_is_none(self):
        with tempfile.TemporaryDirectory() as name:
            rings = Path(name) / "rings"
            rings.mkdir()
            (rings / "north.toml").write_text(PLAN, encoding="utf-8")
            (rings / "south.toml").write_text("rate = 5\n")
            ended = call("sdhring-desk", "--to", "pages", "--teller", TELLER, "--depth", "double", "rings", cwd=name)
            self.assertEqual(ended.returncode, 1)
            self.assertIn("rings/south.toml: ", ended.stderr.decode())
            index = Seen((Path(name) / "pages" / "index.html").read_text(encoding="utf-8"))
            self.assertIn("south has no page: rings/south.toml: ", index.text())
            self.assertEqual([row["ring"] for row in index.table_named("Rings")], ["north"])

    @unittest.skipUnless(BROWSER, "there is no chromium")
    def test_the_index_is_sorted_and_filtered(self):
        rows = [[html('<a href="{}.html">{}</a>', name, name), size, *["0"] * 7, "", minutes, ""] for name, size, minutes in (("north", 12, "2.5"), ("south", 4, ""), ("ring 3", 9, "11"))]
        deeds = """
const told = [], shown = () => told.push([...document.querySelectorAll("tbody tr")].filter((row) => !row.hidden).map((row) => row.cells[0].textContent).join());
const head = (number) => document.querySelectorAll("thead button")[number].click();
head(0); shown(); head(1); shown(); head(10); shown(); head(10); shown();
document.getElementById("filter").value = "TH";
document.getElementById("filter").dispatchEvent(new Event("input")); shown();
"""
        wanted = ["north,ring 3,south", "south,ring 3,north", "south,north,ring 3", "ring 3,north,south", "north,south"]
        self.assertEqual(browsed(index_page(rows), deeds), wanted)


class Refused(unittest.TestCase):
    def test_lines_and_statuses(self):
        with tempfile.TemporaryDirectory() as folder:
            (Path(folder) / "plan.toml").write_text(PLAN, encoding="utf-8")
            (Path(folder) / "spans.csv").write_text("from,to,hours\n", encoding="utf-8")
            (Path(folder) / "groups.csv").write_text("group,members\nduct,span 5-9\n", encoding="utf-8")
            for status, said, words in (
                (1, "sdhring-desk: plan.toml: the answer isn't a table of this plan: status 1", ("--teller", "false")),
                (1, "sdhring-desk: spans.csv: span Köln–Bad <Ems>,", ("--spans", "spans.csv", "--teller", TELLER)),
                (2, "--nodes goes with --spans", ("--nodes", "n.csv")),
                (2, "spans.csv is a table, and no plan: --spans spans.csv", ("spans.csv",)),
                (2, "`2,5`: a number with a point is wanted that isn't below 0, as 2.5", ("--spans", "spans.csv", "--cuts-per-1000-km", "2,5")),
                (2, "--cuts-per-1000-km goes with --spans", ("--cuts-per-1000-km", "2")),
                (1, "groups.csv:2: `span 5-9` is no span, node or fibre of the plan", ("--groups", "groups.csv", "--teller", TELLER)),
                (2, "several plans, or a folder, go with --to", ("other.toml",)),
                (2, "several plans, or a folder, go with --to", (".",)),
                (1, "two plans have one name", ("--to", "pages", "below/plan.toml")),
                (2, "with --to each plan is a file", ("--to", "pages", "-")),
            ):
                ended = call("sdhring-desk", "plan.toml", *words, cwd=folder)
                self.assertEqual((ended.returncode, ended.stdout), (status, b""))
                self.assertIn(said, ended.stderr.decode())


if __name__ == "__main__":
    unittest.main()
