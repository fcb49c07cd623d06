"""sdhring-whatif --all over a ring of four: what is answered, held against the rules; what is run frame by frame; rules that rings have to keep."""

import json
import re
import shutil
import subprocess
import sys
import tomllib
import unittest

from cases import CIRCUITS, IDS, Asking, document, expected, failures, spans
from common import STANDIN, TOOLS, command, ring
from rules import Rules

from ringtools.origin import sum_of

MODEL = TOOLS.parent / "bench" / "whatif" / "model.py"
TELLER = command(MODEL)
SDHPATH = TOOLS.parent / "dist" / "sdhpath"


def labels(name):
    """How the table calls a failure of `failures`: by itself, and for a pair of spans as two."""
    kind, *rest = name.split("-")
    if kind == "fibre":
        at = IDS.index(int(rest[0])) + (1 if rest[1] == "east" else -1)
        return [f"fibre {rest[0]}>{IDS[at % 4]}"]
    if kind != "pair":
        return [f"{kind} {'-'.join(rest)}"]
    return [f"span {rest[0]}-{rest[1]}; span {rest[3]}-{rest[4]}"]


class All(Asking):
    def tell(self, *words, teller=TELLER, **more):
        return self.ask("--all", "--teller", teller, *words, **more)

    def lines(self, name="all.csv"):
        """The rows by the names of their failures."""
        rows = self.table(name)
        found = {row["Failures"]: row for row in rows}
        self.assertEqual(len(found), len(rows))
        return found

    def counts(self, row):
        kept, impaired, over, lost = (int(row[name]) for name in ("Kept", "Impaired", "Over", "Lost"))
        self.assertEqual(impaired, len(row["Impaired circuits"].split()), row["Failures"])
        return [kept + impaired, over, lost]

    def script(self, name, text):
        script = self.top / name
        script.write_text(f"#!/bin/sh\n{text}\n")
        script.chmod(0o755)
        return str(script)

    def check_rows(self, script, places, rows, more=()):
        """Rows against the rules, where these things fail after the script."""
        cuts = [f"cut {IDS[span]} east" if side == "east" else f"cut {IDS[(span + 1) % 4]} west" for span, side in places]
        rules = Rules(tomllib.loads(document()) | {"script": [*script, *cuts, *more, "settle"]}, [128 * (k + 1) for k in range(script.count("settle") + 1)])
        last = rules.rounds[-1]
        cells, applied = expected(rules, last), rules.applied(last)
        impaired = [name for name, cell in cells.items() if cell == "impaired"]
        for row in rows:
            kinds = ["kept" if cell == "impaired" else cell[:4] for cell in cells.values()]
            self.assertEqual(self.counts(row), [kinds.count(kind) for kind in ("kept", "over", "lost")], row["Failures"])
            self.assertEqual(row["Applied"].split(), [f"{IDS[span]}-{IDS[(span + 1) % 4]}" for span in sorted(applied)])
            self.assertEqual(row["Impaired circuits"].split(), impaired, row["Failures"])
            for column, kind in (("Over circuits", "over"), ("Lost circuits", "lost")):
                self.assertEqual(row[column].split(), [name for name, cell in cells.items() if cell.startswith(kind)], row["Failures"])
        return cells

    def test_every_failure_is_answered_and_some_are_run(self):
        self.tell("--frames", "5", "--frames", "cut 5 east; cut 2 west")
        lines = self.lines()
        for name, cut in failures().items():
            rows = [lines[label] for label in labels(name)]
            cells = self.check_rows(["settle"], cut, rows)
            besides = [row["Besides ends"].split() for row in rows]
            ends = [circuit for circuit, start, end, _ in CIRCUITS if name == f"node-{start}" or name == f"node-{end}"]
            self.assertEqual(besides, [[circuit for circuit, cell in cells.items() if cell == "lost" and circuit not in ends]] * len(rows), name)
        page = self.page("all.html")
        words = page.text().replace("\u2060", "")
        self.assertIn("Without a frame: 821 cases, nothing more, each failure alone and each two, in ", words)
        self.assertIn("This build of it is not known to be proved.", words)
        self.assertRegex(words, "Run frame by frame: [56] of these cases by sdhring ?, and each shows what was answered about it.")
        run = sorted(path.stem for path in self.cases().glob("told-*.html"))
        self.assertIn(len(run), (5, 6))
        for name in run:
            self.assertIn(f"cases/{name}.html", str([cell.get("href") for cell in page.all("a")]))

    def test_a_circuit_that_keeps_a_span_in_trouble_is_impaired(self):
        """Two spans degraded alike, or a manual switch beside a cut: what isn't applied still troubles the circuits over it."""
        self.tell("--frames", "0")
        lines = self.lines()
        for failures, steps in (
            ("degraded 5>2; degraded 9>4", ["degrade 5 east 3", "degrade 9 east 3"]),
            ("fibre 5>2; manual 9>4", ["cut 5 east", "manual 9 east"]),
            ("fibre 5>2; degraded 9>4", ["degrade 9 east 3", "cut 5 east"]),
        ):
            row = lines.get(failures) or lines["; ".join(reversed(failures.split("; ")))]
            self.check_rows(["settle"], [], [row], steps)
            self.assertTrue(row["Impaired circuits"], failures)

    def test_the_tables_of_the_page_are_those_of_the_rows(self):
        self.tell("--frames", "0")
        rows, page = self.table("all.csv"), self.page("all.html")
        pairs = [row for row in rows if row["Depth"] == "2"]
        rows_of = [rows for name, rows in page.tables if name == "by kinds"]
        for shown, kind in zip(rows_of[0][1:], ("degraded", "fibre", "span", "node", "manual", "forced"), strict=True):
            found = [row for row in rows if row["Depth"] == "1" and row["Kind"] == kind]
            wanted = [[int(row[name]) for row in found] for name in ("Lost", "Path lost")]
            besides = [len(row["Besides ends"].split()) for row in found]
            cells = [cell for column in (wanted[0], besides, wanted[1]) for cell in (sum(map(bool, column)), max(column))]
            self.assertEqual([int(cell) for cell in shown[1:]], [len(found), *cells], kind)
        for row in page.table_named("customers"):
            lost = sum(row["customer"] in pair["Lost circuits"].split() for pair in pairs)
            self.assertEqual(row["two failures: lost in"], f"{lost} of {len(pairs)}")

    def test_the_same_in_a_path_ring(self):
        """By the rule of path protection: a port has its main way, else its spare way, else AIS; a circuit is lost where a port has AIS."""
        self.tell("--frames", "0")
        lines = self.lines()
        for name, cut in failures().items():
            lost = []
            for circuit, start, end, _ in CIRCUITS:
                own = [(IDS.index(start) + i) % 4 for i in range((IDS.index(end) - IDS.index(start)) % 4)]
                way = lambda spans, side: any((span, side) in cut for span in spans)
                other = [span for span in range(4) if span not in own]
                ais = [way(own, "east") and way(other, "west"), way(own, "west") and way(other, "east")]
                lost += [circuit] if any(ais) else []
            for label in labels(name):
                self.assertEqual((lines[label]["Path lost circuits"].split(), int(lines[label]["Path lost"])), (lost, len(lost)), label)
        self.assertEqual(lines["degraded 5>2; forced 9>4"]["Path lost"], "0")
        self.assertIn("room for 2 circuits in all, and these are 4: each is taken as if it were one of them", self.words())

    @unittest.skipUnless(SDHPATH.is_file(), "dist/ has no programs")
    def test_a_path_ring_is_that_of_sdhpath(self):
        """Who is lost in it is who has AIS at a port in a report of the proved program."""
        self.plan.write_text(document([("near", 5, 2, 1), ("far", 2, 4, 2)]))
        self.tell("--frames", "0")
        lines, script, found = self.lines(), [], failures()
        for cut in found.values():
            places = [f"{IDS[span]} east" if side == "east" else f"{IDS[(span + 1) % 4]} west" for span, side in cut]
            script += [*(f"cut {place}" for place in places), "settle", *(f"mend {place}" for place in places)]
        plan = self.plan.read_text().replace('script = ["settle"]', "script = " + json.dumps([*script, "settle"]))
        ended = subprocess.run([SDHPATH, "run"], input=plan.encode(), capture_output=True)
        self.assertEqual(ended.returncode, 0, ended.stdout[-80:])
        reports = ended.stdout.decode().split("settle ")[1:]
        for name, report in zip(found, reports):
            lost = list(dict.fromkeys(line.split()[1] for line in report.splitlines() if line.endswith(" ais")))
            for label in labels(name):
                self.assertEqual(lines[label]["Path lost circuits"].split(), lost, label)

    def test_each_three_and_in_parts(self):
        self.plan.write_text(document([("p", 5, 2, 1)]).replace("nodes = [5, 2, 9, 4]", "nodes = [5, 2]"))
        self.tell("--depth", "triple", "--frames", "0")
        whole, parts = self.lines(), {}
        self.assertEqual(len(whole), 1 + 20 + 190 + 1140)
        self.assertIn("each failure alone, each two and each three", self.words())
        for number in (1, 2, 3):
            self.tell("--depth", "triple", "--frames", "0", "--shard", f"{number}/3")
            parts |= self.lines(f"all-{number}-of-3.csv")
            told = json.loads((self.top / "out" / f"all-{number}-of-3.json").read_text())
            self.assertEqual((told["part"], told["depth"]), ([number, 3], "triple"))
        self.assertEqual(parts, whole)
        self.tell("--depth", "single", "--frames", "0")
        self.assertEqual(len(self.lines()), 21)

    @unittest.skipUnless(shutil.which("parallel"), "GNU parallel isn't installed")
    def test_parts_with_parallel(self):
        self.tell("--frames", "0")
        whole = self.lines()
        self.tell("--frames", "0", "--sshlogin", "2/:")
        self.assertEqual(self.lines(), whole)

    def grouped(self, rows="bridge,span 2-5; fibre 9>4\nyard,node 2\n"):
        groups = self.top / "groups.csv"
        groups.write_text("group,members\n" + rows)
        return "--groups", groups

    def test_groups_fail_as_one(self):
        """A group's case is that of its members' cuts, alone and with each other failure, and it has the group's name."""
        self.plan.write_text("# node 2 is Köln\n" + document())
        self.tell(*self.grouped("bridge,span Köln-5; fibre 9>4;span 5–2\nyard,node köln\n"), "--frames", "group bridge; group yard", "--frames", "3")
        lines, bridge, yard = self.lines(), [*spans(0), (2, "east")], spans(0, 1)
        self.assertEqual(len(lines), 1 + 42 + 42 * 41 // 2)
        for label, cut in (("group bridge", bridge), ("group yard", yard), ("group bridge; group yard", bridge + yard), ("span 4-5; group bridge", spans(3) + bridge)):
            cells = self.check_rows(["settle"], cut, [lines[label]])
            ends = [circuit for circuit, start, end, _ in CIRCUITS if "yard" in label and 2 in (start, end)]
            self.assertEqual(lines[label]["Besides ends"].split(), [circuit for circuit, cell in cells.items() if cell == "lost" and circuit not in ends], label)
        row, pair = lines["group bridge"], lines["span 5-2; span 9-4"]
        self.assertEqual((row["Kind"], row["Steps"]), ("group", "cut 5 east; cut 2 west; cut 9 east"))
        self.assertEqual([row[name] for name in ("Applied", "Lost circuits")], [pair[name] for name in ("Applied", "Lost circuits")])
        self.assertEqual(row["Path lost circuits"], lines["fibre 9>4; span 5-2"]["Path lost circuits"])
        told = json.loads((self.top / "out" / "all.json").read_text())
        self.assertEqual(told["groups"], {"group bridge": ["span 5-2", "fibre 9>4"], "group yard": ["node 2"]})
        shown = [row["failure"].replace("\u2060", "") for row in self.page("all.html").table_named("groups")]
        self.assertEqual(shown, ["group bridge (span 5–Köln, fibre 9>4 cut)", "group yard (node Köln)"])

    @unittest.skipUnless(shutil.which("parallel"), "GNU parallel isn't installed")
    def test_groups_in_parts(self):
        self.tell(*self.grouped(), "--frames", "0")
        whole = self.lines()
        self.tell(*self.grouped(), "--frames", "0", "--sshlogin", "2/:")
        self.assertEqual(self.lines(), whole)

    def test_groups_that_cant_be_asked_about(self):
        for rows, said in (
            ("duct,span 5-9\n", "groups.csv:2: `span 5-9` is no span, node or fibre of the plan"),
            ("duct; or bridge,node 5\n", "groups.csv:2: `group` is `duct; or bridge`, and semicolons separate failures"),
            ("".join(f"g{number},node 5\n" for number in range(17)), "groups.csv:18: it is group 17, and sdhwhatif takes 16"),
        ):
            self.assertIn(said, self.tell(*self.grouped(rows), "--frames", "0", wanted=1).stderr.decode())
        ids = [*IDS, 6]
        self.plan.write_text(document().replace("9, 4]", "9, 4, 6]"))
        names = [f"{form}{here}{sign}{there}" for here, there in zip(ids, ids[1:] + ids[:1]) for form, sign in (("span ", "-"), ("fibre ", ">"))]
        members = [*names, *(f"node {node}" for node in ids), "fibre 2>5", "fibre 9>2"]
        self.tell(*self.grouped(f"most,{';'.join(members[:16])}\n"), "--depth", "single", "--frames", "0")
        said = self.tell(*self.grouped(f"many,{';'.join(members)}\n"), "--frames", "0", wanted=1).stderr.decode()
        self.assertIn("groups.csv:2: the group many has 17 members, and sdhwhatif takes 16", said)
        self.plan.write_text(ring("two-nodes")[0].read_text())
        said = self.tell(*self.grouped("half,fibre 7>9\n"), "--frames", "0", wanted=1).stderr.decode()
        self.assertIn("groups.csv:2: sdhwhatif has one name for both fibres of a node in a ring of two", said)

    def test_the_same_as_json(self):
        self.tell("--frames", "0")
        told = json.loads((self.top / "out" / "all.json").read_text())
        self.assertEqual((len(told["cases"]), told["proof"], told["circuits"]), (821, "not known to be proved", [name for name, *_ in CIRCUITS]))
        nothing = {"failures": [], "steps": [], "applied": [], "kept": len(CIRCUITS), "impaired": 0, "over": 0, "lost": 0, "longest": 3}
        lists = ("impaired_circuits", "over_circuits", "lost_circuits", "besides_ends", "path_lost_circuits")
        self.assertEqual(told["cases"][0], nothing | dict.fromkeys(lists, []))
        self.assertIn("Run frame by frame: none of them.", self.page("all.html").text())
        self.assertFalse(self.cases().exists())

    def words(self):
        return re.sub(" ([,.])", r"\1", self.page("all.html").text().replace("\u2060", ""))

    def asked(self):
        """What was asked about, as JSON and each row of the table have it, and the document's script."""
        told, rows = json.loads((self.top / "out" / "all.json").read_text()), self.table("all.csv")
        self.assertEqual(len(rows), len(told["cases"]))
        self.assertEqual(told["plan"], sum_of(self.plan.read_bytes()))
        document = (self.top / "out" / "all.toml").read_bytes()
        self.assertEqual(told["asked"], sum_of(document))
        for row in rows:
            self.assertEqual((row["Plan"], row["Asked"]), (told["plan"], told["asked"]))
            self.assertEqual((row["Also"], row["Works"]), ("; ".join(told["also"]), "; ".join(told["works"])))
            self.assertEqual(row["Script"], "left out" if told["script"] is None else "; ".join(told["script"]))
        return told, tomllib.loads(document.decode())["script"], rows

    def test_the_table_of_rows(self):
        """One row for each case, all of the same columns."""
        self.tell("--frames", "cut 5 east; cut 2 west", "--frames", "node 2")
        told, script, rows = self.asked()
        self.assertEqual((script, told["script"], told["also"], told["works"]), (["settle"], ["settle"], [], []))
        for row, case in zip(rows, told["cases"], strict=True):
            self.assertEqual(row["Failures"], "; ".join(case["failures"]) or "nothing")
            self.assertEqual(row["Steps"], "; ".join(case["steps"]))
            self.assertEqual([int(row[name]) for name in ("Kept", "Over", "Lost", "Longest")], [case[name] for name in ("kept", "over", "lost", "longest")])
            for column in ("Over circuits", "Lost circuits", "Besides ends", "Path lost circuits"):
                self.assertEqual(row[column].split(), case[column.lower().replace(" ", "_")])
        self.assertEqual([row["Failures"] for row in rows if row["Frames"]], ["span 5-2", "node 2"])

    def scripted(self, *script):
        self.plan.write_text(document().replace('script = ["settle"]', f"script = {list(script)}".replace("'", '"')))

    def test_the_plan_is_asked_about_with_its_script(self):
        """The ring as the script leaves it: the file itself is what is asked about, settle steps within it and all."""
        script = ["settle", "cut 5 east", "settle", "forced 2 east", "settle"]
        self.scripted(*script)
        self.tell("--frames", "manual 9 east")
        told, asked, _ = self.asked()
        self.assertEqual((asked, told["script"], told["asked"]), (script, script, told["plan"]))
        lines = self.lines()
        self.check_rows(script, [], [lines["nothing"]])
        self.check_rows(script, [], [lines["manual 9>4"]], ["manual 9 east"])
        self.assertNotIn("manual 2>9", lines)  # it would take the forced switch away
        self.assertIn("After the plan's own script: cut 5 east, forced 2 east.", self.words())
        self.assertIn("and each shows what was answered about it", self.words())
        case = tomllib.loads(next(self.cases().glob("told-*.toml")).read_text())["script"]
        self.assertEqual(case, [*script, "manual 9 east", "settle"])

    def test_the_script_is_left_out_where_that_is_asked_for(self):
        self.scripted("settle", "cut 5 east", "settle")
        said = self.tell("--without-script", "--frames", "1").stderr.decode()
        self.assertIn("plan.toml: the plan's own script is left out: cut 5 east", said)
        told, asked, rows = self.asked()
        self.assertEqual((asked, told["script"], self.counts(rows[0])), (["settle"], None, [4, 0, 0]))
        self.assertIn("The plan's own script is left out, as --without-script asks: cut 5 east.", self.words())
        self.assertIn("All failures: plan.toml, without the plan's own script", self.words())

    def test_works_and_steps_before_are_named(self):
        self.scripted("cut 5 east", "settle")
        self.tell("--also", "degrade 4 west 3", "--works", "span 2-9", "--frames", "1")
        told, asked, _ = self.asked()
        self.assertEqual(asked, ["cut 5 east", "settle", "degrade 4 west 3", "forced 2 east", "forced 9 west", "settle"])
        self.assertEqual((told["also"], told["works"]), (["degrade 4 west 3"], ["forced 2 east", "forced 9 west"]))
        self.assertNotEqual(told["asked"], told["plan"])
        words = self.words()
        self.assertIn("All failures: plan.toml, during the works: span 2-9, after degrade 4 west 3", words)
        self.assertIn("During the works: span 2-9, which is forced 2 east, forced 9 west.", words)
        self.assertIn("Before each failure: degrade 4 west 3.", words)
        self.assertIn(told["asked"], words)

    def test_one_warning_for_programs_of_one_kind(self):
        self.tell("--frames", "1")
        self.assertEqual(self.page("all.html").text().count("It isn't known whether the program that answered is proved."), 1)

    def test_answers_of_the_model_come_before_the_frames(self):
        """A program that breaks off leaves them."""
        self.tell("--frames", "1", program=self.script("broken", "exit 9"), wanted=1)
        self.assertIn("Run frame by frame: none of them.", self.page("all.html").text())
        self.assertEqual(len(self.asked()[2]), 821)

    def test_no_room_for_one_settle_step_more(self):
        self.scripted(*["settle"] * 64)
        self.assertIn(b"has 64 settle steps", self.tell(wanted=1).stderr)
        self.tell("--frames", "0")

    def test_what_a_run_shows_otherwise_is_reported(self):
        self.plan.write_text(ring("two-nodes")[0].read_text())
        said = self.tell("--frames", "cut 7 east", program=f"{STANDIN} wrong", wanted=4).stderr.decode()
        self.assertRegex(said, "fibre 7>9 \\(east\\) cut: p is over, the run shows odd")
        self.assertIn("1 of them differ", self.page("all.html").text())

    def test_the_works_come_first(self):
        self.tell("--works", "span 5-2", "--frames", "0")
        lines = self.lines()
        self.assertEqual(self.counts(lines["nothing"]), [2, 2, 0])
        self.assertNotIn("manual 5>2", lines)
        self.assertIn("manual 2>9", lines)

    def test_refusals(self):
        teller = ("--all", "--teller")
        for words, said in (
            (("--frames", "3"), "--frames, --depth and --against go with --all"),
            (("--teller", TELLER), "--teller goes with --all, --require or --works"),
            (("--groups", "groups.csv"), "--groups goes with --all or --require"),
            ((*teller, TELLER, "--groups", "groups.csv", self.plan), "--groups goes with one plan"),
            ((*teller, TELLER, "--kinds", "span"), "--all has all kinds"),
            ((*teller, TELLER, "--frames", "cut 6 east"), "no case has these steps or failures"),
            ((*teller, TELLER, "--against", "none.csv"), "none.csv: No such file"),
            ((*teller, TELLER, "--against", str(self.plan.with_name("bad.csv"))), "a table of --all is wanted, with the columns Failures, Depth, Kept, "),
            ((*teller, self.script("none", "echo usage; exit 2")), "writes no table: status 2, usage"),
            ((*teller, self.script("bad", "echo bad plan 27 at 4; exit 6")), "bad plan 27 at 4: the moment lies before the one that was set last"),
            ((*teller, self.script("half", f'{TELLER} "$@" | head -5')), "writes no table: "),
        ):
            self.plan.with_name("bad.csv").write_text("steps,kept\n")
            self.assertIn(said, self.ask(*words, wanted=1).stderr.decode())


class Beside(Asking):
    """Two plans or tables, and who gains and loses from the one to the other."""

    def rows(self, *words):
        self.ask("--all", "--teller", TELLER, "--frames", "0", *words)
        return self.table("against.csv"), re.sub(" ([,.])", r"\1", self.page("all.html").text().replace("\u2060", ""))

    def wanted(self, other, this):
        """Who is lost in one alone, of the cases and circuits of both."""
        lost = lambda name: {(row["Failures"], circuit) for row in self.table(name) for circuit in row["Lost circuits"].split()}
        return lost(other) - lost(this), lost(this) - lost(other)

    def test_a_plan_and_the_same_during_works(self):
        """Beside itself without the works nobody gains, and the table of an earlier run says the same as the plan."""
        self.ask("--all", "--teller", TELLER, "--frames", "0", "--dir", self.top / "before")
        (self.top / "out").mkdir()
        (self.top / "before" / "all.csv").rename(self.top / "out" / "before.csv")
        by_plan, words = self.rows("--works", "span 5-2", "--against", self.plan)
        by_table, _ = self.rows("--works", "span 5-2", "--against", self.top / "out" / "before.csv")
        self.assertEqual(by_plan, by_table)
        tables = [self.top / "out" / name for name in ("all.csv", "before.csv")]
        self.ask("--all", "--against", tables[1], "--dir", self.top / "out", plan=tables[0])
        in_order = lambda rows: sorted(rows, key=lambda row: tuple(row.values()))
        self.assertEqual(in_order(self.table("against.csv")), in_order(by_plan))
        shown = lambda name: in_order(self.page(name).table_named("cases in which"))
        self.assertEqual(shown("against.html"), shown("all.html"))
        self.assertIn(b"is compared with another one", self.ask("--all", plan=tables[0], wanted=1).stderr)
        gains, loses = self.wanted("before.csv", "all.csv")
        found = lambda change: {(row["Failures"], row["Circuit"]) for row in by_plan if row["Change"] == change}
        there = [{row["Failures"] for row in self.table(name)} for name in ("before.csv", "all.csv")]
        self.assertEqual((found("gains"), found("loses")), (set(), loses))
        self.assertEqual({row for row, _ in gains} & there[1], set())
        self.assertTrue(loses)
        self.assertIn("Gain, as they survive here and are lost there in some case: none.", words)
        self.assertIn(f"0 cases are only here, and {len(there[0] - there[1])} only there; nothing is said of them.", words)

    def test_circuits_and_cases_of_one_alone(self):
        other = self.top / "other.toml"
        other.write_text(document([("near", 5, 2, 1), ("new", 9, 4, 2)]))
        rows, words = self.rows("--against", other)
        self.assertEqual(rows, [])  # `near` leads as before, and each circuit by itself
        self.assertIn("Only here: far, round, back.", words)
        self.assertIn("Only there: new.", words)
        self.assertIn("Each customer leads the same way round as there, in the same slot.", words)
        other.write_text(document([("near", 2, 5, 1)]))
        rows, words = self.rows("--against", other)
        gains, loses = ({row["Failures"] for row in rows if row["Change"] == change} for change in ("gains", "loses"))
        self.assertEqual((gains, loses), (set(), set()))  # the same two arcs, the other way round
        self.assertIn("span 5-2", {row["Failures"] for row in rows if (row["Other"], row["This"]) == ("kept", "over")})
        self.assertIn("Other way : 1 customer leads the other way round than there: near.", words)
        self.assertIn("Over protection in some case here or there, and on their own arc in the other: near.", words)
        shown = self.page("all.html").table_named("cases in which")
        self.assertEqual({row["customer"]: int(row["each failure alone: other way"]) for row in shown}, {"near": sum(row["Depth"] == "1" for row in rows)})
        other.write_text(document([("near", 5, 2, 2), ("far", 2, 4, 1)]))
        self.assertIn("Other slot : 1 customer lies in another slot than there: near.", self.rows("--against", other)[1])
        (self.top / "out" / "all.csv").rename(self.top / "last.csv")
        self.assertIn("Whether customers lead the other way round, or lie in another slot, isn't in a table.", self.rows("--against", self.top / "last.csv")[1])


class Many(Asking):
    """Several plans and folders."""

    def test_each_plan_of_a_folder_has_a_folder(self):
        rings = self.top / "rings"
        rings.mkdir()
        for name in ("north", "south"):
            (rings / f"{name}.toml").write_text(document())
        (rings / "bad.toml").write_text("rate = 5\n")
        ended = self.ask("--all", "--teller", TELLER, "--frames", "0", plan=rings, wanted=1)
        self.assertIn("bad.toml: ", ended.stderr.decode())
        written = [str(self.top / "out" / f"{name}.whatif" / f"all.{kind}") for name in ("north", "south") for kind in ("csv", "json", "html")]
        self.assertEqual([line for line in ended.stdout.decode().splitlines() if line.startswith(str(self.top))], written)
        self.assertEqual(*((self.top / "out" / f"{name}.whatif" / "all.csv").read_text() for name in ("north", "south")))

    def test_refusals(self):
        empty, other = self.top / "empty", self.top / "other"
        empty.mkdir(), other.mkdir()
        (other / "plan.toml").write_text(document())
        self.assertIn(b"no file .toml is in this folder", self.ask("--all", plan=empty, wanted=1).stderr)
        self.assertIn(b"two plans have one name, plan", self.ask("--all", other, wanted=1).stderr)


if __name__ == "__main__":
    unittest.main()
