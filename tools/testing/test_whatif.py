"""sdhring-whatif over small rings, counted against the restoration model by its definitions."""

import hashlib
import re
import shutil
import signal
import subprocess
import sys
import time
import tomllib
import unittest
from collections import Counter

from cases import CIRCUITS, Asking, document, expected, failures, script_of
from common import STANDIN, TOOLS, call_without_processes, ring
from pages import BROWSER, Seen, browsed
from rules import Rules


class Whatif(Asking):
    def check_rows(self, rows, also=()):
        """Every row against the model, and that no failure is missing."""
        wanted = failures()
        self.assertEqual(Counter(row["Case"] for row in rows), Counter({name: 4 for name in wanted}))
        by_case = {name: self.rules_of(cut, also) for name, cut in wanted.items()}
        for row in rows:
            last = 128 * (1 + ["before", "failed", "mended", "waited"].index(row["Stage"]))
            cells = expected(by_case[row["Case"]], last)
            with self.subTest(case=row["Case"], stage=row["Stage"]):
                self.assertEqual({name: row[name] for name in cells}, cells)
                self.assertEqual(int(row["Lost"]), sum(cell == "lost" for cell in cells.values()))
                self.assertEqual(int(row["Over"]), sum(cell.startswith("over") for cell in cells.values()))
                self.assertEqual([int(row[count]) for count in ("Kept", "Impaired")], [sum(cell == kind for cell in cells.values()) for kind in ("kept", "impaired")])
                self.assertEqual((row["Status"], row["Model"], int(row["Round"])), ("Ok", "agrees", last))

    def rules_of(self, cut, also):
        return Rules(tomllib.loads(document()) | {"script": script_of(cut, also)}, [128, 256, 384, 512])

    def test_a_ring_of_four(self):
        said = self.ask().stderr.decode()
        self.assertRegex(said, r"22 cases to run, \d+ at a time: about \d+ (s|min); Ctrl-C stops")
        self.assertLess(said.index("22 cases to run"), said.index("0 of 22 cases, 0 s gone, about "))
        self.assertIn("22 of 22 cases, ", said)
        rows = self.table()
        self.check_rows(rows)
        words = self.words()
        self.assertIn("22 failures of a ring with 4 circuits were run: 8 fibres, 4 spans, 4 nodes, 6 pairs of spans.", words)
        self.assertIn("Each circuit survives every single fibre or span: near, far, round, back.", words)
        self.assertIn("With a lost node the circuits that end there are lost, and no other.", words)
        self.assertIn("88 of the 88 reports that were asked for came and agree with the restoration model.", words)
        failed = [row for row in rows if row["Kind"] == "pair" and row["Stage"] == "failed"]
        pairs = Counter(row["Failure"] for row in failed for name, *_ in CIRCUITS if row[name] == "lost")
        most = max(pairs.values())
        self.assertIn(f"The worst pairs , with {most} circuits lost: " + ", ".join(name for name in pairs if pairs[name] == most) + ".", words)
        self.check_page(rows)
        self.check_parts()

    def check_page(self, rows):
        """The page's tables tell the same as the rows: customers, failures kind by kind, and the matrix."""
        page, failed = self.page(), [row for row in rows if row["Stage"] == "failed"]
        taken = {row["Failure"]: [name for name, *_ in CIRCUITS if row[name] == "lost"] for row in failed}
        for row in page.table_with("failure", "customers that are lost"):
            names = taken[row["failure"].replace("\u2060", "")]
            self.assertEqual(row["customers that are lost"], f"{len(names)} lost: {', '.join(names)}" if names else "none lost")
        for row in page.table_with("customer", "in short"):
            pairs = [r for r in failed if r["Kind"] == "pair" and r[row["customer"]] == "lost"]
            self.assertTrue(row["lost with pairs of spans"].startswith(f"{len(pairs)} of 6"), row)
            self.assertEqual((row["in short"], row["lost with fibres and spans"]), ("survives each fibre and span", "none of 12"))
        signs = {"kept": "·", "impaired": "i", "lost": "✕", "over+0": "="}
        for row in page.table_with("failure", "near"):
            cells = next(r for r in failed if r["Failure"] == row["failure"].replace("\u2060", ""))
            self.assertEqual([row[name] for name, *_ in CIRCUITS], [signs.get(cells[name], cells[name].removeprefix("over")) for name, *_ in CIRCUITS])
        self.check_filter(page, taken)
        self.check_links(page)

    def check_filter(self, page, taken):
        """What the filter reads: each failure once in its kind and once in the matrix, with the circuits that are lost in it."""
        found = Counter((row["data-words"], row["data-taken"]) for row in page.all("tr") if "data-words" in row)
        self.assertEqual(found, Counter({(words, " ".join(names)): 2 for words, names in taken.items()}))
        self.assertEqual(len(page.all("option")), 1 + len(CIRCUITS))

    def check_links(self, page):
        """Each failure leads to a page with one drawing, of the stage in which it has settled."""
        links = {found["href"] for found in page.all("a") if found["href"].startswith("cases/")}
        self.assertEqual(links, {f"cases/{name}.html" for name in failures()})
        for link in links:
            drawn = (self.top / "out" / link).read_text()
            self.assertEqual(drawn.count('<figure class="figure">'), 1)
            self.assertIn("Settle step 2, round 256", drawn)

    def check_parts(self):
        """Parts of what was run, put one after the other, are the whole; and nothing is run again."""
        whole, before = (self.top / "out" / "table.csv").read_text(), self.times()
        parts = []
        for k in (1, 2):
            self.ask("--shard", f"{k}/2")
            parts.append((self.top / "out" / f"table-{k}-of-2.csv").read_text().split("\n", 1))
        self.assertEqual("\n".join([parts[0][0], "".join(rows for _, rows in parts)]), whole)
        self.assertEqual(before, self.times())

    def test_steps_before(self):
        self.ask("--also", "manual 2 east;  forced 9 east")
        self.check_rows(self.table(), ["manual 2 east", "forced 9 east"])

    def test_kinds_and_standard_input(self):
        self.ask("--kinds", "span,node", plan="-", input=document().encode())
        self.assertEqual(Counter(row["Kind"] for row in self.table()), {"span": 16, "node": 16})
        self.assertEqual({row["Plan"] for row in self.table()}, {hashlib.sha256(document().encode()).hexdigest()})
        self.assertIn("8 failures of a ring with 4 circuits were run: 4 spans, 4 nodes.", self.words())

    def test_the_ring_is_the_one_that_the_script_leaves(self):
        """Each case goes on after the plan's own script, and mends to what that left."""
        script = ["settle", "cut 5 east", "settle", "moment 5", "forced 2 east", "settle"]
        self.plan.write_text(document().replace('["settle"]', f"{script}".replace("'", '"')))
        self.ask("--kinds", "fibre,span")
        rows, words = self.table(), re.sub(" ([,.])", r"\1", self.words())
        self.assertIn("After the plan's own script: cut 5 east, moment 5, forced 2 east.", words)
        self.assertIn("72 of the 72 reports that were asked for came and agree with the restoration model.", words)
        case = tomllib.loads((self.cases() / "span-5-2.toml").read_text())["script"]
        self.assertEqual(case, [*script, "cut 5 east", "cut 2 west", "settle", "cut 5 east", "mend 2 west", "settle", "moment 15", "settle"])
        for row in rows:
            script = tomllib.loads((self.cases() / f"{row['Case']}.toml").read_text())["script"]
            rules = Rules(tomllib.loads(document()) | {"script": script}, [128 * (k + 1) for k in range(6)])
            last = 128 * (3 + ["before", "failed", "mended", "waited"].index(row["Stage"]))
            cells = expected(rules, last)
            self.assertEqual(({name: row[name] for name in cells}, int(row["Round"])), (cells, last), row["Case"])
            self.assertEqual(row["Script"], "settle; cut 5 east; settle; moment 5; forced 2 east; settle")
        self.assertIn("Lost before anything fails: ", words)

    def test_the_script_can_be_left_out(self):
        self.plan.write_text(document().replace('["settle"]', '["forced 2 east", "settle"]'))
        said = self.ask("--kinds", "span", "--without-script").stderr.decode()
        self.assertIn("plan.toml: the plan's own script is left out: forced 2 east", said)
        self.assertIn("The plan's own script is left out, as --without-script asks: forced 2 east.", re.sub(" [.]", ".", self.words()))
        self.assertEqual({row["Script"] for row in self.table()}, {"left out"})
        self.assertEqual(tomllib.loads((self.cases() / "span-5-2.toml").read_text())["script"][0], "settle")

    def test_a_script_that_leaves_no_room(self):
        self.plan.write_text(document().replace('["settle"]', f"{['settle'] * 62}".replace("'", '"')))
        self.assertIn(b"a case would have 65 settle steps, and a script has 64 at most; --without-script leaves it out", self.ask(wanted=1).stderr)

    def test_no_date_is_in_the_table(self):
        """So two tables of one ring are the same bytes."""
        self.ask("--kinds", "span")
        table = (self.top / "out" / "table.csv").read_bytes()
        self.ask("--kinds", "span", "--anew")
        self.assertEqual((self.top / "out" / "table.csv").read_bytes(), table)

    def small(self):
        self.plan.write_text(ring("two-nodes")[0].read_text())

    def test_a_case_that_does_not_settle(self):
        self.small()
        ended = self.ask("--kinds", "fibre", "--without-script", program=f"{STANDIN} unsettled", wanted=3)
        rows = [row for row in self.table() if row["Case"] == "fibre-7-east"]
        self.assertEqual([row["Status"] for row in rows], ["Unsettled"] * 4)
        self.assertEqual([(row["Stage"], row["p"]) for row in rows], [("before", "kept"), ("failed", ""), ("mended", ""), ("waited", "")])
        self.assertIn("Unsettled in stage `failed`: `unsettled 2`", self.words())
        self.assertIn("cases didn't settle within the limit", self.words())
        self.assertIn(b"cases didn't settle", ended.stderr)

    def test_a_limit_that_is_too_small(self):
        """Where nothing settles at all there is nothing to write, and one line says what to do."""
        self.plan.write_text(document().replace("limit = 1000", "limit = 128"))
        ended = self.ask(program=self.script("unsettled", "unsettled 1", 7), wanted=3)
        self.assertIn(b"raise `limit` from 128 to 768, which is 64n + 512", ended.stderr)
        self.assertEqual((ended.stdout, (self.top / "out" / "page.html").exists()), (b"", False))
        self.plan.write_text(document().replace("limit = 1000", "limit = 600"))
        ended = self.ask("--kinds", "fibre", program=f"{STANDIN} unsettled", wanted=3)
        self.assertIn(b"warning: cases may not settle: raise `limit` from 600 to 768", ended.stderr)
        self.assertIn("raise `limit` from 600 to 768", self.words())

    def test_other_bytes_are_odd(self):
        self.small()
        self.ask("--kinds", "fibre,pair", program=f"{STANDIN} wrong", wanted=4)
        rows = self.table()
        self.assertEqual({row["p"] for row in rows}, {"odd", "lost"})
        self.assertEqual({(row["p"] == "odd", row["Model"]) for row in rows}, {(True, "differs"), (False, "agrees")})

    def test_pages_without_processes(self):
        """Where no process can be had, as without a shared memory of one's own, pages are drawn one after the other, with the same tables."""
        self.ask("--kinds", "span")
        seen = lambda: {path.name: Seen(path.read_text()).tables for path in self.cases().glob("*.html")}
        pages = seen()
        self.assertEqual(len(pages), 4)
        for path in self.cases().glob("*.html"):
            path.unlink()
        ended = call_without_processes("sdhring-whatif", self.plan, "--dir", self.top / "out", "--program", STANDIN, "--kinds", "span")
        self.assertEqual(ended.returncode, 0, ended.stderr.decode())
        self.assertEqual(seen(), pages)

    def test_stopped_and_taken_up_again(self):
        self.small()
        turns = self.top / "turns"
        turns.mkdir()
        program = f"{STANDIN} takes {turns}"
        give = lambda count: [(turns / str(number)).write_text("") for number in range(count)]
        words = [sys.executable, TOOLS / "sdhring-whatif", self.plan, "--dir", self.top / "out", "--program", program, "--jobs", "2"]
        give(4)
        running = subprocess.Popen(words, stderr=subprocess.PIPE, stdout=subprocess.PIPE)
        while len(self.times()) < 3:
            time.sleep(0.05)
        running.send_signal(signal.SIGTERM)
        while running.poll() is None:  # the two that run come to their end
            give(1)
            time.sleep(0.05)
        _, errors = running.communicate()
        self.assertEqual(running.returncode, 130)
        self.assertIn(b"cases are kept", errors)
        kept = self.times()
        self.assertTrue(3 <= len(kept) < 9, kept)
        give(20)
        self.ask(program=program)
        self.assertEqual({name: time for name, time in self.times().items() if name in kept}, kept)
        self.assertEqual(len(self.table()), 36)

    @unittest.skipUnless(shutil.which("parallel"), "GNU parallel isn't installed")
    def test_with_parallel(self):
        """The same rows; and the kept answers tell the same, of a command as of a program of one file."""
        self.small()
        rows = self.table
        for program in (STANDIN, self.copy("copied")):
            self.ask("--kinds", "span", program=program)
            table = rows()
            self.ask("--kinds", "span", "--anew", "--sshlogin", "4/:", program=program)
            self.assertEqual(rows(), table)
            kept = self.times()
            self.ask("--kinds", "span", program=program)
            self.assertEqual(self.times(), kept)

    def test_many_circuits_are_in_groups(self):
        """Of more than a printed page is wide, each is in one table, in one row of customers, and in the filter."""
        circuits = [(f"c{slot}-{start}", start, (start + 2) % 16, slot) for slot in range(1, 8) for start in range(0, 16, 2)]
        head = f"rate = 16\nnodes = {list(range(16))}\nthreshold = 3\nwait = 10\nlimit = 2000\nscript = ['settle']\n"
        self.plan.write_text(document(circuits, head))
        self.ask("--kinds", "span", "--shard", "1/16")
        page, names = self.page("page-1-of-16.html"), [name for name, *_ in circuits]
        titles = [rows[0][1:] for name, rows in page.tables if name.startswith("Customers ")]
        self.assertEqual([name for group in titles for name in group], names)
        self.assertEqual([len(group) for group in titles], [40, 16])
        self.assertEqual([row["customer"] for row in page.table_with("customer", "in short")], names)

    def test_refusals(self):
        self.assertIn(b"isn't known", self.ask("--also", "lock 2 east", wanted=1).stderr)
        self.assertIn(b"settles the ring itself", self.ask("--also", "settle", wanted=1).stderr)
        self.assertIn(b"K/N with K from 1 to N", self.ask("--shard", "3/2", wanted=1).stderr)
        self.assertIn(b"`triple` is none of", self.ask("--kinds", "span,triple", wanted=1).stderr)
        self.assertIn(b"at least one at a time", self.ask("--jobs", "0", wanted=1).stderr)
        self.assertIn(b"No such file", self.ask(program="/nowhere/sdhring", wanted=1).stderr)
        refused = self.ask("--also", "moment 5; moment 4", program=self.script("refusing", "bad plan 27 at 2", 6), wanted=1)
        self.assertIn(b"bad plan 27 at 2: the moment lies before", refused.stderr)
        self.assertIn(b"line 1: an unknown line", self.ask(program=self.script("greeting", "good morning", 0), wanted=1).stderr)
        self.plan.write_text("rate = 4")
        self.assertIn(b"`nodes` is to be an array", self.ask(wanted=1).stderr)


# What is shown of the failures' tables after each thing that a reader sets.
SETS = """
const told = [], form = document.querySelector("form.filter");
const set = (name, key, value) => { form.elements[name][key] = value; form.dispatchEvent(new Event("input", { bubbles: true })); };
const note = () => { for (const kind of [".failures", ".matrix"])
  told.push([...document.querySelectorAll(kind + " tr[data-words]")].filter((row) => !row.hidden).map((row) => row.dataset.words).sort().join("|")); };
note(); set("customer", "value", "far"); note();
set("words", "value", "5-2"); note(); set("customer", "value", ""); note();
set("words", "value", ""); set("taking", "checked", true); note();
"""


@unittest.skipUnless(BROWSER, "there is no browser")
class Filter(Asking):
    def test_the_filter(self):
        """Each setting shows the same failures in the tables and in the matrix: those that the rows ask for."""
        self.ask("--kinds", "span,pair")
        rows = [row for row in self.table() if row["Stage"] == "failed"]
        shown = lambda fits: "|".join(sorted(row["Failure"] for row in rows if fits(row)))
        far, here = lambda row: row["far"] == "lost", lambda row: "5–2" in row["Failure"]
        wanted = [lambda row: True, far, lambda row: far(row) and here(row), here, lambda row: int(row["Lost"]) > 0]
        self.assertEqual(browsed((self.top / "out" / "page.html").read_text(), SETS), [shown(fits) for fits in wanted for _ in range(2)])
        self.assertTrue(shown(wanted[2]) and shown(wanted[2]) != shown(far))


if __name__ == "__main__":
    unittest.main()
