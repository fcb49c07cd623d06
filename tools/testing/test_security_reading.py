"""What is read once and said of that alone: plans that are swapped while they run, names that read like origins, tables that don't add up, folders with links."""

import csv
import hashlib
import hmac
import os
import pickle
import re
import shutil
import threading
import time
import unittest
from pathlib import Path

from common import TOOLS, bytes_of, call
from test_runs import WORKS, WORKS_OUT
from test_security_folders import SPANS, Place
from test_whatif_all import TELLER

from ringtools import files
from ringtools.against import cases_of_table
from ringtools.build import sum_of
from ringtools.files import FileProblem, Found, begin_run, found_in, read_input
from ringtools.kept import Store
from ringtools.now.alarms import read_alarms
from ringtools.now.records import of_line
from ringtools.origin import find_program
from ringtools.places import why_no_place
from ringtools.plan import read_plan
from ringtools.plans import beside, plans_of
from ringtools.running import run_one
from ringtools.seals import is_sealed, key, seal_of
from ringtools.tables import TableProblem
from ringtools.writing import named_folder

IS_ROOT = os.geteuid() == 0
TOP = TOOLS.parent
ORIGIN = "sdhoutage 0.3.0, commit f6e0732b8f03, sources 219b230294b4, proved"
HEAD = "Failures,Depth,Kept,Impaired,Over,Lost,Impaired circuits,Over circuits,Lost circuits\n"


class Swapped(Place):
    """A plan in a folder that another account can write is swapped while its case runs."""

    def swapping(self, there: Path) -> str:
        """A program that puts another plan in the place of its case's while it runs, and writes what it was given."""
        program = self.top / "swapping"
        program.write_text(f"#!/bin/sh\ncat\necho swapped > {there}\n")
        program.chmod(0o755)
        return str(program)

    def test_what_is_sealed_is_what_was_fed(self) -> None:
        store = Store(named_folder(self.top / "cases"), find_program([self.swapping(self.top / "cases" / "a.toml")]))
        store.put_plan("a", b"true")
        run_one(store, "a")
        self.assertEqual((self.top / "cases" / "a.toml").read_text(), "swapped\n")
        self.assertEqual((store.answer("a").plan, store.text("a")), (sum_of(b"true"), b"true"))

    def test_what_is_fed_is_what_was_put(self) -> None:
        """The file of a case is for people: who changes it before the program is started changes nothing."""
        store = Store(named_folder(self.top / "cases"), find_program(["/bin/cat"]))
        store.put_plan("a", b"true")
        store.program = find_program([self.swapping(self.top / "other")])
        (self.top / "cases" / "a.toml").write_text("a lie")
        run_one(store, "a")
        self.assertEqual(store.text("a"), b"true")

    def test_a_swap_that_is_undone_leaves_no_answer_to_another_plan(self) -> None:
        """The plan that was fed to the program is the one about which its answer is kept, whoever writes in the folder meanwhile."""
        lied = threading.Event()
        place = self.top / "out" / "outages"

        def swap() -> None:
            while not lied.is_set():
                for path in place.glob("span-*.toml"):
                    true = path.read_bytes()
                    path.write_bytes(true.replace(b'"cut ', b'"clear ').replace(b'"mend ', b'"clear '))
                    time.sleep(0.005)
                    path.write_bytes(true)
                time.sleep(0.005)

        thread = threading.Thread(target=swap)
        thread.start()
        self.addCleanup(lambda: (lied.set(), thread.join()))
        ended = call("sdhring-whatif", "--outages", "--kinds", "span", "--dir", "out", "ring.toml", cwd=self.top)
        lied.set()
        thread.join()
        alone = call("sdhring-whatif", "--outages", "--kinds", "span", "--dir", "alone", "ring.toml", cwd=self.top)
        self.assertEqual((ended.returncode, ended.stdout.replace(b"out/", b"alone/")), (alone.returncode, alone.stdout), ended.stderr)

    def test_a_seal_of_before_is_none(self) -> None:
        """Seals of releases that read a plan twice may be of other plans."""
        self.assertTrue(is_sealed("x", seal_of("x")))
        self.assertFalse(is_sealed("x", hmac.new(key(), b"x", hashlib.sha256).hexdigest()))


class Once(Place):
    """A file that is read twice in a run is the same bytes, or the run ends."""

    def setUp(self) -> None:
        super().setUp()
        self.addCleanup(files.WATCHING.__setitem__, 0, False)

    def test_a_file_that_changes_is_refused(self) -> None:
        begin_run()
        read_input(str(self.plan))
        self.assertEqual(read_input(str(self.plan)), self.plan.read_bytes())
        self.plan.write_bytes(b"other")
        with self.assertRaisesRegex(FileProblem, "ring.toml: it has changed since this run began"):
            read_input(str(self.plan))
        begin_run()
        self.assertEqual(read_input(str(self.plan)), b"other")

    def test_a_plan_of_a_network_that_changes_is_refused(self) -> None:
        """A program that changes the plan of a ring, of which a checksum was taken for the parts that are kept."""
        (self.top / "tables").mkdir()
        (self.top / "tables" / "rings.csv").write_text("ring,rate,places\nNorth,4,A;B;C\n")
        (self.top / "tables" / "circuits.csv").write_text("name,from,to\none,A,C\n")
        self.call("sdhring-network", "import", "tables", "--to", "net")
        plan = self.top / "net" / "rings" / "north.toml"
        teller = self.top / "teller"
        teller.write_text(f"#!/bin/sh\necho '# more' >> {plan}\nexec {TELLER} \"$@\"\n")
        teller.chmod(0o755)
        ended = self.call("sdhring-network", "whatif", "net", "--dir", "out", "--parts", "1", "--teller", str(teller), status=1)
        self.assertIn(b"north.toml: it has changed since this run began", ended.stderr)


class Origins(Place):
    """No name of a file reads as an origin."""

    def test_a_text_of_outages(self) -> None:
        shutil.copy(WORKS_OUT, self.top / ORIGIN)
        for words in (("--outages", ORIGIN, *WORKS), ("--signalling", "--outages", ORIGIN, WORKS[0])):
            page = self.call("sdhring-view", *words).stdout.decode()
            self.assertIn(f"it isn't known who or which program wrote this, the file <code>{ORIGIN}</code>, whose checksum is <code>{sum_of(WORKS_OUT.read_bytes())}</code>", page)

    def test_a_program_with_a_slash_is_that_file(self) -> None:
        """And one without is that of the PATH, whatever lies in the present folder."""
        for name in ("sdhring", "sdhwhatif"):
            program = self.top / name
            program.write_text("#!/bin/sh\necho this file ran >&2\nexit 9\n")
            program.chmod(0o755)
        env = os.environ | {"PATH": f"{Path(__file__).resolve().parents[2]}:{os.environ['PATH']}"}
        for tool, option, name in (("sdhring-view", "--program", "sdhring"), ("sdhring-desk", "--teller", "sdhwhatif")):
            ended = call(tool, option, f"./{name}", "ring.toml", cwd=self.top, env=env)
            self.assertIn(b"this file ran", ended.stderr, tool)
            ended = call(tool, option, name, "ring.toml", cwd=self.top, env=os.environ | {"PATH": "/usr/bin:/bin"})
            self.assertNotIn(b"this file ran", ended.stderr, tool)
            self.assertIn(b"No such file", ended.stderr, tool)


class Tables(Place):
    """A table of all cases whose rows don't add up is refused; of any other it is said that anybody may have written it."""

    GOOD = "nothing,0,2,0,0,0,,,\nspan 1-2,1,0,0,1,1,,c1,c2\n"

    def table(self, rows: str, name: str = "t.csv") -> str:
        (self.top / name).write_text(HEAD + rows)
        return name

    def test_rows_that_do_not_add_up(self) -> None:
        for row, why in (
            ("span 2-3,1,3,0,0,1,,,c1\n", "Kept, Impaired, Over and Lost are 4 together, and 2 in the rows before"),
            ("span 2-3,1,1,0,0,1,,,\n", "`Lost` is 1, and 0 circuits are named"),
            ("span 2-3,1,1,0,0,1,,,c1 c2\n", "`Lost` is 1, and 2 circuits are named"),
            ("span 2-3,1,0,0,1,1,,c1,c1\n", "a circuit is named twice"),
            ("span 2-3,2,2,0,0,0,,,\n", "`Depth` is 2, and the failures are 1"),
            ("span 1-2,1,2,0,0,0,,,\n", "the case stood before"),
            ("span 2-3,1,x,0,0,0,,,\n", "are to be numbers"),
            ("span 2-3,1,1,0,0,1,,,c3\n", "more circuits are named than the 2 that these are"),
        ):
            with self.subTest(row=row), self.assertRaises(TableProblem) as found:
                cases_of_table(str(self.top / self.table(self.GOOD + row)))
            self.assertIn("row 4: it doesn't add up: ", str(found.exception))
            self.assertIn(why, str(found.exception))

    def test_the_origin_of_two_tables_alone(self) -> None:
        this, other = self.table(self.GOOD), self.table(self.GOOD.replace("0,0,1,1,,c1,c2", "1,0,0,1,,,c1"), ORIGIN + ".csv")
        ended = self.call("sdhring-whatif", "--all", "--against", other, "--dir", "out", this)
        self.assertIn(f"{ORIGIN}.csv: a table, and it isn't known who wrote it".encode(), ended.stderr)
        page = (self.top / "out" / "against.html").read_text()
        for name in (this, other):
            self.assertIn(f"it isn't known who or which program wrote this, the file <code>{name}</code>, whose checksum is <code>{sum_of((self.top / name).read_bytes())}</code>", page)
        self.assertIn(f"<h1><code>{this}</code> beside <code>{other}</code></h1>", page)

    def test_the_origin_beside_a_plan(self) -> None:
        words = ("--all", "--depth", "single", "--frames", "0", "--teller", TELLER, "--dir")
        self.call("sdhring-whatif", *words, "first", "ring.toml")
        shutil.copy(self.top / "first" / "all.csv", self.top / "t.csv")
        self.call("sdhring-whatif", *words, "second", "--against", "t.csv", "ring.toml")
        page = (self.top / "second" / "all.html").read_text()
        self.assertIn(f"the file <code>t.csv</code>, whose checksum is <code>{sum_of((self.top / 't.csv').read_bytes())}</code>", page)
        self.call("sdhring-whatif", *words, "third", "--against", "ring.toml", "ring.toml")
        page = (self.top / "third" / "all.html").read_text()
        self.assertIn(f"the same program was asked about the plan <code>ring.toml</code>, whose checksum is <code>{sum_of(self.plan.read_bytes())}</code>", page)

    def test_tables_of_a_network(self) -> None:
        (self.top / "tables").mkdir()
        (self.top / "tables" / "rings.csv").write_text("ring,rate,places\nNorth,4,A;B;C\nSouth,4,C;D;E\n")
        (self.top / "tables" / "circuits.csv").write_text("name,from,to\none,A,C\ntwo,B,D\n")
        self.call("sdhring-network", "import", "tables", "--to", "net")
        whatif = ("sdhring-network", "whatif", "net", "--teller", TELLER, "--dir")
        self.call(*whatif, "before")
        ended = self.call(*whatif, "now", "--against", "before")
        self.assertIn(b"beside before: tables, and it isn't known who wrote them", ended.stderr)
        lost, singles = (self.top / "before" / f"{name}.csv" for name in ("lost", "singles"))
        good = {path: path.read_text() for path in (lost, singles)}
        for path, text, why in (
            (lost, re.sub(r"(?m)^single,.*\n", "", good[lost], count=1), "are lost here, and"),
            (lost, good[lost].replace(",one,", ",three,"), "`three` is in no other of the tables"),
            (lost, good[lost].replace(",lost,", ",gone,"), "`gone` is neither lost nor impaired"),
            (singles, good[singles] + good[singles].splitlines()[1] + "\n", "stands twice"),
            (singles, good[singles].replace(",0,0,", ",1,0,"), "aren't the 2 customers"),
        ):
            path.write_text(text)
            ended = self.call(*whatif, "now", "--against", "before", status=1)
            self.assertIn(why.encode(), ended.stderr)
            path.write_text(good[path])


class Kept(Place):
    def test_a_table_of_interruptions_marks_kept_answers(self) -> None:
        answers = []
        for _ in range(2):
            self.call("sdhring-whatif", "--outages", "--kinds", "span", "--dir", "out", "ring.toml")
            with open(self.top / "out" / "interruptions.csv", newline="", encoding="utf-8") as file:
                answers.append({row["Answer"] for row in csv.DictReader(file)})
        self.assertEqual(answers, [{"run"}, {"kept"}])


class Numbers(Place):
    """A place whose name is a number is read by no tool, so that all read one list one way."""

    TOLD = "line 1: node 3 is named 2, and a number alone, or beside words such as node and east, would be read as an identifier; so no names"

    def setUp(self) -> None:
        super().setUp()
        self.plan.write_bytes(b"# node 3 is 2\n# node 2 is 3\n# node 1 is Bonn\n" + self.plan.read_bytes())

    def test_each_tool_reads_2_as_node_2(self) -> None:
        (self.top / "list").write_text("LOS node 2 east\n")
        now = self.call("sdhring-now", "--alarms", "list", "--teller", TELLER, "ring.toml")
        self.assertIn(self.TOLD, now.stderr.decode())
        self.assertIn("repair first: span 2–3: ", now.stdout.decode())
        works = self.call("sdhring-whatif", "--works", "forced 2 east", "--all", "--depth", "single", "--frames", "0", "--teller", TELLER, "--dir", "out", "ring.toml")
        self.assertIn(self.TOLD, works.stderr.decode())
        self.assertIn("forced 2 east", (self.top / "out" / "all.toml").read_text())
        for words in (("sdhring-view", "--to", "pages"), ("sdhring-explain",)):
            ended = self.call(*words, "ring.toml")
            self.assertIn(self.TOLD, (ended.stdout + ended.stderr).decode())
        self.assertNotIn("Bonn", (self.top / "pages" / "ring.html").read_text())
        (self.top / "list").write_text("LOS Bonn east\n")
        self.assertIn("names no node", self.call("sdhring-now", "--alarms", "list", "--teller", TELLER, "ring.toml", status=6).stdout.decode())
        (self.top / "spans.csv").write_text(SPANS)
        for words in (("sdhring-desk", "ring.toml"), ("sdhring-availability", "ring.toml", "spans.csv")):
            self.assertIn("node 3 is named 2", self.call(*words, status=1).stderr.decode())

    def test_capture_says_so_too(self) -> None:
        ended = call("sdhring-capture", "--node", "Bonn", "--side", "east", "--rounds", "1:2", "ring.toml", cwd=self.top)
        self.assertIn(self.TOLD, ended.stderr.decode())
        self.assertIn("--node Bonn: this is no node of the ring", ended.stderr.decode())

    def test_names_that_read_like_identifiers(self) -> None:
        for name in ("2", "-2", "02", "#2", "node 2", "NE 2", "2 east", "2-3", "2>3", "span 2-3", "\uff12", "East", "ost"):
            with self.subTest(name=name):
                self.assertIsNotNone(why_no_place(name))
                plan = read_plan(f"# node 1 is {name}\n".encode() + bytes_of("span-cut")[0])
                self.assertEqual((plan.places.nodes, bool(plan.unnamed)), ({}, True))
        for name in ("Bonn 2", "Köln", "2. Bezirk", "Site 2", "E", "East Ham", "N2 Road"):
            self.assertIsNone(why_no_place(name), name)

    def test_two_nodes_of_one_name(self) -> None:
        plan = read_plan("# node 1 is Bonn\n# node 2 is BONN\n".encode() + bytes_of("span-cut")[0])
        self.assertEqual(plan.unnamed, "nodes 1 and 2 are both named BONN")

    def test_a_rule_about_a_customer_of_several_circuits_is_about_all(self) -> None:
        data = (TOP / "examples" / "before-works.toml").read_bytes()
        (self.top / "both.toml").write_bytes(b"# circuit north is Bank\n# circuit works is Bank\n" + data)
        words = ("sdhring-whatif", "--teller", TELLER, "--without-script", "--require")
        for name, breaking in (("north", 2), ("works", 2), ("Bank", 3)):
            said = self.call(*words, f"single node: {name} not lost", "both.toml", status=1).stdout.decode()
            self.assertIn(f",broken,4,{breaking},", said)
        (self.top / "both.toml").write_bytes(b"# circuit north is works\n" + data)
        self.assertIn("works is a circuit, and the name of the customer of north", self.call(*words, "single span: works not lost", "both.toml", status=1).stdout.decode())

    def test_what_is_no_number_of_a_node_is_refused_by_name(self) -> None:
        plan = read_plan(bytes_of("span-cut")[0])
        for text, wrong in (("node -1 east LOS", "-1"), ("LOS node 1.5 east", "1.5"), ("LOS node +2 east", "+2"), ("LOS ne 2x east", "2x"), ("LOS node \u0662 east", "\u0662")):
            read = read_alarms(plan, [of_line(1, text)], [])
            self.assertEqual([why for _, why in read.unread], [f"`{wrong}` is no node of the ring"], text)
        for text in ("LOS -2 east", "LOS 2.5 east"):
            self.assertEqual(read_alarms(plan, [of_line(1, text)], []).alarms, [], text)
        for text in ("LOS node 2 east", "LOS node-2 east", "LOS NE2 east", "LOS node #2 east", "LOS 2 east"):
            self.assertEqual([alarm.words(plan) for alarm in read_alarms(plan, [of_line(1, text)], []).alarms], ["LOS, 2 east, towards 3"], text)

    def test_a_letter_that_is_a_place_and_a_side(self) -> None:
        plan = read_plan(b"# node 3 is E\n# node 2 is A\n" + bytes_of("span-cut")[0])
        for text in ("LOS 4 E", "LOS A E"):
            read = read_alarms(plan, [of_line(1, text)], [])
            self.assertEqual([why.partition(":")[0] for _, why in read.unread], ["`e` may be the place of that name, or the side east"], text)
        self.assertEqual([alarm.words(plan) for alarm in read_alarms(plan, [of_line(1, "LOS span A-E")], []).alarms], ["LOS, span 2–3 (A–E)"])


class Folders(Place):
    """All that a folder has is read or told, and no link out of it is followed."""

    def setUp(self) -> None:
        super().setUp()
        folder = self.top / "f"
        folder.mkdir()
        (self.top / "secret.toml").write_bytes(self.plan.read_bytes())
        shutil.copy(self.plan, folder / "a.toml")
        (folder / "inside.toml").symlink_to("a.toml")
        (folder / "dangling.toml").symlink_to("nowhere")
        (folder / "loop.toml").symlink_to("loop.toml")
        (folder / "out.toml").symlink_to("../secret.toml")
        (folder / "device.toml").symlink_to("/dev/zero")
        os.mkfifo(folder / "fifo.toml")
        (folder / "folder.toml").mkdir()
        self.odd = ["dangling", "loop", "out", "device", "fifo", "folder"]
        if not IS_ROOT:
            shutil.copy(self.plan, folder / "closed.toml")
            (folder / "closed.toml").chmod(0)
            self.odd.append("closed")

    def test_each_entry_that_is_not_read_is_told_and_in_the_status(self) -> None:
        for tool, words in (
            ("sdhring-explain", ("f",)),
            ("sdhring-desk", ("--to", "desks", "f")),
            ("sdhring-view", ("--to", "pages", "f")),
            ("sdhring-whatif", ("--require", "nothing: none lost", "f")),
            ("sdhring-whatif", ("--all", "--depth", "single", "--frames", "0", "--dir", "out", "f")),
        ):
            with self.subTest(tool=tool):
                ended = self.call(tool, *words, status=1)
                said = (ended.stdout + ended.stderr).decode()
                for name in self.odd:
                    self.assertIn(f"f/{name}.toml: ", said)
                self.assertIn("secret.toml, out of the folder f, and no link out of a folder is followed: name that file itself", said)
                self.assertIn("f/dangling.toml: it is a link to nowhere", said)
        self.assertEqual({path.stem for path in (self.top / "desks").iterdir()}, {"a", "inside", "index"})

    def test_a_folder_that_cannot_be_listed_is_told(self) -> None:
        with self.assertRaisesRegex(FileProblem, "none: Not a directory|none: No such file"):
            plans_of([str(self.top / "none")]) and read_input(str(self.top / "none"))

    def test_a_table_beside_a_plan(self) -> None:
        """One that can't be read, or leads out of the folder, is no page without availability."""
        (self.top / "rates.csv").write_text(SPANS)
        folder = self.top / "g"
        folder.mkdir()
        shutil.copy(self.plan, folder / "p.toml")
        table = folder / "p.spans.csv"
        for put, why in (
            (lambda: os.mkfifo(table), "it is a pipe"),
            (lambda: table.symlink_to("nowhere"), "it is a link to nowhere"),
            (lambda: table.symlink_to("../rates.csv"), "out of the folder"),
            (lambda: table.symlink_to("/etc/passwd"), "out of the folder"),
        ):
            put()
            for words in (("sdhring-desk", "--to", "desks", "g"), ("sdhring-availability", "g"), ("sdhring-availability", "g/p.toml")):
                said = self.call(*words, status=1).stderr.decode()
                self.assertIn(why, said)
                self.assertNotIn("root:", said)
            table.unlink()
        table.symlink_to("rates.csv")
        shutil.copy(self.top / "rates.csv", folder)
        self.call("sdhring-availability", "g")
        (self.top / "link.csv").symlink_to("rates.csv")
        self.call("sdhring-availability", "g/p.toml", "link.csv")

    def test_tables_that_are_imported(self) -> None:
        folder = self.top / "t"
        folder.mkdir()
        (self.top / "nodes.csv").write_text("place\nA\nB\nC\n")
        (folder / "r.circuits.csv").write_text("name,from,to\none,A,C\n")
        (folder / "r.nodes.csv").symlink_to("../nodes.csv")
        (folder / "x.circuits.csv").symlink_to("nowhere")
        shutil.copy(self.top / "nodes.csv", folder / "x.nodes.csv")
        said = self.call("sdhring-plan", "import", "t", "--to", "plans", status=1).stderr.decode()
        self.assertIn("nodes.csv, out of the folder t", said)
        self.assertIn("t/x.circuits.csv: it is a link to nowhere", said)
        (folder / "r.nodes.csv").unlink()
        shutil.copy(self.top / "nodes.csv", folder / "r.nodes.csv")
        (self.top / "old").mkdir()
        (self.top / "old" / "r.toml").symlink_to("../ring.toml")
        said = self.call("sdhring-plan", "import", "t", "--keep", "old", "--to", "plans", status=1).stderr.decode()
        self.assertIn("ring.toml, out of the folder old", said)

    def test_the_files_of_a_network(self) -> None:
        tables = self.top / "tables"
        tables.mkdir()
        (tables / "rings.csv").write_text("ring,rate,places\nNorth,4,A;B;C\n")
        (tables / "circuits.csv").write_text("name,from,to\none,A,C\n")
        self.call("sdhring-network", "import", "tables", "--to", "net")
        inner = self.top / "net" / "rings" / "north.toml"
        inner.rename(self.top / "north.toml")
        inner.symlink_to("../../north.toml")
        for words in (("room", "net"), ("whatif", "net", "--dir", "o", "--teller", TELLER), ("page", "net", "--to", "pages", "--teller", TELLER), ("import", "tables", "--keep", "net", "--to", "new")):
            said = self.call("sdhring-network", *words, status=1).stderr.decode()
            self.assertIn("north.toml, out of the folder net", said)
        (tables / "spans.csv").symlink_to("/etc/passwd")
        self.assertIn("out of the folder tables", self.call("sdhring-network", "import", "tables", "--to", "new", status=1).stderr.decode())
        (tables / "spans.csv").unlink()
        os.mkfifo(tables / "spans.csv")
        self.assertIn("spans.csv: it is a pipe", self.call("sdhring-network", "import", "tables", "--to", "new", status=1).stderr.decode())
        self.assertFalse((self.top / "new").exists())

    def test_a_link_that_the_user_names_is_followed(self) -> None:
        (self.top / "mine.toml").symlink_to("f/a.toml")
        self.call("sdhring-explain", "mine.toml")
        self.assertIsNone(beside("mine.toml", "spans"))

    def test_a_name_that_was_found_knows_its_folder(self) -> None:
        """Also where it goes to another process."""
        found = pickle.loads(pickle.dumps(found_in("f", "a.toml")))
        self.assertEqual((found, found.folder, type(found)), ("f/a.toml", "f", Found))

    def test_what_lies_beside_a_new_plan_and_is_not_looked_at_is_told(self) -> None:
        (self.top / "r.circuits.csv").write_text("name,from,to\none,A,C\n")
        (self.top / "r.nodes.csv").write_text("place\nA\nB\nC\n")
        said = self.call("sdhring-plan", "import", "r.circuits.csv", "--to", "f/new.toml").stderr.decode()
        self.assertIn("beside it, and not looked at for circuits that move: " + ", ".join(f"{name}.toml" for name in sorted(self.odd)), said)


if __name__ == "__main__":
    unittest.main()
