"""Folders that somebody sends, and folders of others: nothing is written, taken away or run outside of what was named."""

import os
import pwd
import re
import shutil
import stat
import subprocess
import sys
import tempfile
import threading
import unittest
from pathlib import Path

from checkouts import make_checkout, release
from common import STANDIN, TOOLS, bytes_of, call, ring

from ringtools.build import PROGRAMS, sum_of
from ringtools.installing import FILES, OURS, InstallProblem, install, listed, pieces, uninstall
from ringtools.kept import Store
from ringtools.origin import find_program
from ringtools.progress import Progress
from ringtools.running import Machines, run_with_parallel, script_of, take
from ringtools.writing import Folder, WriteProblem, named_folder

IS_ROOT = os.geteuid() == 0
NOBODY = pwd.getpwnam("nobody").pw_uid
SPANS = "from,to,cuts,hours\n1,2,1,4\n2,3,1,4\n3,4,1,4\n4,1,1,4\n"


class Place(unittest.TestCase):
    def setUp(self):
        folder = tempfile.TemporaryDirectory()
        self.addCleanup(folder.cleanup)
        self.top = Path(folder.name)
        self.plan = self.top / "ring.toml"
        self.plan.write_bytes(bytes_of("span-cut")[0])

    def call(self, tool, *words, status=0):
        ended = call(tool, *words, cwd=self.top)
        self.assertEqual(ended.returncode, status, ended.stderr.decode())
        self.assertNotIn(b"Traceback", ended.stderr)
        return ended


class Links(Place):
    """A folder with links in each place that a tool writes to."""

    def link(self, *names):
        """A link at each of these places, to a file of its own outside; returns these files."""
        victims = []
        (self.top / "outside").mkdir()
        for number, name in enumerate(names):
            path, victim = self.top / name, self.top / "outside" / str(number)
            path.parent.mkdir(parents=True, exist_ok=True)
            victim.write_text("mine")
            path.symlink_to(victim)
            victims.append(victim)
        return victims

    def test_no_tool_writes_through_one(self):
        kinds = ("toml", "text", "answer", "part", "html")
        cases = [f"ring.whatif/{folder}/{name}.{kind}" for folder, name in (("cases", "span-1-2"), ("cases", "nothing"), ("outages", "span-1-2"), ("cases", "works"), ("outages", "works")) for kind in kinds]
        all = [f"ring.whatif/all.{kind}" for kind in ("toml", "text", "csv", "json", "html")]
        pages = [f"pages/{name}.html" for name in ("index", "ring")]
        victims = self.link(*cases, *all, *pages, "ring.whatif/table.csv", "ring.whatif/page.html", "ring.whatif/interruptions.csv", "ring.whatif/outages.csv")
        self.call("sdhring-whatif", "--kinds", "span", "ring.toml")
        self.call("sdhring-whatif", "--outages", "--kinds", "span", "ring.toml")
        self.call("sdhring-whatif", "--kinds", "span", "--works", "span 1-2", "ring.toml")
        self.call("sdhring-whatif", "--all", "--depth", "single", "--frames", "0", "ring.toml")
        self.call("sdhring-view", "--to", "pages", "ring.toml")
        self.call("sdhring-desk", "--to", "pages", "ring.toml")
        self.assertEqual({victim.read_text() for victim in victims}, {"mine"})
        self.assertIn("<h1>Rings</h1>", (self.top / "pages" / "index.html").read_text())

    def test_a_folder_that_leads_elsewhere_is_named(self):
        (self.top / "home").mkdir()
        for link, words in (("ring.whatif", ("sdhring-whatif", "--kinds", "span")), ("pages", ("sdhring-view", "--to", "pages")), ("desks", ("sdhring-desk", "--to", "desks"))):
            (self.top / link).symlink_to("home")
            ended = self.call(*words, "ring.toml", status=1)
            self.assertIn(f"{link} is a link to home, and nothing is written through links".encode(), ended.stderr)
        (self.top / "ring.whatif").unlink()
        (self.top / "ring.whatif").mkdir()
        (self.top / "ring.whatif" / "cases").symlink_to("../home")
        self.call("sdhring-whatif", "--kinds", "span", "ring.toml", status=1)
        self.assertEqual(list((self.top / "home").iterdir()), [])

    def test_a_link_on_the_way_that_is_ones_own_is_followed(self):
        (self.top / "real" / "inner").mkdir(parents=True)
        (self.top / "mine").symlink_to("real")
        self.call("sdhring-view", "--to", "mine/pages", "ring.toml")
        self.call("sdhring-desk", "--to", "mine/inner/../desks", "ring.toml")
        self.call("sdhring-plan", "new", "--to", "mine/new.toml", "1>3")
        self.assertEqual(sorted(path.name for path in (self.top / "real").iterdir()), ["desks", "inner", "new.toml", "pages"])
        (self.top / "round").symlink_to("round")
        self.assertIn(b"Too many levels of symbolic links", self.call("sdhring-view", "--to", "round/pages", "ring.toml", status=1).stderr)

    @unittest.skipUnless(IS_ROOT, "another user's link is made by root alone")
    def test_a_link_on_the_way_of_another_user_is_followed_by_none(self):
        """Who writes in a folder of another's choice would write over what is there, as a page over a page of the same name."""
        home, shared = self.top / "home", self.top / "shared"
        home.mkdir()
        shared.mkdir()
        shared.chmod(0o777)
        (shared / "sub").symlink_to(home)
        (shared / "deep").symlink_to("sub")
        for link in ("sub", "deep"):
            os.chown(shared / link, NOBODY, -1, follow_symlinks=False)
        (home / "report.html").write_text("mine")
        (self.top / "list").write_text("LOS node 2 east\n")
        (self.top / "tables").mkdir()
        (self.top / "tables" / "rings.csv").write_text("ring,rate,places\nNorth,4,A;B;C\n")
        (self.top / "tables" / "circuits.csv").write_text("name,from,to\none,A,C\n")
        for link in ("sub", "deep"):
            there = f"shared/{link}"
            for words in (
                ("sdhring-view", "--to", f"{there}/pages", "ring.toml"),
                ("sdhring-desk", "--to", f"{there}/pages", "ring.toml"),
                ("sdhring-now", "--alarms", "list", "--page", f"{there}/report.html", "ring.toml"),
                ("sdhring-whatif", "--kinds", "span", "--dir", f"{there}/w", "ring.toml"),
                ("sdhring-plan", "new", "--to", f"{there}/p.toml", "1>3"),
                ("sdhring-network", "import", "tables", "--to", f"{there}/net"),
            ):
                with self.subTest(words=words):
                    said = self.call(*words, status=1).stderr.decode()
                    self.assertIn(f"`{link}` on the way is a link to", said)
                    self.assertIn("that belongs to nobody, and nothing is written through it", said)
        self.assertEqual(([path.name for path in home.iterdir()], (home / "report.html").read_text()), (["report.html"], "mine"))

    def test_a_new_plan_replaces_nothing(self):
        victim = self.link("new.toml")[0]
        self.call("sdhring-plan", "new", "--to", "new.toml", "1>3", status=1)
        self.assertEqual(victim.read_text(), "mine")

    @unittest.skipUnless(IS_ROOT, "another user's folder is made by root alone")
    def test_a_folder_of_another_is_used_where_it_is_named(self):
        (self.top / "ring.whatif").mkdir()
        os.chown(self.top / "ring.whatif", NOBODY, -1)
        ended = self.call("sdhring-whatif", "--kinds", "span", "ring.toml", status=1)
        self.assertIn(b"ring.whatif belongs to another user", ended.stderr)
        self.call("sdhring-whatif", "--kinds", "span", "--dir", "ring.whatif", "ring.toml")


class Names(Place):
    def test_a_plan_named_index_is_refused(self):
        shutil.copy(self.plan, self.top / "index.toml")
        for tool in ("sdhring-view", "sdhring-desk"):
            ended = self.call(tool, "--to", "pages", "ring.toml", "index.toml", status=1)
            self.assertIn(b"`index.toml` would stand in place of the index", ended.stderr)

    def test_a_name_that_is_no_utf8_stops_nothing(self):
        os.mkdir(self.top / "many")
        shutil.copy(self.plan, os.fsencode(self.top) + b"/many/\xff.toml")
        shutil.copy(self.plan, self.top / "many" / "b.toml")
        for tool, words in (("sdhring-view", ("--to", "v")), ("sdhring-desk", ("--to", "d")), ("sdhring-whatif", ("--all", "--depth", "single", "--frames", "0", "--dir", "w"))):
            self.call(tool, *words, "many")
        for folder in ("v", "d"):
            self.assertEqual(sorted(path.name for path in (self.top / folder).iterdir()), ["-xff.html", "b.html", "index.html"])
            self.assertIn("-xff", (self.top / folder / "index.html").read_text())

    def test_a_name_of_a_file_adds_no_line_to_a_plan(self):
        name = "x\n# node 2 is Evil\n# circuit c1 is Bank"
        self.call("sdhring-plan", "new", "--to", f"{name}.toml", "1>3")
        text = (self.top / f"{name}.toml").read_text()
        self.assertNotRegex(text, "(?m)^# node 2 is|^# circuit")

    def test_messages_of_names_are_lines(self):
        hostile = "\x1b]0;OWNED\x07\nsdhring-view: all is good"
        for tool, words in (("sdhring-explain", ()), ("sdhring-view", ()), ("sdhring-desk", ()), ("sdhring-whatif", ("--kinds", "span")), ("sdhring-report", ("--json",)), ("sdhring-availability", ("x.csv",)), ("sdhring-plan", ("import", "--nodes", "x.csv"))):
            ended = call(tool, *(words if words[:1] == ("import",) else ()), hostile, *(words if words[:1] != ("import",) else words[1:]), cwd=self.top)
            with self.subTest(tool=tool):
                self.assertEqual(ended.stderr.count(b"\n"), 1, ended.stderr)
                self.assertFalse({0x1B, 7} & set(ended.stderr))

    def test_the_checksum_of_a_table_is_of_what_was_read(self):
        (self.top / "spans.csv").write_text(SPANS)
        read, write = os.pipe()
        os.write(write, SPANS.encode())
        os.close(write)
        ended = subprocess.run([sys.executable, TOOLS / "sdhring-desk", "ring.toml", "--spans", f"/dev/fd/{read}"], cwd=self.top, capture_output=True, pass_fds=[read])
        os.close(read)
        self.assertEqual(ended.returncode, 0, ended.stderr)
        self.assertIn(f"/dev/fd/{read}</code>, checksum <code>{sum_of(SPANS.encode())}", ended.stdout.decode())


class Machine(Place):
    """What comes from a machine that --sshlogin names."""

    def store(self):
        store = Store(named_folder(self.top / "cases"), find_program(STANDIN.split()))
        store.put_plan("a", self.plan.read_bytes())
        return store

    def told(self, store, written, **more):
        plan = store.plan("a")
        told = {"status": 0, "plan": sum_of(plan), "text": sum_of(written), "sum": store.program.sum, "date": "2026-01-01T00:00:00Z", "seconds": 1} | more
        return "".join(f"{key} {value}\n" for key, value in told.items())

    def test_a_whole_answer_is_kept_as_anothers_word(self):
        store, folder = self.store(), named_folder(self.top / "away")
        folder.write("a.text", b"done\n")
        folder.write("a.answer", self.told(store, b"done\n"))
        self.assertTrue(take(store, folder, "a", "elsewhere"))
        self.assertEqual((store.answer("a").where, store.text("a")), ("elsewhere", b"done\n"))

    def test_no_other_is_taken(self):
        store, folder = self.store(), named_folder(self.top / "away")
        folder.write("a.text", b"done\n")
        for more in ({"sum": "0" * 64}, {"plan": "0" * 64}, {"text": "0" * 64}, {"date": "2026<img>"}, {"status": "-1"}, {"seconds": "inf"}, {"more": "x"}):
            folder.write("a.answer", self.told(store, b"done\n", **more))
            self.assertFalse(take(store, folder, "a", "elsewhere"), more)
        folder.write("a.answer", self.told(store, b"mine"))
        (self.top / "secret").write_bytes(b"mine")
        (self.top / "away" / "a.text").unlink()
        (self.top / "away" / "a.text").symlink_to(self.top / "secret")
        self.assertFalse(take(store, folder, "a", "elsewhere"))
        self.assertIsNone(store.answer("a"))

    @unittest.skipUnless(shutil.which("parallel"), "there is no GNU parallel")
    def test_parallel_reads_no_word_of_a_program(self):
        place = self.top / f'{{= system("touch {self.top}/pwned".chr(0)) =}} {{}} {{.}}'.replace("/", "\\x2f")
        place.mkdir()
        program = place / "prog"
        program.write_text(f'#!/bin/sh\nexec {STANDIN} "$@"\n')
        program.chmod(0o755)
        store = Store(named_folder(self.top / "cases"), find_program([str(program)]))
        store.put_plan("a", self.plan.read_bytes())
        run_with_parallel(store, ["a"], Machines((":",), 1, ()), Progress(1, 0))
        self.assertEqual((store.answer("a").status, store.answer("a").where), (0, "here"))
        self.assertFalse((self.top / "pwned").exists())

    def test_the_script_for_a_machine_quotes_the_program(self):
        program = find_program(["/bin/echo", "$(touch x); `touch y`; 'z"])
        self.assertIn("'$(touch x); `touch y`; '\"'\"'z' run", script_of(program))


class Installed(Place):
    @classmethod
    def setUpClass(cls):
        folder = tempfile.TemporaryDirectory()
        cls.addClassCleanup(folder.cleanup)
        cls.checkout = Path(folder.name) / "checkout"
        make_checkout(cls.checkout)
        release(cls.checkout)
        shutil.rmtree(cls.checkout / "crates")
        (cls.checkout / "crates.txt").unlink()

    def setUp(self):
        super().setUp()
        self.prefix, self.victim = self.top / "prefix", self.top / "victim"
        self.victim.mkdir()
        (self.victim / "file").write_text("mine")

    def run_it(self, *words, status=0):
        ended = subprocess.run([self.checkout / "sdhring", *words], capture_output=True, text=True, cwd=self.top)
        self.assertEqual(ended.returncode, status, ended.stderr)
        return ended.stderr

    def test_names_that_lead_outside_take_nothing_away(self):
        self.run_it("--install", self.prefix)
        for name in ("../victim/file", str(self.victim / "file"), "lib/sdhring/../../../victim/file", "bin/ls", "share/doc/other/x", "lib/sdhring/./x", ""):
            list_ = self.prefix / FILES
            before = list_.read_text()
            list_.write_text(f"{before}{name}\n")
            self.assertIn("nothing is taken away", self.run_it("--uninstall", self.prefix, status=1))
            self.assertIn("nothing is taken away", self.run_it("--install", self.prefix, status=1))
            list_.write_text(before)
            self.assertTrue((self.prefix / "bin" / "sdhring").exists())
        self.run_it("--uninstall", self.prefix)
        self.assertEqual((self.victim / "file").read_text(), "mine")

    def test_links_on_the_way_take_nothing_away(self):
        self.run_it("--install", self.prefix)
        (self.victim / "__pycache__").mkdir()
        (self.victim / "__pycache__" / "x.pyc").write_text("mine")
        tools = self.prefix / "lib" / "sdhring" / "tools"
        with open(self.prefix / FILES, "a") as file:
            file.write("lib/sdhring/tools/out/file\n")
        (tools / "out").symlink_to(self.victim)
        shutil.rmtree(tools / "ringtools" / "__pycache__", ignore_errors=True)
        (tools / "ringtools" / "__pycache__").symlink_to(self.victim)
        self.assertIn("1 couldn't be", self.run_it("--uninstall", self.prefix, status=82))
        self.assertEqual((self.victim / "file").read_text(), "mine")
        self.assertEqual((self.victim / "__pycache__" / "x.pyc").read_text(), "mine")

    def test_all_that_is_installed_may_be_taken_away(self):
        self.run_it("--install", self.prefix)
        found = listed(named_folder(self.prefix))
        self.assertGreater(len(found.marks), 100)
        self.assertEqual({path for path, mark in found.marks.items() if not OURS.fullmatch(path) or not mark}, set())
        self.assertIn("share/man/man1", found.folders)
        subprocess.run([self.prefix / "bin" / "sdhring-view", "--version"], capture_output=True)
        self.run_it("--uninstall", self.prefix)
        self.assertFalse(self.prefix.exists() and any(self.prefix.iterdir()))

    def test_a_link_in_the_place_of_a_file_or_a_folder(self):
        (self.prefix / "bin").mkdir(parents=True)
        (self.prefix / "bin" / "sdhring").symlink_to(self.victim / "file")
        self.run_it("--install", self.prefix, "--replace")
        self.assertEqual((self.victim / "file").read_text(), "mine")
        shutil.rmtree(self.prefix / "share")
        (self.prefix / "share").symlink_to(self.victim)
        self.assertIn("is a link to", self.run_it("--install", self.prefix, status=82))
        self.assertEqual([path.name for path in self.victim.iterdir()], ["file"])

    def test_files_that_no_install_has_put_there_stay(self):
        for name in ("bin/sdhring-view", "bin/sdhnode", "share/man/man1/sdhnode.1"):
            path = self.prefix / name
            path.parent.mkdir(parents=True, exist_ok=True)
            path.write_text("mine")
        said = self.run_it("--install", self.prefix, status=1)
        self.assertIn(f"bin/sdhnode, bin/sdhring-view, share/man/man1/sdhnode.1 below {self.prefix} are there, and no install put them there as they are; nothing is installed", said)
        self.assertEqual({str(path.relative_to(self.prefix)) for path in self.prefix.rglob("*") if path.is_file()}, {"bin/sdhring-view", "bin/sdhnode", "share/man/man1/sdhnode.1"})
        self.run_it("--install", self.prefix, "--replace")
        self.assertNotEqual((self.prefix / "bin" / "sdhring-view").read_bytes(), b"mine")

    def test_what_was_changed_since_stays(self):
        (self.prefix / "bin").mkdir(parents=True)
        self.run_it("--install", self.prefix)
        changed = self.prefix / "share" / "man" / "man1" / "sdhnode.1"
        changed.write_text("mine")
        self.assertIn("share/man/man1/sdhnode.1 below", self.run_it("--install", self.prefix, status=1))
        said = self.run_it("--uninstall", self.prefix)
        self.assertIn("changed since they were installed, and left alone: share/man/man1/sdhnode.1\n", said)
        self.assertEqual([path for path in self.prefix.rglob("*") if path.is_file()], [changed])
        self.assertTrue((self.prefix / "bin").is_dir())  # which was there before
        self.assertFalse((self.prefix / "lib").exists())

    def test_an_install_that_was_broken_off_is_done_again(self):
        self.run_it("--install", self.prefix)
        (self.prefix / FILES).unlink()
        (self.prefix / "bin" / "sdhring").unlink()
        self.run_it("--install", self.prefix)
        self.run_it("--uninstall", self.prefix)
        self.assertEqual([path for path in self.prefix.rglob("*") if path.is_file()], [])

    def test_what_could_not_be_taken_away_is_told(self):
        """As another user's copy of an install; root can take away all, but for what is immutable."""
        self.run_it("--install", self.prefix)
        count = len(listed(named_folder(self.prefix)).marks)
        if not IS_ROOT:
            for path in [self.prefix, *self.prefix.rglob("*")]:
                if path.is_dir():
                    path.chmod(0o555)
            self.addCleanup(lambda: [path.chmod(0o755) for path in [self.prefix, *self.prefix.rglob("*")] if path.is_dir()])
            said = self.run_it("--uninstall", self.prefix, status=82)
            self.assertIn(f"0 files are taken away from {self.prefix}; {count} couldn't be, and are still there", said)
            self.assertIn("Permission denied", said)
        else:
            (self.prefix / "bin").rename(self.prefix / "real")
            (self.prefix / "bin").symlink_to("real")
            said = self.run_it("--uninstall", self.prefix, status=82)
            self.assertRegex(said, rf"{count - 21} files are taken away from .*; 21 couldn't be, and are still there")
            self.assertIn("bin is a link to real", said)
        self.assertTrue((self.prefix / FILES).exists())

    def test_a_prefix_is_made_with_the_rights_of_a_release(self):
        """And folders that others can write to are told."""
        for mask, open in ((0, False), (0o002, False), (0, True)):
            shutil.rmtree(self.top / "p", ignore_errors=True)
            before = os.umask(mask)
            try:
                if open:
                    (self.top / "p" / "q").mkdir(parents=True)
                said = self.run_it("--install", self.top / "p" / "q" / "r")
            finally:
                os.umask(before)
            modes = {stat.S_IMODE((self.top / path).stat().st_mode) for path in ("p/q/r", "p/q/r/bin", "p/q/r/lib/sdhring/tools/ringtools")}
            self.assertEqual(modes, {0o755})
            told = f"warning: others than you can write to {self.top}/p, {self.top}/p/q, and so change what runs from"
            self.assertEqual(told in said, open, said)

    def test_an_empty_prefix_is_none(self):
        for word in ("--install", "--uninstall"):
            self.assertIn("an empty PREFIX", self.run_it(word, "", status=1))
        self.assertEqual(sorted(path.name for path in self.top.iterdir()), ["ring.toml", "victim"])

    def test_modes_are_those_of_a_release_whatever_the_mask_is(self):
        before = os.umask(0o077)
        try:
            self.run_it("--install", self.prefix)
        finally:
            os.umask(before)
        for path in self.prefix.rglob("*"):
            if not path.is_symlink():
                self.assertIn(path.stat().st_mode & 0o7777, (0o755,) if path.is_dir() else (0o644, 0o755), path)

    @unittest.skipUnless(IS_ROOT, "who installs into another's folder is root")
    def test_another_user_who_makes_links_all_the_while(self):
        """Names of files that aren't whole yet can't be guessed: whatever stands at the old ones isn't written to."""
        folder = self.prefix / "lib" / "sdhring"
        folder.mkdir(parents=True)
        for path in (self.prefix, self.prefix / "lib", folder):
            os.chown(path, NOBODY, -1)
        secret = self.top / "secret"
        secret.write_text("root's")
        secret.chmod(0o600)
        for name in PROGRAMS:
            (folder / f".{name}.new").symlink_to(secret)
            (folder / name).symlink_to(secret)
        self.assertIn("warning: others than you can write to", self.run_it("--install", self.prefix, "--replace"))
        self.assertEqual((secret.read_text(), secret.stat().st_mode & 0o777), ("root's", 0o600))


class Apart(Place):
    def test_a_file_that_is_not_whole_yet_has_a_name_by_chance(self):
        """And one that gets rights of its own is its owner's alone until it is whole."""
        folder, before = named_folder(self.top / "out"), os.umask(0)
        self.addCleanup(os.umask, before)
        for mode in (None, 0o644):
            with folder.writing("x", mode) as file:
                file.write(b"half")
                seen = [path for path in (self.top / "out").iterdir() if path.name != "x"]
                self.assertEqual(stat.S_IMODE(seen[0].stat().st_mode), 0o666 if mode is None else 0o600)
            self.assertRegex(seen[0].name, r"\A\.[0-9a-f]{24}\.part\Z")
            self.assertEqual(stat.S_IMODE((self.top / "out" / "x").stat().st_mode), mode or 0o666)

    def test_other_files_that_last_a_moment_lie_in_a_folder_of_their_own(self):
        """Nobody else can read that, whatever the user's mask is; and no tool makes such a file otherwise."""
        self.addCleanup(os.umask, os.umask(0))
        with tempfile.TemporaryDirectory() as place:
            self.assertEqual(stat.S_IMODE(os.stat(place).st_mode), 0o700)
        tools = TOOLS.parent / "tools"
        sources = [path for path in tools.rglob("*") if path.is_file() and "testing" not in path.parts and path.suffix in ("", ".py", ".bash")]
        found = [used for path in sources for used in re.findall(r"tempfile\.(\w+)|\b(mktemp\b(?! -d)|/tmp/)", path.read_text(encoding="utf-8"))]
        self.assertEqual({one or other for one, other in found}, {"TemporaryDirectory"})

    def test_paths_lead_downwards(self):
        folder = Folder(self.top)
        for path in ("../x", "/x", "a//b", "a/./b", "a/../b", "", "a\0b"):
            with self.assertRaises(WriteProblem):
                folder.place_of(path, 0o755)


if __name__ == "__main__":
    unittest.main()
