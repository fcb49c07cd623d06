"""What pages and man pages of a release print as commands works as it stands there: in the unpacked tarball, installed, and in the package.

A command is a line of an indented block, or a line of an example in a man page, or code within a line that names its input. Words of
capitals are files of these names, or are put in as `WORDS` has them. The commands of one page run one after the other, in a folder that
has what a user would have, such as tables and plans.
"""

import os
import re
import shlex
import shutil
import subprocess
import tarfile
import tempfile
import unittest
from concurrent.futures import ThreadPoolExecutor
from dataclasses import dataclass
from pathlib import Path

from checkouts import TOP
from common import PATIENCE

from ringtools.build import PROGRAMS
from ringtools.installing import TOOLS

STARTS = re.compile(rf"(?:\./)?(?:{'|'.join((*PROGRAMS, *TOOLS))}) |'?\S*examples/|(?:seq|parallel|tshark|yes) ")
WITHIN = re.compile(r"`((?:\./)?sdh[a-z-]+ [^`]*|man -l [^`]*|\./sdhring --[^`]*)`")
# What stands for something that is no file.
WORDS = {"ID": "2", "SIDE": "west", "A:B": "0:3", "RULE": "'single span: none lost'", "DIGITS": "0333", "FOLDER": "rings"}
# Those that end otherwise than with 0, as they should.
STATUSES = {"refused.toml": 6, "relays-its-own": 1, "yes ": 141, "--require 'single group: none lost'": 1, "--require 'single place: none lost besides ends'": 1}
PLACES = {"Aachen": 1, "Bonn": 2, "Celle": 3, "Düren": 4, "Essen": 5, "Fulda": 7}
# Of the package, whose pages are those that are installed elsewhere but for their places.
OF_PACKAGE = {"README.md", "BENCH.md", "sdhnode.1", "sdhring.1", "sdhring-explain.1", "sdhring-report.1", "sdhring-capture.1"}
LONG = re.compile("sdhring-(?:whatif|desk)|seq ")
SCRIPT = "settle; cut 2 east; cut 3 west; settle; mend 2 east; mend 3 west; settle"
TABLES = {
    "circuits": ["name,from,to,slot", "North,Aachen,Celle,1", "South,Fulda,Düren,2"],
    "nodes": ["place,node,failures,hours", *(f"{place},{node},0.1,4" for place, node in PLACES.items())],
    "spans": ["from,to,km,cuts,hours", *(f"{one},{other},40,0.1,8" for one, other in zip(PLACES, [*PLACES, *PLACES][1:]))],
    "groups": ["group,members,failures,hours", "duct,span 1-2; span 4-5,0.1,12"],
}


@dataclass(frozen=True)
class Place:
    """Where commands are typed: a release as it lies there, or one that is on the PATH."""

    name: str
    pages: Path
    manuals: Path
    unpacked: Path | None
    path: str
    root: str = ""  # what /usr stands for, of a package that isn't installed

    def environment(self, home):
        return {"PATH": f"{self.path}:/usr/bin:/bin", "HOME": str(home), "LC_ALL": "C.UTF-8"}

    def texts(self):
        """The texts of pages and man pages by their names."""
        found = [*self.pages.glob("*.md"), *self.pages.glob("docs/*.md"), *self.manuals.glob("*.1")]
        return {path.name: path.read_text(encoding="utf-8") for path in sorted(found) if path.name != "CHANGELOG.md"}


def plain(line):
    """A line of a man page's example as it is shown."""
    for written, shown in ((r"\&", ""), (r"\-", "-"), (r"\(rs", "\\"), (r"\(aq", "'"), (r"\(dq", '"')):
        line = line.replace(written, shown)
    return line


def words_of(command):
    try:
        return shlex.split(command, comments=True)
    except ValueError:
        return []


def names_input(command):
    """Whether code within a line is a whole command, and not the name of one."""
    words = words_of(command)
    return len(words) > 1 and (words[0] == "man" or any(word in WORDS or word in SUPPLIED or word.endswith((".toml", ".csv", "local")) for word in words[1:]))


def commands_of(name, text):
    """The commands of a page in their order."""
    if name.endswith(".1"):
        blocks = re.findall(r"^\.nf\n(.*?)^\.fi\n", text, re.M | re.S)
        lines = [plain(line) for block in blocks for line in block.splitlines()]
        return [line for line in lines if STARTS.match(line)]
    found = []
    for line in text.splitlines():
        shown = line.removeprefix("    ")
        if shown != line and STARTS.match(shown):
            found.append(re.split(r" {3,}", shown)[0])
        elif shown == line:
            found += [command.replace("\\|", "|") for command in WITHIN.findall(line) if names_input(command)]
    return found


def written_by(commands):
    """The files that these commands make anew."""
    return {word for command in commands for word in re.findall(r"(?:--to|(?<!\d)>) (\S+)", command)}


def lacks(command):
    """The program that a command needs and that isn't here, or what isn't to be asked for in a test; or nothing."""
    needed = {"parallel": "parallel", "tshark": "tshark", "jq": "jq", "man": "man"}
    found = [program for word, program in needed.items() if re.search(rf"(?:^|\| ){word} ", command) and not shutil.which(program, path="/usr/bin:/bin")]
    if command.endswith(" ./node-in-c"):
        return "what a compiler makes of examples/library/node.c, which test_library tries"
    return found[0] if found else "another machine" if "--sshlogin" in command else ""


def statuses(command):
    """How a command may end. Nobody reads all that `yes` writes."""
    return {status for word, status in STATUSES.items() if word in command} or {0}


def run(words, folder, **more):
    return subprocess.run(words, cwd=folder, capture_output=True, check=True, timeout=PATIENCE, **more).stdout


def supply(folder):
    """Puts into a folder what a user has who reads the pages: tables, plans of them, and what the programs wrote of these."""
    tables = {name: ("\n".join(lines) + "\n").encode() for name, lines in TABLES.items()}
    for name, data in tables.items():
        (folder / f"{name}.csv").write_bytes(data)
        (folder / f"{name.upper()}.csv").write_bytes(data)
    importing = [TOP / "sdhring-plan", "import", "circuits.csv", "--nodes", "nodes.csv", "--steps", SCRIPT]
    plan = run(importing, folder)
    for name in ("plan.toml", "ring.toml", "PLAN", "OTHER", "last-year.toml"):
        (folder / name).write_bytes(plan)
    for number in (1, 2):
        (folder / "rings").mkdir(exist_ok=True)
        for name, data in tables.items():
            (folder / "rings" / f"ring{number}.{name}.csv").write_bytes(data)
        (folder / "rings" / f"ring{number}.toml").write_bytes(plan)
    run([TOP / "sdhring-whatif", "plan.toml", "--kinds", "span"], folder)
    text = run([TOP / "sdhring", "run"], folder, input=plan)
    for name in ("plan.text", "TEXT", "REPORT"):
        (folder / name).write_bytes(text)
    (folder / "FILE").write_bytes(run([TOP / "sdhaps", "run"], folder, input=plan))
    stream = (TOP / "examples" / "bench" / "node-2.stream").read_bytes()
    (folder / "STREAM").write_bytes(stream)
    (folder / "bytes").write_bytes(b"abcdefg" * 3000)
    (folder / "LIST").write_text("LOS 2 east\nLOS 3 west\n")
    answers = run([TOP / "sdhnode", "2"], folder, input=stream)
    for name in ("OURS", "THEIRS", "theirs.text"):
        (folder / name).write_bytes(answers)
    for name in ("last", "now"):
        run([TOP / "sdhring-whatif", "--all", "--frames", "0", "--depth", "single", "plan.toml", "--dir", name], folder)


SUPPLIED = {"PLAN", "OTHER", "LIST", "TEXT", "REPORT", "FILE", "STREAM", "OURS", "THEIRS", "rings", "plan.text", *(f"{name}.csv" for name in TABLES)}


def make_folder(place, supplies, commands, folder):
    """A folder in which the commands of one page are typed."""
    if place.unpacked:
        shutil.copytree(place.unpacked, folder, symlinks=True, copy_function=os.link)
    shutil.copytree(supplies, folder, dirs_exist_ok=True)
    made = written_by(commands)
    for name in made & set(os.listdir(supplies)) - {"rings"}:
        (folder / name).unlink()
    if "rings" in made:
        for plan in (folder / "rings").glob("*.toml"):
            plan.unlink()


def typed(command, place):
    """The command as it is typed in a place."""
    for word, given in WORDS.items():
        command = re.sub(rf"(?<=[ ]){re.escape(word)}(?![\w.])", lambda _: given, command)
    return re.sub(r"(?<![\w/])/usr/(?=share/)", lambda _: f"{place.root}/usr/", command) if place.root else command


def is_asked(command, place, done):
    """Whether a command is tried. Those that take long aren't tried twice, and where tools are installed one of each tool is enough."""
    if lacks(command):
        return False
    if not (long := LONG.search(command)):
        return True
    same = place.name, command.replace("PLAN", "plan.toml").lower() if place.unpacked else long[0]
    is_new = same not in done
    done.add(same)
    return is_new


def asked(place, name, commands, supplies, done):
    """What is wrong with the commands of a page, each with what it said; those that can't be tried have no entry."""
    wrong = []
    with tempfile.TemporaryDirectory() as top:
        folder = Path(top) / "folder"
        make_folder(place, supplies, commands, folder)
        for command in commands:
            if not is_asked(command, place, done):
                continue
            words = ["bash", "-c", f"set -o pipefail; {typed(command, place)}"]
            ended = subprocess.run(words, cwd=folder, env=place.environment(top), stdin=subprocess.DEVNULL, capture_output=True, timeout=PATIENCE)
            if ended.returncode not in statuses(command) or b"Traceback" in ended.stderr:
                wrong.append(f"{place.name}, {name}: {command}: status {ended.returncode}, {ended.stderr.decode('utf-8', 'replace')[-300:]}")
    return wrong


@unittest.skipUnless((TOP / "dist" / "BUILD").is_file(), "there is no release yet")
class Commands(unittest.TestCase):
    @classmethod
    def setUpClass(cls):
        made = tempfile.TemporaryDirectory()
        cls.addClassCleanup(made.cleanup)
        cls.folder = Path(made.name)
        cls.supplies = cls.folder / "supplies"
        cls.supplies.mkdir()
        supply(cls.supplies)
        packed = run([TOP / "tools" / "release", "pack", "--here", "1700000000", "--to", cls.folder / "packed"], cls.folder, text=True).splitlines()
        with tarfile.open(packed[0]) as archive:
            archive.extractall(cls.folder)
        cls.top = cls.folder / Path(packed[0]).name.removesuffix(".tar.xz")
        prefix = cls.folder / "a prefix"
        run([cls.top / "sdhring", "--install", prefix], cls.folder)
        doc, man = "share/doc/sdhring", "share/man/man1"
        cls.places = [
            Place("tarball", cls.top, cls.top / "docs", cls.top, "/nowhere"),
            Place("installed", prefix / doc, prefix / man, None, str(prefix / "bin")),
        ]
        if len(packed) > 1:
            root = cls.folder / "root"
            run(["dpkg-deb", "-x", packed[1], root], cls.folder)
            run(["bash", "-c", f"gunzip {man}/*.gz"], root / "usr")
            cls.places.append(Place("package", root / "usr" / doc, root / "usr" / man, None, str(root / "usr" / "bin"), str(root)))

    def test_each_command_ends_as_it_should(self):
        tried = [(place, name, commands) for place in self.places for name, text in place.texts().items() if (commands := commands_of(name, text))]
        tried = [one for one in tried if one[0].name != "package" or one[1] in OF_PACKAGE]
        done = set()
        with ThreadPoolExecutor(max(2, os.cpu_count() or 1)) as pool:
            wrong = [line for lines in pool.map(lambda one: asked(*one, self.supplies, done), tried) for line in lines]
        self.assertEqual(wrong, [])

    def test_commands_are_found(self):
        """So that a page with another form of its blocks isn't passed over."""
        found = {name: commands_of(name, text) for name, text in self.places[0].texts().items()}
        self.assertGreater(sum(map(len, found.values())), 110)
        for name in ("README.md", "BENCH.md", "LOOKING.md", "sdhnode.1", "sdhring-whatif.1", "sdhring-compare-node.1"):
            self.assertTrue(found[name], name)
        self.assertIn("sdhring-bench examples/round-by-round.toml", "\n".join(found["BENCH.md"]))
        for place in self.places:
            everything = "\n".join(command for name, text in place.texts().items() for command in commands_of(name, text))
            for name in (*PROGRAMS, *TOOLS):
                self.assertRegex(everything, rf"(?m)(?:^|[ /|]){name} ")

    def test_examples_run_and_find_their_programs(self):
        for place in self.places:
            examples = (place.unpacked or place.pages) / "examples"
            runs = [path for path in sorted(examples.rglob("*")) if path.is_file() and path.read_bytes()[:2] == b"#!"]
            self.assertEqual([path.name for path in runs], ["node-in-python", "relays-its-own", "retiming"])
            with tempfile.TemporaryDirectory() as elsewhere:
                for path, words in zip(runs, (["2"], ["2"], [])):
                    stream = (examples / "bench" / "node-2.stream").read_bytes()
                    ended = subprocess.run([path, *words], cwd=elsewhere, env={"PATH": "/usr/bin:/bin"}, input=stream, capture_output=True)
                    with self.subTest(place=place.name, example=path.name):
                        self.assertEqual((ended.returncode, ended.stderr), (0, b""))

    def test_what_makers_need_is_there(self):
        for place in self.places:
            texts = place.texts()
            for name in ("BENCH.md", "RING.md", "ROUTES.md", "SIGNALLING.md", "sdhnode.1", "sdhring-compare-node.1", "sdhring-bench.1"):
                self.assertIn(name, texts)

    def test_no_point_stands_alone_where_a_link_was_cut(self):
        for place in self.places:
            for name, text in place.texts().items():
                if name.endswith(".md"):
                    self.assertEqual(re.findall(r"^ *[.,;:)] *$|\( *\)|<!-- repository", text, re.M), [], name)

    @unittest.skipUnless(shutil.which("dpkg-deb"), "there is no dpkg-deb")
    def test_the_package_prints_what_is_installed_elsewhere(self):
        _, installed, package = self.places
        prefix = str(installed.pages).removesuffix("/share/doc/sdhring")
        theirs = {name: re.sub(f"'{prefix}(/[^']*)'", r"/usr\1", text) for name, text in installed.texts().items()}
        self.assertEqual(theirs, package.texts())

    def test_a_command_that_fails_is_seen(self):
        self.assertEqual(len(asked(self.places[1], "none", ["sdhring run < no-such-plan", "sdhring-view --no-such-word", "sdhring-explain PLAN"], self.supplies, set())), 2)


if __name__ == "__main__":
    unittest.main()
