"""Whatever happens to a tool, it ends in one line and a status, and never in a traceback: all tools, examples and commands of bench/, each
with a standard output that is closed, full, or left by its reader, without its files, with other things in their place, where nothing can
be written, and under an old Python."""

import ast
import os
import resource
import subprocess
import sys
import tempfile
import unittest
from concurrent.futures import ThreadPoolExecutor
from dataclasses import dataclass
from functools import cache
from pathlib import Path

from common import PATIENCE, TOOLS

from ringtools.installing import TOOLS as NAMES
from ringtools.starting import MISTAKE, OUTPUT_FAILED

TOP = TOOLS.parent
SIGPIPE = -13
OLDEST = (3, 8)  # by which a tool's own file has to be read, so that it can say which Python it wants


@dataclass(frozen=True)
class Tried:
    """A command that works, by its words. PLAN and the like are files of the folder in which it is run."""

    file: Path
    words: tuple[str, ...] = ()
    given: str = ""  # the file that is its standard input
    writes: bool = True  # on standard output

    @property
    def name(self):
        return str(self.file.relative_to(TOP))

    @property
    def inputs(self):
        """The words that are files of the folder."""
        return [word for word in self.words if word in FILES]


FILES = {"PLAN", "SPANS.csv", "NODES.csv", "CIRCUITS.csv", "TEXT", "OURS", "LIST"}
PLAN = (TOP / "examples" / "span-cut.toml").read_bytes()
STREAM = (TOP / "examples" / "bench" / "node-2.stream").read_bytes()
# What isn't a plan, a table or a text: nothing, no text at all, no TOML, TOML without a plan's keys, keys of other kinds.
NONE = b"", b"\xff\xfe\0", b"nothing of the kind\n", b"[[[[\n", b"x = 1\n", PLAN.replace(b"nodes = [", b"nodes = [[7], "), PLAN.replace(b"rate", b"late")
# Tools that end well even so: a page of a refusal is a page, and two texts that are a refusal alone differ in nothing.
SHOWS = {"sdhring-view", "sdhring-compare-node"}


def bench(name, *words, given="", writes=True):
    return Tried(TOP / "bench" / name, words, given, writes)


def tool(name, *words, **more):
    return Tried(TOOLS / name, words, **more)


PROGRAM = {name: str(TOP / "dist" / name) for name in ("sdhaps", "sdhnode", "sdhoutage", "sdhpath", "sdhretime", "sdhring", "sdhwatch", "sdhwhatif")}
ALL = (
    tool("sdhring-availability", "PLAN", "SPANS.csv"),
    tool("sdhring-bench", "PLAN"),
    tool("sdhring-capture", "PLAN", "--node", "2", "--side", "east", "--rounds", "0:3"),
    tool("sdhring-compare-node", "OURS", "OURS"),
    tool("sdhring-conform", "--short", "--only", "waiting", "--", PROGRAM["sdhnode"]),
    tool("sdhring-desk", "PLAN", "--depth", "double"),
    tool("sdhring-explain", "PLAN"),
    tool("sdhring-network", "availability", "NETWORK", "--cuts-per-1000-km", "2"),
    tool("sdhring-network", "import", str(TOP / "examples" / "network"), "--to", "made", writes=False),
    tool("sdhring-network", "room", "NETWORK"),
    tool("sdhring-network", "whatif", "NETWORK", "--dir", "made"),
    tool("sdhring-now", "PLAN", "--alarms", "LIST"),
    tool("sdhring-plan", "new", "1>3"),
    tool("sdhring-plan", "import", "CIRCUITS.csv", "--nodes", "NODES.csv"),
    tool("sdhring-report", "--json", "TEXT"),
    tool("sdhring-view", "PLAN"),
    tool("sdhring-view", "PLAN", "TEXT"),
    tool("sdhring-view", "--signalling", "PLAN"),
    tool("sdhring-whatif", "--require", "single span: at most 4 lost", "PLAN"),
    tool("sdhring-whatif", "--kinds", "span", "--dir", "made", "PLAN"),
    tool("sdhring-whatif", "--all", "--depth", "single", "--frames", "0", "--dir", "made", "PLAN"),
    tool("sdhring-whatif", "--outages", "--dir", "made", "PLAN"),
    tool("sdhring-whatif", "--works", "span 2-3", "--dir", "made", "PLAN"),
    tool("rows", PROGRAM["sdhpath"], "one-fibre-cut"),
    tool("release", "--help"),
    tool("release", "pack", "--here", "1700000000", "--to", "made"),
    tool("install", "--install", "made", writes=False),
    Tried(TOP / "examples" / "bench" / "relays-its-own", ("2",), "STREAM"),
    Tried(TOP / "examples" / "bench" / "node-in-python", ("2",), "STREAM"),
    bench("aps/compare", PROGRAM["sdhaps"], "0"),
    bench("aps/signalled.py", "run", given="PLAN"),
    bench("availability/compare", PROGRAM["sdhring"], PROGRAM["sdhpath"], "0"),
    bench("conform/mutant", "list"),
    bench("conform/mutants", "--help"),
    bench("desk/opens", "--help"),
    bench("hostile/fuzz", "0"),
    bench("hostile/refusals", "--help"),
    bench("import/compare", "0"),
    bench("network/compare", PROGRAM["sdhring"], "0"),
    bench("network/made", "made", "2", "20"),
    bench("network/opens", "--help"),
    bench("network/scale", "--help"),
    bench("node/compare", PROGRAM["sdhnode"], "0"),
    bench("node/model.py", "2", given="STREAM"),
    bench("node/pipe", "--help"),
    bench("now/compare", PROGRAM["sdhring"], "0"),
    bench("outage/compare", PROGRAM["sdhoutage"], "0"),
    bench("outage/largest"),
    bench("outage/search", "--help"),
    bench("outage/simulate.py", "run", given="PLAN"),
    bench("outage/spared", "0"),
    bench("outage/transits", "0"),
    bench("paths/compare", PROGRAM["sdhpath"], "0"),
    bench("plans/mutate.py", "--help"),
    bench("retime/compare", "--help"),
    bench("rings/speed", "--help"),
    bench("watch/compare", PROGRAM["sdhwatch"], "0"),
    bench("whatif/compare", PROGRAM["sdhwhatif"], PROGRAM["sdhring"], "0"),
    bench("whatif/model.py", "single", given="PLAN"),
)
ONCE = [*{tried.file: tried for tried in reversed(ALL)}.values()]  # one form of each


@cache
def files():
    """What the commands need, by the files' names."""
    found = {"PLAN": PLAN, "STREAM": STREAM, "CIRCUITS.csv": b"name,from,to\none,A,B\n", "NODES.csv": b"place,failures,hours\nA,0.1,4\nB,0.1,4\nC,0.1,4\n"}
    found["LIST"] = b"LOS 2 east\n"
    found["SPANS.csv"] = b"from,to,cuts,hours\n1,2,0.1,8\n2,3,0.1,8\n3,4,0.1,8\n4,1,0.1,8\n"
    for name, program, words, given in (("TEXT", "sdhring", ["run"], PLAN), ("OURS", "sdhnode", ["2"], STREAM)):
        found[name] = subprocess.run([PROGRAM[program], *words], input=given, capture_output=True, check=True).stdout
    with tempfile.TemporaryDirectory() as made:
        network = Path(made) / "NETWORK"
        subprocess.run([TOOLS / "sdhring-network", "import", TOP / "examples" / "network", "--to", network], capture_output=True, check=True)
        found |= {str(path.relative_to(made)): path.read_bytes() for path in network.rglob("*") if path.is_file()}
    return found


def started(tried, folder, words=None, shell="", **more):
    """How a command ends in a folder: its status and what it said. `shell` are a shell's words after it, such as redirections."""
    given = [sys.executable, tried.file, *(tried.words if words is None else words)]
    line = ["bash", "-c", f'exec "$0" "$@" {shell}', *given] if shell else given
    environment = {"PATH": os.environ["PATH"], "HOME": str(folder)}
    with open(folder / tried.given if tried.given else os.devnull, "rb") as stdin:
        return subprocess.run(line, cwd=folder, env=environment, stdin=stdin, stderr=subprocess.PIPE, timeout=PATIENCE, **{"stdout": subprocess.DEVNULL, **more})


def said(ended):
    """What a command said, without what the launcher says of sources that aren't those of the release."""
    lines = ended.stderr.decode("utf-8", "replace").splitlines()
    return [line for line in lines if "the sources have changed since" not in line]


def small_files():
    """Lets no file grow, as on a disk that is full."""
    resource.setrlimit(resource.RLIMIT_FSIZE, (0, 0))


@unittest.skipUnless((TOP / "dist" / "BUILD").is_file(), "dist/ has no programs")
class Ending(unittest.TestCase):
    @classmethod
    def setUpClass(cls):
        made = tempfile.TemporaryDirectory()
        cls.addClassCleanup(made.cleanup)
        cls.top = Path(made.name)
        cls.well = dict(cls.each(cls(), lambda tried: started(tried, cls().folder(), stdout=subprocess.PIPE), ALL))

    def folder(self):
        """A new folder with all files."""
        folder = Path(tempfile.mkdtemp(dir=self.top))
        for name, data in files().items():
            (folder / name).parent.mkdir(parents=True, exist_ok=True)
            (folder / name).write_bytes(data)
        return folder

    def each(self, deed, tools):
        """Does the same with each tool, some at a time, and gives each with what came of it."""
        with ThreadPoolExecutor(max(2, os.cpu_count() or 1)) as pool:
            return zip(tools, pool.map(deed, tools))

    def check(self, tried, ended, statuses):
        """The status is one of these, and besides what the tool says when all is well no more than a line is said."""
        with self.subTest(tool=tried.name, words=tried.words):
            lines, most = said(ended), 1 + (len(said(self.well[tried])) if tried in self.well else 2)
            self.assertNotIn("Traceback", "\n".join(lines))
            self.assertNotEqual(ended.returncode, MISTAKE, lines)
            self.assertIn(ended.returncode, statuses, lines)
            self.assertLessEqual(len(lines), most, lines)

    def test_each_works(self):
        for tried, ended in self.well.items():
            self.check(tried, ended, {0})
            with self.subTest(tool=tried.name):
                self.assertEqual(bool(ended.stdout), tried.writes)

    def test_every_command_is_tried(self):
        tried = {one.file for one in ALL}
        scripts = [TOOLS / name for name in (*NAMES, "install", "release", "rows")]
        scripts += [path for folder in ("bench", "examples") for path in (TOP / folder).rglob("*") if path.is_file() and path.read_bytes()[:22] == b"#!/usr/bin/env python3"]
        self.assertEqual({str(path) for path in scripts} - {str(path) for path in tried}, set())

    def test_a_closed_standard_output(self):
        for tried, ended in self.each(lambda tried: started(tried, self.folder(), shell=">&-"), ONCE):
            self.check(tried, ended, {OUTPUT_FAILED} if tried.writes else {0, 1})

    def test_a_full_standard_output(self):
        for tried, ended in self.each(lambda tried: started(tried, self.folder(), shell=">/dev/full"), ONCE):
            self.check(tried, ended, {OUTPUT_FAILED} if tried.writes else {0, 1})

    def test_a_reader_that_has_had_enough(self):
        def deed(tried):
            reads, writes = os.pipe()
            os.close(reads)
            try:
                return started(tried, self.folder(), stdout=writes)
            finally:
                os.close(writes)

        for tried, ended in self.each(deed, [tried for tried in ONCE if tried.writes]):
            self.check(tried, ended, {SIGPIPE})

    def test_closed_standard_files(self):
        """Where nothing can be said nothing is, and what is written is the same."""
        some = [tried for tried in ONCE if tried.writes and not tried.given and tried.file.parent == TOOLS]
        for tried, (one, other) in self.each(lambda tried: [started(tried, self.folder(), shell=shell, stdout=subprocess.PIPE) for shell in ("2>/dev/full", "<&- 2>&-")], some):
            with self.subTest(tool=tried.name, words=tried.words):
                self.assertIn(one.returncode, {0, 1})
                self.assertEqual((one.returncode, len(one.stdout)), (other.returncode, len(other.stdout)))

    def instead(self, make, wanted=range(1, MISTAKE), shows=()):
        """In place of each file that a tool reads stands something else; these tools may show even that."""

        def deed(tried):
            ends = []
            for name in tried.inputs[:2]:
                folder = self.folder()
                (folder / name).unlink()
                make(folder / name)
                ends.append(started(tried, folder))
            return ends

        for tried, ends in self.each(deed, [tried for tried in ONCE if tried.inputs]):
            for ended in ends:
                self.check(tried, ended, {0, *wanted} if tried.file.name in shows else wanted)

    def test_a_missing_file(self):
        self.instead(lambda path: None)

    def test_a_folder_in_place_of_a_file(self):
        self.instead(lambda path: path.mkdir())

    def test_a_plan_that_is_none(self):
        for data in NONE:
            with self.subTest(data=data[:20]):
                self.instead(lambda path: path.write_bytes(data), shows=SHOWS)

    def test_a_simulation_of_what_is_no_plan(self):
        """Simulations are for plans that are good; but they too say in a line that they weren't given one."""

        def deed(tried):
            folder = self.folder()
            (folder / tried.given).write_bytes(b"nothing of the kind\n")
            return started(tried, folder)

        for tried, ended in self.each(deed, [tried for tried in ONCE if tried.given and tried.file.parent.name != "bench"]):
            with self.subTest(tool=tried.name):
                self.assertNotIn("Traceback", "\n".join(said(ended)))
                self.assertLessEqual(len(said(ended)), 1)

    def test_wrong_words(self):
        for tried, ended in self.each(lambda tried: started(tried, self.folder(), ["--no-such-word"]), ONCE):
            with self.subTest(tool=tried.name):
                self.assertNotIn("Traceback", "\n".join(said(ended)))
                self.assertIn(ended.returncode, range(1, MISTAKE))

    def test_a_full_disk(self):
        """Where a tool writes files, one line says which can't be written."""
        for tried, ended in self.each(lambda tried: started(tried, self.folder(), preexec_fn=small_files), self.writers()):
            self.check(tried, ended, range(1, MISTAKE))

    def test_a_folder_that_cannot_be_written(self):
        root = os.geteuid() == 0
        if root and not os.path.ismount("/proc"):
            self.skipTest("root may write everywhere but in /proc, which isn't there")

        def deed(tried):
            folder = self.folder()
            if not root:
                folder.chmod(0o555)
            words = [str(folder / word) if word in FILES else word.replace("made", "/proc/made") if root else word for word in tried.words]
            return started(tried, folder, words)

        for tried, ended in self.each(deed, self.writers()):
            self.check(tried, ended, range(1, MISTAKE))

    def writers(self):
        """The tools that write files, among them those that write a page for each of several plans."""
        more = [
            tool("sdhring-plan", "new", "1>3", "--to", "made", writes=False),
            tool("sdhring-desk", "--to", "made", "PLAN", writes=False),
            tool("sdhring-view", "--to", "made", "PLAN", writes=False),
            Tried(TOP / "examples" / "bench" / "ring", ("PLAN", "--keep", "made"), writes=False),
        ]
        return [*(tried for tried in ALL if "made" in tried.words), *more]

    def test_an_old_python(self):
        """A tool's own file can be read by an older Python, and the first thing that it does is to say which one it wants."""
        before = f"""import runpy, sys; sys.path[0] = __import__("os").path.dirname(sys.argv[1]); del sys.argv[0]
sys.version_info = (3, 10, 13); sys.modules.pop("tomllib", None); sys.modules["tomllib"] = None; runpy.run_path(sys.argv[0], run_name="__main__")"""

        def deed(tried):
            return subprocess.run([sys.executable, "-c", before, tried.file, *tried.words], capture_output=True, stdin=subprocess.DEVNULL, timeout=PATIENCE)

        for tried, ended in self.each(deed, ONCE):
            with self.subTest(tool=tried.name):
                self.assertEqual((ended.returncode, ended.stderr.decode()), (1, f"{tried.file.name}: Python 3.11 or later is wanted, and this is 3.10\n"))
                ast.parse(tried.file.read_text(), feature_version=OLDEST)
        ast.parse((TOOLS / "ringtools" / "__init__.py").read_text(), feature_version=OLDEST)


class Mistakes(unittest.TestCase):
    """What no tool expects is told in a line too, with its place; and more of it where that is asked for."""

    def ended(self, deed, *words):
        script = f"import sys; sys.path.insert(0, {str(TOOLS)!r}); from ringtools.starting import start; start(lambda words: {deed})"
        return subprocess.run([sys.executable, *words, "-c", script], capture_output=True, text=True)

    def test_a_mistake(self):
        ended = self.ended("1 // 0")
        self.assertEqual(ended.returncode, MISTAKE)
        self.assertRegex(ended.stderr, r"^-c: a mistake of this tool: ZeroDivisionError: .*, line 1\).*\n$")
        self.assertIn("Traceback", self.ended("1 // 0", "-X", "dev").stderr)

    def test_what_can_be_expected(self):
        for deed, status, words in (
            ("open('no such file')", 1, "-c: no such file: No such file or directory\n"),
            ("[][0]" " if 0 else (_ for _ in ()).throw(MemoryError())", 70, "-c: there is too little memory\n"),
            ("(_ for _ in ()).throw(KeyboardInterrupt())", 130, "-c: stopped\n"),
            ("sys.exit('what is wrong')", 1, "what is wrong\n"),
            ("print('\\udcff')", 0, ""),
        ):
            with self.subTest(deed=deed):
                ended = self.ended(deed)
                self.assertEqual((ended.returncode, ended.stderr), (status, words))


if __name__ == "__main__":
    unittest.main()
