"""Installs and releases, over a checkout of stand-ins: what is put where, that it works there, and that it is the same bytes again."""

import re
import shutil
import subprocess
import tarfile
import tempfile
import unittest
from pathlib import Path

from checkouts import PROGRAM, RT, TOP, at_terminal, executable, make_checkout, release
from common import PATIENCE

from ringtools.build import PROGRAMS, read_build, sum_of
from ringtools.installing import DOCUMENTS, TOOLS

# What a text of a release may not name: it isn't there.
NOT_RELEASED = {path.name for path in (TOP / "docs").glob("*.md")} - set(DOCUMENTS)
OF_REPOSITORY = re.compile(r"(?<![\w/])(?:crates|bench|specs|proofs|\.ci|tools/testing)/|\bsdh_[a-z]+|\.rt\b|\brows\.1\b|tools/(?:test|rows|release)\b|\b(?:" + "|".join(sorted(NOT_RELEASED)) + r")\b")
NOT_INSTALLED = re.compile(rf"{OF_REPOSITORY.pattern}|(?<![\w/])(?:docs|tools)/|\./sdh")


VERSION = re.escape((TOP / "VERSION").read_text().strip())


def run(words, folder, path="/usr/bin:/bin", **more):
    """As a user does who has no kit and no home."""
    environment = {"PATH": path, "HOME": ""}
    return subprocess.run(words, cwd=folder, env=environment, capture_output=True, text=True, timeout=PATIENCE, **{"input": "", **more})


def python_path():
    """A Python that can read plans first, if the system's can't."""
    return f"{Path(shutil.which('python3')).resolve().parent}:/usr/bin:/bin"


def texts_below(top):
    for path in sorted(top.rglob("*")):
        is_text = path.name not in PROGRAMS or path.parent.name not in ("bin", "dist", "sdhring")
        if path.is_file() and not path.is_symlink() and is_text and "__pycache__" not in path.parts:
            yield path.relative_to(top), path.read_text(encoding="utf-8")


class Released(unittest.TestCase):
    @classmethod
    def setUpClass(cls):
        folder = tempfile.TemporaryDirectory()
        cls.addClassCleanup(folder.cleanup)
        cls.folder = Path(folder.name)
        cls.top = cls.folder / "checkout"
        make_checkout(cls.top)

    def ended(self, ended, status=0):
        self.assertEqual(ended.returncode, status, ended.stderr)
        return ended


class Installed(Released):
    @classmethod
    def setUpClass(cls):
        super().setUpClass()
        release(cls.top)
        cls.prefix = cls.folder / "a prefix"
        cls.first = run([cls.top / "sdhring", "--install", cls.prefix], cls.folder, python_path())

    def start(self, name, *words, **more):
        return run([self.prefix / "bin" / name, *words], self.folder, python_path(), **more)

    def test_what_is_said(self):
        self.ended(self.first)
        self.assertEqual(self.first.stderr, f"sdhring: programs and tools are in {self.prefix}/bin, documents and examples in {self.prefix}/share/doc/sdhring\n")

    def test_every_file_is_listed(self):
        found = {str(path.relative_to(self.prefix)) for path in self.prefix.rglob("*") if not path.is_dir() and "__pycache__" not in path.parts}
        self.assertEqual(found, {"lib/sdhring/FILES", *(line.split("  ", 1)[1] for line in (self.prefix / "lib" / "sdhring" / "FILES").read_text().splitlines() if not line.startswith("folder"))})
        wanted = {f"bin/{name}" for name in (*PROGRAMS, *TOOLS)} | {f"share/man/man1/{name}.1" for name in (*PROGRAMS, *TOOLS)}
        wanted |= {f"share/bash-completion/completions/{name}" for name in (*PROGRAMS, *TOOLS)} | {f"lib/sdhring/{name}" for name in (*PROGRAMS, "BUILD")}
        wanted |= {f"share/doc/sdhring/{name}" for name in ("README.md", "CHANGELOG.md", "FORMATS.md", "WORDS.md", "examples/span-cut.toml")}
        self.assertLessEqual(wanted, found)

    def test_no_text_names_the_repository(self):
        for name, text in texts_below(self.prefix):
            found = NOT_INSTALLED.search(text) if name.suffix != ".py" else None
            with self.subTest(name=name):
                self.assertIsNone(found and text[max(0, found.start() - 40) : found.end() + 40])

    def test_links_lead_somewhere(self):
        folder = self.prefix / "share" / "doc" / "sdhring"
        for path in folder.glob("*.md"):
            for target in re.findall(r"\]\(([^)#:]+)", path.read_text()):
                self.assertTrue((folder / target).is_file(), f"{path.name}: {target}")

    def test_programs_and_their_own_words(self):
        for name in PROGRAMS:
            self.assertEqual(self.ended(self.start(name, "run")).stdout, f"{name} ran run\n")
            self.assertEqual(self.start(name, "--where").stdout, f"{self.prefix}/lib/sdhring/{name}\n")
            self.assertRegex(self.start(name, "--version").stdout, rf"^{name} 9\.8\.7, commit 012345678901, sources [0-9a-f]{{12}}, proved with kit-of-the-release")
            told = self.start(name, "--help").stdout
            self.assertNotIn("./", told)
            for example in re.findall(r"< (\S+\.toml)", told.replace("\\ ", " ").replace(str(self.prefix), "PREFIX")):
                self.assertTrue((Path(example.replace("PREFIX", str(self.prefix)))).is_file(), example)

    def test_tools(self):
        examples = self.prefix / "share" / "doc" / "sdhring" / "examples"
        for name in TOOLS:
            self.assertIn(f"usage: {name}", self.ended(self.start(name, "--help")).stdout)
            told = self.ended(self.start(name, "--version")).stdout
            self.assertRegex(told, rf"^{name} {VERSION}, a tool outside the proofs; beside it sdhring 9\.8\.7, commit 012345678901, sources [0-9a-f]{{12}}, proved$")
        told = self.start("sdhring-explain", examples / "refused.toml")
        self.assertEqual(told.returncode, 6)
        self.assertIn("bad plan 24 at 2", told.stdout)
        self.ended(self.start("sdhring-plan", "new", "1>3", "--to", self.folder / "ring.toml"))
        self.assertIn("a good plan", self.start("sdhring-explain", self.folder / "ring.toml").stdout)
        for path in (self.folder / "ring.toml", examples / "refused.toml"):
            self.assertIsNone(NOT_INSTALLED.search(path.read_text()))

    def test_a_refusal_that_goes_to_a_terminal_is_explained(self):
        plan = self.prefix / "share" / "doc" / "sdhring" / "examples" / "refused.toml"
        environment = {"PATH": python_path(), "FAKE_STATUS": "6"}
        status, seen = at_terminal([self.prefix / "bin" / "sdhring", "run"], plan.parent, environment, plan)
        self.assertEqual(status, 6)
        self.assertIn("refused.toml:8:26: bad plan 24 at 2", seen)

    def test_the_tools_know_the_programs(self):
        asked = "import sys; sys.path.insert(0, sys.argv[1]); from ringtools.origin import *; print(find_program([str(LAUNCHER)]).lines()['proof'], LAUNCHER)"
        told = run(["python3", "-c", asked, self.prefix / "lib" / "sdhring" / "tools"], self.folder, python_path())
        self.assertEqual(told.stdout, f"proved {self.prefix}/lib/sdhring/sdhring\n")

    def test_it_is_not_installed_from_there(self):
        self.assertNotRegex(self.start("sdhring", "--help").stdout + (self.prefix / "share" / "doc" / "sdhring" / "README.md").read_text(), "--install [P~]")
        self.assertIn("installed already", self.ended(self.start("sdhring", "--install", self.folder / "other"), 1).stderr)
        self.assertFalse((self.folder / "other").exists())

    def test_once_more_and_away_again(self):
        other = self.folder / "other prefix"
        for _ in range(2):
            self.ended(run([self.top / "sdhring", "--install", other], self.folder, python_path()))
        listed = other / "lib" / "sdhring" / "FILES"
        (other / "share" / "doc" / "sdhring" / "OLD.md").write_text("of an earlier release")
        (other / "share" / "doc" / "another").mkdir()
        listed.write_text(listed.read_text() + "share/doc/sdhring/OLD.md\n")
        self.ended(run([self.top / "sdhring", "--install", other], self.folder, python_path()))
        self.assertFalse((other / "share" / "doc" / "sdhring" / "OLD.md").exists())
        self.ended(run([other / "bin" / "sdhring-explain", "--help"], self.folder, python_path()))
        self.assertRegex(self.ended(run([other / "bin" / "sdhring", "--uninstall", other], self.folder, python_path())).stderr, r"^sdhring: \d+ files are taken away")
        self.assertEqual([str(path.relative_to(other)) for path in other.rglob("*")], ["share", "share/doc", "share/doc/another"])
        self.assertIn("FILES isn't there", run([self.top / "sdhring", "--uninstall", other], self.folder, python_path()).stderr)

    def test_all_can_read_it_whatever_the_mask(self):
        other = self.folder / "masked"
        self.ended(run(["bash", "-c", 'umask 077 && exec "$0" --install "$1"', self.top / "sdhring", other], self.folder, python_path()))
        for path in (path for path in other.rglob("*") if not path.is_symlink()):
            self.assertEqual(path.stat().st_mode & 0o444, 0o444, path)
            self.assertTrue(path.is_file() or path.stat().st_mode & 0o111 == 0o111, path)

    def test_a_folder_that_cannot_be_written(self):
        (self.folder / "a file").write_text("")
        ended = run([self.top / "sdhring", "--install", self.folder / "a file"], self.folder, python_path())
        self.assertIn("can't be written", self.ended(ended, 82).stderr)


class OldPython(unittest.TestCase):
    def test_it_is_said_what_is_wanted(self):
        before = "import sys; sys.version_info = (3, 10, 13); sys.argv = ['/bin/sdhring-plan']; sys.path.insert(0, 'tools'); import ringtools"
        ended = run(["python3", "-c", before], TOP, python_path())
        self.assertEqual((ended.returncode, ended.stderr), (1, "sdhring-plan: Python 3.11 or later is wanted, and this is 3.10\n"))


@unittest.skipUnless(shutil.which("git"), "there is no git")
class Packed(Released):
    @classmethod
    def setUpClass(cls):
        super().setUpClass()
        cls.fake = cls.folder / "fake"
        executable(cls.fake / "rt", RT)
        for name in PROGRAMS:
            executable(cls.fake / "programs" / name, PROGRAM.replace("ran", f"{name} ran"))
        cls.path = f"{cls.fake}:{python_path()}:{Path(shutil.which('git')).parent}"
        (cls.top / ".gitignore").write_text("out/\n__pycache__/\n")
        cls.git("init", "-q")
        cls.commit("sources")
        cls.sources = cls.git("rev-parse", "HEAD")
        cls.refreshed = cls.release("dist", "--from", cls.fake / "programs")
        cls.commit("release")

    @classmethod
    def git(cls, *words):
        who = ["-c", "user.name=tester", "-c", "user.email=tester@example.org", "-c", "commit.gpgsign=false"]
        return subprocess.run(["git", *who, *words], cwd=cls.top, check=True, capture_output=True, text=True).stdout.strip()

    @classmethod
    def commit(cls, what):
        cls.git("add", "-A", "-f")
        cls.git("commit", "-q", "-m", what)

    @classmethod
    def release(cls, *words, python="python3"):
        return run([python, cls.top / "tools" / "release", *words], cls.top, cls.path)

    def packed(self, name, python="python3"):
        ended = self.ended(self.release("pack", "--to", self.folder / name, python=python))
        return {Path(line).name: Path(line) for line in ended.stdout.splitlines()}

    def test_the_build(self):
        self.ended(self.refreshed)
        records = read_build((self.top / "dist" / "BUILD").read_text())
        self.assertEqual([record.name for record in records], list(PROGRAMS))
        for record in records:
            self.assertEqual((record.commit, record.kit), (self.sources, "kit-of-the-test logic 0123"))
            self.assertEqual(record.sum, sum_of((self.top / "dist" / record.name).read_bytes()))
        self.assertEqual(self.ended(run([self.top / "sdhring", "run"], self.top)).stdout, "sdhring ran run\n")

    def test_what_is_built_is_held_against_it(self):
        for name in PROGRAMS:
            executable(self.top / "crates" / name / "out" / name, PROGRAM.replace("ran", f"{name} ran"))
        said = self.ended(self.release("check")).stdout
        self.assertEqual(said.count("the same bytes as these sources build"), len(PROGRAMS))
        file, data = self.top / "dist" / "sdhwatch", (self.top / "dist" / "sdhwatch").read_bytes()
        file.write_bytes(bytes([data[0] ^ 1]) + data[1:])
        self.assertIn("dist/sdhwatch: isn't the program that dist/BUILD names", self.ended(self.release("check"), 1).stdout)
        file.write_bytes(data)
        path = self.top / "crates" / "sdhpath" / "out" / "sdhpath"
        path.write_bytes(path.read_bytes()[:-1] + b"#")
        self.assertIn("dist/sdhpath: DIFFERS from what these sources build", self.ended(self.release("check"), 1).stdout)
        source = self.top / "crates" / "sdhpath" / "src" / "main.rt"
        before = source.read_text()
        source.write_text("another")
        said = self.ended(self.release("check")).stdout
        source.write_text(before)
        self.assertIn(f"dist/sdhpath: of release {(self.top / 'VERSION').read_text().strip()}, commit {self.sources[:12]}; the sources have changed since", said)

    def test_sources_that_are_not_committed(self):
        source = self.top / "crates" / "low" / "src" / "more.rt"
        source.write_text("more")
        ended = self.ended(self.release("dist", "--from", self.fake / "programs"), 2)
        source.unlink()
        self.assertIn("isn't committed", ended.stderr)

    def test_the_same_bytes_again(self):
        """By the system's Python too, where that can read plans: it may be any from 3.11 on."""
        python = "/usr/bin/python3"
        is_enough = Path(python).exists() and run([python, "-c", "import tomllib"], self.top).returncode == 0
        first, again = self.packed("first"), self.packed("again", python if is_enough else "python3")
        self.assertEqual(sorted(first), sorted(again))
        for name, path in first.items():
            self.assertEqual(path.read_bytes(), again[name].read_bytes(), name)
        self.assertEqual(len(first), 2 + bool(shutil.which("dpkg-deb")))

    def test_the_tarball(self):
        """The first commands of README, as they stand there, in a root where nothing else is."""
        path = next(path for name, path in self.packed("tarball").items() if name.endswith(".tar.xz"))
        with tarfile.open(path) as archive:
            archive.extractall(self.folder / "unpacked")
        top = self.folder / "unpacked" / path.name.removesuffix(".tar.xz")
        self.check_commands(top, top)
        for name, text in texts_below(top):
            found = OF_REPOSITORY.search(text) if name.suffix not in (".py", ".bash") and name.parts[-1] not in ("sdhring", "install") else None
            with self.subTest(name=name):
                self.assertIsNone(found and text[max(0, found.start() - 40) : found.end() + 40])
        for document in [*top.glob("*.md"), *(top / "docs").glob("*.md")]:
            for target in re.findall(r"\]\(([^)#:]+)", document.read_text()):
                self.assertTrue((document.parent / target).is_file(), f"{document.name}: {target}")
        prefix = self.folder / "from a tarball"
        self.ended(run([top / "sdhring", "--install", prefix], top, python_path()))
        self.assertEqual(run([prefix / "bin" / "sdhwatch", "run"], top).stdout, "sdhwatch ran run\n")

    def test_a_tarball_has_the_rights_of_its_folders(self):
        """So that they are what they are for everybody, whatever the user's mask is as it is unpacked."""
        path = next(path for name, path in self.packed("rights").items() if name.endswith(".tar.xz"))
        with tarfile.open(path) as archive:
            members = archive.getmembers()
        folders = {one.name for one in members if one.isdir()}
        self.assertEqual({one.mode for one in members if one.isdir()}, {0o755})
        self.assertEqual({str(parent) for one in members for parent in Path(one.name).parents} - {"."}, folders)
        names = [one.name for one in members]
        self.assertTrue(all(names.index(str(Path(name).parent)) < names.index(name) for name in names if "/" in name))

    def check_commands(self, top, folder, path=None):
        """The commands of README's section on running it: those that a user types, each of which ends well."""
        readme = (folder / "README.md").read_text()
        commands = [line.strip() for line in readme.split("## Run it\n")[1].split("\n## ")[0].splitlines() if re.match(r"    (\./)?sdh\S* ", line) and "--" not in line]
        self.assertGreaterEqual(len(commands), 1)
        for command in [*commands, *(("sdhring --version", "sdhring --help") if path else ("./sdhring --version", "./sdhring --help"))]:
            ended = run(["bash", "-c", command.replace(" /usr/", f" {top}/usr/")], folder, f"{path or ''}:{python_path()}")
            with self.subTest(command=command):
                self.assertEqual((ended.returncode, ended.stderr), (0, ""))

    @unittest.skipUnless(shutil.which("dpkg-deb"), "there is no dpkg-deb")
    def test_the_package(self):
        path = next(path for name, path in self.packed("package").items() if name.endswith(".deb"))
        root = self.folder / "root"
        subprocess.run(["dpkg-deb", "-x", path, root], check=True)
        self.check_commands(root, root / "usr" / "share" / "doc" / "sdhring", root / "usr" / "bin")
        told = run([root / "usr" / "bin" / "sdhring-whatif", "--help"], self.folder, python_path())
        self.assertIn("usage: sdhring-whatif", self.ended(told).stdout)
        if shutil.which("lintian"):
            ended = subprocess.run(["lintian", "--allow-root", "--fail-on", "error,warning", path], capture_output=True, text=True)
            self.assertEqual(ended.returncode, 0, ended.stdout + ended.stderr)


if __name__ == "__main__":
    unittest.main()
