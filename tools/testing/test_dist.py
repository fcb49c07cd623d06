"""The release in dist/: it answers in a copy of this checkout without a kit, is installed from there, and is what BUILD says."""

import os
import shutil
import signal
import subprocess
import sys
import tempfile
import unittest
from pathlib import Path

from checkouts import at_terminal
from common import PATIENCE, RINGS, TOOLS

from ringtools.build import PROGRAMS, read_build, sum_of
from ringtools.rows import FOLDERS, read_rows

TOP = TOOLS.parent
DIST = TOP / "dist"
EXAMPLE = TOP / "examples" / "span-cut.toml"
MORE_THAN_A_PIPE = 1 << 17  # bytes, of which a pipe that nobody reads holds half
HERE = ("dist", "docs", "examples", "tools", "crates", "crates.txt", "HANDLES", "VERSION", "README.md", "CHANGELOG.md", "sdh*")


def copied(to):
    """What a fresh clone has of this checkout."""
    for path in (path for form in HERE for path in TOP.glob(form)):
        if path.is_dir():
            shutil.copytree(path, to / path.name, ignore=shutil.ignore_patterns("out", "__pycache__"))
        else:
            shutil.copy(path, to)


def plain_environment():
    """The environment of a user without the kit and without a home."""
    return {"PATH": f"{Path(shutil.which('python3')).resolve().parent}:/usr/bin:/bin", "HOME": ""}


def run(words, folder, **more):
    return subprocess.run(words, cwd=folder, env=plain_environment(), capture_output=True, timeout=PATIENCE, **more)


@unittest.skipUnless((DIST / "BUILD").is_file(), "there is no release yet")
class Dist(unittest.TestCase):
    @classmethod
    def setUpClass(cls):
        folder = tempfile.TemporaryDirectory()
        cls.addClassCleanup(folder.cleanup)
        cls.top = Path(folder.name) / "checkout"
        cls.top.mkdir()
        copied(cls.top)
        cls.records = {record.name: record for record in read_build((DIST / "BUILD").read_text())}
        cls.prefix = Path(folder.name) / "prefix"
        cls.installed = run([cls.top / "sdhring", "--install", cls.prefix], cls.top, input=b"")

    def test_the_programs_are_those_of_the_build(self):
        self.assertEqual(set(self.records), set(PROGRAMS))
        for name in PROGRAMS:
            self.assertEqual(sum_of((DIST / name).read_bytes()), self.records[name].sum)
            self.assertTrue(os.access(DIST / name, os.X_OK))

    def test_the_first_answer(self):
        ended = run([self.top / "sdhring", "run"], self.top, input=EXAMPLE.read_bytes())
        self.assertEqual((ended.returncode, ended.stdout), (0, (RINGS / "span-cut.text").read_bytes()))
        changed = run([self.top / "sdhring", "--sources"], self.top).stdout.decode().strip() != self.records["sdhring"].sources
        self.assertEqual(b"the sources have changed since" in ended.stderr, changed)

    def test_words_that_are_not_known_lead_on(self):
        for name, words, right in (
            ("sdhring", ["examples/tie.toml"], "./sdhring run < examples/tie.toml"),
            ("sdhring", ["drop", "c1", "a", "examples/tie.toml"], "./sdhring drop c1 a < examples/tie.toml"),
            ("sdhoutage", ["examples/tie.toml"], "./sdhoutage run < examples/tie.toml"),
            ("sdhwhatif", ["double", "examples/tie.toml"], "./sdhwhatif double < examples/tie.toml"),
            ("sdhaps", ["node", "2", "examples/tie.toml"], "./sdhaps node 2 < examples/tie.toml"),
        ):
            with self.subTest(words=words):
                ended = run([self.top / name, *words], self.top, input=b"")
                self.assertEqual(ended.returncode, 2)
                self.assertTrue(ended.stdout.startswith(f"usage: {name} ".encode()), ended.stdout)
                self.assertIn(f"{right}\n", ended.stderr.decode())

    def test_a_refusal_that_goes_to_a_terminal_is_explained(self):
        for plan, status, said in (("refused", 6, "examples/refused.toml:8:26: bad plan 24 at 2"), ("too-short", 7, "write limit = ")):
            with self.subTest(plan=plan):
                plan = self.top / "examples" / f"{plan}.toml"
                ended, seen = at_terminal([self.top / "sdhring", "run"], self.top, plain_environment(), plan)
                self.assertEqual(ended, status)
                self.assertIn(said, seen)

    def test_a_signal_ends_the_program(self):
        signals = (signal.SIGINT, signal.SIGTERM, signal.SIGHUP)

        def hears():
            """Whoever started the tests may have had a signal ignored, as `nohup` does, and a shell can't take that back."""
            for sent in signals:
                signal.signal(sent, signal.SIG_DFL)

        for sent in signals:
            with self.subTest(sent=sent.name):
                words = [self.top / "sdhring", "run"]
                pipes = {"stdin": subprocess.PIPE, "stdout": subprocess.PIPE, "stderr": subprocess.PIPE}
                with subprocess.Popen(words, cwd=self.top, env=plain_environment(), preexec_fn=hears, **pipes) as started:
                    started.stdin.write(b"#" * MORE_THAN_A_PIPE)
                    started.stdin.flush()  # it reads its plan by now, and the signal comes to it or to the launcher
                    started.send_signal(sent)
                    self.assertIn(started.wait(PATIENCE), (-sent, 128 + sent))

    def test_starts_at_once_answer_the_same(self):
        words = [self.top / "sdhring", "run"]
        pipes = {"stdin": subprocess.PIPE, "stdout": subprocess.PIPE, "stderr": subprocess.DEVNULL}
        begun = [subprocess.Popen(words, cwd=self.top, env=plain_environment(), **pipes) for _ in range(4)]
        for started in begun:
            said = started.communicate(EXAMPLE.read_bytes(), timeout=PATIENCE)[0]
            self.assertEqual((said, started.returncode), ((RINGS / "span-cut.text").read_bytes(), 0))

    def test_the_install(self):
        self.assertEqual(self.installed.returncode, 0, self.installed.stderr)
        for name in PROGRAMS:
            self.assertEqual((self.prefix / "lib" / "sdhring" / name).read_bytes(), (DIST / name).read_bytes())
            told = run([self.prefix / "bin" / name, "--version"], self.prefix).stdout.decode()
            self.assertTrue(told.startswith(f"{self.records[name].words()}, proved with "), told)

    def test_rows_of_the_installed_programs(self):
        """All rows of each program, by its launcher."""
        for name, folder in FOLDERS.items():
            with self.subTest(name=name):
                ended = subprocess.run([sys.executable, TOOLS / "rows", self.prefix / "bin" / name], capture_output=True, text=True)
                self.assertEqual(ended.returncode, 0, ended.stdout + ended.stderr)
                self.assertIn(f"rows of {name}: {len(read_rows(folder))} passed, 0 failed", ended.stdout)


if __name__ == "__main__":
    unittest.main()
