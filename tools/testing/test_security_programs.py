"""Which program runs: nothing of the current folder, of the environment's search paths, or of another user of the machine."""

import marshal
import os
import pwd
import shutil
import subprocess
import tempfile
import unittest
from pathlib import Path

from checkouts import PROGRAM, TOP, at_terminal, executable, make_checkout, release
from common import TOOLS, copied_tools, ring

from ringtools.build import sum_of
from ringtools.installing import TOOLS as NAMES

IS_ROOT = os.geteuid() == 0
STATUSES = (5, 6, 7, 9, 10)
HOSTILE = 'import os\nopen(os.path.join({top!r}, "ran-" + __name__), "w")\n'
MODULES = ("tomllib", "argparse", "csv", "json", "re", "shlex", "signal", "subprocess", "ringtools", "sitecustomize", "usercustomize", "pathlib", "zlib")


class Started(unittest.TestCase):
    def setUp(self):
        folder = tempfile.TemporaryDirectory()
        self.addCleanup(folder.cleanup)
        self.top = Path(folder.name)
        self.top.chmod(0o755)

    def environment(self, **more: str) -> dict[str, str]:
        return {"PATH": "/usr/bin:/bin", "HOME": str(self.top), **more}


class Python(Started):
    def hostile_folder(self) -> Path:
        """A folder with modules that leave a file where they are run, and with a refused plan."""
        folder = self.top / "hostile"
        folder.mkdir()
        for name in MODULES:
            (folder / f"{name}.py").write_text(HOSTILE.format(top=str(self.top)))
        shutil.copy(ring("span-cut")[0], folder / "good.toml")
        (folder / "plan.toml").write_text((folder / "good.toml").read_text().replace("rate = 4", "rate = 5"))
        return folder

    def ran(self) -> list[str]:
        return sorted(path.name for path in self.top.glob("ran-*"))

    def test_a_refused_plan_at_a_terminal_runs_nothing_of_its_folder(self):
        folder = self.hostile_folder()
        for program, words in (("sdhring", ["run"]), ("sdhwatch", ["run"]), ("sdhoutage", ["run"]), ("sdhpath", ["run"]), ("sdhaps", ["run"]), ("sdhwhatif", ["single"])):
            with self.subTest(program=program):
                status, told = at_terminal([TOP / program, *words], folder, self.environment(), folder / "plan.toml")
                self.assertEqual((status, self.ran()), (6, []))
                self.assertIn("plan.toml", told)

    def test_tools_run_nothing_of_their_folder_or_of_search_paths(self):
        folder = self.hostile_folder()
        for path in ("", ":/opt/lib", str(folder), f".:{folder}"):
            environment = self.environment(PYTHONPATH=path, PYTHONSTARTUP=str(folder / "zlib.py"), PYTHONUSERBASE=str(folder))
            for tool in NAMES:
                with self.subTest(tool=tool, path=path):
                    ended = subprocess.run([TOP / tool, "--version"], cwd=folder, env=environment, capture_output=True)
                    self.assertEqual((ended.returncode, self.ran()), (0, []), ended.stderr)

    def test_each_python_is_started_isolated(self):
        scripts = [path for folder in (TOOLS, TOP / "examples") for path in folder.rglob("*") if path.is_file() and not {"testing", "__pycache__"} & set(path.parts)]
        for path in [*scripts, *TOP.glob("sdh*"), TOP / ".ci" / "run"]:
            if not path.is_file() or b"python3" not in path.read_bytes() or path.suffix == ".py":
                continue
            for line in path.read_text(encoding="utf-8").splitlines():
                if line.startswith("#!") and "python3" in line:
                    self.assertEqual(line, "#!/usr/bin/env -S python3 -I" + "B" * (path.parent == TOOLS), path)
                if "python3 -c" in line or "python3 -m" in line:
                    self.fail(f"{path}: {line}")

    def unpacked(self) -> Path:
        """Tools at a place of their own, as an unpacked release has them."""
        tools = copied_tools(self.top)
        shutil.copy(ring("span-cut")[0], self.top / "plan.toml")
        return tools

    def test_compiled_modules_are_kept_where_others_cannot_write(self) -> None:
        """Whatever the user's mask is, which the files of the user's own keep."""
        tools = self.unpacked()
        for mask in (0, 0o002, 0o077):
            for cache in tools.rglob("__pycache__"):
                shutil.rmtree(cache)
            ended = subprocess.run([tools / "sdhring-plan", "new", "1>3", "--to", f"{mask}.toml"], cwd=self.top, env=self.environment(), umask=mask, capture_output=True)
            self.assertEqual(ended.returncode, 0, ended.stderr)
            self.assertEqual((self.top / f"{mask}.toml").stat().st_mode & 0o777, 0o666 & ~mask)
            self.assertEqual({path.stat().st_mode & 0o022 for path in tools.rglob("__pycache__")}, {0})
            self.assertGreater(len(list((tools / "ringtools" / "__pycache__").iterdir())), 5)

    def test_compiled_modules_that_others_can_write_are_not_run(self) -> None:
        tools = self.unpacked()
        start = lambda: subprocess.run([tools / "sdhring-explain", "plan.toml"], cwd=self.top, env=self.environment(), capture_output=True)
        self.assertEqual(start().returncode, 0)
        cache = tools / "ringtools" / "__pycache__"
        compiled = next(path for path in cache.iterdir() if path.name.startswith("plan."))
        hostile = compile(HOSTILE.format(top=str(self.top)), "x", "exec")
        compiled.write_bytes(compiled.read_bytes()[:16] + marshal.dumps(hostile))
        cache.chmod(0o777)
        self.assertEqual((start().returncode, self.ran()), (0, []))
        cache.chmod(0o755)
        start()
        self.assertEqual(self.ran(), ["ran-ringtools.plan"])  # whoever can write to the folder of the tools can change what they are

    def test_a_file_that_begins_with_a_minus_is_explained(self):
        folder = self.hostile_folder()
        shutil.move(folder / "plan.toml", folder / "-x.toml")
        status, told = at_terminal([TOP / "sdhring", "run"], folder, self.environment(), folder / "-x.toml")
        self.assertEqual(status, 6)
        self.assertIn("-x.toml:1:8: bad plan 13 at 0", told)

    def test_a_name_of_a_file_orders_the_terminal_nothing(self):
        folder = self.hostile_folder()
        (folder / "\x1b]0;OWNED\x07.toml").write_text("x")
        _, told = at_terminal([TOP / "sdhring", "run", "\x1b]0;OWNED\x07.toml"], folder, self.environment())
        self.assertIn("a plan is read from standard input", told)
        self.assertNotIn("\x1b", told)
        self.assertNotIn("\x07", told)


class Cache(Started):
    """A checkout whose own programs are missing: what lies in a cache runs only where the user alone can have put it there."""

    def setUp(self):
        super().setUp()
        self.checkout = self.top / "checkout"
        make_checkout(self.checkout)
        release(self.checkout)
        sources = subprocess.run([self.checkout / "sdhring", "--sources"], capture_output=True, text=True, check=True)
        self.sources = sources.stdout.strip()
        shutil.rmtree(self.checkout / "dist")

    def plant(self, base: Path) -> Path:
        """Puts a program with a record into the cache that is below this folder, and returns its file."""
        hash = sum_of(str(self.checkout).encode())[:16]
        program = base / "sdhring" / hash / "sdhring"
        program.parent.mkdir(parents=True)
        executable(program, PROGRAM.replace("ran", "planted ran"))
        record = f"version 9.9.9\ncommit {'0' * 40}\nkit x logic y\nprogram sdhring {sum_of(program.read_bytes())} {self.sources}\n"
        (program.parent / "sdhring.BUILD").write_text(record)
        for path in [base, base / "sdhring", program.parent]:
            path.chmod(0o755)
        (program.parent / "sdhring.BUILD").chmod(0o644)
        return program

    def run_it(self, **environment: str) -> str:
        ended = subprocess.run(
            [self.checkout / "sdhring", "run"], env={"PATH": "/usr/bin:/bin", **environment}, cwd=self.top, input="", capture_output=True, text=True
        )
        return ended.stdout

    def test_ones_own_cache_counts(self):
        self.plant(self.top / "own")
        self.assertEqual(self.run_it(XDG_CACHE_HOME=str(self.top / "own")), "planted ran run\n")

    def test_without_a_home_there_is_no_cache(self):
        hash = sum_of(str(self.checkout).encode())[:16]
        script = self.checkout / "tools" / "proving.bash"
        asked = f"top={self.checkout} name=sdhring; . {script}; echo \"[$apart]\""
        for environment in ({}, {"XDG_CACHE_HOME": "relative"}, {"HOME": "home"}, {"XDG_CACHE_HOME": "", "HOME": ""}):
            told = subprocess.run(["bash", "-c", asked], env={"PATH": "/usr/bin:/bin", **environment}, capture_output=True, text=True)
            self.assertEqual(told.stdout, "[]\n", environment)
        told = subprocess.run(["bash", "-c", asked], env={"PATH": "/usr/bin:/bin", "HOME": "/h", "XDG_CACHE_HOME": "c"}, capture_output=True, text=True)
        self.assertEqual(told.stdout, f"[/h/.cache/sdhring/{hash}]\n")

    def test_a_relative_cache_is_none(self):
        self.plant(self.top / "relative")
        self.assertEqual(self.run_it(XDG_CACHE_HOME="relative"), "")

    def test_folders_that_others_can_write_are_none(self):
        program = self.plant(self.top / "own")
        for path, mode in ((self.top / "own", 0o777), (program.parent, 0o775), (program, 0o777), (program.parent / "sdhring.BUILD", 0o666)):
            before = path.stat().st_mode
            path.chmod(mode)
            with self.subTest(path=path):
                self.assertEqual(self.run_it(XDG_CACHE_HOME=str(self.top / "own")), "")
            path.chmod(before)
        self.assertEqual(self.run_it(XDG_CACHE_HOME=str(self.top / "own")), "planted ran run\n")

    @unittest.skipUnless(IS_ROOT, "another user's files are made by root alone")
    def test_what_another_user_has_put_there_is_none(self):
        program, nobody = self.plant(self.top / "own"), pwd.getpwnam("nobody").pw_uid
        for path in (program, program.parent / "sdhring.BUILD", program.parent, self.top / "own"):
            os.chown(path, nobody, -1)
            with self.subTest(path=path):
                self.assertEqual(self.run_it(XDG_CACHE_HOME=str(self.top / "own")), "")
            os.chown(path, 0, -1)

    def test_a_link_to_a_place_of_another_is_none(self):
        program = self.plant(self.top / "own")
        (self.top / "open").mkdir()
        (self.top / "open").chmod(0o777)
        shutil.move(program, self.top / "open" / "sdhring")
        program.symlink_to(self.top / "open" / "sdhring")
        self.assertEqual(self.run_it(XDG_CACHE_HOME=str(self.top / "own")), "")


if __name__ == "__main__":
    unittest.main()
