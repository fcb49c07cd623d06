"""A release: its checksums, a signature of them, modes in its archives, what its programs need, and a program that was changed."""

import re
import shutil
import subprocess
import tarfile
import tempfile
import unittest
from pathlib import Path

from checkouts import TOP, make_checkout, release
from common import TOOLS

from ringtools.build import PROGRAMS
from ringtools.releasing import LIBC, ReleaseProblem, verified
from ringtools.symbols import ELF, HEAD, NEEDED, SEGMENT, LoadedSymbols, Part, loaded, parts_of, without_symbols

DIST = TOP / "dist"


class Archives(unittest.TestCase):
    """A release of stand-ins for the programs."""

    @classmethod
    def setUpClass(cls):
        folder = tempfile.TemporaryDirectory()
        cls.addClassCleanup(folder.cleanup)
        cls.top, cls.to = Path(folder.name) / "checkout", Path(folder.name) / "release"
        make_checkout(cls.top)
        release(cls.top)
        words = ["python3", cls.top / "tools" / "release", "pack", "--to", cls.to, "--here", "1700000000"]
        ended = subprocess.run(words, capture_output=True, text=True)
        assert ended.returncode == 0, ended.stderr

    def setUp(self):
        folder = tempfile.TemporaryDirectory()
        self.addCleanup(folder.cleanup)
        self.folder = Path(folder.name) / "release"
        shutil.copytree(self.to, self.folder)
        self.archives = sorted(path.name for path in self.folder.iterdir() if path.name != "SHA256SUMS")

    def test_the_list_names_all_archives_and_is_right(self):
        self.assertEqual(sorted(verified(self.folder)), self.archives)
        ended = subprocess.run(["sha256sum", "--check", "SHA256SUMS"], cwd=self.folder, capture_output=True, text=True)
        self.assertEqual((ended.returncode, ended.stdout.count(": OK")), (0, len(self.archives)))
        self.assertEqual(subprocess.run([TOOLS / "release", "verify", self.folder], capture_output=True).returncode, 0)

    def test_a_changed_archive_a_missing_one_and_one_more_are_refused(self):
        path = self.folder / self.archives[0]
        data = path.read_bytes()
        path.write_bytes(data[:-1] + bytes([data[-1] ^ 1]))
        with self.assertRaisesRegex(ReleaseProblem, "isn't the file that SHA256SUMS names"):
            verified(self.folder)
        ended = subprocess.run([TOOLS / "release", "verify", self.folder], capture_output=True)
        self.assertEqual((ended.returncode, ended.stderr.count(b"\n")), (2, 1))
        path.unlink()
        self.assertEqual(subprocess.run([TOOLS / "release", "verify", self.folder], capture_output=True).returncode, 2)
        path.write_bytes(data)
        (self.folder / "more.tar.xz").write_bytes(b"")
        with self.assertRaisesRegex(ReleaseProblem, "SHA256SUMS doesn't name it"):
            verified(self.folder)

    def test_lists_that_are_none(self):
        for text in ("", "x\n", f"{'0' * 64}  ../x\n", f"{'0' * 64}  /etc/passwd\n", f"{'0' * 64} *x\n"):
            (self.folder / "SHA256SUMS").write_text(text)
            with self.assertRaisesRegex(ReleaseProblem, "a checksum and a file's name are wanted"):
                verified(self.folder)

    @unittest.skipUnless(shutil.which("gpg"), "there is no gpg")
    def test_a_signature_by_openpgp(self):
        """With a key of this test alone, by the commands of dist/README.md."""
        home = tempfile.mkdtemp(prefix="g")
        self.addCleanup(shutil.rmtree, home, True)
        gpg = ["gpg", "--homedir", home, "--batch", "--no-tty", "--pinentry-mode", "loopback", "--passphrase", ""]
        subprocess.run([*gpg, "--quick-generate-key", "tester <t@example.org>", "ed25519", "sign"], capture_output=True, check=True)
        subprocess.run([*gpg, "--armor", "--detach-sign", "SHA256SUMS"], cwd=self.folder, capture_output=True, check=True)
        verify = [*gpg, "--verify", "SHA256SUMS.asc", "SHA256SUMS"]
        self.assertEqual(subprocess.run(verify, cwd=self.folder, capture_output=True).returncode, 0)
        with open(self.folder / "SHA256SUMS", "a") as file:
            file.write("\n")
        self.assertNotEqual(subprocess.run(verify, cwd=self.folder, capture_output=True).returncode, 0)
        subprocess.run(["gpgconf", "--homedir", home, "--kill", "all"], capture_output=True)

    @unittest.skipUnless(shutil.which("minisign"), "there is no minisign")
    def test_a_signature_by_minisign(self):
        key, public = self.folder / "key", self.folder / "minisign.pub"
        subprocess.run(["minisign", "-G", "-W", "-s", key, "-p", public], capture_output=True, check=True)
        subprocess.run(["minisign", "-S", "-s", key, "-m", "SHA256SUMS"], cwd=self.folder, capture_output=True, check=True)
        verify = ["minisign", "-V", "-m", "SHA256SUMS", "-p", public]
        self.assertEqual(subprocess.run(verify, cwd=self.folder, capture_output=True).returncode, 0)
        with open(self.folder / "SHA256SUMS", "a") as file:
            file.write("\n")
        self.assertNotEqual(subprocess.run(verify, cwd=self.folder, capture_output=True).returncode, 0)

    def check_members(self, archive):
        for member in archive.getmembers():
            with self.subTest(name=member.name):
                self.assertFalse(member.name.startswith("/") or ".." in member.name.split("/"))
                self.assertEqual((member.uid, member.gid), (0, 0))
                self.assertTrue(member.isreg() or member.isdir() or member.issym())
                if member.issym():
                    self.assertFalse(member.linkname.startswith("/"))
                else:
                    self.assertIn(member.mode & 0o7777, (0o755,) if member.isdir() else (0o644, 0o755))

    def test_modes_of_the_tarball(self):
        with tarfile.open(next(self.folder.glob("*.tar.xz"))) as archive:
            self.check_members(archive)

    @unittest.skipUnless(shutil.which("dpkg-deb"), "there is no dpkg-deb")
    def test_modes_of_the_package(self):
        path = next(self.folder.glob("*.deb"))
        for part in ("--fsys-tarfile", "--ctrl-tarfile"):
            with subprocess.Popen(["dpkg-deb", part, path], stdout=subprocess.PIPE) as running, tarfile.open(fileobj=running.stdout, mode="r|") as archive:
                self.check_members(archive)
        told = subprocess.run(["dpkg-deb", "--field", path, "Depends"], capture_output=True, text=True, check=True)
        self.assertIn(f"libc6 (>= {LIBC})", told.stdout)


class Programs(unittest.TestCase):
    @unittest.skipUnless(all((DIST / name).is_file() for name in PROGRAMS), "dist/ has no programs")
    def test_a_package_has_them_without_symbols_and_else_as_they_are(self):
        for name in PROGRAMS:
            program = (DIST / name).read_bytes()
            without = without_symbols(program)
            with self.subTest(name=name):
                kinds = lambda data: [part.kind for part in parts_of(data) if not part.flags & NEEDED]
                self.assertEqual(sorted(kinds(program)), [0, 1, 2, 3, 3])  # none, who compiled it, the symbols, and two of names
                self.assertEqual(kinds(without), [0, 3])  # none, and the names of sections
                self.assertEqual(loaded(without), loaded(program))
                self.assertEqual(without[:40] + without[48:60] + without[64:4096], program[:40] + program[48:60] + program[64:4096])
                self.assertEqual(without_symbols(without), without)
        with tempfile.TemporaryDirectory() as folder:
            path = Path(folder) / "sdhring"
            path.write_bytes(without_symbols((DIST / "sdhring").read_bytes()))
            path.chmod(0o755)
            plan = (TOP / "examples" / "span-cut.toml").read_bytes()
            run = lambda program: subprocess.run([program, "run"], input=plan, capture_output=True).stdout
            self.assertEqual(run(path), run(DIST / "sdhring"))

    def test_a_script_is_left_and_symbols_that_are_loaded_are_refused(self):
        self.assertEqual(without_symbols(b"#!/bin/sh\n"), b"#!/bin/sh\n")
        program = bytearray(HEAD.pack(ELF.ljust(16, b"\0"), 3, 62, 1, 0, 64, 128, 0, 64, 56, 1, 64, 3, 2) + bytes(4096))
        SEGMENT.pack_into(program, 64, 1, 5, 0, 0, 0, 2048, 2048, 4096)
        program[128 + 64 : 128 + 128] = Part(0, 2, 0, 0, 1024, 24, 1, 0, 8, 24).packed()
        with self.assertRaises(LoadedSymbols):
            without_symbols(bytes(program))

    @unittest.skipUnless(all((DIST / name).is_file() for name in PROGRAMS), "dist/ has no programs")
    def test_the_library_that_they_need(self):
        versions = {tuple(map(int, found.split(b"."))) for name in PROGRAMS for found in re.findall(rb"GLIBC_([0-9]+(?:\.[0-9]+)+)", (DIST / name).read_bytes())}
        self.assertEqual(".".join(map(str, max(versions))), LIBC)

    def test_a_changed_program_is_noticed_at_its_start_and_by_version(self):
        with tempfile.TemporaryDirectory() as folder:
            top = Path(folder) / "checkout"
            make_checkout(top)
            release(top)
            shutil.rmtree(top / "crates")
            (top / "crates.txt").unlink()
            run = lambda *words: subprocess.run([top / "sdhring", *words], input="", capture_output=True, text=True)
            self.assertEqual(run("run").stdout, "sdhring ran run\n")
            with open(top / "dist" / "sdhring", "a") as file:
                file.write("# changed\n")
            ended = run("run")
            self.assertEqual((ended.returncode, ended.stdout), (83, ""))
            self.assertIn("not built", run("--version").stdout)


if __name__ == "__main__":
    unittest.main()
