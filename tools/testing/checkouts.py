"""Checkouts of stand-ins for the crates, the programs and `rt`, for the tests of the launcher, of installs and of releases."""

import os
import pty
import shutil
import subprocess
import tempfile
from pathlib import Path

from common import TOOLS

from ringtools import installing
from ringtools.build import PROGRAMS, sum_of

TOP = TOOLS.parent
RT = """#!/bin/sh
case $1 in
  version) echo "kit-of-the-test logic 0123" ;;
  all) sed 's/:.*//' crates.txt | while read -r name; do
      echo "== $name"
      [ -e "crates/$name/out" ] || { mkdir "crates/$name/out"; echo "$name" >>"$FAKE/proved"; }
      while [ -e "$FAKE_WAITS" ]; do sleep 0.1; done
    done
    echo "== summary"
    [ -z "$FAKE_FAILING" ] || { echo "low: ok"; echo "$FAKE_FAILING: failed (1)"; exit 1; } ;;
  run) mkdir -p out; cp "$FAKE/program" "out/${PWD##*/}"; echo stored ;;
esac
"""
PROGRAM = """#!/bin/sh
[ "$1" != wait ] || { trap 'echo told; exit 5' TERM; echo ready; while :; do sleep 0.1; done; }
cat >/dev/null
echo "ran $*"
exit "${FAKE_STATUS:-0}"
"""


def make_checkout(top):
    """A checkout of stand-ins for the crates, with this one's launcher, tools, documents and examples."""
    for crate in ("low", *PROGRAMS):
        (top / "crates" / crate / "src").mkdir(parents=True)
        (top / "crates" / crate / "src" / "main.rt").write_text(crate)
    for crate in PROGRAMS:
        for name, text in (("args", "run\n"), ("stdin", ""), ("stdout", "stored\n")):
            (top / "crates" / crate / name).write_text(text)
        shutil.copy(TOP / crate, top)
    (top / "crates.txt").write_text("low:\n" + "".join(f"{name}: low\n" for name in PROGRAMS))
    for name in ("HANDLES", "VERSION", "README.md", "CHANGELOG.md"):
        shutil.copy(TOP / name, top)
    for name in installing.TOOLS:
        shutil.copy(TOP / name, top)
    for name in ("tools", "docs", "examples"):
        shutil.copytree(TOP / name, top / name, symlinks=True, ignore=shutil.ignore_patterns("__pycache__", "testing"))


def executable(path, text):
    path.parent.mkdir(exist_ok=True, parents=True)
    path.write_text(text)
    path.chmod(0o755)


def release(top):
    """Puts programs into dist/, as of the sources that stand there now."""
    lines = ["version 9.8.7", f"commit {'0123456789' * 4}", "kit kit-of-the-release logic 4567"]
    for name in PROGRAMS:
        executable(top / "dist" / name, PROGRAM.replace("ran", f"{name} ran"))
        sources = subprocess.run([top / name, "--sources"], capture_output=True, text=True, check=True).stdout.strip()
        lines.append(f"program {name} {sum_of((top / 'dist' / name).read_bytes())} {sources}")
    (top / "dist" / "BUILD").write_text("\n".join(lines) + "\n")


def path_without(program, test):
    """The PATH, where this program isn't found on it. A folder that has it is replaced by one of links to all else in it."""
    folders = []
    for folder in os.environ["PATH"].split(":"):
        if (Path(folder) / program).exists():
            made = tempfile.TemporaryDirectory()
            test.addCleanup(made.cleanup)
            for path in (path for path in Path(folder).iterdir() if path.name != program):
                (Path(made.name) / path.name).symlink_to(path.absolute())
            folder = made.name
        folders.append(folder)
    return ":".join(folders)


def at_terminal(words, folder, environment, plan=None):
    """What a terminal shows of a start, as standard output and error, and as input too where there is no plan."""
    main, other = pty.openpty()
    given = open(plan, "rb") if plan else other
    with subprocess.Popen(words, cwd=folder, env=environment, stdin=given, stdout=other, stderr=other) as started:
        os.close(other)
        if not plan:
            os.write(main, b"\x04")
        seen = b""
        try:
            while part := os.read(main, 4096):
                seen += part
        except OSError:
            pass
    os.close(main)
    if plan:
        given.close()
    return started.returncode, seen.decode().replace("\r\n", "\n")
