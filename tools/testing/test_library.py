"""A node in a program of one's own, from C, Rust and SystemVerilog, and the crates: the example's text against the plain simulation, and the static
libraries where they are built. docs/LIBRARY.md is held against the files that it quotes, and its commands are typed."""

import os
import re
import shutil
import subprocess
import sys
import tempfile
import unittest
from pathlib import Path

from common import TOOLS, call

ROOT = TOOLS.parent
sys.path[:0] = [str(ROOT / "bench" / "aps"), str(ROOT / "bench" / "outage")]

import frames  # noqa: E402
import signalled  # noqa: E402
from simulate import Ring  # noqa: E402

PAGE = ROOT / "docs" / "LIBRARY.md"
EXAMPLE = ROOT / "crates" / "example_words"
LIBRARY = ROOT / "crates" / "sdh_bench_ring" / "out" / "libsdh_bench_ring.a"
KIT = Path(os.path.realpath(shutil.which("rt") or "")).parents[1] if shutil.which("rt") else None
RT = """#!/bin/sh
mkdir -p out && cc -c "$(dirname "$0")/../stub.c" -o out/stub.o && ar rc out/libsdh_bench_ring.a out/stub.o
"""
STUB = """#include <stddef.h>
#include <stdint.h>
/* Two ports for each circuit, of nodes 0, 1, 2 and so on. */
uint32_t sdh_bench_ring(size_t n, const int64_t *ids, size_t nodes, size_t circuits, const uint8_t *names, size_t length, size_t cuts, uint32_t steps) {
    for (size_t at = 0; at < nodes; at++) if (ids[at] != (int64_t)at) return 1000;
    return (n == 4 || n == 16) && names && length == 4 * circuits && cuts <= 3 && steps ? 2 * circuits : 1000;
}
"""
PLAN = {"rate": 4, "nodes": [1, 2, 3, 4], "threshold": 3, "wait": 10, "limit": 129, "circuit": [], "script": ["cut 2 east", "cut 3 west", "settle"]}


def words_of(plan, rounds):
    """What the example prints, by the simulation: the words of each node in the first rounds, and a part of the first frame."""
    ring, lines = Ring(plan), []

    def see():
        if ring.t < rounds:
            lines.append(f"after {ring.t + 1} rounds")
            for identifier, node in zip(ring.ids, ring.nodes):
                west, east = map(signalled.bytes_of, node.words)
                lines.append(f"node {identifier} west {west} east {east}")

    for step in plan["script"]:
        if step == "settle":
            assert ring.settle(see)
        else:
            ring.do(step.split(" "))
    frame = frames.frames(plan, 1, "west", 0, 1)[0]
    return "\n".join([*lines, f"bytes 24 to 39 of the first frame: {list(frame[24:40])}", ""])


class Library(unittest.TestCase):
    def test_the_example_prints_what_the_simulation_has(self):
        self.assertEqual((EXAMPLE / "stdout").read_text(), words_of(PLAN, 20))

    def test_another_ring_would_print_something_else(self):
        self.assertNotEqual((EXAMPLE / "stdout").read_text(), words_of(PLAN | {"script": ["cut 2 east", "settle"]}, 20))

    def test_the_page_quotes_the_files(self):
        page = PAGE.read_text()
        for name, first in (("crates/example_words/src/main.rt", "// Prints what"), ("bench/library/ring.c", "int main")):
            self.assertIn(f"`{name}`", page)
            text = re.search(rf"^    {first}.*\n(?:    .*\n|\n)+", page, re.M)[0]
            lines = [line.removeprefix("    ") for line in text.rstrip("\n").splitlines()]
            with self.subTest(name=name):
                self.assertIn("\n".join(lines), (ROOT / name).read_text())

    def test_files_named_are_there(self):
        for name in re.findall(r"`((?:crates|bench|tools)/[^` *]+)`", PAGE.read_text()):
            self.assertTrue((ROOT / name).exists(), name)

    def typed(self, top, path, leave_out="\n"):
        """What the page's commands for C and Rust print, typed in this checkout; a program of no compiler here isn't built."""
        block = re.search(r"^    \(cd crates/sdh_bench_ring.*\n(?:^    .*\n)*", PAGE.read_text(), re.M)[0]
        missing = [word for word, program in (("rustc", "rustc"), ("ring-from-rust", "rustc")) if not shutil.which(program)]
        lines = [line.strip() for line in block.splitlines() if leave_out not in line and not any(word in line for word in missing)]
        environment = {**os.environ, "PATH": f"{path}:{os.environ['PATH']}"}
        return subprocess.run(["bash", "-ec", "\n".join(lines)], cwd=top, env=environment, capture_output=True, text=True), 2 - bool(missing)

    def checkout(self, folder):
        """A folder with what the commands name."""
        top = Path(folder) / "a checkout"
        (top / "crates").mkdir(parents=True)
        (top / "bench").symlink_to(ROOT / "bench")
        return top

    @unittest.skipUnless(shutil.which("cc") and shutil.which("ar"), "there is no C compiler")
    def test_commands_of_the_page(self):
        """As they stand there, with a stand-in for `rt` that makes a library of one function."""
        with tempfile.TemporaryDirectory() as folder:
            top, kit = self.checkout(folder), Path(folder) / "a kit"
            (top / "crates" / "sdh_bench_ring").mkdir()
            for name, text in (("bin/rt", RT), ("stub.c", STUB)):
                (kit / name).parent.mkdir(parents=True, exist_ok=True)
                (kit / name).write_text(text)
                (kit / name).chmod(0o755)
            (kit / "c").mkdir()
            subprocess.run(["ar", "rc", kit / "c" / "liblibc_c.a"], check=True)
            ended, programs = self.typed(top, kit / "bin")
            self.assertEqual((ended.returncode, ended.stdout), (0, "ports with a chunk: 2\n" * programs), ended.stderr)

    @unittest.skipUnless(LIBRARY.is_file() and KIT and shutil.which("cc"), "the static library isn't built, or there is no C compiler")
    def test_the_library_itself(self):
        with tempfile.TemporaryDirectory() as folder:
            top = self.checkout(folder)
            (top / "crates" / "sdh_bench_ring").symlink_to(LIBRARY.parents[1])
            ended, programs = self.typed(top, KIT / "bin", "rt lib")
            self.assertEqual((ended.returncode, ended.stdout), (0, "ports with a chunk: 2\n" * programs), ended.stderr)


MINE = ROOT / "dist" / "libsdhnode.a"
SDHNODE = ROOT / "dist" / "sdhnode"
# A program that makes a node, runs rounds between it and a second one, and prints what it sees; it counts what is asked of malloc after nodes are made.
TOLD = r"""
#define _GNU_SOURCE
#include <dlfcn.h>
#include <stdio.h>
#include <stdlib.h>
#include <string.h>
#include "sdhnode.h"
static int counted, calls;
void *malloc(size_t size) {
    static void *(*real)(size_t);
    if (!real) real = (void *(*)(size_t))dlsym(RTLD_NEXT, "malloc");
    calls += counted;
    return real(size);
}
int main(void) {
    static char plan[1 << 16], why[64];
    size_t length = fread(plan, 1, sizeof plan, stdin);
    sdhnode *west = sdhnode_make(plan, length, 1, why, sizeof why), *east = sdhnode_make(plan, length, 2, why, sizeof why);
    if (!west || !east) return 1;
    counted = 1;
    for (int round = 0; round < 40; round++) {
        if (round) sdhnode_receive(west, SDHNODE_EAST, sdhnode_frame(east, SDHNODE_WEST));
        if (round) sdhnode_receive(east, SDHNODE_WEST, sdhnode_frame(west, SDHNODE_EAST));
        if (round == 10 && sdhnode_command(west, SDHNODE_WEST, SDHNODE_FORCED)) return 2;
        if (round == 20) sdhnode_dark(east, SDHNODE_WEST);
        if (sdhnode_round(west) || sdhnode_round(east)) return 3;
    }
    counted = 0;
    const sdhnode_shown *shown = sdhnode_show(west);
    printf("calls %d size %zu\nstate %d far %d round %d asks %d %d heard %d %d sent %02x%02x\n", calls, sdhnode_frame_size(west), shown->state, shown->far, (int)shown->round,
           shown->asks[0], shown->asks[1], shown->heard[0].is_there, shown->heard[1].is_there, shown->sent[1].k1, shown->sent[1].k2);
    for (size_t at = 0; at < sdhnode_ports(west); at++) {
        const sdhnode_port *port = sdhnode_deliver(west, at);
        printf("port %s %c %d %u %.6s\n", port->name, port->end, port->is_ais, port->value, port->front + 1);
    }
    fputs(sdhnode_lines(west), stdout);
    sdhnode_moment(west, 5);
    int back = sdhnode_moment(west, 4), after = sdhnode_round(west);
    printf("%d %d %s\n", back, after, sdhnode_said(west));
    sdhnode_free(west);
    sdhnode_free(east);
    sdhnode_free(NULL);
    for (int id = 3; id < 19; id += 15) printf("%s %s\n", sdhnode_make(plan, length, id, why, sizeof why) ? "made" : "none", why);
    printf("%s %s\n", sdhnode_make("x", 1, 1, why, sizeof why) ? "made" : "none", why);
    printf("%s\n", sdhnode_make("x", 1, 1, NULL, 0) ? "made" : "none");
    return 0;
}
"""


def has_rust():
    """Whether there is a compiler of Rust that has what it needs."""
    return shutil.which("rustc") is not None and subprocess.run(["rustc", "--version"], capture_output=True).returncode == 0


@unittest.skipUnless(MINE.is_file() and shutil.which("cc"), "the library isn't in dist/, or there is no C compiler")
class Node(unittest.TestCase):
    """The library in dist/, by the commands of the page."""

    def setUp(self):
        folder = tempfile.TemporaryDirectory()
        self.addCleanup(folder.cleanup)
        self.top = Path(folder.name) / "here"
        self.top.mkdir()
        for path in ROOT.iterdir():
            if path.name not in (".git", "out", "verilated"):
                (self.top / path.name).symlink_to(path)

    def block(self, first):
        """The commands of the page from one that begins so."""
        block = re.search(rf"^    {re.escape(first)}.*\n(?:^    .*\n)*", PAGE.read_text(), re.M)[0]
        return [line.strip() for line in block.splitlines()]

    def typed(self, lines):
        return subprocess.run(["bash", "-euc", "set -o pipefail\n" + "\n".join(lines)], cwd=self.top, capture_output=True, text=True, stdin=subprocess.DEVNULL)

    def test_commands_for_c(self):
        """A frame through the library is that of `sdhnode frames`, and the device obeys."""
        ended = self.typed(self.block("cc -O2 -Ilibrary"))
        self.assertEqual(ended.returncode, 0, ended.stderr)
        self.assertRegex(ended.stderr, r"rules obeyed, 0 broken, [0-9]+ not reached; 0 of [1-9]")
        self.assertGreater((self.top / "due.text").stat().st_size, 100_000)

    def test_rates_and_holds_and_slips_and_wild_bytes(self):
        """Streams of all groups but the long ones, byte for byte."""
        self.assertEqual(self.typed(self.block("cc -O2 -Ilibrary")[:1]).returncode, 0)
        ended = call("sdhring-conform", "--short", "--only", "holding,customers,wild,waiting", "--limit", "3600", "--", self.top / "node-in-c", cwd=self.top)
        self.assertEqual(ended.returncode, 0, ended.stderr)

    @unittest.skipUnless(has_rust(), "there is no rustc")
    def test_commands_for_rust(self):
        """Nodes 2 and 3 switch and node 1 passes, as `sdhaps` has it of the same cut; the ports have their customers' bytes."""
        ended = self.typed(self.block("rustc --edition 2021"))
        self.assertEqual(ended.returncode, 0, ended.stderr)
        lines = ended.stdout.splitlines()
        self.assertEqual([re.sub(r"round [0-9]+: ", "", line) for line in lines[-5:-2]], ["node 1 pass far -", "node 2 switch-east far 3", "node 3 switch-west far 2"])
        self.assertEqual([bytes.fromhex(line.split(" ")[-1])[1:12] in 3 * text for line, text in zip(lines[-2:], (b"from node 2", b"from node 1"))], [True, True])

    @unittest.skipUnless(shutil.which("verilator") and shutil.which("g++") and shutil.which("make"), "there is no Verilator")
    def test_commands_for_systemverilog(self):
        """The device's frames are those of the library's node; a device with a mistake is found in the round in which it shows."""
        build, run = self.block("verilator --binary")
        ended = self.typed([build, run])
        self.assertEqual(ended.returncode, 0, ended.stderr[-900:])
        self.assertIn("64 rounds, 0 frames differ", ended.stdout)
        text = (ROOT / "examples" / "library" / "pass_through.sv").read_text()
        line = "b2_next[at] ^= clear;"
        self.assertEqual(text.count(f"if (row > 2 || column >= HEAD) {line}"), 1)
        (self.top / "wrong.sv").write_text(text.replace(f"if (row > 2 || column >= HEAD) {line}", line))
        ended = self.typed([build.replace("examples/library/pass_through.sv", "wrong.sv").replace("-Mdir verilated", "-Mdir wrong"), run.replace("verilated/", "wrong/")])
        self.assertIn("round 1, to the west: row 5, column 1: due ", ended.stdout)
        self.assertIn("64 rounds, 126 frames differ", ended.stdout)

    def test_what_a_node_shows_and_that_no_memory_is_taken_after_making(self):
        (self.top / "told.c").write_text(TOLD)
        plan = (ROOT / "examples" / "three-nodes.toml").read_bytes()
        ended = self.typed(["cc -O2 -Wall -Wextra -Werror -Ilibrary told.c dist/libsdhnode.a -o told -ldl"])
        self.assertEqual((ended.returncode, ended.stderr), (0, ""))
        said = subprocess.run([self.top / "told"], input=plan, capture_output=True, check=True).stdout.decode().splitlines()
        self.assertEqual(said[0], "calls 0 size 9720")
        line = next(line for line in said if line.startswith("round 39 node 1 ")).split(" ")
        self.assertEqual(line[4:7], ["switch-west", "far", "-"])
        self.assertEqual(said[1], f"state 2 far -1 round 39 asks 13 0 heard 0 1 sent {line[11]}{line[12]}")
        self.assertRegex(said[2], r"port c1 a [01] [0-9]+ ")
        at = said.index(next(one for one in said if one.startswith("1 1 bad record")))
        self.assertEqual(said[at:], ["1 1 bad record 27 at 43", "made ", "none no such node", "none not toml", "none"])


if __name__ == "__main__":
    unittest.main()
