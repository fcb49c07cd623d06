"""A ring of programs, run by sdhring-bench: proved nodes, and devices that are wrong or fail. What is right comes from the proved programs."""

import csv
import io
import json
import os
import re
import shlex
import signal
import socket
import subprocess
import sys
import tempfile
import unittest
from functools import cache
from pathlib import Path

from common import PATIENCE, TOOLS, call

TOP = TOOLS.parent
EXAMPLES = TOP / "examples"
PLAN = EXAMPLES / "round-by-round.toml"
DIST = TOP / "dist"
SDHNODE = DIST / "sdhnode"
PROGRAM = shlex.quote(str(SDHNODE))  # as a word of a command

# A node with a mistake: what is given to a sdhnode, or what it answers, is changed from a round on.
DEVICE = '''
import os, subprocess, sys, time
mode, first, *words = sys.argv[1:]
node = subprocess.Popen([PROGRAM, *words], stdin=subprocess.PIPE if mode == "never" else 0, stdout=1 if mode == "never" else subprocess.PIPE)
out = sys.stdout.buffer

def never():
    """A fibre that goes dark is taken for one of which nothing is known yet: the node never switches."""
    for line in sys.stdin.buffer:
        words = line.split()
        if words[:1] == [b"round"]:
            line = line.replace(b"dark", b"none") + b"".join(sys.stdin.buffer.read(9720) for word in words if word == b"frame")
        node.stdin.write(line)
        node.stdin.flush()
    node.stdin.close()
    sys.exit(node.wait())

def fail(now):
    out.flush()
    if mode == "die":
        node.kill()
        sys.exit(3)
    if mode == "hang":
        time.sleep(1000)
    if mode == "part":
        out.write(b"round 20 no")
        out.flush()
        sys.exit(0)
    out.write({"more": b"x" * 100, "lines": b"round 20 " + b"x" * 20000, "other": b"round 20 node 2\\nbytes 100\\n"}.get(mode, b""))
    while mode == "flood":
        out.write(b"round and round " * 100)

def answers():
    now = -1
    while line := node.stdout.readline():
        now += line.startswith(b"round ")
        if mode == "bytes" and line.startswith(b"port ") and b"norm" in line:
            line = line[:-3] + (b"00\\n" if line[-3:] != b"00\\n" else b"01\\n")
        if mode == "ais" and now >= int(first) and line.startswith(b"port "):
            line = b" ".join(line.split()[:3]) + b" ais\\n"
        if mode == "fields" and line.startswith(b"round "):
            line = line.replace(b"asks", b"wants")
        if mode == "restless" and line.startswith(b"round ") and now % 2:
            line = line.replace(b" idle ", b" pass ")
        out.write(line)
        if line.startswith(b"bytes "):
            out.write(node.stdout.read(int(line.split()[1])))
            if now == int(first):
                fail(now)
            out.flush()

try:
    never() if mode == "never" else answers()
except BrokenPipeError:
    os._exit(0)
'''


@cache
def proved(name, plan):
    """What a proved program reports of a plan."""
    return subprocess.run([DIST / name, "run"], input=plan, capture_output=True, text=True, check=True).stdout


def rows_of(text):
    return list(csv.DictReader(io.StringIO(text)))


@unittest.skipUnless(SDHNODE.is_file(), "dist/ has no sdhnode")
class Case(unittest.TestCase):
    def setUp(self):
        self.folder = Path(self.enterContext(tempfile.TemporaryDirectory()))
        self.device_file = self.folder / "device.py"
        self.device_file.write_text(DEVICE.replace("PROGRAM", repr(str(SDHNODE))))

    def device(self, mode, first=20):
        """The words of a node with a mistake."""
        return shlex.join([sys.executable, str(self.device_file), mode, str(first)])

    def bench(self, plan, *words, **more):
        """The status, the rows, and what is said at the end."""
        ended = call("sdhring-bench", plan, "--program", PROGRAM, *words, timeout=PATIENCE, **more)
        said = ended.stderr.decode()
        self.assertNotIn("Traceback", said)
        return ended.returncode, rows_of(ended.stdout.decode()), said

    def plan(self, *words):
        path = self.folder / "plan.toml"
        path.write_bytes(call("sdhring-plan", "new", *words).stdout)
        return path

    def cut(self, path):
        """The plan with a cut of its first span."""
        path.write_text(path.read_text().replace('    "settle",\n', '    "settle",\n    "cut 0 east",\n    "cut 1 west",\n    "settle",\n', 1))
        return path


class Proved(Case):
    """A ring of proved nodes does what the proved programs say of the whole ring."""

    def check(self, plan, *words):
        status, rows, said = self.bench(plan, "--all", *words)
        self.assertEqual((status, [row for row in rows if row["Verdict"] not in ("same", "seen")]), (0, []), said)
        self.assertIn("no difference", said)
        report = proved("sdhring", plan.read_text())
        due = re.findall(r"^settle (\d+) round (\d+)$", report, re.M)
        self.assertEqual([(row["Name"], row["Round"]) for row in rows if row["Field"] == "ports as due" and row["Name"] != "after"], due)
        ports = [(row["Name"], row["Found"]) for row in rows if row["What"] == "port" and row["Verdict"] == "same"]
        self.assertEqual(ports[: report.count("\nport ")], re.findall(r"^port (\S+ [ab]) (.*)$", report, re.M))
        return rows

    def test_a_cut_its_mending_and_the_end_of_waiting(self):
        rows = self.check(PLAN)
        lines = proved("sdhaps", PLAN.read_text())
        for row in rows:
            if row["Field"] == "the state":
                self.assertRegex(lines, rf"(?m)^round {row['Round']} node {row['Name']} {row['Found']} ")

    def test_steps_of_all_kinds(self):
        """A degraded fibre, slips, a hold, commands and moments; identifiers that aren't in order."""
        script = ["degrade 9 east 5", "settle", "cut 5 west", "slip c1 a up 3", "slip c2 b down 4", "settle", "hold 0 40", "mend 9 east", "moment 5", "settle"]
        script += ["moment 30", "forced 3 east", "mend 5 west", "settle", "manual 9 west", "clear 3 east", "moment 100", "settle"]
        circuits = [("c1", 5, 3, 1, "0123456789A", "abcdefghijk"), ("c2", 12, 0, 2, "0123456789AB7", "abcdefghijkqq")]
        path = self.folder / "all.toml"
        for rate in (4, 16):
            text = f"rate = {rate}\nnodes = [5, 9, 0, 3, 12]\nthreshold = 3\nwait = 10\nlimit = 2000\nscript = {json.dumps(script)}\n"
            for name, begin, end, slot, a, b in circuits:
                text += f'[[circuit]]\nname = "{name}"\nfrom = {begin}\nto = {end}\nslot = {slot}\ntext_a = "{a}"\ntext_b = "{b}"\noffset_a = {50 * begin}\n'
            path.write_text(text)
            with self.subTest(rate=rate):
                self.check(path, "--processes", 1 + rate // 8)

    def test_it_does_not_matter_how_many_processes_join_the_nodes(self):
        path = self.cut(self.plan("--nodes", "0-7", "2>1", "3>6"))
        found = [self.check(path, "--processes", count) for count in (1, 3, 99)]
        self.assertEqual(found[1:], found[:1] * 2)

    def test_two_nodes(self):
        path = self.cut(self.plan("--nodes", "0-1", "0>1", "1>0"))
        found = [self.check(path, "--processes", count) for count in (1, 2)]
        self.assertEqual(found[0], found[1])

    def test_ports_lose_their_bytes_in_the_rounds_that_sdhoutage_counts(self):
        """Over the longest way of the largest ring; here they have AIS, and come back with bytes."""
        path = self.cut(self.plan("--nodes", "0-15", "8>7"))
        rows = self.check(path)
        counted = re.findall(r"port c1 ([ab]) out [1-9].* to (\d+) ", proved("sdhoutage", path.read_text()).split("settle 2")[1])
        self.assertEqual(len(counted), 2)
        first = int(next(row["Round"] for row in rows if row["Name"] == "1" and row["Field"] == "ports as due"))
        for end, last in counted:
            seen = [(row["Found"], int(row["Round"])) for row in rows if (row["Name"], row["Verdict"]) == (f"c1 {end}", "seen") and int(row["Round"]) > first]
            self.assertEqual([kind for kind, _ in seen], ["ais", "norm"])
            self.assertEqual(seen[1][1], int(last) + 1)

    def test_rounds_after_the_script(self):
        rows = self.check(EXAMPLES / "three-nodes.toml", "--more", 1500)
        self.assertEqual([int(row["Round"]) for row in rows if row["Name"] == "after" and row["Field"] == "ports as due"], [128 + 1024, 128 + 1500])

    def test_as_json(self):
        ended = call("sdhring-bench", EXAMPLES / "three-nodes.toml", "--program", PROGRAM, "--json")
        told = json.loads(ended.stdout)
        self.assertEqual((told["rate"], told["nodes"], told["rounds"], told["verdict"]), (4, [1, 2, 3], 129, "same"))
        self.assertGreater(told["processor_seconds"], 0)
        self.assertEqual(set(told["records"][0]), {"round", "what", "name", "field", "found", "due", "verdict", "rule"})


class Devices(Case):
    """Somebody's own node among proved ones."""

    def differing(self, plan, mode, *words, first=20):
        status, rows, said = self.bench(plan, "--instead", 1, self.device(mode, first), *words)
        self.assertEqual(status, 1, said)
        return [row for row in rows if row["Verdict"] == "differs"]

    def test_a_node_that_never_switches(self):
        """Its own first difference is in the round after the cut; at the step's end no port has its bytes."""
        path = self.cut(self.plan("--nodes", "0-15", "8>7"))
        cut = int(re.search(r"settle 1 round (\d+)", proved("sdhring", path.read_text()))[1]) + 1
        rows = self.differing(path, "never")
        first = next(row for row in rows if row["Name"] == "1")
        self.assertEqual(int(first["Round"]), cut)
        own = [(row["Round"], row["Field"], row["Found"], row["Due"]) for row in rows if row["Name"] == "1"]
        self.assertIn((str(cut), "the state", "idle", "switch-west"), own)
        ports = [row for row in rows if row["What"] == "port"]
        self.assertEqual([(row["Name"], row["Found"], row["Due"].split(" ")[0]) for row in ports], [("c1 a", "ais", "norm"), ("c1 b", "ais", "norm")])

    def test_a_cut_that_no_circuit_crosses(self):
        rows = self.differing(self.cut(self.plan("--nodes", "0-5", "3>4")), "never")
        self.assertEqual({row["Name"] for row in rows if row["Field"] == "ports as due"}, set())
        self.assertEqual([row["Found"] for row in rows if row["Name"] == "1" and row["Field"] == "the state"][:1], ["idle"])

    def test_a_node_that_relays_its_own_words(self):
        """The example's lines are wrong where a long word comes to its own node: then sdhaps has its own word to the east."""
        status, rows, _ = self.bench(PLAN, "--instead", 2, f"env SDHNODE={PROGRAM} {shlex.quote(str(EXAMPLES / 'bench' / 'relays-its-own'))}")
        first = next(row for row in rows if row["Verdict"] == "differs")
        self.assertEqual((status, first["Name"], first["Field"]), (1, "2", "the word sent to the east"))
        line = next(line for line in proved("sdhaps", PLAN.read_text()).splitlines() if line.startswith(f"round {first['Round']} node 2 "))
        self.assertIn(f"east {first['Due']} ", line)
        self.assertNotEqual(first["Found"], first["Due"])

    def test_wrong_bytes_of_a_port(self):
        rows = self.differing(EXAMPLES / "three-nodes.toml", "bytes")
        self.assertEqual([(row["Round"], row["What"], row["Name"]) for row in rows], [("128", "port", "c1 a"), ("128", "settle", "1")])

    def test_bytes_that_are_lost_after_the_script(self):
        rows = self.differing(EXAMPLES / "three-nodes.toml", "ais", "--more", 600, first=300)
        self.assertEqual([(row["Round"], row["Name"], row["Found"]) for row in rows[:2]], [("300", "c1 a", "ais"), (str(128 + 600), "c1 a", "ais")])

    def test_a_line_of_another_form(self):
        rows = self.differing(EXAMPLES / "three-nodes.toml", "fields")
        self.assertEqual((rows[0]["Round"], rows[0]["Field"]), ("0", "the line of the round"))

    def test_a_node_that_changes_all_the_time(self):
        """Its first difference in each step is shown, each state with it, and then that there were more changes than are looked at."""
        status, rows, _ = self.bench(EXAMPLES / "three-nodes.toml", "--instead", 1, self.device("restless"), "--more", 700)
        many = [row for row in rows if row["Field"] == "changes of its lines"]
        told = [(row["Round"], row["Name"], row["Found"], row["Verdict"]) for row in many]
        self.assertEqual((status, told), (1, [(str(129 + 500), "1", "more than 500", "seen")]))
        self.assertIn(("1", "1", "pass", "idle", "differs"), [(row["Round"], row["Name"], row["Found"], row["Due"], row["Verdict"]) for row in rows])

    def test_a_node_behind_a_socket(self):
        with socket.create_server(("127.0.0.1", 0)) as server:
            script = f"""
import socket, subprocess
line = socket.socket(fileno=0).accept()[0]
subprocess.run([{str(SDHNODE)!r}, "2", "frames"], stdin=line.fileno(), stdout=line.fileno())
"""
            behind = subprocess.Popen([sys.executable, "-c", script], stdin=server.fileno())
            self.addCleanup(behind.wait)
            self.addCleanup(behind.kill)  # where nobody connects
            status, rows, said = self.bench(PLAN, "--connect", 2, f"127.0.0.1:{server.getsockname()[1]}", "--keep", self.folder / "kept")
        self.assertEqual(status, 0, said)
        self.check_kept(2)

    def test_a_socket_at_which_nobody_reads(self):
        with socket.create_server(("127.0.0.1", 0)) as server:
            status, rows, said = self.bench(PLAN, "--connect", 3, f"127.0.0.1:{server.getsockname()[1]}", "--within", 1)
        self.assertEqual((status, rows[-1]["Name"], rows[-1]["Verdict"]), (1, "3", "failed"), said)
        self.assertIn("gave no whole answer within 1 seconds", rows[-1]["Found"])

    def check_kept(self, node):
        """What was kept is what a proved node answers to the stream."""
        stream, text = ((self.folder / "kept" / f"{node}.{what}").read_bytes() for what in ("stream", "text"))
        self.assertTrue(subprocess.run([SDHNODE, str(node), "frames"], input=stream, capture_output=True).stdout == text)
        self.assertGreater(len(text), 512 * 19440)

    def test_what_is_kept(self):
        spaced = self.folder / "a node of mine"
        spaced.symlink_to(SDHNODE)
        status, _, said = self.bench(PLAN, "--instead", 3, spaced, "--keep", self.folder / "kept")
        self.assertEqual((status, sorted(path.name for path in (self.folder / "kept").iterdir())), (0, ["3.stream", "3.text"]), said)
        self.check_kept(3)


class Failing(Case):
    """A node that answers nothing more, or no answer: told with its round, within a limit."""

    def failed(self, mode, *words):
        status, rows, said = self.bench(PLAN, "--instead", 2, self.device(mode), *words)
        last = rows[-1]
        self.assertEqual((status, last["Name"], last["Verdict"], last["Due"]), (1, "2", "failed", "an answer"), said)
        self.assertNotIn("differs", [row["Verdict"] for row in rows])
        self.assertIn("node 2 failed", said)
        self.assertIn(int(last["Round"]), (20, 21))
        return last["Found"]

    def test_each_kind(self):
        for mode, words in (
            ("die", "ended: status 3"),
            ("hang", "gave no whole answer within 1 seconds"),
            ("part", "ended, and said `round 20 no`: status 0"),
            ("more", "answers `" + "x" * 40 + "`, and `round` is due"),
            ("lines", "bytes and no line `bytes 19440`"),
            ("flood", "bytes and no line `bytes 19440`"),
            ("other", "announces 100 bytes of frames, and 19440 are due"),
        ):
            with self.subTest(mode):
                self.assertIn(words, self.failed(mode, "--within", 1) if mode == "hang" else self.failed(mode))

    def test_one_of_many_processes_says_it(self):
        self.assertIn("gave no whole answer", self.failed("hang", "--within", 1, "--processes", 4))

    def test_a_program_that_is_no_node(self):
        for command, words in (("false", "ended: status 1"), ("true", "ended: status 0"), ("echo hello", "`hello 2 frames`")):
            status, rows, said = self.bench(PLAN, "--instead", 2, command)
            self.assertEqual((status, rows[-1]["Round"], rows[-1]["Name"], rows[-1]["Verdict"]), (1, "0", "2", "failed"), said)
            self.assertIn(words, rows[-1]["Found"])


class Stopped(Case):
    """A run that is stopped leaves nothing behind."""

    def begun(self):
        words = [sys.executable, str(TOOLS / "sdhring-bench"), str(PLAN), "--program", PROGRAM, "--more", "100000000", "--processes", "2"]
        # (whoever started the tests may have had SIGINT ignored)
        hears = lambda: signal.signal(signal.SIGINT, signal.SIG_DFL)
        running = subprocess.Popen(words, stdout=subprocess.PIPE, stderr=subprocess.PIPE, text=True, preexec_fn=hears)
        self.addCleanup(running.communicate)
        self.addCleanup(running.kill)
        while not running.stdout.readline().startswith("512,"):  # the script's last settle step
            self.assertIsNone(running.poll())
        children = Path(f"/proc/{running.pid}/task/{running.pid}/children").read_text().split()
        self.assertEqual(len(children), 4 + 2)
        return running, children

    def check_ended(self, children):
        left = [child for child in children if Path(f"/proc/{child}").exists() and "Z" not in Path(f"/proc/{child}/stat").read_text().split(") ")[1][:1]]
        self.assertEqual(left, [])

    def test_by_the_keyboard(self):
        running, children = self.begun()
        running.send_signal(signal.SIGINT)
        _, said = running.communicate(timeout=PATIENCE)
        self.assertEqual((running.returncode, said.splitlines()[-1]), (130, "sdhring-bench: stopped"))
        self.check_ended(children)

    def test_a_process_of_the_tool_that_is_killed(self):
        running, children = self.begun()
        joins = next(child for child in children if b"sdhring-bench" in Path(f"/proc/{child}/cmdline").read_bytes())
        os.kill(int(joins), signal.SIGKILL)
        _, said = running.communicate(timeout=PATIENCE)
        self.assertEqual(running.returncode, 2)
        self.assertIn("a process that joins nodes was ended from outside", said)
        self.check_ended(children)


class Refused(Case):
    def refused(self, plan, *words, **more):
        status, rows, said = self.bench(plan, *words, **more)
        self.assertEqual((status, rows), (2, []), said)
        return said

    def test_words(self):
        self.assertIn("--instead 9: no such node in the plan, whose nodes are 1, 2, 3, 4", self.refused(PLAN, "--instead", 9, "false"))
        self.assertIn("--connect 2: the node is named twice", self.refused(PLAN, "--instead", 2, "false", "--connect", 2, "a:1"))
        self.assertIn("`a:b` isn't HOST:PORT", self.refused(PLAN, "--connect", 2, "a:b"))
        self.assertIn("are to be above 0", self.refused(PLAN, "--within", 0))
        self.assertIn("are to be above 0", self.refused(PLAN, "--processes", 0))
        self.assertIn("at most 1,000,000,000 rounds", self.refused(PLAN, "--more", 10**10))
        self.assertIn("is no command", self.refused(PLAN, "--instead", 2, "'"))
        self.assertIn("a command of no word", self.refused(PLAN, "--instead", 2, ""))
        self.assertIn("no node is one", self.refused(PLAN, "--keep", self.folder / "kept"))
        self.assertIn("No such file", self.refused(PLAN, "--instead", 2, "/no/such/program"))
        with socket.create_server(("127.0.0.1", 0)) as server:
            port = server.getsockname()[1]
        self.assertIn("Connection refused", self.refused(PLAN, "--connect", 2, f"127.0.0.1:{port}"))

    def test_plans(self):
        self.assertIn("No such file", self.refused("no-plan.toml"))
        self.assertIn("no TOML document", self.refused("-", input=b"x"))
        text = PLAN.read_text()
        report = subprocess.run([DIST / "sdhring", "run"], input=re.sub(r"(?m)^limit = .*", "limit = 100", text), capture_output=True, text=True)
        self.assertEqual(report.stdout.splitlines()[-1], "unsettled 1")
        self.assertIn("says `unsettled 1`", self.refused("-", input=re.sub(r"(?m)^limit = .*", "limit = 100", text).encode()))


if __name__ == "__main__":
    unittest.main()
