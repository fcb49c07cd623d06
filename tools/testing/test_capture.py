"""Captures for Wireshark: the form of their records, and what tshark reads in them beside the plain simulation and its lines."""

import re
import shlex
import shutil
import subprocess
import sys
import tempfile
import tomllib
import unittest
from pathlib import Path

from common import PATIENCE, TOOLS, call, command

from ringtools.erf import FrameProblem, capture, record
from ringtools.kbytes import CODES, MARKS, Word

ROOT = TOOLS.parent
BENCH, CUT = ROOT / "bench" / "aps", ROOT / "examples" / "span-cut.toml"
SIMULATION = command(BENCH / "signalled.py")
sys.path.insert(0, str(BENCH))

import frames  # noqa: E402
import signalled  # noqa: E402

TSHARK = shutil.which("tshark")
FIELDS = "frame.time_epoch", "sdh.j0", "sdh.b1", "sdh.h1", "sdh.h2", "sdh.b2", "sdh.k1", "sdh.k2"
APS_FIELDS = "code", "destination", "source", "path", "mark"
DISSECTOR = TOOLS / "ringtools" / "aps.lua"
# A pointer value that changes in round 4, and a switch.
LARGE = """rate = 16
nodes = [7, 2, 11]
threshold = 1
wait = 0
limit = 1000
script = ["slip far a down 1", "cut 7 east", "cut 2 west", "settle"]
[[circuit]]
name = "far"
from = 2
to = 7
slot = 1
text_a = "any text of 26 bytes here."
text_b = "another one of 29 bytes here."
offset_a = 700
"""


def sent(plan, node, side, rounds):
    first, last = rounds
    return frames.frames(tomllib.loads(plan), node, side, first, last + 1 - first)


class Records(unittest.TestCase):
    def test_heads_by_hand(self):
        self.assertEqual(record(0, bytes(9720))[:16].hex(), "0000000000000000" + "18" + "04" + "2608" + "0000" + "25f8")
        self.assertEqual(record(8, bytes(38880))[:16].hex(), "3789410000000000" + "18" + "04" + "97f0" + "0000" + "97e0")
        self.assertEqual(record(12000, b"")[:8].hex(), "0000008001000000")

    def test_frames_are_descrambled(self):
        for plan, rate, node, side in ((CUT.read_text(), 4, 2, "east"), (LARGE, 16, 11, "west")):
            lines = sent(plan, node, side, (3, 5))
            made, size = capture(rate, b"".join(lines), 3), 2430 * rate + 16
            self.assertEqual([made[at + 16 : at + size] for at in range(0, len(made), size)], [frames.Scrambler(rate).turn(line) for line in lines])

    def test_what_is_no_frame(self):
        line = sent(CUT.read_text(), 1, "east", (0, 1))
        for data, said in ((b"", "0 bytes"), (line[0][:-1], "9719 bytes"), (line[0] + b"\0" + line[1][1:], "round 1 doesn't begin with A1 and A2")):
            with self.assertRaises(FrameProblem) as caught:
                capture(4, data, 0)
            self.assertIn(said, str(caught.exception))


class Tool(unittest.TestCase):
    def test_frames_of_a_program_and_of_a_file(self):
        asked = call("sdhring-capture", CUT, "--node", 3, "--side", "west", "--rounds", "10:12", "--program", SIMULATION)
        line = b"".join(sent(CUT.read_text(), 3, "west", (10, 12)))
        self.assertEqual((asked.returncode, asked.stdout), (0, capture(4, line, 10)))
        given = call("sdhring-capture", CUT, "--frames", "-", "--rounds", "10:12", input=line)
        self.assertEqual((given.returncode, given.stdout), (0, asked.stdout))
        self.assertEqual(call("sdhring-capture", CUT, "--frames", "-", input=line).stdout, capture(4, line, 0))

    def test_the_command_that_shows_it_is_said(self):
        """As one types it, with the file into which the capture went."""
        line = b"".join(sent(CUT.read_text(), 3, "west", (10, 12)))
        with tempfile.TemporaryDirectory() as folder:
            name = Path(folder) / "two words.erf"
            with name.open("wb") as file:
                words = [sys.executable, TOOLS / "sdhring-capture", CUT, "--frames", "-"]
                said = subprocess.run(words, input=line, stdout=file, stderr=subprocess.PIPE).stderr.decode()
            self.assertTrue(name.read_bytes().startswith(record(0, b"")[:8]))
        told = shlex.split(re.fullmatch("sdhring-capture: to look at it: (tshark .*); wireshark takes the same words\n", said)[1])
        self.assertEqual(told, ["tshark", "-o", "sdh.data.rate:Attempt to guess", "-X", f"lua_script:{DISSECTOR}", "-r", str(name)])
        asked = call("sdhring-capture", CUT, "--frames", "-", input=line)
        self.assertIn(b" -r FILE;", asked.stderr)

    def test_what_is_refused(self):
        wanted = ("--node", 3, "--side", "west", "--rounds", "10:12")
        said = lambda *words, **more: call("sdhring-capture", *words, **more).stderr.decode().splitlines()[-1]
        self.assertIn("2 frames came, and 3 were wanted", said(CUT, "--frames", "-", "--rounds", "0:2", input=b"".join(sent(CUT.read_text(), 1, "east", (0, 1)))))
        self.assertIn("--node, --side and --rounds say which frames", said(CUT, "--node", 3))
        self.assertIn("`5:4` isn't FIRST:LAST", said(CUT, "--rounds", "5:4"))
        self.assertIn("the program ended with status 1, and wrote `nothing`", said(CUT, *wanted, "--program", "/bin/false"))
        self.assertIn("ended with status 15, and wrote `no such node`", said(CUT, *wanted, "--program", "sh -c 'echo no such node; exit 15'"))
        self.assertIn("ended with status 16, and wrote `no such round`", said(CUT, "--node", 3, "--side", "west", "--rounds", "999:1001", "--program", SIMULATION))
        self.assertIn("0 bytes are no whole STM-4 frames", said(CUT, *wanted, "--program", "/bin/true"))
        self.assertIn("No such file", said("no-plan.toml", *wanted))
        if not (ROOT / "sdhaps").exists():
            self.assertIn("the program sdhaps, whose frames are wanted, isn't here", said(CUT, *wanted))


def told(plan, node, side, rounds):
    """The word that the lines have the node send on a side in each round."""
    form = re.compile(rf"round (\d+) node {node} .* {side} (.. ..) (?:east .*|heard .*)")
    changes = {int(found[1]): found[2] for found in map(form.fullmatch, signalled.run(tomllib.loads(plan))[1].splitlines()) if found}
    return [changes[max(change for change in changes if change <= now)] for now in range(rounds[0], rounds[1] + 1)]


class Dissector(unittest.TestCase):
    def test_its_codes_and_marks_are_those_of_the_tools(self):
        text = DISSECTOR.read_text()
        listed = lambda name: {int(number): words for number, words in re.findall(r'\[(\d+)\] = "([^"]*)"', re.search(rf"{name} = {{(.*)}}", text)[1])}
        self.assertEqual(listed("CODES"), {number: names[0] for number, names in CODES.items()})
        self.assertEqual(listed("MARKS"), MARKS)


@unittest.skipUnless(TSHARK, "there is no tshark")
class Outside(unittest.TestCase):
    """A reader of frames from outside."""

    def read(self, data):
        with tempfile.NamedTemporaryFile(suffix=".erf") as file:
            file.write(data)
            file.flush()
            words = [TSHARK, "-o", "sdh.data.rate:Attempt to guess", "-r", file.name, "-T", "fields", *(word for field in FIELDS for word in ("-e", field))]
            ended = subprocess.run(words, capture_output=True, text=True, timeout=PATIENCE)
        self.assertEqual(ended.returncode, 0, ended.stderr)
        return [line.split("\t") for line in ended.stdout.splitlines()]

    def words(self, data, *more):
        """The fields that the dissector in Lua adds, of the frames that a filter leaves."""
        with tempfile.NamedTemporaryFile(suffix=".erf") as file:
            file.write(data)
            file.flush()
            fields = [word for field in APS_FIELDS for word in ("-e", f"aps.{field}")]
            command = [TSHARK, "-X", f"lua_script:{DISSECTOR}", "-r", file.name, *more, "-T", "fields", *fields]
            ended = subprocess.run(command, capture_output=True, text=True, timeout=PATIENCE)
        self.assertEqual(ended.returncode, 0, ended.stderr)
        return [tuple(line.split("\t")) for line in ended.stdout.splitlines()]

    def test_k_bytes_in_words(self):
        """As the lines of the program have the words, at both rates, with and without the preference; each field can be filtered by."""
        for plan, node, side, rounds in ((CUT.read_text(), 2, "west", (0, 24)), (LARGE, 2, "east", (0, 6))):
            data = capture(tomllib.loads(plan)["rate"], b"".join(sent(plan, node, side, rounds)), rounds[0])
            words = [Word(*bytes.fromhex(word)) for word in told(plan, node, side, rounds)]
            due = [(CODES[word.code][0], str(word.to), str(word.sender), word.path, MARKS[word.mark]) for word in words]
            self.assertEqual(self.words(data), due)
            self.assertEqual(self.words(data, "-o", "sdh.data.rate:Attempt to guess"), due)
            for number, field in enumerate(APS_FIELDS):
                value = due[-1][number]
                left = self.words(data, "-Y", f"aps.{field} == " + (value if value.isdecimal() else f'"{value}"'))
                self.assertEqual(left, [row for row in due if row[number] == value])

    def check(self, plan, node, side, rounds):
        rate, lines = tomllib.loads(plan)["rate"], sent(plan, node, side, rounds)
        found = self.read(capture(rate, b"".join(lines), rounds[0]))
        words, reader = told(plan, node, side, rounds), frames.Reader(rate)
        self.assertEqual(len(found), len(lines))
        for now, line, word, (time, j0, b1, h1, h2, b2, k1, k2) in zip(range(rounds[0], rounds[1] + 1), lines, words, found):
            with self.subTest(round=now):
                own = reader.read(line)
                self.assertEqual(time, f"{now * 0.000125:.9f}")
                self.assertEqual(f"{k1[2:]} {k2[2:]}", word)
                self.assertEqual((int(j0, 16), int(b1, 16), bytes.fromhex(b2)), (1, own["b1"], own["b2"]))
                self.assertEqual((int(h1, 16), int(h2, 16)), (own["h1"][0], own["h2"][0]))
                self.assertIn(own["wrong"], (None, (0, 0)))
        return found

    def test_a_switch_at_stm_4(self):
        found = self.check(CUT.read_text(), 2, "west", (0, 24))
        self.assertEqual([row[6:] for row in found][9:11], [["0xb3", "0x29"], ["0xb3", "0x2a"]])

    def test_a_pointer_at_stm_16(self):
        found = self.check(LARGE, 2, "east", (0, 12))
        value = lambda row: int(row[3], 16) << 8 | int(row[4], 16)
        self.assertEqual([value(row) for row in found[:6]], [0x9800 | 700, *3 * [0x6800 | 700], 0x6800 | 700 ^ 0x155, 0x6800 | 699])


if __name__ == "__main__":
    unittest.main()
