"""Plans that are refused: the first check that fails, by its reason and its place, as the built `sdhring` tells it and as a plain second
reading does (bench/plans). Then what is read of plans that are none of these, and the tables that `check` writes of some rings."""

import subprocess
import sys
import unittest

from common import PATIENCE, TOOLS, bytes_of

SDHRING = TOOLS.parent / "dist" / "sdhring"
sys.path.insert(0, str(TOOLS.parent / "bench" / "plans"))

import plans  # noqa: E402

# Three nodes and a circuit between two neighbours.
SMALLEST, SMALLEST_TEXT = bytes_of("healthy")
# The tables below have a part of that plan, what stands in its place, and the reason and the place that are then answered.

# Of the document as a whole, its settings and its nodes.
OF_DOCUMENTS = [
    ("rate = 4", "colour = 1\nrate = 4", 12, 0),
    ("rate = 4", "colour = 1\nrate = 5", 12, 0),
    ("rate = 4", "rate = 5", 13, 0),
    ("rate = 4\nnodes = [1, 2, 3]", "rate = 5\nnodes = [0, 1, 2, 3, 4, 5, 6, 7, 8, 9, 10, 11, 12, 13, 14, 15, 16]", 13, 0),
    ("rate = 4", "rate = 9223372036854775807", 13, 0),
    ("rate = 4", "rate = 4.0", 13, 0),
    ("rate = 4\n", "", 13, 0),
    ("rate = 4\nnodes = [1, 2, 3]", "rate = 8\nnodes = [1]", 13, 0),
    ("nodes = [1, 2, 3]\n", "", 14, 0),
    ("[1, 2, 3]", "[1, 2.0, 3]", 14, 0),
    ("[1, 2, 3]", "3", 14, 0),
    ("1, 2, 3", "0, 1, 2, 3, 4, 5, 6, 7, 8, 9, 10, 11, 12, 13, 14, 15, 16", 1, 0),
    ("1, 2, 3", "0, 1, 2, 3, 4, 5, 6, 7, 8, 9, 10, 11, 12, 13, 14, 15, '16'", 14, 0),
    ("1, 2, 3", "1", 1, 0),
    ("1, 2, 3", "16", 1, 0),
    ("1, 2, 3", "", 1, 0),
    ("1, 2, 3", "1, 16", 2, 2),
    ("1, 2, 3", "-1, 16", 2, 1),
    ("1, 2, 3", "1, 2, 1", 3, 3),
    ("1, 2, 3", "1, 1, 16", 2, 3),
    ("1, 2, 3", "1, 2, 2, 1", 3, 3),
    ("1, 2, 3", "1, 1, 2, 2", 3, 2),
    ("threshold = 3", "threshold = 0", 15, 0),
    ("threshold = 3\nwait = 10", "threshold = 13\nwait = -1", 15, 0),
    ("threshold = 3\n", "", 15, 0),
    ("wait = 10\nlimit = 1000", "wait = 1000001\nlimit = 0", 16, 0),
    ("wait = 10\n", "", 16, 0),
    ("wait = 10", "wait = '10'", 16, 0),
    ("limit = 1000", "limit = 65537", 17, 0),
    ("limit = 1000", "limit = 0", 17, 0),
    ('limit = 1000\nscript = ["settle"]\n[[circuit]]', "limit = 0\nscript = 1\n[circuit]", 17, 0),
    ("limit = 1000\n", "", 17, 0),
    ("[[circuit]]", "[circuit]", 18, 0),
    ('["settle"]\n[[circuit]]', "[1]\n[circuit]", 18, 0),
    ("[[circuit]]", "[[circuit.x]]", 18, 0),
    ('script = ["settle"]\n[[circuit]]', "circuit = [1]\nscript = [1]\n[other]", 12, 0),
]

# Of circuits: the place is the number of the circuit.
OF_CIRCUITS = [
    ("to = 2", "too = 2", 12, 1),
    ("to = 2\n", "", 19, 1),
    ("to = 2\nslot = 1", "to = '2'\nslot = 3", 19, 1),
    ("slot = 1", "slot = 1\noffset_a = '0'", 19, 1),
    ("slot = 1", "slot = 1\ntrace_b = 0", 19, 1),
    ("to = 2\nslot = 1", "to = 9\nslot = 3", 4, 1),
    ("slot = 1", "slot = 3", 4, 1),
    ("slot = 1", "slot = 0", 4, 1),
    ("to = 2", "to = 9", 5, 1),
    ("from = 1", "from = -1", 5, 1),
    ("from = 1", "from = 2", 6, 1),
    ("from = 1\nto = 2", "from = 9\nto = 9", 5, 1),
    ("to = 2\nslot = 1", "to = 1\nslot = 1\noffset_a = 783", 6, 1),
    ("from = 1\nto = 2\nslot = 1", "from = 9\nto = 2\nslot = 1\noffset_a = 783", 5, 1),
    ("from = 1\nto = 2\nslot = 1", "from = 9\nto = 2\nslot = 3", 4, 1),
    ("slot = 1", "slot = 1\noffset_a = 65535", 7, 1),
    ("slot = 1", "slot = 1\noffset_a = 783", 7, 1),
    ('slot = 1\ntext_a = "ALPHA"', "slot = 1\noffset_b = 783\ntext_a = ''", 7, 1),
    ("slot = 1", "slot = 1\noffset_b = -1", 7, 1),
    ('slot = 1\ntext_a = "ALPHA"\ntext_b = "BETA!"', "slot = 1\ntrace_a = ''\ntext_a = 'A'\ntext_b = ''", 8, 1),
    ('"BETA!"', '"\\u00e9"', 8, 1),
    ('"ALPHA"', '"ALPHA\\u001f"', 8, 1),
    ('"ALPHA"', '"\\u007fALPHA"', 8, 1),
    ("slot = 1", 'slot = 1\ntrace_a = "c\\u001f1"', 11, 1),
    ("slot = 1", 'slot = 1\ntrace_b = "c1\\u007f"', 11, 1),
    ('"ALPHA"', "'12345678901234567890123456789012345678901234567890123456789012345'", 8, 1),
    ("slot = 1", "slot = 1\ntrace_a = '12345678901234567890123456789012345678901234567890123456789012345'", 11, 1),
    ('name = "c1"', "name = ''", 11, 1),
    ('name = "c1"', "name = 'C1'\ntrace_b = ''", 11, 1),
    ('name = "c1"', "name = 'C1'", 10, 1),
    ('name = "c1"', "name = 'c1c1c1c1c1c1c1c1c'", 10, 1),
    ('["settle"]\n[[circuit]]', '["settle", 1]\n[[circuit]]\ncolour = 1', 12, 1),
    ('from = 1\nto = 2\nslot = 1\ntext_a = "ALPHA"\ntext_b = "BETA!"', "from = 3\nto = 2\nslot = 1\ntext_a = 'A'\ntext_b = 'B'\n[[circuit]]\nname = 'c2'\nfrom = 1\nto = 2\nslot = 1\ntext_a = 'A'\ntext_b = 'B'", 9, 2),
    ('from = 1\nto = 2\nslot = 1\ntext_a = "ALPHA"\ntext_b = "BETA!"', "from = 2\nto = 1\nslot = 1\ntext_a = 'A'\ntext_b = 'B'\n[[circuit]]\nname = 'c2'\nfrom = 3\nto = 1\nslot = 1\ntext_a = 'A'\ntext_b = 'B'", 9, 2),
    ("[[circuit]]", "[[circuit]]\nname = 'c1'\nfrom = 3\nto = 2\nslot = 1\ntext_a = 'A'\ntext_b = 'B'\n[[circuit]]", 10, 2),
    ("[[circuit]]", "[[circuit]]\nname = 'c2'\nfrom = 3\nto = 1\nslot = 2\ntext_a = ''\ntext_b = 'B'\n[[circuit]]\ncolour = 1", 8, 1),
]

# Of steps: the place is the number of the step.
OF_SCRIPTS = [
    ('script = ["settle"]\n', "", 20, 0),
    ('["settle"]', '"settle"', 20, 0),
    ('["settle"]', '["settle", 1]', 20, 0),
    ('["settle"]', "[]", 21, 0),
    ('"settle"', '"cut 2", "settle"', 23, 1),
    ('"settle"', '"cut  2 east", "settle"', 23, 1),
    ('"settle"', '"lock  2", "settle"', 23, 1),
    ('"settle"', '""', 23, 1),
    ('"settle"', '" settle"', 23, 1),
    ('"settle"', '"settle "', 23, 1),
    ('"settle"', '"settle", "lock 2 east", "settle"', 22, 2),
    ('"settle"', '"Cut 2 east a b c d e f ", "settle"', 23, 1),
    ('"settle"', '"Cut 2 east a b c d e f", "settle"', 22, 1),
    ('"settle"', '"settle", "settle now"', 23, 2),
    ('"settle"', '"cut 9 up on", "settle"', 23, 1),
    ('"settle"', '"cut 9 up", "settle"', 24, 1),
    ('"settle"', '"cut 02 east", "settle"', 24, 1),
    ('"settle"', '"cut two east", "settle"', 24, 1),
    ('"settle"', '"cut 2 up", "settle"', 25, 1),
    ('"settle"', '"degrade 2 East 13", "settle"', 25, 1),
    ('"settle"', '"degrade 2 east 13", "settle"', 26, 1),
    ('"settle"', '"degrade 2 east 0", "settle"', 26, 1),
    ('"settle"', '"moment 1000000001", "settle"', 26, 1),
    ('"settle"', '"moment 18446744073709551617", "settle"', 26, 1),
    ('"settle"', '"moment +5", "settle"', 26, 1),
    ('"settle"', '"moment 05", "settle"', 26, 1),
    ('"settle"', '"moment 5", "moment 4", "settle"', 27, 2),
    ('"settle"', '"moment 5", "moment 5", "moment 4", "cut 9 east"', 27, 3),
    ('"settle"', '"hold 2", "settle"', 23, 1),
    ('"settle"', '"hold 2 5 east", "settle"', 23, 1),
    ('"settle"', '"hold 9 5", "settle"', 24, 1),
    ('"settle"', '"hold 9 101", "settle"', 24, 1),
    ('"settle"', '"hold 2 0", "settle"', 26, 1),
    ('"settle"', '"hold 2 101", "settle"', 26, 1),
    ('"settle"', '"cut 2 east"', 29, 1),
    ('"settle"', '"settle", "moment 5"', 29, 2),
]

# The steps of the smallest plan, and the reason and the place that are then answered, if it is refused.
OF_SLIPS = [
    ("slip c1 a up 1|settle", None),
    ("slip c1 a down 1|settle", None),
    ("slip c1 a up 16|settle", None),
    ("slip c1 a up 16|slip c1 a down 1|settle", (31, 2)),
    ("slip c9 a up 1|settle", (30, 1)),
    ("slip c1 a over 1|settle", (25, 1)),
    ("slip c1 a up 17|settle", (26, 1)),
    ("slip c1 a up 0|settle", (26, 1)),
    ("slip c1 a up 01|settle", (26, 1)),
    ("slip c1 c up 1|settle", (30, 1)),
    ("slip c1 A up 1|settle", (30, 1)),
    ("slip C1 a up 1|settle", (30, 1)),
    ("slip c a up 1|settle", (30, 1)),
    ("slip c11 a up 1|settle", (30, 1)),
    ("slip c1 a west 1|settle", (25, 1)),
    ("slip c1 a up|settle", (23, 1)),
    ("slip c1 a up 1 now|settle", (23, 1)),
    ("slip c9 c over 17 now|settle", (23, 1)),
    ("slip c9  over 17|settle", (23, 1)),
    ("slip c9 a over 1|settle", (30, 1)),
    ("slip c1 c over 1|settle", (30, 1)),
    ("slip c9 a up 17|settle", (30, 1)),
    ("slip c1 a over 17|settle", (25, 1)),
    ("slip c1 a up 16|slip c1 a up 17|settle", (26, 2)),
    ("slip c1 a up 16|slip c1 b down 16|settle", None),
    ("slip c1 a up 16|slip c1 b down 16|slip c1 b up 1|settle", (31, 3)),
    ("slip c1 a up 10|slip c1 a down 6|settle", None),
    ("slip c1 a up 10|slip c1 a down 7|settle", (31, 2)),
    ("slip c1 a up 16|moment 5|slip c1 a up 1|settle", (31, 3)),
    ("slip c1 a up 16|settle|slip c1 a down 16|settle", None),
    ("slip c1 a up 1|settle|slip c1 a down 16|slip c1 a up 1|settle", (31, 4)),
    ("slip c1 a up 16|slip c1 a down 1|cut 9 east|settle", (31, 2)),
    ("settle|slip c1 a up 1", (29, 2)),
]

NO_DOCUMENTS = [b"rate = ", b"rate = 4\nrate = 4\n", b"# \xff\n", b"nodes = [1", b"\x00", b"rate = 9223372036854775808", b"colour = 1e999"]

# The smallest plan in other words of TOML 1.1.
IN_BRACES = """\ufeffscript = ['settle',] # last\r
circuit = [{
    'name' = "\\x631", from = 0x1, to = +2,
    slot = 0b1, text_a = '''\nALPHA''', text_b = "BETA!",
}]
limit = 1_000
wait = 1_0
threshold = 0o3
nodes = [1,
  2, 3]
rate = 4"""

# The lines of some rings, written by hand: the arc of each circuit followed eastwards from its first node, span by span. Rate, nodes, script,
# circuits as name, ends and slot, and the lines: node, side, slot, and the circuit with its ends.
CUT_OFF = ("cut 1 east", "cut 2 west", "cut 2 east", "cut 3 west", "settle")
TABLES = {
    "a node where two circuits of one slot meet": (
        *(4, [1, 2, 3, 4], CUT_OFF, [("x", 1, 2, 1), ("y", 2, 3, 1)]),
        ["1 east 1 x 1 2", "2 west 1 x 1 2", "2 east 1 y 2 3", "3 west 1 y 2 3"],
    ),
    "the same ring with another script and one circuit, on all spans but the last": (
        *(4, [1, 2, 3, 4], ("forced 1 east", "forced 3 east", "settle"), [("c1", 1, 4, 2)]),
        [f"{place} 2 c1 1 4" for place in ("1 east", "2 west", "2 east", "3 west", "3 east", "4 west")],
    ),
    "two nodes: span 0 is east of 7, span 1 west of it": (
        *(4, [7, 9], ("settle",), [("p", 7, 9, 1), ("q", 9, 7, 1)]),
        ["7 west 1 q 9 7", "7 east 1 p 7 9", "9 west 1 p 7 9", "9 east 1 q 9 7"],
    ),
    "a full ring at STM-4: a is on span 0, b on 1, c on 2 in slot 1, and in slot 2 e on span 1 and d on the others": (
        *(4, [1, 2, 3], ("settle",), [("e", 2, 3, 2), ("a", 1, 2, 1), ("b", 2, 3, 1), ("c", 3, 1, 1), ("d", 3, 2, 2)]),
        [
            *("1 west 1 c 3 1", "1 west 2 d 3 2", "1 east 1 a 1 2", "1 east 2 d 3 2"),
            *("2 west 1 a 1 2", "2 west 2 d 3 2", "2 east 1 b 2 3", "2 east 2 e 2 3"),
            *("3 west 1 b 2 3", "3 west 2 e 2 3", "3 east 1 c 3 1", "3 east 2 d 3 2"),
        ],
    ),
    "the last slot at STM-16, over the span from the last position to the first": (
        *(16, [15, 0, 10], ("settle",), [("a-z_0123456789-z", 10, 0, 8), ("b", 0, 10, 8), ("c", 15, 0, 7)]),
        [
            *("15 west 8 a-z_0123456789-z 10 0", "15 east 7 c 15 0", "15 east 8 a-z_0123456789-z 10 0"),
            *("0 west 7 c 15 0", "0 west 8 a-z_0123456789-z 10 0", "0 east 8 b 0 10"),
            *("10 west 8 b 0 10", "10 east 8 a-z_0123456789-z 10 0"),
        ],
    ),
    "no circuit": (4, [1, 2, 3], ("settle",), [], []),
}


def asked(word, plan):
    """The status and the text."""
    ended = subprocess.run([SDHRING, *word.split()], input=plan, capture_output=True, timeout=PATIENCE)
    return ended.returncode, ended.stdout


def refusal(reason, place):
    return 6, b"bad plan %d at %d\n" % (reason, place)


def repeating(steps, times):
    """The smallest plan with these steps so many times before its own."""
    return SMALLEST.replace(b'"settle"', (steps * times + '"settle"').encode(), 1)


def with_steps(steps):
    """The smallest plan with these steps, which have bars between them."""
    return SMALLEST.replace(b"settle", steps.replace("|", '", "').encode(), 1)


def drawn(rate, nodes, script, circuits):
    """A plan with these circuits."""
    lines = [f"rate = {rate}", f"nodes = {nodes}", "threshold = 3", "wait = 10", "limit = 1000", f"script = {list(script)}"]
    for name, start, end, slot in circuits:
        lines += ["[[circuit]]", f'name = "{name}"', f"from = {start}", f"to = {end}", f"slot = {slot}", 'text_a = "A"', 'text_b = "B"']
    return "\n".join([*lines, ""]).encode()


@unittest.skipUnless(SDHRING.is_file(), "dist/ has no sdhring")
class Refused(unittest.TestCase):
    def answered(self, plan, reason=None, place=None):
        """The program and the second reading answer this; without a reason they have a plan."""
        with self.subTest(plan=plan):
            status, text = asked("check", plan)
            self.assertEqual((status, text) if reason else status, refusal(reason, place) if reason else 0)
            self.assertEqual(plans.answer(plan), f"bad plan {reason} at {place}" if reason else "plan")

    def test_the_first_check_that_fails_is_answered(self):
        for old, new, reason, place in OF_DOCUMENTS + OF_CIRCUITS + OF_SCRIPTS:
            self.assertIn(old.encode(), SMALLEST)
            self.answered(SMALLEST.replace(old.encode(), new.encode(), 1), reason, place)
        self.answered(b"", 13, 0)

    def test_the_second_of_two_circuits(self):
        """It shares a slot and a span with the first, or has its name or one that is none; without that it is one more."""
        first, nodes = ("c1", 1, 3, 1), [1, 2, 3, 4]
        for second, reason in (
            (("c2", 1, 3, 1), 9),
            (("c2", 4, 2, 1), 9),
            (("c2", 2, 1, 1), 9),
            (("C2", 1, 3, 1), 10),
            (("c1", 1, 3, 1), 10),
            (("c2345678901234567", 1, 3, 2), 10),
            (("c2", 1, 3, 2), None),
            (("back", 3, 1, 1), None),
        ):
            self.answered(drawn(4, nodes, ("settle",), [first, second]), reason, 2)
        self.answered(drawn(4, [1, 2, 3], ("settle",), [("c1", 3, 2, 1), ("c2", 1, 2, 1)]), 9, 2)
        self.answered(drawn(16, list(range(16)), ("settle",), []))

    def test_what_is_no_document_is_told(self):
        for document in NO_DOCUMENTS:
            with self.subTest(document=document):
                self.assertEqual(asked("check", document), (5, b"not toml\n"))
                self.assertEqual(plans.answer(document), "not toml")

    def test_a_document_is_no_deeper_than_80(self):
        """By arrays within arrays, and by keys of many parts."""
        for parts in (80, 81):
            for document in (b"colour = " + b"[" * parts + b"]" * parts, b"colour" + b".x" * (parts - 1) + b" = 1"):
                with self.subTest(parts=parts, document=document[:10]):
                    self.assertEqual(asked("check", document), refusal(12, 0) if parts == 80 else (5, b"not toml\n"))

    def test_the_steps_of_a_script_are_counted(self):
        settle, mend, other = '"settle", ', '"mend 2 east", ', '"mend 9 east", '
        self.answered(repeating(settle, 63))
        self.answered(repeating(settle, 64), 28, 65)
        self.answered(repeating(mend, 999))
        self.answered(repeating(mend, 1000), 21, 0)
        self.answered(repeating(other, 1000), 21, 0)
        self.answered(repeating(settle + mend, 63))
        self.answered(repeating(settle + mend, 64), 28, 129)

    def test_the_slips_of_each_port_are_counted(self):
        for steps, told in OF_SLIPS:
            self.answered(with_steps(steps), *(told or ()))


@unittest.skipUnless(SDHRING.is_file(), "dist/ has no sdhring")
class Read(unittest.TestCase):
    def test_the_same_plan_in_other_words(self):
        self.assertEqual(plans.answer(IN_BRACES.encode()), "plan")
        self.assertEqual(asked("run", IN_BRACES.encode()), (0, SMALLEST_TEXT))
        for word in ("check", "drop c1 a", "drop c1 b"):
            self.assertEqual(asked(word, IN_BRACES.encode()), asked(word, SMALLEST))

    def test_the_circuits_that_pass_each_node_are_listed(self):
        for name, (*parts, lines) in TABLES.items():
            with self.subTest(ring=name):
                told = [f"node {node} {side} slot {rest}\n" for node, side, rest in (line.split(" ", 2) for line in lines)]
                self.assertEqual(asked("check", drawn(*parts)), (0, "".join([*told, "done\n"]).encode()))


if __name__ == "__main__":
    unittest.main()
