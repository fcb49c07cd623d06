"""Rings that the built programs run, against what was worked out by hand and against a stream of the tests' own (`rules.Stream`): what each
port delivers, byte for byte, what a side asks for, and whose bytes ports get."""

import csv
import os
import random
import subprocess
import unittest

from common import PATIENCE, RINGS, TOOLS

from rules import CHUNK, Stream

DIST = TOOLS.parent / "dist"
TEXTS = {"a": "ABCDEFG", "b": "abcdefg"}
CUT = ["cut 2 east", "cut 3 west"]  # the span between the second and the third node of four, both ways

# A plan with the largest numbers and with each key.
WIDE = """rate = 16
nodes = [15, 0, 7]
threshold = 48
wait = 1000000
limit = 65536
script = SCRIPT
[[circuit]]
name = "a-z_0123456789-z"
from = 7
to = 0
slot = 8
text_a = " "
text_b = "~"
trace_a = "near"
offset_b = 782
[[circuit]]
name = "b"
from = 0
to = 7
slot = 8
text_a = "A"
text_b = "B"
trace_b = "far"
offset_a = 1
"""


def asked(program, words, plan):
    """The text of a call that answers Ok."""
    ended = subprocess.run([DIST / program, *words.split()], input=plan, capture_output=True, timeout=PATIENCE)
    if ended.returncode:
        raise AssertionError(f"{program} {words}: {ended.returncode}, {ended.stdout}")
    return ended.stdout.decode()


def ring(script, rate=4, nodes=(1, 2, 3, 4), threshold=3, wait=10, circuits=()):
    """A plan. Each circuit is lines of TOML."""
    lines = [f"rate = {rate}", f"nodes = {list(nodes)}", f"threshold = {threshold}", f"wait = {wait}", "limit = 1000", f"script = {script}"]
    return "\n".join([*lines, *("[[circuit]]\n" + circuit for circuit in circuits), ""]).encode()


def led(name, start, end, texts=TEXTS, **more):
    """A circuit in slot 1."""
    pairs = [("from", start), ("to", end), ("slot", 1), *more.items()]
    words = [("name", name), ("text_a", texts["a"]), ("text_b", texts["b"])]
    return "\n".join([f'{key} = "{value}"' for key, value in words] + [f"{key} = {value}" for key, value in pairs])


def dropped(plan, name, end):
    """All bytes that a port delivers after each settle step."""
    *lines, _ = asked("sdhring", f"drop {name} {end}", plan).splitlines()
    return [bytes.fromhex("".join(lines[at : at + 9])) for at in range(0, len(lines), 9)]


def ports(plan):
    """What the ports show at each settle step: by circuit and end the pointer value and the first bytes, or nothing for AIS."""
    steps = []
    for line in asked("sdhring", "run", plan).splitlines():
        word, *rest = line.split()
        if word == "settle":
            steps.append({})
        elif word == "port":
            name, end, kind, *shown = rest
            steps[-1][name, end] = (int(shown[0]), bytes.fromhex(shown[1])) if kind == "norm" else None
    return steps


def place(round_, ups=0, downs=0):
    """Where in the stream a round's chunk begins: each up leaves out three bytes, and each down puts three more in."""
    return CHUNK * round_ - 3 * ups + 3 * downs


@unittest.skipUnless((DIST / "sdhring").is_file(), "dist/ has no programs")
class Worked(unittest.TestCase):
    """Settle steps that are worked out by hand: both clocks slipped, and a fibre is degraded or a node is cut off, at both rates.

    Each step ends with round 128, and a port delivers what the other end sent h rounds before, in round 128 - h. All slips are made good by
    then, the k-th in round 4 k. So the pointer value is the offset, plus the ups, less the downs, modulo 783, and the first byte has place
    2349 (128 - h) - 3 ups + 3 downs in the stream. At offset 781 a VC-4 begins at index 783 + 3 * 781 - 2349 = 777 of the AU-4, so that the
    stream begins with byte 2349 - 777 = 1572 of the first VC-4; at offset 1 it begins with byte 2349 - 786 = 1563. Byte i of a VC-4 is that
    of row i / 261 and column i % 261; the first column is path overhead, and byte j of the text stands behind it in the others, where j is
    2340 for each VC-4 before and 260 for each row before, modulo the seven letters."""

    CUT_OFF = ["cut 1 east", "cut 2 west", *CUT]

    def shown(self, script, to, a, b):
        for rate in (4, 16):
            with self.subTest(rate=rate):
                (step,) = ports(ring([*script, "settle"], rate, circuits=[led("c1", 1, to, offset_a=781, offset_b=1)]))
                for end, wanted in (("a", a), ("b", b)):
                    told = step["c1", end]
                    self.assertEqual(told and (told[0], told[1][: len(wanted[1])]), wanted)

    def test_a_degraded_fibre(self):
        """The span is applied, and the way has four spans: to the second node and back, and on by the fourth, h = 4. 2349 * 124 is 291276.

        From port a: 781 + 2 is 783, so 0. 291276 - 6 + 1572 = 124 * 2349 + 1566, and 1566 is column 0 of row 6, which is F3, a 0. Then
        2340 * 124 + 260 * 6 = 291720, which is 2 modulo 7: C.

        From port b: 1 - 3 is -2, so 781. 291276 + 9 + 1563 = 124 * 2349 + 1572, column 6 of row 6. 291720 + 5 is 0 modulo 7: a."""
        script = ["slip c1 a up 2", "slip c1 b down 3", "degrade 2 east 3"]
        self.shown(script, 3, (781, b"abcdefga"), (0, b"\0CDEFGAB"))

    def test_a_node_that_is_cut_off(self):
        """The way round by the fourth node has two spans, h = 2. 2349 * 126 is 295974.

        From port a: 781 - 5 is 776. 295974 + 15 + 1572 = 126 * 2349 + 1587, column 21 of row 6. 2340 * 126 + 260 * 6 + 20 = 296420, which is
        5 modulo 7: F.

        From port b: 1 + 7 - 2 is 6. 295974 - 21 + 6 + 1563 = 126 * 2349 + 1548, column 243 of row 5. 2340 * 126 + 260 * 5 + 242 = 296382,
        which is 2 modulo 7: c."""
        script = ["slip c1 a down 5", "slip c1 b up 7", "slip c1 b down 2", *self.CUT_OFF]
        self.shown(script, 3, (6, b"cdefgabc"), (776, b"FGABCDEF"))

    def test_a_circuit_that_ends_there(self):
        """Nothing leads to its other port."""
        self.shown(["slip c1 a up 16", "slip c1 b down 1", *self.CUT_OFF], 2, None, None)


@unittest.skipUnless((DIST / "sdhring").is_file(), "dist/ has no programs")
class Delivered(unittest.TestCase):
    """All 2349 bytes that ports deliver: what the other end sent a round a hop before."""

    def owes(self, plan, port, stream, sent):
        """`sent` has for each settle step the round in which that was sent which the port then delivers, and the slips made good until then."""
        with self.subTest(plan=plan, port=port):
            chunks = [stream.bytes(place(round_, *slips), CHUNK) for round_, slips in sent]
            values = [(stream.offset + ups - downs) % 783 for _, (ups, downs) in sent]
            self.assertEqual([step[port] for step in ports(plan)], [(value, chunk[:16]) for value, chunk in zip(values, chunks)])
            self.assertTrue(dropped(plan, *port) == chunks)

    def test_slips_before_a_settle_step(self):
        """A circuit over two spans with traces of its own and offsets near both ends, whose clocks slip, and whose second span is cut."""
        circuit = led("c1", 1, 3, offset_a=781, offset_b=1) + '\ntrace_a = "to the second node"\ntrace_b = "to the first node"'
        from_a, from_b = Stream(TEXTS["a"], "to the second node", 781), Stream(TEXTS["b"], "to the first node", 1)
        for script, a, b, hops in (
            (CUT, (0, 0), (0, 0), 4),
            (["slip c1 a up 1", "slip c1 b down 1"], (1, 0), (0, 1), 2),
            (["slip c1 a up 3", "slip c1 a down 1", "slip c1 b up 2", "slip c1 b down 9", *CUT], (3, 1), (2, 9), 4),
            (["slip c1 a up 16", "slip c1 b down 16", *CUT], (16, 0), (0, 16), 4),
        ):
            plan = ring([*script, "settle"], circuits=[circuit])
            self.owes(plan, ("c1", "a"), from_b, [(128 - hops, b)])
            self.owes(plan, ("c1", "b"), from_a, [(128 - hops, a)])

    def test_slips_by_chance(self):
        """Both clocks of neighbours slip by chance before each of 16 settle steps, 2,049 rounds in all, and the pointer values wrap both ways.
        In every round but the first ones, in which nothing has come yet, a port's bytes are those that follow its last ones."""
        chance = random.Random(2349)
        circuit, script, made, wraps = led("c1", 1, 2, offset_a=781, offset_b=1), [], {"a": [], "b": []}, set()
        for _ in range(16):
            for end, sent in made.items():
                count = chance.randint(0, 16)
                ups = chance.randint(0, count)
                downs = count - ups
                script += [f"slip c1 {end} {turn} {count}" for turn, count in (("up", ups), ("down", downs)) if count]
                before = sent[-1] if sent else (0, 0)
                sent.append((before[0] + ups, before[1] + downs))
            script.append("settle")
        plan = ring(script, circuits=[circuit])
        for end, other, offset in (("a", "b", 1), ("b", "a", 781)):
            sent = [(128 * number - 1, slips) for number, slips in enumerate(made[other], 1)]
            self.owes(plan, ("c1", end), Stream(TEXTS[other], "c1", offset), sent)
            values = [offset] + [(offset + ups - downs) % 783 for ups, downs in made[other]]
            wraps |= {before < after for before, after in zip(values, values[1:]) if abs(before - after) > 700}
        self.assertEqual(wraps, {False, True})
        told = [line.split() for line in asked("sdhoutage", "run", plan).splitlines() if line.startswith("port")]
        self.assertEqual([line[4] for line in told], ["1"] * 2 + ["0"] * 30)

    def test_each_part_of_a_plan(self):
        """The first circuit has two hops, by node 15, and the second one."""
        script = ["slip a-z_0123456789-z b down 16", "slip b a up 16", "slip b b down 1", "moment 0", "moment 1000000000", "moment 1000000000", "settle"]
        plan = WIDE.replace("SCRIPT", str(script)).encode()
        self.owes(plan, ("a-z_0123456789-z", "a"), Stream("~", "a-z_0123456789-z", 782), [(126, (0, 16))])
        self.owes(plan, ("a-z_0123456789-z", "b"), Stream(" ", "near", 0), [(126, (0, 0))])
        self.owes(plan, ("b", "a"), Stream("B", "far", 0), [(127, (0, 1))])
        self.owes(plan, ("b", "b"), Stream("A", "b", 1), [(127, (16, 0))])

    def test_where_a_vc_4_begins(self):
        """Offsets at which a chunk begins with J1, or with the last bytes before it, and slips over these."""
        for offset in (0, 521, 522, 782):
            for slips, made in (([], (0, 0)), (["slip c1 a up 1"], (1, 0)), (["slip c1 a down 1"], (0, 1))):
                plan = ring([*slips, "settle"], nodes=(1, 2, 3), circuits=[led("c1", 1, 2, {"a": "ALPHA", "b": "BETA!"}, offset_a=offset)])
                self.owes(plan, ("c1", "b"), Stream("ALPHA", "c1", offset), [(127, made)])

    def test_the_longest_text_and_trace(self):
        longest = " ABCDEFGHIJKLMNOPQRSTUVWXYZ-abcdefghijklmnopqrstuvwxyz-01234567~"
        self.assertEqual(len(longest), 64)
        plan = ring(["settle"], nodes=(1, 2, 3), circuits=[led("c1", 1, 2, {"a": longest, "b": "A"}) + f'\ntrace_a = "{longest}"'])
        self.owes(plan, ("c1", "b"), Stream(longest, longest, 0), [(127, (0, 0))])

    def test_a_span_that_is_cut_and_mended(self):
        """What its nodes do and send is a worked row of `sdhring`. The wait is over at moment 10."""
        plan = (RINGS / "end-of-waiting.toml").read_bytes()
        sent = [(128 * number - hops, (0, 0)) for number, hops in enumerate((4, 4, 4, 2), 1)]
        self.owes(plan, ("c1", "a"), Stream(TEXTS["b"], "c1", 0), sent)
        self.owes(plan, ("c1", "b"), Stream(TEXTS["a"], "c1", 0), sent)

    def test_a_full_ring_before_works(self):
        """What its nodes do and send is a worked row of `sdhring`. While the second node is switched, circuits over its east span have three
        hops, and all others one."""
        plan = (RINGS / "before-maintenance.toml").read_bytes()
        for name, over in (("l1-1", 1), ("l1-2", 3), ("l8-2", 3), ("l8-4", 1)):
            sent = [(128 * number - hops, (0, 0)) for number, hops in enumerate((1, over, over, 1), 1)]
            self.owes(plan, (name, "a"), Stream("BETA!", name, 0), sent)
            self.owes(plan, (name, "b"), Stream("ALPHA", name, 0), sent)


@unittest.skipUnless((DIST / "sdhring").is_file(), "dist/ has no programs")
class Listed(unittest.TestCase):
    def test_ais_of_a_node_that_is_cut_off(self):
        plan = (RINGS / "node-cut-off.toml").read_bytes()
        for name, end in (("x", "a"), ("x", "b"), ("y", "a"), ("y", "b")):
            self.assertEqual(asked("sdhring", f"drop {name} {end}", plan), "ais\ndone\n")

    def test_the_large_plan_of_0(self):
        """It has 12 circuits, and cuts the spans east of nodes 2 and 3. While both are cut, two circuits lead from the node between them, or
        end there. Nothing is read: a folder can't be."""
        folder = os.open(".", os.O_RDONLY)
        self.addCleanup(os.close, folder)
        ended = subprocess.run([DIST / "sdhring", "big", "0"], stdin=folder, capture_output=True, timeout=PATIENCE)
        *lines, done = ended.stdout.decode().splitlines()
        self.assertEqual((ended.returncode, done), (0, "done"))
        told = [line.split() for line in lines]
        counts = [["settle", str(k), *("norm 20 ais 4" if k == 3 else "norm 24 ais 0").split()] for k in range(1, 7)]
        self.assertEqual([words[:2] + words[4:] for words in told], counts)
        rounds = [int(words[3]) for words in told]
        self.assertEqual((rounds[0], sorted(set(rounds)), {number % 128 for number in rounds}), (128, rounds, {0}))


@unittest.skipUnless((DIST / "sdhaps").is_file(), "dist/ has no programs")
class Asks(unittest.TestCase):
    def in_round(self, plan, number, node=3, side="west"):
        """What a side of a node asks for: its last line up to then, as it has one for each round in which it shows something else than before."""
        lines = [line.split() for line in asked("sdhaps", f"node {node}", plan).splitlines()]
        told = {int(line[1]): line[-2:] for line in lines if line[0] == "round"}
        return told[max(round_ for round_ in told if round_ <= number)][side == "east"]

    def test_a_degraded_fibre_is_seen_a_round_later_from_the_threshold_on(self):
        """The first frame comes in round 1, and is counted in round 2."""
        for rate in (4, 16):
            for columns, asks in ((2, "nr"), (3, "sd"), (12, "sd")):
                with self.subTest(rate=rate, columns=columns):
                    plan = ring([f"degrade 2 east {columns}", "settle"], rate, circuits=[led("c1", 1, 3)])
                    self.assertEqual([self.in_round(plan, number) for number in (0, 1, 2)], ["nr", "nr", asks])
                    self.assertEqual(self.in_round(plan, 128), asks)

    def test_a_mended_side_waits_by_the_moment(self):
        """A round later it waits to restore, or has waited long enough."""
        script = ["cut 2 east", "settle", "mend 2 east", "settle"]
        plan = ring([*script, "moment 9", "settle", "moment 10", "settle"], circuits=[led("c1", 1, 3)])
        told = [self.in_round(plan, number) for number in (0, 1, 128, 129, 256, 384, 385)]
        self.assertEqual(told, ["nr", "sf", "sf", "wtr", "wtr", "wtr", "nr"])
        ordered = ["manual 3 west", "settle", "clear 3 west", "settle"]
        plan = ring([*script, *ordered, "moment 10", "settle"], circuits=[led("c1", 1, 3)])
        told = [self.in_round(plan, number) for number in (256, 257, 384, 385, 512, 513)]
        self.assertEqual(told, ["wtr", "ms", "ms", "wtr", "wtr", "nr"])
        plan = ring([*script[:3], "moment 10", "settle"], circuits=[led("c1", 1, 3)])
        self.assertEqual(self.in_round(plan, 129), "wtr")  # it begins to wait at that moment

    def test_each_step_of_a_script(self):
        """The fibre from node 7 is cut and the one from node 0 degraded by as many columns as the threshold; two sides have commands, and one
        of them has none any more. Node 7, whose controller is held for 100 turns, goes on asking for its command alone."""
        script = ["cut 7 east", "cut 15 west", "mend 15 west", "degrade 0 west 48", "forced 7 west", "manual 0 east", "manual 15 east"]
        plan = WIDE.replace("SCRIPT", str([*script, "clear 15 east", "hold 7 100", "settle"])).encode()
        places = (15, "west"), (15, "east"), (0, "west"), (0, "east"), (7, "west"), (7, "east")
        self.assertEqual([self.in_round(plan, 2, *place) for place in places], ["sf", "sd", "nr", "ms", "fs", "nr"])
        lines = asked("sdhaps", "node 7", plan).splitlines()
        states = [(int(words[1]), words[4]) for words in map(str.split, lines) if words[0] == "round"]
        self.assertEqual([number for number, state in states if state != "idle"][0], 100)


@unittest.skipUnless((DIST / "sdhwhatif").is_file(), "dist/ has no programs")
class Applied(unittest.TestCase):
    """Which spans of a ring of four are applied at the end of a script, by what happens on the sides."""

    FIRST = ["cut 1 east", "cut 2 west"]

    def applied(self, script):
        told = asked("sdhwhatif", "single", ring([*script, "settle"], circuits=[led("c1", 1, 3)]))
        number, *_, applied = next(csv.reader(told.splitlines()))[:4]
        self.assertEqual(number, "0")
        return applied.split()

    def test_spans_are_applied_by_what_happens_on_the_sides(self):
        for script, spans in (
            ([], []),
            (CUT, ["2-3"]),
            ([*self.FIRST, *CUT], ["1-2", "2-3"]),
            (["forced 1 east", "forced 3 east"], ["1-2", "3-4"]),
            (["manual 2 east", "manual 4 east"], []),
            (["manual 4 east"], ["4-1"]),
            (["degrade 2 east 2"], []),
            (["degrade 2 east 3"], ["2-3"]),
            (["degrade 2 east 3", "cut 4 east", "cut 1 west"], ["4-1"]),
        ):
            with self.subTest(script=script):
                self.assertEqual(self.applied(script), spans)

    def test_a_side_waits_to_restore_by_moments(self):
        for moment, spans in ((0, ["2-3"]), (9, ["2-3"]), (10, [])):
            with self.subTest(moment=moment):
                script = ["cut 2 east", "settle", "mend 2 east", "settle", f"moment {moment}"]
                self.assertEqual(self.applied(script), spans)


@unittest.skipUnless((DIST / "sdhoutage").is_file(), "dist/ has no programs")
class Strangers(unittest.TestCase):
    """Whose bytes ports get in a ring that switches, one violation being a degradation: circuit v from node 2 to node 3, u from 1 to 2.

    The fibres that leave nodes 1 and 2 eastwards are cut, so that node 2 is cut off, node 3 is switched and node 0 passes traffic through.
    Once that is quiet, the one is degraded and the other is mended. Then node 0 and node 3 are held for as many turns, where they are."""

    OFF = ["cut 1 east", "cut 2 east", "settle"]
    CHANGED = ["degrade 1 east 12", "mend 2 east"]
    BOTH = [*OFF, *CHANGED, "hold 0 7", "hold 3 4", "settle"]

    def strangers(self, script):
        """In how many rounds of each settle step a port got what a port of another circuit sent."""
        circuits = [led("v", 2, 3, {"a": "A", "b": "B"}), led("u", 1, 2, {"a": "C", "b": "D"})]
        plan, counts = ring(script, nodes=range(5), threshold=1, wait=100, circuits=circuits), []
        for line in asked("sdhoutage", "run", plan).splitlines():
            words = line.split()
            if words[0] == "settle":
                counts.append(0)
            elif words[0] == "port":
                counts[-1] += int(words[words.index("foreign") + 1])
        return counts

    def test_both_are_held(self):
        """While node 3 is held, node 2 puts onto protection what goes to it. That has come round by node 0, under the old word, when node 2
        is switched to the other side and takes it for what comes from node 1."""
        self.assertEqual(self.strangers(self.BOTH), [0, 1])

    def test_nothing_is_held_or_one_alone_or_both_as_long(self):
        for holds in ([], ["hold 0 7"], ["hold 3 4"], ["hold 0 7", "hold 3 7"]):
            with self.subTest(holds=holds):
                self.assertEqual(self.strangers([*self.OFF, *self.CHANGED, *holds, "settle"]), [0, 0])

    def test_a_hold_spoils_its_own_step_alone(self):
        """In later steps both fibres are cut again while node 1, which is switched, is held. None has a stranger whose own changes hold no
        node that passes traffic through, and one that holds one has it again."""
        again = [*self.BOTH, "settle", "hold 1 8", "cut 1 east", "cut 2 east", "settle"]
        self.assertEqual(self.strangers([*again, *self.CHANGED, "hold 3 4", "settle"]), [0, 1, 0, 0, 0])
        self.assertEqual(self.strangers([*again, *self.CHANGED, "hold 0 7", "hold 3 4", "settle"]), [0, 1, 0, 0, 1])


if __name__ == "__main__":
    unittest.main()
