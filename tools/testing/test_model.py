"""The tools' restoration model against the same once more from its definitions, over random scripts."""

import random
import tomllib
import unittest

from common import bytes_of
from rules import CHUNK, Rules, Stream

from ringtools.model import is_joined, owed, route, scenes
from ringtools.plan import read_plan


def circuits_by_chance(chance, nodes, slots):
    taken, lines = set(), []
    for number in range(chance.randint(1, 8)):
        start, length, slot = chance.randrange(len(nodes)), chance.randint(1, len(nodes) - 1), chance.randint(1, slots)
        places = {((start + i) % len(nodes), slot) for i in range(length)}
        if taken & places:
            continue
        taken |= places
        end = nodes[(start + length) % len(nodes)]
        texts = ["".join(chance.choice("abcdefg ") for _ in range(chance.randint(1, 64))) for _ in range(2)]
        lines += ["[[circuit]]", f'name = "c{number}"', f"from = {nodes[start]}", f"to = {end}", f"slot = {slot}"]
        lines += [f'text_a = "{texts[0]}"', f'text_b = "{texts[1]}"', f"offset_a = {chance.randint(0, 782)}", f"offset_b = {chance.randint(0, 782)}"]
    return lines


def step_by_chance(chance, nodes, moment):
    place = f"{chance.choice(nodes)} {chance.choice(('east', 'west'))}"
    word = chance.choice(("cut", "cut", "mend", "mend", "degrade", "forced", "manual", "clear", "clear", "moment"))
    if word == "degrade":
        return f"degrade {place} {chance.randint(1, 6)}"
    return f"moment {moment}" if word == "moment" else f"{word} {place}"


def plan_by_chance(chance):
    nodes = chance.sample(range(16), chance.randint(2, 7))
    rate = chance.choice((4, 16))
    script, moment = [], 0
    for _ in range(chance.randint(1, 6)):
        for _ in range(chance.randint(0, 4)):
            moment += chance.randint(0, 6)
            script.append(step_by_chance(chance, nodes, moment))
        script.append("settle")
    shown = ", ".join(f'"{step}"' for step in script)
    lines = [f"rate = {rate}", f"nodes = {nodes}", "threshold = 3", f"wait = {chance.choice((0, 5, 10))}", "limit = 1000", f"script = [{shown}]"]
    return "\n".join(lines + circuits_by_chance(chance, nodes, rate // 2)) + "\n"


class Model(unittest.TestCase):
    def compare(self, document):
        plan, data = read_plan(document.encode()), tomllib.loads(document)
        rounds = [128 * (k + 1) for k in range(data["script"].count("settle"))]
        rules = Rules(data, rounds)
        for scene, last in zip(scenes(plan, rounds), rounds, strict=True):
            for (at, side), request in scene.requests.items():
                self.assertEqual(request, rules.local(at, side, last))
            self.assertEqual(scene.applied, rules.applied(last))
            for circuit, told in zip(plan.circuits, rules.circuits, strict=True):
                self.assertEqual(is_joined(plan, circuit, scene.applied), rules.joined(told, scene.applied))
                hops = route(plan, circuit, scene.applied)
                self.assertEqual(hops is not None, rules.joined(told, scene.applied))
                if hops is not None:
                    self.assertEqual(len(hops), rules.hops(told, scene.applied))
                    self.check_route(plan, circuit, hops, scene.applied)

    def check_route(self, plan, circuit, hops, applied):
        """It leads from port to port, span after span, and over no applied one."""
        self.assertEqual((hops[0].start, hops[-1].end), (circuit.start, circuit.end))
        for before, after in zip(hops, hops[1:]):
            self.assertEqual(before.end, after.start)
        for hop in hops:
            east = (hop.end - hop.start) % plan.size == 1 and not hop.protection
            self.assertNotIn(hop.start if east else hop.end, applied)

    def test_scripts_by_chance(self):
        chance = random.Random(2349)
        for number in range(100):
            document = plan_by_chance(chance)
            with self.subTest(number=number, document=document):
                self.compare(document)

    def test_streams_by_chance(self):
        chance = random.Random(783)
        for _ in range(20):
            document = plan_by_chance(chance)
            plan, data = read_plan(document.encode()), tomllib.loads(document)
            for circuit, told in zip(plan.circuits, data.get("circuit", [])):
                hops, now = chance.randint(1, 29), 128 * chance.randint(1, 4)
                stream = Stream(told["text_b"], told["name"], told["offset_b"])
                value, shown = owed(circuit, "a", now, hops)
                self.assertEqual((value, shown), (told["offset_b"], stream.bytes(CHUNK * (now - hops), 16)))

    def test_path_overhead_in_streams(self):
        """At these offsets a chunk begins a few bytes before B3, before J1, or with J1."""
        for offset in (435, 437, 440, 522, 523, 526):
            plan = read_plan(bytes_of("healthy")[0].replace(b"slot = 1", b"slot = 1\noffset_b = %d" % offset))
            stream = Stream("BETA!", "c1", offset)
            for now in (2, 65, 128, 500):
                self.assertEqual(owed(plan.circuits[0], "a", now, 1)[1], stream.bytes(CHUNK * (now - 1), 16))


if __name__ == "__main__":
    unittest.main()
