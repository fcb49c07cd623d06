"""JSON and CSV of what the program wrote: each line of a text is in them, with the fields that docs/FORMATS.md names."""

import csv
import io
import json
import re
import unittest

from common import RINGS, TOOLS, bytes_of, call

from ringtools.records import HEADS, record
from ringtools.rows import read_rows

FORMATS = (TOOLS.parent / "docs" / "FORMATS.md").read_text()


def as_json(name, *words):
    ended = call("sdhring-report", "--json", RINGS / f"{name}.text", *words)
    return ended.returncode, json.loads(ended.stdout)


def as_csv(name, *words):
    ended = call("sdhring-report", "--csv", RINGS / f"{name}.text", *words)
    return ended.returncode, list(csv.DictReader(io.StringIO(ended.stdout.decode())))


def lines_of(told):
    """The text of a run once more, from its record."""
    for step in told["settled"]:
        yield f"settle {step['settle']} round {step['round']}"
        for node in step["nodes"]:
            sides = " ".join(f"{side} {node[side]['k1']} {node[side]['k2']}" for side in ("west", "east"))
            yield f"node {node['node']} {node['state']} {sides}"
        for port in step["ports"]:
            shown = "ais" if port["delivers"] == "ais" else f"norm {port['value']} {port['hex']}"
            yield f"port {port['circuit']} {port['end']} {shown}"
    yield told["last"]


class Json(unittest.TestCase):
    def test_a_run_can_be_written_again_from_its_record(self):
        for row in read_rows():
            if row.words == (b"run",) and row.status in (0, 7):
                with self.subTest(row=row.name):
                    self.assertEqual("\n".join(lines_of(record(row.text))) + "\n", row.text.decode())

    def test_the_status_is_the_program_s(self):
        for row in filter(lambda row: row.text, read_rows()):
            with self.subTest(row=row.name):
                self.assertEqual(record(row.text)["status"], row.status)

    def test_words_of_k_bytes(self):
        status, told = as_json("span-cut", "--plan", RINGS / "span-cut.toml")
        self.assertEqual((status, told["command"], told["status"]), (0, "run", 0))
        west = told["settled"][0]["nodes"][1]["west"]
        wanted = {"k1": "b3", "k2": "2a", "request": "SF", "to": 3, "from": 2, "path": "long", "mark": "bridged and switched"}
        self.assertEqual(west, wanted)

    def test_other_commands(self):
        self.assertEqual(as_json("squelch-tables")[1]["table"][0], {"node": 1, "side": "east", "slot": 1, "circuit": "c1", "from": 1, "to": 2})
        self.assertEqual(as_json("large")[1]["settled"][2], {"settle": 3, "round": 384, "norm": 20, "ais": 4})
        (chunk,) = as_json("dropped-chunk")[1]["settled"]
        self.assertEqual(chunk["hex"], "".join(bytes_of("dropped-chunk")[1].decode().splitlines()[:9]))

    def test_refusals(self):
        status, told = as_json("bad-slot")
        self.assertEqual((status, told["command"], told["reason"], told["place"]), (6, None, 4, 1))
        self.assertEqual(as_json("limit-too-small")[1]["unsettled"], 1)

    def test_a_text_of_another_plan_is_refused(self):
        ended = call("sdhring-report", "--json", RINGS / "span-cut.text", "--plan", RINGS / "two-nodes.toml")
        self.assertEqual((ended.returncode, ended.stdout), (1, b""))
        self.assertIn(b"line 2: ", ended.stderr)

    def test_a_broken_text_is_refused(self):
        for text in (b"", b"done", b"settle 1 round 127\ndone\n", bytes_of("span-cut")[1][:-5], b"\xff\n", bytes_of("mending")[1].replace(b"port c1 a", b"port c2 a", 1)):
            ended = call("sdhring-report", "--json", input=text)
            self.assertEqual((ended.returncode, ended.stdout), (1, b""), text)
            self.assertNotIn(b"Traceback", ended.stderr)


class Csv(unittest.TestCase):
    def test_ports_and_nodes_of_a_run(self):
        status, rows = as_csv("node-cut-off")
        self.assertEqual((status, [row["delivers"] for row in rows]), (0, ["ais"] * 4))
        _, rows = as_csv("mending")
        self.assertEqual(rows[2]["hex"], "00676162636465666761626364656667")
        _, rows = as_csv("mending", "--nodes")
        self.assertEqual([row["state"] for row in rows[:4]], ["pass", "switch-east", "switch-west", "pass"])
        self.assertEqual((rows[7]["round"], rows[7]["west_request"]), ("256", "WTR"))

    def test_other_commands(self):
        self.assertEqual([row["ais"] for row in as_csv("large")[1]], ["0", "0", "4", "0", "0", "0"])
        self.assertEqual(len(as_csv("squelch-tables-of-two-circuits")[1]), 4)
        self.assertEqual(len(as_csv("dropped-chunk")[1][0]["hex"]), 2 * 2349)

    def test_a_refusal_has_no_rows(self):
        self.assertEqual(as_csv("bad-slot"), (6, []))


class Fields(unittest.TestCase):
    def test_every_field_is_told(self):
        """Each key of a record, at any depth, and each head of a table stands in the part on records."""
        part = FORMATS.split("## As JSON and CSV", 1)[1].split("\n## ", 1)[0]
        told = set(re.findall(r"`([a-z0-9_]+)`", part))
        names = set()

        def gather(value):
            for item in value.values() if isinstance(value, dict) else value if isinstance(value, list) else ():
                gather(item)
            names.update(value if isinstance(value, dict) else ())

        for name in ("span-cut", "dropped-chunk", "large", "squelch-tables", "bad-slot"):
            gather(as_json(name)[1])
        heads = {re.sub("^(west|east)_", "", head) for table in HEADS.values() for head in table}
        self.assertEqual((names | heads) - told, set())


if __name__ == "__main__":
    unittest.main()
