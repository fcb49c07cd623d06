"""New plans, and the schema of plans beside the tables of docs/FORMATS.md and the checks."""

import json
import re
import sys
import tempfile
import tomllib
import unittest
from pathlib import Path

from common import RINGS, TOOLS, call

from ringtools.checks import CIRCUIT_KEYS, KEYS, NEEDED, STEP_FORMS
from ringtools.explaining import explain
from ringtools.plan import read_plan
from ringtools.reasons import REASONS

sys.path.append(str(TOOLS.parent / "bench" / "plans"))
import mutate  # noqa: E402

DOCS = TOOLS.parent / "docs"
SCHEMA = json.loads((DOCS / "plan.schema.json").read_text())
FORMATS = (DOCS / "FORMATS.md").read_text()
KINDS = {"integer": int, "string": str, "array": list, "object": dict}
# Reasons of which a schema knows nothing: what one part of a plan forbids another.
BEYOND_A_SCHEMA = {5, 6, 9, 24, 26, 27, 28, 29, 30, 31}


def fits(value, schema):
    """Whether a value keeps to a schema, as far as the words of this one go."""
    if "$ref" in schema:
        return fits(value, SCHEMA["definitions"][schema["$ref"].rsplit("/", 1)[1]])
    if isinstance(value, bool) or ("type" in schema and not isinstance(value, KINDS[schema["type"]])):
        return False
    if "if" in schema and fits(value, schema["if"]) and not fits(value, schema["then"]):
        return False
    if not all(fits(value, one) for one in schema.get("allOf", [])):
        return False
    if "anyOf" in schema and not any(fits(value, one) for one in schema["anyOf"]):
        return False
    if value not in schema.get("enum", [value]):
        return False
    of_kind = {int: fits_number, str: fits_text, list: fits_array, dict: fits_table}
    return of_kind[type(value)](value, schema) if type(value) in of_kind else True


def fits_number(value, schema):
    return schema.get("minimum", value) <= value <= schema.get("maximum", value)


def fits_text(value, schema):
    return "pattern" not in schema or bool(re.search(schema["pattern"], value)) and not value.endswith("\n")


def fits_array(value, schema):
    if not schema.get("minItems", 0) <= len(value) <= schema.get("maxItems", len(value)):
        return False
    if schema.get("uniqueItems") and len(set(map(str, value))) < len(value):
        return False
    return all(fits(item, schema.get("items", {})) for item in value)


def fits_table(value, schema):
    known = schema.get("properties", {})
    if schema.get("additionalProperties") is False and not set(value) <= set(known):
        return False
    if not set(schema.get("required", [])) <= set(value):
        return False
    return all(fits(value[key], known[key]) for key in value if key in known)


def table_of(heading):
    """The rows of the table of FORMATS.md that has this head, each with its cells."""
    rows = FORMATS.split(f"| {heading} |", 1)[1].split("\n\n", 1)[0].splitlines()[2:]
    return [[cell.strip() for cell in row.strip("| ").split(" | ")] for row in rows]


def ranges(cell):
    """`A to B` numbers of a cell."""
    return [tuple(int(number.replace(",", "")) for number in found) for found in re.findall(r"([0-9,]+) to ([0-9,]+)", cell)]


class Schema(unittest.TestCase):
    def test_keys_are_those_of_the_tables(self):
        document = {key for row in table_of("Key | Value") for key in re.findall(r"`(\w+)`", row[0])}
        circuit = {key for row in table_of("Key of a circuit | Value") for key in re.findall(r"`(\w+)`", row[0])}
        self.assertEqual((document, set(SCHEMA["properties"])), (set(KEYS), set(KEYS)))
        inner = SCHEMA["definitions"]["circuit"]
        self.assertEqual((circuit, set(inner["properties"])), (set(CIRCUIT_KEYS), set(CIRCUIT_KEYS)))
        self.assertEqual(set(inner["required"]), set(NEEDED))

    def test_ranges_are_those_of_the_tables(self):
        told = {key: ranges(row[1]) for row in table_of("Key | Value") for key in re.findall(r"`(\w+)`", row[0])}
        for key in ("wait", "limit"):
            limits = SCHEMA["properties"][key]
            self.assertEqual(told[key][0], (limits["minimum"], limits["maximum"]))
        nodes, script = SCHEMA["properties"]["nodes"], SCHEMA["properties"]["script"]
        self.assertEqual(told["nodes"], [(nodes["minItems"], nodes["maxItems"]), (nodes["items"]["minimum"], nodes["items"]["maximum"])])
        self.assertEqual(told["script"], [(script["minItems"], script["maxItems"])])
        offset = next(row for row in table_of("Key of a circuit | Value") if "`offset_a`" in row[0])
        limits = SCHEMA["definitions"]["offset"]
        self.assertEqual(ranges(offset[1])[0], (limits["minimum"], limits["maximum"]))

    def test_steps_are_those_of_the_table(self):
        forms = {row[0].strip("`").split(" ")[0]: row[0].strip("`").split(" ")[1:] for row in table_of("Step | What it does")}
        words = {word: [kind.upper() for kind in form] for word, form in STEP_FORMS.items()}
        as_told = lambda form: [{"K": "NUMBER", "T": "NUMBER", "COUNT": "NUMBER"}.get(word, word) for word in form]
        self.assertEqual({word: as_told(form) for word, form in forms.items()}, words)
        for word, form in forms.items():
            values = {"NODE": "2", "SIDE": "east", "K": "3", "T": "7", "NAME": "c1", "END": "a", "TURN": "up", "COUNT": "5"}
            step = " ".join([word, *(values[name] for name in form)])
            with self.subTest(step=step):
                self.assertTrue(fits(step, SCHEMA["definitions"]["step"]))
                self.assertFalse(fits(step + " 1", SCHEMA["definitions"]["step"]))
                self.assertFalse(fits(step.replace(" ", "  ") + " ", SCHEMA["definitions"]["step"]))

    def test_good_plans_fit_and_refused_ones_don_t(self):
        good, bad = 0, set()
        for seed in range(1500):
            data = mutate.document(50_000 + seed)
            told = explain(data)
            if told.status not in (0, 6):
                continue
            document = tomllib.loads(data.decode("utf-8-sig"))
            with self.subTest(seed=seed):
                if told.status == 0:
                    good += 1
                    self.assertTrue(fits(document, SCHEMA))
                elif (reason := int(told.findings[0].head.split(" ")[2])) not in BEYOND_A_SCHEMA | {10}:
                    bad.add(reason)
                    self.assertFalse(fits(document, SCHEMA))
        self.assertGreater(good, 100)
        self.assertEqual(bad, set(REASONS) - BEYOND_A_SCHEMA - {10})

    def test_examples_fit(self):
        for path in [*(TOOLS.parent / "examples").glob("*.toml")]:
            self.assertTrue(fits(tomllib.loads(path.read_text()), SCHEMA), path.name)
        self.assertFalse(fits(tomllib.loads((RINGS / "bad-slot.toml").read_text()), SCHEMA))


class Index(unittest.TestCase):
    def test_reasons_are_told_in_the_order_of_their_numbers(self):
        rows = table_of("Reason | Place | Name | In the list of")
        self.assertEqual([int(row[0]) for row in rows], list(REASONS))
        self.assertEqual([row[2] for row in rows], [reason.name for reason in REASONS.values()])


class New(unittest.TestCase):
    def made(self, *words):
        ended = call("sdhring-plan", "new", *words)
        self.assertEqual((ended.returncode, ended.stderr), (0, b""))
        return ended.stdout

    def refused(self, said, *words):
        ended = call("sdhring-plan", "new", *words)
        self.assertEqual((ended.returncode, ended.stdout), (1, b""))
        self.assertIn(said, ended.stderr.decode())

    def test_what_is_made_is_good_and_brings_no_warning_of_texts(self):
        for words in ((), ("1>3",), ("1>3", "works=2>3", "3>1"), ("--nodes", "0-15", "--rate", "16", "0>15", "15>0", "3>4")):
            with self.subTest(words=words):
                told = explain(self.made(*words))
                self.assertEqual(told.status, 0)
                self.assertNotIn("text", " ".join(finding.head for finding in told.findings))

    def test_what_was_asked_for_is_there(self):
        plan = read_plan(self.made("--nodes", "5,2,9", "--rate", "16", "--steps", "cut 2 east; cut 9 west", "x=5>9", "2>9"))
        self.assertEqual((plan.ids, plan.rate, plan.limit), ((5, 2, 9), 16, 64 * 3 + 512))
        self.assertEqual([step.text for step in plan.steps], ["cut 2 east", "cut 9 west", "settle"])
        found = [(circuit.name, plan.ids[circuit.start], plan.ids[circuit.end], circuit.slot) for circuit in plan.circuits]
        self.assertEqual(found, [("x", 5, 9, 1), ("c2", 2, 9, 2)])

    def test_a_comment_is_a_step_once_its_mark_is_taken_away(self):
        text = self.made("1>3").decode()
        plan = read_plan(re.sub(r'# "', '"', text).encode())
        self.assertEqual([step.text for step in plan.steps], ["settle", "cut 1 east", "cut 2 west", "settle"])

    def test_what_can_t_be_made(self):
        self.refused("no slot is free on all its spans; 3>2 goes the other way round", "1>3", "2>4", "2>3")
        self.refused("the nodes are 1, 2, 3, 4", "1>9")
        self.refused("FROM>TO is wanted", "1-3")
        self.refused("identifiers are wanted", "--nodes", "a")
        self.refused("1 node: a ring has 2 to 16", "--nodes", "1")
        self.refused("4 or 16 is wanted", "--rate", "5")
        self.refused("nearest: cut", "--steps", "kut 1 east", "1>2")
        self.refused("has at most 16", "a-name-of-17-char=1>2")
        self.refused("bad plan 6 at 1", "1>1")

    def test_the_rate_by_its_name(self):
        self.assertEqual(read_plan(self.made("--rate", "STM-16", "1>3")).rate, 16)
        self.assertEqual(read_plan(self.made("--rate", "stm4", "1>3")).rate, 4)
        for said, *words in (("--rate: `fast`: 4 or 16 is wanted, for STM-4 or STM-16", "--rate", "fast"), ("--wait: `2,5`: a whole number is wanted, in digits alone", "--wait", "2,5")):
            ended = call("sdhring-plan", "new", *words)
            self.assertEqual((ended.returncode, ended.stderr.decode().splitlines()[-1]), (2, f"sdhring-plan new: argument {said}; sdhring-plan new --help shows the words"))

    def test_a_file_is_never_written_over(self):
        with tempfile.TemporaryDirectory() as folder:
            file = Path(folder) / "ring.toml"
            self.assertEqual(self.made("--to", file, "1>2"), b"")
            self.assertIn(f"sdhring run < {file}", file.read_text())
            self.refused(f"{file} is there, and is left alone: name another file, or remove this one", "--to", file, "1>3")
            self.assertIn("from = 1\nto = 2", file.read_text())


if __name__ == "__main__":
    unittest.main()
