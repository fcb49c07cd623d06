"""What docs/HEADLINE.md quotes stands in the source, word for word."""

import re
import unittest

import soon
from common import TOOLS

ROOT = TOOLS.parent
PAGE = ROOT / "docs" / "HEADLINE.md"
STRANGE = {"sdh_frame", "sdh_parity", "sdh_overhead", "sdh_plant", "sdh_kbytes", "sdh_pointer", "sdh_nodestate"}
STRANGE |= {"sdh_squelch", "sdh_rounds", "sdh_terminal", "sdh_node", "sdh_ring"}


def blocks(page):
    """The lines of each definition on a page: an indented block, whose first line is its file and how much of it is shown."""
    for block in re.split(r"\n(?! {4})", page):
        lines = [line.removeprefix("    ") for line in block.split("\n") if line.startswith("    ")]
        if lines:
            yield lines


def quoted(page):
    """The file and the words of each definition on a page."""
    for first, *lines in blocks(page):
        yield first.split(",")[0], " ".join(lines).split()


def equations(name, text):
    """How many equations a definition has."""
    return len(re.findall(rf"^{re.escape(name)}\b(?! *:)", text, re.M))


def stands_in(words, text):
    """The words stand in a text one after the other; how its lines break is nothing to them."""
    return " ".join(words) in " ".join(text.split())


def below(crate, lines):
    """A crate, and all crates that it stands on by the lines of crates.txt, one on the other."""
    stands = {name.split()[0]: crates.split() for name, _, crates in (line.partition(":") for line in lines if line)}
    found, left = set(), [crate]
    while left:
        crate = left.pop()
        left += [other for other in stands.get(crate, []) if other not in found]
        found.add(crate)
    return found


class Headline(unittest.TestCase):
    def test_definitions_are_those_of_the_source(self):
        found = list(quoted(PAGE.read_text()))
        self.assertEqual(len(found), 36)
        for file, words in found:
            with self.subTest(file=file, words=words[:3]):
                self.assertTrue(words)
                self.assertTrue(stands_in(words, (ROOT / file).read_text()))

    def test_what_is_shown_in_part_is_marked(self):
        marked = []
        for first, *lines in blocks(PAGE.read_text()):
            file, _, part = first.partition(", ")
            name = lines[0].split()[0]
            if name in ("pub", "record", "data"):
                continue
            shown, all_of_it = equations(name, "\n".join(lines)), equations(name, (ROOT / file).read_text())
            with self.subTest(name=name):
                self.assertEqual(part, "" if shown == all_of_it else f"{shown} of {all_of_it} equations")
            marked += [name] if part else []
        self.assertEqual(marked, ["AreOwed", "IsLeftOff", "HoldsNonePassing"])

    def test_witnesses_are_there(self):
        """That the promise isn't empty is shown by functions, a clause and wrong bodies, which the page names with their files."""
        section = PAGE.read_text().split("## That it isn't empty")[1].split("\n## ")[0]
        for file in re.findall(r"`(crates/[a-z_/]+\.rt)`", section):
            self.assertTrue((ROOT / file).is_file(), file)
        for name, file in (("three_are_owed_soon", "sdh_owed/src/lib.rt"), ("three_meet_no_strangers", "sdh_owed/src/lib.rt"), ("a_ring_occurs", "sdh_laws/src/converging.rt"),
                           ("reports_go_on", "sdh_promise/src/lib.rt"), ("reports_remember", "sdh_promise/src/lib.rt"), ("all_are_told", "sdh_promise/src/lib.rt")):
            self.assertIn(f"`{name}`", section)
            self.assertIn(f"pub fn {name}()", (ROOT / "crates" / file).read_text())
        self.assertIn("ensures kept { KeepsCall ", (ROOT / "crates" / "sdh_cli" / "src" / "top.rt").read_text())
        self.assertIn("pub complete : ", (ROOT / "crates" / "sdh_shell" / "specs" / "Kept.antt").read_text())
        wrong = {path.stem for path in (ROOT / "crates" / "sdh_cli" / "must-fail").glob("*.edit")}
        self.assertEqual({name for name in wrong if f"`{name}`" not in section}, set())

    def test_another_word_is_told(self):
        file, words = next(quoted(PAGE.read_text()))
        self.assertFalse(stands_in([*words[:-1], "others"], (ROOT / file).read_text()))

    def test_late_steps_are_counted(self):
        steps, late, alone = soon.all_counted()
        self.assertLess(alone, late)
        words = " ".join(PAGE.read_text().split())
        self.assertIn(f"Of the {steps} settle steps of the plans in `tools/testing/rings` {late} are", words)

    def test_bounds_are_those_of_the_changes(self):
        bounds = [soon.bound(4, words) for words in ([], ["cut", "degrade"], ["slip", "cut"], ["hold", "slip"])]
        self.assertEqual(bounds, [32, 32, 93, 150])
        self.assertEqual(soon.bound(4, ["hold", "cut", "hold"], 20), 52)
        self.assertEqual(soon.bound(16, ["slip"]), 194)

    def test_the_promise_stands_on_no_frame_word_or_node(self):
        lines = [line for line in (ROOT / "crates.txt").read_text().split("\n") if not line.startswith("#")]
        self.assertFalse(STRANGE & below("sdh_promise", lines))
        self.assertTrue(STRANGE <= below("sdh_owed", lines) | {"sdh_ring"})
        self.assertIn("sdh_restoration", below("sdh_promise", lines))


if __name__ == "__main__":
    unittest.main()
