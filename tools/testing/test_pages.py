"""What pages have for those who read them in the dark, on paper, on a phone or by keys; and customers before all else."""

import re
import tempfile
import tomllib
import unittest
from functools import cache
from pathlib import Path

from common import TOOLS, call, ring
from pages import BROWSER, PRINTS, Seen, browsed, printed
from rules import Rules

from ringtools.escaping import html, joined
from ringtools.markup import whole

RINGS_RUN = ["before-maintenance", "end-of-waiting", "node-cut-off", "all-dark", "two-nodes", "longest-route", "span-cut"]
WEB = TOOLS / "ringtools" / "web"
CODES = "fs", "sf", "sd", "ms", "wtr", "rr", "nr"  # the codes of K1
SIGNS = {"kept": "kept", "over": "protection", "lost": "lost"}
# What a reader does, and what is lit and told after each.
DEEDS = """
const told = [], figure = document.querySelectorAll("figure.figure")[1], key = (key) =>
  document.activeElement.dispatchEvent(new KeyboardEvent("keydown", { key, bubbles: true }));
const lit = () => [...new Set([...document.querySelectorAll(".lit")].map((e) => e.dataset.circuit))].join();
const note = () => told.push(lit() + "|" + figure.querySelector(".told").textContent.split(":")[0]);
figure.querySelector('.circuit[data-circuit="c1"] path').dispatchEvent(new MouseEvent("click", { bubbles: true })); note();
figure.querySelector('.circuit[data-circuit="c1"] path').dispatchEvent(new MouseEvent("click", { bubbles: true })); note();
figure.querySelector('[tabindex="0"]').focus(); key("Enter"); note();
key("ArrowRight"); note(); key("Enter"); note(); key(" "); note(); key("End"); note(); key("Escape"); note();
document.querySelector('tr[data-circuit="c1"] button').click(); note();
document.querySelector('#step2 tr[data-circuit="c1"] button').click(); note();
document.querySelector("button.unfold").click();
told.push([...document.querySelectorAll("details")].every((part) => part.open));
told.push(document.documentElement.scrollWidth <= document.documentElement.clientWidth);
"""


@cache
def page_of(name):
    return call("sdhring-view", *ring(name)).stdout.decode()


def luminance(colour):
    """As WCAG 2 has it, of #rgb or #rrggbb."""
    digits = colour[1:] if len(colour) == 7 else "".join(2 * digit for digit in colour[1:])
    parts = [int(digits[i : i + 2], 16) / 255 for i in (0, 2, 4)]
    lights = [part / 12.92 if part <= 0.04045 else ((part + 0.055) / 1.055) ** 2.4 for part in parts]
    return 0.2126 * lights[0] + 0.7152 * lights[1] + 0.0722 * lights[2]


def contrast(one, other):
    low, high = sorted((luminance(one), luminance(other)))
    return (high + 0.05) / (low + 0.05)


class Customers(unittest.TestCase):
    def told(self, name):
        """What becomes of each circuit in each settle step: lost by the program's text, over protection by the model."""
        data, text = tomllib.loads(ring(name)[0].read_text()), ring(name)[1].read_text()
        rounds = [int(found) for found in re.findall(r"^settle \d+ round (\d+)$", text, re.M)]
        parts, rules = re.split(r"^settle .*$", text, flags=re.M)[1:], Rules(data, rounds)
        for part, last in zip(parts, rounds, strict=True):
            lost = {circuit["name"] for circuit in rules.circuits if f"port {circuit['name']} a ais\nport {circuit['name']} b ais\n" in part}
            struck = {circuit["name"] for circuit in rules.circuits if rules.applied(last) & set(rules.arc(circuit))}
            yield {c["name"]: "lost" if c["name"] in lost else "over" if c["name"] in struck else "kept" for c in rules.circuits}

    def test_all_steps_at_a_glance(self):
        for name in RINGS_RUN:
            wanted = list(self.told(name))
            if len(wanted) == 1:
                continue
            rows = Seen(page_of(name)).table_named("Customers after settle steps")
            total, shown = rows[0], {row["customer"]: row for row in rows[1:]}
            for number, step in enumerate(wanted, 1):
                with self.subTest(ring=name, step=number):
                    self.assertEqual({circuit: row[f"step {number}"].split(",")[0] for circuit, row in shown.items()}, {c: SIGNS[r] for c, r in step.items()})
                    for result, word in (("lost", "lost"), ("over", "over protection"), ("kept", "kept")):
                        count = list(step.values()).count(result)
                        self.assertEqual(f"{count} {word}" in total[f"step {number}"].split(", "), count > 0)

    def test_each_step_begins_with_its_customers(self):
        words = {"lost": "Lost", "over": "Kept over protection", "kept": "Kept on their own arc"}
        for name in RINGS_RUN:
            page = page_of(name)
            for step, section in zip(self.told(name), re.split('<section id="step', page)[1:], strict=True):
                first = section[: section.index("<figure")]
                for result, word in words.items():
                    members = [circuit for circuit, is_now in step.items() if is_now == result]
                    self.assertEqual(f"{word} ({len(members)}): {', '.join(members)}" in first, bool(members), name)

    def test_nodes_are_folded_and_customers_are_not(self):
        page = Seen(page_of("end-of-waiting"))
        self.assertIn("node 2: idle (was: switches east)", page.folded)
        self.assertNotIn("circuit c1: 2 spans (was: 4 spans over protection, 2 more than its own arc)", page.folded)

    def test_circuits_can_be_lit_everywhere(self):
        page = Seen(page_of("before-maintenance"))
        for circuit in tomllib.loads(ring("before-maintenance")[0].read_text())["circuit"]:
            self.assertEqual(len(page.all("g", data_circuit=circuit["name"])), 4)
            self.assertEqual(len(page.all("tr", data_circuit=circuit["name"])), 1 + 4 + 4)


class Looks(unittest.TestCase):
    def palettes(self):
        light, dark = (WEB / "palette.css").read_text().split("@media screen and (prefers-color-scheme: dark)")
        return [dict(re.findall(r"--([a-z-]+): (#[0-9a-f]+);", part)) for part in (light, dark)]

    def test_contrast_in_light_and_dark(self):
        light, dark = self.palettes()
        self.assertEqual(set(light), set(dark))
        texts = [("ink", ("paper", "head", "set-off", "over-cell", "applied")), ("soft", ("paper",)), ("own", ("paper",)), ("lost-ink", ("lost-cell",))]
        lines = [(name, ("paper",)) for name in ("fibre", "over", "degraded", "applied-edge", "wrong", "edge", "cut", *CODES)]
        for palette in (light, dark):
            for pairs, least in ((texts, 4.5), (lines, 3)):
                for name, grounds in pairs:
                    for ground in grounds:
                        with self.subTest(name=name, ground=ground):
                            self.assertGreaterEqual(contrast(palette[name], palette[ground]), least)

    def test_no_colour_besides_the_palette(self):
        """So that nothing stays light in the dark."""
        for name in ("page.css", "drawing.css", "whatif.css", "spacetime.css", "signals.css"):
            style = (WEB / name).read_text()
            self.assertIsNone(re.search(r":[^;{}]*(#[0-9a-f]{3}|\brgb|\b(black|white)\b(?!-))", style), name)
            self.assertLessEqual(set(re.findall(r"var\(--([a-z-]+)\)", style)), set(self.palettes()[0]))

    def test_drawings_alone_need_no_palette(self):
        drawing = call("sdhring-view", "--svg", "1", *ring("span-cut")).stdout.decode()
        self.assertNotIn("var(", drawing)
        self.assertIn("stroke: " + self.palettes()[0]["own"], drawing)

    def test_the_documents_drawings_are_of_today(self):
        for name in ("span-cut", "node-cut-off"):
            drawn = call("sdhring-view", "--svg", "1", *ring(name)).stdout
            self.assertEqual((TOOLS.parent / "docs" / f"looking-{name}.svg").read_bytes(), drawn)

    def test_paper(self):
        page = page_of("span-cut")
        self.assertIn("size: A4 landscape", page)
        self.assertIn("@media print", page)

    def test_each_sheet_has_its_number_and_the_title(self):
        """Whatever the title has: it ends neither the string nor the style."""
        page = whole('A "ring"\\ </style>', joined([html("<p>words</p>")] * 400))
        self.assertIn("counter(page)", page)
        self.assertIn(r'@bottom-left { content: "A \22 ring\22 \5c  \3c /style>"; }', page)
        if PRINTS:
            sheets = printed(page).split("\f")[:-1]
            self.assertGreater(len(sheets), 1)
            for number, sheet in enumerate(sheets, 1):
                self.assertIn('A "ring"\\ </style>', sheet)
                self.assertRegex(sheet, rf"\b{number} / {len(sheets)}\b")

    def test_many_steps_are_in_groups(self):
        """Of more settle steps than a printed page is wide, each is in one table."""
        with tempfile.TemporaryDirectory() as folder:
            plan = Path(folder) / "plan.toml"
            plan.write_text(ring("healthy")[0].read_text().replace('script = ["settle"]', f"script = {['settle'] * 30}".replace("'", '"')))
            text = call("testing/standin", "run", input=plan.read_bytes()).stdout
            page = Seen(call("sdhring-view", plan, "-", input=text).stdout.decode())
        titles = [rows[0] for name, rows in page.tables if name.startswith("Customers after")]
        self.assertEqual([title for row in titles for title in row if title != "customer"], [f"step {number}" for number in range(1, 31)])
        self.assertLessEqual(max(map(len, titles)), 13)


class Manuals(unittest.TestCase):
    def test_each_option_is_told(self):
        for tool in ("sdhring-view", "sdhring-whatif"):
            manual = (TOOLS.parent / "docs" / f"{tool}.1").read_text().replace("\\-", "-")
            options = set(re.findall(r"--[a-z]+", call(tool, "--help").stdout.decode())) - {"--help", "--version"}
            self.assertEqual(set(re.findall(r"^\.TP\n\.(?:BI|B) (--[a-z]+)", manual, re.M)), options)
            synopsis = manual[manual.index(".SH SYNOPSIS"):manual.index(".SH DESCRIPTION")]
            self.assertEqual(set(re.findall(r"(?:\[|^\.B \S+) (--[a-z]+)", synopsis, re.M)), options)


@unittest.skipUnless(BROWSER, "there is no browser")
class Browser(unittest.TestCase):
    """Clicks and keys, at a phone's width."""

    def test_lighting_and_unfolding(self):
        told = browsed(page_of("end-of-waiting"), DEEDS)
        circuit = "circuit c1, 1 to 3, slot 1"
        self.assertEqual(told[:3], [f"c1|{circuit}", f"|{circuit}", f"c1|{circuit}"])
        self.assertEqual(told[3:6], ["c1|node 1"] * 3)  # reached by an arrow; Enter and the space bar leave the circuit lit
        self.assertRegex(told[6], r"^c1\|fibre \d → \d$")
        self.assertEqual((told[7].split("|")[0], told[8].split("|")[0], told[9:]), ("", "c1", [f"|{circuit}", "true", "true"]))


if __name__ == "__main__":
    unittest.main()
