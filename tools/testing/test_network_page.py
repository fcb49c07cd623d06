"""The page of a network: what it says after clicks, held against what sdhring-network says of the same failures; and what it needs."""

import csv
import json
import random
import re
import shutil
import tempfile
import unittest
from functools import cache
from pathlib import Path

from common import TOOLS, call
from networks import Network
from pages import BROWSER, Seen, browsed

EXAMPLE = TOOLS.parent / "examples" / "network"
# Makes the failures of each case fail by clicks in the drawing, or by the list, and says what the page says then.
CLICKS = """
const told = [], by = (id) => document.getElementById(id);
const data = JSON.parse(by("data").textContent), numbers = Object.fromEntries(data.failures.map(([name], i) => [name, i]));
const press = (name) => {
  const item = document.querySelector(`#network [data-failure="${numbers[name]}"]`);
  if (item) return item.dispatchEvent(new MouseEvent("click", { bubbles: true }));
  by("choose").value = numbers[name];
  by("choose").dispatchEvent(new Event("change"));
};
for (const names of CASES) {
  by("clear").click();
  for (const name of names) press(name);
  const rows = [...document.querySelectorAll("#customers tr[data-customer]")];
  told.push(rows.map((row) => [row.cells[0].textContent, row.querySelector(".now").textContent, row.querySelector(".breaks").textContent].join("|")).join("#"));
}
"""


@cache
def made():
    """The example's network and pages, in a folder that stays until the tests end."""
    folder = tempfile.TemporaryDirectory()
    top = Path(folder.name)
    for words in (("import", EXAMPLE, "--to", top / "net"), ("page", top / "net", "--to", top / "pages", "--cuts-per-1000-km", "2", "--title", "Hamburg <to> München")):
        ended = call("sdhring-network", *words)
        assert ended.returncode == 0, ended.stderr.decode()
    return folder, top


def index():
    return (made()[1] / "pages" / "index.html").read_text(encoding="utf-8")


def names_of(case):
    """The failures of a case as the page has them, which is as the tool has them."""
    return "; ".join(case)


class Page(unittest.TestCase):
    def test_what_is_in_the_tables(self):
        seen = Seen(index())
        self.assertIn("Hamburg <to> München", seen.text())
        rows = {row["customer"]: row for row in seen.table_named("Customers, and")}
        self.assertEqual((rows["bank"]["rings"], rows["bank"]["groups"], rows["bank"]["places besides its ends"]), ("North, Middle, South", "1", "2"))
        self.assertEqual(rows["rail"]["groups"], "0")
        group = seen.table_named("Shared-risk groups")[0]
        self.assertEqual((group["failure"], group["lost"], group["customers that are lost"]), ("group Leine bridge", "3", "bank, press-1, press-2"))
        self.assertIn("Spans, one alone : customers are lost in none.", seen.text())
        self.assertEqual([link["href"] for link in seen.all("a") if link["href"].endswith(".html")][-3:], ["north.html", "middle.html", "south.html"])

    def test_minutes_are_those_of_the_tool(self):
        ended = call("sdhring-network", "availability", made()[1] / "net", "--cuts-per-1000-km", "2", "--json")
        rows = {row["customer"]: row for row in Seen(index()).table_named("Customers, and")}
        for record in json.loads(ended.stdout):
            self.assertAlmostEqual(float(rows[record["customer"]]["min/year"]), record["minutes"], delta=record["minutes"] / 1000)

    def test_each_ring_has_its_own_desk_with_the_groups_that_touch_it(self):
        for name, words in (("north", "group Leine bridge (span Bremen–Hannover, span Hannover–Berlin)"), ("middle", "group Leine bridge (span Hannover–Kassel)")):
            desk = (made()[1] / "pages" / f"{name}.html").read_text(encoding="utf-8")
            self.assertIn(words, Seen(desk).text().replace("\u2060", ""))
            self.assertIn("min/year", desk)
        self.assertNotIn("Leine bridge", (made()[1] / "pages" / "south.html").read_text(encoding="utf-8"))

    def test_no_ring_s_page_stands_in_place_of_the_network_s(self):
        with tempfile.TemporaryDirectory() as name:
            folder = Path(name)
            shutil.copytree(EXAMPLE, folder / "tables")
            for table in ("rings", "spans"):
                file = folder / "tables" / f"{table}.csv"
                file.write_text(file.read_text(encoding="utf-8").replace("North", "Index"), encoding="utf-8")
            self.assertEqual(call("sdhring-network", "import", "tables", "--to", "net", cwd=folder).returncode, 0)
            self.assertEqual(sorted(path.name for path in (folder / "net" / "rings").iterdir()), ["index-2.toml", "middle.toml", "south.toml"])
            ended = call("sdhring-network", "page", "net", "--cuts-per-1000-km", "2", "--to", "pages", cwd=folder)
            self.assertEqual((ended.returncode, sorted(path.name for path in (folder / "pages").iterdir())), (0, ["index-2.html", "index.html", "middle.html", "south.html"]))
            self.assertIn('id="network"', (folder / "pages" / "index.html").read_text(encoding="utf-8"))
            (folder / "net" / "rings" / "index-2.toml").rename(folder / "net" / "rings" / "index.toml")
            document = folder / "net" / "network.toml"
            document.write_text(document.read_text(encoding="utf-8").replace("index-2", "index"), encoding="utf-8")
            ended = call("sdhring-network", "page", "net", "--to", "more", cwd=folder)
            said = "ring 1: the page of the plan `rings/index.toml` would stand in place of the network's own, index.html; give that plan another name"
            self.assertEqual((ended.returncode, said in ended.stderr.decode(), (folder / "more").exists()), (1, True, False))

    def test_the_pages_need_nothing_else(self):
        self.assertEqual(re.findall(r"""(?:src|href)=["']?(?!#|north|middle|south)[^"']+""", index()), [])
        self.assertNotRegex(index(), r"https?://(?!www\.w3\.org)")
        self.assertNotRegex(index(), r"\son[a-z]+=")

    def test_rings_touch_where_they_share_a_place(self):
        """A place is drawn once, and each span ends at its two places."""
        at = {title: (x, y) for title, x, y in re.findall(r'<title>place ([^<]+)</title><circle class="hit" cx="([^"]+)" cy="([^"]+)"', index())}
        self.assertEqual(len(at), 10)
        for one, other, path in re.findall(r'<title>span ([^–<]+)–([^<]+) in \w+</title><path class="hit" d="([^"]+)"', index()):
            numbers = re.findall(r"-?[0-9.]+", path)
            self.assertEqual((tuple(numbers[:2]), tuple(numbers[-2:])), (at[one], at[other]))

    @unittest.skipUnless(BROWSER, "there is no chromium")
    def test_clicks_say_what_the_tool_says(self):
        """The group that each ring alone calls safe, a case in three rings, and cases by chance."""
        network = Network(made()[1] / "net")
        names, chance = sorted(network.components(("span", "place", "group"))), random.Random(4)
        cases = [["group Leine bridge"], ["span Hamburg–Bremen in North", "place Kassel", "span München–Nürnberg in South"]]
        cases += [chance.sample(names, chance.randint(1, 2)) for _ in range(14)]
        said = browsed(index(), CLICKS.replace("CASES", json.dumps(cases)))
        self.assertEqual(len(said), len(cases))
        lost = 0
        for case, line in zip(cases, said):
            ended = call("sdhring-network", "whatif", made()[1] / "net", "--case", names_of(case))
            wanted = {}
            for row in ended.stdout.decode().splitlines()[1:]:
                _, customer, fate, ring, one, other = row.split(",")[-6:]
                wanted.setdefault(customer, (fate, []))[1].append(f"{ring} {one}–{other}")
            for words in line.split("#"):
                customer, now, breaks = words.split("|")
                fate, sections = wanted.get(customer, ("kept", []))
                self.assertEqual(now, {"over": "over protection"}.get(fate, fate), (case, customer))
                self.assertEqual(breaks, "; ".join(sections) if fate == "lost" else "", (case, customer))
                lost += fate == "lost"
        self.assertGreater(lost, 8)

    @unittest.skipUnless(BROWSER, "there is no chromium")
    def test_a_third_failure_in_one_ring_takes_the_first_away(self):
        deeds = """
const told = [], spans = [...document.querySelectorAll("#network .span")];
for (const item of spans.slice(0, 3)) item.dispatchEvent(new MouseEvent("click", { bubbles: true }));
told.push(document.getElementById("told").textContent);
spans[0].dispatchEvent(new KeyboardEvent("keydown", { key: "Enter", bubbles: true }));
told.push(document.getElementById("failed").textContent);
document.getElementById("filter").value = "press";
document.getElementById("filter").dispatchEvent(new Event("input"));
told.push([...document.querySelectorAll("#customers tbody tr")].filter((row) => !row.hidden).map((row) => row.cells[0].textContent).join());
document.querySelector("#customers tbody .name button").click();
told.push(String(document.querySelectorAll("#network .on-way").length));
"""
        third, keys, filtered, way = browsed(index(), deeds)
        self.assertTrue(third.startswith("span Bremen–Hannover in North and span Hannover–Berlin in North. 3 lost: bank, press-1, press-2."), third)
        self.assertEqual(keys, "span Hannover–Berlin in North ✕span Hamburg–Bremen in North ✕")
        self.assertEqual((filtered, int(way) > 2), ("press-1,press-2", True))


class Hostile(unittest.TestCase):
    """Names that would be markup, script, style, or a spreadsheet's formula."""

    NAMES = ("</script><img src=x onerror=alert(1)>", "\"><svg/onload=alert(2)>", "=HYPERLINK(0)", "x'+alert(3)+'", "</title></style><b>x", "{{7*7}}", "&lt<i>")

    def test_names_are_texts(self):
        names = self.NAMES
        with tempfile.TemporaryDirectory() as place:
            top = Path(place)
            rows = lambda *lines: "".join(",".join('"' + cell.replace('"', '""') + '"' for cell in line) + "\n" for line in lines)
            (top / "rings.csv").write_text(rows(("ring", "rate", "places"), (names[0], "4", "; ".join(names[:3])), (names[4], "4", f"{names[2]}; {names[3]}")))
            (top / "circuits.csv").write_text(rows(("name", "from", "to"), (names[2], names[0], names[3]), (names[5], names[1], names[2])))
            (top / "groups.csv").write_text(rows(("group", "members"), (names[6], f"place {names[1]}; place {names[3]}")))
            for words in (("import", top, "--to", top / "net"), ("page", top / "net", "--to", top / "pages", "--title", names[4]), ("whatif", top / "net", "--dir", top / "out")):
                ended = call("sdhring-network", *words)
                self.assertEqual(ended.returncode, 0, ended.stderr.decode())
            for page in (top / "pages").iterdir():
                markup = page.read_text(encoding="utf-8")
                seen = Seen(markup)
                self.assertEqual(seen.all("img") + [one for one in seen.all("svg") if "onload" in one] + seen.all("b"), [], page.name)
                self.assertEqual(sum(tag == "script" for tag, _ in seen.elements), 4)  # the common one, two of the page, and its data
                self.assertEqual([key for _, found in seen.elements for key in found if key.startswith("on")], [])
            for table in (top / "out").glob("*.csv"):
                for row in csv.reader(table.read_text(encoding="utf-8").splitlines()):
                    self.assertEqual([cell for cell in row if cell.startswith("=")], [], table.name)


if __name__ == "__main__":
    unittest.main()
