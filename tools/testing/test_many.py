"""Several plans and folders of them, for each tool that reads plans, tables or texts."""

import csv
import io
import json
import tempfile
import unittest
from pathlib import Path

from common import STANDIN, bytes_of, call
from pages import Seen

NODES = "place\nA\nB\nC\nD\n"
CIRCUITS = "name,from,to\nfirst,A,C\n"
SPANS = "from,to,cuts,hours\nA,B,1,8\nB,C,1,8\nC,D,1,8\nD,A,1,8\n"


class Many(unittest.TestCase):
    def setUp(self):
        folder = tempfile.TemporaryDirectory()
        self.addCleanup(folder.cleanup)
        self.top = Path(folder.name)

    def call(self, tool, *words, wanted=0):
        ended = call(tool, *words, cwd=self.top)
        self.assertEqual(ended.returncode, wanted, ended.stderr.decode())
        return ended.stdout.decode(), ended.stderr.decode()

    def put(self, **files):
        """Files by their names, with `__` for the point."""
        (self.top / "rings").mkdir(exist_ok=True)
        for name, text in files.items():
            (self.top / "rings" / name.replace("__", ".")).write_text(text)

    def tables(self, *names):
        for name in names:
            self.put(**{f"{name}__circuits__csv": CIRCUITS, f"{name}__nodes__csv": NODES, f"{name}__spans__csv": SPANS})

    def test_from_a_folder_of_tables_to_availability(self):
        """As each ring by itself."""
        self.tables("north", "south")
        self.put(west__circuits__csv=CIRCUITS)
        _, said = self.call("sdhring-plan", "import", "rings", "--to", "rings", wanted=1)
        self.assertIn("rings/west.circuits.csv: its table of nodes is missing: --nodes NODES.csv, or west.nodes.csv beside it", said)
        alone, _ = self.call("sdhring-plan", "import", "rings/north.circuits.csv", "--nodes", "rings/north.nodes.csv")
        strip = lambda text: [line for line in text.splitlines() if not line.startswith("#   sdhring")]
        self.assertEqual(strip((self.top / "rings" / "north.toml").read_text()), strip(alone))
        self.assertFalse((self.top / "rings" / "west.toml").exists())
        rates = "place,failures,hours\nA,1,1\nB,1,1\nC,1,1\nD,1,1\n"
        self.put(south__nodes__csv=rates, north__nodes__csv=rates)
        found, _ = self.call("sdhring-availability", "rings", "--csv")
        rows = list(csv.DictReader(io.StringIO(found)))
        self.assertEqual([row["plan"] for row in rows], ["rings/north.toml"] * 3 + ["rings/south.toml"] * 3)
        one, _ = self.call("sdhring-availability", "rings/north.toml", "rings/north.spans.csv", "--nodes", "rings/north.nodes.csv", "--csv")
        self.assertEqual(list(csv.DictReader(io.StringIO(one))), rows[:3])
        text, _ = self.call("sdhring-availability", "rings/north.toml", "rings/south.toml")
        self.assertEqual([line for line in text.splitlines() if line.startswith("rings/")], ["rings/north.toml", "rings/south.toml"])

    def test_what_is_missing_or_does_not_go_together(self):
        self.tables("north")
        self.put(south__toml=bytes_of("healthy")[0].decode())
        for tool, words, status, said in (
            ("sdhring-availability", ("rings",), 1, "rings/south.toml: its table of spans is missing: south.spans.csv beside it, or SPANS.csv after it"),
            ("sdhring-availability", ("rings/north.toml", "rings/south.toml", "rings/north.spans.csv"), 2, "have their tables beside them"),
            ("sdhring-availability", ("rings", "--nodes", "rings/north.nodes.csv"), 2, "--nodes and --groups go with SPANS.csv"),
            ("sdhring-plan", ("import", "rings"), 2, "go with --to, which is a folder then"),
            ("sdhring-view", ("rings",), 2, "several plans, or a folder, go with --to"),
            ("sdhring-view", ("rings", "--to", "pages", "--svg", "1"), 2, "REPORT, --outages and --svg go without --to"),
            ("sdhring-explain", ("rings", "--status", "7"), 2, "TEXT, --name and --status go with one plan"),
            ("sdhring-report", ("rings", "--csv"), 1, "rings: no file .text is in this folder"),
        ):
            with self.subTest(words=words):
                self.assertIn(said, self.call(tool, *words, wanted=status)[1])

    def test_explained(self):
        self.put(bad__toml="rate = 5\n", good__toml=bytes_of("healthy")[0].decode())
        said, _ = self.call("sdhring-explain", "rings", wanted=6)
        self.assertIn("rings/bad.toml:1:8: bad plan", said)
        self.assertIn("rings/good.toml: a good plan", said)
        self.assertEqual(self.call("sdhring-explain", "rings/good.toml", "rings/good.toml")[0].count("a good plan"), 2)

    def test_drawn(self):
        self.put(bad__toml=bytes_of("healthy")[0].decode().replace("nodes", "nods"), good__toml=bytes_of("two-nodes")[0].decode())
        _, said = self.call("sdhring-view", "--to", "pages", "rings", "--program", STANDIN, wanted=1)
        self.assertIn("sdhring-view: rings/bad.toml: ", said)
        index = Seen((self.top / "pages" / "index.html").read_text())
        bad, good = index.table_named("Runs")
        self.assertIn("no page: ", bad["ended with"])
        self.assertEqual((good["plan"], good["reports"], good["lost in the last report"], good["ended with"]), ("good", "2", "0", "done"))
        self.assertEqual([link["href"] for link in index.all("a")], ["good.html"])
        alone, _ = self.call("sdhring-view", "rings/good.toml", "--program", STANDIN)
        shown = lambda text: Seen(text).table_named("Nodes")
        self.assertEqual(shown((self.top / "pages" / "good.html").read_text()), shown(alone))

    def test_reported(self):
        self.put(a__text=bytes_of("two-nodes")[1].decode(), b__text=bytes_of("healthy")[1].decode(), c__text="bad plan 24 at 2\n")
        table, said = self.call("sdhring-report", "--csv", "rings", wanted=6)
        rows = list(csv.DictReader(io.StringIO(table)))
        self.assertEqual(said, "sdhring-report: rings/c.text: bad plan 24 at 2\n")
        for name in ("a", "b"):
            alone = list(csv.DictReader(io.StringIO(self.call("sdhring-report", "--csv", f"rings/{name}.text")[0])))
            self.assertEqual([row for row in rows if row["text"] == f"rings/{name}.text"], [{"text": f"rings/{name}.text", **row} for row in alone])
        found = json.loads(self.call("sdhring-report", "--json", "rings", wanted=6)[0])
        self.assertEqual([(one["text"], one["status"]) for one in found], [("rings/a.text", 0), ("rings/b.text", 0), ("rings/c.text", 6)])


if __name__ == "__main__":
    unittest.main()
