"""The plain simulation of who says what (bench/aps), held against rows that were worked out by hand."""

import sys
import tomllib
import unittest

from common import TOOLS

from ringtools.rows import read_rows

SIGNALS = TOOLS / "testing" / "signals"
sys.path.insert(0, str(TOOLS.parent / "bench" / "aps"))

import signalled  # noqa: E402
from test_frames import by_hand  # noqa: E402


class Rows(unittest.TestCase):
    def test_the_simulation_agrees_with_what_was_worked_out_by_hand(self):
        for row in read_rows(SIGNALS):
            if row.status in (0, 7, 15) and row.words[0] in (b"run", b"node"):
                with self.subTest(row=row.name):
                    only = int(row.words[1]) if row.words[1:] else None
                    self.assertEqual(signalled.run(tomllib.loads(row.given.decode()), only), (row.status, row.text.decode()))

    def test_frames(self):
        """The row's frames are those by hand; the healthy ring of these and the row's plan differ in rounds after them alone."""
        for row in read_rows(SIGNALS):
            if row.status in (0, 15, 16) and row.words[0] == b"frames":
                with self.subTest(row=row.name):
                    _, node, side, first, count = (word.decode() for word in row.words)
                    made = signalled.sent(tomllib.loads(row.given.decode()), int(node), side, int(first), int(count))
                    self.assertEqual(made, (row.status, row.text))
        (row,) = (row for row in read_rows(SIGNALS) if row.name == "frames")
        self.assertEqual(b"".join(by_hand()), row.text)

    def test_no_text_is_forgotten(self):
        table = (SIGNALS / "rows.md").read_text()
        self.assertEqual({path.name for path in SIGNALS.glob("*.text") if f"| {path.name} |" not in table}, set())
        self.assertEqual({row.status for row in read_rows(SIGNALS)}, {0, 2, 3, 4, 5, 6, 7, 9, 15, 16})


if __name__ == "__main__":
    unittest.main()
