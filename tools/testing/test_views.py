"""Two views for writing into one frame at once don't compile."""

import shutil
import subprocess
import tempfile
import unittest
from pathlib import Path

CRATES = Path(__file__).resolve().parents[2] / "crates"
# The crates of frames, each with those that it stands on, and the tests.
LAYER = {
    "sdh_basics": [],
    "sdh_ringmap": ["arrayvec", "thiserror"],
    "sdh_frame": ["sdh_basics", "sdh_ringmap"],
    "test_frames": ["sdh_frame", "sdh_ringmap"],
}
AFTER = "    second.set_payload(0, 7);\n"


def tried(tests):
    """What `rt` says of these tests of frames, before any proof."""
    with tempfile.TemporaryDirectory() as folder:
        root = Path(folder)
        (root / "crates.txt").write_text("".join(f"{name}: {' '.join(below)}\n" for name, below in LAYER.items()))
        for name in list(LAYER)[:-1]:
            shutil.copytree(CRATES / name, root / "crates" / name, ignore=shutil.ignore_patterns("out"))
        crate = root / "crates" / "test_frames"
        (crate / "src").mkdir(parents=True)
        (crate / "src" / "lib.rt").write_text("#![tactic(auto)]\n\n#[cfg(test)]\nmod frames;\n")
        (crate / "src" / "frames.rt").write_text(tests)
        ended = subprocess.run(["rt", "try", "--test"], cwd=crate, capture_output=True, text=True)
        return ended.returncode, ended.stdout + ended.stderr


@unittest.skipUnless(shutil.which("rt"), "there is no rt")
class Views(unittest.TestCase):
    def test_two_views_for_writing_at_once(self):
        tests = (CRATES / "test_parts" / "src" / "frames.rt").read_text()
        self.assertEqual(tests.count(AFTER), 1)
        status, said = tried(tests.replace(AFTER, AFTER + "    first.set_pointer(1, 0);\n"))
        self.assertNotEqual(status, 0)
        self.assertIn("cannot borrow `*frame` as mutable more than once at a time", said)


if __name__ == "__main__":
    unittest.main()
