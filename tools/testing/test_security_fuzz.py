"""A sample of bench/hostile/fuzz: no reader of the tools raises what no tool tells, takes long, or writes a file."""

import os
import subprocess
import unittest

from common import TOOLS

COUNT = 2000


class Fuzz(unittest.TestCase):
    def test_a_sample(self):
        command = TOOLS.parent / "bench" / "hostile" / "fuzz"
        if not command.is_file():
            self.skipTest("a release has no bench")
        ended = subprocess.run([command, str(COUNT), "7", "2"], capture_output=True, text=True, env=os.environ)
        self.assertEqual(ended.returncode, 0, ended.stdout + ended.stderr)
        self.assertIn(f"{COUNT} inputs, 0 wrong", ended.stdout)


if __name__ == "__main__":
    unittest.main()
