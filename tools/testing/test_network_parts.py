"""A network in parts: the same bytes whoever ran which part, and a part that failed is run again alone."""

import os
import shlex
import shutil
import tempfile
import unittest
from pathlib import Path

import slurm
from common import TOOLS, call, call_without_processes

EXAMPLE = TOOLS.parent / "examples" / "network"
TABLES = ("summary.csv", "customers.csv", "singles.csv", "doubles.csv", "lost.csv")
TELLER = shlex.quote(str(TOOLS.parent / "dist" / "sdhwhatif"))


class Parts(unittest.TestCase):
    def setUp(self):
        folder = tempfile.TemporaryDirectory()
        self.addCleanup(folder.cleanup)
        self.top = Path(folder.name)
        self.call("import", EXAMPLE, "--to", "net")
        self.call("whatif", "net", "--dir", "whole", "--jobs", "1")

    def call(self, *words, wanted=0, **more):
        ended = call("sdhring-network", *words, cwd=self.top, **more)
        self.assertEqual(ended.returncode, wanted, ended.stderr.decode())
        return ended.stdout.decode(), ended.stderr.decode()

    def check(self, name):
        """The tables of this folder are those of the whole, to the byte."""
        for table in TABLES:
            self.assertEqual((self.top / name / table).read_bytes(), (self.top / "whole" / table).read_bytes(), table)

    def times(self, name):
        return {path.name: path.stat().st_mtime_ns for path in (self.top / name / "parts").iterdir()}

    def test_any_number_of_parts_and_of_jobs(self):
        for parts, jobs in ((1, 1), (2, 2), (3, 3), (7, 2)):
            self.call("whatif", "net", "--dir", f"p{parts}", "--parts", parts, "--jobs", jobs)
            self.check(f"p{parts}")
        self.call("whatif", "net", "--dir", "jobs", "--jobs", "3")
        self.check("jobs")

    def test_without_processes_rings_are_asked_one_after_the_other(self):
        ended = call_without_processes("sdhring-network", "whatif", "net", "--dir", "alone", "--jobs", "3", cwd=self.top)
        self.assertEqual(ended.returncode, 0, ended.stderr.decode())
        self.check("alone")

    def test_a_missing_part_is_run_alone(self):
        self.call("whatif", "net", "--dir", "p", "--parts", 3)
        before = self.times("p")
        (self.top / "p" / "parts" / "part-2-of-3.json").unlink()
        _, said = self.call("whatif", "net", "--dir", "p", "--parts", 3)
        self.assertIn("2 of 3 parts are kept from an earlier run", said)
        after = self.times("p")
        self.assertEqual([name for name in before if before[name] != after[name]], ["part-2-of-3.json"])
        self.check("p")

    def test_parts_by_hand_in_any_order(self):
        for number in (3, 1, 2):
            self.call("whatif", "net", "--dir", "p", "--part", f"{number}/3")
        before = self.times("p")
        self.call("whatif", "net", "--dir", "p", "--parts", 3, "--teller", TELLER)
        self.assertEqual(self.times("p"), before)
        self.check("p")

    def test_what_nobody_here_wrote_does_not_count(self):
        """A part that is changed, one of another question, and one of other plans are all run again."""
        self.call("whatif", "net", "--dir", "p", "--parts", 3)
        part = self.top / "p" / "parts" / "part-1-of-3.json"
        part.write_text(part.read_text().replace('"place Hamburg",[2],[0,3]', '"place Hamburg",[0],[]'))
        _, said = self.call("whatif", "net", "--dir", "p", "--parts", 3)
        self.assertIn("2 of 3 parts are kept", said)
        self.check("p")
        _, said = self.call("whatif", "net", "--dir", "p", "--parts", 3, "--kinds", "span")
        self.assertNotIn("are kept", said)
        plan = self.top / "net" / "rings" / "south.toml"
        plan.write_text(plan.read_text().replace("wait = 10", "wait = 11"))
        _, said = self.call("whatif", "net", "--dir", "p", "--parts", 3, "--kinds", "span")
        self.assertNotIn("are kept", said)

    def test_a_part_that_fails_does_not_stop_the_others(self):
        """A program that fails for the ring with Nürnberg until it is told not to."""
        script = self.top / "teller"
        script.write_text(f'#!/bin/sh\nplan=$(mktemp)\ncat > "$plan"\nif [ ! -e "{self.top}/well" ] && grep -q "is N.*rnberg" "$plan"; then rm "$plan"; exit 3; fi\n{TELLER} "$@" < "$plan"\nstatus=$?\nrm "$plan"\nexit $status\n')
        script.chmod(0o755)
        _, said = self.call("whatif", "net", "--dir", "p", "--parts", 3, "--teller", script, wanted=1)
        self.assertRegex(said, "part [23] of 3: rings/south.toml: .* writes no table: status 3")
        self.assertRegex(said, r"[12] of 3 parts failed: [23](, 3)?; the same command runs these alone again")
        before = self.times("p")
        (self.top / "well").touch()
        self.call("whatif", "net", "--dir", "p", "--parts", 3, "--teller", script)
        after = self.times("p")
        self.assertTrue(before and all(after[name] == time for name, time in before.items()))
        self.check("p")

    @unittest.skipUnless(shutil.which("parallel"), "there is no GNU parallel")
    def test_over_machines_by_gnu_parallel(self):
        self.call("whatif", "net", "--dir", "p", "--parts", 3, "--sshlogin", ":")
        self.check("p")
        before = self.times("p")
        (self.top / "p" / "parts" / "part-3-of-3.json").unlink()
        self.call("whatif", "net", "--dir", "p", "--parts", 3, "--sshlogin", ":")
        self.assertEqual([name for name, time in self.times("p").items() if before[name] != time], ["part-3-of-3.json"])
        self.check("p")


@unittest.skipUnless(slurm.IS_THERE, "there is no Slurm, or this isn't root")
class ByArrayJobs(Parts):
    """The same by an array job, over a cluster of this one machine."""

    def setUp(self):
        super().setUp()
        place = tempfile.TemporaryDirectory()
        self.addCleanup(place.cleanup)
        cluster = slurm.Cluster(place.name)
        self.addCleanup(cluster.end)
        self.assertTrue(cluster.start(), "Slurm doesn't come up on this machine")
        self.environment = cluster.environment

    def test_an_array_job(self):
        self.call("whatif", "net", "--dir", "p", "--parts", 3, "--slurm", env=self.environment)
        self.check("p")
        self.assertEqual(sorted(os.listdir(self.top / "p")), sorted([*TABLES, "parts"]))
        before = self.times("p")
        (self.top / "p" / "parts" / "part-1-of-3.json").unlink()
        self.call("whatif", "net", "--dir", "p", "--parts", 3, "--slurm=--time=5", env=self.environment)
        self.assertEqual([name for name, time in self.times("p").items() if before[name] != time], ["part-1-of-3.json"])
        self.check("p")


for name in [name for name in dir(Parts) if name.startswith("test_")]:
    setattr(ByArrayJobs, name, None)  # these need no cluster


if __name__ == "__main__":
    unittest.main()
