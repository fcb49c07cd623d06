"""Which program answered, whether it is proved, and about which plan: what is said of it, and what is taken up again."""

import hashlib
import shlex
import stat
import tempfile
import unittest
from pathlib import Path

from cases import Asking
from common import STANDIN, bytes_of, call, copied_tools, ring
from pages import Seen

from ringtools import build, origin
from ringtools.build import BuildProblem, read_build, write_build
from ringtools.kept import read_answer
from ringtools.origin import CannotRun, find_program
from ringtools.progress import Progress, duration
from ringtools.programs import ask, held

LAUNCHER = """#!/bin/sh
case "$*" in
  --where) {where} ;;
  *) exec {runs} "$@" ;;
esac
"""
BUILD = """version 9.8.7
commit 0123456789abcdef0123456789abcdef01234567
kit kit-of-the-test logic 0123
program sdhring {sum} 89abcdef89abcdef89abcdef89abcdef89abcdef89abcdef89abcdef89abcdef
"""
VERSION = "sdhring 9.8.7, commit 0123456789ab, sources 89abcdef89ab"


def sum_of(data):
    return hashlib.sha256(data).hexdigest()


def executable(path, text):
    path.parent.mkdir(exist_ok=True)
    path.write_text(text)
    path.chmod(path.stat().st_mode | stat.S_IXUSR)
    return str(path)


class Launched(unittest.TestCase):
    """A launcher, which runs the stand-in as a program which the BUILD of the tools' own place names or not."""

    def setUp(self):
        folder = tempfile.TemporaryDirectory()
        self.addCleanup(folder.cleanup)
        self.top = Path(folder.name)
        self.tools = copied_tools(self.top / "place")
        for module in (build, origin):
            self.addCleanup(setattr, module, "HOME", module.HOME)
            module.HOME = self.top / "place"
        self.addCleanup(setattr, origin, "LAUNCHER", origin.LAUNCHER)
        origin.LAUNCHER = self.top / "place" / "sdhring"

    def launcher(self, recorded=True, where="echo {runs}", place="place"):
        runs = Path(executable(self.top / "programs" / "sdhring", f'#!/bin/sh\nexec {STANDIN} "$@"\n'))
        named = BUILD.format(sum=sum_of(runs.read_bytes()) if recorded else 64 * "0")
        (self.top / "place" / "dist" / "BUILD").write_text(named)
        return executable(self.top / place / "sdhring", LAUNCHER.format(where=where.format(runs=runs), runs=runs)), runs

    def test_proved_and_not_known(self):
        for recorded, version, proof in ((True, VERSION, "proved"), (False, "", "not known to be proved")):
            launcher, runs = self.launcher(recorded)
            with self.subTest(proof=proof):
                program = find_program([launcher])
                self.assertEqual((program.words, program.proof), ((str(runs),), proof))
                self.assertEqual((program.sum, program.version), (sum_of(runs.read_bytes()), version))
                self.assertEqual(find_program([str(runs)]), program)

    def test_a_record_of_its_own(self):
        """As --prove writes it, beside one program, where this place's own launcher chose that; and no other's."""
        launcher, runs = self.launcher(recorded=False)
        named = BUILD.format(sum=sum_of(runs.read_bytes()))
        runs.with_name("sdhring.BUILD").write_text(named)
        runs.with_name("BUILD").write_text(named)
        self.assertEqual(find_program([launcher]).proof, "proved")
        self.assertEqual(find_program([str(runs)]).proof, "not known to be proved")
        other, _ = self.launcher(recorded=False, place="elsewhere")
        self.assertEqual(find_program([other]).proof, "not known to be proved")
        runs.with_name("sdhring.BUILD").unlink()
        self.assertEqual(find_program([launcher]).proof, "not known to be proved")

    def test_what_was_summed_is_what_runs(self):
        """A program that is replaced while it is asked isn't run, and one that has begun to be asked goes on."""
        launcher, runs = self.launcher()
        program, plan = find_program([launcher]), ring("span-cut")[0].read_bytes()
        text, status = ask(program, ["run"], plan)
        self.assertEqual(status, 0)
        executable(runs, "#!/bin/sh\necho forged\n")
        self.assertEqual(ask(program, ["run"], plan), (text, 0))
        held.cache_clear()
        with self.assertRaisesRegex(CannotRun, "has changed since this run began"):
            ask(program, ["run"], plan)

    def test_a_changed_program_is_not_known(self):
        _, runs = self.launcher()
        runs.write_text(runs.read_text() + "# changed\n")
        self.assertEqual(find_program([str(runs)]).proof, "not known to be proved")

    def test_a_command_of_which_nothing_is_known(self):
        program = find_program(shlex.split(STANDIN))
        self.assertEqual((program.proof, program.version), ("not known to be proved", ""))
        self.assertNotEqual(program.sum, find_program([*shlex.split(STANDIN), "unsettled"]).sum)

    def test_a_launcher_that_has_no_program(self):
        launcher, _ = self.launcher(where="exit 83")
        with self.assertRaisesRegex(CannotRun, "ended with status 83, and has no program"):
            find_program([launcher])
        with self.assertRaises(CannotRun):
            ask(find_program(["/nowhere/sdhring"]), ["run"], b"")

    def page_of(self, launcher, *words, **more):
        ended = call(self.tools / "sdhring-view", *words, "--program", launcher, **more)
        self.assertEqual(ended.returncode, 0, ended.stderr.decode())
        return Seen(ended.stdout.decode()).text()

    def test_a_page_of_a_run(self):
        launcher, runs = self.launcher(recorded=False)
        plan = ring("span-cut")[0]
        text = self.page_of(launcher, plan)
        self.assertIn("It isn't known whether the program that answered is proved.", text)
        for told in (str(runs), sum_of(runs.read_bytes()), sum_of(plan.read_bytes()), str(plan)):
            self.assertIn(told, text)
        launcher, _ = self.launcher()
        text = self.page_of(launcher, "-", input=plan.read_bytes())
        self.assertNotIn("known whether", text)
        for told in ("Proved yes", VERSION, sum_of(plan.read_bytes())):
            self.assertIn(told, text)

    def test_a_page_and_a_table_of_cases(self):
        launcher, runs = self.launcher(recorded=False)
        words = [ring("two-nodes")[0], "--dir", self.top / "out", "--kinds", "span", "--program", launcher]
        ended = call(self.tools / "sdhring-whatif", *words)
        self.assertEqual(ended.returncode, 0, ended.stderr.decode())
        self.assertIn(f"the program {runs} is not known to be proved".encode(), ended.stderr)
        self.assertIn("It isn't known whether", Seen((self.top / "out" / "page.html").read_text()).text())
        self.launcher()
        self.assertNotIn(b"proved", call(self.tools / "sdhring-whatif", *words).stderr)
        self.assertIn("Proved yes", Seen((self.top / "out" / "page.html").read_text()).text())
        self.assertIn(f'{runs},proved,"{VERSION}",', (self.top / "out" / "table.csv").read_text())


class Builds(unittest.TestCase):
    def test_read_and_written(self):
        """BUILDs put one after the other are one again."""
        text = BUILD.format(sum=64 * "1")
        records = read_build(text + text.replace("9.8.7", "9.9.0").replace("sdhring", "sdhpath"))
        self.assertEqual([(record.name, record.version) for record in records], [("sdhring", "9.8.7"), ("sdhpath", "9.9.0")])
        self.assertEqual(read_build(write_build(records)), records)
        self.assertEqual(records[0].words(), VERSION)

    def test_what_is_none(self):
        text = BUILD.format(sum=64 * "1")
        for old, new, said in (("kit kit-of-the-test logic 0123\n", "", "line 3: no kit stands before"), ("program sdhring", "programs sdhring", "line 4: no record"), ("1111 89", "1111  89", "line 4: no record")):
            self.assertIn(old, text)
            with self.assertRaisesRegex(BuildProblem, said):
                read_build(text.replace(old, new))


class Texts(unittest.TestCase):
    """sdhring-view over a text that was written before."""

    def test_a_text_alone_names_no_program(self):
        plan, text = ring("span-cut")
        shown = Seen(call("sdhring-view", plan, text).stdout.decode()).text()
        self.assertIn("not known, since the program's text doesn't name it", shown)
        self.assertIn(sum_of(plan.read_bytes()), shown)

    def test_standard_input(self):
        plan, text = ring("span-cut")
        body = lambda ended: Seen(ended.stdout.decode()).text().split("Where this comes from")[0]
        whole = body(call("sdhring-view", plan, text))
        self.assertEqual(body(call("sdhring-view", plan, "-", input=text.read_bytes())), whole)
        self.assertEqual(body(call("sdhring-view", "-", text, input=plan.read_bytes())).replace("standard input", plan.name), whole)
        ended = call("sdhring-view", "-", "-", input=b"")
        self.assertEqual((ended.returncode, ended.stdout), (1, b""))
        self.assertIn(b"only one of PLAN, REPORT and the outages", ended.stderr)


class Answers(Asking):
    def setUp(self):
        super().setUp()
        self.plan.write_bytes(bytes_of("two-nodes")[0])

    def test_each_answer_and_row_tells_its_program(self):
        program = self.copy("first")
        self.ask("--kinds", "span", program=program)
        told = {"Program": program, "Proof": "not known to be proved", "Version": "not told"}
        told |= {"Sum": sum_of(Path(program).read_bytes()), "Plan": sum_of(self.plan.read_bytes())}
        for row in self.table():
            self.assertEqual({key: row[key] for key in told}, told)
        for path in self.cases().glob("*.answer"):
            answer = read_answer(path.read_bytes())
            self.assertEqual((answer.program, answer.sum), (program, told["Sum"]))
            self.assertRegex(answer.date, r"^\d{4}-\d\d-\d\dT\d\d:\d\d:\d\dZ$")
            self.assertEqual((answer.plan, answer.text), tuple(sum_of(path.with_suffix(kind).read_bytes()) for kind in (".toml", ".text")))
        for page in ("page.html", "cases/span-7-9.html"):
            self.assertIn(told["Sum"], self.page(page).text())
        self.assertIn("It isn't known whether the program that answered is proved.", self.words())

    def test_answers_of_another_program_are_run_again(self):
        first, second = self.copy("first"), self.copy("second")
        self.ask("--kinds", "span", program=first)
        before = self.times()
        self.assertNotIn(b"run again", self.ask("--kinds", "span", program=first).stderr)
        self.assertEqual(self.times(), before)
        self.assertIn(b"2 of 2 kept answers are another program's, and are run again", self.ask("--kinds", "span", program=second).stderr)
        self.assertTrue(all(self.times()[name] > then for name, then in before.items()))
        self.assertEqual({row["Program"] for row in self.table()}, {second})

    def test_a_program_that_changes_is_another(self):
        program = self.copy("first")
        self.ask("--kinds", "span", program=program)
        with open(program, "a") as file:
            file.write("# changed\n")
        self.assertIn(b"are run again", self.ask("--kinds", "span", program=program).stderr)

    def test_what_was_changed_or_is_older_is_run_again(self):
        """A text that isn't the one that was answered, and files that tell no program."""
        self.ask("--kinds", "span")
        before, cases = self.times(), self.cases()
        (cases / "span-7-9.text").write_text("done\n")
        (cases / "span-9-7.answer").write_text("0\n")
        self.ask("--kinds", "span")
        again = {name for name, then in self.times().items() if then != before[name]}
        self.assertEqual(again, {"span-7-9.answer", "span-9-7.answer"})

    def test_view_reads_the_answer_beside_a_text(self):
        self.ask("--kinds", "span")
        words = [self.cases() / f"span-7-9.{kind}" for kind in ("toml", "text")]
        self.assertIn("standin", Seen(call("sdhring-view", *words).stdout.decode()).text())
        words[0].write_bytes(words[0].read_bytes() + b"# changed\n")
        self.assertIn("not known, since", Seen(call("sdhring-view", *words).stdout.decode()).text())

    def test_warnings(self):
        self.assertIn(b"is not known to be proved", self.ask("--kinds", "span").stderr)


class Times(unittest.TestCase):
    def test_durations(self):
        wanted = {0: "0 s", 59.4: "59 s", 59.6: "1 min", 90: "2 min", 3569: "59 min", 3570: "1 h 0 min", 9672: "2 h 41 min", 100_000: "27 h 47 min"}
        self.assertEqual({seconds: duration(seconds) for seconds in wanted}, wanted)

    def test_progress(self):
        """By what was expected before the first case ended; by the cases that ran after that."""
        progress = Progress(10, 2, 7200)
        self.assertEqual(progress.line(60), "2 of 10 cases, 1 min gone, about 1 h 59 min left")
        self.assertEqual(progress.line(8000), "2 of 10 cases, 2 h 13 min gone, longer than was expected")
        progress.done = 4
        self.assertEqual(progress.line(60), "4 of 10 cases, 1 min gone, about 3 min left")
        progress.jobs = 4
        self.assertEqual(progress.line(60), "4 of 10 cases, 1 min gone, about 1 min left")
        progress.done = 9
        self.assertEqual(progress.line(70), "9 of 10 cases, 1 min gone, about 10 s left")
        progress.done = 10
        self.assertEqual(progress.line(60), "10 of 10 cases, 1 min gone")
        self.assertEqual(Progress(10, 0).line(5), "0 of 10 cases, 5 s gone")


if __name__ == "__main__":
    unittest.main()
