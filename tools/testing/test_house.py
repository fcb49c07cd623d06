"""References to crates, files and definitions in comments of sources and in documents, man pages, the list of what is trusted, and markup in tools."""
import ast
import re
import unittest
from pathlib import Path

TOP = Path(__file__).resolve().parents[2]
CRATES = TOP / "crates"

# a file of specs or proofs, with its crate where that isn't the comment's own
FILE = re.compile(r"`(?:crates/)?(?:(sdh\w*)/)?((?:specs|proofs|src)/[\w/.]+)`")
# a definition and where it is said to be
PLACED = re.compile(r"`(\w+)` in `(?:crates/)?(?:(sdh\w*)/?)?((?:specs/[\w/.]+)?)`")
# a crate
CRATE = re.compile(r"`(sdh_\w+)`")


def crate_lines():
    """The crates of crates.txt, each with what it stands on."""
    found = {}
    for line in (TOP / "crates.txt").read_text().splitlines():
        match = re.match(r"([a-z][a-z0-9_]*)(?: staticlib)?:(.*)", line)
        if match:
            found[match.group(1)] = match.group(2).split()
    return found


def comments(path):
    """The text of a source's comments, one string for each run of lines."""
    runs, run = [], []
    for line in path.read_text().splitlines():
        match = re.match(r"\s*(?://[/!]?|--) ?(.*)", line)
        if match:
            run.append(match.group(1))
        elif run:
            runs.append(" ".join(run))
            run = []
    return runs + ([" ".join(run)] if run else [])


def texts_of_sources():
    """Each comment of the crates' sources and definitions, with its file and its crate."""
    for path in sorted(CRATES.glob("*/*/**/*")):
        if path.suffix in (".rt", ".antt") and path.parts[len(CRATES.parts) + 1] in ("src", "specs", "proofs"):
            for text in comments(path):
                yield path, path.parts[len(CRATES.parts)], text


def texts_of_documents():
    """Each document, with its text in one line; no document stands in a crate."""
    for path in sorted([*TOP.glob("*.md"), *TOP.glob("docs/*.md")]):
        yield path, None, " ".join(path.read_text().split())


def file_in(crate, name):
    """The file of a crate that a reference names, with or without its suffix; or None."""
    for place in (CRATES / crate / name, CRATES / crate / (name + ".antt"), CRATES / crate / (name + ".rt")):
        if place.exists():
            return place
    return None


def defines(place, word):
    """Whether a file, or a file below a folder, has the word at a place where it may be defined."""
    files = [place] if place.is_file() else [p for p in place.rglob("*") if p.suffix in (".rt", ".antt") and "out" not in p.parts]
    line = re.compile(
        rf"^\s*(?:pub )?(?:(?:abbrev|unfoldable|record|data|fn|struct|enum|trait|mod|const|static|unsafe)\s+)*(?:pub )?{re.escape(word)}\b",
        re.M)
    return any(line.search(path.read_text()) for path in files)


class References(unittest.TestCase):
    def dead(self, texts):
        crates = crate_lines()
        for path, own, text in texts:
            where = str(path.relative_to(TOP))
            for crate, name in FILE.findall(text):
                home = crate or own
                if home and (home not in crates or file_in(home, name.rstrip("."))is None):
                    yield f"{where}: no file {home}/{name}"
            for crate in CRATE.findall(text):
                if crate not in crates and not (path.suffix == ".rt" and defines(CRATES / own, crate)):
                    yield f"{where}: no crate {crate}"
            for word, crate, name in PLACED.findall(text):
                home = crate or own
                if not home or home not in crates or not (crate or name):
                    continue
                place = file_in(home, name) if name else CRATES / home
                if place is None or not defines(place, word):
                    yield f"{where}: no {word} in {home}/{name}"

    def test_comments_name_what_is_there(self):
        self.assertEqual(sorted(set(self.dead(texts_of_sources()))), [])

    def test_documents_name_what_is_there(self):
        self.assertEqual(sorted(set(self.dead(texts_of_documents()))), [])

    def test_a_dead_reference_is_found(self):
        texts = [
            (TOP / "docs" / "X.md", "sdh_ring", "`specs/Nothing.antt`"),
            (TOP / "docs" / "X.md", "sdh_ring", "`sdh_nowhere`"),
            (TOP / "docs" / "X.md", "sdh_ring", "`NoSuchThing` in `sdh_ring`"),
        ]
        self.assertEqual(len(list(self.dead(texts))), 3)


class Manuals(unittest.TestCase):
    def test_no_line_is_taken_for_a_macro_that_is_none(self):
        """A line that begins with a point is a macro, and an unknown one isn't shown: a command begins with `\\&`."""
        for path in sorted(TOP.glob("docs/*.1")):
            self.assertEqual(re.findall(r"^[.'](?!\\\"|[A-Za-z]{1,2}(?![\w-])).*", path.read_text(), re.M), [], path.name)


class Options(unittest.TestCase):
    def test_each_option_of_a_tool_is_in_its_man_page_and_in_completion(self):
        completed = (TOP / "tools" / "completion.bash").read_text()
        for tool in sorted(TOP.glob("tools/sdhring-*")):
            module = TOP / "tools" / "ringtools" / tool.name.removeprefix("sdhring-") / "command.py"  # of a tool that is a package
            text = tool.read_text() + (module.read_text(encoding="utf-8") if module.is_file() else "")
            options = set(re.findall(r'add_argument\(\s*"(--[a-z0-9-]+)"', text)) | {"--help", "--version"}
            manual = (TOP / "docs" / f"{tool.name}.1").read_text().replace("\\-", "-")
            words = re.search(rf"{tool.name}\) words='([^']*)'", completed)[1].split()
            self.assertEqual({word for word in words if word.startswith("--")}, options, tool.name)
            self.assertEqual({option for option in options if option not in manual}, set(), tool.name)


class Trusted(unittest.TestCase):
    def test_the_list_of_trusted_crates_is_that_of_crates_txt(self):
        crates = crate_lines()
        outside = {name for below in crates.values() for name in below} - set(crates)
        proved = (TOP / "docs" / "PROVED.md").read_text()
        section = proved[proved.index("## What is trusted"):]
        listed = set(re.findall(r"`(\w+)`", section[:section.index("are the edge")])) - {"StdSource", "StdSink", "main"}
        self.assertEqual(listed, outside)



def below(crates: dict[str, list[str]], crate: str) -> set[str]:
    """Returns the crates on which a crate stands, directly or by others."""
    found: set[str] = set()
    left = [crate]
    while left:
        for name in crates.get(left.pop(), []):
            if name not in found:
                found.add(name)
                left.append(name)
    return found


class Layers(unittest.TestCase):
    def test_a_ring_stands_on_no_plan_report_or_program(self) -> None:
        above = {"sdh_plan", "sdh_report", "sdh_promise", "sdh_outside", "sdh_shell", "sdh_scripts", "sdh_programs"}
        self.assertEqual(below(crate_lines(), "sdh_ring") & above, set())

    def test_scripts_stand_on_no_call_of_a_program(self) -> None:
        self.assertEqual(below(crate_lines(), "sdh_scripts") & {"sdh_shell", "sdh_programs"}, set())

    def test_an_edge_by_another_crate_is_seen(self) -> None:
        self.assertEqual(below({"a": ["b"], "b": ["c"], "c": []}, "a"), {"b", "c"})


TAG = re.compile(r"</?[a-z][a-z0-9]*[\s/>]|<!DOCTYPE|&#?[a-z0-9]+;")  # as it stands in a page
ESCAPING, PAGES = "escaping.py", "markup.py"  # the module in which texts become markup, and that which puts pages together


def texts_beside_markup(tree: ast.Module) -> dict[int, str]:
    """Returns the texts of a module that aren't forms of `html` and document nothing, by their nodes."""
    apart = {id(call.args[0]) for call in calls_of(tree, "html") if call.args}
    apart |= {id(node.value) for node in ast.walk(tree) if isinstance(node, ast.Expr)}
    return {id(node): node.value for node in ast.walk(tree) if isinstance(node, ast.Constant) and isinstance(node.value, str) and id(node) not in apart}


def calls_of(tree: ast.Module, name: str) -> list[ast.Call]:
    return [node for node in ast.walk(tree) if isinstance(node, ast.Call) and isinstance(node.func, ast.Name) and node.func.id == name]


def imported(tree: ast.Module) -> set[str]:
    """Returns what a module imports, each as `module.name`."""
    found = {alias.name for node in ast.walk(tree) if isinstance(node, ast.Import) for alias in node.names}
    of = lambda node: (f"{node.module}.{alias.name}" for alias in node.names)
    return found | {name for node in ast.walk(tree) if isinstance(node, ast.ImportFrom) for name in of(node)}


def past_the_type(source: str, name: str) -> list[str]:
    """Returns how a module of this name would make markup of texts that nobody has escaped."""
    tree, wrong = ast.parse(source), []
    if any(not (call.args and isinstance(call.args[0], ast.Constant) and isinstance(call.args[0].value, str)) for call in calls_of(tree, "html")):
        wrong.append("a form of html that isn't written out")
    if name != ESCAPING and any(re.match(r"html(\.|$)|xml\.sax|.*\bescaping\.made$", one) for one in imported(tree)):
        wrong.append("escapes by itself")
    if name not in (ESCAPING, PAGES) and any(re.search(r"\bescaping\.written$", one) for one in imported(tree)):
        wrong.append("takes a text out of markup")
    makes_pages = any(re.search(r"\bescaping\.", one) for one in imported(tree)) and name not in (ESCAPING, PAGES)
    if makes_pages and any(TAG.search(text) for text in texts_beside_markup(tree).values()):
        wrong.append("a text with tags")
    if re.search(r"\._written\b|object\.__new__", source) and name != ESCAPING:
        wrong.append("reaches into the type")
    return wrong


class Pages(unittest.TestCase):
    """What a page shows of a user's goes through the type of markup, which escapes it."""

    def test_no_tool_makes_markup_of_texts(self) -> None:
        tools = [*(TOP / "tools" / "ringtools").rglob("*.py"), *(TOP / "tools").glob("sdhring-*")]
        for path in sorted(tools):
            with self.subTest(path=path.relative_to(TOP)):
                self.assertEqual(past_the_type(path.read_text(encoding="utf-8"), path.name), [])

    def test_no_script_of_a_page_makes_markup_of_texts(self) -> None:
        for path in sorted((TOP / "tools" / "ringtools" / "web").glob("*.js")):
            with self.subTest(path=path.name):
                self.assertIsNone(re.search(r"innerHTML|outerHTML|insertAdjacentHTML|document\.write|DOMParser|\beval\b|\bFunction\(", path.read_text(encoding="utf-8")))

    def test_each_way_past_it_is_seen(self) -> None:
        for source in (
            'html(f"<b>{name}</b>")', 'html("<b>" + name)', "html(form, name)", 'page += "<b>" + name', 'page += f"<td>{name}</td>"', 'part = "&lt;"', "from .escaping import made",
            "from html import escape", "import html", "from .escaping import written", 'part._written = "x"', "from xml.sax.saxutils import escape",
        ):  # fmt: skip
            with self.subTest(source=source):
                self.assertNotEqual(past_the_type(f"from .escaping import html\n{source}", "page.py"), [])
        self.assertEqual(past_the_type('"""A <b> of markup."""\nfrom .escaping import html\nhtml("<b>{}</b>", name)\nif one < two: say("a > b")', "page.py"), [])


class Words(unittest.TestCase):
    """Words of a private vocabulary, which no page has: an engineer reads the field's."""

    BANNED = (
        "want of memory", "so many", "reckoned", "is told", "has come to be", "led round", "sums up", "takes a customer",
        "one who looks",
    )

    def test_pages_have_the_words_of_the_field(self):
        pages = [*TOP.glob("*.md"), *(TOP / "docs").glob("*.md"), *(TOP / "docs").glob("*.1"), TOP / "dist" / "README.md"]
        for page in pages:
            text = " ".join(page.read_text().split()).lower()
            for words in self.BANNED:
                with self.subTest(page=page.name, words=words):
                    self.assertIsNone(re.search(rf"\b{words}\b", text))


if __name__ == "__main__":
    unittest.main()
