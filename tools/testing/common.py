"""What the tests share: where things are, and how the tools are called."""

import atexit
import html.parser
import os
import shlex
import shutil
import subprocess
import sys
import tempfile
from pathlib import Path

PATIENCE = 3600  # seconds after which a program is taken to hang, however slow the machine is
TESTING = Path(__file__).resolve().parent
TOOLS = TESTING.parent
RINGS = TESTING / "rings"


def command(file):
    """The words that run a Python file, as a shell reads them."""
    return shlex.join([sys.executable, str(file)])


STANDIN = command(TESTING / "standin")
sys.path.insert(0, str(TOOLS))
# What the tools keep of an account is kept apart, as long as a module of tests runs.
if "SDHRING_TESTED" not in os.environ:
    STATE = tempfile.mkdtemp(prefix="sdhring-state-")
    atexit.register(shutil.rmtree, STATE, True)
    os.environ |= {"XDG_STATE_HOME": STATE, "SDHRING_TESTED": "yes"}


def call(tool, *words, **more):
    return subprocess.run([sys.executable, str(TOOLS / tool), *map(str, words)], capture_output=True, **more)


def call_without_processes(tool, *words, **more):
    """The same where no process with shared memory can be had."""
    without = "import sys, runpy, concurrent.futures.process as p\n"
    without += "def none(*_, **__): raise PermissionError(13, 'Permission denied')\np.ProcessPoolExecutor.__init__ = none\n"
    without += f"sys.argv[0] = {str(TOOLS / tool)!r}; sys.path[0] = {str(TOOLS)!r}; runpy.run_path(sys.argv[0], run_name='__main__')"
    return subprocess.run([sys.executable, "-c", without, *map(str, words)], capture_output=True, **more)


def copied_tools(place):
    """The folder of a copy of the tools, which stands for a release of its own at this place."""
    shutil.copytree(TOOLS, place / "tools", ignore=shutil.ignore_patterns("__pycache__", "testing"))
    (place / "docs").mkdir()
    (place / "dist").mkdir()
    shutil.copy(TOOLS.parent / "VERSION", place)
    return place / "tools"


def ring(name):
    return RINGS / f"{name}.toml", RINGS / f"{name}.text"


def bytes_of(name):
    plan, text = ring(name)
    return plan.read_bytes(), text.read_bytes()


class Page(html.parser.HTMLParser):
    """A page's words, its tables by caption as lists of rows, and what its drawings say."""

    def __init__(self, markup):
        super().__init__()
        self.tables, self.words, self.titles, self.drawn = [], [], [], []
        self.open, self.cell = [], None
        self.feed(markup)
        self.close()

    def handle_starttag(self, tag, attributes):
        self.open += [tag] if tag not in ("meta", "br", "wbr", "path", "circle", "rect", "line") else []
        if tag == "table":
            self.tables.append(("", []))
        elif tag == "tr":
            self.tables[-1][1].append([])
        elif tag in ("td", "th"):
            self.tables[-1][1][-1].append("")
        elif tag == "br" and self.tables and self.tables[-1][1]:
            self.tables[-1][1][-1][-1] += " "

    def handle_endtag(self, tag):
        if tag in self.open:
            while self.open.pop() != tag:
                pass

    def handle_data(self, data):
        if "style" in self.open:
            return
        if "svg" in self.open:
            (self.titles if "title" in self.open else self.drawn).append(data.strip())
            return
        self.words.append(data)
        if "caption" in self.open:
            self.tables[-1] = (data, self.tables[-1][1])
        elif "td" in self.open or "th" in self.open:
            self.tables[-1][1][-1][-1] += data

    def text(self):
        return " ".join(" ".join(self.words).split())

    def tables_of(self, caption):
        return [rows[1:] for name, rows in self.tables if name.startswith(caption)]
