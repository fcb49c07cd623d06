"""How the tests read pages: as `common.Page` does, without the scripts, and with what their elements tell the scripts."""

import html
import re
import shutil
import subprocess
import tempfile
from pathlib import Path

from common import PATIENCE, Page

BROWSER = shutil.which("chromium")
PRINTS = BROWSER and shutil.which("pdftotext")
WORDS = ("--headless=new", "--no-sandbox", "--disable-gpu")
# A page of a phone's width in another, which shows what the inner one says.
PHONE = """<body><script>addEventListener("message", (event) => {
  document.body.innerHTML = "<pre></pre>";
  document.querySelector("pre").textContent = event.data;
});</script>
<iframe src="page.html" width="390" height="844"></iframe></body>"""


def without_policy(markup):
    """A page that allows what these tests put into it."""
    return re.sub('<meta http-equiv="Content-Security-Policy" content="[^"]*">', "", markup)


def browsed(markup, deeds):
    """What these lines of script, which may wait for something, put into their list `told`, at the end of the page in a browser."""
    script = f'<script>(async () => {{ {deeds}\nparent.postMessage(told.join("\\n"), "*"); }})();</script>'
    with tempfile.TemporaryDirectory() as folder:
        phone = Path(folder) / "phone.html"
        phone.write_text(PHONE)
        phone.with_name("page.html").write_text(without_policy(markup).replace("</body>", script + "</body>"))
        words = [BROWSER, *WORDS, "--virtual-time-budget=5000", f"--user-data-dir={folder}/own", "--dump-dom", phone.as_uri()]
        ended = subprocess.run(words, capture_output=True, text=True, timeout=PATIENCE)
    return html.unescape(re.search("<pre>(.*?)</pre>", ended.stdout, re.S)[1]).split("\n")


def failures(markup):
    """What scripts of a page end with in a browser, of which the page shows nothing."""
    with tempfile.TemporaryDirectory() as folder:
        page = Path(folder) / "page.html"
        page.write_text(markup)
        words = [BROWSER, *WORDS, "--virtual-time-budget=2000", "--enable-logging=stderr", f"--user-data-dir={folder}/own", "--dump-dom", page.as_uri()]
        ended = subprocess.run(words, capture_output=True, text=True, timeout=PATIENCE)
    return re.findall(r'"(Uncaught [^"]*)"', ended.stderr)


def printed(markup):
    """The words of a page's sheets as they are laid out, each ended by a form feed."""
    with tempfile.TemporaryDirectory() as folder:
        page, sheets = Path(folder) / "page.html", Path(folder) / "page.pdf"
        page.write_text(markup, encoding="utf-8")
        words = [BROWSER, *WORDS, f"--user-data-dir={folder}/own", "--no-pdf-header-footer", f"--print-to-pdf={sheets}", page.as_uri()]
        subprocess.run(words, capture_output=True, timeout=PATIENCE)
        return subprocess.run([PRINTS, "-layout", sheets, "-"], capture_output=True, check=True).stdout.decode()


class Seen(Page):
    """Besides words, tables and drawings: the attributes of all elements by tag, and what stands in folded parts."""

    def __init__(self, markup):
        self.elements, self.folded = [], []
        super().__init__(markup)

    def handle_starttag(self, tag, attributes):
        self.elements.append((tag, dict(attributes)))
        super().handle_starttag(tag, attributes)

    def handle_data(self, data):
        if "script" in self.open:
            return
        if "details" in self.open and "summary" not in self.open:
            self.folded.append(data)
        super().handle_data(data)

    def all(self, tag, **wanted):
        """The attributes of each such element with these attributes; `class_` is `class`, `a_b` is `a-b`."""
        wanted = {key.rstrip("_").replace("_", "-"): value for key, value in wanted.items()}
        return [found for name, found in self.elements if name == tag and wanted.items() <= found.items()]

    def table_named(self, caption, number=0):
        """The rows of the table of this caption, each by the titles of its columns."""
        rows = [rows for name, rows in self.tables if name.startswith(caption)][number]
        return [dict(zip(rows[0], row)) for row in rows[1:]]

    def table_with(self, *titles):
        """The rows of all tables that have these titles, by title."""
        found = [rows for _, rows in self.tables if set(titles) <= set(rows[0])]
        return [dict(zip(rows[0], row)) for rows in found for row in rows[1:]]
