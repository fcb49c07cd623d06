"""Pages ask nobody for anything and run no script but their own, whatever a user's texts are; and they say of their origin what is so."""

import base64
import hashlib
import json
import os
import re
import shutil
import subprocess
import tempfile
import unittest
import xml.etree.ElementTree as ElementTree
from pathlib import Path

from common import bytes_of, call, ring
from hostile import DEEDS, TEXTS, Listener
from pages import BROWSER, WORDS, Seen, without_policy

from ringtools.checks import LONGEST
from ringtools.escaping import Markup, data, drawn, html, joined, lines
from ringtools.kept import read_answer
from ringtools.markup import foot_of_sheets, whole

NODES = 16


def hash_of(text):
    return f"sha256-{base64.b64encode(hashlib.sha256(text.encode()).digest()).decode()}"


def policy_of(page):
    """The directives of a page's policy, by name."""
    found = re.search('<meta http-equiv="Content-Security-Policy" content="([^"]*)">', page)[1]
    return {words.split()[0]: words.split()[1:] for words in found.split(";")}


class Folder(unittest.TestCase):
    @classmethod
    def setUpClass(cls):
        cls.top = Path(cls.enterClassContext(tempfile.TemporaryDirectory()))

    @classmethod
    def make(cls, tool, *words, status=0, **more):
        ended = call(tool, *words, cwd=cls.top, **more)
        if ended.returncode != status:
            raise AssertionError(f"{tool} {words}: {ended.returncode}: {ended.stderr.decode()}")
        return ended.stdout.decode()


def plan_of(names, places, title=""):
    """A ring with these circuits and nodes, by names in comments."""
    lines = [f"# node {number} is {place}" for number, place in enumerate(places)]
    lines += ["rate = 16", f"nodes = {list(range(len(places)))}", "threshold = 3", "wait = 10", "limit = 2000"]
    lines.append('script = ["settle", "cut 1 east", "settle"]')
    for number, name in enumerate(names):
        span, slot = number % len(places), 1 + number // len(places)
        lines += [f"# circuit c{number} is {name}", "[[circuit]]", f'name = "c{number}"', f"from = {span}", f"to = {(span + 1) % len(places)}", f"slot = {slot}"]
        lines += [f'text_a = "text {number} a"', f'text_b = "text {number} b"']
    return "\n".join(lines) + "\n"


class Type(unittest.TestCase):
    """Markup is no text, and what is put into it is shown."""

    TEXT = '<b a="1">&\'\u202e'
    SHOWN = "&lt;b a=&quot;1&quot;&gt;&amp;&#x27;\ufffd"

    def page(self, part):
        return re.search("<main>\n(.*)\n</main>", whole("Title", html("{}", part)), re.S)[1]

    def test_texts_are_shown(self):
        for part in (html("{}", self.TEXT), joined([self.TEXT]), lines(self.TEXT), html("") + self.TEXT, self.TEXT + html(""), joined(["", ""], self.TEXT), self.TEXT):
            self.assertEqual(self.page(part), self.SHOWN)
        self.assertEqual(self.page(html("<i>{}</i>{}", html("<b>{}</b>", 1), None)), "<i><b>1</b></i>None")

    def test_no_text_gets_into_it_or_out_of_it(self):
        with self.assertRaises(TypeError):
            Markup("<b>")
        part = html("<b>")
        for deed in (lambda: str(part), lambda: f"{part}", lambda: "".join([part]), lambda: "%s" % part, lambda: "<i>{}".format(part), lambda: repr(part), lambda: bytes(part)):
            with self.assertRaises(TypeError):
                deed()
        with self.assertRaises(AttributeError):
            part.more = "<b>"

    def test_drawings_and_data(self):
        element = ElementTree.Element("g", {"name": self.TEXT})
        element.text = "</g><script>"
        self.assertIn("&lt;/g&gt;&lt;script&gt;</g>", self.page(drawn(element)))
        self.assertNotIn("<", self.page(data([self.TEXT, "</script>"])))
        self.assertEqual(json.loads(self.page(data([self.TEXT, "</script>"]))), [self.TEXT, "</script>"])


class Hostile(Folder):
    """Every page of a plan in which every name is hostile, and every title, file name, group and table's name too."""

    @classmethod
    def setUpClass(cls):
        super().setUpClass()
        cls.listener = Listener()
        cls.addClassCleanup(cls.listener.close)
        cls.texts = cls.listener.texts()
        cls.pages = {}
        cls.make_plans()
        cls.make_pages()

    @classmethod
    def make_plans(cls):
        (cls.top / "ring.toml").write_text(plan_of(cls.texts, cls.texts[:NODES]), encoding="utf-8")
        (cls.top / "other.toml").write_text(plan_of(cls.texts[:30], cls.texts[NODES : 2 * NODES]), encoding="utf-8")
        quoted = lambda text: '"' + text.replace("\\", "\\\\").replace('"', '\\"') + '"'
        refused = "\n".join([*(f"{quoted(text)} = 1" for text in cls.texts), f"script = [{', '.join(map(quoted, cls.texts))}]", "rate = 16", "nodes = [1, 2]"])
        (cls.top / "refused.toml").write_text(refused, encoding="utf-8")
        steps = plan_of(cls.texts[:3], cls.texts[:4]).replace('"cut 1 east"', ", ".join(map(quoted, cls.texts)))
        (cls.top / "steps.toml").write_text(steps, encoding="utf-8")
        rows = "".join(f'"{text.replace(chr(34), chr(34) * 2)}",span {number % NODES}-{(number + 1) % NODES}\n' for number, text in enumerate(cls.texts[:16]) if ";" not in text)
        cls.groups = cls.top / f"{cls.listener.file_names()[0]}.csv"
        cls.groups.write_text("group,members\n" + rows, encoding="utf-8")
        cls.many = cls.top / "many"
        cls.many.mkdir()
        for name in cls.listener.file_names()[:8]:
            (cls.many / f"{name}.toml").write_text(plan_of(cls.texts[:2], cls.texts[:2]), encoding="utf-8")
        (cls.many / "<img src=x>.toml").write_text("rate = 5\n")

    @classmethod
    def make_pages(cls):
        title = cls.texts[10]
        cls.pages["view"] = cls.make("sdhring-view", "ring.toml")
        cls.pages["refused"] = cls.make("sdhring-view", "refused.toml")
        cls.pages["steps"] = cls.make("sdhring-view", "steps.toml")
        cls.pages["signalling"] = cls.make("sdhring-view", "--signalling", "other.toml")
        cls.pages["desk"] = cls.make("sdhring-desk", "ring.toml", "--depth", "double", "--title", title, "--groups", cls.groups.name)
        cls.make("sdhring-whatif", "--all", "--depth", "single", "--frames", "1", "--groups", cls.groups.name, "--title", title, "--against", "other.toml", "--dir", "all", "ring.toml")
        cls.make("sdhring-whatif", "--kinds", "span", "--works", "span 1-2", "--title", title, "--dir", "works", "other.toml")
        (cls.top / "list.txt").write_text("\n".join([*cls.texts, "LOS 1 east", *(f"LOS {text} east" for text in cls.texts)]), encoding="utf-8")
        (cls.top / "now").mkdir()
        cls.make("sdhring-now", "ring.toml", "--alarms", "list.txt", "--page", "now/page.html", "--title", title, status=6)
        cls.make("sdhring-view", "--to", "runs", "many")
        cls.make("sdhring-desk", "--to", "desks", "many", status=1)
        for folder in ("all", "works", "now", "runs", "desks"):
            for page in sorted((cls.top / folder).rglob("*.html"))[:12]:
                cls.pages[str(page.relative_to(cls.top))] = page.read_text(encoding="utf-8")

    def test_there_are_many(self):
        self.assertGreaterEqual(len(TEXTS), 60)
        self.assertLessEqual(max(map(len, self.texts)), LONGEST)
        self.assertGreaterEqual(len(self.pages), 20)

    def test_each_page_has_a_policy_of_its_own_scripts_and_styles_alone(self):
        for name, page in self.pages.items():
            with self.subTest(page=name):
                found = policy_of(page)
                self.assertEqual([found["default-src"], found["base-uri"], found["form-action"]], [["'none'"]] * 3)
                scripts = [text for kind, text in re.findall(r"<script(.*?)>(.*?)</script>", page, re.S) if not kind]
                self.assertEqual(found["script-src"], [f"'{hash_of(text)}'" for text in scripts])
                self.assertEqual(found["style-src"], [f"'{hash_of(text)}'" for text in re.findall("<style>(.*?)</style>", page, re.S)])

    def test_no_element_and_no_attribute_comes_of_a_text(self):
        """What pages are made of: no element asks for anything, and no attribute is a script."""
        for name, page in self.pages.items():
            seen = Seen(page)
            with self.subTest(page=name):
                tags = {tag for tag, _ in seen.elements}
                self.assertEqual(tags & {"img", "image", "iframe", "object", "embed", "video", "audio", "link", "base", "source", "math", "xmp", "noscript", "picture"}, set())
                for tag, attributes in seen.elements:
                    self.assertEqual([key for key in attributes if key.startswith("on") or key in ("src", "style", "srcset", "background", "action", "data")], [], tag)
                    self.assertRegex(attributes.get("href") or "", r"\A(?:#[\w-]+|[^:?#]*\.html)?\Z")

    def ask_browser(self, pages):
        """What is asked for while these pages are open and everything on them was used."""
        self.listener.asked.clear()
        with tempfile.TemporaryDirectory() as folder:
            for number, page in enumerate(pages):
                (Path(folder) / f"{number}.html").write_text(page, encoding="utf-8")
            frames = "".join(f'<iframe src="{number}.html" width="900" height="700"></iframe>' for number in range(len(pages)))
            (Path(folder) / "all.html").write_text(f"<!DOCTYPE html><body>{frames}</body>", encoding="utf-8")
            words = [BROWSER, *WORDS, "--virtual-time-budget=8000", f"--user-data-dir={folder}/own", "--dump-dom", f"file://{folder}/all.html"]
            subprocess.run(words, capture_output=True, timeout=900)
        return sorted(self.listener.asked)

    @unittest.skipUnless(BROWSER, "there is no chromium")
    def test_a_browser_asks_for_nothing(self):
        """Without the policy, so that it is the markup alone that holds. The last page shows that what is asked for is seen."""
        control = f'<!DOCTYPE html><body><img src="{self.listener.address}/control"><script>fetch("{self.listener.address}/script")</script></body>'
        used = [without_policy(page).replace("</body>", f"<script>{DEEDS}</script></body>") for page in self.pages.values()]
        self.assertEqual(self.ask_browser([*used, control]), ["/control", "/script"])

    @unittest.skipUnless(BROWSER, "there is no chromium")
    def test_the_policy_holds_where_a_text_gets_into_the_markup(self):
        """Each text as it is, in a page of its own: with the policy nothing is asked for, without it much is."""
        address = self.listener.address
        bodies = [f"<p>{text}</p>" for text in self.texts if "refresh" not in text] + [f'<p><img src="{address}/i"><script>fetch("{address}/s")</script></p>']
        pages = [whole("x", html("BODY")).replace("BODY", body) for body in bodies]
        self.assertEqual(self.ask_browser(pages), [])
        self.assertGreater(len(self.ask_browser([without_policy(page) for page in pages])), 20)

    def test_a_style_ends_with_no_title(self):
        for text in [*self.texts, "a\nb", "a\fb", 'a"b\\', "</style>"]:
            inside = re.search('content: "(.*?)(?<!\\\\)"; } }', foot_of_sheets(text), re.S)[1]
            self.assertNotRegex(inside, '["<\n\f\r]')


def forged(text, plan, **more):
    """A file that says of a text that a proved program wrote it."""
    told = {"status": 0, "plan": hashlib.sha256(plan).hexdigest(), "text": hashlib.sha256(text).hexdigest(), "sum": "0" * 64, "program": "/usr/lib/sdhring/sdhring"}
    told |= {"version": "sdhring 9.9, the best one", "proof": "proved", "date": "2026-01-01T00:00:00Z", "seconds": 1.0, "where": "here", "seal": "0" * 64, **more}
    return "".join(f"{key} {value}\n" for key, value in told.items()).encode()


class Origins(Folder):
    """Folders with answers that nobody here wrote."""

    def setUp(self):
        self.place = Path(self.enterContext(tempfile.TemporaryDirectory()))
        self.plan = self.place / "ring.toml"
        self.plan.write_bytes(bytes_of("span-cut")[0])

    def whatif(self, *words):
        ended = call("sdhring-whatif", *words, "ring.toml", cwd=self.place)
        self.assertEqual(ended.returncode, 0, ended.stderr.decode())
        return ended.stderr.decode()

    def forge(self, folder, old, new, **more):
        """Changes the kept texts of a folder, and their answers so that these go with them. Returns how many there are."""
        count = 0
        for text in sorted((self.place / "ring.whatif" / folder).glob("*.text")):
            changed = text.read_bytes().replace(old, new)
            text.write_bytes(changed)
            answer = text.with_suffix(".answer")
            kept = read_answer(answer.read_bytes())
            told = forged(changed, text.with_suffix(".toml").read_bytes(), sum=kept.sum, version=kept.version, **more)
            answer.write_bytes(told)
            count += 1
        return count

    def test_forged_answers_are_run_anew(self):
        self.whatif("--kinds", "span")
        right = {path.name: path.read_bytes() for path in (self.place / "ring.whatif" / "cases").glob("*.text")}
        count = self.forge("cases", b" b3 ", b" b2 ", date="2026<img src=x>")
        self.assertNotEqual({path.name: path.read_bytes() for path in (self.place / "ring.whatif" / "cases").glob("*.text")}, right)
        self.assertIn(f"{count - 1} of {count - 1} kept answers weren't written by this account's tools", self.whatif("--kinds", "span"))
        self.assertEqual({path.name: path.read_bytes() for path in (self.place / "ring.whatif" / "cases").glob("*.text")}, right)
        self.assertNotIn("<img", (self.place / "ring.whatif" / "page.html").read_text())

    def test_forged_counts_of_outages_are_run_anew(self):
        self.whatif("--outages", "--kinds", "span")
        table = self.place / "ring.whatif" / "interruptions.csv"
        before = table.read_bytes()
        self.forge("outages", b"longest 1", b"longest 0")
        self.whatif("--outages", "--kinds", "span")
        self.assertEqual(table.read_bytes(), before)

    def test_answers_of_another_account_are_run_anew(self):
        self.whatif("--kinds", "span")
        state = tempfile.mkdtemp()
        self.addCleanup(shutil.rmtree, state)
        ended = call("sdhring-whatif", "--kinds", "span", "ring.toml", cwd=self.place, env={**os.environ, "XDG_STATE_HOME": state})
        self.assertIn(b"weren't written by this account's tools", ended.stderr)

    def test_kept_answers_are_marked(self):
        self.whatif("--kinds", "span")
        page = self.place / "ring.whatif" / "page.html"
        self.assertIn("4 answers: 4 run for this page", Seen(page.read_text()).text())
        self.assertNotIn("weren't written", self.whatif("--kinds", "span"))
        self.assertIn("4 answers: 4 kept from an earlier run of this account", Seen(page.read_text()).text())

    def test_view_believes_no_file_beside_a_text(self):
        plan, text = bytes_of("span-cut")
        report = self.place / "ring.text"
        report.write_bytes(text.replace(b" b3 ", b" b2 ", 1))
        for more in ({}, {"date": "2026<img src=x onerror=x>"}, {"proof": "<b>proved</b>"}):
            report.with_suffix(".answer").write_bytes(forged(report.read_bytes(), plan, **more))
            page = call("sdhring-view", self.plan, report).stdout.decode()
            self.assertNotIn("<img", page)
            words = Seen(page).text()
            self.assertIn("not known, since the program's text doesn't name it", words)
            self.assertNotIn("the best one", words)
            self.assertNotIn("Proved yes", words)

    def test_answers_have_one_form(self):
        self.whatif("--kinds", "span")
        good = (self.place / "ring.whatif" / "cases" / "span-1-2.answer").read_bytes()
        self.assertIsNotNone(read_answer(good))
        for old, new in ((b"status 0", b"status 00000"), (b"\nseconds 0", b"\nseconds inf"), (b"proof proved", b"proof PROVED"), (b"date 2", b"date x"), (b"where here", b"where there"), (b"seal ", b"seal 0"), (b"\n", b"\r\n"), (b"version", b"more x\nversion")):
            self.assertIn(old, good)
            self.assertIsNone(read_answer(good.replace(old, new, 1)), new)
        self.assertIsNone(read_answer(good + b"more x\n"))
        self.assertIsNone(read_answer(b"\xff" * 100_000))


if __name__ == "__main__":
    unittest.main()
