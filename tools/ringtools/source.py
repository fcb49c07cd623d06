"""Where each key, value and item of a TOML document stands in its text.

Only texts that a TOML reader has accepted are looked at, so that forms needn't be checked here.
"""

import re
from dataclasses import dataclass

BLANK = re.compile(r"(?:[ \t\r\n]|#[^\n]*)*")
STRINGS = (
    re.compile(r'"""(?:[^\\]|\\.)*?"""(?!"{1,2}(?!"))"{0,2}', re.S),
    re.compile(r"'''.*?'''(?!')|'''.*?'{3,5}(?!')", re.S),
    re.compile(r'"(?:[^"\\\n]|\\.)*"'),
    re.compile(r"'[^'\n]*'"),
)
BARE_KEY = re.compile(r"[A-Za-z0-9_-]+")
DOT = re.compile(r"[ \t]*\.[ \t]*")
BARE_VALUE = re.compile(r"[^,\]}#\n]*")


SHOWN = 100  # characters of a line


@dataclass(frozen=True)
class Place:
    """A stretch of the text; lines and columns count from 1. Of its line the part around it is kept, in which it begins at `at`."""

    line: int
    column: int
    part: str
    at: int
    width: int


class Source:
    def __init__(self, text):
        self.text, self.at = text, 0
        self.keys, self.values = {}, {}  # path -> (first, end)
        self.counts = {}  # path of an array of tables -> how many of them
        self.level = self.deepest = self.parts = 0  # arrays and inline tables in one another; parts of the longest key
        self.scan()

    # -- scanning

    def take(self, form):
        found = form.match(self.text, self.at)
        self.at = found.end() if found else self.at
        return found

    def see(self, word):
        """Whether this stands here; then it is passed."""
        is_here = self.text.startswith(word, self.at)
        self.at += len(word) if is_here else 0
        return is_here

    def scan(self):
        table = ()
        while self.take(BLANK) and self.at < len(self.text):
            begin = self.at
            if self.see("[["):
                table = self.next_table(self.key())
                self.at = self.text.index("]]", self.at) + 2
                self.keys[table] = self.values[table] = begin, self.at
            elif self.see("["):
                table = self.resolved(self.key())
                self.at = self.text.index("]", self.at) + 1
                self.keys[table] = self.values[table] = begin, self.at
            else:
                self.pair(table)

    def resolved(self, parts):
        """The path that a header's parts lead to, the last table of each array on the way."""
        path = ()
        for part in parts:
            path += (part,)
            path += (self.counts[path] - 1,) if path in self.counts else ()
        return path

    def next_table(self, parts):
        path = self.resolved(parts[:-1]) + (parts[-1],)
        self.counts[path] = self.counts.get(path, 0) + 1
        return path + (self.counts[path] - 1,)

    def key(self):
        parts = []
        while True:
            self.take(BLANK)
            if found := self.take(BARE_KEY):
                parts.append(found[0])
            else:
                quoted = self.string()
                parts.append(quoted[1:-1])
            if not self.take(DOT):
                self.parts = max(self.parts, len(parts))
                return parts

    def string(self):
        for form in STRINGS:
            if found := self.take(form):
                return found[0]
        raise ValueError(f"no string at {self.at}")

    def pair(self, table):
        self.take(BLANK)
        begin = self.at
        path = table + tuple(self.key())
        self.keys[path] = begin, self.at
        self.at = self.text.index("=", self.at) + 1
        self.value(path)

    def value(self, path):
        self.take(BLANK)
        begin = self.at
        if self.text[self.at] in "[{":
            self.level += 1
            self.deepest = max(self.deepest, self.level)
            self.items(path) if self.see("[") else self.pairs(path)
            self.level -= 1
        elif self.text[self.at] in "\"'":
            self.string()
        else:
            self.at = begin + len(self.take(BARE_VALUE)[0].rstrip())
        self.values[path] = begin, self.at

    def items(self, path):
        number = 0
        while self.take(BLANK) and not self.see("]"):
            self.value((*path, number))
            number += 1
            self.take(BLANK)
            self.see(",")

    def pairs(self, path):
        self.see("{")
        while self.take(BLANK) and not self.see("}"):
            self.pair(path)
            self.take(BLANK)
            self.see(",")

    # -- asking

    def place(self, first, end):
        line = self.text.count("\n", 0, first) + 1
        begin, last = self.text.rfind("\n", 0, first) + 1, self.text.find("\n", first)
        last = len(self.text) if last < 0 else last
        last -= self.text[begin:last].endswith("\r")
        front = max(begin, min(first - SHOWN // 2, last - SHOWN))
        return Place(line, first - begin + 1, self.text[front : min(front + SHOWN, last)], first - front, max(1, min(end, last) - first))

    def of(self, path, word=None):
        """The place of a thing, or of a word in a step; where it isn't there, that of what should hold it, if any."""
        while path not in self.values:
            if not path:
                return None
            path, word = path[:-1], None
        first, end = self.values[path]
        return self.place(*(self.word_in(first, end, word) if word is not None else (first, end)))

    def text_of(self, path):
        return self.text[slice(*self.values.get(path, (0, 0)))]

    def of_key(self, path):
        return self.place(*self.keys[path]) if path in self.keys else self.of(path)

    def word_in(self, first, end, word):
        """The stretch of a word of a step, where the string stands as it is meant: in one line, without escapes."""
        quoted = self.text[first:end]
        if "\\" in quoted or quoted.startswith(('"""', "'''")):
            return first, end
        words = list(re.finditer(r"[^ ]+", quoted[1:-1]))
        if word >= len(words):
            return first, end
        return first + 1 + words[word].start(), first + 1 + words[word].end()
