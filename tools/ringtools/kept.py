"""Kept answers: of each case a plan, the program's text, and a file with the status and where the text comes from.

A folder with kept answers may come from anybody, so an answer counts only where this account's tools have sealed it.
"""

import re
from collections.abc import Iterable
from dataclasses import dataclass, field, replace

from .build import sum_of
from .files import PLAN, TEXT
from .origin import Program, now
from .seals import is_sealed, seal_of
from .writing import Folder

KEYS = ("status", "plan", "text", "sum", "program", "version", "proof", "date", "seconds", "where")
HERE, ELSEWHERE = "here", "elsewhere"
SUM = "[0-9a-f]{64}"
FORMS = {
    "status": "[0-9]{1,3}",
    "plan": SUM,
    "text": SUM,
    "sum": SUM,
    "program": "[^\n]{1,4096}",
    "version": "[^\n]{1,200}",
    "proof": "proved|not known to be proved",
    "date": "[0-9]{4}-[0-9]{2}-[0-9]{2}T[0-9]{2}:[0-9]{2}:[0-9]{2}Z",
    "seconds": r"[0-9]{1,9}(?:\.[0-9]{1,2})?",
    "where": f"{HERE}|{ELSEWHERE}",
}
FORM = re.compile("".join(f"{key} (?P<{key}>{FORMS[key]})\n" for key in KEYS) + f"seal (?P<seal>{SUM})\n")
LONGEST = 8192  # bytes of an answer's file


@dataclass(frozen=True)
class Answer:
    """What was answered about one case. `plan`, `text` and `sum` are the checksums of plan, text and program.

    `where` says whether the program ran on this machine. `is_kept` says that it ran in an earlier start of the tool.
    """

    status: int
    plan: str
    text: str
    sum: str
    program: str
    version: str
    proof: str
    date: str
    seconds: float
    where: str = HERE
    is_kept: bool = True

    def came(self) -> str:
        """Returns in words how this start of the tool came by it: run, kept, or either with `elsewhere`, where other machines ran it."""
        return ("kept" if self.is_kept else "run") + (f" {ELSEWHERE}" if self.where == ELSEWHERE else "")

    def told(self) -> str:
        """Returns the lines of the file but the seal."""
        return "".join(f"{key} {getattr(self, key)}\n" for key in KEYS)

    def written(self) -> str:
        """Returns the file of this answer."""
        return f"{self.told()}seal {seal_of(self.told())}\n"


def read_answer(data: bytes) -> Answer | None:
    """Returns the answer that this file has; None where it isn't of the one form, or wasn't sealed by this account."""
    text = data[:LONGEST].decode("utf-8", "replace")
    found = FORM.fullmatch(text)
    if not found or not all(map(str.isprintable, found.groups())) or not is_sealed(text[: found.start("seal") - 5], found["seal"]):
        return None
    cells = {key: found[key] for key in KEYS}
    return Answer(**(cells | {"status": int(cells["status"]), "seconds": float(cells["seconds"])}))


@dataclass
class Store:
    """A folder with three files of each case: .toml, .text and, written last, .answer. Only sealed answers of `program` count.

    The document of a case is in memory: what the program is given, what is sealed, and what a kept answer is held against
    are these bytes. The file .toml is for people alone.
    """

    folder: Folder
    program: Program
    documents: dict[str, bytes] = field(default_factory=dict)  # of each case that is asked about
    ran: dict[str, Answer] = field(default_factory=dict)  # what was answered since this start

    def put_plan(self, name: str, document: bytes) -> None:
        """Takes the document of a case. What was answered is kept only if it was about this very plan."""
        self.documents[name] = document
        if self.folder.read(f"{name}.toml", PLAN.bytes) != document:
            self.forget(name)
            self.folder.write(f"{name}.toml", document)

    def plan(self, name: str) -> bytes:
        """Returns the document of a case."""
        return self.documents[name]

    def forget(self, name: str) -> None:
        for kind in ("answer", "text", "html"):
            self.folder.remove(f"{name}.{kind}")
        self.ran.pop(name, None)

    def kept(self, name: str) -> Answer | None:
        """Returns the sealed answer that is kept, whichever program gave it."""
        data = self.folder.read(f"{name}.answer", LONGEST)
        return data and read_answer(data)

    def others(self, names: Iterable[str]) -> tuple[int, int]:
        """Returns how many kept answers are another program's, and how many weren't sealed by this account. All are run again."""
        read = [self.folder.read(f"{name}.answer", LONGEST) for name in names]
        found = [data and read_answer(data) for data in read]
        other = sum(bool(answer) and answer.sum != self.program.sum for answer in found)
        return other, sum(data is not None and not answer for data, answer in zip(read, found))

    def found(self, name: str) -> tuple[Answer, bytes] | None:
        """Returns what this program answered about the plan that is asked about, and its text; None where it didn't. What is known of the program is what is known now."""
        document, answer = self.documents.get(name), self.ran.get(name) or self.kept(name)
        text = self.folder.read(f"{name}.text", TEXT.bytes)
        if document is None or not answer or text is None:
            return None
        if (answer.sum, answer.plan, answer.text) != (self.program.sum, sum_of(document), sum_of(text)):
            return None
        known = {key: value for key, value in self.program.lines().items() if key in ("version", "proof")}
        return replace(answer, **known, is_kept=name not in self.ran), text

    def both(self, name: str) -> tuple[Answer | None, bytes]:
        """Returns the answer and the text of a case, which belong together; None and no text where it isn't answered."""
        return self.found(name) or (None, b"")

    def answer(self, name: str) -> Answer | None:
        """Returns what this program answered about a case, or None."""
        return self.both(name)[0]

    def is_done(self, name: str) -> bool:
        return self.found(name) is not None

    def text(self, name: str) -> bytes:
        """Returns the text of a case that is answered, or nothing."""
        return self.both(name)[1]

    def put_answer(self, name: str, document: bytes, text: bytes, status: int, seconds: float, where: str = HERE, date: str = "") -> None:
        """Keeps what was answered about this document of a case, and seals it."""
        self.folder.write(f"{name}.text", text)
        more = {"date": date or now(), "seconds": round(seconds, 2), "where": where}
        known = Answer(status, sum_of(document), sum_of(text), **more, **self.program.lines())
        self.folder.write(f"{name}.answer", known.written())
        self.ran[name] = known
