"""The verdicts as a table, as JSON, as JUnit's XML and as a page."""

from __future__ import annotations

import json
import re
import shlex
import xml.etree.ElementTree as ElementTree
from collections import Counter
from collections.abc import Sequence
from dataclasses import dataclass
from pathlib import Path

from ..cells import text_of_records
from ..escaping import Markup, html, lines
from ..markup import count_of, folded, joined, moment_words, note, table, terms, whole
from ..origin import Program, now
from ..shown import shown
from .judging import BROKEN, NOT_REACHED, OBEYED, Judge, Verdict

COLUMNS = ("kind", "name", "verdict", "rounds", "reached", "stream", "round", "field", "due", "came", "file", "words")
TITLES = {
    "device": "The device",
    "rule": "Rules",
    "case": "Cases of rules, and rows of the pointer tables",
    "word": "K words, heard and sent",
    "mark": "Marks, heard and sent",
    "defect": "Defects and their ends",
    "origin": "Origins of what ports deliver and of what leaves",
}
COUNTS = note("Rounds: in how many it is obeyed, of those of the suite that ask for it.")
LONGEST = 120  # letters of a value that are shown


@dataclass(frozen=True)
class Told:
    """What is told: the verdicts, and where they come from."""

    verdicts: list[Verdict]
    judge: Judge
    command: Sequence[str]
    program: Program
    whole: bool  # whether all streams were run

    def counts(self) -> Counter:
        """Returns the number of rules by their verdicts."""
        return Counter(verdict.verdict for verdict in self.verdicts if verdict.kind == "rule")

    def first(self) -> str:
        """Returns the rules that are broken, the likeliest first; those that the answers hardly tell apart together."""
        return ", ".join([" or ".join(rules) for rules, _ in self.judge.blamed()][:4])

    def summary(self) -> str:
        """Returns the verdict in one line."""
        counts, judge = self.counts(), self.judge
        rules = f"{counts[OBEYED]} rules obeyed, {counts[BROKEN]} broken{': ' + self.first() if self.first() else ''}, {counts[NOT_REACHED]} not reached"
        kinds = Counter(failure.kind for failure in judge.failures)
        more = "".join(f"; it {kind} in {count_of(kinds[kind], 'stream')}" for kind in ("died", "hung", "flooded") if kinds[kind])
        return f"{rules}; {len(judge.failures)} of {judge.streams} streams failed{more}{'' if self.whole else '; the others were not run'}"


def limited(text: object) -> str:
    """Returns a text as one line of at most a number of letters."""
    line = shown(text)
    return line if len(line) <= LONGEST else f"{line[: LONGEST - 3]}..."


def record(verdict: Verdict) -> dict[str, object]:
    """Returns the fields of a verdict."""
    failure = verdict.failure
    made: dict[str, object] = {"kind": verdict.kind, "name": verdict.name, "verdict": verdict.verdict, "rounds": verdict.rounds, "reached": verdict.reached}
    values = ("", "", "", "", "") if failure is None else (failure.stream, failure.round, failure.difference.field, failure.difference.due, failure.difference.came)
    made |= {name: limited(value) for name, value in zip(("stream", "round", "field", "due", "came"), values)}
    return made | {"file": verdict.file, "words": verdict.words}


def as_table(told: Told) -> str:
    """Returns the verdicts as a table, one record a line."""
    return text_of_records(COLUMNS, map(record, told.verdicts))


def as_json(told: Told) -> str:
    """Returns the verdicts as one object."""
    judge = told.judge
    made = {
        "command": list(map(shown, told.command)), "summary": told.summary(), "whole": told.whole, "streams": judge.streams, "rounds": judge.rounds,
        "failed": [{"stream": one.stream, "round": one.round, "kind": one.kind, "why": one.why} for one in judge.failures],
        "not_covered": judge.uncovered(), "program": told.program.lines(), "verdicts": [record(verdict) for verdict in told.verdicts],
    }  # fmt: skip
    return json.dumps(made, indent=2) + "\n"


def as_junit(told: Told) -> str:
    """Returns the verdicts as JUnit's XML has them: a rule that is broken has failed, one that isn't reached is skipped."""
    counts = Counter(verdict.verdict for verdict in told.verdicts)
    counted = {"tests": len(told.verdicts), "failures": counts[BROKEN], "errors": 0, "skipped": counts[NOT_REACHED]}
    suite = ElementTree.Element("testsuite", {"name": "sdhring-conform", **{name: str(count) for name, count in counted.items()}})
    for verdict in told.verdicts:
        case = ElementTree.SubElement(suite, "testcase", {"classname": limited(verdict.kind), "name": limited(verdict.name)})
        if verdict.verdict != OBEYED and verdict.failure is None:
            ElementTree.SubElement(case, "skipped", {"message": "not reached"})
        elif verdict.verdict != OBEYED:
            failure = verdict.failure
            said = f"stream {failure.stream}, round {failure.round}: {failure.difference.field}: due {failure.difference.due}, came {failure.difference.came}"
            ElementTree.SubElement(case, "failure", {"message": limited(said)}).text = shown(f"{verdict.words} {verdict.file}")
    ElementTree.indent(suite)
    return ElementTree.tostring(suite, encoding="unicode", xml_declaration=True) + "\n"


def said(words: str) -> Markup:
    """Returns what a rule says, with the names in it set off."""
    parts = words.split("`")
    return joined(html("<code>{}</code>", part) if at % 2 else part for at, part in enumerate(parts))


def broken_row(verdict: Verdict) -> list[object]:
    """Returns the cells of a verdict in the table of what is broken."""
    failure = verdict.failure
    found, where = failure.difference, f"Stream {failure.stream}, round {failure.round}: {failure.difference.field}."
    values = html("Due <code>{}</code>, came <code>{}</code>.", limited(found.due), limited(found.came))
    return [verdict.name, said(verdict.words), lines(html("{}", where), values)]


def broken(told: Told) -> Markup:
    """Returns the table of what is broken: rules, the likeliest first, and how the device runs."""
    order = {rule: at for at, rule in enumerate(rule for rules, _ in told.judge.blamed() for rule in rules)}
    verdicts = [verdict for verdict in told.verdicts if verdict.failure is not None and verdict.kind in ("device", "rule")]
    if not verdicts:
        return html("")
    verdicts.sort(key=lambda verdict: order.get(verdict.name, -1))
    return table("What is broken", ["name", "what it says", "where it differs first"], map(broken_row, verdicts))


def section(told: Told, kind: str) -> Markup:
    """Returns the table of a kind of verdicts."""
    verdicts = [verdict for verdict in told.verdicts if verdict.kind == kind]
    changed = {number for number, verdict in enumerate(verdicts) if verdict.verdict == BROKEN}
    has_words = kind in ("device", "rule")
    titles = ["name", *(["what it says"] if has_words else []), "verdict", "rounds" if kind != "device" else "streams"]
    rows = []
    for one in verdicts:
        verdict = html("<strong>{}</strong>", one.verdict) if one.verdict == BROKEN else one.verdict
        rows.append([one.name, *([said(one.words)] if has_words else []), verdict, f"{one.rounds:,} of {one.reached:,}"])
    return table(TITLES[kind], titles, rows, changed)


def repeating(told: Told) -> Markup:
    """Returns the commands that repeat what is broken alone."""
    files = sorted({verdict.file for verdict in told.verdicts if verdict.file})
    if not files:
        return html("")
    command = shlex.join(told.command)
    commands = [f"./sdhnode {node_of(file)} frames < {shlex.quote(file)} > ours.text; {command} {node_of(file)} frames < {shlex.quote(file)} > theirs.text" for file in files]
    return folded("The streams that repeat it alone", html('<pre class="commands">{}</pre>', lines(*commands, "./sdhring-compare-node ours.text theirs.text")), open=True)


def node_of(file: str) -> str:
    """Returns the identifier of the node that a file's stream is for, which its name ends with."""
    found = re.search(r"\.node-([0-9]{1,2})\.stream$", Path(file).name)
    return found[1] if found else "ID"


def as_page(told: Told) -> str:
    """Returns the page."""
    judge, title = told.judge, "Does this node obey the rules of the ring?"
    program = told.program.lines()
    origin = {
        "Device": html("<code>{}</code>", shlex.join(told.command)), "What is due": html("<code>{}</code>, {}, {}", program["program"], program["proof"], program["version"]),
        "Its checksum": html("<code>{}</code> (SHA-256)", program["sum"]), "Streams": f"{judge.streams}, of which {len(judge.failures)} failed", "Rounds": f"{judge.rounds:,} that agree",
        "Page written": moment_words(now()),
    }  # fmt: skip
    uncovered = judge.uncovered()
    covered = html("<p>The suite reached all cases of all rules.</p>") if not uncovered else html("<p>Cases that these streams don't reach: {}.</p>", ", ".join(uncovered))
    body = [html("<h1>{}</h1>", title), html('<p class="alarm"><strong>{}</strong></p>', told.summary()), broken(told), repeating(told), COUNTS, section(told, "device"), section(told, "rule"), covered]
    body += [folded(TITLES[kind], section(told, kind)) for kind in ("case", "word", "mark", "defect", "origin")]
    return whole(title, lines(*body, html('<dl class="origin">{}</dl>', terms(origin))))
