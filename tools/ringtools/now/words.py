"""The words of alarms: which fault or command a text speaks of, and whether it stands or is cleared."""

from __future__ import annotations

import re
from dataclasses import dataclass

CUT, DEGRADE, FAR, FORCED, MANUAL, WAITS, NODE, MEND, CLEAR, PATH, UNKNOWN = (
    *("cut", "degrade", "far", "forced", "manual", "waits", "node", "mend", "clear", "path", "unknown"),
)
EDGE, END = r"(?<![^\W_])", r"(?![^\W_])"
# What a text may speak of: the name of the alarm, what it is, and its forms. What is found is taken out before the next is looked for.
FORMS = (
    ("lockout", UNKNOWN, r"lock ?-?out(?: of protection)?|lops?"),
    ("exercise", UNKNOWN, r"exercise[rd]?|exer"),
    ("MS-AIS", CUT, r"ms[- _]?ais"),
    ("MS-RDI", FAR, r"(?:ms[- _]?)?(?:rdi|ferf)"),
    ("a path's alarm", PATH, r"(?:au|tu|vc|hp|lp|p)-?\d*[- _](?:ais|lop|uneq|tim|plm|rdi|ses|deg|exc|slm|lom)|lop"),
    ("EXC", CUT, r"(?:ms|b2|rs)?[- _]?exc|excessive (?:bit )?errors?(?: rate)?|b2[- _]ebr"),
    ("SD", DEGRADE, r"sd|signal[- ]degraded?|(?:ms|b2)[- _]deg|deg|degraded?|degradation"),
    ("LOS", CUT, r"(?:rs[- _])?los|loss of signal|lichtausfall|kein signal"),
    ("LOF", CUT, r"(?:rs[- _])?(?:lof|oof)|loss of frame|out of frame"),
    ("SF", CUT, r"sf|signal[- ]fail(?:ure|ed)?"),
    ("cut", CUT, r"(?:fib(?:re|er) |cable |kabel)?(?:is )?(?:cut|broken|bruch)"),
    ("node lost", NODE, r"(?:node|ne|station) (?:is )?(?:lost|down)|(?:is )?(?:lost|down)"),
    ("wait to restore", WAITS, r"wtr|wait(?:s|ing)?[- ]to[- ]restore"),
    ("forced switch", FORCED, r"fs|fsw|forced(?: switch(?:ed)?)?"),
    ("manual switch", MANUAL, r"ms|msw|manual(?: switch(?:ed)?)?"),
    ("mended", MEND, r"mend(?:ed)?|repair(?:ed)?|ok"),
)
FAULTS = {"MS-AIS", "LOS", "LOF", "SF", "SD", "EXC", "cut", "MS-RDI"}
PATTERNS = tuple((name, kind, re.compile(f"{EDGE}(?:{form}){END}")) for name, kind, form in FORMS)
UNCLEARED = re.compile(rf"{EDGE}(?:not (?:yet )?cleared|uncleared|nicht behoben){END}")
CLEARED = re.compile(rf"{EDGE}(?:clear(?:ed|s)?|clr|ceased?|ended|gone|gehend|behoben|resolved){END}")
OVER = re.compile(rf"{EDGE}(?:closed|normal|inactive|off|end){END}")  # the same in a cell of a state alone
STANDS = re.compile(rf"{EDGE}(?:active|raised?|set|open|standing|stands|on|new|kommend|alarm|acknowledged|unacknowledged|ack(?:ed)?|unack(?:ed)?|present){END}")


@dataclass(frozen=True)
class Spoken:
    """What a text speaks of: the alarms by their names and kinds, whether these are cleared, and what is left of the text."""

    alarms: tuple[tuple[str, str], ...]
    is_cleared: bool
    left: str


def spoken(text: str) -> Spoken:
    """Returns what a text in small letters speaks of."""
    found = {}
    for name, kind, pattern in PATTERNS:
        text, count = pattern.subn(" ", text)
        if count:
            found[name] = kind
    left, cleared = CLEARED.subn(" ", UNCLEARED.sub(" ", text))
    if found.keys() & FAULTS:
        found.pop("node lost", None)
    return Spoken(tuple(found.items()), bool(cleared), left)


def state_of(text: str) -> bool | None:
    """Returns whether a cell of a state says that the alarm is cleared; None where its words aren't known."""
    words = text.casefold()
    if not words.strip() or UNCLEARED.search(words):
        return False
    if CLEARED.search(words) or OVER.search(words):
        return True
    return False if STANDS.search(words) else None
