"""Texts of others as a terminal may be shown them: no control signs, and no marks that turn the direction of what follows."""

import re
import sys

INSTEAD = "\N{REPLACEMENT CHARACTER}"


def shown(text: object) -> str:
    """Returns a text as one line without signs that can't be seen; each of these, a newline too, becomes U+FFFD."""
    return "".join(letter if letter.isprintable() else INSTEAD for letter in str(text))


def shown_lines(text: object) -> str:
    """Returns the same of a message that may have more lines, each set in by two blanks; no other newline is one."""
    return "\n".join(map(shown, re.split("\n(?=  )", str(text))))


def say(tool: str, what: object) -> None:
    """Writes a line on standard error, in which a tool says something."""
    sys.stderr.write(f"{shown(tool)}: {shown_lines(what)}\n")
    sys.stderr.flush()
