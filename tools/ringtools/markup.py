"""What all pages share: their head, tables, lists and words. A page needs nothing besides itself."""

from __future__ import annotations

import base64
import hashlib
import re
from collections.abc import Iterable, Mapping, Sequence
from functools import cache
from pathlib import Path

from .escaping import Markup, html, joined, lines, written
from .kept import ELSEWHERE, Answer
from .origin import NOT_KNOWN, PROVED, now
from .shown import shown

WEB = Path(__file__).parent / "web"
COMPARED = (
    "Of the 2349 bytes that a port delivers in a round a report shows the first 16, and the pointer value: "
    "these are compared with what the port is owed, the other 2333 are not."
)
BREAK = html("<br>")
HITLESS = html(
    "A report shows what holds once the ring is quiet. While a switch is made or cleared, and when what a switched span asks for changes, as by mending, "
    "its customers lose bytes: no switch is hitless. <code>sdhoutage</code> counts the frames."
)


@cache
def web(name):
    return (WEB / name).read_text(encoding="utf-8")


@cache
def light_colours():
    """The palette's colours on white, by name."""
    return dict(re.findall(r"--([a-z-]+): (#[0-9a-f]+);", web("palette.css").split("@media")[0]))


def in_light(style):
    """A style with its colours written out, for readers of SVG that know no palette."""
    return re.sub(r"var\(--([a-z-]+)\)", lambda found: light_colours()[found[1]], style)


def foot_of_sheets(title):
    """The rule that prints a page's title at the foot of each sheet; in it nothing ends the string or the style."""
    inside = re.sub(r'["\\<\n\r\f]', lambda found: f"\\{ord(found[0]):x} ", shown(title))
    return f'@page {{ @bottom-left {{ content: "{inside}"; }} }}'


def hash_of(text: str) -> str:
    """Returns a script or a style as a policy names it, by its checksum."""
    return f"'sha256-{base64.b64encode(hashlib.sha256(text.encode()).digest()).decode()}'"


def policy(style: str, scripts: Sequence[str]) -> str:
    """Returns what a browser may do for a page: use this style and these scripts, which are in it, and ask nobody for anything."""
    return f"default-src 'none'; style-src {hash_of(style)}; script-src {' '.join(map(hash_of, scripts))}; base-uri 'none'; form-action 'none'"


def size_rules(body: str) -> str:
    """Returns the rules for the sizes that drawings of a page tell by numbers. A policy that lists styles allows none in an element."""
    limits = sorted({tuple(map(int, found)) for found in re.findall(r' data-least="([0-9]{1,5})" data-most="([0-9]{1,5})"', body)})
    found = [f'[data-least="{least}"][data-most="{most}"] {{ min-width: {least}px; max-width: {most}px; }}' for least, most in limits]
    wide = sorted(set(map(int, re.findall(r' data-whole="([0-9]{1,5})"', body))))
    return "\n".join([*found, *(f'[data-whole="{size}"] {{ --whole: {size}px; }}' for size in wide)])


def whole(title: str, body: Markup, style: Sequence[str] = (), script: Sequence[str] = ()) -> str:
    """Returns a page with these styles and scripts beside the common ones."""
    inside, scripts = written(body), [web(name) for name in ("page.js", *script)]
    styles = "".join(map(web, ("palette.css", "page.css", "drawing.css", *style))) + size_rules(inside) + foot_of_sheets(title)
    head = f'<meta charset="utf-8"><meta http-equiv="Content-Security-Policy" content="{policy(styles, scripts)}">'
    head += '<meta name="viewport" content="width=device-width, initial-scale=1">'
    head += f'<meta name="color-scheme" content="light dark"><title>{written(title)}</title><style>{styles}</style>'
    run = "".join(f"<script>{text}</script>" for text in scripts)
    return f'<!DOCTYPE html>\n<html lang="en"><head>{head}</head>\n<body>\n<main>\n{inside}\n</main>\n{run}</body></html>\n'


def heads(cells: Iterable[object]) -> Markup:
    return html("<tr>{}</tr>", joined(html('<th scope="col">{}</th>', cell) for cell in cells))


def table(caption: str, titles: Iterable[object], rows: Iterable[Sequence[object]], changed=(), attributes=None) -> Markup:
    """Returns a table. The first cell of a row is its head; rows whose index is in `changed` are set off."""
    body = html("")
    for index, (first, *rest) in enumerate(rows):
        kind = html(' class="changed"') if index in changed else ""
        more = attributes(index) if attributes else ""
        cells = joined(html("<td>{}</td>", cell) for cell in rest)
        body += html('<tr{}{}><th scope="row" class="name">{}</th>{}</tr>\n', kind, more, first, cells)
    kind, head = caption.split()[0].lower(), html("<caption>{}</caption><thead>{}</thead>", caption, heads(titles))
    return html('<div class="wide"><table class="{}">{}<tbody>\n{}</tbody></table></div>', kind, head, body)


def listing(items: Iterable[object]) -> Markup:
    return html("<ul>{}</ul>", joined(html("<li>{}</li>", item) for item in items))


def section(name: str, title: str, *parts: object) -> Markup:
    return html('<section id="{}"><h2>{}</h2>{}</section>', name, title, lines(*parts))


def note(*sentences: object) -> Markup:
    return html('<p class="note">{}</p>', joined(sentences, " "))


def option(value: object, words: str) -> Markup:
    """Returns what may be chosen in a list."""
    return html('<option value="{}">{}</option>', value, words)


def folded(summary: object, inside: object, open: bool = False) -> Markup:
    return html("<details{}><summary>{}</summary>\n{}</details>", " open" if open else "", summary, inside)


def names(items: Iterable[str], most: int = 128) -> str:
    """Returns these one after the other; of very many only the first. No ring has more than 128 circuits."""
    items = list(items)
    shown = ", ".join(items[:most])
    return shown + (f" and {len(items) - most} more" if len(items) > most else "")


def codes(texts: Iterable[str]) -> Markup:
    """Returns steps or names of files, one after the other."""
    return joined((html("<code>{}</code>", text) for text in texts), ", ")


def unbroken(words: str) -> Markup:
    """Returns words in which the name of a span stays on one line."""
    return joined(words.split("–"), html("&#8288;–&#8288;"))


def count_of(number, one, many=None):
    return f"{number} {one if number == 1 else many or one + 's'}"


def moment_words(date: str) -> str:
    return date.replace("T", " ").removesuffix("Z") + " UTC" if date else "not known"


def dates_words(dates: Sequence[str]) -> str:
    first, last = min(dates, default=""), max(dates, default="")
    return moment_words(first) if first == last else f"{moment_words(first)} to {moment_words(last)}"


def warning(origin) -> Markup:
    """Returns what has to be read before anything else of answers whose program isn't proved."""
    program = origin.program
    if program is not None and program.proof == NOT_KNOWN:
        return html('<p class="alarm"><strong>It isn\'t known whether the program that answered is proved.</strong></p>')
    return html("")


def answers_words(answers: Sequence[Answer]) -> str:
    """Returns in words how many of these answers were run when the page was written, how many were kept, and how many came from other machines."""
    kept, away = sum(answer.is_kept for answer in answers), sum(answer.where == ELSEWHERE for answer in answers)
    words = [f"{len(answers) - kept} run for this page"] if kept < len(answers) else []
    words += [f"{kept} kept from an earlier run of this account"] if kept else []
    words += [f"{away} of them run on other machines"] if away else []
    return f"{count_of(len(answers), 'answer')}: {', '.join(words)}"


def came_along(name: str, sum: str) -> Markup:
    """Returns where something comes from that a file says which nobody here has run: the file's name tells nothing of that, whatever words it has."""
    return html("it isn't known who or which program wrote this, the file <code>{}</code>, whose checksum is <code>{}</code>", name, sum)


def terms(found: Mapping[str, object]) -> Markup:
    """Returns the terms of a list of definitions with what each is."""
    return joined(html("<dt>{}</dt><dd>{}</dd>", name, words) for name, words in found.items())


def origin_list(origin) -> Markup:
    """Returns program, proved or not, version, date and checksums."""
    program, code = origin.program, lambda words: html("<code>{}</code>", words)
    told = program.lines() if program else {}
    proved = "yes" if told.get("proof") == PROVED else "not known"
    if any(answer.where == ELSEWHERE for answer in origin.answers):
        proved += ", by the word of the machines that ran it"
    told_of = {
        "Program": code(told["program"]) if told else origin.note,
        "Proved": proved,
        "Version": told.get("version", "not known"),
        "Program's checksum": code(told["sum"]) if told else "not known",
        "Plan": code(origin.plan),
        "Plan's checksum": code(origin.plan_sum),
        **({"Checksum of the plan as asked": code(origin.asked)} if origin.asked not in ("", origin.plan_sum) else {}),
        "Answered": dates_words(origin.dates),
        **({"Answers": answers_words(origin.answers)} if origin.answers else {}),
        "Page written": moment_words(now()),
    }
    return html('<dl class="origin">{}</dl><p class="note">Checksums are SHA-256.</p>', terms(told_of))
