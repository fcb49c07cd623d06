"""The index of the pages of many runs: a line for each plan, with how its run ended and who is lost in its last report."""

from urllib.parse import quote

from .escaping import html, lines
from .markup import moment_words, names, table, whole
from .origin import now

HEADS = ["plan", "reports", "customers", "lost in the last report", "which", "ended with"]


def lost_in(settled):
    """The circuits of a report at both of whose ports AIS came."""
    circuits = dict.fromkeys(name for name, _ in settled.ports)
    return [name for name in circuits if all(settled.ports[name, end].ais for end in "ab")]


def row_of(stem, report):
    link = html('<a href="{}.html">{}</a>', quote(stem), stem)
    if not report.settled or report.kind != "run":
        return [link, len(report.settled), "", "", "", report.last]
    last = report.settled[-1]
    lost = lost_in(last)
    return [link, len(report.settled), len({name for name, _ in last.ports}), len(lost), names(lost), report.last]


def missing_row(stem, problem):
    return [stem, "", "", "", "", html('<strong class="result-lost">no page: {}</strong>', problem)]


def index_page(rows):
    filter_line = html('<p class="tools" hidden><label>Only plans with <input id="filter" type="search"></label></p>')
    made = html('<p class="note">Written {}.</p>', moment_words(now()))
    parts = [html("<h1>Runs</h1>"), html('<section id="rings">{}{}</section>', filter_line, table("Runs", HEADS, rows)), made]
    return whole("Runs", lines(*parts), ["desk.css"], ["tables.js"])
