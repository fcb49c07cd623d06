"""The index of the desk pages of many rings: a line for each, with how many are lost with single failures and with pairs of spans."""

from urllib.parse import quote

from .availability import Seen
from .availabilitytable import minutes_words, nines_words
from .desktable import LOST
from .escaping import html, lines
from .markup import listing, moment_words, table, whole
from .origin import now

HEADS = ["ring", "nodes", "customers", "lost with a fibre", "with a span", "with a node", "of these besides its ends", "with two spans", "pairs of spans with some lost", "least available", "min/year", "nines"]


def most(cases):
    return max((case.lost for case in cases), default=0)


def least_available(desk):
    """The customer with the most minutes in the shared ring, these, and nines; nothing without components."""
    if desk.components is None or not desk.plan.circuits:
        return ["", "", ""]
    shares = [Seen(desk.plan, circuit, desk.components, desk.left).share("shared") for circuit in desk.plan.circuits]
    worst = max(range(len(shares)), key=lambda number: shares[number].whole)
    return [desk.called[worst], minutes_words(shares[worst].minutes), nines_words(shares[worst].nines)]


def index_row(name, file, desk):
    pairs = desk.pairs()
    some = sum(case.lost > 0 for case in pairs)
    besides = max((besides_ends(desk, case).count(LOST) for case in desk.singles("node")), default=0)
    counts = [most(desk.singles("fibre")), most(desk.singles("span")), most(desk.singles("node")), besides, most(pairs), f"{some} of {len(pairs)}"]
    left = html("<br>after {}", "; ".join(desk.script.steps)) if desk.script.is_something else ""
    return [html('<a href="{}">{}</a>{}', quote(file), name, left), desk.plan.size, len(desk.plan.circuits), *counts, *least_available(desk)]


def besides_ends(desk, case):
    """What becomes of the customers that don't end at the lost node."""
    at = desk.table.failures[case.failures[0]].at
    return [result for circuit, result in zip(desk.plan.circuits, case.results) if at not in (circuit.start, circuit.end)]


def index_page(rows, problems=()):
    """The page of these rows, and of the rings that have no page, each with what is wrong."""
    words = html(
        "<p>The most customers that are lost with one failure of a kind, and with two cut spans. "
        "A ring that its plan's script leaves broken has the script's steps under its name, and its numbers are beside what these leave. "
        "Each ring leads to its page, which describes where its numbers come from.</p>"
    )
    missing = listing(html('<strong class="result-lost">{}</strong> has no page: {}', name, problem) for name, problem in problems)
    filter_line = html('<p class="tools" hidden><label>Only rings with <input id="filter" type="search"></label></p>')
    made = html('<p class="note">Written {}.</p>', moment_words(now()))
    parts = [html("<h1>Rings</h1>"), words, missing if problems else "", html('<section id="rings">{}{}</section>', filter_line, table("Rings", HEADS, rows)), made]
    return whole("Rings", lines(*parts), ["desk.css"], ["tables.js"])
