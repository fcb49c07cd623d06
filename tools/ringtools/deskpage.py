"""The page of a plan to look at and to sign: what fails, what becomes of each customer, and how available each one is."""

import base64
import json
import sys
import zlib
from array import array
from itertools import combinations

from .availability import PROTECTIONS, Seen
from .availabilitytable import minutes_words, nines_words
from .deskdrawing import DeskDrawing
from .desktable import DEPTHS as TABLE_DEPTHS
from .desktable import GROUP, IMPAIRED, KINDS, LOST, OVER, Case, Failure
from .escaping import Markup, data, drawn, html, joined, lines
from .failures import cut_by
from .markup import count_of, folded, heads, listing, names, note, option, origin_list, section, table, unbroken, warning, whole
from .pathrings import PathRing
from .scriptleft import script_left

WORST = 10
BREAKS = ("span", "node", "fibre", "degraded", GROUP)  # failures; the other kinds are operators' switches
DEPTHS = {1: "one failure", 2: "up to two failures", 3: "up to three failures"}
TITLES = {"degraded": "fibres degraded", "fibre": "fibres cut", "span": "spans cut", "node": "nodes lost", "manual": "manual switches", "forced": "forced switches", GROUP: "shared-risk groups"}
FROM_TABLE = html(
    "What becomes of each customer, the applied spans and the longest way are those of the table of <code>sdhwhatif</code>. The restoration model of these tools has them "
    "once more; each record of the table had to be the model's."
)
FROM_PATHS = "The path ring is computed by these tools, by the rule of path protection: a customer is lost where one of its ports has neither way."
FROM_RATES = "Minutes and nines are computed by these tools from the tables of rates and repair times, which are named at the end; without the time of switches."
SEE_ORIGIN = html('From the table of <code>sdhwhatif</code>, <a href="#origin">as described at the end</a>. Impaired: kept, though a span is degraded or asked for.')
LOOKED_UP = "The browser looks cases up in what the page carries, and computes no verdict."
SIGNED = joined(html('<tr><th scope="row">{}</th><td></td><td></td></tr>', who) for who in ("prepared by", "checked by", "approved by"))


class Desk:
    """A plan with its table of cases, and perhaps its components and what its script leaves.

    `tables` are the files of rates, with their checksums, and `notes` say what of them wasn't read.
    """

    def __init__(self, plan, places, table, components=None, left=None, tables=(), notes=()):
        self.plan, self.places, self.table = plan, places, table
        self.components, self.left, self.tables, self.notes = components, left, tables, notes
        self.called = [places.circuit(circuit.name) for circuit in plan.circuits]
        self.path = PathRing(plan, table.failures)
        self.script = script_left(plan, places)

    @property
    def depth(self):
        return TABLE_DEPTHS[self.table.depth]

    @property
    def nothing(self) -> Case:
        """The case in which nothing fails but what the script left."""
        return self.table.cases[()]

    @property
    def alone(self) -> str:
        """Returns how a failure comes: alone, or as one more beside what the script left."""
        return "more" if self.script.is_something else "alone"

    def of(self, letter: str, case: Case) -> list[str]:
        """Returns the customers of whom a case has this result."""
        return [name for name, found in zip(self.called, case.results) if found == letter]

    def lost(self, case):
        return self.of(LOST, case)

    def singles(self, kind):
        return self.table.singles(kind)

    def kinds(self, *of):
        """These kinds, and groups where there are some."""
        return (*of, GROUP) if any(one.members for one in self.table.failures) else of

    def number(self, kind, at):
        return next(number for number, one in enumerate(self.table.failures) if (one.kind, one.at) == (kind, at))

    def pair(self, one, other):
        """The case of two spans."""
        return self.table.cases[tuple(sorted((self.number("span", one), self.number("span", other))))]

    def pairs(self):
        return [self.pair(*two) for two in combinations(range(self.plan.size), 2)]

    def besides_ends(self, circuit):
        """The cases of lost nodes that aren't a circuit's own ends."""
        return [case for case in self.singles("node") if self.table.failures[case.failures[0]].at not in (circuit.start, circuit.end)]

    def worst(self):
        """The failures, alone or two, in which most are lost; of those that apply the same spans only one, of spans or nodes where it can be."""
        kinds = lambda case: [BREAKS.index(kind) for kind in self.table.kinds(case)]
        few = (case for depth in (1, 2) for case in self.table.of_depth(depth))
        broken = [case for case in few if case.lost and all(kind in BREAKS for kind in self.table.kinds(case))]
        found = {}
        for case in sorted(broken, key=lambda case: (len(case.failures), max(kinds(case)), sum(kinds(case)))):
            found.setdefault(case.outcome.applied, case)
        return sorted(found.values(), key=lambda case: -case.lost)[:WORST]


def besides_words(desk):
    """How many customers are lost with a node besides those that end there."""
    counts = [sum(case in desk.besides_ends(circuit) and case.results[number] == LOST for number, circuit in enumerate(desk.plan.circuits)) for case in desk.singles("node")]
    return f"besides those that end there, at most {max(counts)}" if any(counts) else "all of these end there"


def nothing_more(desk: Desk) -> Markup:
    """Returns what becomes of the customers by what the script left alone."""
    case, words = desk.nothing, {LOST: "lost", OVER: "over protection", IMPAIRED: "kept but impaired"}
    found = {letter: desk.of(letter, case) for letter in words}
    told = "; ".join(f"{len(who)} {words[letter]}" + (f": {names(who)}" if who else "") for letter, who in found.items())
    counted = " All numbers below count them too." if found[LOST] else ""
    return html("<strong>Nothing more fails</strong>: {}; {} kept.{}", told, case.outcome.counts[0], counted)


def summary(desk):
    if desk.script.is_something:
        yield nothing_more(desk)
    for kind in desk.kinds("fibre", "span", "node"):
        cases = list(desk.singles(kind))
        some = [case for case in cases if case.lost]
        most = f"in {len(some)} of {len(cases)}; at most {max((case.lost for case in some), default=0)}" if some else "in none"
        besides = f"; {besides_words(desk)}" if kind == "node" and some else ""
        yield html("<strong>{}, one {}</strong>: customers are lost {}{}.", TITLES[kind].capitalize(), desk.alone, most, besides)
    pairs = desk.pairs()
    some = [case for case in pairs if case.lost]
    two, most = "Two more spans" if desk.script.is_something else "Two spans", max((case.lost for case in pairs), default=0)
    yield html("<strong>{} cut</strong>: customers are lost in {} of {} pairs; at most {}.", two, len(some), len(pairs), most)
    for note in desk.notes:
        yield html("<strong>Not all of a table was read</strong>: {}.", note)


def matrix(desk):
    """Spans by spans: how many customers are lost, as a number and a shade; the diagonal is the span alone."""
    size, names = desk.plan.size, [desk.places.span(*desk.plan.ends(span)) for span in range(desk.plan.size)]
    most = max(1, len(desk.plan.circuits))
    rows = []
    for one in range(size):
        cells = []
        for other in range(size):
            numbers = sorted({desk.number("span", one), desk.number("span", other)})
            lost = desk.table.cases[tuple(numbers)].lost
            shade = 0 if lost == 0 else min(4, 1 + 4 * lost // most)
            cells.append(html('<span class="shade s{}" data-case="{}">{}</span>', shade, " ".join(map(str, numbers)), lost))
        rows.append([unbroken(names[one]), *cells])
    titles = ["span", *(joined(name.split("–"), html("–<wbr>")) for name in names)]
    return table("Customers lost, spans by spans", titles, rows)


def shares(desk, circuit):
    if desk.components is None:
        return []
    seen = Seen(desk.plan, circuit, desk.components, desk.left)
    found = [seen.share(protection) for protection in PROTECTIONS]
    return [words for share in found for words in (minutes_words(share.minutes), nines_words(share.nines))]


def customers(desk):
    pairs, called = desk.pairs(), ["customer", "from", "to", "slot", "in this case", "spans", "nodes besides its ends", "pairs of spans", "pairs in a path ring"]
    titles = called + (["min/year", "nines", "path ring", "nines", "unprotected", "nines"] if desk.components is not None else [])
    by_path = [desk.path.lost(case) for case in pairs]
    rows = []
    for number, circuit in enumerate(desk.plan.circuits):
        ends = [desk.places.node(desk.plan.ids[at]) for at in (circuit.start, circuit.end)]
        lost = lambda cases: sum(case.results[number] == LOST for case in cases)
        counts = [lost(desk.singles("span")), lost(desk.besides_ends(circuit)), lost(pairs), sum(number in found for found in by_path)]
        rows.append([desk.called[number], *ends, circuit.slot, html('<span class="now"></span>'), *counts, *shares(desk, circuit)])
    attributes = lambda index: html(' data-customer="{}"', index)
    caption = "Customers, and with how many spans, nodes and pairs of spans each is lost"
    return table(caption, titles, rows, attributes=attributes)


def case_row(desk, case):
    words = html('<span data-case="{}">{}</span>', " ".join(map(str, case.failures)), unbroken(desk.table.words(case)))
    return [words, *case.outcome.counts, case.outcome.hops, names(desk.lost(case))]


CASE_HEADS = ["case", "kept", "kept, impaired", "over protection", "lost", "longest way in spans", "customers that are lost"]


def cases(desk):
    for kind in desk.kinds(*KINDS):
        rows = [case_row(desk, case) for case in desk.singles(kind)]
        yield folded(f"{TITLES[kind].capitalize()}, each {'one ' * desk.script.is_something}{desk.alone} ({len(rows)})", table(TITLES[kind].capitalize(), CASE_HEADS, rows), open=kind in ("span", "node", GROUP))


def packed(data):
    return base64.b64encode(zlib.compress(data, 9)).decode()


def data_of(desk, drawing):
    """What the script looks up: cases by their failures, and each different outcome once. Cases of three failures are packed."""
    outcomes, count = {}, len(desk.table.failures)
    few = [case for depth in (0, 1, 2) for case in desk.table.of_depth(depth)]
    keyed = {key_of(case.failures, count): outcomes.setdefault(case.outcome, len(outcomes)) for case in few}
    shown = [[sorted(outcome.applied), outcome.results] for outcome in outcomes]
    return {
        "size": desk.plan.size,
        "left": desk.script.is_something,
        "failures": [[one.name, one.kind, one.at, one.side, cuts_of(desk, one)] for one in desk.table.failures],
        "depth": desk.depth,
        "cases": [keyed.get(number, -1) for number in range(max(keyed) + 1)],
        "outcomes": shown,
        "triples": triples_of(desk, outcomes) if desk.depth == 3 else None,
        "circuits": [[name, *lane] for name, lane in zip(desk.called, drawing.lanes())],
    }


def cuts_of(desk: Desk, failure: Failure) -> list[str]:
    """Returns the fibres that a failure cuts, as the drawing names them; for a cut fibre alone none, since that is a button of its own."""
    parts = [] if failure.kind == "fibre" else failure.parts
    return [f"{at} {side}" for part in parts for at, side in cut_by(desk.plan, part.kind, part.at, part.side)]


def triples_of(desk, outcomes):
    """The cases of three failures, in the order of their numbers: for each the place of its outcome, counted from 1, or 0 where there is none. Then the outcomes that no case of fewer failures has."""
    count, found, cases = len(outcomes), dict(outcomes), desk.table.cases
    places = array("H")
    for numbers in combinations(range(len(desk.table.failures)), 3):
        case = cases.get(numbers)
        places.append(0 if case is None else 1 + found.setdefault(case.outcome, len(found)))
    if sys.byteorder == "big":
        places.byteswap()
    more = [[sorted(outcome.applied), outcome.results] for outcome in list(found)[count:]]
    return {"cases": packed(places.tobytes()), "outcomes": packed(json.dumps(more, separators=(",", ":")).encode())}


def key_of(numbers, count):
    """The place of a case in the list: nothing, then each failure alone, then each two. Cases that are left out leave gaps."""
    if len(numbers) < 2:
        return numbers[0] + 1 if numbers else 0
    first, second = numbers
    return 1 + count + first * (2 * count - first - 1) // 2 + second - first - 1


def failure_options(desk):
    for kind in desk.kinds("span", "node", "fibre", "degraded", "manual", "forced"):
        options = joined(option(number, one.name) for number, one in enumerate(desk.table.failures) if one.kind == kind)
        yield html('<optgroup label="{}">{}</optgroup>', TITLES[kind], options)


def radios(legend, group, kinds):
    """A choice of what a click does."""
    shown = joined(html('<label><input type="radio" name="{}" value="{}"{}> {}</label> ', group, kind, "" if place else " checked", words) for place, (kind, words) in enumerate(kinds))
    return html("<fieldset><legend>{}</legend>{}</fieldset>", legend, shown)


def chooser(desk):
    """What a click on a fibre and on a switch does, a list of all failures, and what comes of them."""
    fibres = radios("A clicked fibre is", "fibre", (("fibre", "cut"), ("degraded", "degraded")))
    switches = radios("A clicked switch is", "switch", (("forced", "forced"), ("manual", "manual")))
    customers = joined(option(number, name) for number, name in enumerate(desk.called))
    left = html('<p class="script">The script left: {}.</p>', "; ".join(desk.script.words())) if desk.script.is_something else ""
    return html(
        """<div class="panel" hidden>
<p>A click, a tap, or Tab and Enter makes a node, a span (the label outside) or a fibre fail, or switches a side (the square beside a node); once more takes it away. Up to {} together. <label><input type="checkbox" id="large"> large drawing</label></p>
{}{}
<p><label>Or choose <select id="choose">{}{}</select></label> <button type="button" id="clear">clear</button></p>
{}
<p id="failed"></p><div id="told" role="status" aria-live="polite"></div>
<p><label>Way of <select id="whose">{}{}</select></label></p>
</div>""",
        DEPTHS[desk.depth].removeprefix("up to "),
        *(fibres, switches),
        *(option("", "a failure"), joined(failure_options(desk))),
        left,
        *(option("", "no customer"), customers),
    )


def origin_section(desk, origin):
    count = count_of(len(desk.table.cases), "case")
    words = html("<code>sdhwhatif {}</code> answered about {} of {}. {}", desk.table.depth, count, DEPTHS[desk.depth], LOOKED_UP)
    files = listing(html("<code>{}</code>, checksum <code>{}</code>", name, sum_) for name, sum_ in desk.tables)
    what = "Groups" if desk.components is None else "Rates and repair times"
    rates = html("<p>{} are those of these files; it isn't known who wrote them:</p>{}", what, files) if desk.tables else ""
    return section("origin", "Where this comes from", html("<p>{}</p>", words), note(FROM_TABLE), note(FROM_PATHS, desk.path.room()), rates, origin_list(origin))


def desk_page(title, desk, origin):
    drawing = DeskDrawing(desk.plan, desk.places, desk.table.failures, desk.script, desk.nothing.outcome)
    ring = drawn(drawing.draw())
    worst = [case_row(desk, case) for case in desk.worst()]
    filter_line = html('<p class="tools" hidden><label>Only customers with <input id="filter" type="search"></label></p>')
    parts = [html("<h1>{}</h1>", title), desk.script.line(), warning(origin), listing(summary(desk))]
    parts.append(section("try", "The ring", html('<div class="step"><figure class="ring-figure">{}</figure>{}</div>', ring, chooser(desk))))
    parts.append(section("customers", "Customers", filter_line, customers(desk), note(*([FROM_RATES] if desk.components is not None else []), SEE_ORIGIN)))
    parts.append(section("matrix", "Spans by spans", matrix(desk), note(SEE_ORIGIN)))
    parts.append(section("worst", "The worst cases", table(f"Up to {WORST} cases of one or two failures", CASE_HEADS, worst), note(SEE_ORIGIN)))
    parts.append(section("alone", "Each failure alone", *cases(desk), note(SEE_ORIGIN)))
    parts.append(origin_section(desk, origin))
    parts.append(html('<section id="signed"><h2>Signed</h2><table><thead>{}</thead><tbody>{}</tbody></table></section>', heads(["", "name and signature", "date"]), SIGNED))
    parts.append(html('<script type="application/json" id="data">{}</script>', data(data_of(desk, drawing))))
    return whole(f"Desk: {title}", lines(*parts), ["desk.css"], ["tables.js", "desk.js"])
