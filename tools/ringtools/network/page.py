"""The page of a network: its drawing, what fails, what becomes of each customer, and a page of its own for each ring."""

from dataclasses import dataclass, field

from typing import Any
from urllib.parse import quote

from ..availabilitytable import minutes_words, nines_words
from ..escaping import Markup, data, drawn, html, joined, lines
from ..markup import count_of, listing, note, option, origin_list, section, table, unbroken, warning, whole
from ..origin import Origin
from .availability import Share
from .components import Component
from .drawing import NetworkDrawing
from .joining import Joined, Single
from .minutes import Saving
from .model import Kind, Network, key_of
from .pagedata import Failures, customers_data

WORST = 12
MOST_RINGS = 100
TITLES = {Kind.SPAN: "spans", Kind.PLACE: "places", Kind.GROUP: "shared-risk groups"}
FROM_TABLE = html(
    "What becomes of each section is that of the table of <code>sdhwhatif</code>, ring by ring. A customer is lost where one of his sections is. A place that is lost "
    "is lost in each of its rings, and so is each part of a group. The browser looks sections up in what the page carries, and joins them by this rule."
)
FROM_RATES = "Minutes and nines are computed by these tools from the tables of rates and repair times, end to end; without the time of switches."


@dataclass
class PageParts:
    """What the page is made of, besides the network: its answer, the data of its rings, and availability where there are rates."""

    joined: Joined
    failures: Failures
    rings: list[dict[str, Any]]
    circuits: list[dict[str, int]]  # for each ring the number of a circuit by its name
    locals: list[list[list[int]]]  # for each failure the rings that it touches, and its number in each
    problems: dict[int, str] = field(default_factory=dict)  # of rings that have no page
    shares: list[Share] | None = None
    savings: list[Saving] = field(default_factory=list)
    notes: list[str] = field(default_factory=list)


class NetworkPage:
    """Makes the page of a network."""

    def __init__(self, title: str, network: Network, parts: PageParts, origin: Origin):
        self.title, self.network, self.parts, self.origin = title, network, parts, origin
        self.numbers = {one.name: number for number, one in enumerate(parts.failures.components)}

    def named(self, customers: frozenset[int], most: int = 40) -> str:
        found = [self.network.customers[number].name for number in sorted(customers)]
        more = f" and {len(found) - most} more" if len(found) > most else ""
        return ", ".join(found[:most]) + more

    def summary(self) -> list[Markup]:
        joined, lines = self.parts.joined, []
        if before := len(joined.base.lost):
            lines.append(
                html("<strong>The plans' scripts</strong> leave {} lost: {}.", count_of(before, "customer"), self.named(frozenset(joined.base.lost)))
            )
        for kinds, count in joined.alone().items():
            losing, most = count.above(0), count.most()
            words = (
                f"in {losing} of {count.total}; at most {most}, with {'; '.join(count.examples[most])}"
                if losing
                else "in none"
            )
            lines.append(html("<strong>{}, one alone</strong>: customers are lost {}.", TITLES[Kind(kinds)].capitalize(), words))
        for kinds, count in joined.doubles().items():
            if kinds == "span+span":
                words = (
                    f"in {count.above(0)} of {count.total} pairs; at most {count.most()}"
                    if count.above(0)
                    else "in none"
                )
                lines.append(html("<strong>Two spans cut, in any rings</strong>: customers are lost {}.", words))
        return lines

    def chooser(self) -> Markup:
        """A list of all failures and one of all customers, and what comes of what was chosen."""
        lists = []
        for kind in (Kind.GROUP, Kind.PLACE, Kind.SPAN):
            options = [
                option(number, one.name)
                for number, one in enumerate(self.parts.failures.components)
                if one.kind is kind
            ]
            lists += [html('<optgroup label="{}">{}</optgroup>', TITLES[kind], joined(options))] if options else []
        customers = joined(option(number, customer.name) for number, customer in enumerate(self.network.customers))
        return html(
            """<div class="panel" hidden>
<p>A click, a tap, or Tab and Enter makes a span or a place fail, in whichever ring; once more takes it away. Up to two failures that touch one ring, in all rings together.
<label><input type="checkbox" id="large"> large drawing</label></p>
<p><label>Or choose <select id="choose">{}{}</select></label> <button type="button" id="clear">clear</button></p>
<p id="failed"></p><div id="told" role="status" aria-live="polite"></div>
<p><label>Way of <select id="whose">{}{}</select></label></p>
</div>""",
            option("", "a failure"),
            joined(lists),
            option("", "no customer"),
            customers,
        )

    def customers(self) -> Markup:
        shares = self.parts.shares
        titles = [
            "customer",
            "from",
            "to",
            "rings",
            "in this case",
            "sections that break",
            "places besides its ends",
            "groups",
            "pairs",
        ]
        titles += ["min/year", "nines"] if shares is not None else []
        ending: dict[int, int] = {}
        for single in self.parts.joined.singles:
            for number in single.lost & single.ends if single.kind is Kind.PLACE else ():
                ending[number] = ending.get(number, 0) + 1
        rows = []
        for number, alone, _, pairs, _ in self.parts.joined.by_customer():
            customer = self.network.customers[number]
            rings = ", ".join(self.network.rings[one.ring].name for one in customer.sections)
            counts = [alone.get(Kind.PLACE, 0) - ending.get(number, 0), alone.get(Kind.GROUP, 0), pairs]
            cells = [
                customer.name,
                customer.start,
                customer.end,
                rings,
                html('<span class="now"></span>'),
                html('<span class="breaks"></span>'),
                *counts,
            ]
            cells += (
                [minutes_words(shares[number].minutes), nines_words(shares[number].nines)] if shares is not None else []
            )
            rows.append(cells)
        return table(
            "Customers, and with how many places, groups and pairs each is lost",
            titles,
            rows,
            attributes=lambda index: html(' data-customer="{}"', index),
        )

    def rings(self) -> Markup:
        rows = []
        for ring, data in zip(self.network.rings, self.parts.rings):
            page = quote(ring.page)
            name = (
                html('<a href="{}">{}</a>', page, ring.name)
                if ring.number not in self.parts.problems
                else f"{ring.name}: {self.parts.problems[ring.number]}"
            )
            used = sum(length for _, length in data["arcs"])
            total = data["slots"] * ring.size
            rows.append([name, ring.size, len(data["arcs"]), used, total - used, ", ".join(ring.places)])
        return table("Rings", ["ring", "places", "customers", "used slots of spans", "free", "places eastwards"], rows)

    def case_row(self, single: Single) -> list[object]:
        words = html('<span data-case="{}">{}</span>', self.numbers[single.name], unbroken(single.name))
        rings = ", ".join(self.network.rings[number].name for number in single.rings)
        return [words, rings, len(single.lost), len(single.lost - single.ends), self.named(single.lost)]

    def worst(self) -> Markup:
        heads = ["failure", "rings", "lost", "besides its ends", "customers that are lost"]
        groups = [single for single in self.parts.joined.singles if single.kind is Kind.GROUP]
        others = sorted(
            (single for single in self.parts.joined.singles if single.lost and single.kind is not Kind.GROUP),
            key=lambda single: -len(single.lost),
        )
        tables = (
            [table("Shared-risk groups, each alone", heads, [self.case_row(one) for one in groups])] if groups else []
        )
        tables.append(
            table(f"Up to {WORST} spans and places, each alone", heads, [self.case_row(one) for one in others[:WORST]])
        )
        return lines(*tables)

    def investments(self) -> Markup:
        if not self.parts.savings:
            return html("")
        heads = ["if it never failed", "minutes a year less, all customers together", "customers", "most for", "by"]
        rows = [
            [
                unbroken(one.component.name),
                minutes_words(one.minutes),
                one.customers,
                one.who,
                minutes_words(one.most),
            ]
            for one in self.parts.savings[:WORST]
        ]
        return section(
            "investments",
            "Which investment helps most",
            table("Minutes that would be saved", heads, rows),
            note(FROM_RATES),
        )

    def data(self) -> Markup:
        """What the script looks up."""
        failures = []
        for number, one in enumerate(self.parts.failures.components):
            members = self.members(one) if one.kind is Kind.GROUP else []
            failures.append([one.name, one.kind.value, self.parts.locals[number], members])
        found = {
            "failures": failures,
            "rings": self.parts.rings,
            "customers": customers_data(self.network, self.parts.circuits),
        }
        return data(found)

    def members(self, group: Component) -> list[int]:
        """The spans and places of a group, by their numbers, so that they are drawn as failing; a fibre's span stands for it."""
        found = []
        for part in group.parts:
            ring = self.network.rings[part.ring]
            if part.kind is Kind.PLACE:
                found.append(self.parts.failures.places[key_of(ring.places[part.at])])
            else:
                span = part.at if part.side != "west" else (part.at - 1) % ring.size
                found.append(self.parts.failures.spans[part.ring, span])
        return found

    def page(self) -> str:
        drawing = NetworkDrawing(self.network, self.parts.failures.spans, self.parts.failures.places).draw()
        filter_line = html('<p class="tools" hidden><label>Only customers with <input id="filter" type="search"></label></p>')
        notes = [html("<li>{}</li>", one) for one in self.parts.notes]
        parts = [
            html("<h1>{}</h1>", self.title),
            warning(self.origin),
            listing(self.summary()),
            html("<ul>{}</ul>", joined(notes)) if notes else "",
        ]
        figure = html('<figure class="network-figure">{}</figure>', drawn(drawing))
        parts.append(section("try", "The network", html('<div class="step">{}{}</div>', figure, self.chooser())))
        parts.append(
            section(
                "customers",
                "Customers",
                filter_line,
                self.customers(),
                note(FROM_TABLE, *([FROM_RATES] if self.parts.shares is not None else [])),
            )
        )
        parts.append(
            section(
                "worst",
                "What loses most",
                self.worst(),
                note(html('<a href="#origin">Where this comes from</a> stands at the end.')),
            )
        )
        parts.append(self.investments())
        parts.append(section("rings", "Rings", self.rings()))
        parts.append(section("origin", "Where this comes from", note(FROM_TABLE), origin_list(self.origin)))
        parts.append(html('<script type="application/json" id="data">{}</script>', self.data()))
        return whole(f"Network: {self.title}", lines(*parts), ["network.css"], ["tables.js", "network.js"])
