"""The page of the ring as alarms leave it."""

from __future__ import annotations

from ..desktable import IMPAIRED, LOST, OVER
from ..escaping import Markup, html, joined, lines
from ..look import ends_words
from ..markup import BREAK, count_of, folded, listing, names, origin_list, table, warning, whole
from ..origin import Origin
from .telling import CLASSES, Told

MANY = 6  # commands of one effect that stand below one another; more stand in a row
INTERRUPTS = "A command that moves customers interrupts each of them while the ring switches; docs/RING.md says for how long."
BY_MODEL = html("Who is lost, impaired or over protection, and what each command changes, are the answers of <code>sdhwhatif</code>, and no frame was run.")


def customers(told: Told) -> Markup:
    """Who is lost, impaired, or over protection, and over how much longer a way."""
    rows = []
    for letter, words in ((LOST, "lost"), (IMPAIRED, "impaired"), (OVER, "over protection")):
        for customer in told.now.of(letter):
            way = told.longer(customer) if letter == OVER else "–"
            rows.append([customer.called, words, way, ends_words(told.now.plan, customer.circuit)])
    return table("Customers that are lost, impaired or over protection", ["customer", "now", "its way", "from, to"], rows) if rows else html("<p>Each customer is on its own way.</p>")


def commands(told: Told) -> Markup:
    rows = []
    for kind, title in CLASSES.items():
        for effect, found in told.by_effect(kind).items():
            steps = joined(map(told.step_words, found), BREAK if len(found) <= MANY else ", ")
            rows.append([title, steps, effect])
    return table("Commands", ["", "command", "what it changes"], rows, [place for place, row in enumerate(rows) if row[0] == CLASSES["loses"]])


def repairs(told: Told) -> Markup:
    rows = [[told.repair_words(repair), names(told.names(repair.waited.back)) or "–"] for repair in told.now.repairs]
    return table("Repairs, the first first", ["repair", "customers that come back"], rows) if rows else html("<p>No span has failed.</p>")


def seconds(told: Told) -> Markup:
    """What one failure more loses."""
    losing = [(case, change) for case, change in told.now.seconds if change.lost]
    rows = [[told.now.table.words(case), str(len(change.lost)), names(told.names(change.lost))] for case, change in losing]
    said = html("<p>Customers are lost in {} of {}: each fibre, span and node, one more.</p>", len(losing), count_of(len(told.now.seconds), "case"))
    return said + (table("One failure more", ["failure", "lost", "customers"], rows) if rows else "")


def alarms(told: Told) -> Markup:
    """Each line of the list, and how it was read."""
    rows = [[str(alarm.line), alarm.text, alarm.words(told.now.plan)] for alarm in told.read.alarms]
    rows += [[str(record.line), record.text, html("<strong>not read</strong>: {}", why)] for record, why in told.read.unread]
    rows += [[str(record.line), record.text, "no alarm and no place"] for record in told.read.others]
    return table("Alarms", ["line", "as it stands", "read as"], sorted(rows, key=lambda row: int(row[0])))


def now_page(told: Told, heading: str, origin: Origin) -> str:
    """Returns the page, the answer first."""
    unread, lengths = list(told.unread()), told.now.lengths
    parts = [html("<h1>{}</h1>", heading), warning(origin)]
    parts += [html('<div class="alarm"><strong>Not read, so all of this may be wrong:</strong>{}</div>', listing(unread))] if unread else []
    parts += [listing(html("<strong>{}</strong>", words) for words in told.verdict())]
    parts += [html('<section id="customers"><h2>Customers</h2>{}</section>', customers(told))]
    parts += [html('<section id="commands"><h2>What may be commanded now</h2>{}<p class="note">{}</p></section>', commands(told), INTERRUPTS)]
    parts += [html('<section id="repairs"><h2>Which repair first</h2>{}</section>', repairs(told))]
    parts += [html('<section id="seconds"><h2>What one failure more loses</h2>{}</section>', seconds(told))]
    parts += [html('<section id="alarms"><h2>What stands</h2>{}{}{}</section>', listing(told.stands()), listing(told.notes()), folded("The list, line by line", alarms(told)))]
    fibre = html(" With fibre: 5 microseconds for a kilometre are added to a frame, 125 microseconds, for each span. The lengths are those of <code>{}</code>.", lengths.file) if lengths else ""
    parts += [html('<section><h2>Where this comes from</h2><p class="note">{}{}</p>{}</section>', BY_MODEL, fibre, origin_list(origin))]
    return whole(heading, lines(*parts), ["whatif.css"])
