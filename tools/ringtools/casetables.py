"""The tables of sdhring-whatif: each customer, the failures kind by kind, and each customer in each failure."""

from collections.abc import Iterable

from .answers import KIND_PLURALS, SINGLE
from .escaping import Markup, html, joined, lines
from .look import ends_words
from .markup import folded, heads, unbroken

COLUMNS = 40  # customers side by side, as many as fit a printed page
KEY = html(
    '<p class="key"><span class="kept">·</span>kept on its own arc <span class="impaired">i</span>kept there, but impaired: a span of it is degraded or asked for <span class="over">+4</span>kept over protection, with this number of spans more than its own arc '
    '(with a minus, fewer; <span class="over">=</span>as many) <span class="lost">✕</span>lost <span class="odd">?</span>neither: see its text</p>'
)


def filter_form(options: Iterable[Markup]) -> Markup:
    """Returns the form in which failures are looked up by words and by customer."""
    return html(
        """<form class="filter tools" hidden><label>Failure <input type="search" name="words" placeholder="such as 2–3"></label>
<label>Customer <select name="customer"><option value="">any</option>{}</select></label>
<label><input type="checkbox" name="taking"> only where a customer is lost</label> <output aria-live="polite"></output></form>""",
        joined(options),
    )


def link(verdict):
    """The failure's name, leading to its drawing where there is one."""
    shown = unbroken(verdict.case.words)
    return html('<a href="cases/{}.html">{}</a>', verdict.case.name, shown) if verdict.stages else shown


def links(verdicts):
    return joined(map(link, verdicts), ", ")


def taken_by(verdicts, asked):
    """In how many of the failures that were asked about a customer is lost, and in which; folded where they are many."""
    if verdicts is None:
        return "–"
    if not verdicts:
        return f"none of {asked}"
    count = f"{len(verdicts)} of {asked}"
    return html("{}: {}", count, links(verdicts)) if len(verdicts) <= 2 else folded(count, links(verdicts))


def takes(answers, taken):
    return html('<strong class="result-lost">{} lost</strong>: {}', len(taken), answers.customers(taken))


class CaseTables:
    def __init__(self, answers):
        self.answers, self.plan = answers, answers.plan

    def longest(self, name):
        """How many spans more than its own arc at most, of all failures that settled."""
        cells = [stage.cells[name] for _, stage in self.answers.failed(tuple(KIND_PLURALS))]
        more = [cell.more for cell in cells if cell.kind == "over"]
        return f"{max(more):+d}" if more else "–"

    def customer_words(self, name, singles):
        if name in self.answers.lost_before():
            return "lost", "lost before anything fails"
        if not self.answers.failed(SINGLE):
            return "kept", "no fibre or span was asked"
        return ("lost", "lost with a fibre or span") if singles[name] else ("kept", "survives each fibre and span")

    def columns(self):
        """In what a customer is lost, by title: the verdicts for each customer, and how many were asked; only of kinds that were asked."""
        answers = self.answers
        nodes = {name: [verdict for verdict in found if name not in answers.ends_at(verdict.case)] for name, found in answers.takers(("node",)).items()}
        columns = {
            "lost with fibres and spans": (answers.takers(SINGLE), len(answers.failed(SINGLE))),
            "lost with nodes besides its ends": (nodes, max(0, len(answers.failed(("node",))) - 2)),
            "lost with pairs of spans": (answers.takers(("pair",)), len(answers.failed(("pair",)))),
        }
        return {title: column for title, column in columns.items() if column[1]}

    def customer_row(self, circuit, columns):
        name, singles = circuit.name, self.answers.takers(SINGLE)
        kind, words = self.customer_words(name, singles)
        cells = [taken_by(found.get(name), asked) for found, asked in columns.values()]
        cells += [self.longest(name), ends_words(self.plan, circuit)]
        head = html('<tr><th scope="row" class="name">{}</th><td class="result-{}">{}</td>', self.plan.circuit_name(circuit), kind, words)
        return html("{}{}</tr>", head, joined(html("<td>{}</td>", cell) for cell in cells))

    def customers(self):
        columns = self.columns()
        rows = lines(*(self.customer_row(circuit, columns) for circuit in self.plan.circuits))
        titles = ["customer", "in short", *columns, "most spans more", "from, to"]
        return html('<div class="wide"><table class="customers"><thead>{}</thead><tbody>\n{}</tbody></table></div>', heads(titles), rows)

    def later_cell(self, verdict, name):
        """How it is after mending, compared with how it was before the failure."""
        now, before = verdict.stage(name), verdict.stage("before")
        if now is None:
            return "–"
        if now.cells == before.cells:
            return "as before"
        impaired = f', {now.count("impaired")} impaired' if now.count("impaired") else ""
        return f'{now.count("lost")} lost, {now.count("over")} over protection{impaired}'

    def own_arc_cell(self, stage) -> str:
        """How many are kept on their own arc, and how many of these are impaired."""
        impaired = stage.count("impaired")
        return f'{stage.count("kept") + impaired}, {impaired} of them impaired' if impaired else str(stage.count("kept"))

    def begin_of_row(self, verdict):
        """What the page's filter reads of a row."""
        taken = " ".join(self.answers.taken(verdict))
        return html('<tr data-words="{}" data-taken="{}">', verdict.case.words, taken)

    def failure_row(self, verdict):
        head = html('{}<th scope="row" class="name">{}</th>', self.begin_of_row(verdict), link(verdict))
        stage, taken = verdict.stage("failed"), self.answers.taken(verdict)
        note = "" if verdict.ok else html("<strong>{}</strong>", verdict.problem or verdict.status_words())
        if stage is None:
            return html('{}<td colspan="5">{}</td></tr>', head, note)
        odd = stage.all_of("odd")
        words = [takes(self.answers, taken)] if taken else [] if odd else ["none lost"]
        words += [f"odd: {self.answers.customers(odd)}"] if odd else []
        kind = "odd" if odd else "kept"
        later = html('<td colspan="2">{}</td>', note) if note else joined(html("<td>{}</td>", self.later_cell(verdict, name)) for name in ("mended", "waited"))
        return html('{}<td class="result-{}">{}</td><td>{}</td><td>{}</td>{}</tr>', head, kind, joined(words, "; "), stage.count("over"), self.own_arc_cell(stage), later)

    def group(self, kind):
        verdicts = self.answers.sorted_of((kind,))
        taking = sum(bool(self.answers.taken(verdict)) for verdict in verdicts)
        titles = ["failure", "customers that are lost", "over protection", "on their own arc", "mended", "after waiting"]
        rows = lines(*map(self.failure_row, verdicts))
        summary = f"{KIND_PLURALS[kind].capitalize()}: customers are lost in {taking} of {len(verdicts)}"
        table = html('<table class="failures"><thead>{}</thead><tbody>\n{}</tbody></table>', heads(titles), rows)
        return folded(summary, html('<div class="wide">{}</div>', table), open=True)

    def filter(self):
        option = lambda circuit: html('<option value="{}">{}</option>', circuit.name, self.plan.circuit_name(circuit))
        return filter_form(map(option, self.plan.circuits))

    def failures(self):
        return self.filter() + joined(map(self.group, self.answers.kinds))

    def matrix_row(self, verdict, shown):
        head = html('{}<th scope="row" class="failure">{}</th>', self.begin_of_row(verdict), link(verdict))
        stage = verdict.stage("failed")
        if stage is None:
            return html('{}<td colspan="{}">{}</td></tr>', head, len(shown), verdict.status_words())
        cells = joined(html('<td class="{}">{}</td>', stage.cells[name].kind, stage.cells[name].sign()) for name in shown)
        return html("{}{}</tr>", head, cells)

    def matrix_group(self, begin):
        """Some customers by all failures."""
        shown = self.answers.circuits[begin : begin + COLUMNS]
        titles = html('<th scope="col" class="failure">failure</th>')
        titles += joined(html('<th scope="col" class="circuit"><span>{}</span></th>', name) for name in shown)
        verdicts = [verdict for kind in self.answers.kinds for verdict in self.answers.of_kinds((kind,))]
        rows = lines(*(self.matrix_row(verdict, shown) for verdict in verdicts))
        caption = f"Customers {begin + 1} to {begin + len(shown)} of {len(self.answers.circuits)}, in each failure"
        matrix = html('<table class="matrix"><caption>{}</caption><thead><tr>{}</tr></thead><tbody>\n{}</tbody></table>', caption, titles, rows)
        return html('<div class="scroll" tabindex="0" role="region" aria-label="{}">{}</div>', caption, matrix)

    def matrix(self):
        return KEY + lines(*map(self.matrix_group, range(0, len(self.answers.circuits), COLUMNS)))

    def headline(self):
        """How many customers are lost with a fibre or a span alone."""
        singles = self.answers.takers(SINGLE)
        taken = sum(bool(takers) for takers in singles.values())
        return f"{taken} of {len(self.answers.circuits)} are lost with some fibre or span alone" if self.answers.failed(SINGLE) else "no fibre or span alone was asked"
