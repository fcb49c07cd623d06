"""The view of a works order: customers before, during and after, and which second failures hurt meanwhile."""

from .answers import SINGLE
from .casetables import links, takes
from .escaping import html, joined, lines
from .failures import WORKS_STAGES
from .interruptions import BEGINNINGS, note
from .look import ends_words
from .markup import HITLESS, codes, count_of, heads, listing, names

GIVES_WAY = "while people work there. A forced switch doesn't give way to a failure."
SECOND = (*SINGLE, "node")


class Works:
    """What the works of an order come to. `answers.works` is the verdict on them, None in a part without it; so is what was counted of them, and of
    the opening of the spans that they free."""

    def __init__(self, answers, interruptions=None, opening=None):
        self.opening = opening
        self.answers, self.plan, self.verdict, self.interruptions = answers, answers.plan, answers.works, interruptions
        self.counted = interruptions.told_stages(self.plan.circuits) if interruptions else []

    def counts(self, name):
        stage = self.verdict.stage(name)
        words = {"lost": "lost", "odd": "odd", "over": "over protection", "impaired": "on their own arc, but impaired", "kept": "on their own arc"}
        return ", ".join(f"{stage.count(kind)} {words[kind]}" for kind in words if stage.count(kind)) or "no customers"

    def summary(self):
        """Each stage in a sentence."""
        titles = {"before": "Before", "during": "During", "after": "After", "waited": "After waiting"}
        for name in WORKS_STAGES:
            stage, before = self.verdict.stage(name), self.verdict.stage("before")
            if stage is None:
                yield html("<strong>{}: no report.</strong> {}", titles[name], self.verdict.problem)
            elif name in ("after", "waited") and stage.cells == before.cells:
                yield html("<strong>{}</strong>: each customer as before.", titles[name])
            else:
                yield html("<strong>{}</strong>: {}.", titles[name], self.counts(name))

    def freed(self):
        """The spans that carry nothing on their working slots during the works."""
        before, during = self.verdict.stage("before"), self.verdict.stage("during")
        return (during.applied - before.applied) if before and during else frozenset()

    def cell(self, circuit, name):
        stage, before = self.verdict.stage(name), self.verdict.stage("before")
        if stage is None:
            return html("<td>–</td>")
        cell = stage.cells[circuit.name]
        changed = " changed-cell" if before and cell != before.cells[circuit.name] else ""
        return html('<td class="result-{}{}">{}</td>', cell.kind, changed, cell.words())

    def changed(self):
        """Customers that aren't as before in each stage that came, or that are interrupted in between."""
        before = self.verdict.stage("before")
        own = [stage for stage in self.verdict.stages if stage.name in WORKS_STAGES]
        differs = lambda name: any(stage.cells[name] != before.cells[name] for stage in own)
        hit = lambda circuit: any(self.interruptions.is_hit(name, circuit) for name in self.counted)
        return [circuit for circuit in self.plan.circuits if before and (differs(circuit.name) or hit(circuit))]

    def row(self, circuit):
        name, cells = self.plan.circuit_name(circuit), joined(self.cell(circuit, name) for name in WORKS_STAGES)
        cells += joined(self.interruptions.cell(name, circuit) for name in self.counted)
        return html('<tr><th scope="row" class="name">{}</th>{}<td>{}</td></tr>', name, cells, ends_words(self.plan, circuit))

    def table(self):
        """The customers that the works touch, stage by stage; the others by name."""
        changed = self.changed()
        same = [self.plan.places.circuit(circuit.name) for circuit in self.plan.circuits if circuit not in changed]
        rows = lines(*map(self.row, changed))
        titles = ["customer", "before", "during", "after", "after waiting"]
        titles += [*(f"interrupted {BEGINNINGS[name]}" for name in self.counted), "from, to"]
        caption = html("<caption>Customers that the works touch</caption>")
        shown = html('<div class="wide"><table class="order">{}<thead>{}</thead><tbody>\n{}</tbody></table></div>', caption, heads(titles), rows)
        rest = html("<p>Not touched by the works ({}): {}.</p>", len(same), names(same)) if same else ""
        return (shown if changed else "") + rest

    def hurting(self):
        return [verdict for verdict in self.answers.sorted_of(SECOND) if self.answers.taken(verdict)]

    def unfreed(self):
        """Second failures under which a span that was freed isn't applied any more."""
        freed = self.freed()
        return [verdict for verdict, stage in self.answers.failed(SECOND) if not freed <= stage.applied]

    def second_words(self):
        asked, hurting, taken = self.answers.failed(SECOND), self.hurting(), self.answers.takers(SECOND)
        if not asked:
            yield "No second failure settled, or none was asked about."
            return
        kinds = [f"a {kind}" for kind in SECOND if kind in self.answers.kinds]
        of_what = " or ".join(filter(None, [", ".join(kinds[:-1]), kinds[-1]]))
        yield html("Customers are lost with <strong>{} of {}</strong> of {} during the works.", len(hurting), count_of(len(asked), "second failure"), of_what)
        safe, risked = [name for name in taken if not taken[name]], [name for name in taken if taken[name]]
        if risked:
            yield f"At risk during the works: {self.answers.customers(risked)}."
        if safe:
            yield f"Survive all of them: {self.answers.customers(safe)}."
        freed = [self.plan.span_title(span) for span in sorted(self.freed())]
        if freed and self.unfreed():
            yield html("<strong>The switch gives way</strong> under {} of them: traffic comes back to {}, {}", len(self.unfreed()), names(freed), GIVES_WAY)
        elif freed:
            yield f"Free of traffic under each of them: {count_of(len(freed), 'span')}, {names(freed)}."

    def by_effect(self):
        """Second failures in which the same customers are lost, together."""
        found = {}
        for verdict in self.hurting():
            found.setdefault(tuple(self.answers.taken(verdict)), []).append(verdict)
        return found

    def hurting_table(self):
        row = lambda taken, verdicts: html('<tr><th scope="row" class="name">{}</th><td>{}</td></tr>', links(verdicts), takes(self.answers, taken))
        rows = lines(*(row(*effect) for effect in self.by_effect().items()))
        head = html("<thead>{}</thead>", heads(["second failure", "customers that are lost"]))
        return html('<div class="wide"><table class="second">{}<tbody>\n{}</tbody></table></div>', head, rows) if rows else ""

    def section(self):
        beforehand = self.answers.beforehand
        steps = codes(beforehand.works_texts())
        parts = [html('<section id="works"><h2>The works: {}</h2><p>By {}.</p>', "; ".join(beforehand.order), steps)]
        if self.verdict is None:
            return parts[0] + html("<p>The works themselves are in part 1.</p></section>")
        drawn = html('<p><a href="cases/works.html">The works, drawn stage by stage</a></p>') if self.verdict.stages else ""
        hit = [*self.interruptions.words(self.plan)] if self.interruptions else []
        hit += [self.opening.line()] if self.opening and self.opening.words() else []
        told = note(self.interruptions) if self.interruptions else html('<p class="note">{}</p>', HITLESS)
        parts += [listing([*self.summary(), *hit]), self.table(), told, drawn]
        parts += [html("<h3>Which second failures hurt during the works</h3>"), listing(self.second_words()), self.hurting_table(), html("</section>")]
        return lines(*parts)
