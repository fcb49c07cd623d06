"""The page of all failures: what sdhwhatif answers about them, the same circuits in a path ring, and which cases were run frame by frame too."""

from __future__ import annotations

from collections import Counter
from collections.abc import Iterator

from .against import CHANGED, GAINS, LOSES
from .desktable import ALL_KINDS, WHOLE
from .escaping import Markup, html, joined, lines
from .markup import codes, count_of, folded, listing, moment_words, names, note, origin_list, table, unbroken, warning, whole
from .moves import OTHER_ENDS, OTHER_SLOT, OTHER_WAY
from .origin import now
from .page import tools

CHANGES = (GAINS, LOSES, CHANGED)
WORST = 60  # cases of several failures that are shown
KIND_WORDS = {"degraded": "fibre degraded", "fibre": "fibre cut", "span": "span cut", "node": "node lost", "manual": "manual switch", "forced": "forced switch", "group": "group"}
KIND_PLURALS = {"degraded": "fibres degraded", "fibre": "fibres cut", "span": "spans cut", "node": "nodes lost", "manual": "manual switches", "forced": "forced switches", "group": "groups"}
DEPTH_WORDS = {1: "Each failure alone", 2: "Two failures", 3: "Three failures"}
CASE_HEADS = ["failure", "kept", "kept, impaired", "over protection", "lost", "longest way in spans", "customers that are lost", "lost in a path ring", "run by frames too"]
KIND_HEADS = ["failures", "cases", "customers are lost in", "at most", "besides ends of lost nodes in", "at most", "in a path ring in", "at most"]
BY_PATHS = html(
    "<strong>In a path ring</strong> a circuit is lost where one of its two ports has AIS, by the rule of path protection: "
    "only cut fibres count there, and no switch or degradation. It is computed by these tools."
)


def frames_cell(told, case, checked):
    """Whether the case was run too, with a link to its drawing."""
    if case.failures not in checked:
        return ""
    return html('<a href="cases/{}.html">{}</a>', told.name(case), "differs" if checked[case.failures] else "the same")


def lost_words(told, case):
    """Who is lost; where a node is, those that end there apart."""
    called = lambda found: names(map(told.called.get, found))
    besides, lost = told.besides(case), told.lost(case)
    if not told.lost_nodes(case) or not lost:
        return called(lost)
    ends = [name for name in lost if name not in besides]
    parts = [f"ending there: {called(ends)}"] if ends else []
    return joined([*parts, html("<strong>besides</strong>: {}", called(besides))] if besides else parts, "; ")


def rows_of(told, cases, checked):
    for case in cases:
        cells = [*case.outcome.counts, case.outcome.hops, lost_words(told, case), len(told.path_lost(case))]
        yield [unbroken(told.table.words(case)), *cells, frames_cell(told, case, checked)]


def by_model(told, program):
    """Which answers are whose, and what is proved of them."""
    proved = (
        html("It is proved to answer what the last report of <code>sdhring run</code> shows, over honest fibres and with a limit of at least 64n + 512.")
        if program.proved
        else f"This build of it is {program.proof}."
    )
    found = told.table
    depth = {"single": "each failure alone", "double": "each failure alone and each two", "triple": "each failure alone, each two and each three"}[found.depth]
    part = "" if found.part == WHOLE else f"part {found.part[0]} of {found.part[1]} of "
    cases = f"{count_of(len(found.cases), 'case')}, {part}nothing more, {depth}"
    return html("<strong>Without a frame:</strong> {}, in {} s by <code>sdhwhatif</code>. {}", cases, f"{found.seconds:.1f}", proved)


def asked_words(beforehand):
    """The state of the ring in which all of it was asked."""
    own = [step.text for step in beforehand.own if step.text != "settle"]
    if own:
        yield html("<strong>After the plan's own script:</strong> {}.", codes(own))
    if beforehand.left_out:
        yield html("<strong>The plan's own script is left out</strong>, as <code>--without-script</code> asks: {}.", codes(beforehand.left_out))
    if beforehand.also:
        yield html("<strong>Before each failure:</strong> {}.", codes(beforehand.also_texts()))
    if beforehand.works:
        yield html("<strong>During the works:</strong> {}, which is {}.", "; ".join(beforehand.order), codes(beforehand.works_texts()))


def named_nodes(plan):
    """The nodes with their places, where comments name some: steps have numbers alone."""
    if plan.places.nodes:
        yield html("<strong>Nodes eastwards:</strong> {}.", names(map(plan.node_name, range(plan.size))))


def heading(file, beforehand):
    """Names the works, where there are any, so that no page is taken for one of the ring without them."""
    during = f", during the works: {'; '.join(beforehand.order)}" if beforehand.works else ""
    after = f", after {'; '.join(beforehand.also_texts())}" if beforehand.also else ""
    without = ", without the plan's own script" if beforehand.left_out else ""
    return f"All failures: {file}{during}{after}{without}"


def by_frames(checked):
    odd = sum(bool(words) for words in checked.values())
    if not checked:
        return html("<strong>Run frame by frame:</strong> none of them.")
    return html("<strong>Run frame by frame:</strong> {} by <code>sdhring</code>, ", count_of(len(checked), "of these cases", "of these cases")) + (
        html("<strong>{} of them differ</strong>.", odd) if odd else "and each shows what was answered about it."
    )


def kinds_words(kinds):
    """As `span cut and node lost`, or `spans cut` of some of one kind."""
    counts = Counter(kinds)
    words = [KIND_WORDS[kind] if count == 1 else f"{['', '', 'two', 'three'][count]} {KIND_PLURALS[kind]}" for kind, count in counts.items()]
    return " and ".join(words)


def by_kinds(told, depth):
    """A row for each mixture of kinds: in how many cases customers are lost, and how many at most."""
    found = {}
    for case in told.table.of_depth(depth):
        found.setdefault(told.table.kinds(case), []).append((case.lost, len(told.besides(case)), len(told.path_lost(case))))
    order = lambda kinds: [ALL_KINDS.index(kind) for kind in kinds]
    for kinds in sorted(found, key=order):
        columns = list(zip(*found[kinds]))
        yield [kinds_words(kinds), len(found[kinds]), *(cell for column in columns for cell in (sum(map(bool, column)), max(column)))]


def counts_of(told):
    """In how many cases each customer is lost: by depth, besides those of its own ends, and in a path ring."""
    every, besides, path = Counter(), Counter(), Counter()
    for case in told.all():
        depth = len(case.failures)
        every.update((name, depth) for name in told.lost(case))
        besides.update((name, depth) for name in told.besides(case))
        path.update((name, depth) for name in told.path_lost(case))
    return every, besides, path


def customers(told):
    """A row for each customer, and the titles of the columns."""
    every, besides, path = counts_of(told)
    first = {name: [] for name in told.names}
    for case in told.table.of_depth(1):
        for name in told.besides(case):
            first[name].append(told.table.words(case))
    titles, counted = ["customer", "lost before"], list(told.depths())
    for depth in counted:
        titles += [f"{DEPTH_WORDS[depth].lower()}: lost in", "besides its ends", "in a path ring"]
    totals = {depth: sum(1 for _ in told.table.of_depth(depth)) for depth in counted}
    rows = []
    for name in told.names:
        cells = [f"{every[name, depth]} of {totals[depth]}" if source is every else source[name, depth] for depth in counted for source in (every, besides, path)]
        rows.append([told.called[name], "yes" if every[name, 0] else "no", *cells, unbroken("; ".join(first[name][:4]))])
    return [*titles, "the first single ones besides its ends"], rows


def worst_of(told, depth, checked):
    """The cases in which most are lost, and those that were run."""
    found = sorted((case for case in told.table.of_depth(depth) if case.lost), key=lambda case: -case.lost)
    return found[:WORST] + [case for case in told.table.of_depth(depth) if case.failures in checked and case not in found[:WORST]], len(found)


def several(told, depth, checked):
    """Cases of two or three failures: what mixtures of kinds come to, and the worst."""
    shown, count = worst_of(told, depth, checked)
    total = sum(1 for _ in told.table.of_depth(depth))
    words = f"{DEPTH_WORDS[depth]}: customers are lost in {count} of {total}"
    kinds = table("by kinds", KIND_HEADS, list(by_kinds(told, depth)))
    return html("<section><h2>{}</h2>{}{}</section>", words, kinds, table("the worst cases", CASE_HEADS, list(rows_of(told, shown, checked))))


def alone(told, checked):
    parts = [html('<section id="alone"><h2>Each failure alone</h2>'), table("by kinds", KIND_HEADS, list(by_kinds(told, 1)))]
    parts.append(table("nothing more", CASE_HEADS, list(rows_of(told, told.table.of_depth(0), checked))))
    for kind in ALL_KINDS:
        cases = list(told.table.singles(kind))
        if cases:
            parts.append(table(KIND_PLURALS[kind], CASE_HEADS, list(rows_of(told, cases, checked))))
    return lines(*parts, html("</section>"))


def moved_words(against) -> Iterator[str | Markup]:
    """Who leads the other way round, or lies in another slot: a customer in service is interrupted where one plan takes the other's place."""
    if against.moves is None:
        yield "Whether customers lead the other way round, or lie in another slot, isn't in a table."
        return
    said = ((OTHER_WAY, "leads", "lead", "the other way round"), (OTHER_SLOT, "lies", "lie", "in another slot"), (OTHER_ENDS, "has", "have", "other ends"))
    for kind, one, many, how in said:
        found = [move.called for move in against.moves if kind in move.kinds]
        if found:
            yield html("<strong>{}</strong>: {} {} than there: {}.", kind.capitalize(), count_of(len(found), f"customer {one}", f"customers {many}"), how, names(found))
    if not against.moves:
        yield "Each customer leads the same way round as there, in the same slot."


def against_section(against):
    """Who gains, who loses and who goes another way beside the other plan or table."""
    counts, depths = against.counts(), against.depths
    of = lambda circuit, what: sum(counts[circuit, depth, what] for depth in depths)
    gains, loses, changed = ([circuit for circuit in against.shared if of(circuit, what)] for what in CHANGES)
    called = lambda found: names(map(against.called, found)) or "none"
    words = [html("<strong>Gain</strong>, as they survive here and are lost there in some case: {}.", called(gains))]
    words.append(html("<strong>Lose</strong>, as they are lost here and survive there: {}.", called(loses)))
    words.append(html("<strong>Over protection</strong> in some case here or there, and on their own arc in the other: {}.", called(changed)))
    words += moved_words(against)
    words += [f"Only here: {called(against.only_here)}."] if against.only_here else []
    words += [f"Only there: {called(against.only_there)}."] if against.only_there else []
    if against.cases_here or against.cases_there:
        words.append(f"{against.cases_here} cases are only here, and {against.cases_there} only there; nothing is said of them.")
    titles = ["customer", *(f"{DEPTH_WORDS.get(depth, 'Nothing more').lower()}: {what}" for depth in depths for what in CHANGES)]
    rows = [[against.called(circuit), *(counts[circuit, depth, what] for depth in depths for what in CHANGES)] for circuit in against.shared]
    shown = [row for row in rows if any(row[1:])]
    same = "" if gains or loses else html("<p>Every customer survives and is lost in the same cases.</p>")
    body = listing(words) + same + (table("cases in which a customer gains, loses or goes another way", titles, shown) if shown else "")
    origins = (html("<p>Where {} comes from: {}.</p>", one.title, one.origin) for one in (against.this, against.other) if one.origin)
    return html('<section id="against"><h2>Beside {}</h2>{}{}</section>', against.other.title, lines(*origins), body)


def beside_page(against):
    """The page of two tables alone."""
    heading = html("{} beside {}", against.this.title, against.other.title)
    written = note(f"Page written {moment_words(now())}, by no program but these tools.")
    return whole(f"{against.this.name} beside {against.other.name}", html("<h1>{}</h1>{}{}", heading, against_section(against), written), ["whatif.css"])


def told_page(title, beforehand, told, checked, origins, against=None):
    """`checked` has the differences of each case that was run, by its failures."""
    plan = beforehand.plan
    parts = [html("<h1>{}</h1>", title), *dict.fromkeys(warning(origin) for origin in origins if origin)]
    room = told.path.room()
    words = [*named_nodes(plan), *asked_words(beforehand), by_model(told, origins[0].program), by_frames(checked), html("{} {}", BY_PATHS, room) if room else BY_PATHS]
    parts += [listing(words), tools(), against_section(against) if against else ""]
    if plan.circuits:
        parts.append(html('<section id="customers"><h2>Customers</h2>{}</section>', table("customers", *customers(told))))
    parts.append(alone(told, checked))
    parts += [several(told, depth, checked) for depth in told.depths() if depth > 1]
    parts += [folded("Where this comes from", origin_list(origin)) for origin in origins if origin]
    return whole(title, lines(*parts), ["whatif.css"])
