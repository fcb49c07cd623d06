"""The page of sdhring-view: every settle step of a run, customers first, or why there is none."""

from . import drawing
from .customers import circuit_table, outcome, port_table, steps_table
from .escaping import Markup, drawn, html, joined, lines
from .legend import legend
from .look import condition_words
from .markup import BREAK, COMPARED, HITLESS, count_of, folded, listing, origin_list, table, warning, whole
from .model import REQUEST_NAMES
from .reasons import refusal, where
from .report import STATES


OUT = (
    "Out are the frames of a settle step, of 125 microseconds each and without the delay of the fibres themselves, in which a port was without its own customer's bytes; "
    "a jump is a frame of his that doesn't follow the one before, since chunks were left out or come again. "
    "The frames before a port's first bytes in a new ring are no outage, and are shown as that."
)
HINT = "Click or tap a circuit, node or fibre; or go there with Tab and the arrow keys, and light a circuit up with Enter."


def word_cell(look, at, side):
    """A K word, set off where it isn't that of the step before."""
    word = getattr(look.settled.nodes[at], side)
    kind = html(' class="changed-cell"') if (at, side) in look.changed_words else ""
    return html("<span{}><code>{}</code> {}</span>", kind, word.hexadecimal(), word.words())


def node_table(look):
    plan, rows = look.plan, []
    heads = ["node", "state", "K1 K2 sent west", "K1 K2 sent east", "local requests", "commands"]
    for at in range(plan.size):
        told = look.settled.nodes[at] if look.settled.nodes else None
        requests = [f"{side}: {REQUEST_NAMES[look.scene.requests[at, side]]}" for side in ("west", "east") if look.scene.requests[at, side]]
        commands = [f"{side}: {look.scene.commands[at, side]}" for side in ("west", "east") if look.scene.commands[at, side]]
        cells = [STATES[told.state], word_cell(look, at, "west"), word_cell(look, at, "east")] if told else ["not told", "", ""]
        rows.append([plan.node_name(at), *cells, joined(requests, BREAK), joined(commands, BREAK)])
    changed = look.changed_nodes | {at for at, _ in look.changed_commands}
    return table("Nodes", heads, rows, changed)


def span_table(look):
    plan, rows, changed = look.plan, [], set()
    for span, request in enumerate(look.requests()):
        fibres = (span, "east"), ((span + 1) % plan.size, "west")
        if span in look.changed_spans or look.changed_fibres & set(fibres):
            changed.add(span)
        applied = "applied" if span in look.scene.applied else ""
        conditions = [condition_words(look.scene.conditions[fibre]) for fibre in fibres]
        west, east = plan.ends(span)
        rows.append([plan.span_title(span), f"{west} → {east}: {conditions[0]}", f"{east} → {west}: {conditions[1]}", REQUEST_NAMES[request], applied])
    return table("Spans", ["span", "eastward fibre", "westward fibre", "request", ""], rows, changed)


def told_otherwise(look):
    """What the text says besides nodes and ports: a chunk of `drop`, counts of `big`."""
    if look.settled.counts is not None:
        return html("<p>{} ports deliver bytes, {} AIS.</p>", *look.settled.counts)
    if look.settled.chunk is None:
        return ""
    if not look.settled.chunk:
        return html("<p>The port that was asked for delivers AIS.</p>")
    return html('<p>The port that was asked for delivers this chunk, nine lines of 261 bytes:</p><pre class="wide"><code>{}</code></pre>', lines(*(line.hex() for line in look.settled.chunk)))


def in_columns(items):
    return html('<div class="changes">{}</div>', listing(items))


def changes(look):
    """What changed since the step before: customers in full, the rest folded."""
    if look.before is None:
        return ""
    ring = {kind: found for kind, found in look.ring_changes().items() if found}
    customers = list(look.customer_changes())
    if not ring and not customers:
        return html("<h3>Changed since the step before</h3><p>Nothing.</p>")
    counts = ", ".join(count_of(len(found), kind) for kind, found in ring.items())
    rest = [change for found in ring.values() for change in found]
    shown = in_columns(customers) if customers else html("<p>No customer's way.</p>")
    return html("<h3>Changed since the step before</h3>{}", shown) + (folded(f"In the ring: {counts}", in_columns(rest)) if rest else "")


def figure(look):
    picture = drawing.Drawing(look, page=True)
    kind = "step large" if picture.m.wide > 700 else "step"
    told = html('<figcaption class="told" aria-live="polite" hidden>{}</figcaption>', HINT)
    return kind, html('<figure class="figure"><div class="frame">{}</div>{}</figure>', drawn(picture.draw()), told)


def step_section(look):
    script = [html("<code>{}</code>", step.text) for step in look.scene.steps] or ["nothing"]
    parts = [html('<section id="step{}"><h2>{}</h2>', look.scene.number, look.title())]
    parts.append(html("<p>Moment {}. The script did before it: {}.</p>", look.scene.moment, joined(script, ", ")))
    if look.wrong_ports():
        names = ", ".join(f"{name} {end}" for name, end in look.wrong_ports())
        parts.append(html('<p class="alarm">Not what the restoration model says: port {}.</p>', names))
    if look.settled.outages:
        alarm = look.settled.outages.alarm()
        parts += [html('<p class="alarm">{}</p>', alarm)] if alarm else []
        parts.append(html("<p>{}</p>", look.settled.outages.words()))
    kind, shown = figure(look)
    beside, below = ("", circuit_table(look)) if "large" in kind else (circuit_table(look), "")
    parts.append(html('<div class="{}"><div>{}{}{}</div>{}</div>{}', kind, told_otherwise(look) or outcome(look), changes(look), beside, shown, below))
    parts.append(folded("What each port delivers, each node sends, and each span asks for", port_table(look) + node_table(look) + span_table(look)) + html("</section>"))
    return lines(*parts)


def squelch_section(plan, lines):
    if not plan.circuits:
        return html("<p>The plan has no circuits, so the squelch tables are empty.</p>")
    node = lambda number: plan.places.node(number)
    rows = [[node(line.node), line.side, str(line.slot), line.name, node(line.start), node(line.end)] for line in lines]
    return table("Squelch tables: the circuits on each node's spans", ["node", "side", "slot", "circuit", "from", "to"], rows)


def script_list(document, place):
    """The document's script with the refused step set off."""
    steps = document.get("script") if isinstance(document, dict) else None
    if not isinstance(steps, list):
        return ""
    shown = [html("<li{}><code>{}</code></li>", " class=changed" if i + 1 == place else "", step) for i, step in enumerate(steps)]
    return html("<h3>The script</h3><ol>{}</ol>", joined(shown))


def refused_page(title, report, document, problem, origin):
    parts = [html("<h1>{}</h1>", title), warning(origin), html('<div class="alarm"><strong>The program refused this.</strong> {}', refusal(report.last, report.reason))]
    if report.reason is not None:
        parts.append(f" It is {where(document, report.reason, report.place)}.")
    parts.append(html('</div><p>The program\'s text: <code>{}</code></p>', report.last))
    if problem and (report.reason is not None or report.last == "not toml"):
        parts.append(html('<p class="note">Read here, the plan shows: {}.</p>', problem))
    from_step = report.reason is not None and 22 <= report.reason <= 31
    parts.append(script_list(document, report.place if from_step else None))
    parts.append(source(origin))
    return whole(title, lines(*parts))


def ending(plan, report):
    """How the run ended, where it isn't simply done."""
    if report.unsettled is not None:
        return html('<p class="alarm">Settle step {} didn\'t settle within the limit of {} rounds; the run ended there.</p>', report.unsettled, plan.limit)
    if not report.done:
        return html('<p class="alarm">The run broke off: {}. {}</p>', report.last, refusal(report.last, None))
    return ""


def about(plan):
    circuits = count_of(len(plan.circuits), "circuit")
    return f"STM-{plan.rate}, {plan.size} nodes, {circuits}, threshold {plan.threshold}, wait {plan.wait}, limit {plan.limit}. East is clockwise."


def source(origin):
    return html('<section id="source"><h2>Where this comes from</h2>{}<p class="note">{}</p></section>', origin_list(origin), COMPARED)


def in_short(origin):
    """Program, proof and plan in one line."""
    program = origin.program
    shown = f"{program.version or 'A program'}, {program.proof}" if program else "By which program isn't known"
    return html('<p class="note">{}; plan <code>{}</code>: <a href="#source">where this comes from</a>.</p>', shown, origin.plan_sum[:12])


def tools():
    return html('<p class="tools" hidden><button type="button" class="unfold">unfold all</button> what is folded isn\'t printed.</p>')


def outages_note(beside: Markup) -> Markup:
    """Returns what `out` means on the page, and where it comes from."""
    return html('<p class="note">{} Where outages come from: {}.</p>', OUT, beside)


def run_page(title, plan, report, looks, origin, beside=None):
    """`beside` says where the text comes from that has outages, where there is one."""
    parts = [html("<h1>{}</h1>", title), warning(origin), ending(plan, report)]
    parts += [html("<p>{}</p>", about(plan)), in_short(origin), tools()]
    if beside and looks:
        parts.append(outages_note(beside))
    if report.kind == "check":
        parts.append(squelch_section(plan, report.table))
    if len(looks) > 1 and plan.circuits and report.kind == "run":
        parts += [steps_table(looks), html('<p class="note">{}</p>', HITLESS)]
    elif len(looks) > 1:
        jumps = (html('<a href="#step{}">{}</a>', look.scene.number, look.title()) for look in looks)
        parts.append(html('<p class="jumps">{}</p>', joined(jumps, " · ")))
    parts += [folded("What the marks mean", legend())] if looks else []
    parts += [step_section(look) for look in looks]
    return whole(title, lines(*parts, source(origin)))
