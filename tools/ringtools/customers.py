"""What becomes of each customer, settle step by settle step, as markup."""

from .escaping import html, joined, lines
from .look import ends_words, longer_words
from .markup import count_of, heads, names, table

RESULTS = {
    "odd": "Not what they are owed",
    "lost": "Lost",
    "over": "Kept over protection",
    "impaired": "Kept on their own arc, but impaired: a span of it is degraded or asked for",
    "kept": "Kept on their own arc",
    "untold": "Not told by this text",
}
TOTALS = {"odd": "not owed", "lost": "lost", "over": "over protection", "impaired": "impaired", "kept": "kept"}
GROUP, GROUP_WITH_OUTAGES = 12, 5  # settle steps side by side, as many as fit a printed page


def by_result(look):
    found = {result: [] for result in RESULTS}
    for circuit in look.plan.circuits:
        found[look.result(circuit)].append(circuit.name)
    return found


def outcome(look):
    """Who is lost and who is kept, by name, the worst first."""
    found = {result: members for result, members in by_result(look).items() if members}
    items = [html('<li class="result-{}">{} ({}): {}</li>', result, RESULTS[result], len(members), names(members)) for result, members in found.items()]
    return html('<ul class="outcome">{}</ul>', joined(items)) if items else html('<p class="note">The plan has no circuits.</p>')


def result_words(look, circuit):
    """What became of one customer, in words that stand beside its name."""
    way, result = look.ways[circuit.name], look.result(circuit)
    if result in ("odd", "lost", "untold"):
        return {"odd": "not what it is owed", "lost": "lost: AIS at both ports", "untold": "not told"}[result]
    spans = count_of(len(way.hops), "span")
    return f"kept over protection, {spans}, {longer_words(way.more)}" if way.over else f"kept, {spans}" + (", impaired" if way.impaired else "")


def short(look, circuit):
    """The same for a narrow cell: a sign, and how many spans more."""
    result, way = look.result(circuit), look.ways[circuit.name]
    if result == "over":
        return f"protection, {count_of(len(way.hops), 'span')}"
    return {"odd": "not owed", "lost": "lost", "impaired": "kept, impaired", "kept": "kept", "untold": "not told"}[result]


def out_words(look, circuit):
    """For how long each port of a customer was out in the step, as one where both are alike."""
    a, b = (look.settled.outages.ports[circuit.name, end].words() for end in "ab")
    return a if a == b else f"a: {a}; b: {b}"


def step_cell(look, circuit):
    changed = " changed-cell" if circuit.name in look.changed_circuits else ""
    out = html("<br>out: {}", out_words(look, circuit)) if look.settled.outages else ""
    return html('<td class="result-{}{}">{}{}</td>', look.result(circuit), changed, short(look, circuit), out)


def total_row(shown):
    cells = html("")
    for look in shown:
        found = by_result(look)
        counts = [f"{len(found[result])} {word}" for result, word in TOTALS.items() if found[result]]
        cells += html("<td>{}</td>", ", ".join(counts) or "not told")
    return html('<tr class="total"><th scope="row" class="name">all {}</th>{}</tr>', len(shown[0].plan.circuits), cells)


def steps_table(looks):
    """Customers by settle steps; in groups of steps, so that it is whole on paper."""
    parts, group = [], GROUP_WITH_OUTAGES if looks[0].settled.outages else GROUP
    for begin in range(0, len(looks), group):
        shown = looks[begin : begin + group]
        titles = ["customer", *(html('<a href="#step{}">step {}</a>', look.scene.number, look.scene.number) for look in shown)]
        rows = [total_row(shown)]
        for circuit in shown[0].plan.circuits:
            cells = joined(step_cell(look, circuit) for look in shown)
            rows.append(html('<tr data-circuit="{}"><th scope="row" class="name">{}</th>{}</tr>', circuit.name, shown[0].plan.circuit_name(circuit), cells))
        caption = html("<caption>Customers after settle steps {} to {}; what changed since the step before is set off</caption>", shown[0].scene.number, shown[-1].scene.number)
        parts.append(html('<div class="wide"><table class="steps">{}<thead>{}</thead><tbody>{}</tbody></table></div>', caption, heads(titles), joined(rows)))
    return lines(*parts)


def port_cell(look, circuit, end):
    verdict, line = look.port(circuit.name, end), look.settled.ports.get((circuit.name, end))
    if verdict is None:
        return "not told"
    shown = "AIS" if line.ais else html("value {}<br><code>{}</code>", line.value, line.data.hex())
    if verdict == "wrong":
        return html("<strong>not what it is owed</strong>: {}", shown)
    return shown if verdict == "ais" else html("its own customer's bytes, {}", shown)


def out_cells(look, circuit):
    """Beside each port how long it was out, where that was told."""
    return [look.settled.outages.ports[circuit.name, end].words() for end in "ab"] if look.settled.outages else []


def out_heads(look):
    return ["out at port a", "out at port b"] if look.settled.outages else []


def circuit_table(look):
    """Each customer with its result beside its name and its outages, then its way."""
    circuits = look.plan.circuits
    changed = {number for number, circuit in enumerate(circuits) if circuit.name in look.changed_circuits}
    rows = []
    for number, circuit in enumerate(circuits):
        result = html('<span class="result-{}">{}</span>', look.result(circuit), result_words(look, circuit))
        way, ends = look.route_words(circuit), ends_words(look.plan, circuit)
        rows.append([look.plan.circuit_name(circuit), result, *out_cells(look, circuit), way, ends, str(number + 1)])
    heads_ = ["circuit", "what became of it", *out_heads(look), "way from a to b now", "from, to", "#"]
    return table("Circuits", heads_, rows, changed, attributes(circuits)) if rows else ""


def port_table(look):
    """What the ports deliver, as the text shows it."""
    circuits = look.plan.circuits
    rows = [[circuit.name, *beside_outages(look, [port_cell(look, circuit, end) for end in "ab"], out_cells(look, circuit))] for circuit in circuits]
    heads_ = ["circuit", *beside_outages(look, ["port a", "port b"], out_heads(look))]
    return table("Ports", heads_, rows, (), attributes(circuits)) if rows else ""


def beside_outages(look, ports, outs):
    """Each port's cell, and its outage beside it where that was told."""
    return [cell for pair in zip(ports, outs) for cell in pair] if look.settled.outages else ports


def attributes(circuits):
    return lambda index: html(' data-circuit="{}"', circuits[index].name)
