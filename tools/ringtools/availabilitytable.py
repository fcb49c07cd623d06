"""What an availability comes to, as a text for people, and as records for programs: CSV, or JSON with one record in a line."""

import json

from .availability import MINUTES, PROTECTIONS, Seen
from .cells import text_of_records
from .markup import count_of

SHARES = (
    "plan",
    "circuit",
    "called",
    "from",
    "to",
    "from_place",
    "to_place",
    "protection",
    "unavailability",
    "minutes",
    "nines",
    "ends",
    "alone",
    "together",
    "script",
    "switches",
    "frames",
)
CAUSES = ("plan", "circuit", "called", "protection", "component", "other", "minutes")
PARTS = """The same minutes of the shared ring by cause: an end node is down; else another component that alone is enough; else
several together. Then a year's switches, the failures on its arc that it survives; and the most frames of 125 us that
it is out by these and by their repairs, fibre delay not included.

"""
MOST = """Main causes of loss in the shared ring, and the minutes a year for which all of a cause is down:

"""


def named(plan, places, circuit):
    here, there = plan.ids[circuit.start], plan.ids[circuit.end]
    return {
        "circuit": circuit.name,
        "called": places.circuit(circuit.name),
        "from": here,
        "to": there,
        "from_place": places.nodes.get(here, ""),
        "to_place": places.nodes.get(there, ""),
    }


def share_records(plan, places, components, left):
    """A record for each circuit and kind of protection. Parts are in minutes a year; switches and frames are those of a shared ring."""
    for circuit in plan.circuits:
        seen = Seen(plan, circuit, components, left)
        for protection in PROTECTIONS:
            share = seen.share(protection)
            parts = {part: getattr(share, part) * MINUTES for part in ("ends", "alone", "together", "script")}
            switches, frames = seen.switches() if protection == "shared" else (None, None)
            record = named(plan, places, circuit) | {"protection": protection, "unavailability": share.whole, "minutes": share.minutes, "nines": share.nines}
            yield record | parts | {"switches": switches, "frames": frames}


def cause_records(plan, places, components, left):
    """A record for each circuit, kind of protection, and component or pair of components with which it is lost."""
    for circuit in plan.circuits:
        seen, who = Seen(plan, circuit, components, left), named(plan, places, circuit)
        for protection in PROTECTIONS:
            for cause in seen.causes(protection):
                names = [component.name for component in cause.components] + [""]
                yield {"circuit": who["circuit"], "called": who["called"], "protection": protection, "component": names[0], "other": names[1], "minutes": cause.minutes}


def as_csv(columns, records) -> str:
    """Numbers with all their digits, and empty cells for what isn't there."""
    return text_of_records(columns, records)


def as_json(columns, records):
    """An array with one record in a line; null for what isn't there."""
    lines = (json.dumps({column: record[column] for column in columns}, ensure_ascii=False) for record in records)
    return "[\n" + ",\n".join(lines) + "\n]\n"


def aligned(rows):
    """Rows of cells, the first of which names the columns; numbers stand to the right."""
    widths = [max(len(row[column]) for row in rows) for column in range(len(rows[0]))]
    is_number = [all(row[column][:1].isdigit() or row[column] in ("", "never") for row in rows[1:]) for column in range(len(rows[0]))]
    put = lambda cell, column: cell.rjust(widths[column]) if is_number[column] else cell.ljust(widths[column])
    return "\n".join("  ".join(put(cell, column) for column, cell in enumerate(row)).rstrip() for row in rows) + "\n"


def minutes_words(minutes):
    """Four digits that count, and never a power of ten."""
    if minutes == 0:
        return "0"
    digits = max(0, 3 - len(str(int(minutes))) + 1) if minutes >= 1 else 4
    return f"{minutes:.{digits}f}" if minutes >= 0.0001 else f"{minutes:.10f}".rstrip("0").rstrip(".") or "0"


def nines_words(nines):
    return "never" if nines is None else f"{nines:.2f}"


LOSS_HEADS = ("circuit", "from", "to", "shared ring", "nines", "path ring", "nines", "unprotected", "nines")
PART_HEADS = ("circuit", "end nodes", "one alone", "several", "switches", "frames out")


def loss_row(plan, places, circuit, seen):
    """The minutes of a year, and nines, under each kind of protection."""
    shares = [seen.share(protection) for protection in PROTECTIONS]
    ends = [places.place(plan.ids[at]) for at in (circuit.start, circuit.end)]
    return [places.circuit(circuit.name), *ends, *(words for share in shares for words in (minutes_words(share.minutes), nines_words(share.nines)))]


def part_row(places, circuit, seen):
    """The parts of the shared ring's minutes, and what switching costs there."""
    share, (switches, frames) = seen.share("shared"), seen.switches()
    parts = [minutes_words(part * MINUTES) for part in (share.ends, share.alone, share.together)]
    return [places.circuit(circuit.name), *parts, *(["", ""] if switches is None else [f"{switches:.3f}", f"{frames:.1f}"])]


def main_causes(plan, places, components, left, most=3):
    """Returns the longest causes of each circuit, in words."""
    for circuit in plan.circuits:
        causes = Seen(plan, circuit, components, left).causes("shared")
        words = [f"{' with '.join(one.name for one in cause.components)} {minutes_words(cause.minutes)}" for cause in causes[:most]]
        yield f"  {places.circuit(circuit.name)}: {'; '.join(words) or 'none'}"


def head_of(plan, components, left, nodes_fail):
    kinds = [(kind, sum(one.kind == kind for one in components)) for kind in ("span", "fibre", "node", "group")]
    yield f"{count_of(len(plan.circuits), 'circuit')}; components: {', '.join(count_of(count, kind) for kind, count in kinds if count)}."
    yield "All fail and are repaired independently of one another, in steady state; a year has 525,600 minutes."
    if not nodes_fail:
        yield "Nodes never fail: there is no table of nodes."
    if len(plan.circuits) > plan.rate // 2:
        yield f"A path ring of this rate has room for {plan.rate // 2} circuits in all; each of these is counted as if it were one of them."
    if not left.is_healthy:
        spans = ", ".join(plan.span_name(span) for span in sorted(left.applied)) or "no span that stays applied"
        yield f"The ring is the one that the plan's script leaves: {spans}; switches aren't counted, since their law is that of a healthy ring."


def as_text(plan, places, components, left, nodes_fail):
    seen = [(circuit, Seen(plan, circuit, components, left)) for circuit in plan.circuits]
    losses = [LOSS_HEADS] + [loss_row(plan, places, *one) for one in seen]
    parts = [PART_HEADS] + [part_row(places, *one) for one in seen]
    return "\n".join(
        (
            "\n".join(head_of(plan, components, left, nodes_fail)) + "\n",
            "Minutes of a year in which a circuit is lost, and the nines of its availability:\n\n" + aligned(losses),
            PARTS + aligned(parts),
            MOST + "\n".join(main_causes(plan, places, components, left)) + "\n",
        )
    )
