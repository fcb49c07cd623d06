"""What the marks of a drawing mean."""

from .escaping import html, joined

# A sample's inside in a box of 46 by 18, and the words.
LEGEND = [
    (html('<path class="fibre" d="M2 9H44"/><path class="arrow" d="M36 9l-8-4v8z"/>'), "fibre, and its way"),
    (html('<path class="fibre-cut" d="M2 9H44"/><path class="cross" d="M18.5 4.5l9 9m0-9l-9 9"/>'), "fibre cut"),
    (html('<path class="fibre-degraded" d="M2 9l4-3 5 6 5-6 5 6 5-6 5 6 5-6 5 6 3-3"/>'), "fibre degraded, →k eastwards, ←k westwards"),
    (html('<path class="applied-edge sample" d="M2 9H44"/><path class="applied sample" d="M3.6 9H42.4"/>'), "span whose request is applied"),
    (
        html('<path class="own" d="M5 9H41"/><circle class="port own" cx="5" cy="9" r="4"/><circle class="port own" cx="41" cy="9" r="4"/>'),
        "circuit on its own arc; each port delivers its own customer's bytes",
    ),
    (
        html('<path class="over" d="M2 9H21"/><path class="over protection" d="M21 9H44"/>'),
        "circuit led over protection; the broken line is protection",
    ),
    (html('<path class="unused" d="M2 9H44"/>'), "stretch of its arc that it doesn't use now"),
    (
        html(
            '<path class="lost" d="M8 9H38"/><rect class="port-ais" x="2" y="5" width="8" height="8"/>'
            '<rect class="port-ais" x="36" y="5" width="8" height="8"/>'
            '<path class="port-cross" d="M2 5l8 8m0-8l-8 8M36 5l8 8m0-8l-8 8"/>'
        ),
        "circuit not joined; its ports deliver AIS",
    ),
    (html('<path class="port-wrong" d="M23 2l8 13H15z"/>'), "port that does NOT deliver what the restoration model says"),
    (
        html('<circle class="node node-idle" cx="12" cy="9" r="7.5"/><circle class="node node-pass" cx="34" cy="9" r="7.5"/>'),
        "node idle; node that passes through",
    ),
    (
        html('<circle class="node" cx="12" cy="9" r="7.5"/><path class="half" d="M12 2.5a6.5 6.5 0 0 1 0 13z"/><circle class="node node-isolated" cx="34" cy="9" r="7.5"/>'),
        "node that switches the shaded side; isolated node",
    ),
    (html('<text class="state" x="23" y="14" text-anchor="middle">⚑</text>'), "command of a side"),
    (html('<path class="changed" d="M2 9H44"/><path class="own" d="M2 9H44"/>'), "changed since the step before"),
]


def legend():
    sample = lambda shape: html('<svg class="drawing" width="46" height="18" viewBox="0 0 46 18" aria-hidden="true">{}</svg>', shape)
    items = [html("<li>{}{}</li>", sample(shape), words) for shape, words in LEGEND]
    return html('<ul class="legend">{}</ul>', joined(items))
