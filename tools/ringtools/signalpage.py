"""The page of a ring's signalling: for each settle step that changes anything its space-time diagram, and the ring round by round."""


from .escaping import Markup, data, drawn, html, joined, lines
from .flights import flights
from .kbytes import CODES
from .markup import codes, folded, listing, origin_list, table, warning, whole
from .model import CUT, scenes
from .outages import milliseconds
from .page import about, in_short
from .plan import SIDES
from .signalring import SignalRing, fibre_words, shown_state
from .spacetime import SpaceTime

READ = (
    "Nodes are columns in ring order, and the first one stands again at the end, where the ring goes on. Rounds go downwards; a round is the time of a frame, "
    "125 microseconds, and milliseconds count from the first round of the step. The delay of the fibres themselves is not included. "
    "A word is heard once three frames in a row have brought it, so its line ends at the next node three rounds lower. "
    "Letters are those of ITU-T G.841: code, destination, source, S or L for the short or the long path, and what the sender's mark says: "
    "Id idle, Br bridged, BrSw bridged and switched, RDI that its side there fails."
)
WAY = html('<line class="way" x1="2" y1="9" x2="44" y2="9"/>')
BARS = [
    (html('<rect class="whole" x="16" y="1" width="14" height="16"/>'), "bar-idle", "idle"),
    (html('<rect class="whole" x="16" y="1" width="14" height="16"/>'), "bar-pass", "passes through"),
    (html('<rect class="whole" x="16" y="1" width="14" height="16"/><rect class="half" x="23" y="1" width="7" height="16"/>'), "bar-switch-east", "switches the shaded side"),
    (html('<rect class="whole" x="16" y="1" width="14" height="16"/>'), "bar-isolated", "isolated"),
]
OTHERS = [
    (html('<g class="flight code-SF"><line class="way" x1="4" y1="9" x2="30" y2="9"/><line class="stop" x1="30" x2="30" y1="4" y2="14"/></g>'), "not heard at the next node"),
    (html('<g class="flight code-SF alone"><line class="way" x1="2" y1="9" x2="44" y2="9"/></g>'), "only the mark is new, which comes with the next frame"),
    (html('<g class="ask"><rect x="12" y="3" width="22" height="12" rx="2"/><text x="23" y="12.5" text-anchor="middle">SF</text></g>'), "what a side asks for by itself, from here on"),
    (html('<rect class="still" x="4" y="1" width="38" height="16"/>'), "rounds in which nothing changes, drawn closer together"),
    (html('<g class="tick loses"><path d="M18 4L28 4L23 13Z"/></g>'), "a port loses its own customer's bytes"),
    (html('<g class="tick gets"><path d="M18 13L28 13L23 4Z"/></g>'), "a port gets them again"),
    (html('<g class="tick jumps"><path d="M18 9L23 4L28 9L23 14Z"/></g>'), "a port gets a frame that doesn't follow the one before, or is torn"),
]


def sample(shape: Markup, words: str) -> Markup:
    """Returns a sign of the diagram with what it means."""
    return html('<svg class="drawing spacetime" width="46" height="18" viewBox="0 0 46 18" aria-hidden="true">{}</svg>{}', shape, words)


def legend() -> Markup:
    """Returns what lines, bars and marks mean."""
    items = [sample(html('<g class="flight code-{}">{}</g>', name, WAY), f"{name}: {words}") for name, words in CODES.values()]
    items += [sample(html('<g class="bar {}">{}</g>', kind, shape), words) for shape, kind, words in BARS]
    items += [sample(shape, words) for shape, words in OTHERS]
    return html('<ul class="legend">{}</ul>', joined(html("<li>{}</li>", item) for item in items))


HEADS = ["node", "state", "sends west", "sends east", "hears west", "hears east", "asks west", "asks east"]


def held(signals):
    """What holds at a node: texts, and of a word its two bytes and its letters."""
    words = [words[side] for words in (signals.sent, signals.heard) for side in SIDES]
    told = [(word.hexadecimal(), word.letters()) if word else "-" for word in words]
    return [signals.state_words(), *told, *(signals.asks[side].upper() for side in SIDES)]


def cells(plan, at, signals):
    """The same as the cells of a row."""
    shown = (cell if isinstance(cell, str) else html("<code>{}</code> {}", *cell) for cell in held(signals))
    return [plan.node_name(at), *shown]


def row_of(plan, at, signals):
    """The same for the page's script: the state as a mark of the drawing and in words, the words on both fibres, and what the cells have."""
    fibres = [[CODES[word.code][0], word.letters(), fibre_words(plan, at, side, word)] for side, word in signals.sent.items()]
    return [signals.state, shown_state(signals), fibres, held(signals)]


def data_of(plan, stretch, scale):
    """All that the script wants to show any round of a settle step. In a new ring nothing held before, and each node has a line at once."""
    known = [*enumerate(stretch.begin or stretch.end()), *((change.at, change.signals) for change in stretch.changes)]
    numbered = enumerate(stretch.changes, plan.size)
    return {
        "first": stretch.first,
        "until": scale.until,
        "begin": list(range(plan.size)),
        "rows": [row_of(plan, at, signals) for at, signals in known],
        "changes": [[change.round, change.at, number] for number, change in numbered],
        "ys": scale.ys,
    }


def player(plan, stretch, scene, diagram):
    """The ring with its slider, and what each node does in the round that it shows."""
    number, scale = stretch.number, diagram.scale
    ring = drawn(SignalRing(plan, stretch, scene.conditions).draw())
    slider = html('<input type="range" id="slide{}" min="{}" max="{}" value="{}" step="1">', number, max(0, stretch.first - 1), scale.until, scale.until)
    buttons = html('<button type="button" class="back">◀ change before</button> <button type="button" class="on">next change ▶</button>')
    controls = html('<p class="slide" hidden><label for="slide{}">Round <output></output></label>{}{}</p>', number, slider, buttons)
    now = stretch.end()
    nodes = table("Nodes in this round", HEADS, [cells(plan, at, now[at]) for at in range(plan.size)])
    still = html('<p class="note still">As it is from round {} on.</p>', stretch.quiet())
    step = html('<div class="step"><figure class="rounds"><div class="frame">{}</div></figure>{}</div>', ring, nodes)
    known = html('<script type="application/json">{}</script>', data(data_of(plan, stretch, scale)))
    return html('<div class="player">{}{}{}{}</div>', controls, still, step, known)


def spans_cut(plan, scene):
    """What the fibres are in the step, where they aren't clear."""
    words = lambda condition: "cut" if condition == CUT else f"degraded by {condition}"
    return [f"{plan.node_name(at)} {side}: {words(condition)}" for (at, side), condition in scene.conditions.items() if condition != "clear"]


def in_words(plan, stretch, ticks):
    """What happens in the step, in numbers: when it begins and comes to rest, and how many words change."""
    last, found = stretch.quiet(), flights(plan, stretch)
    rest = f"The last change of a word, a state or a request is in round {last}, {milliseconds(last - stretch.first)} ms after the step's first round."
    words = f"Words that are new on a side: {len(found)}, {sum(one.is_mark for one in found)} of them by the mark alone."
    ports = {port for tick in ticks for port in tick.ports}
    return [rest, words] + ([f"Ports that lose or get their own customer's bytes: {len(ports)}; the triangles at the bars."] if ports else [])


def step_section(plan, stretch, scene, ticks):
    number = stretch.number
    parts = [html('<section id="step{}" class="signal-step"><h2>Settle step {}, from round {} on</h2>', number, number, stretch.first)]
    script = codes(step.text for step in scene.steps) or "nothing"
    fibres = f"Fibres: {'; '.join(cut)}." if (cut := spans_cut(plan, scene)) else "All fibres are clear."
    parts.append(html("<p>The script did before it: {}. {}</p>", script, fibres))
    if not stretch.changes:
        return lines(*parts, html("<p>Nothing changes in it.</p></section>"))
    parts.append(listing(in_words(plan, stretch, ticks)))
    diagram = SpaceTime(plan, stretch, ticks, page=True)
    kind = "diagram small" if diagram.scale.wide < 900 else "diagram"
    parts.append(html('<figure class="figure {}"><div class="frame">{}</div></figure>', kind, drawn(diagram.draw())))
    return lines(*parts, player(plan, stretch, scene, diagram), html("</section>"))


def scenes_of(plan, signalling):
    """What the script did, and what the fibres are, in each settle step."""
    return scenes(plan, [stretch.quiet() if stretch.last is None else stretch.last for stretch in signalling.stretches])


def ending(plan, signalling):
    if signalling.unsettled is not None:
        return html('<p class="alarm">Settle step {} didn\'t settle within the limit of {} rounds; the run ended there.</p>', signalling.unsettled, plan.limit)
    return "" if signalling.last == "done" else html('<p class="alarm">The run broke off: {}.</p>', signalling.last)


def signal_page(title, plan, signalling, ticks, sources):
    """`ticks` has those of each settle step, in order; `sources` are the origin of the lines, and the words for that of the ticks."""
    origin, of_ticks = sources
    parts = [html("<h1>{}: who says what, round by round</h1>", title), warning(origin), ending(plan, signalling)]
    parts += [html("<p>{}</p>", about(plan)), in_short(origin), folded("How to read the diagrams", html("<p>{}</p>{}", READ, legend()), open=True)]
    for stretch, scene, marks in zip(signalling.stretches, scenes_of(plan, signalling), ticks):
        parts.append(step_section(plan, stretch, scene, marks))
    parts.append(html('<section id="source"><h2>Where this comes from</h2>{}<p class="note">Where ports lose and get bytes: {}.</p></section>', origin_list(origin), of_ticks))
    return whole(f"Signalling: {title}", lines(*parts), ["spacetime.css", "signals.css"], ["signals.js"])
