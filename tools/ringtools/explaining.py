"""What explain says of a plan: each refusal with its place and what would be right, or that it is good, and warnings."""

import re
from collections import defaultdict
from dataclasses import dataclass
from difflib import get_close_matches
from itertools import islice
from math import isinf

from .checks import arc_of, refusals
from .holding import held_while_passing
from .markup import count_of
from .files import PLAN
from .plan import DEEPEST, LongKey, ManyKeys, PlanProblem, enough, parsed_document, read_plan
from .reasons import REASONS
from .shown import shown
from .source import SHOWN, Place, Source
from .stream import TEXT_BYTES

MOST, COUNTED = 20, 100  # refusals that are shown, and counted
MOST_WORDS = 400  # characters of what is said
ELSEWHERE = (
    "the program reads TOML 1.1, Python's reader and these tools TOML 1.0: a newline or a last comma in `{ .. }`, the "
    "escapes \\e and \\xHH and a time without seconds are TOML 1.1"
)
SINGLE_BRACKETS = re.compile(r"^[ \t]*(\[[ \t]*circuit[ \t]*\])", re.M)


@dataclass(frozen=True)
class Finding:
    """One thing to say: what it is, where, and what to do about it."""

    head: str
    place: Place | None = None
    notes: tuple = ()

    def lines(self, name):
        at = f"{name}:{self.place.line}:{self.place.column}: " if self.place else f"{name}: "
        told = [at + cut(self.head)]
        if self.place:
            told += marked(self.place)
        return [*map(shown, told + [f"  {cut(note)}" for note in self.notes])]


def cut(words: str) -> str:
    """Returns the front of what is long."""
    return words if len(words) <= MOST_WORDS else f"{words[:MOST_WORDS]}.."


def marked(place: Place) -> list[str]:
    """Returns the line with a mark below the place; of a long line the part around it."""
    marks = "^" * max(1, min(place.width, SHOWN - place.at))
    return ["    " + place.part.replace("\t", " "), "    " + " " * place.at + marks]


def nearest(word, right, is_range=False):
    """Of what would be right, what is nearest; nothing where nothing is near. A range has its least and its largest number."""
    if not right:
        return None
    if all(isinstance(choice, int) for choice in right):
        digits = str(word).lstrip("+-")
        number = int(digits) if digits.isdigit() and len(digits) <= 10 else None
        if number is None or is_range:
            return None if number is None else max(min(right), min(max(right), number))
        return min(right, key=lambda choice: (abs(choice - number), choice))
    if len(right) == 1:
        return right[0]
    near = get_close_matches(str(word).lower(), map(str, right), 3, 0.5)
    swapped = [choice for choice in near if sorted(choice) == sorted(str(word).lower())]
    return next(iter(swapped + near), None)


# -- refusals


def thing_at(document, path):
    for key in path:
        try:
            document = document[key]
        except (KeyError, IndexError, TypeError):
            return None
    return document


def wrong_word(document, refusal):
    """The word, the key or the value that is to be another."""
    if refusal.reason == 12:
        return refusal.path[-1]
    thing = thing_at(document, refusal.path)
    if refusal.word is not None and isinstance(thing, str):
        return thing.split(" ")[refusal.word]
    return thing


def choices(right):
    listed = ", ".join(map(str, right[:16]))
    return listed + (", .." if len(right) > 16 else "")


def notes_of(document, refusal):
    notes = []
    is_range = REASONS[refusal.reason].name in ("number", "threshold", "wait", "limit", "offset")
    near = nearest(wrong_word(document, refusal), refusal.right, is_range)
    if near is not None:
        notes.append(f"nearest: {near}")
    if len(refusal.right) > 1 and not is_range:
        notes.append(f"right would be: {choices(refusal.right)}")
    return (*notes, f"what to do: {refusal.advice or REASONS[refusal.reason].advice}")


def of_refusal(document, source, refusal, is_first):
    told = f"bad plan {refusal.reason} at {refusal.place}" if is_first else f"also reason {refusal.reason}"
    head = f"{told}, {REASONS[refusal.reason].name}: {refusal.said}"
    kind = {"circuit": "circuit", "script": "step", "nodes": "node"}.get(refusal.path[0]) if refusal.place else None
    if kind:
        name = thing_at(document, ("circuit", refusal.place - 1, "name")) if kind == "circuit" else None
        head += f" ({kind} {refusal.place}" + (f", {name})" if isinstance(name, str) else ")")
    place = source.of_key(refusal.path) if refusal.reason == 12 else source.of(refusal.path, refusal.word)
    return Finding(head, place, notes_of(document, refusal))


def of_refusals(document: dict, source: Source) -> tuple[tuple[Finding, ...], int]:
    """Returns the first findings, and how many refusals there are in all, as far as they are counted."""
    found = list(islice(refusals(document), COUNTED))
    return tuple(of_refusal(document, source, refusal, i == 0) for i, refusal in enumerate(found[:MOST])), len(found)


# -- no document


def newer(text, at):
    """What is TOML 1.1 where a reader of TOML 1.0 stopped, and what stands for it in TOML 1.0."""
    line = text[text.rfind("\n", 0, at) + 1 :].split("\n", 1)[0]
    near = text[max(0, at - 4) : at + 4]
    if re.search(r"\\(e|x[0-9A-Fa-f]{2})", near):
        return "the escapes \\e and \\xHH", "write \\u001B, or \\u00HH"
    if re.search(r"[0-9]{2}:[0-9]{2}(?![:0-9])", line):
        return "a time without seconds", "a plan needs no times"
    behind = re.match(r"[\s,]*(?:#[^\n]*\n\s*)*\}", text[at:]) or re.match(r"\s*\n", text[at:])
    if text[:at].count("{") > text[:at].count("}") and behind:
        return "a newline or a last comma in `{ .. }`", "write the table in one line without a last comma, or as [[circuit]]"
    return None


def of_no_utf8(data, error):
    text = data[: error.start].decode("utf-8", "replace")
    line, column = text.count("\n") + 1, len(text) - text.rfind("\n")
    head = f"not toml: the byte {data[error.start]:02x} at line {line}, column {column} isn't UTF-8"
    return Finding(head, None, ("what to do: save the file as UTF-8; a plan needs no byte from 128 on",))


def of_single_brackets(source):
    """Circuits that begin with `[circuit]`, which a document may have once at most."""
    first = SINGLE_BRACKETS.search(source.text)
    place = source.place(first.start(1), first.end(1))
    return Finding("not toml: `[circuit]` begins a table that there can be one of", place, ("what to do: begin each circuit with `[[circuit]]`, in double brackets",))


def of_no_toml(text, problem):
    """What the reader said, its place, and whether the program would say the same."""
    found = re.search(r" \(at (?:line (\d+), column (\d+)|end of document)\)", problem)
    said = problem[: found.start()] if found else problem
    at = len(text)
    if found and found[1]:
        at = sum(len(line) + 1 for line in text.split("\n")[: int(found[1]) - 1]) + int(found[2]) - 1
    source = Source("")
    source.text = text
    place = source.place(at, at + 1) if found and found[1] else None
    is_twice = said.startswith(("Cannot declare", "Cannot overwrite"))
    if is_twice and SINGLE_BRACKETS.search(text):
        return of_single_brackets(source)
    if is_twice:
        return Finding(f"not toml: {said}", place, ("what to do: let each key and each table stand once",))
    if feature := newer(text, at):
        head = f"Python's reader stops here, since {feature[0]} is TOML 1.1: the program may read it, and these tools can't"
        return Finding(head, place, (f"what to do: {feature[1]}",))
    return Finding(f"not toml: {said}" + ("" if place else ", at the end of the document"), place, (ELSEWHERE,))


def beyond(value, source, path=()):
    """The paths of numbers that the program's reader doesn't hold."""
    if isinstance(value, int) and not -(2**63) <= value < 2**63:
        yield path, "an integer of more than 64 bits"
    if isinstance(value, float) and isinf(value) and "inf" not in source.text_of(path):
        yield path, "a number too large for a float of 64 bits"
    pairs = value.items() if isinstance(value, dict) else enumerate(value) if isinstance(value, list) else ()
    for key, thing in pairs:
        yield from beyond(thing, source, (*path, key))


def of_limits(document, source):
    """What a document has that the program's reader doesn't take, and Python's does."""
    found = [Finding(f"not toml: {what}", source.of(path)) for path, what in beyond(document, source)]
    if source.deepest > DEEPEST:
        found.append(Finding(f"not toml: arrays and tables lie in one another more than {DEEPEST} levels deep"))
    if source.parts > DEEPEST:
        found.append(Finding(f"not toml: a key has more than {DEEPEST} parts"))
    return found


# -- a good plan


def summary(plan, document):
    nodes, circuits, script = document["nodes"], document.get("circuit", []), document["script"]
    settles = script.count("settle")
    told = [
        f"{len(nodes)} nodes at STM-{document['rate']}, {count_of(len(circuits), 'circuit')}, "
        f"{count_of(len(script), 'step')}, {settles} of them `settle`",
        "nodes eastwards: " + (", " if plan.places.nodes else " ").join(map(plan.places.node, nodes)),
    ]
    for circuit, table in zip(plan.circuits, circuits):
        spans = count_of(len(arc_of(table, nodes)), "span")
        told.append(f"circuit {plan.circuit_name(circuit)}: {plan.node_name(circuit.start)}>{plan.node_name(circuit.end)}, slot {circuit.slot}, {spans}")
    return told


def text_warnings(document, source):
    ports = defaultdict(list)
    for at, table in enumerate(document.get("circuit", [])):
        for end in "ab":
            ports[table[f"text_{end}"]].append((at, end, table["name"]))
    for text, users in ports.items():
        place = source.of(("circuit", users[0][0], f"text_{users[0][1]}"))
        names = choices(tuple(f"{name} {end}" for _, end, name in users))
        if len(users) > 1:
            yield Finding(f"warning: {len(users)} ports send the same text, so an exchange of them can't be seen: {names}", place)
        if TEXT_BYTES % len(text) == 0:
            head = f"warning: {len(text)} divides {TEXT_BYTES}, so this text looks alike in every report and shows no delay"
            yield Finding(head, place, (f"ports: {names}", "what to do: take a text of 7 or 11 letters"))


def name_warnings(plan):
    if plan.unnamed:
        yield Finding(f"warning: {plan.unnamed}; so no names are shown", None, ("what to do: let each node have a name of its own that is no number, once",))


def hold_warnings(plan, source):
    for place, at in held_while_passing(plan):
        head = (
            f"warning: step {place + 1} holds the controller of node {plan.node_name(at)}, which passes traffic through then; "
            "until the next report a customer could get another customer's bytes for some frames"
        )
        yield Finding(head, source.of(("script", place), 1), ("RING.md has more: When a controller is restarted",))


def warnings(plan, document, source):
    nodes, circuits = document["nodes"], document.get("circuit", [])
    if document["limit"] < enough(len(nodes)):
        head = f"warning: with a limit below {enough(len(nodes))} a settle step may be unsettled"
        yield Finding(head, source.of(("limit",)), (f"what to do: write limit = {enough(len(nodes))}",))
    ends = {table[key] for table in circuits for key in ("from", "to")}
    bare = [node for node in nodes if node not in ends]
    if bare and circuits:
        bare_names = choices([plan.places.node(node) for node in bare])
        yield Finding(f"warning: no circuit ends at {'node' if len(bare) == 1 else 'nodes'} {bare_names}", source.of(("nodes",)))
    if not circuits:
        yield Finding("warning: there are no circuits, so a report shows no customer")
    yield from text_warnings(document, source)
    yield from hold_warnings(plan, source)
    yield from name_warnings(plan)


# -- the whole


@dataclass(frozen=True)
class Explanation:
    status: int  # with which the program would end: 0, 5, 6 or 9; 1 where that can't be told
    findings: tuple
    good: tuple = ()  # what a good plan has
    document: dict | None = None
    source: Source | None = None
    count: int = 0  # of refusals, which are counted up to COUNTED, where there are more than findings


def explain(data):
    if len(data) > PLAN.bytes:
        head = f"too long: more than {PLAN.bytes:,} bytes, which is the most that a plan has"
        return Explanation(9, (Finding(head),))
    try:
        text = data.decode("utf-8-sig")
    except UnicodeDecodeError as error:
        return Explanation(5, (of_no_utf8(data, error),))
    try:
        document = parsed_document(data)
    except LongKey:
        return Explanation(5, (Finding(f"not toml: a key has more than {DEEPEST} parts"),))
    except ManyKeys as problem:
        return Explanation(1, (Finding(str(problem)),))
    except PlanProblem as problem:
        finding = of_no_toml(text, str(problem).removeprefix("no TOML document: "))
        return Explanation(5 if finding.head.startswith("not toml") else 1, (finding,))
    try:
        source = Source(text)
        found = of_limits(document, source)
    except RecursionError:
        found = [Finding(f"not toml: keys or values lie in one another more than {DEEPEST} levels deep")]
    if found:
        return Explanation(5, tuple(found))
    found, count = of_refusals(document, source)
    if found:
        return Explanation(6, found, count=count)
    plan = read_plan(data)
    return Explanation(0, tuple(warnings(plan, document, source)), tuple(summary(plan, document)), document, source)


def of_unsettled(explanation, step):
    """That a settle step ran out of rounds, and the limit that is enough. Without its number the limit is shown."""
    document, source = explanation.document, explanation.source
    places = [at for at, text in enumerate(document["script"]) if text == "settle"]
    bound, limit = enough(len(document["nodes"])), document["limit"]
    head = f"unsettled{f' {step}' if step else ''}: a settle step ran all {limit} rounds of the limit without a quiet window"
    note = f"what to do: write limit = {bound}, 64 for each node and 512 more, which is always enough"
    if limit >= bound:
        note = f"a limit of {bound} is always enough over honest fibres: this text isn't of this plan"
    is_there = step and step <= len(places)
    return Finding(head, source.of(("script", places[step - 1]) if is_there else ("limit",)), (note,))


def of_no_port(explanation):
    names = choices(tuple(table["name"] for table in explanation.document.get("circuit", [])))
    return Finding("no such port: `drop` asks for a circuit that the plan doesn't have", None, (f"its circuits: {names}",))


def of_last_line(explanation, last):
    """What the last line of the program's text says beyond the plan itself."""
    if explanation.status == 0 and (found := re.fullmatch("unsettled( [1-9][0-9]{0,2})?", last)):
        return of_unsettled(explanation, int(found[1] or 0))
    if explanation.status == 0 and last == "no such port":
        return of_no_port(explanation)
    if explanation.status == 0 and re.fullmatch("bad plan .*|not toml|too long", last):
        return Finding(f"the program answers `{last}`, and nothing is found here: the text isn't of this plan")
    return None
