"""Names of places and of customers, which a plan keeps in comments of one form:

    # node 3 is Köln
    # circuit c7 is North line, second pair

The program skips comments, so that names are for people and tools alone. Only `written` writes this form, and only `read_places` reads it.
"""

import re
import unicodedata
from collections.abc import Sequence
from dataclasses import dataclass, field

from .checks import is_decimal, why_no_name
from .source import STRINGS

DRAWN = 18  # of a place in a drawing; its title has the whole name
# Words beside which a number names a node, a span or a side of one: what consists of these and of numbers is no name.
BESIDE_NUMBERS = frozenset("node nodes ne span fibre link east west eastward westward eastwards westwards ost e w to towards nach".split())
NAMED = re.compile(r"# (node|circuit) (\S+) is (\S(?:.*\S)?)[ \t\r]*")
PARTS = re.compile("|".join([*(f"(?:{form.pattern})" for form in STRINGS), "(?P<comment>#[^\n]*)"]), re.S)
SIDES_ALONE = frozenset("east west eastward westward eastwards westwards ost".split())


class PlaceProblem(Exception):
    """A name can't be kept, or two comments name one thing."""


@dataclass
class Places:
    """Names by identifiers of nodes and by names of circuits; what has none is shown as it is."""

    nodes: dict = field(default_factory=dict)
    circuits: dict = field(default_factory=dict)

    def node(self, number):
        """A node beside its number, as `3 Köln`."""
        return f"{number} {self.nodes[number]}" if number in self.nodes else str(number)

    def place(self, number):
        """A node by its name alone, where it has one."""
        return self.nodes.get(number, str(number))

    def drawn(self, number):
        """The name of a place as far as a drawing has room for it."""
        name = self.nodes.get(number, "")
        return name if len(name) <= DRAWN else name[: DRAWN - 1] + "…"

    def span(self, one, other):
        """The span between two nodes by their names alone, as `Köln–Bonn`."""
        return f"{self.place(one)}–{self.place(other)}"

    def positions(self, ids):
        """Where the nodes of a ring stand, by what they are called: their identifiers as words, and their places in small letters."""
        called = {self.nodes[number].casefold(): at for at, number in enumerate(ids) if number in self.nodes}
        return called | {str(number): at for at, number in enumerate(ids)}

    def circuit(self, name):
        """A circuit by the name that its customer knows."""
        return self.circuits.get(name, name)


def composed(words: str) -> str:
    """Returns words with each accent in its letter, so that names that look alike are alike."""
    return unicodedata.normalize("NFC", words)


def why_no_place(name: str) -> str | None:
    """Returns what is wrong with a name of a place, or None. `2`, `-2`, `node 2`, `2 east` and `2-3` would be read as identifiers in some list, and as the name in another."""
    words = re.findall(r"\w+", unicodedata.normalize("NFKC", name).casefold())
    if len(words) == 1 and words[0] in SIDES_ALONE:
        return "a side's word would be read as that side"
    if any(map(str.isdecimal, words)) and all(word.isdecimal() or word in BESIDE_NUMBERS for word in words):
        return "a number alone, or beside words such as node and east, would be read as an identifier"
    return why_no_name(name)


def written(kind, number, name):
    """The comment that keeps a name: `kind` is node or circuit, and `number` its identifier or its name in the plan."""
    if why := (why_no_place if kind == "node" else why_no_name)(name):
        raise PlaceProblem(f"{kind} {number}, `{name}`: {why}")
    return f"# {kind} {number} is {name}"


def comments_of(text):
    """Each comment of a document that TOML readers accept, and where it begins."""
    for found in PARTS.finditer(text):
        if found["comment"]:
            yield found.start(), found["comment"]


def read_places(data):
    """Returns the names that a plan's comments give. Those of nodes and circuits that the plan doesn't have are kept too."""
    places, text = Places(), composed(data.decode("utf-8-sig"))
    for at, comment in comments_of(text):
        found = NAMED.fullmatch(comment)
        if not found or found[1] == "node" and not is_decimal(found[2]) or why_no_name(found[3]):
            continue
        names = places.nodes if found[1] == "node" else places.circuits
        number = int(found[2]) if found[1] == "node" else found[2]
        why = f"{names[number]} before" if names.setdefault(number, found[3]) != found[3] else found[1] == "node" and why_no_place(found[3])
        if why:
            line = text.count("\n", 0, at) + 1
            raise PlaceProblem(f"line {line}: {found[1]} {number} is named {found[3]}, and {why}")
    return places


def check_once(places: Places, ids: Sequence[int]) -> None:
    """Raises PlaceProblem where two nodes of a ring have one name, in large or small letters."""
    named = [(number, places.nodes[number]) for number in ids if number in places.nodes]
    first: dict[str, int] = {}
    for number, name in named:
        if (other := first.setdefault(name.casefold(), number)) != number:
            raise PlaceProblem(f"nodes {other} and {number} are both named {name}")


def shown_places(data: bytes, ids: Sequence[int]) -> tuple[Places, str]:
    """Returns the names that are read and shown of a ring's plan; or none, and why: where one name isn't clear, none is taken, so that all tools read one list one way."""
    try:
        places = read_places(data)
        check_once(places, ids)
    except PlaceProblem as problem:
        return Places(), str(problem)
    return places, ""
