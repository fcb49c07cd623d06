"""What a cell or a word means by `span A-B`, `place A` or `fibre A>B`, with `in RING` after it where several rings have one."""

from dataclasses import dataclass

from .model import Kind, Network, NetworkProblem, Ring, key_of

SIGNS = ("-", "–")
FORMS = "`span A-B`, `fibre A>B`, `place A`, each with ` in RING` after it where only one ring is meant"


@dataclass(frozen=True)
class Part:
    """One failure of one ring: its kind, the position where it is, and the side for a fibre or a switch."""

    ring: int
    kind: Kind
    at: int
    side: str = ""


class Members:
    """The failures of a network by what people call them."""

    def __init__(self, network: Network):
        self.network = network

    def ring_at_end(self, words: str) -> tuple[str, list[Ring]]:
        """Returns the words without `in RING`, and the rings that are meant: all of them where none is named."""
        at = len(words)
        while (at := words.rfind(" in ", 0, at)) >= 0:
            ring = self.network.ring_of(words[at + 4 :])
            if ring is not None:
                return words[:at], [ring]
        return words, self.network.rings

    def parts(self, text: str) -> tuple[Part, ...]:
        """Returns the parts of all rings that the words mean, or raises a NetworkProblem that says what would be right."""
        kind, _, rest = " ".join(text.split()).partition(" ")
        words, rings = self.ring_at_end(rest)
        kind = kind.casefold()
        if kind in ("place", "node"):
            return self.place(text, words, rings)
        if kind not in ("span", "fibre"):
            raise NetworkProblem(f"`{text.strip()}` names no failure: {FORMS}")
        found = [part for ring in rings for part in between(ring, kind, words)]
        if len({part.ring for part in found}) > 1:
            names = " and ".join(self.network.rings[part.ring].name for part in found)
            raise NetworkProblem(
                f"`{text.strip()}` is in {names}: write `{text.strip()} in {self.network.rings[found[0].ring].name}`"
            )
        if not found:
            raise NetworkProblem(f"`{text.strip()}`: {self.why_not(kind, words, rings)}")
        return tuple(found[:1])

    def place(self, text: str, words: str, rings: list[Ring]) -> tuple[Part, ...]:
        """A place, which has a node in each ring that comes there."""
        found = [Part(ring.number, Kind.PLACE, at) for ring in rings if (at := ring.at(words)) is not None]
        if not found:
            near = self.near(words)
            where = (
                f"ring {rings[0].name} doesn't come to `{words}`"
                if len(rings) == 1 and key_of(words) in self.network.rings_at
                else f"no ring comes to `{words}`"
            )
            raise NetworkProblem(f"`{text.strip()}`: {where}{near}")
        return tuple(found)

    def near(self, words: str) -> str:
        """Returns the places whose names begin as these words do, or are most like them."""
        import difflib

        names = self.network.place_names
        found = difflib.get_close_matches(key_of(words), names, n=3, cutoff=0.6)
        return f"; there is {', '.join(names[key] for key in found)}" if found else ""

    def why_not(self, kind: str, words: str, rings: list[Ring]) -> str:
        """Returns why no span or fibre is called so: an unknown place, or two places that aren't neighbours."""
        for one, other in splits(words, SIGNS if kind == "span" else (">",)):
            missing = [name for name in (one, other) if key_of(name) not in self.network.rings_at]
            if not missing:
                beside = sorted(
                    {
                        ring.places[(at + way) % ring.size]
                        for ring in rings
                        if (at := ring.at(one)) is not None
                        for way in (1, -1)
                    }
                )
                return f"no span joins {one} and {other}; the neighbours of {one} are {', '.join(beside) or 'none in this ring'}"
            if len(missing) == 1:
                return f"no ring comes to `{missing[0]}`{self.near(missing[0])}"
        return f"two places are wanted, as {FORMS}"


def splits(words: str, signs: tuple[str, ...]) -> list[tuple[str, str]]:
    """Returns each way to read the words as two names with a sign between them; names may have hyphens of their own."""
    places = [at for at, letter in enumerate(words) if letter in signs]
    return [(words[:at].strip(), words[at + 1 :].strip()) for at in places]


def between(ring: Ring, kind: str, words: str) -> list[Part]:
    """Returns the span or the fibre of a ring between two neighbours; none where the words name no two of them.

    In a ring of two nodes a span is the one that leads eastwards from the first place, and a fibre lies in that span.
    """
    for one, other in splits(words, SIGNS if kind == "span" else (">",)):
        here, there = ring.at(one), ring.at(other)
        if here is None or there is None or here == there:
            continue
        if (here + 1) % ring.size == there:
            return [
                Part(ring.number, Kind.SPAN, here) if kind == "span" else Part(ring.number, Kind.FIBRE, here, "east")
            ]
        if (there + 1) % ring.size == here:
            return [
                Part(ring.number, Kind.SPAN, there) if kind == "span" else Part(ring.number, Kind.FIBRE, here, "west")
            ]
    return []
