"""The signalling rules of one node in one round, rule by rule. A K word is (code, to, from, path, mark), a side 0 (west) or 1 (east)."""
from functools import lru_cache

NR, RR, WTR, MS, SD, SF, FS = 0, 1, 5, 6, 8, 11, 13
SHORT, LONG = 0, 1
IDLE, BRIDGED, BRIDGED_SWITCHED, RDI = 0, 1, 2, 6


def hears(brought):
    """The word heard of what the last three rounds brought: it came in each of them, whatever its mark."""
    first, second, last = brought
    if None in brought or not first[:4] == second[:4] == last[:4]:
        return None
    return last


class Look:
    """What a node sees in one round: its identifier, its neighbours', its sides' local requests, which fail, and the words heard."""

    def __init__(self, me, neighbours, local, fails, heard):
        self.me, self.neighbours, self.local, self.fails = me, neighbours, local, fails
        self.short = [self.short_on(d, heard[d]) for d in (0, 1)]
        self.long = [word if word and word[3] == LONG and word[0] >= WTR else None for word in heard]
        self.weight = [max(local[d], self.short[d]) for d in (0, 1)]

    def short_on(self, d, word):
        if word and word[1:4] == (self.me, self.neighbours[d], SHORT) and word[0] >= WTR:
            return word[0]
        return 0

    def about(self, d):
        """Whether the long word that came in on the other side speaks of the span on this one."""
        word = self.long[1 - d]
        return word is not None and word[1:3] == (self.me, self.neighbours[d])

    def offered(self, d):
        """The words that could leave on a side, as (kind, weight, word without its mark or whole)."""
        e, words = 1 - d, {}
        if self.weight[d] > 0:
            code = self.local[d] if self.local[d] >= self.short[d] else RR
            words["short"] = self.weight[d], (code, self.neighbours[d], self.me, SHORT)
        if self.weight[e] > 0:
            words["long"] = self.weight[e], (self.weight[e], self.neighbours[e], self.me, LONG)
        if self.long[e] and self.me not in self.long[e][1:3]:
            words["relayed"] = self.long[e][0], self.long[e]
        return words

    def chosen(self, d):
        """The kind of the word that leaves on a side, and the word."""
        words = self.offered(d)
        if self.weight[d] >= SF:
            return "short", words["short"][1]
        if self.weight[1 - d] >= SF:
            return "long", words["long"][1]
        top = max((weight for weight, _ in words.values()), default=0)
        for kind in ("short", "long", "relayed"):
            if kind in words and words[kind][0] == top:
                return kind, words[kind][1]
        return "none", (NR, self.neighbours[d], self.me, SHORT)

    def switches(self, d):
        mine = self.weight[d]
        if mine >= SF:
            return True
        if not WTR <= mine <= SD or self.weight[1 - d] >= mine:
            return False
        others = [self.long[d]] + ([] if self.about(d) else [self.long[1 - d]])
        return all(word is None or word[0] < mine for word in others)


@lru_cache(maxsize=None)
def step(identifiers, *seen):
    """The state as (name, far end or None), and the words that leave west and east, of what a node sees (`Look`)."""
    look = Look(*seen)
    switched = [d for d in (0, 1) if look.switches(d)]
    kinds, words = zip(*(look.chosen(d) for d in (0, 1)))
    name, far = "idle", None
    if len(switched) == 2:
        name = "isolated"
    elif switched:
        name = ("switch-west", "switch-east")[switched[0]]
        came = look.long[1 - switched[0]]
        if came and came[2] in identifiers and came[2] != look.me:
            far = came[2]
    elif kinds == ("relayed", "relayed"):
        name = "pass"
    own = BRIDGED_SWITCHED if far is not None else BRIDGED if len(switched) == 1 else IDLE
    marks = [RDI if look.fails[d] else own for d in (0, 1)]
    return (name, far), tuple(word if kind == "relayed" else (*word, mark) for kind, word, mark in zip(kinds, words, marks))


def written(word):
    """A word's two bytes, as a report has them."""
    code, to, sender, path, mark = word
    return f"{16 * code + to:02x} {16 * sender + 8 * path + mark:02x}"
