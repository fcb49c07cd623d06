"""Each change of a word on its way to the next node: when it left, and when it is heard there, if at all."""

from dataclasses import dataclass

from .kbytes import Word
from .plan import SIDES

FRAMES = 3  # a word is heard once this number of frames in a row have brought it
OTHER = {"west": "east", "east": "west"}


@dataclass(frozen=True)
class Flight:
    """A word that leaves a position on a side from a round on. Where its mark alone is new, `is_mark`; where nobody hears it, `heard` is None."""

    at: int
    side: str
    round: int
    word: Word
    is_mark: bool
    heard: int | None

    def arrives(self):
        """The round in which it is heard; where it isn't, that in which its first frame comes."""
        return self.round + 1 if self.heard is None else self.heard


def at_round(history, now):
    """What holds in a round by a history of pairs."""
    return next((signals for begun, signals in reversed(history) if begun <= now), None)


def flight(plan, stretch, at, side, sent):
    """The flight of a word, where `sent` is the round, the word, and the word before it."""
    begun, word, before = sent
    is_mark = before is not None and before.counts == word.counts
    heard = begun + (1 if is_mark else FRAMES)
    there = at_round(stretch.history(plan.neighbour(at, side)), heard)
    come = there and there.heard[OTHER[side]]
    is_heard = come is not None and (come == word if is_mark else come.counts == word.counts)
    return Flight(at, side, begun, word, is_mark, heard if is_heard else None)


def sent_from(stretch, at, side):
    """Each word that is new on a side: its round, and the word before it, None in a new ring."""
    before = stretch.begin[at].sent[side] if stretch.begin else None
    for begun, signals in stretch.history(at):
        word = signals.sent[side]
        if word != before:
            yield begun, word, before
        before = word


def flights(plan, stretch):
    """The flights of a settle step, by position and side, in the order of their rounds."""
    places = [(at, side) for at in range(plan.size) for side in SIDES]
    return [flight(plan, stretch, at, side, sent) for at, side in places for sent in sent_from(stretch, at, side)]
