"""The rules of a node, each with its cases, as docs/NODE.md numbers and words them."""

from __future__ import annotations

from dataclasses import dataclass


@dataclass(frozen=True)
class Rule:
    """A rule: its number and name, what it says, and its cases."""

    name: str
    words: str
    cases: tuple[str, ...]


CODES = "wtr ms sd sf fs"
MAJORITY = " ".join(
    f"{'up' if up >= 3 and down <= 2 else 'down' if down >= 3 and up <= 2 else 'none'}-{up}-{down}" for up in range(6) for down in range(6) if up + down
)
TABLE = (
    ("1.framing", "a frame is framed where all A1 and A2 are right; else the side fails", "right wrong"),
    ("1.violations", "B2 is compared with the parity of the frame before, without scrambling", "none some"),
    ("1.forgotten", "where no frame came, or none that is framed, the parities are forgotten", "first"),
    ("2.unknown", "`none`: no defect, no word", "none"),
    ("2.fails", "a side fails, and asks for SF, where nothing comes and where the low three bits of K2 are ones", "dark ms-ais ones not"),
    ("2.degraded", "a side is degraded, and asks for SD, from `threshold` violations of B2 on", "none below at above"),
    ("2.word", "K1 and K2 spell a word where the code and the mark are listed", "listed code mark"),
    ("2.heard", "a word is heard once three rounds brought the same but for marks", "three marks fewer code destination source path"),
    ("3.command", "a side asks for the command that it was given last", "none ms fs"),
    ("3.waiting", "a side whose defect ended waits to restore, until the moment of the end and `wait`", "after-sd after-sf waits over"),
    ("3.highest", "of command, defect and waiting the highest is asked for", "defect-alone defect-above command-above command-above-wtr"),
    ("4.short", "a short word counts where it is to the node, from the neighbour, and at least WTR", "counts none other-destination other-source low-code"),
    ("4.long", "a long word counts where it is at least WTR", "counts none low-code"),
    ("4.weight", "a side weighs its own request or what the neighbour asks for by the short path, the larger one", "own-alone heard-alone own-above equal heard-above"),
    ("4.first-11", "from SF on: a side's own short word leaves on it; else the long word of the other side", "this-side other-side"),
    ("4.heaviest", "below SF the heaviest of short, long and relayed word leaves, of equals the first of these",
     "short-alone short-above short-of-equals long-alone long-above long-of-equals relayed-alone relayed-above"),
    ("4.short-word", "a side's short word has its own request, or RR where the neighbour asks for more", f"rr {CODES}"),
    ("4.long-word", "the long word that leaves on a side has the weight of the other side, to the neighbour there", CODES),
    ("4.relays", "a long word is relayed unless it is to the node or from it", "to-itself its-own relayed"),
    ("4.no-word", "with nothing to say a side sends NR by the short path", "none"),
    ("4.switches-11", "a side that weighs SF or more is switched away from", "sf fs below"),
    ("4.switches-lower", "a side that weighs less is, if it weighs more than the other side and no word stands against it", "wtr ms sd other-side-as-high no-request"),
    ("4.against", "a long word that weighs as much, from either side, stands against a switch below SF",
     "same-side-lighter same-side-equal same-side-heavier other-side-lighter other-side-equal other-side-heavier"),
    ("4.about", "the long word of the other end of the same span stands against nothing", "about-this-span"),
    ("4.isolated", "a node that switches away from both sides is isolated", "both one-side"),
    ("4.far", "the far end is the source of the long word from the side that isn't switched", "source none-heard not-in-ring itself"),
    ("4.passes", "a node that relays both ways passes through; any other that isn't switched is idle", "both-ways one-way idle"),
    ("4.marks", "the mark of a node's own word: RDI where the side fails, else what the node does", "idle bridged bridged-switched rdi as-heard"),
    ("4.held", "a held node keeps its state and repeats its words", "first-round keeps over"),
    ("5.place", "H1 and H2 of row 4 are the pointer word of an AU-4, every N-th column is its payload", "bytes"),
    ("5.unknown", "`none`: interpreters stay as they are, and their AU-4s are AIS", "stays known"),
    ("5.flag", "a new data flag counts with one bit wrong", "normal-0 normal-1 enabled-0 enabled-1 neither"),
    ("5.range", "a value above 782 is invalid", "right highest above"),
    ("5.majority", "three inverted bits of five, and at most two of the others, are a justification", MAJORITY),
    ("5.spacing", "a justification counts if in the three words before there was none and no new data", "too-soon in-time"),
    ("5.same", "the same value again", "norm"),
    ("5.new-data", "new data is taken at once", "norm ais"),
    ("5.increment", "an increment adds one, modulo 783", "norm over"),
    ("5.decrement", "a decrement takes one away, modulo 783", "norm over"),
    ("5.three-new", "a new value is taken when it comes for the third time in a row", " ".join(f"{mode}-{i}" for mode in ("norm", "ais", "lost") for i in (1, 2, 3))),
    ("5.three-ais", "the third word of ones in a row leads to AIS", " ".join(f"{mode}-{i}" for mode in ("norm", "lost") for i in (1, 2, 3))),
    ("5.eight-invalid", "the eighth invalid word in a row leads to loss of pointer", " ".join(f"{mode}-{i}" for mode in ("norm", "ais") for i in range(1, 9))),
    ("5.stays", "what changes nothing in AIS or loss of pointer", "ais-ais lost-bad lost-new-data"),
    ("6.place", "AU-4s 1 to N/2 are the working slots, AU-4 N/2 + m is the protection slot m", "working protection"),
    ("6.through", "a working AU-4 goes through", "working to-port silent"),
    ("6.port", "at a circuit's end its port sends", "own"),
    ("6.free", "a working slot without a circuit is AIS", "ais"),
    ("6.switch", "what would come from a switched side comes from the other one, on protection", "from-protection to-port silent"),
    ("6.bridge", "what would leave on a switched side leaves on the other one too, on protection", "onto-protection silent"),
    ("6.squelch", "a circuit whose ends aren't both on the way to the far end is squelched", "carried no-circuit no-far-end end-is-cut-off to-port-no-far-end to-port-end-is-cut-off"),
    ("6.pass", "a node that passes through lets protection through", "protection silent"),
    ("6.protection", "protection is AIS in other cases", "idle isolated other-side"),
    ("6.isolated", "an isolated node sends and delivers AIS", "ais to-port"),
    ("7.deliver", "a port is given the working AU-4 of its side, or what stands in for it", "side"),
    ("7.ais", "a port delivers AIS where the interpreter says so, else the pointer value and the bytes", "ais bytes"),
    ("8.ais", "AIS is a pointer word of ones", "ones"),
    ("8.same", "the same value again is a normal word", "same"),
    ("8.increment", "an increment inverts the five bits I", "inverted"),
    ("8.decrement", "a decrement inverts the five bits D", "inverted"),
    ("8.new-data", "anything else is sent with the new data flag, the first word too",
     "first-normal first-new first-up first-down same-value-new other-value-new other-value-normal"),
    ("8.justification", "an increment leaves three bytes out, a decrement puts three into H3", "up down none"),
    ("8.clock", "a port justifies from round 4 on, once in four rounds, ups before downs", "none-waits early too-soon up down"),
    ("8.value", "the pointer value of a port's clock goes modulo 783", "moved over"),
    ("9.row-1", "A1, A2, J0 = 01, then AA; other overhead is 00", "constants"),
    ("9.pointer-row", "the bytes Y are 9B, those beside H2 are FF; in AIS all are FF", "constants"),
    ("9.k-bytes", "K1 and K2 stand in row 5, columns 3N + 1 and 6N + 1", "places"),
    ("9.columns", "each AU-4 has every N-th column, and one of AIS is all ones", "payloads"),
    ("9.b1", "B1 is over the frame before, as it was on the line", "parity"),
    ("9.b2", "B2 is over the frame before, without scrambling and without the first three rows of overhead", "parity"),
    ("9.scrambling", "all bytes but the first 9 N are scrambled, from seven ones on", "sequence"),
    ("path.offset", "a stream begins as the offset says", "0 522 782 other"),
    ("path.overhead", "J1 is the trace, C2 is 1, the other bytes are 0", "own"),
    ("path.b3", "B3 is over the VC-4 before", "own"),
    ("path.text", "the text fills the other columns, and goes on in the next VC-4", "own"),
)
RULES = {name: Rule(name, words, tuple(cases.split())) for name, words, cases in TABLE}
EACH_FRAME = ("9.row-1/constants", "9.pointer-row/constants", "9.k-bytes/places", "9.columns/payloads", "9.b1/parity", "9.b2/parity", "9.scrambling/sequence")
MARKS = "idle bridged bridged-switched rdi"
PATHS = ("short", "long")


def sent_words() -> list[str]:
    """Returns the words that a node sends."""
    return ["nr-short", "rr-short", *(f"{code}-{path}" for code in CODES.split() for path in PATHS)]


def port_origins() -> list[str]:
    """Returns from where a port is given an AU-4, by the node's state."""
    through = [f"port-{state}-{side}-working" for state in ("idle", "pass") for side in ("west", "east")]
    switched = [f"port-switch-{side}-{origin}" for side, other in (("west", "east"), ("east", "west")) for origin in (f"{other}-working", f"{other}-protection", "ais")]
    return [*through, *switched, "port-isolated-ais"]


def sent_origins() -> list[str]:
    """Returns where the AU-4s that leave come from, by the slot's kind and the node's state."""
    found = []
    for state in ("idle", "pass"):
        found += [f"working-{state}-{origin}" for origin in ("own-port", "west-working", "east-working", "ais")]
    for side, other in (("west", "east"), ("east", "west")):
        working = ("own-port", f"{other}-working", f"{other}-protection", "ais")
        found += [f"working-switch-{side}-{origin}" for origin in working]
        found += [f"protection-switch-{side}-{origin}" for origin in ("own-port", f"{other}-working", "ais")]
    return [*found, "working-isolated-ais", "protection-idle-ais", "protection-isolated-ais", "protection-pass-west-protection", "protection-pass-east-protection"]


def views() -> list[str]:
    """Returns all words, marks, defects and origins that are reported beside the rules."""
    heard = [f"word/heard-{code}-{path}" for code in ("nr", "rr", *CODES.split()) for path in PATHS]
    sent = [f"word/sent-{word}" for word in sent_words()]
    marks = [f"mark/{way}-{mark}" for way in ("heard", "sent") for mark in MARKS.split()]
    defects = [f"defect/{name}{end}" for name in ("dark", "unframed", "ms-ais", "degraded") for end in ("", "-ends")]
    return [*heard, *sent, *marks, *defects, "defect/not-known", *(f"origin/{origin}" for origin in (*port_origins(), *sent_origins()))]


def all_cases() -> list[str]:
    """Returns the cases of all rules."""
    return [f"{rule.name}/{case}" for rule in RULES.values() for case in rule.cases]


def rule_of(case: str) -> str:
    """Returns the rule of a case."""
    return case.partition("/")[0]
