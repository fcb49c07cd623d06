"""The numbers of frames, words and pointers, and how words and origins are named in reports."""

NR, RR, WTR, MS, SD, SF, FS = 0, 1, 5, 6, 8, 11, 13
CODES = NR, RR, WTR, MS, SD, SF, FS
SHORT, LONG = 0, 1
IDLE, BRIDGED, SWITCHED, RDI, MS_AIS = 0, 1, 2, 6, 7
MARKS = IDLE, BRIDGED, SWITCHED, RDI
LETTERS = {NR: "nr", RR: "rr", WTR: "wtr", MS: "ms", SD: "sd", SF: "sf", FS: "fs"}
WEST, EAST = 0, 1
SIDES = "west", "east"
SWITCH = "switch-west", "switch-east"
ROWS, COLUMNS, HEAD, PAYLOAD = 9, 270, 9, 261  # of one STM-1
CHUNK, FRONT = 2349, 783  # bytes of an AU-4's payload, and those before the place of a justification
ONES = 0xFFFF
NORM, AIS, LOST = "norm", "ais", "lost"
NEW = (AIS, 0, 0, 0, 0, 0, 0)  # mode, value, AIS words, invalid words, the candidate, how often it came, words since a change


def word_rules(way, word):
    """A word and its mark, as reports name them."""
    mark = {IDLE: "idle", BRIDGED: "bridged", SWITCHED: "bridged-switched", RDI: "rdi"}[word[4]]
    return [f"word/{way}-{LETTERS[word[0]]}-{'long' if word[3] == LONG else 'short'}", f"mark/{way}-{mark}"]


def origin_rule(origin):
    """From where an AU-4 comes, as reports name it."""
    if origin is None:
        return "ais"
    return "own-port" if len(origin) == 2 else f"{SIDES[origin[0]]}-{'working' if origin[1] == 'w' else 'protection'}"


def to_port(rule):
    """The case of a connection that leads to a port."""
    name, _, case = rule.partition("/")
    return f"{name}/to-port-{case}" if name == "6.squelch" else rule if case == "silent" else f"{name}/to-port"


def carried(rule):
    """The case of a circuit that may be carried, where a connection is one over protection."""
    return ["6.squelch/carried"] if rule.startswith(("6.switch/", "6.bridge/")) else []


def counted(reading):
    """The case of the violations that a reading is of, if it is of some."""
    name, _, case = reading.partition("/")
    return [f"1.violations/{'none' if case == 'none' else 'some'}"] if name == "2.degraded" else []


def compared(own, heard):
    """How a side's own request stands to that of its neighbour, as reports name it."""
    if not own or not heard:
        return "own-alone" if own else "heard-alone"
    return "own-above" if own > heard else "equal" if own == heard else "heard-above"
