#!/usr/bin/env python3
"""What `sdhaps` must write of a plan, by the plain simulation of the shared ring (../outage/simulate.py). It shares no rule with the
crates or the tools.

  bench/aps/signalled.py run < PLAN                            what `sdhaps run` must write
  bench/aps/signalled.py node ID < PLAN                        what `sdhaps node ID` must write
  bench/aps/signalled.py frames ID SIDE FIRST COUNT < PLAN     the frames of these words, as far as the run has them (frames.py)

The plan has to be a good one. Ends with the status."""

import sys
from pathlib import Path

sys.path.insert(0, str(Path(__file__).resolve().parents[2] / "tools"))
from ringtools.benching import good_plan, refuse
from ringtools.starting import start


sys.path.insert(0, str(Path(__file__).resolve().parents[1] / "outage"))

import frames
import signalling
from simulate import Ring

ASKS = {
    signalling.NR: "nr",
    signalling.WTR: "wtr",
    signalling.MS: "ms",
    signalling.SD: "sd",
    signalling.SF: "sf",
    signalling.FS: "fs",
}


def bytes_of(word):
    """Both bytes of a word, or `- -` where none is heard."""
    return signalling.written(word) if word else "- -"


def line_of(ring, p):
    """What is written of the node at a position, without its round: the same fields always."""
    node = ring.nodes[p]
    name, far = node.state
    west, east = map(bytes_of, node.words)
    heard = " ".join(map(bytes_of, node.heard))
    asks = " ".join(ASKS[code] for code in node.local)
    return f"node {ring.ids[p]} {name} far {'-' if far is None else far} west {west} east {east} heard {heard} asks {asks}"


class Signalling:
    """The lines of the rounds so far, of all nodes or of one."""

    def __init__(self, ring, only=None):
        self.ring, self.only, self.lines = ring, only, []
        self.before = {}

    def see(self):
        for p, identifier in enumerate(self.ring.ids):
            line = line_of(self.ring, p)
            if self.before.get(p) != line and self.only in (None, identifier):
                self.lines.append(f"round {self.ring.t} {line}")
            self.before[p] = line


def run(plan, only=None):
    """The status and the text."""
    if only is not None and only not in plan["nodes"]:
        return 15, "no such node\n"
    ring = Ring(plan)
    seen, settled = Signalling(ring, only), 0
    for step in plan["script"]:
        if step != "settle":
            ring.do(step.split(" "))
            continue
        settled += 1
        if not ring.settle(seen.see):
            return 7, "\n".join([*seen.lines, f"unsettled {settled}", ""])
        seen.lines.append(f"settle {settled} round {ring.t}")
    return 0, "\n".join([*seen.lines, "done", ""])


def sent(plan, node, side, first, count):
    """The status, and the frames that a node sends on a side in these rounds, as bytes; with a last line where the run hasn't all of them."""
    if node not in plan["nodes"]:
        return 15, b"no such node\n"
    made = frames.frames(plan, node, side, first, count)
    return (0, b"".join(made)) if len(made) == count else (16, b"".join([*made, b"no such round\n"]))


def main(words):
    form = ["frames"] if len(words) == 5 else ["node"] if len(words) == 2 else ["run"]
    numbers = [word for at, word in enumerate(words[1:]) if at != 1]
    if words[:1] != form or len(words) > 5 or not all(word.isdecimal() for word in numbers):
        refuse(__doc__, words)
    plan = good_plan(sys.stdin.buffer.read())
    if words[0] == "frames":
        status, made = sent(plan, int(words[1]), words[2], int(words[3]), int(words[4]))
        sys.stdout.buffer.write(made)
        return status
    status, text = run(plan, *map(int, numbers))
    sys.stdout.write(text)
    return status


if __name__ == "__main__":
    start(main)
