"""How many settle steps of the worked rows end late enough that the promise of every round speaks of their last rounds.

`python3 tools/testing/soon.py` counts it in the rows of `sdhring run`, each plan once, whatever its limit: how many settle
steps ran to their end, in how many of them every port is promised what it is owed by the last round, and in how many by
12n + 102 rounds of the step itself.
"""

import sys
from dataclasses import replace

from common import RINGS
from ringtools.plan import read_plan
from ringtools.report import read_report
from ringtools.rows import read_rows


def bound(size, words, longest=0):
    """After this number of rounds from these changes on each port has what it is owed, whatever happened before them.
    The longest hold among them has `longest` rounds."""
    if "slip" not in words:
        return 6 * size + 8 + longest
    return 12 * size + 102 if "hold" in words else max(12 * size + 2, 8 * size + 61)


def ends(plan, report):
    """The last round of each settle step, counted from 1; the whole limit where it is unsettled."""
    last = [settled.round + 1 for settled in report.settled]
    return last + [(last[-1] if last else 0) + plan.limit] if report.unsettled is not None else last


def counted(plan, report):
    """Of each settle step that ran to its end: is what is owed promised by its last round, and by 12n + 102 alone?"""
    found, changes, since, ran, left = [], [], [], 0, ends(plan, report)
    for step in plan.steps:
        if step.word != "settle":
            changes.append(step)
            continue
        if not left:
            break
        end = left.pop(0)
        if changes or not found:
            since, start, changes = changes, ran, []
        longest = max((step.number for step in since if step.word == "hold"), default=0)
        late = bound(plan.size, [step.word for step in since], longest)
        found.append((late <= end - start, 12 * plan.size + 102 <= end - ran))
        ran = end
    return found


def all_counted():
    rows = [row for row in read_rows(RINGS) if row.words == (b"run",) and row.text and row.text.startswith((b"settle", b"unsettled"))]
    runs = {(replace(read_plan(row.given), limit=0), row.text): read_plan(row.given) for row in rows}
    found = [step for (_, text), plan in runs.items() for step in counted(plan, read_report(text, plan))]
    return len(found), sum(soon for soon, _ in found), sum(alone for _, alone in found)


if __name__ == "__main__":
    print("{} settle steps, {} late enough, {} by 12n + 102 within the step alone".format(*all_counted()))
    sys.exit(0)
