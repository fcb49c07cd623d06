"""Shared-risk groups of a table as sdhwhatif is asked about them: each is a failure of the user's own, which has the group's name here."""

from .components import Finder, Read, groups_in

MOST = 16  # groups, and members of one, that sdhwhatif takes


def checked(number, row, group, plan):
    """The group, or a problem where sdhwhatif can't be asked about it, or tables couldn't name it."""
    if number > MOST:
        raise row.problem(f"it is group {number}, and sdhwhatif takes {MOST}")
    if len(group.members) > MOST:
        raise row.problem(f"the group {group.name} has {len(group.members)} members, and sdhwhatif takes {MOST}")
    if ";" in group.name:
        raise row.problem(f"`group` is `{group.name}`, and semicolons separate failures")
    if plan.size == 2 and any(kind == "fibre" for kind, *_ in group.members):
        raise row.problem("sdhwhatif has one name for both fibres of a node in a ring of two")
    return group


def named_groups(name: str | None, plan, places) -> Read:
    """Returns the groups of this table, or none where there is no table."""
    read = groups_in(name, Finder(plan, places)) if name else Read([], [])
    return Read([checked(number, row, group, plan) for number, (row, group) in enumerate(read.found, 1)], read.notes)
