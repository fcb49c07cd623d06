"""What may fail by itself: spans, fibres, nodes and shared-risk groups, each with a rate and a time to repair, read from tables."""

from dataclasses import dataclass

from .failures import cut_by, span_fibres, span_named
from .tables import LARGEST, Row, TableProblem, quoted, read_table

SPANS, NODES, GROUPS = 64, 64, 64  # rows; a ring has 16 spans and 16 nodes, and whoever has more is told which row is wrong
HOURS = 8760.0  # of a year of 365 days
SPAN_COLUMNS = ("from", "to", "cuts", "km", "cuts_per_1000_km", "hours", "fibre_failures", "fibre_hours")
NODE_COLUMNS = ("place", "node", "failures", "hours")
GROUP_COLUMNS = ("group", "members", "failures", "hours")
REPAIR = "the hours of a repair are wanted"


@dataclass(frozen=True)
class Component:
    """It is up or down, whatever the others are. Down, it cuts these fibres, each named by the position and the side that it leaves."""

    name: str
    kind: str  # span, fibre, node or group
    fibres: frozenset
    rate: float  # failures in a year of being up
    hours: float  # that a repair takes
    at: int | None = None  # the position of a node

    @property
    def down(self):
        """The part of the time in which it is down."""
        lasts = self.rate * self.hours / HOURS
        return lasts / (1 + lasts)

    @property
    def up(self):
        return 1 / (1 + self.rate * self.hours / HOURS)

    @property
    def failures(self):
        """How often it fails in a year, in part of which it is down."""
        return self.rate * self.up


@dataclass(frozen=True)
class Group:
    """A shared-risk group: what fails together, each by its kind, its position and its side."""

    name: str
    members: tuple


class Finder:
    """The nodes and spans of a plan by what tables call them: identifiers, or names of places from the plan's comments."""

    def __init__(self, plan, places):
        self.plan, self.places = plan, places
        self.nodes = places.positions(plan.ids)
        self.members = {}
        for one, here in self.nodes.items():
            self.members[f"node {one}"] = ("node", here, "")
            for other, there in self.nodes.items():
                self.put_between(one, here, other, there)

    def put_between(self, one, here, other, there):
        span = span_named(self.plan, self.plan.ids[here], self.plan.ids[there])
        if span is None or here == there:
            return
        for sign in "-–":
            self.members[f"span {one}{sign}{other}"] = ("span", span, "")
        side = "east" if (here, there) == (span, (span + 1) % self.plan.size) else "west"
        self.members[f"fibre {one}>{other}"] = ("fibre", here, side)

    def fibres(self, *members):
        """The fibres that these cut."""
        return frozenset(fibre for member in members for fibre in cut_by(self.plan, *member))

    def node(self, row, column):
        """The position of the node that a cell names."""
        at = self.nodes.get(row[column].casefold())
        if at is None:
            known = ", ".join(self.places.node(number) for number in self.plan.ids)
            raise row.problem(f"`{column}` is `{row.quoted(column)}`, and the nodes of the plan are {known}")
        return at

    def span(self, row):
        here, there = self.node(row, "from"), self.node(row, "to")
        span = span_named(self.plan, self.plan.ids[here], self.plan.ids[there])
        if span is None or here == there:
            raise row.problem(f"no span of the ring joins {row.quoted('from')} and {row.quoted('to')}")
        return span

    def span_name(self, span):
        return "span " + self.places.span(*self.plan.ends(span))

    def member(self, row, words):
        member = self.members.get(" ".join(words.casefold().split()))
        if member is None:
            raise row.problem(f"`{quoted(words.strip())}` is no span, node or fibre of the plan, as `span A-B`, `node A` or `fibre A>B`")
        return member


def needed(row, column, wanted):
    value = row.number(column)
    if value is None:
        raise row.problem(f"`{column}` is empty, and {wanted}")
    return value


def cuts_of(row, per_1000_km):
    """The rate of a span's cuts: as the row has it, or from its length."""
    cuts, km = row.number("cuts"), row.number("km")
    rate = row.number("cuts_per_1000_km")
    rate = per_1000_km if rate is None else rate
    if cuts is not None:
        return cuts
    if km is None or rate is None:
        raise row.problem("`cuts` a year are wanted, or `km` and the cuts a year of 1,000 km: `cuts_per_1000_km`, or --cuts-per-1000-km")
    if not km * rate / 1000 < LARGEST:
        raise row.problem(f"that many cuts a year aren't computed with: {LARGEST:,} are the most")
    return km * rate / 1000


def fibre_rates(row: Row) -> tuple[float, float] | None:
    """Returns how often each fibre of a span fails alone in a year, and the hours of a repair; None where the row has neither."""
    rate = row.number("fibre_failures")
    if rate is None and row["fibre_hours"]:
        raise row.problem(f"`fibre_hours` is `{row.quoted('fibre_hours')}`, and `fibre_failures`, the failures a year of each fibre, are missing")
    return None if rate is None else (rate, needed(row, "fibre_hours", REPAIR))


def fibres_alone(row, finder, span):
    """The two fibres of a span as components of their own, where the row has a rate for them."""
    if (rates := fibre_rates(row)) is None:
        return
    rate, hours = rates
    for at, side in span_fibres(finder.plan, span):
        here, there = finder.plan.ids[at], finder.plan.ids[finder.plan.neighbour(at, side)]
        name = f"fibre {finder.places.place(here)}>{finder.places.place(there)}"
        yield Component(name, "fibre", frozenset([(at, side)]), rate, hours)


def complete(file, found, names):
    """Raises where one of these has no row."""
    missing = [name for at, name in enumerate(names) if at not in found]
    if missing:
        raise TableProblem(f"{file}: {', '.join(missing)}: {'it has' if len(missing) == 1 else 'they have'} no row; a rate of 0 stands for what never fails")


@dataclass(frozen=True)
class Read:
    """What a table gave, and in words what of it wasn't read."""

    found: list
    notes: list[str]


def read_spans(name: str, finder: Finder, per_1000_km: float | None = None) -> Read:
    """Returns each span of the ring by its row, and its fibres where they fail by themselves too."""
    table, found = read_table(name, SPAN_COLUMNS, ("from", "to", "hours"), SPANS), {}
    for row in table.rows:
        span = finder.span(row)
        if span in found:
            raise row.problem(f"{finder.span_name(span)} stood before")
        fibres = frozenset(span_fibres(finder.plan, span))
        whole = Component(finder.span_name(span), "span", fibres, cuts_of(row, per_1000_km), needed(row, "hours", REPAIR))
        found[span] = [whole, *fibres_alone(row, finder, span)]
    complete(name, found, [finder.span_name(span) for span in range(finder.plan.size)])
    return Read([component for span in range(finder.plan.size) for component in found[span]], table.notes())


def read_nodes(name: str, finder: Finder) -> Read:
    table, found = read_table(name, NODE_COLUMNS, ("failures", "hours"), NODES), {}
    if not {"place", "node"} & set(table.columns):
        raise TableProblem(f"{name}:1: the first line is to name the column `node`, or `place`")
    for row in table.rows:
        at = finder.node(row, "node" if row["node"] else "place")
        if at in found:
            raise row.problem(f"node {finder.places.node(finder.plan.ids[at])} stood before")
        rate, hours = needed(row, "failures", "the failures a year are wanted"), needed(row, "hours", REPAIR)
        found[at] = Component(f"node {finder.places.place(finder.plan.ids[at])}", "node", finder.fibres(("node", at, "")), rate, hours, at)
    complete(name, found, [f"node {finder.places.node(number)}" for number in finder.plan.ids])
    return Read([found[at] for at in range(finder.plan.size)], table.notes())


def groups_in(name: str, finder: Finder, wanted: tuple[str, ...] = ("group", "members")) -> Read:
    """Returns each group of a table, beside its row."""
    table, found = read_table(name, GROUP_COLUMNS, wanted, GROUPS), {}
    for row in table.rows:
        if not row["group"]:
            raise row.problem("`group` is empty, and a name is wanted")
        if row["group"] in found:
            raise row.problem(f"the group {row['group']} stood before")
        words = [words for words in row["members"].split(";") if words.strip()]
        if not words:
            raise row.problem("`members` is empty; spans, nodes and fibres are wanted, separated by semicolons")
        found[row["group"]] = row, Group(row["group"], tuple(dict.fromkeys(finder.member(row, member) for member in words)))
    return Read(list(found.values()), table.notes())


def read_groups(name: str, finder: Finder) -> Read:
    groups, read = [], groups_in(name, finder, GROUP_COLUMNS)
    for row, group in read.found:
        rate, hours = needed(row, "failures", "the failures a year are wanted"), needed(row, "hours", REPAIR)
        groups.append(Component(f"group {group.name}", "group", finder.fibres(*group.members), rate, hours))
    return Read(groups, read.notes)


def read_components(spans: str, nodes: str | None, groups: str | None, finder: Finder, per_1000_km: float | None) -> Read:
    """Returns all that may fail by these tables; None stands for a table that isn't there."""
    parts = [read_spans(spans, finder, per_1000_km)]
    parts += [read_nodes(nodes, finder)] if nodes else []
    parts += [read_groups(groups, finder)] if groups else []
    return Read([one for part in parts for one in part.found], [note for part in parts for note in part.notes])
