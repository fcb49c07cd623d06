"""What is written about the failures of a network: tables, one record a line, each with the same fields.

    summary.csv    for each kind of failure, alone and by twos: how many cases, in how many of them customers are lost, and the most
    singles.csv    a record for each failure alone
    doubles.csv    a record for each two failures that lose or impair somebody whom neither of them does alone
    lost.csv       who is lost or impaired in these cases, by name, with the section that breaks: a record for each section
    customers.csv  for each customer, how many failures lose him
"""

from collections.abc import Container, Iterable, Iterator, Sequence
from pathlib import Path
from typing import Any

from ..cells import write_rows
from ..writing import Folder
from .joining import Joined, Single
from .model import Kind, Network

SUMMARY = ("depth", "kinds", "cases", "losing", "most", "worst", "impairing", "most_impaired")
SINGLES = ("failure", "kind", "rings", "kept", "impaired", "over", "lost", "besides_ends")
DOUBLES = ("failure", "other", "kinds", "rings", "lost", "beyond", "impaired")
LOST = ("depth", "failure", "other", "kinds", "customer", "fate", "is_end", "ring", "from", "to")
CUSTOMERS = (
    "customer",
    "from",
    "to",
    "rings",
    *(kind.value for kind in Kind),
    "besides_ends",
    "pairs",
    "pairs_together",
)


def ring_names(network: Network, numbers: Iterable[int]) -> str:
    return "; ".join(network.rings[number].name for number in numbers)


class Telling:
    """The tables of an answer. Those with a record for each failure need an answer with rows."""

    def __init__(self, joined: Joined):
        self.joined, self.network = joined, joined.network
        self.before = len(joined.base.lost)

    def summary(self) -> Iterator[list[object]]:
        """Yields nothing more, each kind alone, and each two kinds."""
        joined, before = self.joined, self.before
        yield [
            "nothing",
            "",
            1,
            int(before > 0),
            before,
            "",
            int(bool(joined.base.impaired)),
            len(joined.base.impaired),
        ]
        impairing = joined.impairing()
        for depth, table in (("single", joined.alone()), ("double", joined.doubles())):
            for kinds, count in table.items():
                losing = count.total if before else count.above(0)
                worst = "; ".join(count.examples.get(count.most(), ())) if count.most() else ""
                impaired = impairing.get(kinds, (0, 0)) if depth == "double" else self.impaired_alone(kinds)
                yield [depth, kinds, count.total, losing, before + count.most(), worst, *impaired]

    def impaired_alone(self, kind: str) -> tuple[int, int]:
        counts = [
            len(single.impaired) for single in self.joined.singles if single.kind.value == kind and single.impaired
        ]
        return len(counts), max(counts, default=0)

    def singles(self) -> Iterator[list[object]]:
        for single in self.joined.singles:
            rings = ring_names(self.network, single.rings)
            lost = self.joined.base.lost | single.lost
            impaired, over = self.others(single)
            kept = len(self.network.customers) - len(lost) - len(impaired) - len(over)
            yield [
                single.name,
                single.kind.value,
                rings,
                kept,
                len(impaired),
                len(over),
                len(lost),
                len(lost - single.ends),
            ]

    def others(self, single: Single) -> tuple[frozenset[int], frozenset[int]]:
        """Who is impaired, and who goes over protection: by this failure, or by what scripts leave in rings that it doesn't touch."""
        lost = self.joined.base.lost | single.lost
        impaired, over = set(single.impaired), set(single.over)
        for result in self.joined.results if self.joined.base.impaired or self.joined.base.over else ():
            if result["ring"] not in single.rings:
                impaired.update(result["nothing"][1])
                over.update(result["nothing"][2])
        return frozenset(impaired - lost), frozenset(over - lost - impaired)

    def doubles(self) -> Iterator[list[object]]:
        for result in self.joined.results:
            for names, kinds, more, lost, impaired in result["rows"]:
                yield [
                    *names,
                    kinds,
                    self.network.rings[result["ring"]].name,
                    self.before + more,
                    len(lost),
                    len(impaired),
                ]
        for (one, other), (together, impaired_ones) in self.joined.between.items():
            first, second = self.joined.shared[one], self.joined.shared[other]
            lost = self.joined.base.lost | first.lost | second.lost | together
            common = sorted(set(first.rings) & set(second.rings))
            beyond, impaired = lost - first.lost - second.lost - self.joined.base.lost, impaired_ones - lost
            if beyond or impaired:
                kinds = self.kinds(first, second)
                yield [
                    first.name,
                    second.name,
                    kinds,
                    ring_names(self.network, common),
                    len(lost),
                    len(beyond),
                    len(impaired),
                ]

    def lost(self) -> Iterator[list[object]]:
        """Yields who is lost or impaired, case by case: with nothing more, with each failure alone, and with each two of `doubles`."""
        for result in self.joined.results:
            yield from self.records(("nothing", "", "", ""), result["ring"], result["nothing"][0], result["nothing"][1])
        for single in self.joined.own:
            case = ("single", single.name, "", single.kind.value)
            yield from self.records(case, single.rings[0], sorted(single.lost), sorted(single.impaired), single.ends)
        yield from self.lost_shared()
        for result in self.joined.results:
            for names, kinds, _, lost, impaired in result["rows"]:
                yield from self.records(("double", names[0], names[1], kinds), result["ring"], lost, impaired)
        for result in self.joined.results:
            yield from self.lost_between(result)

    def lost_shared(self) -> Iterator[list[object]]:
        """Yields the sections that break with each shared component alone, in each of its rings, of customers that aren't lost anyway."""
        found: dict[int, list[tuple[int, list[int], list[int]]]] = {}
        for result in self.joined.results:
            for number, lost, impaired, _ in result["shared"]:
                found.setdefault(number, []).append((result["ring"], lost, impaired))
        for number, single in enumerate(self.joined.shared):
            case = ("single", single.name, "", single.kind.value)
            for ring, lost, impaired in found.get(number, []):
                those, ill = [one for one in lost if one in single.lost], [
                    one for one in impaired if one in single.impaired
                ]
                yield from self.records(case, ring, those, ill, single.ends)

    def lost_between(self, result: dict[str, Any]) -> Iterator[list[object]]:
        """Yields the sections of a ring that break with two shared components, neither of which is enough."""
        for one, other, lost, impaired in result["between"]:
            first, second = self.joined.shared[one], self.joined.shared[other]
            known = first.lost | second.lost | self.joined.base.lost
            case = ("double", first.name, second.name, self.kinds(first, second))
            those, ill = [number for number in lost if number not in known], [
                number for number in impaired if number not in known
            ]
            yield from self.records(case, result["ring"], those, ill)

    def records(
        self,
        case: tuple[str, str, str, str],
        ring: int,
        lost: Iterable[int],
        impaired: Iterable[int],
        ends: Container[int] = (),
    ) -> Iterator[list[object]]:
        """Yields a record for each of these customers, with his section in this ring."""
        for fate, numbers in (("lost", lost), ("impaired", impaired)):
            for number in numbers:
                customer = self.network.customers[number]
                place = next(place for place, section in enumerate(customer.sections) if section.ring == ring)
                end = "end" if number in ends else ""
                yield [*case, customer.name, fate, end, self.network.rings[ring].name, *customer.ends_of(place)]

    @staticmethod
    def kinds(one: Single, other: Single) -> str:
        return "+".join(kind.value for kind in Kind for single in (one, other) if single.kind is kind)

    def customers(self) -> Iterator[list[object]]:
        for number, alone, besides, pairs, together in self.joined.by_customer():
            customer = self.network.customers[number]
            rings = ring_names(self.network, (section.ring for section in customer.sections))
            counts = [alone.get(kind, 0) if self.joined.kinds[kind] else "" for kind in Kind]
            yield [customer.name, customer.start, customer.end, rings, *counts, besides, pairs, together]

    def write(self, folder: Folder, rows: bool) -> list[Path]:
        """Writes the tables into a folder, and returns their paths."""
        tables: dict[str, tuple[Sequence[str], Iterator[list[object]]]] = {
            "summary": (SUMMARY, self.summary()),
            "customers": (CUSTOMERS, self.customers()),
        }
        if rows:
            tables |= {
                "singles": (SINGLES, self.singles()),
                "doubles": (DOUBLES, self.doubles()),
                "lost": (LOST, self.lost()),
            }
        for name, (columns, records) in tables.items():
            with folder.writing_text(f"{name}.csv") as file:
                write_rows(file, [columns])
                write_rows(file, records)
        return [folder.path / f"{name}.csv" for name in tables]
