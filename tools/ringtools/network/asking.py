"""What `sdhwhatif` says of one ring of a network: which sections are lost, impaired or over protection, where its parts of components fail.

Each answer is a set of sections as bits of a number, in the order of the plan's circuits. Memory is that of one ring.
"""

import shlex
from collections import OrderedDict
from collections.abc import Iterator
from dataclasses import dataclass
from pathlib import Path

from ..components import Group as RingGroup
from ..desktable import IMPAIRED, LOST, OVER, Failure, Outcome, Reading, Table, ToldProblem, read_cases
from ..groups import MOST
from ..markup import count_of
from ..origin import Program
from ..plan import Plan
from .components import Components
from .making import checked_plan
from .members import Part
from .model import Kind, Network, NetworkProblem, Ring

CALLED = {Kind.PLACE: "node"}  # kinds that have another name within a ring
BLOCK = MOST // 2


def called(kind: Kind) -> str:
    return CALLED.get(kind, kind.value)


@dataclass(frozen=True)
class Fate:
    """The sections of a ring that are lost, impaired, and over protection; all others are kept."""

    lost: int
    impaired: int
    over: int


NOTHING = Fate(0, 0, 0)


def mask_of(results: str, letter: str) -> int:
    """The circuits with this letter, as bits in their order."""
    return int("0" + "".join("1" if one == letter else "0" for one in reversed(results)), 2)


class Fates:
    """Fates by outcomes, of which a ring has few."""

    def __init__(self) -> None:
        self.known: dict[int, Fate] = {}
        self.kept: list[Outcome] = []  # so that no other outcome gets its number

    def of(self, outcome: Outcome) -> Fate:
        if id(outcome) not in self.known:
            self.kept.append(outcome)
            self.known[id(outcome)] = Fate(*(mask_of(outcome.results, letter) for letter in (LOST, IMPAIRED, OVER)))
        return self.known[id(outcome)]


Parts = tuple[Part, ...]


class RingCases:
    """The cases of one ring: nothing, each failure of its own, and each two; failures are the parts that components have in this ring."""

    def __init__(
        self, network: Network, ring: Ring, plan: Plan, data: bytes, kinds: tuple[Kind, ...], parts: list[Parts]
    ):
        self.network, self.ring, self.plan, self.data = network, ring, plan, data
        self.kinds = tuple(kind for kind in kinds if kind is not Kind.GROUP)
        self.together = [one for one in dict.fromkeys(parts) if len(one) > 1 or one[0].kind not in self.kinds]
        self.numbers: dict[Parts, int] = {}
        self.fates, self.cases = Fates(), {}  # type: Fates, dict[tuple[int, ...], Fate]

    def number(self, parts: Parts) -> int:
        """The number by which parts that fail together are known here."""
        return self.numbers.setdefault(parts, len(self.numbers))

    def ask(self, program: Program, depth: str) -> "RingCases":
        """Asks the program, in several calls where there are more groups than it takes in one."""
        if len(self.together) <= MOST:
            self.read(program, depth, self.kinds, self.together)
            return self
        blocks = [self.together[at : at + BLOCK] for at in range(0, len(self.together), BLOCK)]
        for number, one in enumerate(blocks):
            self.read(program, depth, self.kinds, one)
            for other in blocks[number + 1 :] if depth == "double" else []:
                self.read(program, depth, (), one + other)
        return self

    def read(self, program: Program, depth: str, kinds: tuple[Kind, ...], together: list[Parts]) -> None:
        reading = Reading(
            self.plan, self.plan.places, tuple(self.group(parts) for parts in together), tuple(map(called, kinds))
        )
        try:
            table: Table = read_cases(reading, program, self.data, depth)
        except ToldProblem as problem:
            raise NetworkProblem(f"{self.ring.file}: {shlex.join(program.words)} writes no table: {problem}") from None
        own = table.failures[: len(table.failures) - len(together)]
        keys = [self.number(self.parts_of(one)) for one in own] + [self.number(parts) for parts in together]
        for numbers, case in table.cases.items():
            self.cases[tuple(sorted(keys[number] for number in numbers))] = self.fates.of(case.outcome)

    def parts_of(self, failure: Failure) -> Parts:
        kind = Kind.PLACE if failure.kind == called(Kind.PLACE) else Kind(failure.kind)
        return (Part(self.ring.number, kind, failure.at, failure.side),)

    def group(self, parts: Parts) -> RingGroup:
        """Parts that fail together, as the tools of one ring have them."""
        if len(parts) > MOST:
            raise NetworkProblem(
                f"ring {self.ring.name}: a group has {count_of(len(parts), 'member')} in it, and sdhwhatif takes {MOST} in one ring"
            )
        if self.ring.size == 2 and any(part.kind is Kind.FIBRE for part in parts):
            raise NetworkProblem(
                f"ring {self.ring.name}: sdhwhatif has one name for both fibres of a node in a ring of two, so no group has one there"
            )
        return RingGroup("", tuple((called(part.kind), part.at, part.side) for part in parts))

    def fate(self, *numbers: int) -> Fate | None:
        """What becomes of the sections where these fail; None where there is no such case, as one that would mend what the script has cut."""
        return self.cases.get(tuple(sorted(set(numbers))))

    @property
    def nothing(self) -> Fate:
        return self.cases[()]


class Asker:
    """Asks about the rings of a network in a folder, and keeps what each says of single failures while it is needed."""

    KEPT = 64  # rings

    def __init__(self, network: Network, folder: Path, program: Program, components: Components):
        self.network, self.folder, self.program, self.components = network, folder, program, components
        self.known: OrderedDict[int, RingCases] = OrderedDict()

    def parts_in(self, ring: Ring) -> list[Parts]:
        """What the components that touch a ring are in it, where that isn't one failure of its own."""
        several = [
            *self.components.alone[ring.number],
            *(self.components.shared[number] for number in self.components.touching[ring.number]),
        ]
        return [one.within(ring.number) for one in several]

    def cases(
        self, ring: Ring, depth: str, kinds: tuple[Kind, ...] | None = None, parts: list[Parts] | None = None
    ) -> RingCases:
        plan, data = checked_plan(self.network, self.folder, ring)
        of = self.components.kinds if kinds is None else kinds
        return RingCases(self.network, ring, plan, data, of, self.parts_in(ring) if parts is None else parts).ask(
            self.program, depth
        )

    def singles(self, ring: Ring) -> RingCases:
        """The cases of one failure, of a ring that was asked about lately or is asked now."""
        if ring.number not in self.known:
            self.known[ring.number] = self.cases(ring, "single")
            if len(self.known) > self.KEPT:
                self.known.popitem(last=False)
        self.known.move_to_end(ring.number)
        return self.known[ring.number]

    def customers_of(self, cases: RingCases, mask: int) -> Iterator[int]:
        """The customers whose sections these are."""
        sections = self.network.sections_in[cases.ring.number]
        return (sections[name][0] for name in names_of(cases.plan, mask))


def names_of(plan: Plan, mask: int) -> Iterator[str]:
    """The circuits of these bits."""
    while mask:
        low = mask & -mask
        yield plan.circuits[low.bit_length() - 1].name
        mask ^= low
