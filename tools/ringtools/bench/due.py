"""What is due of a ring of programs, by proved programs over the same plan: lines by sdhaps, and what ports deliver by sdhring.

Of rounds after the script no program reports. There the lines stay, and the bytes go on as the restoration model of these tools has it.
"""

from __future__ import annotations

from collections.abc import Iterator, Sequence
from dataclasses import dataclass
from math import gcd, lcm
from pathlib import Path

from ..benched import FIRST, PORT
from ..model import owed, route, scenes
from ..origin import LAUNCHER, CannotRun, program_of
from ..plan import Circuit, Plan
from ..programs import ask
from ..report import PortLine, Settled, read_report
from ..stream import TEXT_BYTES
from .schedule import Stretch

TRACE = 64  # bytes after which a path trace begins anew


@dataclass(frozen=True)
class Said:
    """The lines of one answer: the fields of the first, None where it isn't such a line, and what each port delivers."""

    fields: dict[str, str] | None
    ports: dict[str, str]
    first: str

    @classmethod
    def of(cls, text: str) -> Said:
        first, *lines = text.split("\n")
        found = FIRST.fullmatch(first)
        ports = {port["name"]: port["delivers"] for line in lines if (port := PORT.fullmatch(line))}
        return cls(found.groupdict() if found else None, ports, first)


def words_of(delivers: PortLine) -> str:
    """Returns what a port delivers, as a line of a port has it."""
    return "ais" if delivers.ais else f"norm {delivers.value} {delivers.data.hex()}"


def asked(name: str, document: bytes) -> bytes:
    """Returns what a program beside these tools reports of a plan. Raises CannotRun where the run doesn't end as one that is done."""
    file: Path = LAUNCHER.with_name(name)
    if not file.is_file():
        raise CannotRun(f"the program {name}, which says what is due, isn't beside these tools")
    text, status = ask(program_of(None, file), ["run"], document)
    if status:
        said = text.decode("ascii", "replace").splitlines()[-1:] or ["nothing"]
        raise CannotRun(f"{name} says `{said[0]}` of this plan, and ends with status {status}: a ring of programs is held against runs that are done")
    return text


def settled_of(plan: Plan, document: bytes) -> list[Settled]:
    """Returns the reports of a plan's settle steps."""
    return read_report(asked("sdhring", document), plan).settled


def lines_of(plan: Plan, document: bytes) -> dict[tuple[int, int], Said]:
    """Returns the line of each node, by its position, in each round in which something of it changes."""
    lines = [line for line in asked("sdhaps", document).decode("ascii").split("\n") if line.startswith("round ")]
    said = [Said.of(line) for line in lines]
    return {(int(one.fields["round"]), plan.ids.index(int(one.fields["node"]))): one for one in said if one.fields}


def period(circuit: Circuit, end: str) -> int:
    """Returns a number of rounds after which the bytes that a port is owed come again: of its text, of its trace, and of B3 over both."""
    text = len(circuit.other(end).text)
    return 2 * lcm(text // gcd(text, TEXT_BYTES), TRACE)


def going_on(plan: Plan, rounds: Sequence[int], now: int) -> Iterator[tuple[str, str]]:
    """Yields the name of each port and what it is to deliver in a round after the script, whose settle steps ended with these rounds."""
    scene = scenes(plan, rounds)[-1]
    for circuit in plan.circuits:
        way = route(plan, circuit, scene.applied)
        for end in "ab":
            slips = scene.slips[circuit.name, "b" if end == "a" else "a"]
            at = rounds[-1] + (now - rounds[-1]) % period(circuit, end)
            value = None if way is None else owed(circuit, end, at, len(way), slips)
            yield f"{circuit.name} {end}", "ais" if value is None else words_of(PortLine(*value))


@dataclass(frozen=True)
class Due:
    """What is due of a plan, round by round and settle step by settle step."""

    plan: Plan
    lines: dict[tuple[int, int], Said]
    settled: Sequence[Settled]

    @property
    def rounds(self) -> list[int]:
        """The rounds with which the settle steps end."""
        return [step.round for step in self.settled]

    def ports(self, stretch: Stretch) -> dict[str, str]:
        """Returns what each port is to deliver in the last round of a stretch, by its name."""
        if stretch.settle is None:
            return dict(going_on(self.plan, self.rounds, stretch.last))
        return {" ".join(port): words_of(delivers) for port, delivers in self.settled[stretch.settle - 1].ports.items()}


def due_of(plan: Plan, document: bytes) -> Due:
    """Asks the programs beside these tools."""
    return Due(plan, lines_of(plan, document), settled_of(plan, document))
