"""Two networks beside each other, or one and an earlier answer: in which cases a customer survives in one of them and not in the other."""

import csv
import io
from collections.abc import Iterator
from dataclasses import dataclass, field
from pathlib import Path

from ..cells import read_cell, text_of_rows
from ..files import MEBIBYTE, Limit, found_in, is_there, read_input
from ..tables import TableProblem
from .model import NetworkProblem
from .telling import CUSTOMERS, LOST, SINGLES

COLUMNS = ("failure", "other", "customer", "before", "now", "change")
ANSWER = Limit("a table of an answer", 1024 * MEBIBYTE)
NEEDED = ("singles.csv", "lost.csv", "customers.csv")


@dataclass
class Answer:
    """An answer as its tables have it: the failures, the customers, and who isn't well in which case."""

    failures: set[str] = field(default_factory=set)
    customers: list[str] = field(default_factory=list)
    fates: dict[tuple[str, str], dict[str, str]] = field(default_factory=dict)  # by failure and other: by customer

    def fate(self, case: tuple[str, str], customer: str) -> str:
        """What becomes of a customer: by two failures he is lost too where one of them alone is enough."""
        failure, other = case
        alone = [("", ""), (failure, ""), (other, "")] if other else [("", ""), case]
        if any(self.fates.get(one, {}).get(customer) == "lost" for one in alone):
            return "lost"
        before = self.fates.get(("", ""), {}).get(customer, "survives")
        return self.fates.get(case, {}).get(customer, before)


def rows_of(path: str, columns: tuple[str, ...]) -> Iterator[dict[str, str]]:
    """Yields the records of a table that `whatif` wrote, or raises a TableProblem."""
    try:
        rows = csv.reader(io.StringIO(read_input(path, ANSWER).decode("utf-8"), newline=""), strict=True)
        if tuple(next(rows, ())) != columns:
            raise TableProblem(
                f"{path}: the columns {', '.join(columns)} are wanted, as `sdhring-network whatif` writes them"
            )
        for cells in rows:
            if len(cells) != len(columns):
                raise TableProblem(f"{path}:{rows.line_num}: {len(cells)} cells, and {len(columns)} columns")
            yield dict(zip(columns, map(read_cell, cells)))
    except (UnicodeDecodeError, csv.Error) as problem:
        raise TableProblem(f"{path}: {problem}") from None


def number_in(row: dict[str, str], column: str) -> int:
    cell = row[column]
    return int(cell) if cell.isascii() and cell.isdecimal() and len(cell) <= 9 else -1


def read_singles(answer: Answer, path: str) -> dict[str, int]:
    """Takes the failures of a table into the answer, whose customers are known; returns how many are lost by each."""
    lost: dict[str, int] = {}
    for row in rows_of(path, SINGLES):
        counts = [number_in(row, column) for column in ("kept", "impaired", "over", "lost")]
        if min(counts) < 0 or sum(counts) != len(answer.customers):
            raise TableProblem(f"{path}: `{row['failure']}`: kept, impaired, over and lost aren't the {len(answer.customers)} customers")
        if row["failure"] in lost:
            raise TableProblem(f"{path}: `{row['failure']}` stands twice")
        lost[row["failure"]] = counts[3]
    answer.failures = set(lost)
    return lost


def check_lost(answer: Answer, singles: dict[str, int], path: str) -> None:
    """Raises unless the records of who is lost are of these failures and customers, and as many as the failures' own records say."""
    known = set(answer.customers)
    before = {name for name, fate in answer.fates.get(("", ""), {}).items() if fate == "lost"}
    for (failure, other), fates in answer.fates.items():
        if strange := [name for name in (failure, other) if name and name not in singles] or sorted(set(fates) - known):
            raise TableProblem(f"{path}: `{strange[0]}` is in no other of the tables")
    for failure, count in singles.items():
        named = before | {name for name, fate in answer.fates.get((failure, ""), {}).items() if fate == "lost"}
        if len(named) != count:
            raise TableProblem(f"{path}: `{failure}`: {len(named)} are lost here, and {count} by singles.csv")


def answer_in(folder: Path) -> Answer:
    """Returns the answer whose tables lie in a folder."""
    for name in NEEDED:
        if not is_there(folder / name):
            raise NetworkProblem(
                f"{folder / name} is missing: --against names a network, or the folder of an earlier `whatif` without --summary"
            )
    answer = Answer()
    answer.customers = list(dict.fromkeys(row["customer"] for row in rows_of(found_in(folder, "customers.csv"), CUSTOMERS)))
    singles = read_singles(answer, found_in(folder, "singles.csv"))
    for row in rows_of(found_in(folder, "lost.csv"), LOST):
        fates = answer.fates.setdefault((row["failure"], row["other"]), {})
        if row["fate"] not in ("lost", "impaired"):
            raise TableProblem(f"{folder / 'lost.csv'}: `{row['fate']}` is neither lost nor impaired")
        if fates.get(row["customer"]) != "lost":
            fates[row["customer"]] = row["fate"]
    check_lost(answer, singles, str(folder / "lost.csv"))
    return answer


def change(before: str, now: str) -> str:
    return "loses" if now == "lost" else "gains" if before == "lost" else "changes"


def changes(before: Answer, now: Answer) -> Iterator[list[object]]:
    """Yields each case that both have and each customer of both of whom something else becomes."""
    both, shared = before.failures & now.failures, set(before.customers)
    for case in dict.fromkeys([*now.fates, *before.fates]):
        if not all(name in both or not name for name in case):
            continue
        customers = [
            name
            for name in now.customers
            if name in shared and (name in now.fates.get(case, {}) or name in before.fates.get(case, {}))
        ]
        for name in customers:
            then, here = before.fate(case, name), now.fate(case, name)
            if then != here:
                yield [case[0] or "nothing more", case[1], name, then, here, change(then, here)]


def compared(before: Answer, now: Answer) -> tuple[str, list[str]]:
    """Returns the table of changes, and what only one of the two has, in words."""
    words = []
    for what, here, there in (
        ("failure", now.failures, before.failures),
        ("customer", set(now.customers), set(before.customers)),
    ):
        for only, name in ((here - there, "this network"), (there - here, "the other")):
            if only:
                shown = ", ".join(sorted(only)[:3])
                words.append(
                    f"{len(only)} {what}{'s' if len(only) > 1 else ''} only in {name}, not compared: {shown}{' ..' if len(only) > 3 else ''}"
                )
    return text_of_rows([COLUMNS, *changes(before, now)]), words
