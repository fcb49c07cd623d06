"""What is said of the ring as alarms leave it, in words for a terminal and for a page."""

from __future__ import annotations

import textwrap
from collections.abc import Iterator, Sequence
from dataclasses import dataclass
from itertools import chain

from ..desktable import IMPAIRED, KEPT, LOST, OVER
from ..failures import span_fibres
from ..markup import count_of
from ..plan import Circuit
from ..tables import quoted
from .alarms import Alarm, Read
from .sorting import HARMLESS, HELPS, IMPAIRS, LOSES, Change, Command, Customer, Now, Repair

WIDE = 110  # columns of a terminal's lines
CLASSES = {HELPS: "Help", HARMLESS: "Harmless", IMPAIRS: "Impair customers", LOSES: "Lose customers: don't"}
NOTHING = "changes nothing"
WORST = 5  # further failures that are listed


def wrapped(text: str, before: str = "", after: str | None = None) -> list[str]:
    """Returns a text as lines of a terminal, the first and the later ones set in so."""
    return textwrap.wrap(text, WIDE, initial_indent=before, subsequent_indent=before if after is None else after, break_long_words=False, break_on_hyphens=False)


def lines_of(alarms: Sequence[Alarm]) -> str:
    """Returns the numbers of the lines of these alarms, in words."""
    numbers = sorted({alarm.line for alarm in alarms})
    return f"line{'s' if len(numbers) > 1 else ''} {', '.join(map(str, numbers))}"


@dataclass
class Told:
    """The ring now, and the list that it was read from."""

    now: Now
    read: Read
    title: str

    def verdict(self) -> Iterator[str]:
        """Yields the answer in three lines or four: what wasn't read, who is lost, what comes next."""
        now, total = self.now, len(self.now.plan.circuits)
        if self.read.unread:
            of, lines = len(self.read.unread) + len(self.read.alarms), ", ".join(str(record.line) for record, _ in self.read.unread)
            yield f"NOT READ: {len(self.read.unread)} of {of} alarms, so all of this may be wrong: line{'s' if len(self.read.unread) > 1 else ''} {lines}"
        elif not self.read.is_whole:
            yield f"NOT READ: no alarm is in the list, whose {count_of(len(self.read.others), 'line')} name neither one nor a place"
        counts = {letter: len(now.of(letter)) for letter in (LOST, IMPAIRED, OVER, KEPT)}
        lost = f"{counts[LOST]} of {count_of(total, 'customer')} LOST" if counts[LOST] else f"no customer of {total} lost"
        yield f"{self.title}: {lost}, {counts[IMPAIRED]} impaired, {counts[OVER]} over protection, {counts[KEPT]} on their own way"
        losing = [one for one in now.seconds if one[1].lost]
        worst = f"; the worst, {now.table.words(losing[0][0])}: {len(losing[0][1].lost)} more" if losing else ""
        yield f"one failure more loses customers in {len(losing) or 'none'} of {count_of(len(now.seconds), 'case')}{worst}"
        if now.repairs:
            yield f"repair first: {self.repair_words(now.repairs[0])}"

    def repair_words(self, repair: Repair) -> str:
        """Returns a repair and what comes of it."""
        spans = " and ".join(f"span {self.now.plan.span_title(span)}" for span in repair.spans)
        change, told = repair.waited, []
        told += [f"{len(change.back)} lost {'comes' if len(change.back) == 1 else 'come'} back"] if change.back else []
        told += [f"{len(change.better)} no longer impaired"] if change.better else []
        told += [f"{len(change.moved)} {'goes' if len(change.moved) == 1 else 'go'} another way"] if change.moved else []
        late = ", once the waiting is over" if change != repair.at_once else ""
        return f"{spans}: {', '.join(told) or 'nothing changes'}{late}"

    def stands(self) -> Iterator[str]:
        """Yields what the alarms come to: each fibre, each switch, and who waits to restore."""
        plan, standing = self.now.plan, self.now.standing
        for span in range(plan.size):
            found = [(fibre, standing.conditions()[fibre]) for fibre in span_fibres(plan, span) if fibre in standing.conditions()]
            for fibre, condition in found:
                alarms = [*standing.fibres[fibre].values()]
                there = plan.node_name(plan.neighbour(*fibre))
                names = ", ".join(dict.fromkeys(alarm.name for alarm in alarms))
                yield f"fibre {plan.node_name(fibre[0])} → {there}: {'cut' if condition == 'cut' else 'degraded'}, by {names} ({lines_of(alarms)})"
        for (at, side), word in standing.commands().items():
            alarms = [*standing.switches[at, side].values()]
            yield f"{word} switch at {plan.node_name(at)} {side}, towards {plan.node_name(plan.neighbour(at, side))} ({lines_of(alarms)})"
        for at, side in standing.waiting():
            yield f"waits to restore: {plan.node_name(plan.neighbour(at, side))}, for the fibre from {plan.node_name(at)} ({lines_of([standing.waits[at, side]])})"

    def notes(self) -> Iterator[str]:
        """Yields what else is to be known of the list and of the plan."""
        read, standing = self.read, self.now.standing
        if self.now.own:
            yield f"after the plan's own script: {'; '.join(text for text in self.now.own if text != 'settle')}"
        yield f"{count_of(len(read.alarms), 'alarm')} read, {read.order}"
        for what, alarms in (("said again", standing.duplicates), ("cleared, and nothing stood", standing.nothing_stood), ("paths' alarms, which follow from others", standing.paths)):
            if alarms:
                yield f"{what}: {lines_of(alarms)}"
        if read.others:
            yield f"no alarm and no place: line{'s' if len(read.others) > 1 else ''} {', '.join(str(record.line) for record in read.others)}"
        yield from read.notes

    def unread(self) -> Iterator[str]:
        """Yields each line that can't be read, and why."""
        for record, why in self.read.unread:
            yield f"line {record.line}: `{quoted(record.text)}`: {why}"

    def longer(self, customer: Customer) -> str:
        """Returns by how much the way of a customer over protection is longer."""
        spans = f"{count_of(customer.spans, 'span')} in place of {customer.own_spans}"
        if customer.more_km is None:
            return f"{spans}, {customer.more_ms:+.3f} ms"
        return f"{spans}, {customer.more_km:+g} km, {customer.more_ms:+.3f} ms ({customer.more_ms_with_fibre:+.3f} ms with fibre)"

    def effect(self, change: Change) -> str:
        """Returns what a command changes."""
        said = (("loses", change.lost), ("impairs", change.impaired), ("brings back", change.back), ("no longer impaired", change.better))
        told = [f"{words} {len(found)}: {', '.join(self.now.names(found))}" for words, found in said if found]
        return "; ".join(told) or (f"moves {count_of(len(change.moved), 'customer')}, who {'is' if len(change.moved) == 1 else 'are'} interrupted" if change.moved else NOTHING)

    def step_words(self, command: Command) -> str:
        """Returns a command as a step, and between which places it is."""
        plan = self.now.plan
        ends = (self.now.ring.places.place(plan.ids[at]) for at in (command.at, plan.neighbour(command.at, command.side)))
        return f"{command.step} ({' to '.join(ends)})" if plan.places.nodes else command.step

    def by_effect(self, kind: str) -> dict[str, list[Command]]:
        """Returns the commands of a class together whose effect is the same, those that change least first."""
        found: dict[str, list[Command]] = {}
        for command in self.now.commands:
            if command.change.kind == kind and not (command.word == "clear" and command.stands):
                found.setdefault(self.effect(command.change), []).append(command)
        size = lambda commands: sum(map(len, (commands[0].change.lost, commands[0].change.impaired, commands[0].change.moved)))
        return dict(sorted(found.items(), key=lambda one: size(one[1])))

    def command_lines(self) -> Iterator[str]:
        for kind, title in CLASSES.items():
            groups = self.by_effect(kind)
            if groups or kind == HELPS:
                yield f"  {title}{'' if groups else ': none'}"
            for effect, commands in groups.items():
                words = self.step_words if effect != NOTHING else lambda command: command.step
                yield from wrapped(", ".join(map(words, commands)), "    ")
                yield from wrapped(effect, "      -> ", "         ")
        if not any(self.now.scene.commands.values()):
            yield "  no switch stands, so there is nothing to clear"

    def customer_lines(self) -> Iterator[str]:
        for letter, title in ((LOST, "LOST"), (IMPAIRED, "IMPAIRED")):
            found = [customer.called for customer in self.now.of(letter)]
            if found:
                yield from wrapped(f"{title} ({len(found)}): {', '.join(found)}", "", "  ")
        over = self.now.of(OVER)
        if over:
            yield f"OVER PROTECTION ({len(over)})"
            yield from chain.from_iterable(wrapped(f"{customer.called}: {self.longer(customer)}", "  ", "    ") for customer in over)

    def lines(self) -> Iterator[str]:
        """Yields all of it for a terminal, the answer first."""
        yield from chain.from_iterable(wrapped(words, "", "  ") for words in self.verdict())
        parts = [("Not read", self.unread()), ("What stands", self.stands()), ("Of the list", self.notes())]
        for title, found in parts[:1]:
            yield from self.part(title, found)
        if self.now.base.lost or self.now.of(IMPAIRED) or self.now.of(OVER):
            yield from ["", *self.customer_lines()]
        yield from ["", "Commands", *self.command_lines()]
        yield from self.part("Repairs, the first first", map(self.repair_words, self.now.repairs))
        yield from self.part("One failure more, the worst first", self.worst())
        for title, found in parts[1:]:
            yield from self.part(title, found)

    def worst(self) -> Iterator[str]:
        """Yields the failures that would lose most customers besides those that are lost."""
        for case, change in self.now.seconds[:WORST]:
            if change.lost:
                yield f"{self.now.table.words(case)}: loses {len(change.lost)} more: {', '.join(self.now.names(change.lost))}"

    def part(self, title: str, found) -> Iterator[str]:
        shown = list(found)
        if shown:
            yield from ["", title, *chain.from_iterable(wrapped(words, "  ", "    ") for words in shown)]

    def names(self, circuits: Sequence[Circuit]) -> list[str]:
        return self.now.names(circuits)
