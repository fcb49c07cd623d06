"""Runs the suite: the right answers of sdhnode, the rules that decide them, and the answers of a device."""

from __future__ import annotations

from collections.abc import Callable, Iterable, Iterator
from dataclasses import dataclass, replace
from typing import Protocol

from ..origin import Program
from ..programs import ask
from .arriving import Stream
from .device import DeviceProblem
from .differing import NO_ANSWER, Difference, Field, difference, told_apart
from .judging import Failure, Judge, passes_of
from .node import Node


class SuiteProblem(Exception):
    """The suite can't be run."""


class Device(Protocol):
    """Something that answers records."""

    def begin(self, stream: Stream) -> None: ...

    def answer(self, part: bytes, record: object, due: bytes) -> bytes: ...

    def end(self, part: bytes) -> None: ...

    def stop(self) -> None: ...


def answers_of(program: Program, stream: Stream) -> list[bytes]:
    """Returns what sdhnode answers to each round of a stream."""
    text, status = ask(program, [str(stream.node), "frames"], b"".join(stream.parts()))
    if status or not text.endswith(b"done\n"):
        raise SuiteProblem(f"stream {stream.name}: sdhnode ended with status {status}: {text[-80:].decode('latin-1').splitlines()[-1:]}")
    return list(split(text))


def split(text: bytes) -> Iterator[bytes]:
    """Gives the answers of a text, one by one."""
    at = 0
    while text.startswith(b"round ", at):
        mark = text.index(b"\nbytes ", at) + 1
        start = text.index(b"\n", mark) + 1
        end = start + int(text[mark + 6 : start - 1])
        yield text[at:end]
        at = end


def traces(stream: Stream) -> Iterator[tuple[object, dict, bytes]]:
    """Gives each round's record, the rules that decide its answer, and what the recorder would answer."""
    node = Node(stream.plan.as_read(), stream.node)
    for record in stream.records:
        if isinstance(record, str):
            node.tell(record.split(" "))
            continue
        lines, frames = node.round(*record)
        yield record, node.trace, "\n".join([*lines, f"bytes {sum(map(len, frames))}\n"]).encode() + b"".join(frames)


def try_stream(stream: Stream, due: list[bytes], device: Device, judge: Judge) -> Failure | None:
    """Runs a stream on a device, beside what is due, and counts it. Returns where it failed first. It is asked on then, since what agrees tells too."""
    parts, failed, number, goes_on, lanes = stream.parts(), None, -1, True, {}
    judge.streams += 1
    try:
        device.begin(stream)
        for number, ((record, trace, recorded), right) in enumerate(zip(traces(stream), due)):
            if recorded != right:
                raise SuiteProblem(f"stream {stream.name}, round {number}: the recorder of rules differs from sdhnode")
            part = next(parts)
            if goes_on:
                wrong = try_round(device, part, (record, right), trace, Failure(stream.name, stream.why, number, NOTHING))
                goes_on = count(judge, wrong, trace, lanes)
                failed = failed or (wrong and wrong.failure)
            judge.saw(trace, failed is None)
        if failed is None:
            failed = at_end(device, b"".join(parts), Failure(stream.name, stream.why, number, NOTHING))
            judge.hung += failed is not None and failed.kind == "hung"
    finally:
        device.stop()
    judge.end_stream(stream.name, lanes)
    if failed:
        judge.failures.append(failed)
    return failed


NOTHING = Difference("", "", "", frozenset())


@dataclass(frozen=True)
class Wrong:
    """A wrong answer: what it fails in, and all fields of it."""

    failure: Failure
    fields: tuple[list[Field], list[Field]] | None = None  # those that differ, and those that agree


def try_round(device: Device, part: bytes, asked: tuple[object, bytes], trace: dict, place: Failure) -> Wrong | None:
    """Asks a device for a round, and returns where it is wrong."""
    record, due = asked
    try:
        came = device.answer(part, record, due)
    except DeviceProblem as problem:
        found = Difference("the answer", due[:60].decode("latin-1").partition("\n")[0], str(problem), frozenset())
        return Wrong(replace(place, difference=found, kind=problem.kind))
    found = difference(due, came, trace)
    return Wrong(replace(place, difference=found), told_apart(due, came, trace)) if found else None


def count(judge: Judge, wrong: Wrong | None, trace: dict, lanes: dict) -> bool:
    """Counts the fields of an answer; returns whether the device can be asked on."""
    if wrong is None:
        judge.saw_right(passes_of(trace), lanes)
        return True
    if wrong.fields is None:
        judge.hung += wrong.failure.kind == "hung"
        return False
    judge.saw_wrong(*wrong.fields, lanes)
    return wrong.failure.difference.field != NO_ANSWER


def at_end(device: Device, part: bytes, place: Failure) -> Failure | None:
    """Ends a stream, and returns what is wrong with how the device ends."""
    try:
        device.end(part)
    except DeviceProblem as problem:
        return replace(place, difference=Difference("the end of the stream", "done, status 0", str(problem), frozenset()), kind=problem.kind)
    return None


def run_suite(program: Program, device: Device, streams: Iterable[Stream], judge: Judge, tell: Callable[[Stream, Failure | None], None]) -> bool:
    """Runs streams one after the other; returns whether all were run. A device that hangs is asked three times."""
    for stream in streams:
        failed = try_stream(stream, answers_of(program, stream), device, judge)
        tell(stream, failed)
        if judge.hung >= MOST_HUNG:
            return False
    return True


MOST_HUNG = 3
