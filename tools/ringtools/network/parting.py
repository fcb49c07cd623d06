"""The rings of a network in parts, each asked about by itself: here on several processors, over machines by GNU parallel, or as an array job of Slurm.

A part is some rings in their order. What it says doesn't hang on who ran it or when, so that the whole is the same to the byte. Parts are
kept as files beside what they were asked; one that is missing, or of another question, is run again alone.
"""

import hashlib
import io
import json
import shlex
import subprocess
import tarfile
import tempfile
import time
from collections.abc import Callable, Iterable, Iterator
from contextlib import suppress
from concurrent.futures import FIRST_COMPLETED, Future, wait
from dataclasses import dataclass
from pathlib import Path
from typing import Any

from ..files import FileProblem, found_in, is_there, read_input
from ..origin import CannotRun, Program
from ..progress import Progress
from ..kept import HERE
from ..running import TICK, Machines, made_pool
from ..seals import is_sealed, seal_of
from ..writing import Folder, part_name
from .asking import Asker
from .components import Components
from .document import DOCUMENT, FILE, file_of
from .model import Kind, Network, NetworkProblem
from .ringwork import Base, Ends, Measure, RingWork, base_of

FORM = 1  # of the files of parts
LONGEST = 1 << 30  # bytes of one


@dataclass(frozen=True)
class Question:
    """What is asked about a network: of which kinds, counted how, and whether a record is wanted for each failure and pair."""

    folder: Path
    network: Network
    program: Program
    kinds: tuple[Kind, ...]
    measures: tuple[Measure, ...]
    rows: bool
    rules: tuple[str, ...] = ()  # as `--require` has them, from which the measures come

    def sum(self) -> str:
        """Returns a checksum of all that the answer hangs on: the document, the plans, the program, and what is asked."""
        found = hashlib.sha256()
        asked = [
            FORM,
            self.program.sum,
            [kind.value for kind in self.kinds],
            [[list(one.names), one.besides] for one in self.measures],
            self.rows,
        ]
        found.update(json.dumps(asked).encode())
        for _, data in self.files():
            found.update(hashlib.sha256(data).digest())
        return found.hexdigest()

    def files(self) -> Iterator[tuple[str, bytes]]:
        """Yields the document and each plan, by their names."""
        yield FILE, read_input(found_in(self.folder, FILE), DOCUMENT)
        for ring in self.network.rings:
            yield ring.file, read_input(found_in(self.folder, ring.file))

    def components(self) -> Components:
        return Components(self.network, self.kinds)

    def asker(self) -> Asker:
        return Asker(self.network, self.folder, self.program, self.components())


@dataclass(frozen=True)
class Part:
    """The `number`-th of so many parts, counted from 1."""

    number: int
    count: int

    def rings(self, total: int) -> range:
        return range(total * (self.number - 1) // self.count, total * self.number // self.count)

    @property
    def file(self) -> str:
        return f"part-{self.number}-of-{self.count}.json"


def results_of(question: Question, rings: Iterable[int], base: Base | None = None) -> list[dict[str, Any]]:
    """What these rings add to the answer, ring by ring."""
    asker = question.asker()
    left = base_of(asker, question.folder) if base is None else base
    ends = Ends(question.network)
    return [
        RingWork(asker, question.network.rings[number], left, ends, question.measures).result(question.rows)
        for number in rings
    ]


def written_part(asked: str, part: Part, results: list[dict[str, Any]]) -> str:
    """A part as it is kept: what was asked, and a line for each ring; and the seal by which this account knows it again."""
    head = {"form": FORM, "asked": asked, "part": [part.number, part.count], "rings": len(results)}
    text = "".join(json.dumps(one, separators=(",", ":"), ensure_ascii=False) + "\n" for one in [head, *results])
    return f"{text}seal {seal_of(text)}\n"


def put_part(folder: Folder, asked: str, part: Part, results: list[dict[str, Any]]) -> Path:
    folder.write(part.file, written_part(asked, part, results))
    return folder.path / part.file


def read_part(data: bytes | None, asked: str, part: Part, total: int, sealed: bool) -> list[dict[str, Any]] | None:
    """The results of a part, or None where it is missing, of another question, not whole, or, where that is asked, not sealed by this account."""
    text, _, seal = (data or b"").decode("utf-8", "replace").rpartition("seal ")
    if not text or sealed and not is_sealed(text, seal.removesuffix("\n")):
        return None
    try:
        head, *found = [json.loads(line) for line in text.splitlines()]
        rings = [one["ring"] for one in found]
    except (ValueError, TypeError, KeyError):
        return None
    is_whole = head == {
        "form": FORM,
        "asked": asked,
        "part": [part.number, part.count],
        "rings": len(part.rings(total)),
    }
    return found if is_whole and rings == list(part.rings(total)) else None


def kept_part(folder: Folder, asked: str, part: Part, total: int) -> list[dict[str, Any]] | None:
    return read_part(folder.read(part.file, LONGEST), asked, part, total, sealed=True)


# What a worker has in memory from the process that it was split off from.
WORK: dict[str, Any] = {}


Work = Callable[[range], list[dict[str, Any]]]


def work_on(numbers: range) -> list[dict[str, Any]]:
    return results_of(WORK["question"], numbers, WORK["base"])


def tried(numbers: range) -> list[dict[str, Any]]:
    """What these rings add, or why they don't: so one part that fails doesn't stop the others."""
    try:
        return work_on(numbers)
    except (NetworkProblem, FileProblem, CannotRun) as problem:
        return [{"problem": str(problem)}]


def here(
    question: Question, pieces: list[range], jobs: int, done: Callable[[int], None], work: Work = work_on
) -> Iterator[tuple[range, list[dict[str, Any]]]]:
    """Yields each piece with its results as it is done, `jobs` at a time."""
    question.network.prepare()
    WORK.update(question=question, base=base_of(question.asker(), question.folder))
    pool = made_pool(jobs) if jobs > 1 else None
    if pool is None:
        for count, piece in enumerate(pieces, 1):
            yield piece, work(piece)
            done(count)
        return
    with pool:
        left: dict[Future[list[dict[str, Any]]], range] = {pool.submit(work, piece): piece for piece in pieces}
        count = 0
        try:
            while left:
                ended, _ = wait(left, timeout=TICK, return_when=FIRST_COMPLETED)
                for one in ended:
                    yield left.pop(one), one.result()
                count += len(ended)
                done(count)
        except BaseException:
            pool.shutdown(wait=False, cancel_futures=True)
            raise


def progress_of(total: int, done: int, what: str) -> Progress:
    progress = Progress(total, done)
    progress.tool, progress.what = "sdhring-network", what
    return progress


def in_memory(question: Question, jobs: int, work: Work = work_on) -> list[dict[str, Any]]:
    """The results of all rings, asked here, with nothing kept."""
    total = len(question.network.rings)
    step = max(1, min(8, total // (jobs * 4) or 1))
    pieces = [range(at, min(at + step, total)) for at in range(0, total, step)]
    progress, found = progress_of(total, 0, "rings"), {}

    def tell(count: int) -> None:
        progress.tell(min(count * step, total))

    for piece, results in here(question, pieces, jobs, tell, work):
        found[piece.start] = results
    return [result for at in sorted(found) for result in found[at]]


def run_here(question: Question, folder: Folder, parts: list[Part], jobs: int, say: Callable[[str], None]) -> None:
    """Runs parts on this machine, and keeps each as it is done."""
    total, progress, asked = len(question.network.rings), progress_of(len(parts), 0, "parts"), question.sum()
    by_rings = {part.rings(total): part for part in parts}
    tell: Callable[[int], None] = progress.tell
    for piece, results in here(question, list(by_rings), jobs, tell, tried):
        part = by_rings[piece]
        if "problem" in results[0]:
            say(f"part {part.number} of {part.count}: {results[0]['problem']}")
        else:
            put_part(folder, asked, part, results)


class Watched:
    """A command that runs parts into a folder of its own, out of which whole parts are kept as they come."""

    def __init__(self, question: Question, kept: Folder, parts: list[Part]):
        self.asked, self.total, self.kept, self.parts = question.sum(), len(question.network.rings), kept, parts
        self.left = list(parts)

    def take(self, folder: Folder) -> int:
        """Keeps what has come, and returns how many parts there are."""
        for part in list(self.left):
            found = read_part(folder.read(part.file, LONGEST), self.asked, part, self.total, sealed=False)
            if found is not None:
                put_part(self.kept, self.asked, part, found)
                self.left.remove(part)
        return len(self.parts) - len(self.left)

    def run(self, words: list[str], cwd: Path, come: Folder, given: str = "") -> None:
        """Starts the command, and tells how many parts are done, until it ends."""
        progress = progress_of(len(self.parts), 0, "parts")
        try:
            running = subprocess.Popen(words, cwd=cwd, stdin=subprocess.PIPE, text=True, stdout=subprocess.DEVNULL)
        except OSError as error:
            package = {"parallel": "parallel", "sbatch": "slurm-wlm"}.get(words[0], words[0])
            raise CannotRun(f"{words[0]}: {error.strerror}; it is Debian's package `{package}`") from None
        try:
            if running.stdin:
                with suppress(BrokenPipeError):
                    running.stdin.write(given)
                    running.stdin.close()
            while running.poll() is None:
                time.sleep(TICK)
                progress.tell(self.take(come))
        finally:
            if running.poll() is None:
                running.terminate()
                running.wait()
            progress.tell(self.take(come), last=True)


def command_of(question: Question, where: str, tool: Path) -> list[str]:
    """The words that ask for a part of this question about a network's folder, up to the part's own."""
    words = [
        str(tool),
        "whatif",
        where,
        "--kinds",
        ",".join(kind.value for kind in question.kinds),
        "--teller",
        shlex.join(question.program.words),
    ]
    rules = [word for rule in question.rules for word in ("--require", rule)]
    return [*words, *rules, *([] if question.rows or rules else ["--summary"])]


def packed(question: Question) -> bytes:
    """The files of a network as one archive."""
    found = io.BytesIO()
    with tarfile.open(fileobj=found, mode="w") as archive:
        for name, data in question.files():
            entry = tarfile.TarInfo(name)
            entry.size = len(data)
            archive.addfile(entry, io.BytesIO(data))
    return found.getvalue()


def run_with_parallel(question: Question, kept: Folder, parts: list[Part], machines: Machines, tool: Path) -> None:
    """Runs parts over machines by GNU parallel. The network's files go with them; the tools have to be there, at the same path."""
    with tempfile.TemporaryDirectory(prefix="sdhring-network-") as place:
        folder, stem, count = Folder(Path(place)), Path(place).name, parts[0].count
        folder.write(f"{stem}.tar", packed(question))
        asking, name = shlex.join([*command_of(question, ".", tool), "--dir", "."]), f"part-$1-of-{count}.json"
        deeds = [
            f'tar -C "$d" -xf {stem}.tar',
            f'( cd "$d" && {asking} --part "$1/{count}" )',
            f'cp "$d/parts/{name}" "{name}"',
        ]
        folder.write(f"{stem}.sh", f"d=$(mktemp -d)\n{' && '.join(deeds)}\ns=$?\nrm -rf \"$d\"\nexit $s\n")
        sent = [
            "--basefile",
            f"{stem}.sh",
            "--basefile",
            f"{stem}.tar",
            "--return",
            f"part-{{}}-of-{count}.json",
            "--cleanup",
        ]
        words = [*machines.words(), *([] if machines.where == HERE else sent), f"sh {stem}.sh {{}}"]
        Watched(question, kept, parts).run(words, folder.path, folder, "".join(f"{part.number}\n" for part in parts))


def run_with_slurm(
    question: Question, top: Folder, kept: Folder, parts: list[Part], more: list[str], tool: Path
) -> None:
    """Runs parts as an array job of Slurm, whose machines see the network's folder and that of the answer at the same paths."""
    count, numbers, name = parts[0].count, ",".join(str(part.number) for part in parts), part_name()
    come = top.inside(name)
    where = come.path.resolve()
    asking = shlex.join([*command_of(question, str(question.folder.resolve()), tool), "--dir", str(where)])
    words = [
        "sbatch",
        "--wait",
        f"--array={numbers}",
        "--job-name=sdhring-network",
        f"--output={where}/slurm-%a.log",
        *more,
    ]
    try:
        job = [*words, "--wrap", f"{asking} --part $SLURM_ARRAY_TASK_ID/{count}"]
        Watched(question, kept, parts).run(job, where, come.inside("parts"))
    finally:
        emptied(come)
        top.remove_folder(name)


def emptied(folder: Folder) -> None:
    """Takes away what an array job has left: its parts, which are kept elsewhere by now, and its logs."""
    inner = folder.inside("parts")
    for one in (inner, folder):
        for name in one.names():
            if name.endswith((".json", ".log")):
                one.remove(name)
    folder.remove_folder("parts")


def in_parts(
    question: Question, folder: Folder, count: int, run: Callable[[list[Part]], None], say: Callable[[str], None]
) -> list[dict[str, Any]]:
    """The results of all rings, of parts that are kept in this folder and of those that are run now."""
    total, asked = len(question.network.rings), question.sum()
    parts = [Part(number, count) for number in range(1, count + 1)]
    left = [part for part in parts if kept_part(folder, asked, part, total) is None]
    if len(left) < count:
        say(f"{count - len(left)} of {count} parts are kept from an earlier run")
    if left:
        run(left)
    found, failed = [], []
    for part in parts:
        results = kept_part(folder, asked, part, total)
        if results is None:
            failed.append(part)
        else:
            found += results
    if failed:
        numbers = ", ".join(str(part.number) for part in failed[:20])
        raise NetworkProblem(
            f"{len(failed)} of {count} parts failed: {numbers}; the same command runs these alone again"
        )
    return found


def folder_of(name: str) -> Path:
    """Returns the folder of a network that is named by itself or by its document."""
    path = file_of(name)
    if not is_there(path):
        raise FileProblem(f"{path}: there is no such file; `sdhring-network import` writes a network's folder")
    return path.parent
