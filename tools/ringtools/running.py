"""Runs the program on cases, many at a time, here or with GNU parallel."""

import os
import re
import shlex
import signal
import subprocess
import tempfile
import time
from collections.abc import Sequence
from concurrent.futures import FIRST_COMPLETED, ProcessPoolExecutor, ThreadPoolExecutor, wait
from contextlib import suppress
from dataclasses import dataclass
from multiprocessing import get_context
from pathlib import Path

from .build import sum_of
from .files import CASES, TEXT
from .kept import ELSEWHERE, FORMS, HERE, LONGEST, Store
from .origin import CannotRun, Program, file_of
from .progress import Progress
from .programs import ask
from .writing import Folder

STOPPED = (128 + signal.SIGINT, 128 + signal.SIGTERM)
TOLD = re.compile("".join(f"{key} (?P<{key}>{FORMS[key]})\n" for key in ("status", "plan", "text", "sum", "date", "seconds")))
TICK = 0.5  # seconds between two looks at what is done


def run_one(store: Store, name: str) -> int:
    """Runs a case, keeps what was answered unless the program was stopped, and returns its status."""
    begun, document = time.monotonic(), store.plan(name)
    text, status = ask(store.program, ["run"], document)
    if status not in STOPPED:
        store.put_answer(name, document, text, status, time.monotonic() - begun)
    return status


def run_here(store, names, jobs, progress):
    pool = ThreadPoolExecutor(jobs)
    try:
        left = {pool.submit(run_one, store, name) for name in names}
        while left:
            ended, left = wait(left, timeout=TICK, return_when=FIRST_COMPLETED)
            for run in ended:
                run.result()
            progress.tell(progress.done + len(ended))
    finally:
        pool.shutdown(wait=True, cancel_futures=True)


@dataclass(frozen=True)
class Machines:
    """The machines of GNU parallel, how many cases each has at a time, and more words for it."""

    logins: tuple
    jobs: int | None
    more: tuple

    @property
    def where(self) -> str:
        """Whether all of them are this machine."""
        return HERE if all(login.rpartition("/")[2] == ":" for login in self.logins) else ELSEWHERE

    def words(self) -> list[str]:
        logins = [word for login in self.logins for word in ("--sshlogin", login)]
        return ["parallel", "--will-cite", *self.more, *logins, *(["--jobs", str(self.jobs)] if self.jobs else [])]


def script_of(program: Program) -> str:
    """Returns the shell's script that runs the case of the plan `$1` and writes its text, and what is told of it in the form of TOLD.

    It goes to the machines as a file, so that GNU parallel reads no word of the program's as one of its own.
    """
    file = file_of(program.words[0]) if len(program.words) == 1 else None
    sum_words = f"$(sha256sum < {shlex.quote(str(file))} | cut -c1-64)" if file else program.sum
    stopped = "|".join(map(str, STOPPED))
    return f"""begun=$(date +%s)
case=${{1%.toml}}
{shlex.join(program.words)} run < "$1" > "$case.text"
status=$?
case $status in {stopped}) exit ;; esac
{{
  echo "status $status"
  echo "plan $(sha256sum < "$1" | cut -c1-64)"
  echo "text $(sha256sum < "$case.text" | cut -c1-64)"
  echo "sum {sum_words}"
  echo "date $(date -u +%Y-%m-%dT%H:%M:%SZ)"
  echo "seconds $(($(date +%s) - begun))"
}} > "$case.answer"
"""


def take(store: Store, folder: Folder, name: str, where: str) -> bool:
    """Keeps the answer of a case that came from a machine, if it is whole and of this plan and program; whether it did."""
    document = store.plan(name)
    told, text = folder.read(f"{name}.answer", LONGEST), folder.read(f"{name}.text", TEXT.bytes)
    found = TOLD.fullmatch(told.decode("ascii", "replace")) if told is not None else None
    if not found or text is None:
        return False
    if (found["plan"], found["text"], found["sum"]) != (sum_of(document), sum_of(text), store.program.sum):
        return False
    store.put_answer(name, document, text, int(found["status"]), float(found["seconds"]), where, found["date"])
    return True


def run_with_parallel(store: Store, names: Sequence[str], machines: Machines, progress: Progress) -> None:
    """Runs these cases over machines, in a folder of its own, out of which whole answers are kept as they come."""
    with tempfile.TemporaryDirectory(prefix="sdhwhatif-") as place:
        folder, left = Folder(Path(place)), set(names)
        for name in names:
            folder.write(f"{name}.toml", store.plan(name))
        script = f"{Path(place).name}.sh"
        folder.write(script, script_of(store.program))
        more = ["--basefile", script, "--transferfile", "{}", "--return", "{.}.text", "--return", "{.}.answer", "--cleanup"]
        running = started([*machines.words(), *more, f"sh {script} {{}}"], folder)
        try:
            with suppress(BrokenPipeError):
                running.stdin.write("".join(f"{name}.toml\n" for name in names))
                running.stdin.close()
            while running.poll() is None:
                time.sleep(TICK)
                left -= {name for name in left if take(store, folder, name, machines.where)}
                progress.tell(progress.at_begin + len(names) - len(left))
        finally:
            if running.poll() is None:
                running.terminate()
                running.wait()
            for name in left:
                take(store, folder, name, machines.where)


def started(words: Sequence[str], folder: Folder) -> subprocess.Popen:
    """Starts GNU parallel in a folder."""
    try:
        return subprocess.Popen(words, stdin=subprocess.PIPE, cwd=folder.path, text=True)
    except OSError as error:
        raise CannotRun(f"parallel: {error.strerror}; it is Debian's package `parallel`") from None


def made_pool(jobs: int) -> ProcessPoolExecutor | None:
    """Returns processes that are split off from this one, or None where the system gives none, as one without a shared /dev/shm.

    They have what it has in memory by then, and leave an interruption to it.
    """
    try:
        split = get_context("fork")
        return ProcessPoolExecutor(jobs, mp_context=split, initializer=signal.signal, initargs=(signal.SIGINT, signal.SIG_IGN))
    except (OSError, ImportError):
        return None


def processors() -> int:
    return len(os.sched_getaffinity(0))


def tell_with_parallel(program: Program, document: bytes, asking: Sequence[str], parts: int, machines: Machines) -> list[bytes]:
    """Returns what the program writes of each part of its table, over these machines. `asking` has its words with `{}` for a part's number.

    A part that failed ends in what it says. Files have names that no other run has.
    """
    with tempfile.TemporaryDirectory(prefix="sdhwhatif-") as place:
        folder, stem = Folder(Path(place)), Path(place).name
        folder.write(f"{stem}.toml", document)
        asked = " ".join('"$1"' if word == "{}" else shlex.quote(word) for word in [*program.words, *asking])
        folder.write(f"{stem}.sh", f'{asked} < {stem}.toml > "{stem}-$1.text"\n')
        files = [] if machines.where == HERE else ["--basefile", f"{stem}.sh", "--basefile", f"{stem}.toml", "--return", f"{stem}-{{}}.text", "--cleanup"]
        running = started([*machines.words(), *files, f"sh {stem}.sh {{}}"], folder)
        with running:
            try:
                running.communicate("".join(f"{number}\n" for number in range(1, parts + 1)))
            except BaseException:
                running.terminate()
                raise
        return [folder.read(f"{stem}-{number}.text", CASES.bytes) or b"" for number in range(1, parts + 1)]
