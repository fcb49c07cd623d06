"""How every tool starts and ends: `start` runs its main, so that all that can go wrong ends in one line and a status.

The standard files are opened anew first. Standard output then says by an exception of its own that it can't be written,
and standard error is never the reason why a tool ends.
"""

import errno
import io
import os
import signal
import sys
import traceback
from collections.abc import Callable
from pathlib import Path
from typing import NoReturn

from . import modules_are_loaded
from .files import FileProblem, begin_run
from .shown import say, shown_lines

FAILED = 1
OUTPUT_FAILED = 4  # as it is of the programs, and so is the next
NO_MEMORY = 70
MISTAKE = 90  # an exception that no tool expects
INTERRUPTED = 128 + signal.SIGINT

Main = Callable[[list[str]], int | None]


class OutputProblem(Exception):
    """Standard output can't be written. It is no OSError, so that nobody takes it for a trouble with a file."""

    def __init__(self, error: OSError) -> None:
        super().__init__(f"standard output can't be written: {error.strerror}")
        self.errno = error.errno


class Output(io.FileIO):
    """The bytes of standard output."""

    def write(self, data) -> int | None:
        try:
            return super().write(data)
        except OSError as error:
            raise OutputProblem(error) from None


class Notes(io.FileIO):
    """The bytes of standard error. Those that can't be written are lost, and nothing else is."""

    def write(self, data) -> int | None:
        try:
            return super().write(data)
        except OSError:
            return len(data)


def fill(number: int, mode: int) -> None:
    """Opens a standard file that is closed, so that no file opened later gets its number. Its use fails as that of a closed one."""
    try:
        os.fstat(number)
    except OSError:
        os.set_inheritable(os.open(os.devnull, mode), True)


def open_standard_files() -> None:
    """Opens the standard files anew. Text is UTF-8 whatever the locale is, and what UTF-8 doesn't have is written with a backslash."""
    for number, mode in enumerate((os.O_WRONLY, os.O_RDONLY, os.O_RDONLY)):
        fill(number, mode)
    written = {"encoding": "utf-8", "errors": "backslashreplace"}
    sys.stdin = sys.stdin or open(0, encoding="utf-8", closefd=False)
    sys.stdout = io.TextIOWrapper(io.BufferedWriter(Output(1, "w", closefd=False)), **written, line_buffering=os.isatty(1))
    sys.stderr = io.TextIOWrapper(io.BufferedWriter(Notes(2, "w", closefd=False)), **written, write_through=True, line_buffering=True)


def ended(main: Main) -> int:
    """Returns the status with which main ends. All that it wrote has been handed on by then."""
    try:
        status = main(sys.argv[1:])
    except SystemExit as leaving:
        status = leaving.code
    if isinstance(status, str):
        sys.stderr.write(f"{shown_lines(status)}\n")
        status = FAILED
    sys.stdout.flush()
    return int(status or 0)


def of_file(error: OSError) -> str:
    """Returns what is said of a file that can't be read or written."""
    names = [os.fsdecode(name) for name in (error.filename, error.filename2) if isinstance(name, (str, bytes, os.PathLike))]
    return ": ".join([*names[:1], error.strerror or str(error)])


def of_mistake(error: BaseException) -> str:
    """Returns what is said of an exception that nobody expects, with the place where it was raised."""
    place = traceback.extract_tb(error.__traceback__)[-1]
    what = " ".join(str(error).split())
    return f"a mistake of this tool: {type(error).__name__}: {what} ({Path(place.filename).name}, line {place.lineno}); `python3 -X dev {sys.argv[0]} ..` shows more"


def told(error: BaseException, failed: int) -> tuple[str, int]:
    """Returns the line and the status for what ended a main."""
    if isinstance(error, OutputProblem):
        return str(error), OUTPUT_FAILED
    if isinstance(error, KeyboardInterrupt):
        return "stopped", INTERRUPTED
    if isinstance(error, MemoryError):
        return "there is too little memory", NO_MEMORY
    if isinstance(error, OSError):
        return of_file(error), failed
    if isinstance(error, FileProblem):
        return str(error), failed
    if sys.flags.dev_mode:
        traceback.print_exception(error)
    return of_mistake(error), MISTAKE


def drop_output() -> None:
    """Sends what is still to be written nowhere."""
    null = os.open(os.devnull, os.O_WRONLY)
    os.dup2(null, 1)
    os.close(null)


def end_with_reader() -> NoReturn:
    """Ends as by SIGPIPE and without a word, as programs do whose reader has had enough."""
    signal.signal(signal.SIGPIPE, signal.SIG_DFL)
    os.kill(os.getpid(), signal.SIGPIPE)
    os._exit(128 + signal.SIGPIPE)


def start(main: Main, failed: int = FAILED) -> NoReturn:
    """Runs main with the words of the command line, and ends with its status; `failed` is that for a file's trouble."""
    modules_are_loaded()
    open_standard_files()
    begin_run()
    try:
        status = ended(main)
    except (Exception, KeyboardInterrupt) as error:
        if isinstance(error, OutputProblem) and error.errno == errno.EPIPE:
            end_with_reader()
        line, status = told(error, failed)
        say(Path(sys.argv[0]).name, line)
        drop_output()
    sys.exit(status)
