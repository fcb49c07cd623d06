"""Starts a program with words and bytes. A proved one runs from a copy in memory, so that what runs is what its checksum is of."""

import fcntl
import os
import subprocess
from collections.abc import Sequence
from functools import cache
from pathlib import Path

from .build import sum_of
from .files import FileProblem, read_path
from .origin import LONGEST_PROGRAM, CannotRun, Program

EXECUTABLE = 0x10  # MFD_EXEC, which Linux knows from 6.3 on
SEALED = fcntl.F_SEAL_WRITE | fcntl.F_SEAL_GROW | fcntl.F_SEAL_SHRINK | fcntl.F_SEAL_SEAL
OPEN_FILES = Path("/proc/self/fd")


def in_memory(name: str, data: bytes) -> int | None:
    """Returns a descriptor of these bytes as a program that nobody can change; None where there is no such memory."""
    flags = os.MFD_CLOEXEC | os.MFD_ALLOW_SEALING
    for more in (EXECUTABLE, 0):
        try:
            descriptor = os.memfd_create(name, flags | more)
            break
        except (OSError, AttributeError):
            continue
    else:
        return None
    left = memoryview(data)
    while left:
        left = left[os.write(descriptor, left) :]
    os.fchmod(descriptor, 0o555)
    fcntl.fcntl(descriptor, fcntl.F_ADD_SEALS, SEALED)
    return descriptor if os.access(OPEN_FILES / str(descriptor), os.X_OK) else None


@cache
def held(file: str, sum: str) -> int | None:
    """Returns a descriptor of the program of this checksum. Raises CannotRun where its file has changed since that was taken."""
    try:
        data = read_path(file, LONGEST_PROGRAM + 1)
    except FileProblem as problem:
        raise CannotRun(str(problem)) from None
    if sum_of(data) != sum:
        raise CannotRun(f"{file} has changed since this run began")
    return in_memory(Path(file).name, data)


def ask(program: Program, words: Sequence[str], data: bytes) -> tuple[bytes, int]:
    """Returns what the program writes where it is given these bytes, and its status, which is 128 and more after a signal."""
    descriptor = held(program.words[0], program.sum) if program.proved else None
    more = {} if descriptor is None else {"executable": str(OPEN_FILES / str(descriptor)), "pass_fds": (descriptor,)}
    try:
        ended = subprocess.run([*program.words, *words], input=data, stdout=subprocess.PIPE, **more)
    except (OSError, ValueError) as error:
        raise CannotRun(f"{program.words[0]}: {getattr(error, 'strerror', None) or error}") from None
    return ended.stdout, ended.returncode if ended.returncode >= 0 else 128 - ended.returncode
