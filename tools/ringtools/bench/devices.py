"""The programs that are a ring's nodes: proved ones beside these tools, somebody's own, or one behind a socket of another machine."""

import fcntl
import os
import signal
import socket
import subprocess
import time
from collections.abc import Sequence
from contextlib import suppress
from dataclasses import dataclass, field

from ..origin import CannotRun, Program
from ..programs import OPEN_FILES, held

ROOM = 1 << 18  # bytes that wait in a pipe at most: more than two frames of STM-16 and their lines
SECONDS_TO_CONNECT, SECONDS_TO_END = 10, 1.0
SET_SIZE = 1031  # F_SETPIPE_SZ, which `fcntl` names from Python 3.10 on


@dataclass
class Device:
    """One node of a ring: where its answers come from, where its records go to, and the process or the socket that it is."""

    source: int
    sink: int
    process: subprocess.Popen | None = None
    line: socket.socket | None = None
    taps: list[int] = field(default_factory=list)
    is_closed: bool = False

    def close(self) -> None:
        """Ends it, by the end of its stream if it goes by that, and else by force. What is kept of it is written by then."""
        if self.is_closed:
            return
        self.is_closed = True
        if self.line is None or self.taps:
            os.close(self.sink)
        if self.taps:
            os.waitpid(self.taps.pop(0), 0)
        self.end()
        if self.line is None or self.taps:
            os.close(self.source)
        for tap in self.taps:
            os.waitpid(tap, 0)

    def end(self) -> None:
        """Waits until the node has ended, but not for long."""
        if self.process and self.process.returncode is None:
            with suppress(subprocess.TimeoutExpired):
                self.process.wait(SECONDS_TO_END)
            with suppress(OSError):
                os.killpg(self.process.pid, signal.SIGKILL)  # the session's leader is it itself
            self.process.wait()
        if self.line:
            begun = time.monotonic()
            with suppress(OSError):
                self.line.shutdown(socket.SHUT_WR)
            while self.taps and time.monotonic() - begun < SECONDS_TO_END and not os.waitid(os.P_PID, self.taps[0], os.WEXITED | os.WNOHANG | os.WNOWAIT):
                time.sleep(0.01)
            with suppress(OSError):
                self.line.shutdown(socket.SHUT_RDWR)
            self.line.close()

    def end_words(self) -> str:
        """Returns how its process has ended, where it has in a second."""
        if self.process is None:
            return "the connection is closed"
        try:
            status = self.process.wait(1)
        except subprocess.TimeoutExpired:
            return "its output is closed, and it runs on"
        return f"status {status}" if status >= 0 else f"signal {-status}"


def wide_pipe() -> tuple[int, int]:
    """Returns the ends of a pipe that holds whole rounds. Raises CannotRun where the system gives none so large."""
    ends = os.pipe()
    try:
        fcntl.fcntl(ends[1], SET_SIZE, ROOM)
    except OSError as error:
        raise CannotRun(f"no pipe of {ROOM:,} bytes is to be had: {error.strerror}; see /proc/sys/fs/pipe-user-pages-soft") from None
    return ends


def started(words: Sequence[str], **more: object) -> Device:
    """Starts a program that is a node, between two pipes. It is in a session of its own, which a terminal's Ctrl-C doesn't reach."""
    given, sink = wide_pipe()
    source, answered = wide_pipe()
    try:
        process = subprocess.Popen(words, stdin=given, stdout=answered, start_new_session=True, **more)
    except (OSError, ValueError) as error:
        raise CannotRun(f"{words[0]}: {getattr(error, 'strerror', None) or error}") from None
    finally:
        os.close(given)
        os.close(answered)
    return Device(source, sink, process)


def started_proved(program: Program, identifier: int) -> Device:
    """Starts the program beside these tools for a node; a proved one from its copy in memory."""
    descriptor = held(program.words[0], program.sum) if program.proved else None
    more = {} if descriptor is None else {"executable": str(OPEN_FILES / str(descriptor)), "pass_fds": (descriptor,)}
    return started([*program.words, str(identifier), "frames"], **more)


def connected(host: str, port: int) -> Device:
    """Returns the node behind a socket of another machine, which is there and waits for the plan."""
    try:
        line = socket.create_connection((host, port), SECONDS_TO_CONNECT)
    except OSError as error:
        raise CannotRun(f"{host}:{port}: {error.strerror or error}") from None
    line.settimeout(None)
    line.setsockopt(socket.IPPROTO_TCP, socket.TCP_NODELAY, 1)
    line.setsockopt(socket.SOL_SOCKET, socket.SO_SNDBUF, ROOM)  # so that no node waits while another one doesn't read
    return Device(line.fileno(), line.fileno(), None, line)
