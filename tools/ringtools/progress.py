"""Progress on standard error: how far it is, and how long it may still take."""

import sys
import time


def duration(seconds):
    """As '40 s', '12 min' or '2 h 41 min'."""
    seconds = int(seconds + 0.5)
    if seconds < 60:
        return f"{seconds} s"
    minutes = (seconds + 30) // 60
    return f"{minutes} min" if minutes < 60 else f"{minutes // 60} h {minutes % 60} min"


class Progress:
    """Shows how many cases are done, `jobs` at a time, from the first one on. `expected` is how many seconds all that are left may take, or None."""

    what, tool = "cases", "sdhring-whatif"

    def __init__(self, total, done, expected=None, jobs=1):
        self.total, self.done, self.at_begin = total, done, done
        self.begun = self.told = time.monotonic()
        self.expected, self.jobs = expected, jobs

    def left(self, gone):
        """The seconds that may be left: by the cases that ran, or by what was expected before the first of them ended."""
        ran, asked = self.done - self.at_begin, self.total - self.at_begin
        if ran:
            of_one = gone * self.jobs / max(ran, self.jobs)
            return of_one * max(1, asked / self.jobs) - gone
        return None if self.expected is None else self.expected - gone

    def line(self, gone):
        left = self.left(gone)
        words = f"{self.done} of {self.total} {self.what}, {duration(gone)} gone"
        if self.done == self.total or left is None:
            return words
        return f"{words}, about {duration(left)} left" if left > 0 else f"{words}, longer than was expected"

    def wait_between(self, gone):
        """A terminal's line is written over each second; a log gets a line each 5 seconds, after the first minute each minute."""
        return 1 if sys.stderr.isatty() else 5 if gone < 60 else 60

    def tell(self, done, last=False):
        self.done = done
        now = time.monotonic()
        gone = now - self.begun
        if not last and now - self.told < self.wait_between(gone):
            return
        self.told = now
        end = "    \r" if sys.stderr.isatty() and not last else "\n"
        sys.stderr.write(f"{self.tool}: {self.line(gone)}{end}")
        sys.stderr.flush()
