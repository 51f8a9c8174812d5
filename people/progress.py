"""A line that says how far a long list is, on a terminal alone."""
from __future__ import annotations

import sys
import time


class Progress:
    """Shown from a second on, at most ten times a second; gone before anything else is written."""

    def __init__(self, total: int) -> None:
        self.total, self.began, self.last, self.shown = total, time.monotonic(), 0.0, False
        self.on = total > 1 and sys.stderr is not None and sys.stderr.isatty()

    def at(self, done: int) -> None:
        """So many are done."""
        now = time.monotonic()
        if self.on and now - self.began >= 1 and now - self.last >= 0.1:
            self.last, self.shown = now, True
            sys.stderr.write(f"\r\033[Kpanel-order: {done:,} of {self.total:,} files")
            sys.stderr.flush()

    def make_way(self) -> None:
        """Takes the line away where what follows goes to the terminal too."""
        if sys.stdout.isatty():
            self.clear()

    def clear(self) -> None:
        """Takes the line away."""
        if self.shown:
            self.shown = False
            sys.stderr.write("\r\033[K")
            sys.stderr.flush()
