"""A line that tells how far a long run is: rows, rows a second, and the time left. It is quiet where no terminal reads it."""
from __future__ import annotations

import sys
import time
from typing import Callable, Optional, TextIO

WIDTH = 24
OFTEN = 0.1
"""Seconds between two drawings."""


def clock_time(seconds: float) -> str:
    minutes, rest = divmod(int(seconds + 0.5), 60)
    hours, minutes = divmod(minutes, 60)
    return f"{hours}:{minutes:02}:{rest:02}" if hours else f"{minutes}:{rest:02}"


class Progress:
    """`total` is what a whole run has done at its end, in rows or in bytes."""

    def __init__(self, total: int, out: Optional[TextIO] = None, clock: Callable[[], float] = time.monotonic) -> None:
        self._out = out or sys.stderr
        self._shows = self._out.isatty()
        self._total, self._clock, self._began = total, clock, clock()
        self._drawn = self._began - OFTEN
        self._rows = self._done = 0

    def step(self, rows: int, done: Optional[int] = None) -> None:
        """So many rows more; `done` is the part of the total that is done by now, the rows where it is None."""
        self._rows += rows
        self._done = self._rows if done is None else done
        if self._shows and self._clock() - self._drawn >= OFTEN:
            self._drawn = self._clock()
            self._out.write(f"\r{self.line()}\x1b[K")
            self._out.flush()

    def line(self) -> str:
        took = max(self._clock() - self._began, 1e-9)
        part = min(1.0, self._done / self._total) if self._total else 1.0
        bar = "#" * int(part * WIDTH)
        left = f", {clock_time(took / part - took)} left" if 0 < part < 1 else ""
        return f"[{bar:.<{WIDTH}}] {part:4.0%}  {self._rows:,} rows, {self._rows / took:,.0f}/s{left}"

    def __enter__(self) -> Progress:
        return self

    def __exit__(self, *_: object) -> None:
        """Leaves the last line standing."""
        if self._shows:
            self._out.write(f"\r{self.line()}\x1b[K\n")
            self._out.flush()
