"""A progress bar with a rate on a terminal, and lines from time to time elsewhere."""

from __future__ import annotations

import shutil
import sys
import threading
import time
from typing import TextIO

WIDTH = 28
SECONDS_BEFORE = 0.5
SECONDS_BETWEEN = 0.1
SECONDS_BETWEEN_LINES = 5.0
"""How often a line is written where no terminal is."""
CLEAR = "\r\x1b[K"


class Progress:
    """Shows `done` of `total` on standard error: a bar on a terminal, else a line now and then.

    What is done soon is done without either.
    """

    is_hidden = False
    """Whether nothing is shown, since a pager has the terminal."""
    is_drawn = False
    """Whether the terminal's last line may be a bar."""

    def __init__(self, what: str, total: int | None, out: TextIO | None = None):
        self.what = what
        self.total = total
        self.out = out or sys.stderr
        self.shows = self.out.isatty()
        self.begun = time.monotonic()
        self.written = self.begun
        self.shown = 0.0
        self.done = 0
        self.part = 0.0
        """How much of the next one is done, from 0 to 1."""
        self.detail = ""
        """What is told behind the bar."""
        self.turn = threading.RLock()

    def __enter__(self) -> Progress:
        return self

    def __exit__(self, *_: object) -> None:
        if self.shown and not self.is_hidden:
            self.show()
            self.out.write("\n")
            Progress.is_drawn = False

    def step(self) -> None:
        """One more is done."""
        self.steps(1)

    def steps(self, count: int) -> None:
        """So many more are done."""
        self.done += count
        self.part = 0.0
        self.tick()

    def tick(self) -> None:
        """Draws the bar anew, or writes a line, where it is time to. Any thread may ask for it."""
        with self.turn:
            now = time.monotonic()
            if self.is_hidden:
                return
            if not self.shows:
                if now - self.written >= SECONDS_BETWEEN_LINES:
                    self.written = now
                    self.note(self.line())
            elif now - self.begun > SECONDS_BEFORE and now - self.shown > SECONDS_BETWEEN:
                self.show()

    def note(self, line: str) -> None:
        """Writes a line above the bar."""
        clear = CLEAR if self.shown else ""
        with self.turn:
            self.out.write(f"{clear}{line}\n")

    def show(self) -> None:
        """Draws the bar, as much of it as the terminal has columns for."""
        self.shown = time.monotonic()
        columns = shutil.get_terminal_size().columns
        with self.turn:
            Progress.is_drawn = True
            self.out.write(CLEAR + self.line()[: columns - 1])
            self.out.flush()

    def line(self) -> str:
        """The bar, the counts, the rate and how long it may still take."""
        spent = max(time.monotonic() - self.begun, 1e-6)
        reached = self.done + self.part
        rate = reached / spent
        if not self.total:
            return f"{self.done:,} {self.what}  {rate:,.0f}/s"
        filled = int(WIDTH * min(reached / self.total, 1.0))
        bar = "#" * filled + "." * (WIDTH - filled)
        left = (self.total - reached) / rate if rate else 0.0
        drawn = f"[{bar}] " if self.shows else ""
        counts = f"{self.done:,}/{self.total:,} {self.what}"
        part = f"{self.part:.0%} of the next  " if self.part else ""
        return f"{drawn}{counts}  {rate:,.0f}/s  {clock(left)} left  {part}{self.detail}".rstrip()


def clock(seconds: float) -> str:
    """A span of time as minutes and seconds."""
    minutes, rest = divmod(int(seconds + 0.5), 60)
    return f"{minutes}:{rest:02}"


class Waiting:
    """Tells what is waited for, once at a time however many connections wait."""

    def __init__(self) -> None:
        self.turn = threading.Lock()
        self.told = 0.0

    def tell(self, what: str, seconds: float) -> None:
        """Writes a line, unless one was written within the last second."""
        with self.turn:
            now = time.monotonic()
            if Progress.is_hidden or now - self.told < 1.0:
                return
            self.told = now
        clear = CLEAR if sys.stderr.isatty() else ""
        print(f"{clear}jarrah: {what}, {seconds:.0f} s", file=sys.stderr, flush=True)


tell_waiting = Waiting().tell
