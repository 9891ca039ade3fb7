"""Processor seconds and memory of a process, from /proc."""

from __future__ import annotations

import os
import re
import time
from collections.abc import Iterator
from contextlib import contextmanager
from dataclasses import dataclass
from pathlib import Path

TICKS_A_SECOND = os.sysconf("SC_CLK_TCK")


@dataclass
class Cost:
    """How many times something was done, and the seconds that it took; a sum over rounds."""

    count: int = 0
    clock: float = 0.0
    processor: float = 0.0

    @property
    def milliseconds(self) -> float:
        """Of processor, each."""
        return 1_000 * self.processor / self.count

    @property
    def a_second(self) -> float:
        """How many in a second of the clock."""
        return self.count / self.clock

    @property
    def a_processor_second(self) -> float:
        return self.count / self.processor if self.processor else float("nan")

    def add(self, more: Cost) -> None:
        self.count += more.count
        self.clock += more.clock
        self.processor += more.processor

    @contextmanager
    def measure(self, pid: int, count: int = 0) -> Iterator[None]:
        """Adds what is done within, by the process of this id."""
        begun, used = time.monotonic(), processor_seconds(pid)
        yield
        self.clock += time.monotonic() - begun
        self.processor += processor_seconds(pid) - used
        self.count += count


def ratio(above: float, below: float) -> float | None:
    """None where the divisor was too small to be seen."""
    return above / below if below > 0 else None


def processor_seconds(pid: int) -> float:
    """User and system time of a process, in steps of a clock tick."""
    fields = Path(f"/proc/{pid}/stat").read_text().rpartition(")")[2].split()
    return (int(fields[11]) + int(fields[12])) / TICKS_A_SECOND


def memory(pid: int, field: str = "VmRSS") -> int:
    """The bytes of a process that are in memory now, or were at most (`VmHWM`)."""
    status = Path(f"/proc/{pid}/status").read_text()
    return 1_024 * int(re.search(rf"^{field}:\s+(\d+) kB$", status, re.MULTILINE)[1])


def forget_peak(pid: int) -> None:
    """Makes `VmHWM` what is in memory now."""
    Path(f"/proc/{pid}/clear_refs").write_text("5")
