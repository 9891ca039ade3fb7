"""What a row is, what it is given, and what it tells."""

from __future__ import annotations

from collections.abc import Callable, Iterator
from dataclasses import dataclass
from pathlib import Path

from .program import Program

HEADING = f"{'what':<50} {'amount':>11} {'unit':<22} {'ratio':>7}  wanted"


@dataclass(frozen=True)
class Bench:
    """What a row is given: the programs, a new folder for its files, and the words of the run."""

    programs: tuple[Program, ...]
    folder: Path
    small: bool
    divide: int
    clients: list[int] | None
    turns: int | None
    size: int

    @property
    def program(self) -> Program:
        """The program, for a row that measures one."""
        return self.programs[0]

    def choose(self, full: int, small: int) -> int:
        """A size, by --small and --divide; at least 1."""
        return max(1, (small if self.small else full) // self.divide)


@dataclass(frozen=True)
class Figure:
    """One measured amount, and its ratio to the limit or peer that stands above it."""

    what: str
    amount: float
    unit: str
    ratio: float | None = None
    wanted: str = ""

    def __str__(self) -> str:
        ratio = "" if self.ratio is None else spelled(self.ratio)
        amount = f"{self.amount:,.3f}" if self.amount < 100 else f"{self.amount:,.0f}"
        return f"{self.what:<50} {amount:>11} {self.unit:<22} {ratio:>7}  {self.wanted}".rstrip()


def spelled(ratio: float) -> str:
    """Two digits at least, also of a small one."""
    return f"{ratio:.2f}" if ratio >= 0.1 or ratio <= 0 else f"{ratio:.2g}"


@dataclass(frozen=True)
class Row:
    """A row by its name. `run` yields figures, and lines of text for what isn't one. It measures so
    many programs at most."""

    name: str
    measures: str
    run: Callable[[Bench], Iterator[Figure | str]]
    programs: int = 1
