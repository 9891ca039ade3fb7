"""Lines whose stretches have colours (SGR of ECMA-48), where those are shown."""

from __future__ import annotations

import os
import sys
from dataclasses import dataclass

BOLD, RED, GREEN, YELLOW, BLUE, MAGENTA, CYAN = "1", "31", "32", "33", "34", "35", "36"
AUTO, ALWAYS, NEVER = "auto", "always", "never"
WHEN = (AUTO, ALWAYS, NEVER)
"""When colours are shown: on a terminal that has them, or in any case, or never."""


@dataclass(frozen=True)
class Painted:
    """A line in stretches, each with its colour, which is empty where it has none."""

    pieces: tuple[tuple[str, str], ...]

    def __str__(self) -> str:
        return "".join(text for _, text in self.pieces)

    def __add__(self, after: Line) -> Painted:
        pieces = (("", after),) if isinstance(after, str) else after.pieces
        return Painted((*self.pieces, *pieces))

    def __radd__(self, before: str) -> Painted:
        return Painted((("", before), *self.pieces))


Line = str | Painted


def painted(colour: str, text: str) -> Painted:
    """A line of one colour, to which others are added."""
    return Painted(((colour, text),))


def are_shown(when: str) -> bool:
    """Whether what is written has colours now. NO_COLOR (https://no-color.org) asks for none on a
    terminal too."""
    if when != AUTO:
        return when == ALWAYS
    is_plain = os.environ.get("NO_COLOR") or os.environ.get("TERM") == "dumb"
    return not is_plain and sys.stdout.isatty()
