"""Differences of two texts of which a page can show the lines."""

from __future__ import annotations

from ..text.diff import Hunk, hunks, lines_of
from ..text.matching import MOST_STEPS, is_quick

MOST_LINES = 20_000
"""Texts of more lines aren't compared."""


def bounded_hunks(old: str, new: str) -> list[Hunk] | None:
    """The hunks of two texts, or None where they have too many lines.

    They are cut as soon as difflib's bounds between two cuts aren't kept, as somebody waits.
    """
    left, right = lines_of(old), lines_of(new)
    if max(len(left), len(right)) > MOST_LINES:
        return None
    return list(hunks(old, new, MOST_STEPS if is_quick(left, right) else 0))
