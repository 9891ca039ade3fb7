"""Questions that are taken strictly."""

from __future__ import annotations

from ..library import BadQuestion, Question

MOST_NUMBER = 10**19


def need_known(question: Question, *words: str) -> None:
    """Refuses words of a query that a route doesn't have, or that are there twice."""
    seen: set[str] = set()
    for name, _ in question.pairs:
        if name not in words:
            raise BadQuestion(f"{name!r} is no word of this route: it has {', '.join(words)}")
        if name in seen:
            raise BadQuestion(f"{name!r} is there twice")
        seen.add(name)


def number_within(question: Question, key: str, default: int, least: int, most: int) -> int:
    """A number of the query, which has to lie between two."""
    found = question.number(key, default, MOST_NUMBER)
    if not least <= found <= most:
        raise BadQuestion(f"{key} is {found:,}, and has to be {least:,} to {most:,}")
    return found


def is_said(question: Question, key: str) -> bool:
    """A word of the query that is 1 for yes, and 0 or absent for no."""
    return number_within(question, key, 0, 0, 1) == 1
