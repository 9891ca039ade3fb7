"""What a person says of a new changeset."""

from __future__ import annotations

from dataclasses import dataclass


@dataclass(frozen=True)
class SaidMessage:
    """Why it is made, as far as that is said."""

    message: str | None
    allows_empty: bool


@dataclass(frozen=True)
class SaidWords(SaidMessage):
    """Who makes it and when, too."""

    author: str | None
    date: tuple[int, int] | None
    """Seconds since 1970, and the offset from UTC in seconds."""


@dataclass(frozen=True)
class SaidChanges(SaidWords):
    """And what it holds: paths that are set, each with the file or the text that it is set to,
    and those that are deleted."""

    set: list[tuple[str, str]]
    exec: list[tuple[str, str]]
    symlink: list[tuple[str, str]]
    delete: list[str]
    recursive: bool
