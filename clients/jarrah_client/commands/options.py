"""Words of the command line that several subcommands share."""

from __future__ import annotations

import argparse
from collections.abc import Callable

from ..drafting.drafts import read_date
from ..drafting.landing import ALLOW
from ..history.names import resolve
from ..net.server import Server
from .given import CopyOptions, Subcommand

REVISION = (
    "a bookmark, a changeset's id, or the first 6 digits or more of one; `.` is a working copy's"
    " base; `~N` and `^2` behind it lead to parents"
)
IN_A_COPY = "default: a working copy's base"
LEFT_OUT = 3
"""The status of a command that did its work, but left something out."""

Front = Callable[[str], str]
"""Finds the one id that begins so."""
Add = Callable[[str, Subcommand, str], argparse.ArgumentParser]
"""Makes the parser of a subcommand from its name, how it is called and what it does."""


def add_changes(one: argparse.ArgumentParser) -> None:
    """Options that say what a new changeset holds."""
    for option, what in (
        (
            "--set",
            "set a file to the bytes of FILE (`-`: the standard input); these four can be repeated",
        ),
        ("--exec", "the same, executable"),
        ("--symlink", "set a symbolic link to the text after the `=`"),
    ):
        place = "PATH=TARGET" if option == "--symlink" else "PATH=FILE"
        one.add_argument(
            option, metavar=place, type=assignment, action="append", default=[], help=what
        )
    one.add_argument("--delete", metavar="PATH", action="append", default=[], help="delete a file")
    one.add_argument(
        "-r",
        "--recursive",
        action="store_true",
        help="`--delete` of a directory deletes all files under it, and lists them",
    )
    add_words(one)


def add_words(one: argparse.ArgumentParser) -> None:
    """Options that say who made a changeset, when and why."""
    one.add_argument("-m", "--message", help="what the changeset does")
    add_allow(one)
    one.add_argument("--author", help="default: $JARRAH_AUTHOR, else git's user")
    one.add_argument(
        "--date", type=a_date, help="`@SECONDS +HHMM` or `2026-01-31T12:00:00+01:00`; default: now"
    )


def add_allow(one: argparse.ArgumentParser) -> None:
    """The option that lets a message be empty."""
    one.add_argument(
        ALLOW, dest="allows_empty", action="store_true", help="land what has an empty message"
    )


def add_fold(one: argparse.ArgumentParser) -> None:
    one.add_argument(
        "--fold", action="store_true", help="fold the tree from the chain, without manifests"
    )


def add_connections(one: argparse.ArgumentParser) -> None:
    one.add_argument(
        "--connections", type=positive, default=4, metavar="N", help="at a time; default: 4"
    )


def id_of(
    options: CopyOptions, server: Server, name: str | None, front: Front | None = None
) -> str:
    """The changeset that a person means; where nothing is said, what the working copy stands on."""
    base = options.copy.state.base if options.copy else None
    return resolve(server, name or "", front, base)


def assignment(text: str) -> tuple[str, str]:
    path, equals, value = text.partition("=")
    if not path or not equals:
        raise argparse.ArgumentTypeError(f"{text!r} isn't PATH=...")
    return path, value


def a_date(text: str) -> tuple[int, int]:
    try:
        return read_date(text)
    except ValueError:
        raise argparse.ArgumentTypeError(f"{text!r} is no date") from None


def natural(text: str) -> int:
    if not (text.isascii() and text.isdigit()):
        raise argparse.ArgumentTypeError(f"{text!r} is no number")
    return int(text)


def positive(text: str) -> int:
    if natural(text) == 0:
        raise argparse.ArgumentTypeError("it has to be at least 1")
    return int(text)


def span(text: str) -> float:
    """A span of time in seconds, above zero."""
    try:
        seconds = float(text)
    except ValueError:
        seconds = 0.0
    if not 0 < seconds < 1e6:
        raise argparse.ArgumentTypeError(f"{text!r} is no span of seconds")
    return seconds
