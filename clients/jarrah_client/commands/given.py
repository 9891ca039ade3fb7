"""What the command line says, as the subcommands take it: each its own options, with their types.

A subcommand's options are a dataclass, and `filled` makes one of what the parser found: it has
each of the parser's options, and no other, which a test compares for all of them.
"""

from __future__ import annotations

from argparse import ArgumentParser, Namespace
from collections.abc import Callable
from dataclasses import dataclass, fields
from typing import Any, Generic, TypeVar

from ..net.server import Server
from ..terminal.output import Output
from ..working.state import WorkingCopy


@dataclass(frozen=True)
class Common:
    """The options of all subcommands."""

    server: str | None
    caller: str | None
    cert: str | None
    key: str | None
    ca: str | None
    timeout: float | None
    json: bool
    color: str
    no_pager: bool


@dataclass(frozen=True)
class Options:
    """A subcommand's own options."""


@dataclass(frozen=True)
class CopyOptions(Options):
    """Those of one that asks a server, and may be given in a working copy."""

    copy: WorkingCopy | None
    """The working copy that it was given in."""


@dataclass(frozen=True)
class FoldOptions(CopyOptions):
    """With what `add_fold` adds."""

    fold: bool


@dataclass(frozen=True)
class ConnectionsOptions(CopyOptions):
    """With what `add_connections` adds."""

    connections: int


@dataclass(frozen=True)
class RevisionOptions(CopyOptions):
    """With a changeset, which is the working copy's base where it is left out."""

    revision: str | None


@dataclass(frozen=True)
class PathsOptions(CopyOptions):
    """With files or folders of the working copy."""

    paths: list[str]


Own = TypeVar("Own", bound=Options)
Placed = TypeVar("Placed", bound=CopyOptions)
COMMON = tuple(one.name for one in fields(Common))
PASSED = {*COMMON, "command", "commands", "subcommand"}
"""What the parser finds beside a subcommand's own options."""


def common_of(named: Namespace) -> Common:
    """The options of all subcommands that the parser found."""
    return Common(*(getattr(named, name) for name in COMMON))


def filled(kind: type[Own], named: Namespace, **found: object) -> Own:
    """A subcommand's own options that the parser found, and what was found out besides."""
    said = {name: value for name, value in vars(named).items() if name not in PASSED}
    make: Callable[..., Own] = kind
    return make(**said, **found)


@dataclass(frozen=True)
class Command(Generic[Placed]):
    """A subcommand that asks a server: the type of its options, what it does with them, and
    whether what it tells goes by the pager."""

    kind: type[Placed]
    run: Callable[[Placed, Server, Output], int | None]
    pages: bool = False

    def call(self, named: Namespace, copy: WorkingCopy | None, server: Server, out: Output) -> int:
        """Runs it by what the parser found, and gives the status."""
        return self.run(filled(self.kind, named, copy=copy), server, out) or 0


@dataclass(frozen=True)
class Telling(Generic[Own]):
    """A subcommand that tells of the client itself, and needs no server."""

    kind: type[Own]
    tells: Callable[[ArgumentParser, Own], int]

    def call(self, top: ArgumentParser, named: Namespace) -> int:
        """Tells by what the parser found, and gives the status."""
        return self.tells(top, filled(self.kind, named))


Subcommand = Command[Any] | Telling[Any]
