"""The subcommand that tells who brought each line of a file."""

from __future__ import annotations

from collections.abc import Iterator
from dataclasses import dataclass
from pathlib import Path
from typing import Any

from ..net.server import Server
from ..refusals import WrongWords, about
from ..terminal.colours import GREEN, YELLOW, Painted
from ..terminal.output import Output, clean, date, day, person
from ..text.annotate import Line, annotated, versions_of
from .given import Command, FoldOptions
from .options import REVISION, Add, add_fold, id_of

ID_DIGITS = 12


@dataclass(frozen=True)
class AnnotateOptions(FoldOptions):
    """What `annotate` is told."""

    revision: str | None
    path: str
    follows: bool


def add(add: Add) -> None:
    """Adds the subcommand."""
    how = Command(AnnotateOptions, annotate, pages=True)
    one = add("annotate", how, "tell which changeset brought each line of a file")
    one.add_argument(
        "revision",
        nargs="?",
        metavar="id",
        help=f"{REVISION}; in a working copy, its base where it is left out",
    )
    one.add_argument("path", help="a file; where the id is left out, as it is named in the folder")
    one.add_argument(
        "--no-follow",
        dest="follows",
        action="store_false",
        help="don't go on at what the file was copied or renamed from",
    )
    add_fold(one)


def annotate(options: AnnotateOptions, server: Server, out: Output) -> None:
    """Tells the lines of a file, each with the changeset that brought it."""
    id, path = place_of(options, server)
    with about(path):
        versions = versions_of(server, id, fold=options.fold)
        lines = annotated(server, versions, id, path, follows=options.follows)
    for document, line in zip(documents(lines), columns(lines)):
        out.tell(document, line)


def place_of(options: AnnotateOptions, server: Server) -> tuple[str, str]:
    """The changeset and the path that are meant."""
    if options.revision is not None:
        return id_of(options, server, options.revision), options.path.strip("/")
    if options.copy is None:
        raise WrongWords("name a changeset before the path, or work in a working copy")
    return options.copy.state.base, options.copy.path_of(Path(options.path))


def documents(lines: list[Line]) -> Iterator[dict[str, Any]]:
    """Lines for scripts, numbered from 1."""
    for number, line in enumerate(lines, 1):
        by = line.changeset
        document = {"id": by.id, "author": by.author, "date": date(by.seconds, by.offset)}
        yield document | {"line": number, "text": line.text}


def columns(lines: list[Line]) -> Iterator[Painted]:
    """The same for people."""
    names = [clean(person(line.changeset.author)) for line in lines]
    width = max(map(len, names), default=0)
    digits = len(str(len(lines)))
    for number, (name, line) in enumerate(zip(names, lines), 1):
        by = line.changeset
        id, at = by.id[:ID_DIGITS], f"{day(by.seconds, by.offset):<10}"
        place = (GREEN, f"{number:>{digits}}")
        text = f"  {line.text}" if line.text else ""
        yield Painted(((YELLOW, id), ("", f"  {name:<{width}}  {at}  "), place, ("", text)))
