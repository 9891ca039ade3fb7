"""The subcommand that writes a tree as an archive."""

from __future__ import annotations

import os
import sys
from collections.abc import Iterator
from contextlib import contextmanager, suppress
from dataclasses import dataclass
from pathlib import Path
from typing import IO

from ..formats.paths import own_name
from ..net.pool import Pool
from ..net.server import Server, Trouble
from ..refusals import WrongWords, about
from ..terminal.output import Output, counted, told_id
from ..trees.archive import archived, prefix_of, write_archive
from ..trees.checkout import Files, with_contents
from ..trees.tree import tree_of
from .given import Command, ConnectionsOptions, FoldOptions
from .options import REVISION, Add, add_connections, add_fold, id_of
from .working_copy import tell_left_out


@dataclass(frozen=True)
class ArchiveOptions(FoldOptions, ConnectionsOptions):
    """What `archive` is told."""

    revision: str
    path: str
    output: str
    prefix: str


def add(add: Add) -> None:
    """Adds the subcommand."""
    how = Command(ArchiveOptions, archive)
    one = add("archive", how, "write a changeset's tree, or a part of it, as a tar archive")
    one.add_argument("revision", metavar="id", help=REVISION)
    one.add_argument("path", nargs="?", default="", help="a directory or a file; default: all")
    one.add_argument(
        "-o", "--output", metavar="FILE", default="-", help="default: the standard output"
    )
    one.add_argument("--prefix", default="", help="stands before each path, such as `project/`")
    add_connections(one)
    add_fold(one)


def archive(options: ArchiveOptions, server: Server, out: Output) -> int:
    """Writes the files at and under a path of a tree as a tar archive."""
    id, path = id_of(options, server, options.revision), options.path.strip("/")
    prefix, is_piped = prefix_of(options.prefix), options.output == "-"
    if is_piped and sys.stdout.isatty():
        raise WrongWords("an archive isn't for a terminal: say `-o FILE`, or send it elsewhere")
    seconds = server.changeset(id).seconds
    with about(path or options.revision):
        found = archived(tree_of(server, id, fold=options.fold), path)
    left_out = [path for path, _ in found if own_name(path)]
    files: Files = [(path, file) for path, file in found if not own_name(path)]
    with Pool(server, options.connections) as pool, opened(options.output) as to:
        count = write_archive(to, with_contents(pool, files), seconds, prefix)
    if not is_piped:
        document = {"id": id, "path": path, "files": count, "left_out": left_out}
        line = f"wrote {counted(count, 'file')} of {told_id(id)} to {options.output}"
        out.tell(document | {"output": options.output}, line)
    return tell_left_out(left_out)


@contextmanager
def opened(name: str) -> Iterator[IO[bytes]]:
    """The standard output, or a file that is there once all of it is written."""
    if name == "-":
        yield sys.stdout.buffer
        sys.stdout.buffer.flush()
        return
    place = Path(name)
    beside = place.with_name(f".{place.name}.{os.getpid()}")
    try:
        with beside.open("wb") as file:
            yield file
        os.replace(beside, place)
    except OSError as fault:
        raise Trouble(f"{name}: {fault.strerror}") from None
    finally:
        with suppress(OSError):
            beside.unlink(missing_ok=True)
