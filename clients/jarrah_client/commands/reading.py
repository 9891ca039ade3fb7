"""Subcommands that read."""

from __future__ import annotations

import base64
import sys
import time
from collections.abc import Iterable, Iterator
from dataclasses import dataclass, replace
from itertools import islice
from pathlib import Path
from typing import Any

from ..formats.changesets import Changeset, File, Kind
from ..formats.paths import is_bookmark_name
from ..history.graph import Graph
from ..history.log_cache import CachedLog
from ..history.reads import remember
from ..history.repository import Landing, Log, by_front, chain, last_known_first
from ..net.contents import bytes_of, fetched
from ..net.server import NotReached, Server, is_passing
from ..refusals import Fault, WrongWords, about
from ..terminal.colours import BLUE, BOLD, CYAN, GREEN, YELLOW, Line, painted
from ..terminal.output import (
    Output,
    changeset_document,
    changeset_lines,
    entry_line,
    file_document,
    kind_letter,
    landing_document,
    short_lines,
    source_words,
)
from ..trees.tree import fate, followed_log, history_of, last_changes, path_log_of, tree_of
from .given import Command, CopyOptions, FoldOptions, RevisionOptions
from .options import IN_A_COPY, REVISION, Add, add_fold, id_of, natural

FOLLOW_SECONDS = 1.0
AS_IN_THE_FOLDER = "where the id is left out, as it is named in the folder"
DIRECTORY = f"{BOLD};{BLUE}"
LISTED = {Kind.REGULAR: "", Kind.EXECUTABLE: f"{BOLD};{GREEN}", Kind.SYMLINK: f"{BOLD};{CYAN}"}
"""The colours of a listing, as `ls` of GNU has them."""


@dataclass(frozen=True)
class LogOptions(RevisionOptions, FoldOptions):
    """What `log` is told."""

    count: int | None
    oneline: bool
    patch_names: bool
    graph: bool
    path: str | None
    follows: bool


@dataclass(frozen=True)
class EntriesOptions(CopyOptions):
    """What `entries` is told."""

    start: int
    follow: bool


@dataclass(frozen=True)
class LsOptions(RevisionOptions, FoldOptions):
    """What `ls` is told."""

    path: str
    recursive: bool
    last: bool


@dataclass(frozen=True)
class PathOptions(RevisionOptions, FoldOptions):
    """What `cat` and `history` are told."""

    path: str


def add(add: Add) -> None:
    """Adds the subcommands."""
    add_logs(add)
    one = add("ls", Command(LsOptions, ls), "list a directory of a changeset's tree")
    one.add_argument("revision", nargs="?", metavar="id", help=f"{REVISION}; {IN_A_COPY}")
    one.add_argument("path", nargs="?", default="", help="a directory; default: the root")
    one.add_argument("-r", "--recursive", action="store_true", help="all files under it")
    one.add_argument(
        "--last", action="store_true", help="with the changeset that last touched each"
    )
    add_fold(one)
    for name, run, what in (
        ("cat", cat, "write a file's bytes"),
        ("history", history, "tell the changesets that set a file, the newest first"),
    ):
        one = add(name, Command(PathOptions, run, pages=run is history), what)
        one.add_argument("revision", nargs="?", metavar="id", help=f"{REVISION}; {IN_A_COPY}")
        one.add_argument("path", help=AS_IN_THE_FOLDER)
        add_fold(one)
    how = Command(RevisionOptions, copies)
    one = add("copies", how, "tell what files that a changeset sets were copied from")
    one.add_argument("revision", nargs="?", metavar="id", help=f"{REVISION}; {IN_A_COPY}")


def add_logs(add: Add) -> None:
    """Adds the subcommands that tell logs."""
    how = Command(LogOptions, log, pages=True)
    one = add("log", how, "tell a changeset and its ancestors by first parents, the newest first")
    one.add_argument("revision", nargs="?", metavar="id", help=f"{REVISION}; {IN_A_COPY}")
    one.add_argument("-n", dest="count", type=natural, help="so many at most")
    one.add_argument("--oneline", action="store_true", help="one line for each")
    one.add_argument("--patch-names", action="store_true", help="with the paths of each")
    one.add_argument(
        "--graph", action="store_true", help="all ancestors, with lines that lead to their parents"
    )
    one.add_argument(
        "--path",
        help="those alone that set this file or took it away, also before it was deleted;"
        f" {AS_IN_THE_FOLDER}",
    )
    one.add_argument(
        "--no-follow",
        dest="follows",
        action="store_false",
        help="with `--path`: don't go on at what the file was copied or renamed from",
    )
    add_fold(one)
    one = add("entries", Command(EntriesOptions, entries), "tell the server's update log")
    one.add_argument("--from", dest="start", metavar="N", type=natural, default=0)
    one.add_argument(
        "--follow", action="store_true", help="go on with what comes, also after a restart"
    )


def log(options: LogOptions, server: Server, out: Output) -> None:
    """Tells a changeset and its ancestors, the newest first."""
    if options.graph and options.path is not None:
        raise WrongWords("`--graph` is of all paths: leave out `--path`")
    known = CachedLog(server)
    start = id_of(options, server, options.revision, lambda front: by_front(known, front))
    if options.path is not None:
        options = replace(options, path=path_of(options, options.path))
    known.read_on()
    names, graph = known.names(), Graph() if options.graph else None
    for changeset, path in islice(logged(options, server, start, known), options.count):
        at, landing = names.get(changeset.id, []), known.landings.get(changeset.id)
        document = changeset_document(changeset) | {"bookmarks": at, "landed": None}
        if landing:
            document["landed"] = landing_document(landing)
        if path is not None:
            document |= {"at_path": fate(changeset, path), "path": path}
        lines = log_lines(options, changeset, at, landing, path)
        out.tell(document, graph.drawn(changeset, list(lines)) if graph else lines)


def logged(
    options: LogOptions, server: Server, start: str, log: Log
) -> Iterator[tuple[Changeset, str | None]]:
    """The changesets of a log, the newest first; of a path's, each with the path there."""
    if options.graph:
        yield from ((one, None) for one in last_known_first(server, start, log.places()))
        return
    if options.path is None:
        yield from ((one, None) for one in chain(server, start))
        return
    path = options.path
    with about(path):
        if options.follows:
            found = followed_log(server, start, path, fold=options.fold)
            yield from ((one, at) for one, at, _ in found)
            return
        ids = path_log_of(server, start, path, fold=options.fold)
    for id in ids:
        yield server.changeset(id), path


def log_lines(
    options: LogOptions,
    changeset: Changeset,
    at: list[str],
    landing: Landing | None,
    path: str | None,
) -> Iterable[Line]:
    """A changeset of a log for people; where it is of one path, with what became of that."""
    word = "" if path is None else fate(changeset, path)
    source = changeset.copies.get(path) if path else None
    if options.oneline:
        short = short_lines(changeset)
        return [f"{word:<9}" + short if word else short]
    lines = list(changeset_lines(changeset, at, options.patch_names, landing))
    if word:
        told = f"  {source_words(source)}" if source else ""
        lines.insert(1, f"path      {word} {path}{told}")
    return lines


def path_of(options: RevisionOptions, path: str) -> str:
    """A path of a tree; where no changeset is said, of the working copy's folder."""
    if options.revision is None and options.copy:
        return options.copy.path_of(Path(path))
    return path.strip("/")


def entries(options: EntriesOptions, server: Server, out: Output) -> None:
    """Tells the update log, and what is new in it."""
    log = Log(server)
    log.next = options.start
    is_lost = False
    while True:
        try:
            for entry in log.entries():
                out.tell(entry, entry_line(entry))
            is_lost = False
        except Fault as fault:
            if not options.follow or not (is_passing(fault) or isinstance(fault, NotReached)):
                raise
            if not is_lost:
                print(f"jarrah: {fault}; waiting for it", file=sys.stderr, flush=True)
            is_lost = True
        if not options.follow:
            return
        server.close()
        time.sleep(FOLLOW_SECONDS)


def ls(options: LsOptions, server: Server, out: Output) -> None:
    """Lists a directory of a changeset's tree."""
    id = id_of(options, server, options.revision)
    path = options.path.strip("/")
    with about(path or options.revision or "."):
        tree = tree_of(server, id, fold=options.fold)
        found = tree.list(path)
    if options.recursive:
        found = dict(tree.files(path))
    base = "" if options.recursive else path
    links = last_changes(server, id, base, found) if options.last else {}
    rows = [listed(name, entry, links.get(name)) for name, entry in found.items()]
    document = {"source": tree.source, "entries": [row for row, _ in rows]}
    out.tell(document, [line for _, line in rows])


def listed(name: str, entry: File | None, link: str | None) -> tuple[dict[str, Any], Line]:
    """One entry of a listing for scripts and for people."""
    document = {"name": name, **(file_document(entry) if entry else {"kind": "directory"})}
    shown = painted(LISTED[entry.kind], name) if entry else painted(DIRECTORY, f"{name}/")
    size = f"{entry.size:,}" if entry else ""
    head = f"{kind_letter(entry)} {size:>11}  "
    if link:
        document["last"] = link
        shown = painted(YELLOW, link) + "  " + shown
    return document, head + shown


def cat(options: PathOptions, server: Server, out: Output) -> None:
    """Writes a file's bytes."""
    path = path_of(options, options.path)
    id = id_of(options, server, options.revision)
    with about(path):
        tree = tree_of(server, id, fold=options.fold)
        file = tree.file(path)
        data = fetched(server, file)
    said = options.revision
    if said and is_bookmark_name(said) and said not in (id, "."):
        remember(server, said, path, id)
    if not out.as_json:
        out.bytes(data)
        return
    encoded = base64.b64encode(bytes_of(data)).decode("ascii")
    out.tell({"path": path, **file_document(file), "base64": encoded}, [])


def history(options: PathOptions, server: Server, out: Output) -> None:
    """Tells the changesets that set a file, newest first."""
    path = path_of(options, options.path)
    id = id_of(options, server, options.revision)
    with about(path):
        ids = history_of(server, id, path, fold=options.fold)
    for one in ids:
        changeset = server.changeset(one)
        out.tell(changeset_document(changeset), short_lines(changeset))


def copies(options: RevisionOptions, server: Server, out: Output) -> None:
    """Tells what files that a changeset sets were copied from."""
    id = id_of(options, server, options.revision)
    found = server.copies(id)
    rows = [{"from": one.path, "parent": one.parent, "to": path} for path, one in found.items()]
    lines = (f"{path}  {source_words(source)}" for path, source in found.items())
    out.tell({"id": id, "copies": rows}, lines)
