"""Trees of changesets: by the server's fsnodes, or folded from changesets."""

from __future__ import annotations

from collections.abc import Callable, Iterable, Iterator, Sequence
from functools import partial
from typing import Protocol, TypeVar

from ..formats.changesets import Changeset, File
from ..formats.nodes import Directory, Fsnode
from ..formats.paths import joined
from ..history.log_cache import CachedLog
from ..history.repository import parents_first, reached
from ..net.pipeline import fsnodes
from ..net.server import Server
from ..refusals import Refused
from ..terminal.progress import Progress
from .changed import ChangedTree
from .folded import Listing, folded, folded_history, folded_path_log, no_path, not_a_file, touches

Told = TypeVar("Told")


class Tree(Protocol):
    """The tree of one changeset. The root's path is the empty text."""

    source: str

    def list(self, path: str) -> Listing:
        """What is directly in a directory, or Refused."""

    def file(self, path: str) -> File:
        """The file at a path, or Refused."""

    def files(self, directory: str = "") -> Iterator[tuple[str, File]]:
        """All files under a directory that is there, by rising paths."""

    def count(self) -> int:
        """How many files there are."""

    def by(self, server: Server) -> Tree:
        """The same tree, read on over another connection."""


class FsnodeTree:
    """A tree by fsnodes, each directory read once; those that aren't there are asked for once."""

    source = "fsnodes"

    def __init__(self, server: Server, id: str, root: Fsnode):
        self.server = server
        self.id = id
        self.nodes = {"": root}
        self.absent: set[str] = set()

    def node(self, path: str) -> Fsnode:
        if path in self.absent:
            raise no_path()
        if path not in self.nodes:
            try:
                self.nodes[path] = self.server.fsnode(self.id, path)
            except Refused as refusal:
                if refusal.code == "no-path":
                    self.absent.add(path)
                raise
        return self.nodes[path]

    def list(self, path: str) -> Listing:
        entries = self.node(path).entries
        return {n: e if isinstance(e, File) else None for n, e in entries.items()}

    def file(self, path: str) -> File:
        directory, _, name = path.rpartition("/")
        try:
            entry = self.node(directory).entries.get(name)
        except Refused as refusal:
            raise no_path() if refusal.code == "not-a-dir" else refusal
        if entry is None:
            raise no_path()
        if not isinstance(entry, File):
            raise not_a_file()
        return entry

    def files(self, directory: str = "") -> Iterator[tuple[str, File]]:
        self.read_below(directory)
        return self.walk(directory)

    def walk(self, directory: str) -> Iterator[tuple[str, File]]:
        """The files under a directory, whose nodes have been read."""
        for name, entry in self.node(directory).entries.items():
            path = joined(directory, name)
            if isinstance(entry, File):
                yield path, entry
            else:
                yield from self.walk(path)

    def read_below(self, directory: str) -> None:
        """Reads the nodes of all directories under one, those of one depth together."""
        level = [directory]
        self.node(directory)
        while level:
            self.read(level)
            level = [
                joined(path, name)
                for path in level
                for name, entry in self.nodes[path].entries.items()
                if isinstance(entry, Directory)
            ]

    def read(self, directories: Sequence[str]) -> None:
        """Reads the nodes of directories that are there, their requests together."""
        missing = [path for path in directories if path not in self.nodes]
        for path, node in zip(missing, fsnodes(self.server, self.id, missing)):
            self.nodes[path] = node

    def count(self) -> int:
        return self.nodes[""].summary.descendant_files

    def by(self, server: Server) -> Tree:
        other = FsnodeTree(server, self.id, self.nodes[""])
        other.nodes = self.nodes
        return other


def by_nodes_or_past(
    server: Server,
    id: str,
    fold: bool,
    by_nodes: Callable[[], Told],
    by_past: Callable[[list[Changeset]], Told],
) -> Told:
    """What manifests tell of a changeset; where there are none, or `fold` is said, its past."""
    if not fold:
        try:
            return by_nodes()
        except Refused as refusal:
            if refusal.code != "no-route":
                raise
    return by_past(whole_past(server, id))


def tree_of(server: Server, id: str, *, fold: bool = False) -> Tree:
    """The tree of a changeset: by fsnodes where the server has that route, else folded. Of one that
    isn't stored yet it is that of its parent, changed."""
    made = server.unsent.get(id)
    if made and made.parent and not fold:
        return ChangedTree(tree_of(server, made.parent), made)
    return by_nodes_or_past(server, id, fold, lambda: fsnode_tree(server, id), folded)


def fsnode_tree(server: Server, id: str) -> Tree:
    """The tree of a changeset by fsnodes."""
    return FsnodeTree(server, id, server.fsnode(id))


def last_changes(server: Server, id: str, base: str, names: Iterable[str]) -> dict[str, str]:
    """The changeset that last touched each of some names under a directory, by its unode."""
    return {name: server.unode(id, joined(base, name)).linknode for name in names}


def history_of(server: Server, id: str, path: str, *, fold: bool = False) -> list[str]:
    """The changesets that set a file, newest first, back to where it began."""
    by_nodes = partial(server.history, id, path)
    return by_nodes_or_past(server, id, fold, by_nodes, lambda past: folded_history(past, path))


def path_log_of(server: Server, id: str, path: str, *, fold: bool = False) -> list[str]:
    """The changesets that set a file or took it away, newest first, also before that."""
    made = server.unsent.get(id)
    if made and made.parent and not fold:
        return made_log(server, made, made.parent, path)
    by_nodes = partial(server.path_log, id, path)
    return by_nodes_or_past(server, id, fold, by_nodes, lambda past: folded_path_log(past, path))


def made_log(server: Server, made: Changeset, parent: str, path: str) -> list[str]:
    """The same of a changeset that isn't stored yet."""
    newest = [made.id] if touches(made, path) else []
    try:
        return newest + path_log_of(server, parent, path)
    except Refused as refusal:
        if refusal.code != "no-path" or not newest:
            raise
        return newest


def followed_log(
    server: Server, id: str, path: str, *, fold: bool = False
) -> Iterator[tuple[Changeset, str, int]]:
    """The changesets of a path's log, newest first, each with the path that the file had there, and
    how many of the path are older.

    Where one made the file as a copy of another, that one's log comes after it.
    """
    seen: set[tuple[str, str]] = set()
    at: tuple[str, str] | None = (id, path)
    while at and at not in seen:
        seen.add(at)
        start, path = at
        at = None
        ids = path_log_of(server, start, path, fold=fold)
        for number, one in enumerate(ids):
            changeset = server.changeset(one)
            yield changeset, path, len(ids) - number - 1
            source = changeset.copies.get(path)
            if source and is_new_there(server, changeset, path, ids[number + 1 :]):
                at = (changeset.parents[source.parent], source.path)
                break


def is_new_there(
    server: Server, changeset: Changeset, path: str, older: list[str]
) -> bool:
    """Whether no file was at a path before a changeset set it."""
    if not older:
        return True
    before = server.changeset(older[0])
    return not before.is_merge and before.changes.get(path) is None


def fate(changeset: Changeset, path: str) -> str:
    """What a changeset of a path's log did there: it set the file, took it away, or has it from the
    second of its parents."""
    if changeset.changes.get(path):
        return "set"
    return "merged" if changeset.is_merge and not touches(changeset, path) else "deleted"


def whole_past(server: Server, id: str) -> list[Changeset]:
    """A changeset and all that it reaches through parents, as they came to be known."""
    found: list[Changeset] = []
    with Progress("changesets", None) as progress:
        for changeset in reached(server, id):
            found.append(changeset)
            progress.step()
    if not any(changeset.is_merge for changeset in found):
        return parents_first(found)
    log = CachedLog(server)
    log.read_on()
    places = log.places()
    return sorted(found, key=lambda changeset: places[changeset.id])
