"""Which changeset brought each line of a file, by the file's versions from the last one back."""

from __future__ import annotations

from collections.abc import Callable, Iterator
from dataclasses import dataclass
from functools import cache
from typing import Protocol, TextIO

from ..formats.changesets import MOST_CONTENT_BYTES, Changeset
from ..net.server import Server, Trouble
from ..refusals import Refused
from ..terminal.progress import Progress
from ..trees.folded import along, folded
from ..trees.tree import Tree, by_nodes_or_past, fsnode_tree
from .diff import lines_of, text_of
from .matching import places


@dataclass(frozen=True)
class Line:
    """A line of a file, without its end, and the changeset that brought it."""

    changeset: Changeset
    text: str


@dataclass(frozen=True)
class Version:
    """A file as a changeset made it."""

    maker: str
    path: str
    content: str
    is_first: bool
    """Whether no parent of the changeset has a file at the path."""


class Versions(Protocol):
    """The tree of a changeset, and the versions of its files and of those before them."""

    tree: Tree

    def changeset(self, id: str) -> Changeset:
        """The changeset, or one that it reaches."""

    def at(self, id: str, path: str) -> Version | None:
        """The version that such a changeset has at a path, or None where no file is there."""


class NodeVersions:
    """Versions by unodes."""

    def __init__(self, server: Server, tree: Tree, changeset: Callable[[str], Changeset]):
        self.server = server
        self.tree = tree
        self.changeset = cache(changeset)

    def at(self, id: str, path: str) -> Version | None:
        try:
            node = self.server.unode(id, path)
        except Refused as refusal:
            if refusal.code != "no-path":
                raise
            return None
        if node.content is None:
            return None
        return Version(node.linknode, path, node.content, not node.parents)


class FoldedVersions:
    """Versions that are folded from a past, those of each path once."""

    def __init__(self, past: list[Changeset], tree: Tree | None = None):
        self.tree = tree or folded(past)
        self.changeset = {changeset.id: changeset for changeset in past}.__getitem__
        self.along = cache(lambda path: along(past, path))

    def at(self, id: str, path: str) -> Version | None:
        found = self.along(path)
        file, maker = found[id].file, found[id].maker
        return Version(maker, path, file.content, not found[maker].before) if file else None


def versions_of(server: Server, id: str, *, fold: bool = False) -> Versions:
    """The versions of a changeset's files: by unodes where the server has them, else folded."""

    def by_nodes() -> Versions:
        return NodeVersions(server, fsnode_tree(server, id), server.changeset)

    return by_nodes_or_past(server, id, fold, by_nodes, FoldedVersions)


def annotated(
    server: Server,
    versions: Versions,
    id: str,
    path: str,
    *,
    follows: bool = True,
    out: TextIO | None = None,
) -> list[Line]:
    """The lines of a file of a changeset's tree, each with the changeset that brought it.

    Its progress is told on `out`, or on standard error.
    """
    file = versions.tree.file(path)
    if file.size > MOST_CONTENT_BYTES:
        raise Trouble(f"it has {file.size:,} bytes, over {MOST_CONTENT_BYTES:,}, and so no lines")
    start = versions.at(id, path)
    assert start
    return Walk(server, versions, follows, out).told(start)


class Walk:
    """Takes the lines of a version back to the versions that brought them.

    A line is passed on to the first parent that has it, by a diff of the lines; what no parent has
    is the version's own. Where a parent has no file at the path, what that was copied from there
    takes its place.
    """

    def __init__(self, server: Server, versions: Versions, follows: bool, out: TextIO | None):
        self.server = server
        self.versions = versions
        self.follows = follows
        self.out = out
        self.lines = cache(self.read)
        self.known: dict[str, str] = {}
        """Each line that was read, so that equal ones of many versions are held once."""

    def read(self, content: str) -> list[str]:
        """The lines of a content; none of a large one, so that it isn't compared."""
        data = self.server.content(content)
        text = data.decode(errors="surrogateescape") if len(data) <= MOST_CONTENT_BYTES else ""
        return [self.known.setdefault(line, line) for line in lines_of(text)]

    def told(self, start: Version) -> list[Line]:
        """The lines of a version with who brought them; trouble where it is no text."""
        lines = self.lines(start.content)
        if text_of("".join(lines).encode(errors="surrogateescape")) is None:
            raise Trouble("it is no text, and so has no lines")
        makers = map(self.versions.changeset, self.makers(start))
        return [Line(maker, line.removesuffix("\n")) for maker, line in zip(makers, lines)]

    def makers(self, start: Version) -> list[str]:
        """Who brought each line of a version."""
        found = [start.maker] * len(self.lines(start.content))
        waiting = {start: {number: number for number in range(len(found))}} if found else {}
        with Progress("versions", None, self.out) as progress:
            while waiting:
                version = max(waiting, key=self.moment)
                left = waiting.pop(version)
                for before in self.before(version):
                    passed = self.passed(version, before, left)
                    left = {number: at for number, at in left.items() if number not in passed}
                    if passed:
                        waiting.setdefault(before, {}).update(passed)
                    if not left:
                        break
                for number in left:
                    found[number] = version.maker
                progress.step()
        return found

    def moment(self, version: Version) -> int:
        """When it was made. The latest comes first, so that lines that went apart meet again."""
        return self.versions.changeset(version.maker).seconds

    def before(self, version: Version) -> Iterator[Version]:
        """The versions that a version was made of, in the order of its maker's parents."""
        maker = self.versions.changeset(version.maker)
        source = maker.copies.get(version.path) if self.follows else None
        last = None
        for place, parent in enumerate(maker.parents):
            found = None if version.is_first else self.versions.at(parent, version.path)
            if found is None and source and source.parent == place:
                found = self.versions.at(parent, source.path)
            if found and found != last:
                yield found
            last = found or last

    def passed(self, version: Version, before: Version, left: dict[int, int]) -> dict[int, int]:
        """Those of some lines that a version before has, with their places there.

        Lines go by their numbers in the file that was asked for, with their places in the version.
        """
        if version.content == before.content:
            return left
        there = places(self.lines(version.content), self.lines(before.content))
        return {number: there[at] for number, at in left.items() if at in there}
