"""The tree after a changeset that the server doesn't have yet, from the tree of its parent."""

from __future__ import annotations

from collections.abc import Iterator
from typing import TYPE_CHECKING

from ..formats.changesets import Changeset, File
from ..formats.paths import is_above, path_key
from ..net.server import Server
from ..refusals import Refused
from .folded import Listing, decider, fronts, no_path, not_a_file

if TYPE_CHECKING:
    from .tree import Tree


class ChangedTree:
    """A tree with the changes of one changeset on it, which has one parent."""

    source = "changes"

    def __init__(self, below: Tree, changeset: Changeset):
        self.below = below
        self.changeset = changeset
        self.sets = {path: file for path, file in changeset.changes.items() if file}
        self.decides = decider(changeset)

    def file(self, path: str) -> File:
        if path in self.sets:
            return self.sets[path]
        if not self.decides(path):
            try:
                return self.below.file(path)
            except Refused as refusal:
                if refusal.code != "not-a-file":
                    raise
        raise not_a_file() if any(True for _ in self.files(path)) else no_path()

    def files(self, directory: str = "") -> Iterator[tuple[str, File]]:
        there = self.below.files(directory) if is_directory(self.below, directory) else ()
        found = {path: file for path, file in there if not self.decides(path)}
        found |= {
            path: file
            for path, file in self.sets.items()
            if not directory or is_above(directory, path)
        }
        return iter(sorted(found.items(), key=lambda one: path_key(one[0])))

    def list(self, path: str) -> Listing:
        found: Listing = {}
        for one, file in self.files(path):
            name, slash, _ = one[len(path) + 1 if path else 0 :].partition("/")
            found[name] = None if slash else file
        if path and not found:
            self.file(path)
            raise Refused(404, "not-a-dir", {})
        return dict(sorted(found.items(), key=lambda entry: entry[0].encode()))

    def count(self) -> int:
        return sum(1 for _ in self.files())

    def by(self, server: Server) -> ChangedTree:
        return ChangedTree(self.below.by(server), self.changeset)

    def touched(self) -> set[str]:
        """The paths at which it may have another file than the tree below."""
        found = set(self.changeset.changes)
        for path in self.sets:
            found.update(fronts(path))
            if is_directory(self.below, path):
                found.update(one for one, _ in self.below.files(path))
        return found


def is_directory(tree: Tree, path: str) -> bool:
    """Whether a directory is at a path; the root always is."""
    if not path:
        return True
    try:
        tree.file(path)
    except Refused as refusal:
        return refusal.code == "not-a-file"
    return False
