"""What differs between the trees of two changesets."""

from __future__ import annotations

from collections.abc import Callable, Iterator

from ..formats.changesets import File
from ..formats.nodes import Directory, Entries
from ..formats.paths import joined, path_key
from ..refusals import Refused
from .changed import ChangedTree
from .tree import FsnodeTree, Tree

Difference = tuple[str, "File | None", "File | None"]
"""A path with its file before and after; None where there is none."""


Wants = Callable[[str], bool]
"""Tells whether a directory is looked into."""


def differences(old: Tree, new: Tree, looks_into: Wants | None = None) -> list[Difference]:
    """The paths at which two trees have other files, by rising paths.

    Directories that aren't looked into are passed over where that spares reading them.
    """
    if isinstance(old, FsnodeTree) and isinstance(new, FsnodeTree):
        found = by_nodes(old, new, looks_into or (lambda _: True))
    elif isinstance(new, ChangedTree):
        found = by_changes(old, new, looks_into)
    else:
        left, right = dict(old.files()), dict(new.files())
        paths = left.keys() | right.keys()
        found = ((path, left.get(path), right.get(path)) for path in paths)
    return sorted((one for one in found if one[1] != one[2]), key=lambda one: path_key(one[0]))


def by_changes(old: Tree, new: ChangedTree, looks_into: Wants | None) -> Iterator[Difference]:
    """The same of a tree that was made of another by a changeset."""
    befores = {path: before for path, before, _ in differences(old, new.below, looks_into)}
    for path in befores.keys() | new.touched():
        yield path, befores.get(path) or found_at(old, path), found_at(new, path)


def found_at(tree: Tree, path: str) -> File | None:
    """The file at a path, or None."""
    try:
        return tree.file(path)
    except Refused as refusal:
        if refusal.code not in ("no-path", "not-a-file"):
            raise
        return None


def by_nodes(old: FsnodeTree, new: FsnodeTree, looks_into: Wants) -> Iterator[Difference]:
    """The same by fsnodes: directories of one id are passed over. Those of one depth are read
    together, of each tree in which they are."""
    level = [("", True, True)]
    while level:
        old.read([path for path, in_old, _ in level if in_old])
        new.read([path for path, _, in_new in level if in_new])
        below: list[tuple[str, bool, bool]] = []
        for path, in_old, in_new in level:
            left = old.node(path).entries if in_old else {}
            right = new.node(path).entries if in_new else {}
            yield from unlike(path, left, right)
            below += unlike_directories(path, left, right)
        level = [one for one in below if looks_into(one[0])]


def unlike(directory: str, left: Entries, right: Entries) -> Iterator[Difference]:
    """The files of a directory that aren't the same in both."""
    for name in left.keys() | right.keys():
        before, after = left.get(name), right.get(name)
        if not is_same(before, after):
            files = [one if isinstance(one, File) else None for one in (before, after)]
            if any(files):
                yield joined(directory, name), files[0], files[1]


def unlike_directories(
    directory: str, left: Entries, right: Entries
) -> Iterator[tuple[str, bool, bool]]:
    """The directories in one that aren't the same in both, and where they are."""
    for name in left.keys() | right.keys():
        before, after = left.get(name), right.get(name)
        if not is_same(before, after):
            inside = [isinstance(one, Directory) for one in (before, after)]
            if any(inside):
                yield joined(directory, name), inside[0], inside[1]


def is_same(before: File | Directory | None, after: File | Directory | None) -> bool:
    """Whether two entries stand for equal files."""
    if isinstance(before, Directory) and isinstance(after, Directory):
        return before.node == after.node
    return before == after
