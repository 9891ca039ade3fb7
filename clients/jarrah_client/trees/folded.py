"""Trees, histories and logs of paths that are folded from changesets, by docs/MODEL.md.

Changesets come parents first; where one has two parents, both come before it.
"""

from __future__ import annotations

from collections import Counter
from collections.abc import Callable, Iterable, Iterator
from dataclasses import dataclass

from ..formats.changesets import Changeset, File
from ..formats.paths import is_comparable, joined, path_key
from ..net.server import Server, Trouble
from ..refusals import Refused

Folded = dict[str, "Folded | File"]
"""A directory of a folded tree."""
Listing = dict[str, "File | None"]
"""What a directory has by rising names; None stands for a directory."""


class FoldedTree:
    """A tree that was folded from changesets. Copies share the directories that neither changes."""

    source = "fold"

    def __init__(self) -> None:
        self.root: Folded = {}
        self.total = 0
        self.own: set[int] = set()
        """The directories that no copy has, by their `id`."""

    def copy(self) -> FoldedTree:
        """A tree that changes apart from this one."""
        other = FoldedTree()
        other.root, other.total = self.root, self.total
        self.own.clear()
        return other

    def mine(self, entry: Folded | File | None) -> Folded:
        """A directory to change in place of an entry: itself, a copy, or a new one."""
        if isinstance(entry, dict) and id(entry) in self.own:
            return entry
        directory = dict(entry) if isinstance(entry, dict) else {}
        self.own.add(id(directory))
        return directory

    def apply(self, changeset: Changeset) -> None:
        """Applies a changeset."""
        self.apply_all(changeset.changes)

    def apply_all(self, changes: dict[str, File | None]) -> None:
        """Applies changes: deletes before sets, so that a delete can't undo a set."""
        for path, file in changes.items():
            if file is None:
                self.delete(path.split("/"))
        for path, file in changes.items():
            if file is not None:
                self.set(path.split("/"), file)

    def merge(self, other: FoldedTree, changeset: Changeset) -> None:
        """Adds the files of a merge's other parent, after the merge was applied to the first."""
        decides = decider(changeset)
        for path, file in list(differing(other.root, self.root)):
            if not decides(path):
                self.set(path.split("/"), file)

    def delete(self, elements: list[str]) -> None:
        """Removes the file at a path where there is one, and directories left empty."""
        if not isinstance(self.at("/".join(elements)), File):
            return
        self.total -= 1
        self.root = self.mine(self.root)
        line = [self.root]
        for element in elements[:-1]:
            below = self.mine(line[-1][element])
            line[-1][element] = below
            line.append(below)
        for directory, element in zip(reversed(line), reversed(elements)):
            del directory[element]
            if directory:
                return

    def set(self, elements: list[str], file: File) -> None:
        """Puts a file at a path, in place of what lies under it and of a file above it."""
        self.root = directory = self.mine(self.root)
        for element in elements[:-1]:
            old = directory.get(element)
            self.total -= isinstance(old, File)
            below = self.mine(old)
            directory[element] = below
            directory = below
        self.total += 1 - files_in(directory.get(elements[-1]))
        directory[elements[-1]] = file

    def at(self, path: str) -> Folded | File | None:
        """The directory or file at a path."""
        entry: Folded | File | None = self.root
        for element in path.split("/") if path else []:
            entry = entry.get(element) if isinstance(entry, dict) else None
        return entry

    def list(self, path: str) -> Listing:
        entry = self.at(path)
        if entry is None:
            raise no_path()
        if isinstance(entry, File):
            raise Refused(404, "not-a-dir", {})
        rising = sorted(entry.items(), key=lambda found: found[0].encode())
        return {name: below if isinstance(below, File) else None for name, below in rising}

    def file(self, path: str) -> File:
        entry = self.at(path)
        if entry is None:
            raise no_path()
        if not isinstance(entry, File):
            raise not_a_file()
        return entry

    def files(self, directory: str = "") -> Iterator[tuple[str, File]]:
        root = self.at(directory)
        assert isinstance(root, dict)
        return iter(sorted(walked(root, directory), key=lambda found: path_key(found[0])))

    def count(self) -> int:
        return self.total

    def by(self, server: Server) -> FoldedTree:
        return self


def files_in(entry: Folded | File | None) -> int:
    """How many files an entry of a folded tree stands for."""
    if isinstance(entry, dict):
        return sum(files_in(below) for below in entry.values())
    return int(entry is not None)


def walked(directory: Folded, above: str) -> Iterator[tuple[str, File]]:
    """All files under a folded directory, in no order."""
    return differing(directory, {}, above)


def differing(
    ours: Folded, theirs: Folded, above: str = ""
) -> Iterator[tuple[str, File]]:
    """The files of a folded directory that another doesn't have so; shared ones are passed over."""
    for name, entry in ours.items():
        other = theirs.get(name)
        if entry is other or entry == other and isinstance(entry, File):
            continue
        path = joined(above, name)
        if isinstance(entry, File):
            yield path, entry
        else:
            yield from differing(entry, other if isinstance(other, dict) else {}, path)


def no_path() -> Refused:
    return Refused(404, "no-path", {})


def not_a_file() -> Refused:
    return Refused(404, "not-a-file", {})


def decider(changeset: Changeset) -> Callable[[str], bool]:
    """Tells whether a changeset decides a path: it changes it, or sets one above or under it."""
    sets = {path for path, file in changeset.changes.items() if file}
    above_sets = {above for path in sets for above in fronts(path)}

    def decides(path: str) -> bool:
        is_changed = path in changeset.changes or path in above_sets
        return is_changed or any(above in sets for above in fronts(path))

    return decides


def fronts(path: str) -> Iterator[str]:
    """The paths that a path lies strictly under."""
    at = path.find("/")
    while at != -1:
        yield path[:at]
        at = path.find("/", at + 1)


class Fold:
    """The trees of some changesets, each kept as long as one on it is to come."""

    def __init__(self, past: Iterable[Changeset]):
        self.uses = Counter(parent for changeset in past for parent in changeset.parents)
        self.trees: dict[str, FoldedTree] = {}

    def before(self, changeset: Changeset) -> FoldedTree:
        """The tree of the first parent, until the changeset is added; a merge's for longer."""
        tree = self.trees[changeset.parent] if changeset.parent else FoldedTree()
        return tree.copy() if changeset.is_merge else tree

    def take(self, id: str) -> FoldedTree:
        """The tree of a parent, for one that stands on it."""
        self.uses[id] -= 1
        return self.trees[id].copy() if self.uses[id] else self.trees.pop(id)

    def add(self, changeset: Changeset) -> FoldedTree:
        """The tree after a changeset. It holds until the next one is added."""
        parents = [self.take(parent) for parent in changeset.parents]
        tree = parents[0] if parents else FoldedTree()
        tree.apply(changeset)
        if len(parents) == 2:
            tree.merge(parents[1], changeset)
        self.trees[changeset.id] = tree
        return tree


def folded(past: list[Changeset]) -> FoldedTree:
    """The tree of the last of some changesets."""
    fold, tree = Fold(past), FoldedTree()
    for changeset in past:
        tree = fold.add(changeset)
    return tree


@dataclass(frozen=True)
class At:
    """What a changeset has at a path: a file or None, and which changeset made that so."""

    file: File | None
    maker: str
    before: tuple[str, ...]
    """Who made what its parents have there, each once; where none is, there is no file there."""


def along(past: Iterable[Changeset], path: str) -> dict[str, At]:
    """What each of some changesets has at a path."""
    found: dict[str, At] = {}
    for changeset in past:
        there = [found[parent] for parent in changeset.parents if found[parent].file]
        makers = tuple(dict.fromkeys(at.maker for at in there))
        file = changeset.changes.get(path)
        is_new = bool(file) or len(makers) == 2
        if not file and there and not touches(changeset, path):
            file = there[0].file
        maker = changeset.id if is_new or not makers else makers[0]
        found[changeset.id] = At(file, maker, makers)
    return found


def folded_history(past: list[Changeset], path: str) -> list[str]:
    """The changesets that made the file as it is at the last one, the newest first."""
    found = along(past, path)
    if found[past[-1].id].file is None:
        folded(past).file(path)
    reached: set[str] = set()
    waiting = [found[past[-1].id].maker]
    while waiting:
        maker = waiting.pop()
        if maker not in reached:
            reached.add(maker)
            waiting += found[maker].before
    return [changeset.id for changeset in reversed(past) if changeset.id in reached]


def folded_path_log(past: list[Changeset], path: str) -> list[str]:
    """The changesets by first parents that set a file or have another than their first parent."""
    found, by_id = along(past, path), {changeset.id: changeset for changeset in past}
    line: list[str] = []
    following: Changeset | None = past[-1]
    while following:
        parent = following.parent
        before = found[parent].file if parent else None
        if following.changes.get(path) or found[following.id].file != before:
            line.append(following.id)
        following = by_id[parent] if parent else None
    if not line:
        raise Trouble("there is nothing at this path, and never was")
    return line


def touches(changeset: Changeset, path: str) -> bool:
    """Whether a changeset changes a path, or sets one above or under it."""
    return path in changeset.changes or any(
        file and is_comparable(path, other) for other, file in changeset.changes.items()
    )
