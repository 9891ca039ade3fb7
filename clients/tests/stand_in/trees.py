"""Trees of changesets as plain maps of paths to files, and where two parents don't agree."""

from __future__ import annotations

from collections.abc import Callable, Iterator
from dataclasses import replace

from .spelling import Record, Set, key

Tree = dict[str, Set]
"""The files of a tree, which aren't told apart by what they were copied from."""


def fronts(path: str) -> list[str]:
    """The paths that a path lies strictly under."""
    elements = path.split("/")
    return ["/".join(elements[:count]) for count in range(1, len(elements))]


def decider(record: Record) -> Callable[[str], bool]:
    """Tells whether a changeset sets or deletes a path, or sets one above or under it."""
    touched = set(record.touched)
    sets = {path for path, file in record.changes if file}
    above_sets = {front for path in sets for front in fronts(path)}

    def decides(path: str) -> bool:
        return path in touched or path in above_sets or not sets.isdisjoint(fronts(path))

    return decides


def tree_after(parents: list[Tree], record: Record) -> Tree:
    """The tree after a changeset: what it sets, and what a parent has that it doesn't decide."""
    decides = decider(record)
    before = {path: file for tree in parents[::-1] for path, file in tree.items()}
    after = {path: file for path, file in before.items() if not decides(path)}
    after.update({path: replace(file, copied=None) for path, file in record.changes if file})
    return after


def unresolved(record: Record, left: Tree, right: Tree) -> str | None:
    """The least path at which a merge leaves a file of one parent against a file of the other."""
    decides = decider(record)
    ours, theirs = (
        {path: file for path, file in tree.items() if not decides(path)} for tree in (left, right)
    )
    return min([*against(ours, theirs), *against(theirs, ours)], key=key, default=None)


def against(ours: Tree, theirs: Tree) -> Iterator[str]:
    """The paths of ours where theirs has another file, or one above or under it."""
    above = {front for path in theirs for front in fronts(path)}
    for path, file in ours.items():
        is_other = path in theirs and theirs[path] != file
        if is_other or path in above or any(front in theirs for front in fronts(path)):
            yield path
