"""What a merge of git's has to set and delete, where a changeset has both of its parents."""

from __future__ import annotations

from collections.abc import Iterable
from dataclasses import dataclass, replace

from ..formats.changesets import MOST_CHANGES
from .source import GitChange

MOST_CHANGE_BYTES = 700_000
"""What changes of one changeset may take, so that its message has room beside them."""
CHANGE_OVERHEAD = 44
SOURCE_OVERHEAD = 4


@dataclass(frozen=True)
class SidedChange:
    """A change, and the place of the parent whose file it may be a copy of."""

    side: int
    change: GitChange


def of_one_parent(changes: Iterable[GitChange]) -> list[SidedChange]:
    """The changes of a commit by its first parent alone."""
    return [SidedChange(0, change) for change in changes]


def settled(first: list[GitChange], second: list[GitChange]) -> list[SidedChange]:
    """The changes of a merge by what differs from each of its parents.

    A path that differs from one parent alone is as the other has it. Where the one has no file
    there, the tree of both has the other's by itself; else the parents don't agree, and the merge
    says which it is.
    """
    sides = [{change.path: change for change in side} for side in (first, second)]
    found = []
    for side, (ours, theirs) in enumerate((sides, sides[::-1])):
        for path, change in ours.items():
            if path not in theirs:
                if change.was_file:
                    found.append(SidedChange(side, change))
            elif side == 0:
                found.append(in_both(change, theirs[path]))
    return found


def in_both(first: GitChange, second: GitChange) -> SidedChange:
    """The change of a path that differs from both parents."""
    side = 1 if second.source and not first.source else 0
    was_file = first.was_file or second.was_file
    return SidedChange(side, replace((first, second)[side], was_file=was_file))


def fit_one(changes: list[SidedChange]) -> bool:
    """Whether one changeset has room for the changes."""
    return len(changes) <= MOST_CHANGES and sum(map(needs, changes)) <= MOST_CHANGE_BYTES


def needs(sided: SidedChange) -> int:
    """The bytes of a change at most."""
    source = sided.change.source
    return len(sided.change.path) + CHANGE_OVERHEAD + (
        len(source.path) + SOURCE_OVERHEAD if source else 0
    )
