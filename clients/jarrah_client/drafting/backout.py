"""Backing out: a changeset onto a bookmark's head that undoes what an earlier one did."""

from __future__ import annotations

from collections.abc import Iterable
from dataclasses import dataclass
from typing import Any

from ..formats.changesets import Changeset, File, Kind
from ..history.reads import file_at
from ..history.repository import Log, is_reached, need_head
from ..net.server import Server, Trouble
from ..terminal.output import some_of, title
from ..trees.differences import Difference, differences
from ..trees.tree import Tree, tree_of
from ..working.onto import Onto, put_onto, store_contents
from ..working.stack import Words, made


@dataclass(frozen=True)
class Wanted:
    """What is to be backed out: a changeset of a bookmark, and to which of its parents."""

    target: Changeset
    place: int | None
    bookmark: str


@dataclass(frozen=True)
class Backout:
    """The changeset that undoes another, and the paths at which it keeps what came later."""

    changeset: Changeset
    target: str
    merged: list[str]

    @property
    def told(self) -> dict[str, Any]:
        """What scripts are told of it, beside the draft or the landing."""
        return {"backed_out": self.target, "merged": self.merged}


def back_out(server: Server, log: Log, wanted: Wanted, words: Words) -> Backout:
    """A changeset onto the bookmark's head that undoes what another did; its contents are stored,
    and it isn't yet."""
    id, parent = wanted.target.id, parent_of(wanted)
    head = need_head(server, wanted.bookmark)
    if not is_reached(server, log, head, id):
        raise Trouble(f"{id} isn't on {wanted.bookmark}")
    left, there = tree_of(server, id), tree_of(server, head)
    done = differences(tree_of(server, parent), left)
    undone = {path: before for path, before, _ in done}
    onto = put_onto(server, undone, left, there)
    refuse_later(wanted, later(done, onto, there))
    if not onto.changes:
        raise Trouble(f"there is nothing to back out: {wanted.bookmark} is as it was before {id}")
    changeset = made(head, words, onto.changes)
    store_contents(server, changeset, onto)
    merged = [path for path, file in changeset.changes.items() if file != undone[path]]
    return Backout(changeset, id, merged)


def parent_of(wanted: Wanted) -> str:
    """The parent that is gone back to."""
    target, place = wanted.target, wanted.place
    if target.parent is None:
        raise Trouble(f"{target.id} is a root: there is no parent to go back to")
    if target.is_merge and place is None:
        raise Trouble(f"{target.id} is a merge: say `--parent 0` or `--parent 1` to go back to")
    if place and not target.is_merge:
        raise Trouble(f"{target.id} has one parent alone: leave out `--parent {place}`")
    return target.parents[place or 0]


def later(done: Iterable[Difference], onto: Onto, there: Tree) -> list[str]:
    """The paths where the head has later changes that can't be kept."""
    return [
        path
        for path, before, after in done
        if path in onto.conflicts
        or (not has_text(after) and file_at(there, path) not in (before, after))
    ]


def has_text(file: File | None) -> bool:
    """Whether there is a file that may have lines to merge."""
    return file is not None and file.kind is not Kind.SYMLINK


def refuse_later(wanted: Wanted, paths: list[str]) -> None:
    """Refuses paths with later changes."""
    if paths:
        why = f"{wanted.bookmark} has other changes there since"
        raise Trouble(f"{some_of(paths)} can't be backed out: {why}")


def message_of(target: Changeset) -> str:
    """What a backout says where a person says nothing."""
    return f'Back out "{title(target.message)}"\n\nThis backs out changeset {target.id}.'
