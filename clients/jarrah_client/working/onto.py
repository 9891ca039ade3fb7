"""Changes that were made on one tree, put onto another, merging what both changed."""

from __future__ import annotations

from dataclasses import dataclass, field

from ..formats.changesets import Changeset, CopySource, File
from ..history.reads import file_at
from ..net.contents import in_memory, store_all
from ..net.server import Server
from ..trees.changed import is_directory
from ..trees.tree import Tree, tree_of
from .merging import HERE, merge_file, moved_twice
from .renamed import place_there


@dataclass
class Names:
    """Files that both sides know, and one or both have renamed."""

    theirs: dict[str, str] = field(default_factory=dict)
    """Paths that are changed, with those that the other side has moved them to."""
    ours: dict[str, str] = field(default_factory=dict)
    """Paths that are set, with those at which the other side has the file still, and changed it."""
    same: dict[str, str] = field(default_factory=dict)
    """Paths to which both sides have moved a file, with the one that it was at."""
    both: dict[str, tuple[str, str]] = field(default_factory=dict)
    """Paths to which a file was moved here, with the one it was at, and that it is at there."""

    def places(self, path: str) -> tuple[str, str, str]:
        """Where a changed file belongs there, where it was before, and where it is there."""
        if path in self.both:
            return path, *self.both[path]
        if path in self.same:
            return path, self.same[path], path
        if path in self.ours:
            return path, self.ours[path], self.ours[path]
        target = self.theirs.get(path, path)
        return target, path, target


NO_NAMES = Names()


@dataclass
class Onto:
    """Changes on another tree: files, new bytes, and conflicts with their reasons."""

    changes: dict[str, File | None] = field(default_factory=dict)
    contents: dict[str, bytes] = field(default_factory=dict)
    conflicts: dict[str, str] = field(default_factory=dict)
    ours: dict[str, File | None] = field(default_factory=dict)
    """What the changes had where there is a conflict."""
    copies: dict[str, CopySource] = field(default_factory=dict)
    """Where files that are set were copied from."""


def put_onto(
    server: Server,
    changes: dict[str, File | None],
    before: Tree | None,
    there: Tree,
    names: Names = NO_NAMES,
) -> Onto:
    """Changes of a tree on another one; those that the other has already are left out."""
    onto = Onto()
    merged = {names.ours[path] for path in changes if path in names.ours}
    for path, ours in changes.items():
        if path in merged and ours is None:
            onto.changes[path] = None
            continue
        target, at, place = names.places(path)
        was, theirs = file_at(before, at) if before else None, file_at(there, place)
        merge = merge_file(lambda file: server.content(file.content), was, ours, theirs)
        is_new = merge.file and not (theirs if place == target else file_at(there, target))
        why = merge.conflict or (is_new and in_the_way(before, there, changes, target))
        if why:
            onto.conflicts[target] = why
            onto.ours[target] = ours
        if merge.file != theirs or place != target:
            onto.changes[target] = merge.file
        if merge.data is not None and merge.file:
            onto.contents[merge.file.content] = merge.data
    for path in names.both:
        note_both(onto, path, changes[path], *names.both[path])
    return onto


def note_both(onto: Onto, path: str, ours: File | None, at: str, there: str) -> None:
    """Notes that a file has two names now, one of each side: both paths are conflicts, of which the
    second has nothing here."""
    why = onto.conflicts.get(path)
    onto.conflicts[path] = moved_twice(at, there) + (f", and {why}" if why else "")
    onto.ours[path] = ours
    if there not in onto.conflicts:
        onto.conflicts[there] = moved_twice(at, path, HERE)
        onto.ours[there] = None


def put_draft_onto(server: Server, draft: Changeset, parent: str) -> Onto:
    """The changes of a draft on another changeset, and what they were copied from there."""
    before = tree_of(server, draft.parent) if draft.parent else None
    there = tree_of(server, parent)
    names = names_of(server, draft, before, there, parent) if before else NO_NAMES
    onto = put_onto(server, draft.changes, before, there, names)
    for path, source in draft.copies.items():
        at = names.theirs.get(source.path, source.path)
        if path in names.both:
            at = names.both[path][1]
        if onto.changes.get(path) and file_at(there, at):
            onto.copies[path] = CopySource(0, at)
    return onto


def names_of(server: Server, draft: Changeset, before: Tree, there: Tree, parent: str) -> Names:
    """What each side has renamed of the files that the other has changed."""
    names = Names()
    changes = draft.changes
    for path in changes:
        if file_at(before, path) and not file_at(there, path):
            target = place_there(server, path, before, there, parent)
            if target:
                take_target(names, draft, there, path, target)
    for path, source in draft.copies.items():
        at = source.path
        is_renamed = at in changes and changes[at] is None and not file_at(there, path)
        theirs = file_at(there, at)
        if is_renamed and theirs and theirs != file_at(before, at):
            names.ours[path] = at
    return names


def take_target(names: Names, draft: Changeset, there: Tree, path: str, target: str) -> None:
    """Takes note of where the other side has moved a file that a draft changes, or moves itself."""
    copied = [new for new, source in draft.copies.items() if source.path == path]
    moved = copied if draft.changes[path] is None else []
    if target in moved:
        names.same[target] = path
        return
    for new in moved:
        # What else is there at the path is met with as such.
        if not file_at(there, new):
            names.both[new] = (path, target)
    if not moved and target not in draft.changes:
        names.theirs[path] = target


def in_the_way(
    before: Tree | None, there: Tree, changes: dict[str, File | None], path: str
) -> str | None:
    """Which file that a set would take away is another than the changes were made on."""
    for other in taken_away(there, path):
        seen = file_at(before, other) if before else None
        if seen != file_at(there, other) and other not in changes:
            return f"{other} is in its way there"
    return None


def taken_away(tree: Tree, path: str) -> list[str]:
    """The files above and under a path."""
    elements = path.split("/")
    above = ["/".join(elements[:count]) for count in range(1, len(elements))]
    found = [front for front in above if file_at(tree, front)]
    below = tree.files(path) if is_directory(tree, path) else ()
    return found + [other for other, _ in below]


def hold(server: Server, changeset: Changeset, onto: Onto) -> Changeset:
    """Uploads the new bytes of a changeset, which is stored later, together with others."""
    store_contents(server, changeset, onto)
    server.unsent[changeset.id] = changeset
    return changeset


def store_contents(server: Server, changeset: Changeset, onto: Onto) -> None:
    """Uploads the new bytes of a changeset's changes, once it has a spelling."""
    _ = changeset.encoded
    store_all(server, [in_memory(id, data) for id, data in onto.contents.items()])
