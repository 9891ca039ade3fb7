"""Moving a working copy from one tree to another, with what was changed in it kept."""

from __future__ import annotations

from contextlib import closing
from dataclasses import dataclass, field
from functools import partial

from ..formats.changesets import File
from ..formats.paths import own_name
from ..net.contents import Data, Source, fetched
from ..net.server import Server
from ..trees.checkout import Files, written
from ..trees.differences import Difference, differences
from ..trees.tree import Tree, tree_of
from . import disk, sides
from .merging import HERE, Merge, merge_file, moved_twice
from .renamed import place_there, sources
from .scan import Scan, look_into, scan
from .state import NEVER, Kept, Stamp, WorkingCopy


@dataclass
class Moved:
    """What a move did, by paths."""

    written: int = 0
    deleted: int = 0
    merged: list[str] = field(default_factory=list)
    conflicts: dict[str, str] = field(default_factory=dict)
    left_out: list[str] = field(default_factory=list)


def move(copy: WorkingCopy, server: Server, target: str, connections: int = 4) -> Moved:
    """Brings the folder from its base to another changeset. The state isn't saved yet."""
    base = copy.state.base
    if target == base:
        return Moved()
    found = scan(copy)
    old, new = tree_of(server, base), tree_of(server, target)
    coming = {one[0]: one for one in between(copy, old, new)}
    moved = Moved()
    for path in [path for path in coming if own_name(path)]:
        moved.left_out.append(path)
        del coming[path]
    if found.changes:
        follow(copy, server, found, coming, (old, new, target), moved)
    ways = disk.Ways(copy.top)
    plain: list[Difference] = []
    for path, one in coming.items():
        if is_changed(copy, found, path, ways):
            join(copy, server, found, one, moved)
        else:
            plain.append(one)
    carry_out(copy, server, plain, moved, connections)
    return moved


def between(copy: WorkingCopy, old: Tree, new: Tree) -> list[Difference]:
    """What two trees differ in, of what is in the folder of a sparse working copy."""
    profile = copy.state.profile
    if profile is None:
        return differences(old, new)
    return [one for one in differences(old, new, profile.leads) if profile.has(one[0])]


def follow(
    copy: WorkingCopy,
    server: Server,
    found: Scan,
    coming: dict[str, Difference],
    trees: tuple[Tree, Tree, str],
    moved: Moved,
) -> None:
    """Merges what one side changed into what the other has renamed; takes it off what comes."""
    old, new, target = trees
    for path, (_, before, after) in list(coming.items()):
        if after or not found.changes.get(path) or path in copy.state.conflicts:
            continue
        at = place_there(server, path, old, new, target)
        # Each merge puts and removes files, so the ways are looked at anew.
        if at is None or at not in coming or disk.blocked_by(copy.top, at):
            continue
        if not is_changed(copy, found, at, disk.Ways(copy.top)):
            one = (at, before, coming.pop(at)[2])
            del coming[path]
            merge_into(copy, server, (path, at), one, moved)
            keep(copy, path, None)
    renamed = sources(copy, server, found) if any(one[2] for one in coming.values()) else {}
    for path, at in renamed.items():
        _, before, after = coming.get(at, (at, None, None))
        if not before or found.changes.get(at, before) is not None:
            continue
        if not after:
            there = place_there(server, at, old, new, target)
            follow_both(copy, server, (at, path, there), coming, moved)
        elif path not in coming:
            del coming[at]
            merge_into(copy, server, (path, path), (path, before, after), moved)
            keep(copy, path, None)
            keep(copy, at, after)


def follow_both(
    copy: WorkingCopy,
    server: Server,
    places: tuple[str, str, str | None],
    coming: dict[str, Difference],
    moved: Moved,
) -> None:
    """Merges a file that was moved here and there: to one path, or to two, which are conflicts."""
    at, path, there = places
    if there is None or there not in coming:
        return
    before, after = coming[at][1], coming[there][2]
    if there == path:
        coming[path] = (path, before, after)
        return
    if path in coming:
        return
    ours, source = look_into(copy.top, path)
    put_merged(copy, server, (path, before, after), ours, source, moved)
    sides.hold(copy, path, ours, source)
    sides.hold(copy, there, None)
    why = moved.conflicts.get(path)
    moved.conflicts[path] = moved_twice(at, there) + (f", and {why}" if why else "")
    moved.conflicts[there] = moved_twice(at, path, HERE)
    copy.state.copied[path] = there


def merge_into(
    copy: WorkingCopy, server: Server, places: tuple[str, str], coming: Difference, moved: Moved
) -> None:
    """Merges a file of the folder with one that comes, which is at another path."""
    at, path = places
    _, before, after = coming
    keep(copy, path, after)
    ours, source = look_into(copy.top, at)
    put_merged(copy, server, (path, before, after), ours, source, moved)
    if at != path:
        disk.remove(copy.top, at)


def is_changed(copy: WorkingCopy, found: Scan, path: str, ways: disk.Ways) -> bool:
    """Whether a path isn't as the base has it: also where it is ignored, or can't be taken."""
    if path in found.changes or path in found.faults or path in copy.state.conflicts:
        return True
    return path not in copy.state.files and ways.is_file(path)


def join(copy: WorkingCopy, server: Server, found: Scan, coming: Difference, moved: Moved) -> None:
    """Merges a file that is changed in the folder and in the tree that comes."""
    path, before, after = coming
    keep(copy, path, after)
    if path in found.faults or path in copy.state.conflicts:
        moved.conflicts[path] = found.faults.get(path, "it was a conflict before")
        return
    ours, source = look_into(copy.top, path)
    put_merged(copy, server, coming, ours, source, moved)


def put_merged(
    copy: WorkingCopy,
    server: Server,
    coming: Difference,
    ours: File | None,
    source: Source | None,
    moved: Moved,
) -> None:
    """Writes what comes of a file of the folder and one that comes."""
    path, before, after = coming

    def read(file: File) -> bytes:
        if source and source.id == file.content:
            return source.read()
        return server.content(file.content)

    merge = merge_file(read, before, ours, after)
    if merge.conflict:
        sides.hold(copy, path, ours, source)
    is_there = look_into(copy.top, path)[0] == merge.file
    if not is_there and merge.file:
        disk.put(copy.top, path, merge.file, data_of(server, source, merge))
        moved.merged.append(path)
    elif not is_there:
        disk.remove(copy.top, path)
    if merge.conflict:
        moved.conflicts[path] = merge.conflict


def data_of(server: Server, ours: Source | None, merge: Merge) -> Data:
    """The bytes of a merged file: new ones, those that were there, or the server's."""
    assert merge.file
    if merge.data is not None:
        return merge.data
    if ours and ours.id == merge.file.content:
        return ours.read()
    return fetched(server, merge.file)


def carry_out(
    copy: WorkingCopy, server: Server, plain: list[Difference], moved: Moved, connections: int
) -> None:
    """Deletes and writes the files that weren't changed in the folder."""
    ways = disk.Ways(copy.top)
    for path, _, after in plain:
        if after is None:
            ways.remove(path)
            copy.state.files.pop(path, None)
            moved.deleted += 1
    ways = disk.Ways(copy.top)
    coming: Files = []
    for path, _, after in plain:
        if after is None:
            continue
        why = ways.blocked_by(path)
        if why:
            moved.conflicts[path] = f"{why} is in its way"
            keep(copy, path, after)
        else:
            coming.append((path, after))
    if coming:
        put_all(copy, server, coming, moved, connections)


def put_all(
    copy: WorkingCopy, server: Server, coming: Files, moved: Moved, connections: int
) -> None:
    """Writes files, as many at a time as there are connections."""
    disk.clear_coming(copy.top)
    work = partial(disk.put_chunk, top=copy.top)
    with closing(written(server, coming, work, connections)) as done:
        for path, file, times in done:
            copy.state.files[path] = Kept(file, Stamp(*times))
            moved.written += 1


def keep(copy: WorkingCopy, path: str, file: File | None) -> None:
    """Keeps what the new base has at a path whose file may be another."""
    if file is None:
        copy.state.files.pop(path, None)
    else:
        copy.state.files[path] = Kept(file, NEVER)
