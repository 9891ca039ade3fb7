"""Giving a working copy another profile: files of the base come into the folder, and others go."""

from __future__ import annotations

import os

from ..formats.changesets import File
from ..formats.paths import own_name
from ..net.server import Server, Trouble
from ..trees.differences import Difference
from ..trees.tree import tree_of
from .bisect import in_place_of
from .moves import Moved, carry_out
from .scan import changed_files, look_into, stamp_of
from .sparse import Profile, absent, files_of
from .stack import need_no_drafts, need_settled
from .state import Kept, WorkingCopy


def take_profile(
    copy: WorkingCopy, server: Server, profile: Profile | None, connections: int
) -> tuple[Moved, list[str]]:
    """Brings the folder to a profile, or to the whole tree. Gives what was done, and which
    directories the base doesn't have."""
    need_settled(copy)
    need_no_drafts(copy)
    tree = tree_of(server, copy.state.base)
    wanted = {path: file for path, file in files_of(tree, profile) if not own_name(path)}
    plain: list[Difference] = [(path, kept.file, None) for path, kept in going(copy, wanted)]
    plain += [(path, None, file) for path, file in coming(copy, wanted)]
    moved = Moved()
    carry_out(copy, server, plain, moved, connections)
    for path, why in moved.conflicts.items():
        raise Trouble(f"{path}: {why}")
    copy.state.sparse = list(profile.directories) if profile else None
    copy.save()
    return moved, absent(tree, profile) if profile else []


def going(copy: WorkingCopy, wanted: dict[str, File]) -> list[tuple[str, Kept]]:
    """The files that leave the folder. None of them is changed."""
    changed = set(changed_files(copy))
    found = [(path, kept) for path, kept in copy.state.files.items() if path not in wanted]
    for path, _ in found:
        if path in changed and os.path.lexists(copy.top / path):
            why = "is changed, and would leave the folder: commit or revert it first"
            raise Trouble(f"{path} {why}")
    return found


def coming(copy: WorkingCopy, wanted: dict[str, File]) -> list[tuple[str, File]]:
    """The files that come into the folder. What is there already, and is the same, is kept."""
    found = []
    for path, file in wanted.items():
        if path in copy.state.files:
            continue
        what = in_place_of(copy, path)
        if what == path and look_into(copy.top, path)[0] == file:
            copy.state.files[path] = Kept(file, stamp_of(copy.top, path))
        elif what:
            of = f" of {path}" if what != path else ""
            raise Trouble(f"{what} is in the way{of}: put it elsewhere first")
        else:
            found.append((path, file))
    return found
