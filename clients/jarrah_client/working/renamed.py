"""What files of a folder were moved or copied from, and where the other side moved them."""

from __future__ import annotations

import os
import shutil
import sys
from collections.abc import Mapping
from pathlib import Path

from ..formats.changesets import CopySource, File
from ..history.reads import file_at
from ..net.server import Server, Trouble
from ..refusals import Refused
from ..text import renames
from ..trees.differences import differences
from ..trees.tree import Tree, path_log_of
from .scan import Scan, is_in, look_into, scan
from .state import WorkingCopy

MOST_MOVES = 20
"""So many times a file is followed from name to name."""


def sources(copy: WorkingCopy, server: Server, found: Scan) -> dict[str, str]:
    """Where the new files of a scan were in the base: as a person said, or as they look."""
    state, changes = copy.state, found.changes
    said = {
        path: at
        for path, at in state.copied.items()
        if changes.get(path) and path not in state.files and at in state.files
    }
    new = {
        path: file
        for path, file in changes.items()
        if file and path not in state.files and path not in said
    }
    before = {path: state.files[path].file for path in changes if path in state.files}
    moved = {at for path, at in said.items()}
    gone = {at: file for at, file in before.items() if not changes[at] and at not in moved}
    kept = {at: file for at, file in before.items() if changes[at]}
    if not new or not (gone or kept):
        return said

    def read(file: File) -> bytes:
        for path in new:
            if new[path] == file:
                _, source = look_into(copy.top, path)
                if source and source.id == file.content:
                    return source.read()
        return server.content(file.content)

    looked = renames.found(new, gone, kept, read)
    if looked.is_cut:
        words = f"{len(new):,} new files are too many to tell which were renamed with changes"
        print(f"jarrah: {words}: `jarrah mv --after` says it", file=sys.stderr)
    return looked.sources | said


def copies_of(copy: WorkingCopy, server: Server, found: Scan) -> dict[str, CopySource]:
    """The same as a changeset has it."""
    return {path: CopySource(0, at) for path, at in sources(copy, server, found).items()}


def place_there(
    server: Server, path: str, before: Tree, there: Tree, target: str
) -> str | None:
    """Where a file that one tree has is in another, of a changeset, which has none at its path.

    What the changesets that took it away tell comes first, then what files look like.
    """
    at = path
    for _ in range(MOST_MOVES):
        moved = moved_to(server, at, target)
        if moved is None:
            break
        if file_at(there, moved):
            return moved
        at = moved
    was = file_at(before, path)
    if at != path or was is None:
        return None
    changed = differences(before, there)
    new = {one: after for one, old, after in changed if after and not old}
    looked = renames.found(new, {path: was}, {}, lambda file: server.content(file.content))
    return next(iter(looked.sources), None)


def moved_to(server: Server, path: str, target: str) -> str | None:
    """The path that the changeset which took a file away copied it to, or None."""
    try:
        log = path_log_of(server, target, path)
    except Refused as refusal:
        if refusal.code not in ("no-path", "not-a-file"):
            raise
        return None
    if not log:
        return None
    changeset = server.changeset(log[0])
    found = (new for new, source in changeset.copies.items() if source.path == path)
    return next(found, None)


# Moves and copies that a person says


def say(
    copy: WorkingCopy, olds: list[Path], new: Path, *, copies: bool, after: bool
) -> Mapping[str, str]:
    """Moves or copies files and folders in the folder, and keeps that; gives paths with where they
    were. What was moved already is only kept where `after` is said."""
    into = new.is_dir() and not after
    if len(olds) > 1 and not into:
        raise Trouble(f"{new} is no folder")
    pairs: dict[str, str] = {}
    for old in olds:
        pairs |= pairs_of(copy, old, new / old.name if into else new, after)
    for path, at in pairs.items():
        need_free(copy, path, at, after)
    for path, at in pairs.items():
        if not after:
            carry(copy.top / at, copy.top / path, copies)
        note(copy, path, at, copies)
    copy.save()
    return pairs


def pairs_of(copy: WorkingCopy, old: Path, new: Path, after: bool) -> dict[str, str]:
    """The paths that files get, each with the one that it has."""
    at, path = copy.path_of(old), copy.path_of(new)
    known = [one for one in (*copy.state.files, *scan(copy).changes) if is_in(one, [at])]
    here = [one for one in dict.fromkeys(known) if after or os.path.lexists(copy.top / one)]
    if not at or not path or not here:
        raise Trouble(f"there is no {old} in the working copy")
    if is_in(path, [at]) and path != at and at not in here:
        raise Trouble(f"{new} lies in {old}")
    return {path + one.removeprefix(at): one for one in here}


def need_free(copy: WorkingCopy, path: str, at: str, after: bool) -> None:
    """Refuses to write over a file, and to keep what isn't so."""
    if after and not os.path.lexists(copy.top / path):
        raise Trouble(f"there is no {path}, which {at} was moved or copied to")
    if not after and os.path.lexists(copy.top / path):
        raise Trouble(f"{path} is there already; `--after` keeps that {at} was moved there")


def carry(old: Path, new: Path, copies: bool) -> None:
    """Moves or copies one file."""
    try:
        new.parent.mkdir(parents=True, exist_ok=True)
        if copies:
            shutil.copy2(old, new, follow_symlinks=False)
            return
        os.rename(old, new)
        while not any(old.parent.iterdir()):
            old = old.parent
            old.rmdir()
    except OSError as fault:
        raise Trouble(f"{fault.filename or new}: {fault.strerror}") from None


def note(copy: WorkingCopy, path: str, at: str, copies: bool) -> None:
    """Keeps where a file was, as the base has it."""
    known = copy.state.copied
    origin = known.get(at) or (at if at in copy.state.files else None)
    if not copies:
        known.pop(at, None)
    if origin and origin != path:
        known[path] = origin
