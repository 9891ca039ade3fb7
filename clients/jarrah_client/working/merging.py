"""One file that was changed on two sides: what comes of it, and whether it is a conflict."""

from __future__ import annotations

from collections.abc import Callable
from dataclasses import dataclass

from ..formats.changesets import MOST_CONTENT_BYTES, File, Kind
from ..formats.fields import digest
from ..text.diff import merged

Read = Callable[[File], bytes]
HERE, THERE = "here", "there"


@dataclass(frozen=True)
class Merge:
    """What comes of a file, None for nothing; new bytes where there are any; and the conflict."""

    file: File | None
    data: bytes | None = None
    conflict: str | None = None


def merge_file(
    read: Read, before: File | None, ours: File | None, theirs: File | None
) -> Merge:
    """Merges a file that both sides may have changed; in a conflict ours stays, or has marks."""
    if ours == theirs or theirs == before:
        return Merge(ours)
    if ours == before:
        return Merge(theirs)
    if ours is None:
        return Merge(None, conflict=f"deleted {HERE} and changed {THERE}")
    if theirs is None:
        return Merge(ours, conflict=f"changed {HERE} and deleted {THERE}")
    if Kind.SYMLINK in (ours.kind, theirs.kind):
        return Merge(ours, conflict=f"a link or another link {HERE} or {THERE}")
    kind = theirs.kind if before and ours.kind == before.kind else ours.kind
    return merge_bytes(read, before, ours, theirs, kind)


def merge_bytes(
    read: Read, before: File | None, ours: File, theirs: File, kind: Kind
) -> Merge:
    """The same for two files with bytes."""
    old = before.content if before else None
    if theirs.content in (old, ours.content):
        return Merge(File(ours.content, ours.size, kind))
    if ours.content == old:
        return Merge(File(theirs.content, theirs.size, kind))
    if max(one.size for one in (before, ours, theirs) if one) > MOST_CONTENT_BYTES:
        return Merge(ours, conflict=f"changed {HERE} and {THERE}, and too large to be merged")
    base = read(before) if before and before.kind is not Kind.SYMLINK else b""
    data, clean = merged(base, read(ours), read(theirs), (HERE, THERE))
    if len(data) > MOST_CONTENT_BYTES:
        return Merge(ours, conflict="the merge would be too large")
    file = File(digest(data), len(data), kind)
    return Merge(file, data, None if clean else f"changed {HERE} and {THERE}")


def moved_twice(at: str, other: str, side: str = THERE) -> str:
    """Why a path is a conflict whose file has another name on the other side."""
    return f"it was {at}, which was moved to {other} {side}"
