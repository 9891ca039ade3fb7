"""Drafts of a working copy: made from what is changed, amended, and landed."""

from __future__ import annotations

from collections.abc import Iterable, Sequence
from dataclasses import dataclass, field

from ..drafting import landing
from ..formats.changesets import Changeset, CopySource, File
from ..formats.paths import path_key
from ..history.reads import file_at
from ..net.contents import Source, store_all
from ..net.server import Landed, Server, Trouble
from ..refusals import Fault, Refused
from ..terminal.output import counted, title
from ..trees.tree import tree_of
from .moves import Moved, move
from .renamed import copies_of
from .scan import Scan, is_in, look_into, scan, stamp_of
from .state import Kept, WorkingCopy


@dataclass(frozen=True)
class Words:
    """Who makes a changeset, when and why."""

    author: str
    seconds: int
    offset: int
    message: str


@dataclass
class Taken:
    """Changes of a folder, and the contents that they set."""

    changes: dict[str, File | None] = field(default_factory=dict)
    contents: dict[str, Source] = field(default_factory=dict)
    copies: dict[str, CopySource] = field(default_factory=dict)


def need_settled(
    copy: WorkingCopy, under: list[str] | None = None, *, edits: bool = False
) -> None:
    """Refuses a rebase that isn't over, unless it stopped for `edits`, and conflicts."""
    if copy.state.rebase and not (edits and not copy.state.rebase.is_conflict):
        raise Trouble("a rebase isn't over: `jarrah rebase --continue`, or `--abort`")
    need_no_conflict(copy, under)


def need_no_drafts(copy: WorkingCopy) -> None:
    """Refuses drafts that haven't landed."""
    if copy.state.drafts:
        count = counted(len(copy.state.drafts), "draft")
        raise Trouble(f"there are {count}: `jarrah land` or `jarrah rebase` comes first")


def need_no_conflict(copy: WorkingCopy, under: list[str] | None = None) -> None:
    """Refuses conflicts that nobody has settled."""
    left = [path for path in copy.state.conflicts if is_in(path, under)]
    if left:
        raise Trouble(f"{left[0]} is a conflict: settle it, and say `jarrah resolve {left[0]}`")


def take(copy: WorkingCopy, server: Server, under: list[str] | None) -> Taken:
    """The changes of the folder, or at and under some paths, each of which has to have one, and
    what new files among them were moved or copied from."""
    found = scan(copy, under)
    for path, why in found.faults.items():
        raise Trouble(f"{path} can't be committed: {why}")
    for top in under or []:
        if not any(is_in(path, [top]) for path in found.changes):
            raise Trouble(f"{top or 'the folder'} isn't changed")
    result = taken(copy, found)
    result.copies = copies_of(copy, server, found)
    return result


def taken(copy: WorkingCopy, found: Scan) -> Taken:
    """The changes that a scan found, with the bytes as they are now."""
    result = Taken()
    for path in found.changes:
        file, source = look_into(copy.top, path)
        result.changes[path] = file
        if source:
            result.contents[source.id] = source
    return result


def upload(server: Server, changeset: Changeset, contents: dict[str, Source]) -> None:
    """Uploads the contents of a changeset, and then the changeset."""
    upload_contents(server, changeset, contents)
    server.put_changeset(changeset)


def upload_contents(server: Server, changeset: Changeset, contents: dict[str, Source]) -> None:
    """Uploads the contents of a changeset, once it has a spelling."""
    _ = changeset.encoded
    store_all(server, contents.values())


def made(
    parent: str | None,
    words: Words,
    changes: dict[str, File | None],
    copies: dict[str, CopySource] = {},
) -> Changeset:
    """A changeset with its changes by rising paths."""
    ordered = {path: changes[path] for path in sorted(changes, key=path_key)}
    parents = (parent,) if parent else ()
    who = (words.author, words.seconds, words.offset, words.message)
    return Changeset(parents, *who, ordered, dict(copies))


def prepare(copy: WorkingCopy, server: Server, under: list[str] | None) -> Taken:
    """What a commit would have; trouble where there is nothing."""
    need_settled(copy, under, edits=True)
    found = take(copy, server, under)
    if not found.changes:
        raise Trouble("nothing is changed")
    return found


def clashing(copy: WorkingCopy, server: Server, changes: Iterable[str]) -> list[str]:
    """The paths that are changed here, or by a draft, and on the bookmark since."""
    name, root = copy.state.bookmark, copy.state.root
    head = server.head(name) if name else None
    if head is None or head == root:
        return []
    paths = set(changes).union(*(server.changeset(id).changes for id in copy.state.drafts))
    before, there = tree_of(server, root), tree_of(server, head)
    ordered = sorted(paths, key=path_key)
    return [path for path in ordered if file_at(before, path) != file_at(there, path)]


def commit(copy: WorkingCopy, server: Server, words: Words, found: Taken) -> Changeset:
    """Makes a draft of what is changed, onto the base."""
    changeset = made(copy.state.base, words, found.changes, found.copies)
    upload(server, changeset, found.contents)
    keep_draft(copy, changeset)
    copy.save()
    return changeset


def keep_draft(copy: WorkingCopy, changeset: Changeset) -> None:
    """Has a new draft be the last."""
    copy.state.drafts.append(changeset.id)
    know(copy, changeset)
    keep_all(copy, changeset.changes)


def commit_and_land(
    copy: WorkingCopy, server: Server, words: Words, found: Taken, allows_empty: bool
) -> tuple[Landed, Moved]:
    """Makes a draft of what is changed, and lands it with those below by one request.

    Where that goes wrong the draft is kept as by a commit, if it is stored.
    """
    changeset = made(copy.state.base, words, found.changes, found.copies)
    upload_contents(server, changeset, found.contents)
    keep_draft(copy, changeset)
    try:
        return land(copy, server, allows_empty, [changeset])
    except Fault as fault:
        if not landing.refused_one(fault, [changeset]) and is_stored(server, changeset):
            copy.save()
        raise


def is_stored(server: Server, changeset: Changeset) -> bool:
    """Whether a changeset is stored, if need be now."""
    try:
        server.put_changeset(changeset)
    except Fault:
        return False
    return True


def know(copy: WorkingCopy, changeset: Changeset) -> None:
    """Keeps a draft's title, so that it can be told without the server."""
    copy.state.titles[changeset.id] = title(changeset.message)


def keep_all(copy: WorkingCopy, changes: dict[str, File | None]) -> None:
    """Keeps the files that the base has now."""
    for path, file in changes.items():
        if file is None:
            copy.state.files.pop(path, None)
        else:
            copy.state.files[path] = Kept(file, stamp_of(copy.top, path))
        copy.state.copied.pop(path, None)


def land(
    copy: WorkingCopy, server: Server, allows_empty: bool = False, new: Sequence[Changeset] = ()
) -> tuple[Landed, Moved]:
    """Lands the drafts on the bookmark, the last of which may be new to the server, and brings the
    folder to the new head."""
    need_settled(copy)
    draft, name = copy.state.base, need_bookmark(copy)
    if not copy.state.drafts:
        raise Trouble(f"there are no drafts to land on {name}")
    try:
        on = copy.state.root
        landed = landing.land(server, name, draft, allows_empty=allows_empty, on=on, new=new)
    except Refused as refusal:
        if refusal.code == "already-in":
            copy.state.root, copy.state.drafts = draft, []
            copy.save()
        if refusal.code == "clash":
            refusal.advice = "`jarrah rebase` puts it onto the head"
        raise
    moved = move(copy, server, landed.head) if landed.old != copy.state.root else Moved()
    copy.state.root, copy.state.drafts = landed.head, []
    copy.state.conflicts += moved.conflicts
    copy.save()
    return landed, moved


def need_bookmark(copy: WorkingCopy) -> str:
    """The bookmark that the working copy follows."""
    if copy.state.bookmark is None:
        raise Trouble("this working copy follows no bookmark: `jarrah update BOOKMARK` names one")
    return copy.state.bookmark


def need_draft(copy: WorkingCopy) -> None:
    """Refuses a base that is no draft."""
    if not copy.state.drafts:
        raise Trouble("the base has landed, and only a draft can be amended")


def amend(
    copy: WorkingCopy, server: Server, words: dict[str, object], under: list[str] | None
) -> Changeset:
    """Puts what is changed into the last draft, and the new words over its own."""
    need_settled(copy, under, edits=True)
    need_draft(copy)
    found = take(copy, server, under)
    old = server.changeset(copy.state.base)
    new = amended(server, old, found.changes, found.copies, **words)
    if new == old:
        raise Trouble("nothing is changed")
    upload(server, new, found.contents)
    copy.state.drafts[-1] = new.id
    know(copy, new)
    keep_all(copy, found.changes)
    copy.save()
    return new


def amended(
    server: Server,
    old: Changeset,
    changes: dict[str, File | None],
    copies: dict[str, CopySource],
    **words: object,
) -> Changeset:
    """A changeset with further changes, made on it; what its parent has so already is left out."""
    before = tree_of(server, old.parent) if old.parent else None
    whole = old.changes | changes
    was = {path: file_at(before, path) if before else None for path in changes}
    plain = {path for path in changes if was[path] == changes[path]}
    kept = {path: whole[path] for path in sorted(whole.keys() - plain, key=path_key)}
    sources = dict(old.copies)
    for path, source in copies.items():
        earlier = old.copies.get(source.path)
        if earlier or (before and file_at(before, source.path)):
            sources[path] = earlier or source
    return old.changing(kept, sources, **words)
