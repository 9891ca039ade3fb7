"""Putting the drafts of a working copy onto the bookmark's head, merging what both changed."""

from __future__ import annotations

from dataclasses import dataclass, field, replace

from ..formats.changesets import Changeset
from ..formats.paths import path_key
from ..history.repository import need_head
from ..net.contents import fetched
from ..net.server import Server, Trouble
from ..terminal.output import title
from ..text.diff import has_marks
from . import disk, sides
from .moves import move
from .onto import Onto, hold, put_draft_onto
from .scan import look_into, scan
from .stack import amended, keep_all, need_bookmark, need_no_conflict, need_settled, take, upload
from .state import EDIT, FOLD, PICK, Rebase, WorkingCopy


@dataclass
class Rebased:
    """What a rebase did: the new drafts, those that the head had already, and where it stopped."""

    head: str
    drafts: list[str]
    dropped: list[str]
    stopped: str | None = None
    conflicts: dict[str, str] = field(default_factory=dict)
    titles: dict[str, str] = field(default_factory=dict)


def rebase(copy: WorkingCopy, server: Server) -> Rebased:
    """Puts the drafts onto the head."""
    need_settled(copy)
    head = need_head(server, need_bookmark(copy))
    if not copy.state.drafts:
        raise Trouble("there are no drafts to rebase: `jarrah update` takes the head")
    need_clean(copy)
    return go_on(copy, server, Rebased(head, [], []), list(copy.state.drafts))


def need_clean(copy: WorkingCopy) -> None:
    """Refuses a folder with changes that are in no draft."""
    for path in scan(copy).changes:
        raise Trouble(f"{path} is changed: commit, amend, shelve or revert it first")


def go_on(
    copy: WorkingCopy,
    server: Server,
    done: Rebased,
    left: list[str],
    messages: dict[str, str] | None = None,
) -> Rebased:
    """Puts further drafts onto what is done; the folder is at the old base still."""
    root, drafts = copy.state.root, list(copy.state.drafts)
    begun = copy.state.rebase or Rebase("", [], root, drafts, messages=messages or {})
    for number, step in enumerate(left):
        word, id = step_of(step)
        rest = replace(begun, draft=id, left=left[number + 1 :], word=word, is_conflict=True)
        draft = server.changeset(id)
        onto = placed(server, done, draft, word, begun.messages.get(id))
        if onto.conflicts:
            stop(copy, server, done, onto)
            copy.state.rebase = rest
            copy.save()
            return replace(done, stopped=id, conflicts=onto.conflicts)
        if word == EDIT and done.drafts:
            settle(copy, server, done)
            copy.state.rebase = replace(rest, is_conflict=False)
            copy.save()
            return replace(done, stopped=id)
    settle(copy, server, done)
    copy.save()
    return done


def step_of(step: str) -> tuple[str, str]:
    """A word and an id; an id alone is picked."""
    word, _, id = step.rpartition(" ")
    return word or PICK, id


def placed(
    server: Server, done: Rebased, draft: Changeset, word: str, message: str | None = None
) -> Onto:
    """Puts a draft onto what is done, unless there are conflicts. What stands there already is left
    as it is, and what changes nothing there is dropped. Its message may be another."""
    parent = done.drafts[-1] if done.drafts else done.head
    said = draft.message if message is None else message
    if draft.parent == parent and word != FOLD and said == draft.message:
        done.drafts.append(draft.id)
        done.titles[draft.id] = title(draft.message)
        return Onto()
    onto = put_draft_onto(server, draft, parent)
    if onto.conflicts:
        return onto
    if draft.changes and not onto.changes:
        done.dropped.append(draft.id)
    elif word == FOLD and done.drafts:
        below = server.changeset(done.drafts.pop())
        take_in(done, hold(server, folded(server, below, draft, onto), onto))
    else:
        new = draft.changing(onto.changes, onto.copies, parents=(parent,), message=said)
        take_in(done, hold(server, new, onto))
    return onto


def take_in(done: Rebased, made: Changeset) -> None:
    """Has a changeset be the last that is done."""
    done.drafts.append(made.id)
    done.titles[made.id] = title(made.message)


def folded(server: Server, below: Changeset, draft: Changeset, onto: Onto) -> Changeset:
    """A draft with what another does that stood on it, and the messages of both."""
    message = f"{below.message.rstrip()}\n\n{draft.message.strip()}".strip()
    return amended(server, below, onto.changes, onto.copies, message=message)


def settle(copy: WorkingCopy, server: Server, done: Rebased) -> None:
    """Has the new drafts stored, by one request, and brings the folder to what is done."""
    server.put_unsent()
    moved = move(copy, server, done.drafts[-1] if done.drafts else done.head)
    state = copy.state
    state.root, state.drafts, state.rebase = done.head, list(done.drafts), None
    state.titles |= done.titles
    state.conflicts += moved.conflicts


def stop(copy: WorkingCopy, server: Server, done: Rebased, onto: Onto) -> None:
    """Brings the folder to the new parent, with the draft's changes and conflicts in it."""
    settle(copy, server, done)
    for path, file in onto.changes.items():
        if file is None:
            disk.remove(copy.top, path)
    for path, file in onto.changes.items():
        if file and not disk.blocked_by(copy.top, path):
            data = onto.contents.get(file.content)
            disk.put(copy.top, path, file, fetched(server, file) if data is None else data)
    copy.state.conflicts = sorted(onto.conflicts, key=path_key)
    for path in onto.conflicts:
        sides.hold(copy, path, onto.ours.get(path))
    copy.state.copied |= {path: source.path for path, source in onto.copies.items()}


def proceed(copy: WorkingCopy, server: Server) -> Rebased:
    """Makes a draft of the folder in place of the one that stopped, and goes on."""
    rebase = need_rebase(copy)
    done = Rebased(copy.state.root, list(copy.state.drafts), [])
    if rebase.is_conflict:
        settled_draft(copy, server, rebase, done)
    else:
        need_clean(copy)
    return go_on(copy, server, done, rebase.left)


def settled_draft(copy: WorkingCopy, server: Server, rebase: Rebase, done: Rebased) -> None:
    """Makes the draft that stopped of what the folder has now."""
    for path in copy.state.conflicts:
        _, source = look_into(copy.top, path)
        if source and not source.is_large and has_marks(source.read()):
            raise Trouble(f"{path} has the marks of its conflict still")
    need_no_conflict(copy)
    found = take(copy, server, None)
    draft = server.changeset(rebase.draft)
    if not found.changes:
        done.dropped.append(draft.id)
        return
    onto = Onto(found.changes, copies=found.copies)
    if rebase.word == FOLD and done.drafts:
        new = folded(server, server.changeset(done.drafts.pop()), draft, onto)
    else:
        said = rebase.messages.get(draft.id, draft.message)
        parents = (copy.state.base,)
        new = draft.changing(found.changes, found.copies, parents=parents, message=said)
    upload(server, new, found.contents)
    take_in(done, new)
    keep_all(copy, found.changes)
    copy.state.drafts = list(done.drafts)
    copy.save()


def abort(copy: WorkingCopy, server: Server) -> None:
    """Takes everything back to where the rebase began; files that nothing knows stay."""
    rebase = need_rebase(copy)
    copy.state.conflicts = []
    sides.forget(copy)
    drafted = server.changeset(rebase.draft).changes
    found = [path for path in scan(copy).changes if path in copy.state.files or path in drafted]
    restore(copy, server, found)
    move(copy, server, rebase.drafts[-1] if rebase.drafts else rebase.root)
    copy.state.root, copy.state.drafts, copy.state.rebase = rebase.root, rebase.drafts, None
    copy.save()


def restore(copy: WorkingCopy, server: Server, paths: list[str]) -> None:
    """Puts the base's files at some paths back, and takes away what the base doesn't have."""
    for path in paths:
        disk.remove(copy.top, path)
    for path in paths:
        kept = copy.state.files.get(path)
        if kept:
            stamp = disk.put(copy.top, path, kept.file, fetched(server, kept.file))
            copy.state.files[path] = replace(kept, stamp=stamp)


def need_rebase(copy: WorkingCopy) -> Rebase:
    """The rebase that isn't over."""
    if copy.state.rebase is None:
        raise Trouble("there is no rebase to go on with")
    return copy.state.rebase
