"""Subcommands of a working copy that make drafts of what is changed, and land them."""

from __future__ import annotations

import sys
from collections.abc import Callable, Iterable
from dataclasses import dataclass
from pathlib import Path
from typing import Any

from ..drafting import drafts
from ..drafting.landing import need_author, need_message
from ..drafting.said import SaidChanges, SaidMessage, SaidWords
from ..formats.changesets import Changeset
from ..net.server import Landed, Server, Trouble
from ..refusals import Fault
from ..terminal.editor import edited
from ..terminal.output import Output, changeset_document, counted, some_of, source_words, told_id
from ..working import stack, stacks
from ..working.moves import Moved
from ..working.stack import Taken, Words
from ..working.state import FOLDER, WorkingCopy
from .given import Command, CopyOptions, PathsOptions
from .options import Add, add_words
from .working_copy import (
    conflict_status,
    moved_document,
    moved_lines,
    named,
    need_copy,
    rebased_lines,
)

MESSAGE = "message"
"""The file of a working copy that a message is written in."""
ABOVE = ("Say above what is done; an empty message ends it.", "Lines as these aren't taken.", "")


@dataclass(frozen=True)
class CommitOptions(SaidChanges, CopyOptions):
    """What `commit` is told."""

    words: list[str]
    base: str | None
    land: bool
    draft: bool


@dataclass(frozen=True)
class AmendOptions(SaidWords, PathsOptions):
    """What `amend` is told."""

    edit: bool
    draft: str | None


def add(add: Add) -> None:
    """Adds the subcommands."""
    one = add("amend", Command(AmendOptions, amend), "put what is changed into the last draft")
    one.add_argument("paths", nargs="*", metavar="PATH", help="files or folders; default: all")
    one.add_argument("-e", "--edit", action="store_true", help="open the message in an editor")
    one.add_argument(
        "--draft",
        metavar="DRAFT",
        help="into this draft, and those above onto it; default: the last",
    )
    add_words(one)


def words_of(options: SaidWords, server: Server, message: str) -> Words:
    """Who makes a changeset, when and why."""
    seconds, offset = options.date or drafts.now()
    return Words(drafts.author_of(options, server), seconds, offset, message)


def message_of(options: SaidMessage, told: Callable[[], Iterable[str]], place: Path | None) -> str:
    """The message that is said, or written in an editor that tells what is committed."""
    if options.message is not None or options.allows_empty:
        return need_message(options.message or "", options.allows_empty)
    try:
        message = edited("", (*ABOVE, *told()), place)
    except Fault as fault:
        fault.advice = "`-m` says the message"
        raise
    if not message:
        raise Trouble("the message is empty: nothing is done")
    return message


def commit_folder(options: CommitOptions, server: Server, out: Output) -> None:
    """Makes a draft of what is changed, and lands it where that is said."""
    copy = need_copy(options)
    with copy.alone():
        found = stack.prepare(copy, server, named(copy, options.words))
        tell_clash(copy, server, found, options.land)
        place = copy.top / FOLDER / MESSAGE
        words = words_of(options, server, message_of(options, lambda: listed(copy, found), place))
        if options.land:
            done = stack.commit_and_land(copy, server, words, found, options.allows_empty)
            place.unlink(missing_ok=True)
            tell_landed(copy, out, *done)
            return
        changeset = stack.commit(copy, server, words, found)
        place.unlink(missing_ok=True)
    count = counted(len(copy.state.drafts), "draft")
    line = f"made the draft {told_id(changeset.id)}: `jarrah land` lands {count}"
    out.tell(changeset_document(changeset), line)


def listed(copy: WorkingCopy, found: Taken) -> Iterable[str]:
    """What a commit has, for whoever writes its message."""
    on = f" of {copy.state.bookmark}" if copy.state.bookmark else ""
    yield f"on {copy.state.base}{on}"
    for path, file in found.changes.items():
        letter = ("M" if path in copy.state.files else "A") if file else "D"
        source = found.copies.get(path)
        yield f"{letter} {path}" + (f"  ({source_words(source)})" if source else "")


def tell_clash(copy: WorkingCopy, server: Server, found: Taken, lands: bool) -> None:
    """Tells what is changed on the bookmark too; where that was to land, nothing is committed."""
    clashing = stack.clashing(copy, server, found.changes)
    if not clashing:
        return
    what = f"{some_of(clashing)} was changed on {copy.state.bookmark} since"
    if lands:
        how = "as a draft, `jarrah rebase`" if copy.state.drafts else "`jarrah update`"
        raise Trouble(f"nothing is committed: {what}, so it would clash; {how} merges it")
    print(f"jarrah: {what}, so it clashes until `jarrah rebase` merges it", file=sys.stderr)


def land_folder(copy: WorkingCopy, server: Server, out: Output, allows_empty: bool) -> None:
    """Lands the drafts of a working copy, and tells."""
    tell_landed(copy, out, *stack.land(copy, server, allows_empty))


def tell_landed(copy: WorkingCopy, out: Output, landed: Landed, moved: Moved) -> None:
    """Tells what landed, and what that brought into the folder."""
    document, line = told_landing(copy, landed)
    out.tell(document | moved_document(moved), [line, *moved_lines(moved)])


def told_landing(copy: WorkingCopy, landed: Landed) -> tuple[dict[str, Any], str]:
    """A landing for scripts and for people."""
    name = copy.state.bookmark
    document = {"bookmark": name, "head": landed.head, "ids": landed.ids, "old": landed.old}
    count = counted(len(landed.ids), "changeset")
    return document, f"landed {count}: {name} is at {told_id(landed.head)}"


def land_stack(
    copy: WorkingCopy, server: Server, out: Output, draft: str, allows_empty: bool
) -> int:
    """Lands the drafts of a working copy up to one."""
    with copy.alone():
        stacks.need_drafts(copy)
        id = stacks.draft_named(copy, draft)
        landed, done = stacks.land_up_to(copy, server, id, allows_empty)
    document, line = told_landing(copy, landed)
    rest = rebased_lines(done) if done.drafts or done.conflicts else ()
    out.tell(document | {"drafts": done.drafts, "conflicts": done.conflicts}, [line, *rest])
    return conflict_status(done.conflicts)


def amend(options: AmendOptions, server: Server, out: Output) -> None:
    """Puts what is changed, and new words, into the last draft."""
    copy = need_copy(options)
    with copy.alone():
        stack.need_draft(copy)
        last = copy.state.base
        id = stacks.draft_named(copy, options.draft) if options.draft else last
        words, under = amended_words(options, server, id), named(copy, options.paths)
        changeset: Changeset
        if id == last:
            changeset = stack.amend(copy, server, words, under)
        else:
            changeset = stacks.amend_below(copy, server, id, words, under)
    out.tell(changeset_document(changeset), f"the draft is {told_id(changeset.id)} now")


def amended_words(options: AmendOptions, server: Server, id: str) -> dict[str, Any]:
    """The words that are said anew of a draft."""
    words: dict[str, Any] = {}
    if options.edit:
        old = server.changeset(id)
        words["message"] = need_message(edited(old.message, [f"the draft {old.id}"]), False)
    if options.message is not None:
        words["message"] = need_message(options.message, options.allows_empty)
    if options.author is not None:
        words["author"] = need_author(options.author)
    if options.date:
        words["seconds"], words["offset"] = options.date
    return words
