"""Subcommands that store something small."""

from __future__ import annotations

from collections.abc import Iterable
from dataclasses import dataclass
from typing import Any

from ..drafting import drafts, landing
from ..drafting.drafts import need_name
from ..drafting.said import SaidChanges
from ..formats.changesets import Changeset
from ..history.dates import Dates
from ..history.log_cache import CachedLog
from ..history.reads import refuse_stale
from ..history.repository import need_head
from ..net.server import Landed, Server
from ..refusals import WrongWords
from ..terminal.output import Output, changeset_document, counted, day, told_id
from .committing import CommitOptions, commit_folder, land_folder, land_stack, message_of
from .given import Command, CopyOptions
from .options import REVISION, Add, add_allow, add_changes, id_of
from .working_copy import need_copy

IN_A_COPY = "left out in a working copy"


@dataclass(frozen=True)
class InitOptions(CopyOptions):
    """What `init` is told."""

    bookmark: str


@dataclass(frozen=True)
class DraftOptions(SaidChanges, CopyOptions):
    """What `draft` is told."""

    parent: str


@dataclass(frozen=True)
class LandOptions(CopyOptions):
    """What `land` is told."""

    bookmark: str | None
    id: str | None
    stack: str | None
    allows_empty: bool


@dataclass(frozen=True)
class BookmarkOptions(CopyOptions):
    """What `bookmark` is told."""

    name: str | None
    to: str | None
    delete: bool
    old: str | None


def add(add: Add) -> None:
    """Adds the subcommands."""
    begins = Command(InitOptions, init)
    one = add("init", begins, "make the empty root changeset and a bookmark at it")
    one.add_argument("bookmark")
    how = Command(DraftOptions, draft)
    one = add("draft", how, "upload a changeset, and move no bookmark")
    one.add_argument("--parent", required=True, help=f"{REVISION}, or `none` for a root")
    add_changes(one)
    lands = Command(LandOptions, land)
    one = add("land", lands, "put a draft and what it stands on onto a bookmark's head")
    one.add_argument("bookmark", nargs="?", help=IN_A_COPY)
    one.add_argument("id", nargs="?", help=f"{REVISION}; {IN_A_COPY}")
    one.add_argument(
        "--stack", metavar="DRAFT", help="in a working copy: the drafts up to this one alone"
    )
    add_allow(one)
    add_commit(add)
    add_bookmark(add)


def add_commit(add: Add) -> None:
    """Adds the subcommand that commits."""
    one = add(
        "commit",
        Command(CommitOptions, commit),
        "make a draft of what is changed in a working copy; or what is named, landed on a bookmark",
    )
    one.add_argument(
        "words",
        nargs="*",
        metavar="BOOKMARK or PATH",
        help="the bookmark; in a working copy, without --set and the like, files or folders",
    )
    one.add_argument(
        "--base",
        metavar="ID",
        help=f"what the changes were made on: {REVISION}; default: the head,"
        " where no path has changed since it was read",
    )
    way = one.add_mutually_exclusive_group()
    way.add_argument("--land", action="store_true", help="in a working copy: land the drafts too")
    way.add_argument(
        "--draft", action="store_true", help="in a working copy: don't land it, as without this"
    )
    add_changes(one)


def add_bookmark(add: Add) -> None:
    """Adds the subcommand of bookmarks."""
    how = Command(BookmarkOptions, bookmark)
    one = add("bookmark", how, "list, read, make, move or delete bookmarks")
    one.add_argument("name", nargs="?", help="without a name all are listed")
    what = one.add_mutually_exclusive_group()
    what.add_argument("--to", metavar="ID", help="make or move it there")
    what.add_argument("--delete", action="store_true", help="delete it")
    one.add_argument(
        "--from",
        dest="old",
        metavar="ID",
        help="only if it is there, or is `none`; else from where it is",
    )


def init(options: InitOptions, server: Server, out: Output) -> None:
    """Makes the empty root changeset and a bookmark at it."""
    head = drafts.initialize(server, options.bookmark)
    line = f"{options.bookmark} is at {told_id(head)}"
    out.tell({"bookmark": options.bookmark, "head": head}, line)


def draft(options: DraftOptions, server: Server, out: Output) -> None:
    """Uploads a changeset with its contents, and moves no bookmark."""
    parent = parent_of(options, server, options.parent)
    message = options.message or ""
    changeset = drafts.upload(server, options, parent, drafts.changes_of(options), message)
    tell_deleted(options, changeset, out)
    out.tell(changeset_document(changeset), changeset.id)


def parent_of(options: CopyOptions, server: Server, name: str) -> str | None:
    """The parent that a person names; `none` for a root."""
    return None if name == "none" else id_of(options, server, name)


def tell_deleted(options: SaidChanges, changeset: Changeset, out: Output) -> None:
    """Lists what `--delete` of directories deletes."""
    if options.recursive and not out.as_json:
        out.tell({}, [f"delete {path}" for path, file in changeset.changes.items() if not file])


def land(options: LandOptions, server: Server, out: Output) -> int:
    """Puts a draft and what it stands on onto a bookmark's head."""
    if options.bookmark is None and options.stack:
        copy, stack = need_copy(options), options.stack
        return land_stack(copy, server, out, stack, options.allows_empty)
    if options.bookmark is None:
        copy = need_copy(options)
        with copy.alone():
            land_folder(copy, server, out, options.allows_empty)
        return 0
    if options.stack:
        raise WrongWords("`--stack` is for a working copy's drafts, and lands on its bookmark")
    need_name(options.bookmark)
    if options.id is None:
        raise WrongWords("say which draft is to land: `jarrah land BOOKMARK ID`")
    id = id_of(options, server, options.id)
    landed = landing.land(server, options.bookmark, id, allows_empty=options.allows_empty)
    tell_landed(landed, options.bookmark, out)
    return 0


def commit(options: CommitOptions, server: Server, out: Output) -> None:
    """Makes a draft of a working copy's changes, or lands a changeset of named ones."""
    is_named = options.set or options.exec or options.symlink or options.delete or options.base
    if options.copy and not is_named:
        commit_folder(options, server, out)
        return
    if options.draft:
        raise WrongWords("`--draft` is for working copies; `jarrah draft --parent ID` makes others")
    if len(options.words) != 1:
        raise WrongWords("name one bookmark, or work in a working copy")
    commit_named(options, options.words[0], server, out)


def commit_named(options: CommitOptions, name: str, server: Server, out: Output) -> None:
    """Uploads a changeset onto its base, or a bookmark's head, and lands it."""
    base = drafts.head_for_commit(server, name)
    written = drafts.changes_of(options)
    if options.base:
        base = id_of(options, server, options.base)
    else:
        refuse_stale(server, name, base, written.changes)
    told = lambda: [f"to land on {name}", *written.changes]  # noqa: E731
    message = message_of(options, told, None)
    changeset = drafts.prepared(server, options, base, written, message)
    tell_deleted(options, changeset, out)
    allows = options.allows_empty
    on = None if options.base else base
    landed = landing.land(
        server, name, changeset.id, allows_empty=allows, on=on, new=[changeset]
    )
    gone = [path for path, file in changeset.changes.items() if not file]
    tell_landed(landed, name, out, {"deleted": gone} if options.recursive else {})


def tell_landed(
    landed: Landed,
    name: str,
    out: Output,
    further: dict[str, Any] = {},
    lines: Iterable[str] = (),
) -> None:
    """Tells the new head of a landing, the changesets that led there, and what more there is."""
    first = [f"landed {counted(len(landed.ids), 'changeset')}: {name} is at {told_id(landed.head)}"]
    if len(landed.ids) > 1:
        first += [f"    {told_id(id)}" for id in landed.ids]
    document = {"bookmark": name, "head": landed.head, "ids": landed.ids, "old": landed.old}
    out.tell(document | further, [*first, *lines])


def bookmark(options: BookmarkOptions, server: Server, out: Output) -> None:
    """Reads, makes, moves or deletes a bookmark, or lists all of them."""
    if options.name is None:
        list_bookmarks(server, out)
        return
    need_name(options.name)
    head: str | None
    if options.to is None and not options.delete:
        head = need_head(server, options.name)
    else:
        head = move_bookmark(options, options.name, server)
    line = f"{options.name} is at {told_id(head)}" if head else f"{options.name} is deleted"
    out.tell({"bookmark": options.name, "head": head}, line)


def list_bookmarks(server: Server, out: Output) -> None:
    """Lists all bookmarks with the days of their heads."""
    log, dates = CachedLog(server), Dates(server)
    log.read_on()
    names = sorted(log.bookmarks)
    lines, days = [], {}
    for name in names:
        head = log.bookmarks[name]
        days[name] = day(*dates.of(head))
        lines.append(f"{told_id(head)}  {days[name]}  {name}")
    heads = {name: log.bookmarks[name] for name in names}
    document: dict[str, Any] = {"bookmarks": heads, "days": days}
    out.tell(document, lines)


def move_bookmark(options: BookmarkOptions, name: str, server: Server) -> str | None:
    """Moves a bookmark from where it was told to be, or from where it is."""
    new = id_of(options, server, options.to) if options.to else None
    if options.old is not None:
        old = parent_of(options, server, options.old)
    else:
        old = need_head(server, name) if options.delete else server.head(name)
    return server.move_bookmark(name, old, new)
