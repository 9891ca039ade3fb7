"""The subcommand that backs out what was landed."""

from __future__ import annotations

from dataclasses import dataclass
from functools import partial

from ..drafting.backout import Wanted, back_out, message_of
from ..drafting.drafts import need_name
from ..drafting.landing import land, need_message
from ..drafting.said import SaidWords
from ..formats.changesets import Changeset
from ..history.log_cache import CachedLog
from ..history.repository import by_front
from ..net.server import Server
from ..refusals import WrongWords
from ..terminal.output import Output, changeset_document
from ..working.stack import Words, need_bookmark
from .committing import words_of
from .given import Command, CopyOptions
from .options import REVISION, Add, add_words, id_of
from .writing import tell_landed


@dataclass(frozen=True)
class BackoutOptions(SaidWords, CopyOptions):
    """What `backout` is told."""

    revision: str
    bookmark: str | None
    parent: int | None
    draft: bool


def add(add: Add) -> None:
    """Adds the subcommand."""
    how = Command(BackoutOptions, backout)
    one = add("backout", how, "make a changeset that undoes what another did, and land it")
    one.add_argument("revision", metavar="id", help=REVISION)
    one.add_argument("bookmark", nargs="?", help="which it is on; default: the working copy's")
    one.add_argument(
        "--parent",
        type=int,
        choices=(0, 1),
        help="of a merge: the parent whose files come back, 0 for the first",
    )
    one.add_argument("--draft", action="store_true", help="make a draft, and don't land it")
    add_words(one)


def backout(options: BackoutOptions, server: Server, out: Output) -> None:
    """Makes a changeset that undoes what another did, and lands it."""
    name = bookmark_of(options)
    log = CachedLog(server)
    target = server.changeset(id_of(options, server, options.revision, partial(by_front, log)))
    wanted = Wanted(target, options.parent, name)
    made = back_out(server, log, wanted, backout_words(options, server, target))
    id = made.changeset.id
    merged = [f"merged {path}" for path in made.merged]
    if options.draft:
        server.put_changeset(made.changeset)
        out.tell(changeset_document(made.changeset) | made.told, [*merged, f"made the draft {id}"])
        return
    allows, on = options.allows_empty, made.changeset.parent
    landed = land(server, name, id, allows_empty=allows, on=on, new=[made.changeset])
    follows = options.copy and options.copy.state.bookmark == name
    hint = ["`jarrah update` brings it into the working copy"] if follows else []
    tell_landed(landed, name, out, made.told, [*merged, *hint])


def bookmark_of(options: BackoutOptions) -> str:
    """The bookmark that is named, or that of the working copy."""
    if options.bookmark is not None:
        need_name(options.bookmark)
        return options.bookmark
    if options.copy is None:
        raise WrongWords("name the bookmark, or work in a working copy")
    return need_bookmark(options.copy)


def backout_words(options: BackoutOptions, server: Server, target: Changeset) -> Words:
    """Who backs out, when and why."""
    message = options.message
    if message is None:
        message = message_of(target)
    return words_of(options, server, need_message(message, options.allows_empty or options.draft))
