"""Landing: who may be nobody, what may say nothing, and what became of a lost answer."""

from __future__ import annotations

import sys
import time
from collections.abc import Iterator, Sequence
from contextlib import contextmanager
from typing import TypeGuard

from ..formats.changesets import Changeset
from ..history.log_cache import CachedLog
from ..net.answers import Entry, LandingEntry
from ..net.server import BadAnswer, Landed, NotReached, Server, Trouble
from ..refusals import Fault, Refused, about

ALLOW = "--allow-empty-message"
FEW = 4
"""So many are read before the log is asked which have landed, unless one says nothing."""
MOST_STACK = 100
"""The server lands no more at a time."""
FAR = 9_999_999_999_999_999_999
"""The number of no entry: a page from there tells how many there are."""
PAGE = 100
LOOK_SECONDS = (0.0, 0.5, 2.0)
"""What is waited before each look for a landing whose answer was lost."""


class Unsaid(Trouble):
    """A changeset that says not who made it, or not why."""


def need_author(author: str) -> str:
    """The author, who has to be somebody."""
    if not author.strip():
        raise Unsaid("the author is empty")
    return author


def need_message(message: str, allows_empty: bool) -> str:
    """The message, which has to say something unless that is allowed."""
    if not message.strip() and not allows_empty:
        raise Unsaid(f"the message is empty, which only `{ALLOW}` allows")
    return message


def land(
    server: Server,
    bookmark: str,
    draft: str,
    *,
    allows_empty: bool = False,
    on: str | None = None,
    new: Sequence[Changeset] = (),
) -> Landed:
    """Lands a draft, of which each changeset says who made it and why.

    `on` is what the stack stands on, where that is known, and `new` are its last changesets,
    parents first, which aren't stored yet: the same request stores them.
    """
    for changeset in stack_of(server, bookmark, draft, on, new):
        with about(f"changeset {changeset.id}"):
            need_author(changeset.author)
            need_message(changeset.message, allows_empty)
    with about_stack(draft, new):
        return answered(server, bookmark, draft, new)


@contextmanager
def about_stack(draft: str, new: Sequence[Changeset]) -> Iterator[None]:
    """Has a fault say which draft was to land, or which changeset of it was refused."""
    try:
        yield
    except Fault as fault:
        refused = refused_one(fault, new)
        fault.about = f"changeset {refused.id}" if refused else f"draft {draft}"
        raise


def refused_one(fault: Fault, new: Sequence[Changeset]) -> Changeset | None:
    """The changeset that was refused itself, and so isn't stored, nor what stands on it."""
    at = fault.members.get("at") if isinstance(fault, Refused) else None
    return None if at is None or at >= len(new) else new[at]


def stack_of(
    server: Server,
    bookmark: str,
    draft: str,
    on: str | None,
    new: Sequence[Changeset] = (),
) -> Iterator[Changeset]:
    """The changesets of a draft that haven't landed, the last first."""
    end = on or server.head(bookmark)
    known = {changeset.id: changeset for changeset in new}
    landed: set[str] | None = None
    id: str | None = draft
    for number in range(MOST_STACK):
        if id is None or id == end or (landed and id in landed):
            return
        changeset = known.get(id) or server.changeset(id)
        if changeset.parent is None:
            return
        if on is None and landed is None and (number == FEW or says_too_little(changeset)):
            landed = landed_by_log(server)
            if id in landed:
                return
        yield changeset
        id = changeset.parent


def says_too_little(changeset: Changeset) -> bool:
    """Whether a changeset says not who made it, or not why."""
    return not changeset.author.strip() or not changeset.message.strip()


def landed_by_log(server: Server) -> set[str]:
    """What has landed, what that was put onto, and where bookmarks are."""
    log = CachedLog(server)
    log.read_on()
    return {*log.landings, *log.parents.values(), *log.bookmarks.values()}


def answered(server: Server, bookmark: str, draft: str, new: Sequence[Changeset]) -> Landed:
    """Lands a draft. Where the answer is lost, the log tells what became of it."""
    try:
        return server.land_stack(bookmark, new) if new else server.land(bookmark, draft)
    except (NotReached, BadAnswer) as fault:
        if isinstance(fault, NotReached) and not fault.was_sent:
            raise
        entry = looked_up(server, bookmark, draft, fault)
    said = f"jarrah: the answer was lost; by the log it landed, as entry {entry['number']:,}"
    print(said, file=sys.stderr)
    return Landed(entry["ids"][-1], entry["ids"], entry["old"])


def looked_up(server: Server, bookmark: str, draft: str, fault: Trouble) -> LandingEntry:
    """The landing of a draft by the log; where there is none, the fault with what is known."""
    fault.advice = f"whether it landed isn't known: `jarrah log {bookmark}` shows it"
    for seconds in LOOK_SECONDS:
        time.sleep(seconds)
        try:
            total, entry = landing_entry(server, bookmark, draft)
        except Trouble:
            continue
        if entry:
            return entry
        fault.advice = (
            f"it hasn't landed by entry {total - 1:,}; if it isn't under way still, land it again"
        )
    raise fault


def landing_entry(server: Server, bookmark: str, draft: str) -> tuple[int, LandingEntry | None]:
    """How many entries there are, and the last one that landed a draft, if any did.

    It is looked for from the end back to where the draft came to be known, if it ever did.
    """
    total = end = server.log(FAR).total
    if not is_known(server, draft):
        return total, None
    while end > 0:
        start = max(0, end - PAGE)
        for entry in reversed(server.log(start).entries[: end - start]):
            if is_landing(entry, bookmark, draft):
                return total, entry
            if makes_known(entry, draft):
                return total, None
        end = start
    return total, None


def is_known(server: Server, id: str) -> bool:
    """Whether a changeset is stored."""
    try:
        server.changeset(id)
    except Refused as refusal:
        if refusal.code != "no-changeset":
            raise
        return False
    return True


def is_landing(entry: Entry, bookmark: str, draft: str) -> TypeGuard[LandingEntry]:
    """Whether an entry landed a draft on a bookmark."""
    known = (entry["kind"], entry.get("name"), entry.get("draft"))
    return known == ("landing", bookmark, draft)


def makes_known(entry: Entry, draft: str) -> bool:
    """Whether a changeset is known since an entry."""
    if entry["kind"] == "changeset":
        return entry["id"] == draft
    return entry["kind"] == "landing" and entry["draft"] != draft and draft in entry["ids"]
