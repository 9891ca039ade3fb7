"""Drafts, by the log's uploads: what no landing made and no bookmark has; and their stacks."""

from __future__ import annotations

from collections.abc import Callable
from dataclasses import dataclass
from typing import Any

from ...terminal.output import date
from ...net.server import Trouble
from ..library import BadQuestion, Question, Visit
from .asking import is_said, need_known, number_within
from .budget import Budget
from .index import MOST_STACK, Became, Upload, Window, upload_of

STATES = ("open", "landed", "superseded", "all")
DRAFTS_LENGTH = 30
MOST_DRAFTS_LENGTH = 200
MOST_LOOKED_AT = 2_000
"""So many uploads are read for one request, and for so many seconds:"""
LOOKING_SECONDS = 4.0
STEP = 512
"""So many are read before it is seen whether there are enough."""
NO_ENTRY = 1 << 63


class UnknownStack(Trouble):
    """Where a stack begins isn't known."""


@dataclass(frozen=True)
class Filter:
    """Which drafts are asked for."""

    author: str
    caller: str
    state: str
    tops: bool
    before: int

    def takes(self, window: Window, one: Upload) -> bool:
        """Whether an upload is one of them."""
        if one.entry >= self.before or not window.is_draft(one.id):
            return False
        if self.state != "all" and self.state != state_of(window, one.id):
            return False
        if self.tops and window.above.get(one.id):
            return False
        if self.caller and all(it.landing.caller != self.caller for it in became(window, one)):
            return False
        return self.author.casefold() in one.author.casefold()


@dataclass(frozen=True)
class Stack:
    """Drafts from what they stand on up to one, the lowest first."""

    base: str | None
    """None where the lowest stands on nothing."""
    ids: list[str]


def drafts(visit: Visit, question: Question) -> dict[str, Any]:
    """Drafts, the newest first, how far the log was looked at for them, and where to go on."""
    need_known(question, "author", "caller", "state", "tops", "before", "count")
    count = number_within(question, "count", DRAFTS_LENGTH, 1, MOST_DRAFTS_LENGTH)
    wanted = filter_of(question)
    read_until(visit, lambda window: len(taken(window, wanted, count + 1)) > count)
    window = visit.uploads()
    found = taken(window, wanted, count + 1)
    is_over = len(found) <= count and (window.is_whole or window.is_full)
    following = found[count - 1].entry if len(found) > count else window.start
    return {
        "drafts": [draft_row(window, one) for one in found[:count]],
        "looked_at": len(window.uploads),
        "uploads": len(window.shown.uploads),
        "from_entry": window.start if window.uploads else window.shown.entries,
        "is_whole": window.is_whole,
        "next": None if is_over else min(following, wanted.before),
    }


def filter_of(question: Question) -> Filter:
    """What a question asks for."""
    query = question.query
    state = query.get("state", "landed" if query.get("caller") else "open")
    if state not in STATES:
        raise BadQuestion(f"state is {state!r}, and none of {', '.join(STATES)}")
    if query.get("caller") and state not in ("landed", "all"):
        raise BadQuestion(f"no caller is known of what is {state}: the log tells who landed")
    before = number_within(question, "before", NO_ENTRY, 0, NO_ENTRY)
    author, caller = query.get("author", ""), query.get("caller", "")
    return Filter(author, caller, state, is_said(question, "tops"), before)


def taken(window: Window, wanted: Filter, most: int) -> list[Upload]:
    """The first uploads that a filter takes, the newest first."""
    found: list[Upload] = []
    for one in reversed(window.uploads.values()):
        if wanted.takes(window, one):
            found.append(one)
            if len(found) == most:
                break
    return found


def read_until(visit: Visit, is_enough: Callable[[Window], bool]) -> bool:
    """Reads further uploads until there is enough, or a bound is reached; whether there is."""
    budget = Budget(LOOKING_SECONDS)
    for at in range(0, MOST_LOOKED_AT, STEP):
        if is_enough(visit.uploads()):
            return True
        if at and budget.is_over():
            return False
        length = min(STEP, MOST_LOOKED_AT - at)
        if not visit.library.uploads.read_on(visit.server, visit.shown_log(), length, budget):
            return False
    return is_enough(visit.uploads())


def became(window: Window, one: Upload) -> list[Became]:
    return window.became.get(one.id, [])


def state_of(window: Window, id: str) -> str:
    """What became of a changeset, in one word."""
    if window.is_settled(id):
        return "on a bookmark"
    if id not in window.uploads:
        return "unknown"
    if id in window.became:
        return "landed"
    return "superseded" if id in window.later else "open"


def draft_row(window: Window, one: Upload) -> dict[str, Any]:
    """A draft for scripts, without its changes."""
    return {
        "id": one.id,
        "parents": list(one.parents),
        "entry": None if one.entry == NO_ENTRY else one.entry,
        "author": one.author,
        "seconds": one.seconds,
        "offset": one.offset,
        "date": date(one.seconds, one.offset),
        "title": one.title,
        "changes": one.changes,
        "state": state_of(window, one.id),
        "below": sum(1 for _ in window.below(one.id)),
        "above": window.above.get(one.id, 0),
        "later": window.later.get(one.id),
        "landed": [landed_row(it) for it in became(window, one)],
    }


def landed_row(one: Became) -> dict[str, Any]:
    """What a draft landed as, where, and by whom where the log tells that."""
    it = one.landing
    who = {"moment": it.moment, "caller": it.caller}
    return {"id": one.id, "bookmark": it.bookmark, "entry": it.entry, **who}


def stack(visit: Visit, question: Question) -> dict[str, Any]:
    """The stack of a draft, and its versions as far as the log was looked at."""
    need_known(question, "base")
    tip = visit.resolve(question.name)
    found = stack_of(visit, tip, question.query.get("base"))
    window = visit.uploads()
    versions = [draft_row(window, one) for one in window.versions(tip)]
    return {
        "id": tip,
        "state": state_of(window, tip),
        "base": found.base,
        "drafts": [row_of(visit, window, id) for id in found.ids],
        "versions": versions,
        "looked_at": len(window.uploads),
        "is_whole": window.is_whole,
    }


def row_of(visit: Visit, window: Window, id: str) -> dict[str, Any]:
    """A changeset as a draft's row, also where it isn't among the uploads that are known."""
    one = window.uploads.get(id)
    return draft_row(window, one or upload_of(NO_ENTRY, visit.changeset(id)))


def stack_of(visit: Visit, tip: str, base: str | None = None) -> Stack:
    """The drafts up to one by first parents, from what is known to be more than a draft, or from
    a base that is said."""
    end = visit.resolve(base) if base else None
    ids: list[str] = []
    at: str | None = tip
    while at is not None and at != end:
        parent = visit.changeset(at).parent
        if end is None and is_settled(visit, at):
            break
        if len(ids) == MOST_STACK:
            raise UnknownStack(f"the stack of {tip} has over {MOST_STACK} changesets: say its base")
        ids.append(at)
        at = parent
    if end is not None and at is None:
        raise BadQuestion(f"{end} isn't on the line of first parents of {tip}")
    return Stack(at, ids[::-1])


def is_settled(visit: Visit, id: str) -> bool:
    """Whether a changeset is more than a draft; what isn't known of it is looked for."""
    is_known = lambda window: window.is_settled(id) or id in window.uploads  # noqa: E731
    if not read_until(visit, is_known):
        looked = len(visit.uploads().uploads)
        raise UnknownStack(
            f"it isn't known whether {id} is a draft, from the last {looked:,} uploads: ask again,"
            " or say what the stack stands on as its base"
        )
    return visit.uploads().is_settled(id)
