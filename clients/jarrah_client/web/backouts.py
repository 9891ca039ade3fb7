"""Backouts that other tools ask for by JSON."""

from __future__ import annotations

from typing import Any

from ..drafting.backout import Wanted, back_out, message_of
from ..drafting.landing import need_author, need_message
from ..terminal.output import changeset_document
from .library import BadQuestion, Question, Visit
from .uploads import ALLOW, members_of, put_on, words_of

MEMBERS = {"author", "message", "seconds", "offset", ALLOW}


def backout(visit: Visit, question: Question, body: bytes) -> dict[str, Any]:
    """Makes a changeset that undoes what another did, and lands it, or leaves it a draft."""
    members = members_of(body, MEMBERS)
    place, is_draft = place_of(question), question.number("draft", 0) > 0
    target = visit.changeset(visit.resolve(question.path))
    allows = members.take(ALLOW, bool, False)
    words = words_of(members, message_of(target))
    need_author(words.author)
    need_message(words.message, allows or is_draft)
    wanted = Wanted(target, place, question.name)
    made = back_out(visit.server, visit.own_log(), wanted, words)
    if is_draft:
        visit.server.put_changeset(made.changeset)
        return changeset_document(made.changeset) | made.told
    return put_on(visit, question.name, made.changeset.id, allows, [made.changeset]) | made.told


def place_of(question: Question) -> int | None:
    """The place of the parent whose files come back, where one is said."""
    text = question.query.get("parent")
    if text not in (None, "0", "1"):
        raise BadQuestion(f"parent is {text!r}, and neither 0 nor 1")
    return None if text is None else int(text)
