"""Changesets that other tools send as JSON, with contents in base64."""

from __future__ import annotations

import base64
import binascii
import json
from collections.abc import Sequence
from typing import Any

from ..drafting import landing
from ..drafting.drafts import deleted, now
from ..drafting.landing import need_author, need_message
from ..formats.changesets import MOST_SIZE_BYTES, Changeset, File, Kind
from ..formats.paths import is_text
from ..net.contents import Source, in_memory, store_all
from ..refusals import Refused
from ..working.stack import Words, made
from .library import BadQuestion, Question, Visit, brief

KINDS = {kind.word: kind for kind in Kind}
ALLOW = "allow_empty_message"
MEMBERS = {"parent", "author", "message", "seconds", "offset", "changes", "land", ALLOW}


class Members:
    """A JSON object whose members are taken by their types."""

    def __init__(self, document: Any, where: str, known: set[str]):
        if not isinstance(document, dict):
            raise BadQuestion(f"{where} is no object")
        self.document = document
        self.where = where
        for name in document:
            if name not in known:
                raise BadQuestion(f"{where} has a member {name!r}, which isn't known")

    def take(self, name: str, kind: type, default: Any = ...) -> Any:
        """A member, or its default where it is absent or null."""
        found = self.document.get(name)
        if found is None and default is not ...:
            return default
        if not isinstance(found, kind) or isinstance(found, bool) != (kind is bool):
            raise BadQuestion(f"{self.where} lacks {name!r}, or it is no {kind.__name__}")
        if isinstance(found, str) and not is_text(found.encode(errors="surrogatepass")):
            raise BadQuestion(f"{self.where} has half of a surrogate pair in {name!r}")
        return found


def upload(visit: Visit, _: Question, body: bytes) -> dict[str, Any]:
    """Stores a changeset with its contents, and lands it where that is asked for."""
    members = members_of(body, MEMBERS)
    name, land = members.take("parent", str, None), members.take("land", str, None)
    allows = members.take(ALLOW, bool, False)
    words = words_of(members, "")
    need_author(words.author)
    if land:
        need_message(words.message, allows)
    parent = visit.resolve(name) if name else None
    changes, contents = read_changes(visit, members.take("changes", list), parent)
    changeset = made(parent, words, changes)
    store_contents(visit, changeset, contents)
    answer = brief(changeset) | {"landed": None}
    if land:
        return answer | {"landed": put_on(visit, land, changeset.id, allows, [changeset])}
    visit.server.put_changeset(changeset)
    return answer


def members_of(body: bytes, known: set[str]) -> Members:
    """The members of a body."""
    try:
        document = json.loads(body)
    except ValueError:
        raise BadQuestion("the body is no JSON") from None
    return Members(document, "the body", known)


def words_of(members: Members, message: str) -> Words:
    """Who makes a changeset, which has to be said, and when and why, which may be."""
    seconds, offset = now()
    return Words(
        members.take("author", str),
        members.take("seconds", int, seconds),
        members.take("offset", int, offset if "seconds" not in members.document else 0),
        members.take("message", str, message),
    )


def store_contents(visit: Visit, changeset: Changeset, contents: dict[str, Source]) -> None:
    """Uploads the contents of a changeset, once it has a spelling, over the visit's connection."""
    _ = changeset.encoded
    store_all(visit.server, contents.values(), quietly=True, connections=1)


def read_changes(
    visit: Visit, rows: list[Any], parent: str | None
) -> tuple[dict[str, File | None], dict[str, Source]]:
    """The changes of an upload, and the contents that they set."""
    changes: dict[str, File | None] = {}
    contents: dict[str, Source] = {}
    for number, row in enumerate(rows):
        where = f"change {number}"
        members = Members(row, where, {"path", "change", "kind", "base64", "text"})
        path = members.take("path", str)
        if path in changes:
            raise BadQuestion(f"{where} has the path {path!r} again")
        word = members.take("change", str)
        if word not in ("set", "delete"):
            raise BadQuestion(f"{where} is neither a set nor a delete")
        changes[path] = None
        if word == "set":
            source = in_memory(path, bytes_of(members))
            changes[path] = File(source.id, source.size, kind_of(members))
            contents[source.id] = source
    gone = [path for path, file in changes.items() if file is None]
    deleted(visit.server, parent, gone, False)
    return changes, contents


def bytes_of(members: Members) -> bytes:
    """The bytes that a change sets."""
    if "text" in members.document:
        text: str = members.take("text", str)
        data = text.encode()
    else:
        try:
            data = base64.b64decode(members.take("base64", str), validate=True)
        except (binascii.Error, ValueError):
            raise BadQuestion(f"{members.where} has no base64 in its member 'base64'") from None
    if len(data) > MOST_SIZE_BYTES:
        raise BadQuestion(f"{members.where} sets over {MOST_SIZE_BYTES:,} bytes")
    return data


def kind_of(members: Members) -> Kind:
    """The kind of file that a change sets."""
    word = members.take("kind", str, "regular")
    if word not in KINDS:
        raise BadQuestion(f"{members.where} has a kind that isn't one of {', '.join(KINDS)}")
    return KINDS[word]


def land(visit: Visit, question: Question, _: bytes) -> dict[str, Any]:
    """Lands a draft on a bookmark."""
    allows = question.number(ALLOW, 0) > 0
    return put_on(visit, question.name, visit.resolve(question.path), allows)


def put_on(
    visit: Visit, bookmark: str, draft: str, allows_empty: bool, new: Sequence[Changeset] = ()
) -> dict[str, Any]:
    """The same by the draft's id, which a refusal of the landing names too."""
    try:
        landed = landing.land(visit.server, bookmark, draft, allows_empty=allows_empty, new=new)
    except Refused as refusal:
        if not new or refusal.members.get("at") == len(new):
            refusal.members.setdefault("draft", draft)
        raise
    return {"bookmark": bookmark, "head": landed.head, "ids": landed.ids, "old": landed.old}
