"""Search by paths of a tree, and by messages and authors of a line."""

from __future__ import annotations

from typing import Any

from .library import BadQuestion, Question, Visit, brief, named

MOST_FOUND = 200
MOST_LOOKED_AT = 2_000
"""So many changesets are looked at for one request; the next goes on after them."""


def search(visit: Visit, question: Question) -> dict[str, Any]:
    """What has the text of `path`, or of `message`, in it, whatever the case."""
    id = visit.resolve(question.name)
    path, message = question.query.get("path", ""), question.query.get("message", "")
    if bool(path) == bool(message):
        raise BadQuestion("ask for one of `path` and `message`")
    if path:
        return by_path(visit, id, path)
    return by_message(visit, id, message, question.number("from", 0))


def by_path(visit: Visit, id: str, text: str) -> dict[str, Any]:
    """Files whose path has a text in it."""
    wanted = text.casefold()
    found = [(path, file) for path, file in visit.tree(id).files() if wanted in path.casefold()]
    rows = [named(path, file) for path, file in found[:MOST_FOUND]]
    return {"id": id, "files": rows, "total": len(found)}


def by_message(visit: Visit, id: str, text: str, start: int) -> dict[str, Any]:
    """Changesets whose message or author has a text in it, and where the search goes on."""
    wanted = text.casefold()
    line = visit.line(id, start + MOST_LOOKED_AT)
    rows: list[dict[str, Any]] = []
    at = start
    for one in line.ids[start : start + MOST_LOOKED_AT]:
        changeset = visit.changeset(one)
        at += 1
        if wanted in changeset.message.casefold() or wanted in changeset.author.casefold():
            rows.append(brief(changeset))
        if len(rows) == MOST_FOUND:
            break
    is_over = line.total is not None and at >= line.total
    return {"id": id, "changesets": rows, "looked_at": at, "next": None if is_over else at}
