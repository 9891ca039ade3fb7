"""Answers of the local program, each over a connection of its own to the server."""

from __future__ import annotations

import threading
from collections.abc import Iterator, Sequence
from contextlib import contextmanager
from dataclasses import dataclass, field
from itertools import islice
from pathlib import Path
from typing import TYPE_CHECKING, Any

from ..formats.changesets import MOST_CONTENT_BYTES, Changeset, File
from ..history.names import resolve
from ..history.repository import Log, by_front
from ..net.server import Server
from ..refusals import Fault, Refused, about
from ..terminal.output import changeset_document, file_document
from ..text.diff import text_of
from ..trees.tree import Tree, fate, followed_log, history_of, last_changes, tree_of
from .events import Poll
from .kept import Kept, Line
from .review.index import UploadIndex, Window
from .review.uploaded import Shown, UploadLog

if TYPE_CHECKING:
    from .review.comparing import Compared

LOG_LENGTH = 30
MOST_LOG_LENGTH = 200
HISTORY_LENGTH = 50
LISTING_LENGTH = 200
"""For so many entries of a directory the page asks at a time who touched them last."""
MOST_DIGITS = 20
KEPT_TREES = 16
KEPT_COMPARED = 8
KEPT_CHANGESETS = 4_096
KEPT_LINES = 16


class BadQuestion(Fault):
    """What was asked breaks a rule of its route."""


@dataclass(frozen=True)
class Question:
    """What a request asks: the words of its path, and those of its query."""

    name: str = ""
    path: str = ""
    query: dict[str, str] = field(default_factory=dict)
    pairs: tuple[tuple[str, str], ...] = ()
    """The query's words as they stand, where one may stand there again."""
    last_event: int | None = None
    """The last event that was told over a connection that broke."""

    def values(self, key: str) -> list[str]:
        """All that the query says of a word."""
        return [value for name, value in self.pairs if name == key]

    def number(self, key: str, default: int, most: int = 10**9) -> int:
        """A number of the query."""
        text = self.query.get(key, str(default))
        if not (text.isascii() and text.isdigit() and len(text) <= MOST_DIGITS):
            raise BadQuestion(f"{key} is {text[:MOST_DIGITS]!r}, and no number")
        return min(int(text), most)


class Library:
    """What is asked of one server, and what of it is kept."""

    def __init__(self, server: Server, fold: bool, folders: Sequence[Path] = ()):
        self.server = server
        self.fold = fold
        self.folders = list(folders)
        """Working copies whose drafts are told."""
        self.log = UploadLog(server)
        self.uploads = UploadIndex()
        self.log_turn = threading.Lock()
        self.changesets: Kept[str, Changeset] = Kept(KEPT_CHANGESETS)
        self.trees: Kept[str, Tree] = Kept(KEPT_TREES)
        self.lines: Kept[str, Line] = Kept(KEPT_LINES)
        self.compared: Kept[tuple[str, str, str], Compared] = Kept(KEPT_COMPARED)
        """What two trees differ in."""
        self.poll = Poll(server.another)

    @contextmanager
    def connected(self) -> Iterator[Visit]:
        """A connection for one request, so that a slow one stops no other."""
        server = self.server.another()
        try:
            yield Visit(self, server)
        finally:
            server.close()


class Visit:
    """One request's questions to the library, over its own connection."""

    def __init__(self, library: Library, server: Server):
        self.library = library
        self.server = server
        self.shown: Shown | None = None

    def changeset(self, id: str) -> Changeset:
        return self.library.changesets.get(id, lambda: self.server.changeset(id))

    def tree(self, id: str) -> Tree:
        """A changeset's tree, its nodes shared with other requests."""
        make = lambda: tree_of(self.server, id, fold=self.library.fold)  # noqa: E731
        return self.library.trees.get(id, make).by(self.server)

    def line(self, id: str, count: int) -> Line:
        """The line of a changeset, with so many ids where it has them."""
        line = self.library.lines.get(id, lambda: Line(id))
        line.reach(count, self.changeset)
        return line

    def resolve(self, name: str) -> str:
        return resolve(self.server, name, self.by_front, hints=False)

    def by_front(self, front: str) -> str:
        with self.library.log_turn:
            self.library.log.server = self.server
            return by_front(self.library.log, front)

    def read_log(self) -> tuple[dict[str, str], int]:
        """The bookmarks, and how many entries there are."""
        log = self.library.log
        with self.library.log_turn:
            log.server = self.server
            log.read_on()
            return dict(log.bookmarks), log.next

    def shown_log(self) -> Shown:
        """The log as it is now, with each upload; it isn't read on while this request lasts."""
        if self.shown is None:
            self.read_log()
            with self.library.log_turn:
                self.shown = self.library.log.shown()
        return self.shown

    def uploads(self) -> Window:
        """The uploads that are known, and what became of them."""
        return self.library.uploads.window(self.shown_log())

    def own_log(self) -> Log:
        """The log for this request alone, so that others may read theirs on meanwhile."""
        self.read_log()
        with self.library.log_turn:
            return self.library.log.copied(self.server)

    def which(self, _: Question) -> dict[str, Any]:
        """The server that this looks at."""
        return {"url": self.server.url}

    def bookmarks(self, _: Question) -> dict[str, Any]:
        """All bookmarks with their heads."""
        bookmarks, entries = self.read_log()
        found = sorted(bookmarks.items())
        rows = [{"name": name, "head": brief(self.changeset(head))} for name, head in found]
        return {"entries": entries, "bookmarks": rows}

    def log(self, question: Question) -> dict[str, Any]:
        """A stretch of a line, and where the next begins."""
        head = self.resolve(question.name)
        skip = question.number("skip", 0)
        count = max(1, question.number("count", LOG_LENGTH, MOST_LOG_LENGTH))
        line = self.line(head, skip + count + 1)
        if line.total is not None and skip >= line.total:
            skip = max(0, line.total - count)
        ids = line.ids[skip : skip + count + 1]
        rows = [brief(self.changeset(id)) for id in ids[:count]]
        following = ids[count] if len(ids) > count else None
        document = {"head": head, "skip": skip, "changesets": rows}
        return document | {"next": following, "total": line.total}

    def one_changeset(self, question: Question) -> dict[str, Any]:
        """A changeset with its paths, and the bookmarks that are at it."""
        changeset = self.changeset(self.resolve(question.name))
        bookmarks, _ = self.read_log()
        at = sorted(name for name, head in bookmarks.items() if head == changeset.id)
        return changeset_document(changeset) | {"bookmarks": at}

    def directory(self, question: Question) -> dict[str, Any]:
        """A directory of a changeset's tree; with `recursive` all files under it, by paths."""
        id, path = self.place(question)
        with about(path or "the root"):
            tree = self.tree(id)
            found: dict[str, File | None] = tree.list(path)
            if question.number("recursive", 0) > 0:
                found = dict(tree.files(path))
        rows = [named(name, entry) for name, entry in found.items()]
        return {"id": id, "path": path, "entries": rows}

    def last(self, question: Question) -> dict[str, Any]:
        """Who touched 200 entries of a directory last, directories first; none without unodes."""
        id, path = self.place(question)
        start = question.number("from", 0)
        found = self.tree(id).list(path)
        ordered = sorted(found, key=lambda name: found[name] is not None)
        names = ordered[start : start + LISTING_LENGTH]
        try:
            links = last_changes(self.server, id, path, names)
        except Refused as refusal:
            if refusal.code != "no-route":
                raise
            links = {}
        return {"last": {name: brief(self.changeset(link)) for name, link in links.items()}}

    def file(self, question: Question) -> dict[str, Any]:
        """A file's text, where it is text, and its history."""
        id, path = self.place(question)
        with about(path):
            file = self.tree(id).file(path)
            past = history_of(self.server, id, path, fold=self.library.fold)
        is_large = file.size > MOST_CONTENT_BYTES
        text = None if is_large else text_of(self.server.content(file.content))
        history = [brief(self.changeset(one)) for one in past[:HISTORY_LENGTH]]
        document = {"id": id, "path": path, "text": text, **file_document(file)}
        return document | {"history": history, "older": len(past) - len(history)}

    def past(self, question: Question) -> dict[str, Any]:
        """The changesets that set a file or took it away, also where none is now, and those of what
        it was copied or renamed from."""
        id, path = self.place(question)
        rows, older = [], 0
        with about(path):
            found = followed_log(self.server, id, path, fold=self.library.fold)
            for changeset, at, older in islice(found, HISTORY_LENGTH):
                rows.append(past_row(changeset, at))
        return {"id": id, "path": path, "changesets": rows, "older": older}

    def raw(self, question: Question) -> bytes:
        """A file's bytes."""
        id, path = self.place(question)
        with about(path):
            return self.server.content(self.tree(id).file(path).content)

    def place(self, question: Question) -> tuple[str, str]:
        """The changeset and the path of a question."""
        return self.resolve(question.name), question.path


def brief(changeset: Changeset) -> dict[str, Any]:
    """A changeset without its changes, and how many there are."""
    document = changeset_document(changeset)
    return document | {"changes": len(changeset.changes)}


def past_row(changeset: Changeset, path: str) -> dict[str, Any]:
    """A changeset of a path's log, and what it did there."""
    source = changeset.copies.get(path)
    copied = {"copied": {"parent": source.parent, "path": source.path}} if source else {}
    return brief(changeset) | {"at_path": fate(changeset, path), "path": path} | copied


def named(name: str, entry: File | None) -> dict[str, Any]:
    """An entry of a directory."""
    return {"name": name, **(file_document(entry) if entry else {"kind": "directory"})}
