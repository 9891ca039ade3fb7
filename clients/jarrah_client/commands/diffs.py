"""The subcommand that tells what differs: in a folder, by a changeset, or between two."""

from __future__ import annotations

import os
from collections.abc import Callable, Iterable, Iterator
from dataclasses import dataclass
from functools import partial
from pathlib import Path

from ..formats.changesets import MOST_CONTENT_BYTES, Changeset, File
from ..history.reads import file_at
from ..net.server import Server, Trouble
from ..refusals import WrongWords
from ..terminal.colours import GREEN, RED, Line, Painted
from ..terminal.output import Output, change_document, change_line, change_word, counted
from ..text.diff import counts, hunks, sizes_alone, text_of, unified
from ..trees.differences import differences
from ..trees.tree import tree_of
from ..working.scan import is_in, look_into
from ..working.state import WorkingCopy
from .given import Command, CopyOptions
from .options import REVISION, Add, id_of
from .working_copy import scanned


@dataclass(frozen=True)
class Side:
    """A file on one side of a diff: its size, and what reads it."""

    size: int
    read: Callable[[], bytes]


@dataclass(frozen=True)
class Change:
    """A path with what became of it, and its file on both sides."""

    path: str
    word: str
    old: Side | None
    new: Side | None

    @property
    def is_large(self) -> bool:
        """Whether a side is too large to be compared by lines."""
        return any(side and side.size > MOST_CONTENT_BYTES for side in (self.old, self.new))

    def read(self) -> tuple[bytes | None, bytes | None]:
        """The bytes of both sides."""
        old, new = (side.read() if side else None for side in (self.old, self.new))
        return old, new


@dataclass(frozen=True)
class DiffOptions(CopyOptions):
    """What `diff` is told."""

    words: list[str]
    patch: bool
    stat: bool


def add(add: Add) -> None:
    """Adds the subcommand."""
    how = Command(DiffOptions, diff, pages=True)
    one = add("diff", how, "tell what a changeset, or the working copy, changes; or two differ in")
    one.add_argument(
        "words",
        nargs="*",
        metavar="ID or PATH",
        help=f"{REVISION}; two of them and paths: how they differ there;"
        " in a working copy, files or folders; default there: all",
    )
    way = one.add_mutually_exclusive_group()
    way.add_argument(
        "-p", "--patch", action="store_true", help="of changesets: line by line, not the paths"
    )
    way.add_argument("--stat", action="store_true", help="how many lines come and go in each file")


def diff(options: DiffOptions, server: Server, out: Output) -> None:
    """Tells what differs."""
    copy, words = options.copy, options.words
    if copy and all(is_path(copy, word) for word in words):
        under = [copy.path_of(Path(word)) for word in words] or None
        tell(in_folder(copy, under, server), out, options.stat)
    elif len(words) == 1:
        changeset = server.changeset(id_of(options, server, words[0]))
        if options.patch or options.stat:
            tell(in_changeset(changeset, server), out, options.stat)
            return
        changes = [change_document(changeset, path) for path in changeset.changes]
        lines = (change_line(changeset, path) for path in changeset.changes)
        out.tell({"id": changeset.id, "changes": changes}, lines)
    elif words:
        tell_between(options, server, out)
    else:
        raise WrongWords("name a changeset, or two, or work in a working copy")


def tell_between(options: DiffOptions, server: Server, out: Output) -> None:
    """Tells in what the trees of two changesets differ."""
    first, second, *paths = options.words
    ids = [id_of(options, server, one) for one in (first, second)]
    under = [path.strip("/") for path in paths] or None
    changes = list(between(ids[0], ids[1], under, server))
    if options.patch or options.stat:
        tell(changes, out, options.stat)
        return
    rows = [{"path": one.path, "change": one.word} for one in changes]
    lines = [f"{one.word:<9}{one.path}" for one in changes]
    out.tell({"old": ids[0], "new": ids[1], "changes": rows}, lines)


def is_path(copy: WorkingCopy, word: str) -> bool:
    """Whether a word means something in the folder or in its base."""
    try:
        path = copy.path_of(Path(word))
    except Trouble:
        return False
    return os.path.lexists(word) or any(is_in(one, [path]) for one in copy.state.files)


def in_folder(copy: WorkingCopy, under: list[str] | None, server: Server) -> Iterator[Change]:
    """What differs from the base in a folder."""
    with copy.alone():
        found = scanned(copy, under)
    for path, file in found.changes.items():
        kept = copy.state.files.get(path)
        _, source = look_into(copy.top, path)
        new = Side(source.size, source.read) if file and source else None
        old = side_of(server, kept.file if kept else None)
        yield Change(path, found.word(copy, path), old, new)


def in_changeset(changeset: Changeset, server: Server) -> Iterator[Change]:
    """What a changeset changes from its first parent."""
    tree = tree_of(server, changeset.parent) if changeset.parent else None
    for path, file in changeset.changes.items():
        old = file_at(tree, path) if tree else None
        if old != file:
            yield changed(server, path, old, file)


def between(old: str, new: str, under: list[str] | None, server: Server) -> Iterator[Change]:
    """In what two trees differ, at and under some paths."""
    for path, before, after in differences(tree_of(server, old), tree_of(server, new)):
        if is_in(path, under):
            yield changed(server, path, before, after)


def changed(server: Server, path: str, old: File | None, new: File | None) -> Change:
    """A path with a file on either side."""
    return Change(path, change_word(old, new), side_of(server, old), side_of(server, new))


def side_of(server: Server, file: File | None) -> Side | None:
    """A file of the server as one side of a diff."""
    return Side(file.size, partial(server.content, file.content)) if file else None


def tell(changes: Iterable[Change], out: Output, is_stat: bool) -> None:
    """Tells changes by their lines, or how many those are."""
    if is_stat:
        tell_counts(changes, out)
        return
    for change in changes:
        tell_lines(change, out)


def tell_lines(change: Change, out: Output) -> None:
    """Tells a diff's lines."""
    if change.is_large:
        old, new = (side.size if side else None for side in (change.old, change.new))
        lines = sizes_alone(change.path, old, new)
    else:
        lines = unified(change.path, *change.read())
    found = list(lines)
    document = {"path": change.path, "change": change.word, "diff": list(map(str, found))}
    out.tell(document, found)


def tell_counts(changes: Iterable[Change], out: Output) -> None:
    """Tells how many lines come and go in each file, and in all."""
    rows = [(change, lines_of(change)) for change in changes]
    width = max((len(change.path) for change, _ in rows), default=0)
    added, deleted = (sum(found[at] for _, found in rows if found) for at in (0, 1))
    lines: list[Line] = [f"{one.path:<{width}}  " + counts_words(found) for one, found in rows]
    files = []
    for change, found in rows:
        plus, minus = found or (None, None)
        row = {"path": change.path, "change": change.word, "added": plus, "deleted": minus}
        files.append(row)
    total = f"{counted(len(rows), 'file')}, +{added:,} -{deleted:,}"
    out.tell({"files": files, "added": added, "deleted": deleted}, [*lines, total])


def lines_of(change: Change) -> tuple[int, int] | None:
    """How many lines come and go, or None where a side has no lines."""
    if change.is_large:
        return None
    old, new = (text_of(data or b"") for data in change.read())
    return None if old is None or new is None else counts(list(hunks(old, new)))


def counts_words(found: tuple[int, int] | None) -> Line:
    """How many lines come and go, for people."""
    if found is None:
        return "the bytes differ"
    return Painted(((GREEN, f"+{found[0]:,}"), ("", " "), (RED, f"-{found[1]:,}")))
