"""What a changeset changes from its first parent, file by file and line by line."""

from __future__ import annotations

from collections.abc import Iterable
from typing import Any

from ..formats.changesets import File
from ..formats.paths import joined
from ..history.reads import file_at
from ..net.server import Server
from ..terminal.output import change_word
from ..text.diff import Hunk, counts, text_of
from ..trees.tree import FsnodeTree, Tree
from .library import BadQuestion, Question, Visit
from .lines import bounded_hunks
from .review.budget import Budget

MOST_FILES = 40
"""The lines of so many files come at once; those of the others come when they are asked for."""
MOST_BYTES = 262_144
"""Files of more bytes are told without their lines, and those of more lines than are compared."""
LINES_SECONDS = 5.0
"""Lines that weren't compared within so many seconds come when they are asked for, too."""
Side = tuple["File | None", "bytes | None"]
"""A file on one side of a change, with its bytes where the server doesn't have them."""


def diff(visit: Visit, question: Question) -> dict[str, Any]:
    """The files of a changeset, or one of them, with their lines."""
    changeset = visit.changeset(visit.resolve(question.name))
    paths = list(changeset.changes)
    if question.path:
        if question.path not in changeset.changes:
            raise BadQuestion(f"the changeset doesn't change {question.path}")
        paths = [question.path]
    before = visit.tree(changeset.parent) if changeset.parent else None
    olds = files_at(before, paths) if before else {}
    triples = ((path, olds.get(path), changeset.changes[path]) for path in paths)
    most = MOST_FILES if question.number("lines", 1) > 0 else 0
    rows = file_rows(visit.server, triples, most)
    return {"id": changeset.id, "parent": changeset.parent, "files": rows}


def file_rows(
    server: Server, triples: Iterable[tuple[str, File | None, File | None]], most: int
) -> list[dict[str, Any]]:
    """Files before and after, the lines of the first ones with them."""
    budget = Budget(LINES_SECONDS)
    return [
        one_file(server, path, (old, None), (new, None), number < most and not budget.is_over())
        for number, (path, old, new) in enumerate(triples)
    ]


def one_file(
    server: Server, path: str, before: Side, after: Side, with_lines: bool
) -> dict[str, Any]:
    """One file before and after."""
    old, new = before[0], after[0]
    word = change_word(old, new) if old or new else "absent"
    row: dict[str, Any] = {"path": path, "change": word}
    row |= {"before": side(old), "after": side(new), "hunks": None, "why": None}
    if old and new and old.content == new.content:
        return row | {"hunks": [], "added": 0, "deleted": 0}
    if not with_lines:
        return row | {"why": "later"}
    if max(one.size for one in (old, new, File("", 0)) if one) > MOST_BYTES:
        return row | {"why": "large"}
    texts = [text_of(bytes_on(server, one)) for one in (before, after)]
    if texts[0] is None or texts[1] is None:
        return row | {"why": "binary"}
    found = bounded_hunks(texts[0], texts[1])
    if found is None:
        return row | {"why": "large"}
    added, deleted = counts(found)
    return row | {"hunks": [told(hunk) for hunk in found], "added": added, "deleted": deleted}


def bytes_on(server: Server, one: Side) -> bytes:
    """The bytes of a side; none where there is no file."""
    file, data = one
    if data is not None or file is None:
        return data or b""
    return server.content(file.content)


def files_at(tree: Tree, paths: Iterable[str]) -> dict[str, File]:
    """The files at some paths of a tree. Directories of one depth are read together."""
    wanted = list(paths)
    if isinstance(tree, FsnodeTree):
        read_above(tree, wanted)
    found = ((path, file_at(tree, path)) for path in wanted)
    return {path: file for path, file in found if file}


def read_above(tree: FsnodeTree, paths: list[str]) -> None:
    """Reads the directories above some paths, as far as they are there."""
    above: dict[str, set[str]] = {}
    for path in paths:
        elements = path.split("/")
        for depth in range(1, len(elements)):
            above.setdefault("/".join(elements[: depth - 1]), set()).add(elements[depth - 1])
    level = [""]
    while level:
        tree.read(level)
        below: list[str] = []
        for directory in level:
            entries = tree.list(directory)
            names = sorted(above.get(directory, ()))
            below += [joined(directory, one) for one in names if entries.get(one, "") is None]
        level = below


def side(file: File | None) -> dict[str, Any] | None:
    """A file on one side of a change."""
    return {"kind": file.kind.word, "size": file.size, "content": file.content} if file else None


def told(hunk: Hunk) -> dict[str, Any]:
    """A hunk; each of its lines is its sign and its text."""
    return {
        "old": [hunk.old_start, hunk.old_count],
        "new": [hunk.new_start, hunk.new_count],
        "lines": [tag + line for tag, line in hunk.lines],
    }
