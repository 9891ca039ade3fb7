"""Search in the contents of a tree, for a text, in bounds that are told."""

from __future__ import annotations

from collections.abc import Iterator
from dataclasses import dataclass, field
from itertools import islice
from typing import Any

from ...formats.changesets import MOST_CONTENT_BYTES, File, Kind
from ...formats.paths import joined, path_fault, path_key
from ...net.pipeline import small_contents
from ...refusals import about
from ...text.diff import text_of
from ...trees.tree import FsnodeTree, Tree
from ..library import BadQuestion, Question, Visit
from .asking import is_said, need_known
from .budget import Budget

MOST_FILES = 2_000
MOST_BYTES = 32 << 20
GREP_SECONDS = 5.0
"""So many files, bytes and seconds are spent on one request; the next goes on after them."""
MOST_LINES = 200
"""So many lines are found for one request, and so many in one file:"""
MOST_LINES_OF_FILE = 20
MOST_LINE = 300
"""A longer line is cut to so many characters about what was found."""
MOST_TEXT = 200
CHUNK_FILES = 64
CHUNK_BYTES = 4 << 20
READ_AHEAD = 64
"""So many directories are read together."""


@dataclass
class Search:
    """What is looked for, what was found, and what was spent."""

    text: str
    cased: bool
    files: list[dict[str, Any]] = field(default_factory=list)
    lines: int = 0
    passed: int = 0
    """How many files were come to, looked into or not."""
    looked_at: int = 0
    length: int = 0
    """How many bytes were looked through."""
    binary: int = 0
    large: int = 0
    last: str = ""
    """The last path that was come to."""

    def folded(self, text: str) -> str:
        return text if self.cased else text.casefold()

    def look(self, path: str, data: bytes) -> None:
        """Looks into a file."""
        self.looked_at += 1
        self.length += len(data)
        text = text_of(data)
        if text is None:
            self.binary += 1
            return
        wanted = self.folded(self.text)
        if wanted not in self.folded(text):
            return
        found = (
            (number, line)
            for number, line in enumerate(text.split("\n"), 1)
            if wanted in self.folded(line)
        )
        rows = list(islice(found, MOST_LINES_OF_FILE + 1))
        shown = [self.shown(number, line) for number, line in rows[:MOST_LINES_OF_FILE]]
        if shown:
            self.files.append({"path": path, "lines": shown, "more": len(rows) > len(shown)})
        self.lines += len(shown)

    def shown(self, number: int, line: str) -> dict[str, Any]:
        """A line with its number, or what is about the text in a long one."""
        if len(line) <= MOST_LINE:
            return {"line": number, "text": line, "is_cut": False}
        at = max(0, self.folded(line).find(self.folded(self.text)) - MOST_LINE // 3)
        return {"line": number, "text": line[at : at + MOST_LINE], "is_cut": True}


def grep(visit: Visit, question: Question) -> dict[str, Any]:
    """The lines of files at and under a path that have a text in them, and where it stopped."""
    need_known(question, "text", "case", "from")
    search = Search(text_asked(question), is_said(question, "case"))
    id, path = visit.place(question)
    start = question.query.get("from", "")
    if start and path_fault(start.encode(errors="surrogateescape")):
        raise BadQuestion(f"from is {start!r}, and no path")
    with about(path or "the root"):
        stopped = run(visit, search, candidates(visit.tree(id), path, start))
    spent = {"looked_at": search.looked_at, "bytes": search.length, "binary": search.binary}
    document = {"id": id, "path": path, "files": search.files, "lines": search.lines}
    following = search.last if stopped else None
    return document | spent | {"large": search.large, "stopped": stopped, "next": following}


def text_asked(question: Question) -> str:
    """The text that is looked for: a piece of one line."""
    text = question.query.get("text", "")
    if not 1 <= len(text) <= MOST_TEXT:
        raise BadQuestion(f"text has {len(text):,} characters, and has to have 1 to {MOST_TEXT}")
    if "\n" in text or "\0" in text:
        raise BadQuestion("text has a line end or a zero byte, and lines are looked through")
    return text


def run(visit: Visit, search: Search, found: Iterator[tuple[str, File]]) -> str | None:
    """Looks into files until there are no more, or a bound is reached, which is told."""
    budget = Budget(GREP_SECONDS)
    stopped = None
    while stopped is None:
        chunk, is_last = next_chunk(search, found)
        data = small_contents(visit.server, [file.content for _, file in chunk])
        for (path, _), bytes in zip(chunk, data):
            search.look(path, bytes)
            if search.lines >= MOST_LINES:
                search.last = path
                return "lines"
        if is_last:
            return None
        stopped = bound_of(search, budget)
    return stopped


def bound_of(search: Search, budget: Budget) -> str | None:
    """The bound that is reached, if one is."""
    if search.passed >= MOST_FILES:
        return "files"
    if search.length >= MOST_BYTES:
        return "bytes"
    return "time" if budget.is_over() else None


def next_chunk(
    search: Search, found: Iterator[tuple[str, File]]
) -> tuple[list[tuple[str, File]], bool]:
    """The next files to be read together, and whether they are the last; links and large files are
    passed over."""
    chunk: list[tuple[str, File]] = []
    room = min(CHUNK_BYTES, MOST_BYTES - search.length)
    for _ in range(min(CHUNK_FILES, MOST_FILES - search.passed)):
        one = next(found, None)
        if one is None:
            return chunk, True
        path, file = one
        search.passed += 1
        search.last = path
        if file.kind is Kind.SYMLINK:
            continue
        if file.size > MOST_CONTENT_BYTES:
            search.large += 1
            continue
        chunk.append((path, file))
        room -= file.size
        if room <= 0:
            return chunk, False
    return chunk, False


def candidates(tree: Tree, path: str, start: str) -> Iterator[tuple[str, File]]:
    """The files at and under a path, by rising paths, behind the one where it goes on."""
    key = path_key(start) if start else ()
    if path and not is_directory(tree, path):
        file = tree.file(path)
        if path_key(path) > key:
            yield path, file
        return
    yield from files_after(tree, path, key)


def is_directory(tree: Tree, path: str) -> bool:
    """Whether a directory is at a path, where something has to be."""
    parent, _, name = path.rpartition("/")
    return tree.list(parent).get(name, "") is None


def files_after(tree: Tree, directory: str, key: tuple[bytes, ...]) -> Iterator[tuple[str, File]]:
    """The files of a directory and those below, each directory read when it is come to, with some
    of those beside it."""
    entries = tree.list(directory)
    ahead = [joined(directory, name) for name, entry in entries.items() if entry is None]
    ahead = [path for path in ahead if may_follow(path, key)]
    for name, entry in entries.items():
        path = joined(directory, name)
        if entry is not None:
            if path_key(path) > key:
                yield path, entry
        elif may_follow(path, key):
            if isinstance(tree, FsnodeTree) and path not in tree.nodes:
                at = ahead.index(path)
                tree.read(ahead[at : at + READ_AHEAD])
            yield from files_after(tree, path, key)


def may_follow(directory: str, key: tuple[bytes, ...]) -> bool:
    """Whether something under a directory comes behind a path."""
    front = path_key(directory)
    return front >= key[: len(front)]
