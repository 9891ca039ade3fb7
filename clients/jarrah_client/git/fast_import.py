"""The stream that `git fast-import` reads."""

from __future__ import annotations

import re
from typing import IO

from ..formats.changesets import Changeset, File, Kind
from ..formats.paths import path_key
from ..net.contents import Data, put_into

MODES = {Kind.REGULAR: "100644", Kind.EXECUTABLE: "100755", Kind.SYMLINK: "120000"}
PERSON = re.compile(r"([^<>\n]*?) ?<([^<>\n]*)>")
MOST_SECONDS = (1 << 63) - 1
MOST_OFFSET_MINUTES = 99 * 60 + 59


class Stream:
    """Writes blobs and commits of one branch, each with a mark."""

    def __init__(self, out: IO[bytes], branch: str, known: dict[str, str]):
        self.out = out
        self.branch = branch
        self.known = known
        """Commits by their changesets that the repository has already."""
        self.count = 0
        self.blobs: dict[str, str] = {}
        self.commits: dict[str, str] = {}

    def line(self, text: str) -> None:
        self.out.write(text.encode() + b"\n")

    def data(self, size: int, data: Data) -> None:
        """Some bytes with their length before them."""
        self.line(f"data {size}")
        put_into(self.out, data)
        self.line("")

    def mark(self) -> str:
        """A new mark, such as `:7`."""
        self.count += 1
        self.line(f"mark :{self.count}")
        return f":{self.count}"

    def blob(self, id: str, size: int, data: Data) -> None:
        """A content."""
        self.line("blob")
        self.blobs[id] = self.mark()
        self.data(size, data)

    def commit(self, changeset: Changeset, gone: list[str], put: dict[str, File]) -> bool:
        """A commit that deletes and sets paths of its first parent's; whether it lacks a word."""
        person = person_of(changeset.author)
        date, altered = date_of(changeset.seconds, changeset.offset)
        if not changeset.parents:
            self.line(f"reset {self.branch}")
        self.line(f"commit {self.branch}")
        self.commits[changeset.id] = self.mark()
        self.line(f"author {person} {date}")
        self.line(f"committer {person} {date}")
        message = changeset.message.encode()
        self.data(len(message), message)
        for word, parent in zip(("from", "merge"), changeset.parents):
            self.line(f"{word} {self.commits.get(parent) or self.known[parent]}")
        for path in gone:
            self.line(f"D {quoted(path)}")
        for path in sorted(put, key=path_key):
            file = put[path]
            self.line(f"M {MODES[file.kind]} {self.blobs[file.content]} {quoted(path)}")
        same = person in (changeset.author, f"{changeset.author} <>")
        return altered or not same or "\x00" in changeset.message

    def end(self) -> None:
        """Says that the stream is whole."""
        self.line("done")
        self.out.flush()


def quoted(path: str) -> str:
    """A path in quotes, as git spells one that may have any bytes."""
    return '"' + path.replace("\\", "\\\\").replace('"', '\\"') + '"'


def person_of(author: str) -> str:
    """An author as git has one: a name, and an address between angles."""
    found = PERSON.fullmatch(author)
    if found:
        name, address = found.groups()
        return f"{name} <{address}>" if name else f"<{address}>"
    clean = " ".join(re.sub("[<>]", " ", author).split())
    return f"{clean} <>"


def date_of(seconds: int, offset: int) -> tuple[str, bool]:
    """A date as git has one, and whether it is another than the changeset's."""
    minutes = min(abs(offset) // 60, MOST_OFFSET_MINUTES)
    sign = "-" if offset < 0 else "+"
    kept = max(0, min(seconds, MOST_SECONDS))
    altered = kept != seconds or minutes * 60 != abs(offset)
    return f"{kept} {sign}{minutes // 60:02}{minutes % 60:02}", altered


def first_fault(complaint: IO[bytes]) -> str:
    """What git complains of first."""
    complaint.seek(0)
    lines = complaint.read().decode(errors="replace").splitlines()
    faults = [line for line in lines if line.startswith(("fatal:", "error:", "warning:"))]
    return (faults or lines or ["git fast-import failed"])[0]
