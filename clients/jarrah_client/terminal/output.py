"""How things are told: to people as text, to scripts as JSON."""

from __future__ import annotations

import json
import re
import sys
from collections.abc import Iterable, Iterator
from contextlib import contextmanager
from datetime import datetime, timedelta, timezone
from typing import Any

from ..formats.changesets import Changeset, CopySource, File
from ..formats.nodes import Directory
from ..history.repository import Landing
from ..net.answers import Entry
from ..net.contents import Data, put_into
from .colours import AUTO, CYAN, YELLOW, Line, Painted, are_shown, painted
from .pager import Pager

SHORT_DIGITS = 12
MOST_NAMED = 3
"""So many paths are named in a line, and the others are counted."""
ADDRESS = re.compile(r"\s*<[^>]*>\s*$")


class Output:
    """Writes lines for people, or one JSON document a line for scripts."""

    def __init__(self, as_json: bool, colours: str = AUTO, pager: Pager | None = None):
        self.as_json = as_json
        self.colours = colours
        self.pager = None if as_json else pager

    @contextmanager
    def shown(self) -> Iterator[None]:
        """Waits at the end for the pager. Who ends that sooner has seen enough."""
        try:
            yield
        except BrokenPipeError:
            if not (self.pager and self.pager.process):
                raise
        finally:
            if self.pager:
                self.pager.end()

    def tell(self, document: Any, lines: Line | Iterable[Line]) -> None:
        """Writes a document as JSON, or its lines."""
        if self.as_json:
            print(as_json(document), flush=True)
            return
        for line in [lines] if isinstance(lines, (str, Painted)) else lines:
            if self.pager:
                self.pager.begin()
            print(self.written(line), flush=True)

    def written(self, line: Line) -> str:
        """A line as it is written: its colours, where they are shown, are all that a terminal
        obeys."""
        if isinstance(line, str) or not are_shown(self.colours):
            return clean(str(line))
        texts = ((colour, clean(text)) for colour, text in line.pieces)
        return "".join(f"\x1b[{colour}m{text}\x1b[0m" if colour else text for colour, text in texts)

    def bytes(self, data: Data) -> None:
        """Writes bytes as they are."""
        put_into(sys.stdout.buffer, data)
        sys.stdout.buffer.flush()


def told_id(id: str) -> str:
    """An id as it is told: whole, and on a terminal in as many digits as tell it apart."""
    return id[:SHORT_DIGITS] if sys.stdout.isatty() else id


def as_json(document: Any) -> str:
    """A document as JSON; bytes of a name that are no text become halves of surrogate pairs."""
    return json.dumps(document, ensure_ascii=False).encode(errors="backslashreplace").decode()


def clean(text: str) -> str:
    """Text without control characters that a terminal would obey; tabs stay."""
    return "".join(c if c.isprintable() or c == "\t" else repr(c)[1:-1] for c in text)


def date(seconds: int, offset: int) -> str:
    """A date in its own offset from UTC."""
    try:
        zone = timezone(timedelta(seconds=offset))
        return datetime.fromtimestamp(seconds, zone).strftime("%Y-%m-%d %H:%M:%S %z")
    except (ValueError, OverflowError, OSError):
        return f"@{seconds} {offset:+}"


def day(seconds: int, offset: int) -> str:
    """The day of a date."""
    return date(seconds, offset)[:10]


def person(author: str) -> str:
    """An author's name, without the address."""
    return ADDRESS.sub("", author) or author


def title(message: str) -> str:
    """The first line of a message."""
    return message.strip().partition("\n")[0] or "(no message)"


def change_document(changeset: Changeset, path: str) -> dict[str, Any]:
    """One change for scripts."""
    file, source = changeset.changes[path], changeset.copies.get(path)
    if file is None:
        return {"path": path, "change": "delete"}
    copied = {"copied": {"parent": source.parent, "path": source.path}} if source else {}
    return {"path": path, "change": "set", **file_document(file), **copied}


def file_document(file: File) -> dict[str, Any]:
    """A file for scripts."""
    return {"kind": file.kind.word, "size": file.size, "content": file.content}


def changeset_document(changeset: Changeset) -> dict[str, Any]:
    """A changeset for scripts."""
    return {
        "id": changeset.id,
        "parents": list(changeset.parents),
        "author": changeset.author,
        "seconds": changeset.seconds,
        "offset": changeset.offset,
        "date": date(changeset.seconds, changeset.offset),
        "message": changeset.message,
        "changes": [change_document(changeset, path) for path in changeset.changes],
    }


def change_line(changeset: Changeset, path: str) -> str:
    """One change for people."""
    file, source = changeset.changes[path], changeset.copies.get(path)
    if file is None:
        return f"delete              {path}"
    copied = f"  {source_words(source)}" if source else ""
    return f"set {kind_letter(file)} {file.size:>11,}  {path}{copied}"


def source_words(source: CopySource) -> str:
    """Where a file was copied from, for people."""
    return f"from {source.path}" + (f" of parent {source.parent}" if source.parent else "")


def landing_words(landing: Landing) -> str:
    """Where a changeset landed, for people."""
    at = "" if landing.moment is None else f", {date(landing.moment, 0)}"
    return f"on {landing.bookmark}, entry {landing.entry:,}{at}"


def landing_document(landing: Landing) -> dict[str, Any]:
    """The same for scripts; without a moment where none is told."""
    at = {} if landing.moment is None else {"moment": landing.moment}
    return {"bookmark": landing.bookmark, "entry": landing.entry, **at}


def change_word(old: File | None, new: File | None) -> str:
    """What became of a file between two trees."""
    if old is None:
        return "added"
    return "edited" if new else "deleted"


def kind_letter(entry: File | Directory | None) -> str:
    """One letter for a regular file, an executable, a symlink or a directory."""
    return "fxl"[entry.kind] if isinstance(entry, File) else "d"


def changeset_lines(
    changeset: Changeset,
    names: list[str],
    with_paths: bool,
    landing: Landing | None = None,
) -> Iterable[Line]:
    """A changeset of a log for people, with the bookmarks that are at it and where it landed."""
    at = (("", "  ("), (CYAN, ", ".join(names)), ("", ")")) if names else ()
    yield Painted(((YELLOW, f"changeset {told_id(changeset.id)}"), *at))
    if changeset.is_merge:
        yield f"parents   {' '.join(map(told_id, changeset.parents))}"
    yield f"author    {changeset.author}"
    yield f"date      {date(changeset.seconds, changeset.offset)}"
    if landing:
        yield f"landed    {landing_words(landing)}"
    yield ""
    for line in changeset.message.strip().splitlines():
        yield f"    {line}".rstrip()
    if with_paths and changeset.changes:
        yield ""
        for path in changeset.changes:
            yield f"    {change_line(changeset, path)}"
    yield ""


def short_lines(changeset: Changeset) -> Painted:
    """A changeset in one line: its id, day, author and title."""
    at = day(changeset.seconds, changeset.offset)
    rest = f"  {at}  {changeset.author}  {title(changeset.message)}"
    return painted(YELLOW, told_id(changeset.id)) + rest


def entry_line(entry: Entry) -> str:
    """One entry of the update log for people."""
    head = f"{entry['number']:>8}  {entry['kind']:<9}  "
    if entry["kind"] == "content":
        return f"{head}{entry['id']}  {entry['size']:,} bytes"
    if entry["kind"] == "whole":
        parts = counted(len(entry["parts"]), "content")
        return f"{head}{entry['id']}  {entry['size']:,} bytes of {parts}"
    if entry["kind"] == "changeset":
        return f"{head}{entry['id']}"
    by = f"  by {entry['caller']}" if "caller" in entry else ""
    if entry["kind"] == "policy":
        return f"{head}{counted(entry['rules'], 'rule')}{by}"
    if entry["kind"] == "bookmark":
        return f"{head}{entry['name']}  {entry['from'] or 'none'} -> {entry['to'] or 'none'}{by}"
    count = counted(len(entry["ids"]), "changeset")
    at = f"  {date(entry['moment'], 0)}" if "moment" in entry else ""
    return f"{head}{entry['name']}  {entry['old']} -> {entry['ids'][-1]}  {count}{at}{by}"


def counted(count: int, what: str) -> str:
    """A count with its word."""
    return f"{count:,} {what}{'' if count == 1 else 's'}"


def some_of(paths: list[str]) -> str:
    """Some paths: the first few by their names, and how many more there are."""
    more = len(paths) - MOST_NAMED
    return ", ".join(paths[:MOST_NAMED]) + (f" and {more:,} more" if more > 0 else "")
