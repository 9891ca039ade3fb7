"""Making changesets from files, and landing them."""

from __future__ import annotations

import re
import subprocess
import sys
import time
from dataclasses import dataclass
from datetime import datetime, timedelta
from pathlib import Path

from ..formats.changesets import Changeset, File, Kind, refuse_path
from ..formats.paths import is_bookmark_name, path_key
from ..history.repository import need_head
from ..net.contents import Source, in_file, in_memory, in_stream, store_all
from ..net.server import Server, Trouble
from ..refusals import Refused
from ..settings import setting
from ..trees.tree import Tree, tree_of
from .landing import need_author
from .said import SaidChanges, SaidWords

ROOT = Changeset((), "jarrah", 0, 0, "")
"""The root that `init` makes. All bookmarks share it, so drafts can land on each."""


@dataclass(frozen=True)
class Written:
    """Changes that a person names, and the contents that they set, by their ids."""

    changes: dict[str, File | None]
    contents: dict[str, Source]


def changes_of(said: SaidChanges) -> Written:
    """The changes of `--set`, `--exec`, `--symlink` and `--delete`."""
    written = Written({}, {})
    for kind, words in (
        (Kind.REGULAR, said.set),
        (Kind.EXECUTABLE, said.exec),
        (Kind.SYMLINK, said.symlink),
    ):
        for path, word in words:
            is_link = kind is Kind.SYMLINK
            source = in_memory(path, word.encode()) if is_link else read(path, word)
            put(written, path, source, kind)
    for path in said.delete:
        add(written, path, None)
    return written


def deleted(server: Server, parent: str | None, paths: list[str], recursive: bool) -> list[str]:
    """The files that deletes of some paths mean; each has to be there."""
    for path in paths:
        refuse_path(path)
    tree = tree_of(server, parent) if parent and paths else None
    return [one for path in paths for one in deleted_by(tree, path, recursive)]


def deleted_by(tree: Tree | None, path: str, recursive: bool) -> list[str]:
    """The files that the delete of one path means."""
    if tree is None:
        raise Trouble(f"there is nothing at {path} to delete")
    try:
        tree.file(path)
        return [path]
    except Refused as refusal:
        if refusal.code == "no-path":
            raise Trouble(f"there is nothing at {path} to delete") from None
        if refusal.code != "not-a-file":
            raise
    below = [one for one, _ in tree.files(path)]
    if not recursive:
        count = f"{len(below):,} file{'' if len(below) == 1 else 's'}"
        raise Trouble(f"{path} is a directory of {count}: `-r` deletes and lists them")
    return below


def put(written: Written, path: str, source: Source, kind: Kind) -> None:
    """Adds a set of a path."""
    written.contents[source.id] = source
    add(written, path, File(source.id, source.size, kind))


def add(written: Written, path: str, file: File | None) -> None:
    """Adds a change of a path that has none yet."""
    if path in written.changes:
        raise Trouble(f"{path} is given twice")
    written.changes[path] = file


def read(path: str, place: str) -> Source:
    """What a path is to be set to: a file's bytes, or with `-` those of the standard input."""
    try:
        return in_stream(path, sys.stdin.buffer) if place == "-" else in_file(path, Path(place))
    except OSError as fault:
        raise Trouble(f"{place}: {fault.strerror}") from None


def upload(
    server: Server, said: SaidChanges, parent: str | None, written: Written, message: str
) -> Changeset:
    """Uploads the contents of a draft, each once, and then the draft."""
    changeset = prepared(server, said, parent, written, message)
    server.put_changeset(changeset)
    return changeset


def prepared(
    server: Server, said: SaidChanges, parent: str | None, written: Written, message: str
) -> Changeset:
    """A draft whose contents are stored, and it isn't yet."""
    author = author_of(said, server)
    seconds, offset = said.date or now()
    parents = (parent,) if parent else ()
    sets = {path: file for path, file in written.changes.items() if file}
    gone = deleted(server, parent, said.delete, said.recursive)
    changes = sets | {path: None for path in gone if path not in sets}
    ordered = {path: changes[path] for path in sorted(changes, key=path_key)}
    changeset = Changeset(parents, author, seconds, offset, message, ordered)
    refuse_faulty(changeset)
    store_all(server, written.contents.values())
    return changeset


def refuse_faulty(changeset: Changeset) -> None:
    """Finds what no changeset can hold before anything is uploaded."""
    _ = changeset.encoded


def initialize(server: Server, bookmark: str) -> str:
    """Makes the empty root changeset and a bookmark at it."""
    need_name(bookmark)
    if server.head(bookmark) is not None:
        raise Trouble(f"there is a bookmark {bookmark} already")
    server.put_changeset(ROOT)
    server.move_bookmark(bookmark, None, ROOT.id)
    return ROOT.id


def head_for_commit(server: Server, bookmark: str) -> str:
    """The head that a commit is made onto."""
    need_name(bookmark)
    return need_head(server, bookmark)


def need_name(name: str) -> None:
    """Refuses a name that no bookmark may have."""
    if not is_bookmark_name(name):
        raise Trouble(f"{name!r} is no bookmark's name: it is 1 to 128 of A-Z a-z 0-9 _ . -")


def now() -> tuple[int, int]:
    """The present second, and this place's offset from UTC in seconds."""
    seconds = int(time.time())
    return seconds, time.localtime(seconds).tm_gmtoff


def read_date(text: str) -> tuple[int, int]:
    """A date such as `@1700000000 +0100` or `2026-01-31T12:00:00+01:00`."""
    found = re.fullmatch(r"@(-?\d+)(?: ([+-])(\d\d)(\d\d))?", text)
    if found:
        seconds, sign, hours, minutes = found.groups(default="0")
        offset = int(hours) * 3_600 + int(minutes) * 60
        return int(seconds), -offset if sign == "-" else offset
    moment = datetime.fromisoformat(text)
    if moment.tzinfo is None:
        moment = moment.astimezone()
    east = moment.utcoffset() or timedelta()
    return int(moment.timestamp()), int(east.total_seconds())


def author_of(said: SaidWords, server: Server) -> str:
    """The author that is said, or who is by JARRAH_AUTHOR, the configuration file or git."""
    if said.author is not None:
        return need_author(said.author)
    author = setting("author", server.url) or git_user()
    if not author or not author.strip():
        ways = "say `--author`, or set JARRAH_AUTHOR or git's user.name"
        raise Trouble(f"nobody is the author: {ways}")
    return author


def git_user() -> str:
    """The user that git is set to."""
    name, address = git_setting("user.name"), git_setting("user.email")
    return f"{name} <{address}>" if name and address else name


def git_setting(key: str) -> str:
    """A setting of git, or nothing."""
    try:
        done = subprocess.run(["git", "config", key], capture_output=True, text=True)
    except FileNotFoundError:
        return ""
    return done.stdout.strip()
