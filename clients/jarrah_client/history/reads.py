"""Which changeset a path of a bookmark was last read at, kept beside the user's cache.

So a change of a file that somebody else has changed since is refused, as a working copy would.
"""

from __future__ import annotations

import json
from collections.abc import Iterable
from pathlib import Path
from typing import BinaryIO

from ..formats.changesets import File
from ..formats.fields import digest
from ..net.server import Server, Trouble
from ..refusals import Refused
from ..trees.tree import Tree, tree_of
from .log_cache import cache_folder, opened

MOST_READS = 10_000
"""So many are kept for a server, the newest."""
ALL = ""
"""Stands for all paths of a bookmark."""


def remember(server: Server, bookmark: str, path: str, id: str) -> None:
    """Keeps that a path, or ALL, was read at a changeset."""
    with opened(place(server), waits=True) as file:
        if file is None:
            return
        reads = load(file)
        for key in [key for key in reads if key[0] == bookmark and path in (ALL, key[1])]:
            del reads[key]
        reads[bookmark, path] = id
        lines = [json.dumps([*key, at]) for key, at in list(reads.items())[-MOST_READS:]]
        file.seek(0)
        file.truncate(0)
        file.write("".join(f"{line}\n" for line in lines).encode())


def load(file: BinaryIO) -> dict[tuple[str, str], str]:
    """The reads of a file, by bookmark and path; lines that say nothing are passed over."""
    file.seek(0)
    reads = {}
    for line in file:
        try:
            bookmark, path, id = json.loads(line)
        except ValueError:
            continue
        reads[str(bookmark), str(path)] = str(id)
    return reads


def place(server: Server) -> Path:
    return cache_folder() / "reads" / digest(server.url.encode())[:32]


def refuse_stale(server: Server, bookmark: str, head: str, paths: Iterable[str]) -> None:
    """Refuses paths that differ at the head from where they were read."""
    with opened(place(server), waits=True) as file:
        reads = load(file) if file else {}
    trees = {head: tree_of(server, head)} if reads else {}
    for path in paths:
        at = reads.get((bookmark, path)) or reads.get((bookmark, ALL))
        if at is None or at == head:
            continue
        try:
            trees.setdefault(at, tree_of(server, at))
        except Refused:
            continue
        if file_at(trees[at], path) != file_at(trees[head], path):
            raise Trouble(
                f"{path} was changed on {bookmark} since it was read at {at[:12]}:"
                f" read it again, or say `--base {bookmark}` to put this over it"
            )


def file_at(tree: Tree, path: str) -> File | None:
    """The file at a path, or None."""
    try:
        return tree.file(path)
    except Refused as refusal:
        if refusal.code not in ("no-path", "not-a-file"):
            raise
        return None
