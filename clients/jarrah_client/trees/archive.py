"""A tree as a tar archive (POSIX.1-2001), written as its contents come."""

from __future__ import annotations

import io
import os
import tarfile
from collections.abc import Iterable
from typing import IO, Protocol, cast

from ..formats.changesets import File, Kind
from ..formats.paths import path_fault
from ..net.contents import Data, bytes_of
from ..net.server import Trouble
from ..refusals import Refused
from .tree import Tree

MODES = {Kind.REGULAR: 0o644, Kind.EXECUTABLE: 0o755, Kind.SYMLINK: 0o777}
BLOCK_BYTES = 1 << 18


def archived(tree: Tree, path: str) -> list[tuple[str, File]]:
    """The files at and under a path of a tree, by their whole paths."""
    try:
        tree.list(path)
    except Refused as refusal:
        if refusal.code != "not-a-dir":
            raise
        return [(path, tree.file(path))]
    return list(tree.files(path))


class Out(Protocol):
    """Takes the bytes of an archive."""

    def write(self, data: bytes, /) -> object:
        """Takes some bytes."""


class Sink:
    """Passes bytes on, until the archive is over: one that broke off has nothing more to say."""

    def __init__(self, out: Out):
        self.out = out
        self.is_over = False

    def write(self, data: bytes) -> None:
        if not self.is_over:
            self.out.write(data)


def write_archive(
    out: Out, coming: Iterable[tuple[str, File, Data]], seconds: int, prefix: str = ""
) -> int:
    """Writes files with their contents, and gives how many. All have the same time.

    Where something goes wrong the archive has no end, and who reads it is told that it is cut off.
    """
    count, sink = 0, Sink(out)
    stream = cast("IO[bytes]", sink)
    form = tarfile.PAX_FORMAT
    archive = tarfile.open(fileobj=stream, mode="w|", format=form, bufsize=BLOCK_BYTES)
    try:
        for path, file, data in coming:
            add(archive, prefix + path, file, data, max(0, seconds))
            count += 1
        archive.close()
    finally:
        sink.is_over = True
    return count


def add(archive: tarfile.TarFile, name: str, file: File, data: Data, seconds: int) -> None:
    """Adds a file."""
    entry = tarfile.TarInfo(name)
    entry.mode, entry.mtime = MODES[file.kind], seconds
    if file.kind is Kind.SYMLINK:
        entry.type, entry.linkname = tarfile.SYMTYPE, os.fsdecode(bytes_of(data))
        archive.addfile(entry)
        return
    entry.size = file.size
    archive.addfile(entry, io.BytesIO(data) if isinstance(data, bytes) else data)


def prefix_of(text: str) -> str:
    """What stands before the paths of an archive, by the rules of paths."""
    fault = path_fault(text.rstrip("/").encode(errors="surrogateescape")) if text else None
    if fault:
        raise Trouble(f"the prefix {text!r} is refused: {fault}")
    return text
