"""What a conflict had here before it got its marks, kept until it is settled."""

from __future__ import annotations

import shutil

from ..formats.changesets import File
from ..net.contents import Data, Source, fetched
from ..net.server import Server, Trouble
from . import disk
from .state import FOLDER, KINDS, WorkingCopy

OURS = "ours"
"""The folder of contents that may be nowhere else."""


def hold(copy: WorkingCopy, path: str, file: File | None, source: Source | None = None) -> None:
    """Keeps a conflict's file; the bytes too where they are given, since no server has them."""
    copy.state.ours[path] = [file.kind.word, file.size, file.content] if file else None
    if not source:
        return
    folder = copy.top / FOLDER / OURS
    try:
        folder.mkdir(exist_ok=True)
        with (folder / source.id).open("wb") as out:
            for number in range(len(source.pieces)):
                out.write(source.piece(number))
    except OSError as fault:
        raise Trouble(f"{folder}: {fault.strerror}") from None


def held(copy: WorkingCopy, path: str) -> File | None:
    """The file that a conflict had here, or None for nothing."""
    found = copy.state.ours[path]
    if found is None:
        return None
    kind, size, content = found
    return File(str(content), int(size), KINDS[kind])


def put_back(copy: WorkingCopy, server: Server, path: str) -> None:
    """Puts back what a conflict had here; where nothing is kept, it is there as it was."""
    if path not in copy.state.ours:
        return
    file = held(copy, path)
    if file is None:
        disk.remove(copy.top, path)
    else:
        disk.put(copy.top, path, file, data_of(copy, server, file))


def data_of(copy: WorkingCopy, server: Server, file: File) -> Data:
    """The bytes of such a file."""
    try:
        return (copy.top / FOLDER / OURS / file.content).read_bytes()
    except FileNotFoundError:
        return fetched(server, file)
    except OSError as fault:
        raise Trouble(f"{file.content}: {fault.strerror}") from None


def forget(copy: WorkingCopy) -> None:
    """Lets go of what is no conflict any more."""
    state = copy.state
    state.ours = {path: one for path, one in state.ours.items() if path in state.conflicts}
    if not state.ours:
        shutil.rmtree(copy.top / FOLDER / OURS, ignore_errors=True)
