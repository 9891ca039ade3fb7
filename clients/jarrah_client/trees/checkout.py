"""Writing a changeset's tree into a folder, and contents in order for who writes them elsewhere."""

from __future__ import annotations

import os
from collections import deque
from collections.abc import Callable, Generator, Iterable, Iterator
from concurrent.futures import Future
from contextlib import closing
from functools import partial
from pathlib import Path

from ..formats.changesets import File, Kind
from ..net.contents import Data, bytes_of, pieces_of
from ..net.crew import shared_out
from ..net.pipeline import contents
from ..net.pool import Pool
from ..net.server import Server, Trouble
from ..terminal.progress import Progress

CHUNK_FILES = 256
CHUNK_BYTES = 4 << 20
"""So many files, of about so many bytes, are read and written at a time by one connection."""
MANY_FILES = 2_000
"""From so many on it pays to begin processes for them."""
AHEAD_CHUNKS = 8
AHEAD_BYTES = 128 << 20
"""How many chunks of contents are asked for ahead of the one that is written, and of how many
bytes."""
WRITING = os.O_WRONLY | os.O_CREAT | os.O_TRUNC | getattr(os, "O_BINARY", 0)
MODES = {Kind.REGULAR: 0o666, Kind.EXECUTABLE: 0o777}

Files = list[tuple[str, File]]
Times = tuple[int, int, int]
"""A file's size on the disk, and when it and its entry were changed, in nanoseconds."""


def check_out(
    server: Server, files: Files, folder: Path, connections: int
) -> Generator[tuple[str, File, Times], None, None]:
    """Writes files into a folder that is new or empty, and gives each with its times, in no
    order."""
    return written(server, files, partial(write_chunk, top=os.fspath(folder)), connections)


def written(
    server: Server, files: Files, work: Callable[..., list[Times]], connections: int
) -> Generator[tuple[str, File, Times], None, None]:
    """Files with their times, in no order, as work on chunks of them writes them."""
    chunks, is_much = list(chunked(files)), len(files) >= MANY_FILES
    shared = shared_out(server, connections, work, chunks, is_much=is_much)
    with closing(shared) as done, Progress("files", len(files)) as progress:
        for chunk, times in done:
            progress.steps(len(chunk))
            for (path, file), one in zip(chunk, times):
                yield path, file, one


def chunked(files: Iterable[tuple[str, File]]) -> Iterator[Files]:
    """Files in chunks of about the same work."""
    chunk: Files = []
    size = 0
    for path, file in files:
        chunk.append((path, file))
        size += file.size
        if len(chunk) == CHUNK_FILES or size >= CHUNK_BYTES:
            yield chunk
            chunk, size = [], 0
    if chunk:
        yield chunk


def with_contents(
    pool: Pool, files: Iterable[tuple[str, File]]
) -> Iterator[tuple[str, File, Data]]:
    """Files with their contents, in order, some contents ahead on their way."""
    coming: deque[tuple[Files, Future[list[Data]]]] = deque()
    ahead = 0
    for chunk in chunked(files):
        coming.append((chunk, pool.ask(partial(contents_of, chunk=chunk))))
        ahead += size_of(chunk)
        while len(coming) > AHEAD_CHUNKS or (ahead > AHEAD_BYTES and len(coming) > 1):
            ahead -= size_of(coming[0][0])
            yield from come(*coming.popleft())
    while coming:
        yield from come(*coming.popleft())


def size_of(chunk: Files) -> int:
    """The bytes of a chunk's contents."""
    return sum(file.size for _, file in chunk)


def contents_of(server: Server, chunk: Files) -> list[Data]:
    """The contents of a chunk's files."""
    return list(contents(server, [file for _, file in chunk]))


def come(chunk: Files, data: Future[list[Data]]) -> Iterator[tuple[str, File, Data]]:
    """A chunk's files with their contents, once those are there."""
    for (path, file), one in zip(chunk, data.result()):
        yield path, file, one


def prepare(folder: Path) -> None:
    """Makes the folder, or finds it empty."""
    try:
        folder.mkdir(parents=True, exist_ok=True)
        if any(folder.iterdir()):
            raise Trouble(f"{folder} isn't empty")
    except OSError as fault:
        raise Trouble(f"{folder}: {fault.strerror}") from None


def write_chunk(server: Server, chunk: Files, top: str) -> list[Times]:
    """Reads and writes some files, and gives their times."""
    times, made = [], ""
    with closing(contents(server, [file for _, file in chunk])) as coming:
        for (path, file), data in zip(chunk, coming):
            above = path.rpartition("/")[0]
            if above != made:
                make_folders(f"{top}/{above}")
                made = above
            times.append(write(f"{top}/{path}", file, data))
    return times


def make_folders(place: str) -> None:
    """Makes a folder and those above it, where they aren't there."""
    try:
        os.makedirs(place, exist_ok=True)
    except (OSError, ValueError) as fault:
        raise cannot(place, fault) from None


def write(place: str, file: File, data: Data) -> Times:
    """Writes one file, and gives its times."""
    try:
        if file.kind is Kind.SYMLINK:
            put_link(os.fsencode(place), bytes_of(data))
        else:
            put_down(place, data, MODES[file.kind])
        status = os.lstat(place)
    except (OSError, ValueError) as fault:
        raise cannot(place, fault) from None
    return status.st_size, status.st_mtime_ns, status.st_ctime_ns


def put_link(place: bytes, target: bytes) -> None:
    """Makes a link, in place of one that an earlier try of the same chunk has made."""
    try:
        os.symlink(target, place)
    except FileExistsError:
        os.unlink(place)
        os.symlink(target, place)


def put_down(place: str, data: Data, mode: int) -> None:
    """Writes the bytes of a file. Nothing of it waits in a buffer of this program."""
    number = os.open(place, WRITING, mode)
    try:
        for piece in pieces_of(data):
            while piece:
                piece = piece[os.write(number, piece) :]
    finally:
        os.close(number)


def cannot(place: str, fault: OSError | ValueError) -> Trouble:
    """Why a place can't be written."""
    return Trouble(f"{place}: {getattr(fault, 'strerror', None) or fault}")
