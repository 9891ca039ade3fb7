"""Contents of any size: those over a piece are stored in pieces, and read piece by piece."""

from __future__ import annotations

import io
import os
import stat
import tempfile
from collections.abc import Iterable, Iterator, Sequence
from dataclasses import dataclass
from functools import partial
from hashlib import sha256
from itertools import chain
from pathlib import Path
from typing import IO

from ..formats.changesets import MOST_CONTENT_BYTES, MOST_SIZE_BYTES, File
from ..formats.fields import digest
from ..refusals import about
from ..terminal.progress import Progress
from .pool import Pool
from .server import BadAnswer, Server, Trouble, writing

PIECE_BYTES = MOST_CONTENT_BYTES
"""What one request stores. A content of more is stored in pieces of so many bytes."""

FEW = 2
"""So many contents go up one after another: connections of their own would be no faster."""
CONNECTIONS = 8
"""More go up side by side, over so many connections at most."""

Data = bytes | IO[bytes]
"""A content that was read: its bytes, or of a large one a file of them, at its beginning."""


@dataclass(frozen=True)
class Source:
    """Bytes that are to be stored, by their id and the ids of their pieces."""

    name: str
    """What they are called where something is told of them."""
    id: str
    size: int
    pieces: tuple[str, ...]
    held: bytes | IO[bytes] | Path
    """The bytes, or the file that has them."""

    @property
    def is_large(self) -> bool:
        """Whether they take several pieces."""
        return len(self.pieces) > 1

    def piece(self, number: int) -> bytes:
        """One of the pieces, by its number; trouble where the file isn't as it was."""
        at = number * PIECE_BYTES
        if isinstance(self.held, bytes):
            return self.held[at : at + PIECE_BYTES]
        data = read_at(self.held, at)
        if digest(data) != self.pieces[number]:
            raise Trouble(f"{self.name} was changed while it was read")
        return data

    def read(self) -> bytes:
        """All of the bytes."""
        return b"".join(self.piece(number) for number in range(len(self.pieces)))


def read_at(held: IO[bytes] | Path, at: int) -> bytes:
    """A piece of a file."""
    if isinstance(held, Path):
        try:
            with held.open("rb") as file:
                return read_at(file, at)
        except OSError as fault:
            raise Trouble(f"{held}: {fault.strerror}") from None
    held.seek(at)
    return held.read(PIECE_BYTES)


def in_memory(name: str, data: bytes) -> Source:
    """The source of some bytes."""
    refuse_large(name, len(data))
    cuts = range(0, len(data), PIECE_BYTES) if len(data) > PIECE_BYTES else ()
    id = digest(data)
    pieces = tuple(digest(data[at : at + PIECE_BYTES]) for at in cuts) or (id,)
    return Source(name, id, len(data), pieces, data)


def in_file(name: str, place: Path) -> Source:
    """The source of a file's bytes. What can't be read twice, such as a pipe, is kept beside."""
    with place.open("rb") as file:
        status = os.fstat(file.fileno())
        is_file = stat.S_ISREG(status.st_mode)
        if is_file:
            refuse_large(name, status.st_size)
        return in_stream(name, file, place if is_file else None)


def in_stream(name: str, stream: IO[bytes], place: Path | None = None) -> Source:
    """The source of what a stream has to its end. `place` is where that can be read again."""
    first, second = stream.read(PIECE_BYTES), stream.read(PIECE_BYTES)
    if not second:
        return in_memory(name, first)
    rest = iter(lambda: stream.read(PIECE_BYTES), b"")
    spool: IO[bytes] | None = None if place else tempfile.TemporaryFile()
    again = spool or place
    assert again
    whole, pieces, size = sha256(), [], 0
    for data in chain((first, second), rest):
        size += len(data)
        if size > MOST_SIZE_BYTES:
            raise Trouble(f"{name} has more than {MOST_SIZE_BYTES:,} bytes")
        whole.update(data)
        pieces.append(digest(data))
        if spool:
            spool.write(data)
    return Source(name, whole.hexdigest(), size, tuple(pieces), again)


def refuse_large(name: str, size: int) -> None:
    """Refuses what no content can hold."""
    if size > MOST_SIZE_BYTES:
        raise Trouble(f"{name} has {size:,} bytes, over {MOST_SIZE_BYTES:,}")


# Storing


def store_all(
    server: Server,
    sources: Iterable[Source],
    *,
    quietly: bool = False,
    connections: int = CONNECTIONS,
) -> None:
    """Stores contents, and tells how far that is.

    Large ones come first, so that a server which can't have them says so before anything is sent.
    """
    ordered = sorted(sources, key=lambda source: not source.is_large)
    small = [source for source in ordered if not source.is_large]
    with Progress("contents", len(ordered), io.StringIO() if quietly else None) as progress:
        for source in ordered[: len(ordered) - len(small)]:
            store(server, source, progress)
            progress.detail = ""
            progress.step()
        if len(small) <= FEW or connections == 1:
            for source in small:
                store(server, source, progress)
                progress.step()
        else:
            store_side_by_side(server, small, progress, connections)


def store_side_by_side(
    server: Server, sources: Sequence[Source], progress: Progress, connections: int
) -> None:
    """Stores contents of a piece each over several connections, so that syncs are shared."""
    pool = Pool(server, min(connections, len(sources)))
    try:
        with pool:
            coming = [pool.ask(partial(put_small, source=source)) for source in sources]
            for future in coming:
                future.result()
                progress.step()
    finally:
        pool.join()


def put_small(server: Server, source: Source) -> None:
    """Stores a content of one piece."""
    server.put_content(source.id, source.piece(0))


def store(server: Server, source: Source, progress: Progress) -> None:
    """Stores a content; a large one in pieces, of which those that the server has aren't sent.

    It tells the first piece that it lacks. Those behind it are sent without asking, twice as many
    each time, so that a new file takes few questions, and one with a new end few pieces.
    """
    if not source.is_large:
        put_small(server, source)
        return
    sent: set[str] = set()
    count = 1
    with about(source.name):
        while (lacking := server.put_whole(source.id, source.pieces)) is not None:
            need_new(server, source, lacking, sent)
            at = source.pieces.index(lacking)
            for number in range(at, min(at + count, len(source.pieces))):
                piece = source.pieces[number]
                progress.detail = f"{source.name}: {number} of {len(source.pieces)} pieces"
                progress.part = number / len(source.pieces)
                progress.tick()
                if piece not in sent:
                    server.put_content(piece, source.piece(number))
                    sent.add(piece)
            count *= 2


def need_new(server: Server, source: Source, lacking: str, sent: set[str]) -> None:
    """Refuses to go on where a server lacks what was stored, or what it wasn't asked for."""
    if lacking in sent or lacking not in source.pieces:
        raise lacks(server, lacking)


def join(server: Server, id: str, pieces: Sequence[str]) -> None:
    """Joins pieces that are stored."""
    lacking = server.put_whole(id, pieces)
    if lacking is not None:
        raise lacks(server, lacking)


def lacks(server: Server, piece: str) -> BadAnswer:
    return BadAnswer(f"{server.url} doesn't have the piece {piece}, which it should have")


# Reading


def fetched(server: Server, file: File) -> Data:
    """A file's content. A large one is in a file of its own, that goes with the last use of it."""
    if file.size <= PIECE_BYTES:
        return server.content(file.content)
    with writing():
        held = tempfile.TemporaryFile()
    server.content_to(file.content, held)
    return held


def pieces_of(data: Data) -> Iterator[bytes]:
    """The pieces of a content that was read."""
    if isinstance(data, bytes):
        return iter((data,))
    return iter(partial(data.read, PIECE_BYTES), b"")


def put_into(out: IO[bytes], data: Data) -> None:
    """Writes a content that was read."""
    for piece in pieces_of(data):
        out.write(piece)


def bytes_of(data: Data) -> bytes:
    """All of a content that was read."""
    return b"".join(pieces_of(data))
