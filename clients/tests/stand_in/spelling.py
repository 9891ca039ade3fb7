"""What changesets and nodes are spelled as, written apart from the client's code."""

from __future__ import annotations

import struct
from collections.abc import Callable
from dataclasses import dataclass
from functools import cached_property
from hashlib import sha256

MOST = 1_048_576
MOST_SIZE = 67_108_864
LAST_SECOND = 2**63 - 1
MOST_LISTED = 100


def digest(data: bytes) -> str:
    return sha256(data).hexdigest()


class Refusal(Exception):
    """A refusal with its status, its code and the other members of its body."""

    def __init__(self, status: int, code: str, **members):
        super().__init__(code)
        self.status = status
        self.code = code
        self.members = members
        self.at: int | None = None
        """The place in a list of what was refused."""


@dataclass(frozen=True)
class Set:
    content: str
    size: int
    kind: int
    copied: tuple[int, str] | None = None
    """The place of a parent, and the path there, that it was copied from."""


@dataclass(frozen=True)
class Record:
    """A changeset with its spelling. `changes` has (path, Set or None) by rising paths."""

    id: str
    data: bytes
    parents: tuple[str, ...]
    changes: tuple[tuple[str, Set | None], ...]

    @property
    def is_dated(self) -> bool:
        """Whether a landing gives it its moment: it is of version 2."""
        return self.data[1] == 2

    @property
    def touched(self) -> list[str]:
        return [path for path, _ in self.changes]

    @cached_property
    def by_path(self) -> dict[str, Set | None]:
        return dict(self.changes)

    def set_at(self, path: str) -> Set | None:
        return self.by_path.get(path)


def key(path: str) -> list[bytes]:
    return path.encode().split(b"/")


def above(short: str, long: str) -> bool:
    """Whether `short` is a strict front of `long`, element by element."""
    left, right = short.split("/"), long.split("/")
    return len(left) < len(right) and right[: len(left)] == left


def comparable(left: str, right: str) -> bool:
    return left == right or above(left, right) or above(right, left)


def is_element(data: bytes) -> bool:
    try:
        data.decode()
    except UnicodeDecodeError:
        return False
    return 1 <= len(data) <= 255 and not set(data) & {0, 10, 47} and data not in (b".", b"..")


NAME_BYTES = b"ABCDEFGHIJKLMNOPQRSTUVWXYZabcdefghijklmnopqrstuvwxyz0123456789_.-"


def name_place(data: bytes) -> int | None:
    """Where a bookmark's or a caller's name is at fault: its first wrong byte, or 128."""
    fault = next((at for at, byte in enumerate(data[:128]) if byte not in NAME_BYTES), None)
    return 128 if fault is None and len(data) > 128 else fault


def is_name(data: bytes) -> bool:
    return bool(data) and name_place(data) is None


def path_place(data: bytes) -> int | None:
    """The place of a path's fault: 0, 4,096, or where the first faulty element begins."""
    if not data:
        return 0
    if len(data) > 4_096:
        return 4_096
    place = 0
    for element in data.split(b"/"):
        if not is_element(element):
            return place
        place += len(element) + 1
    return None


class Reader:
    """Takes fields off the front of some bytes."""

    def __init__(self, data: bytes):
        self.data = data
        self.at = 0

    def take(self, count: int, rule: Callable[[bytes], bool] = lambda piece: True) -> bytes:
        piece = self.data[self.at : self.at + count]
        if len(piece) < count or not rule(piece):
            raise Refusal(422, "bad-encoding", place=self.at)
        self.at += count
        return piece

    def number(self, count: int, least: int, most: int) -> int:
        piece = self.take(count, lambda p: least <= int.from_bytes(p, "big") <= most)
        return int.from_bytes(piece, "big")


def listed(data: bytes) -> list[bytes]:
    """The spellings of a list, each behind its length, or where it is at fault."""
    reader, found = Reader(data), []
    while not found or reader.at < len(data):
        if len(found) == MOST_LISTED:
            raise Refusal(422, "bad-encoding", place=reader.at)
        found.append(reader.take(reader.number(4, 0, 2**32 - 1)))
    return found


def read_changeset(data: bytes) -> Record:
    """The changeset that the bytes spell, or the refusal that comes first."""
    if len(data) > MOST:
        raise Refusal(413, "too-long", length=len(data))
    reader = Reader(data)
    reader.take(1, lambda p: p == b"\x43")
    version = reader.number(1, 1, 2)
    parents: list[bytes] = []
    for _ in range(reader.number(1, 0, 2)):
        parents.append(reader.take(32, lambda p: p not in parents))
    reader.take(reader.number(2, 1, 1_024), lambda p: is_utf8(p) and not set(p) & {0, 10})
    reader.take(8)
    reader.take(4)
    reader.take(reader.number(4, 0, MOST), is_utf8)
    changes: list[tuple[str, Set | None]] = []
    for _ in range(reader.number(4, 0, 4_096)):
        changes.append(read_change(reader, changes, version, len(parents)))
    if reader.at != len(data):
        raise Refusal(422, "bad-encoding", place=reader.at)
    refuse_conflict([path for path, file in changes if file])
    return Record(digest(data), data, tuple(p.hex() for p in parents), tuple(changes))


def read_change(reader: Reader, before: list, version: int, parents: int) -> tuple[str, Set | None]:
    length = reader.number(2, 1, 4_096)
    path = reader.take(length, lambda p: path_place(p) is None and follows(p, before)).decode()
    if reader.number(1, 0, 1) == 0:
        return path, None
    kind = reader.number(1, 0, 2)
    size = reader.number(8, 0, MOST_SIZE)
    content = reader.take(32).hex()
    copied = read_source(reader, parents) if version == 2 else None
    return path, Set(content, size, kind, copied)


def read_source(reader: Reader, parents: int) -> tuple[int, str] | None:
    if reader.number(1, 0, 1) == 0:
        return None
    place = reader.take(1, lambda p: p[0] < parents)[0]
    length = reader.number(2, 1, 4_096)
    return place, reader.take(length, lambda p: path_place(p) is None).decode()


def follows(path: bytes, changes: list) -> bool:
    return not changes or path.split(b"/") > key(changes[-1][0])


def is_utf8(data: bytes) -> bool:
    try:
        data.decode()
    except UnicodeDecodeError:
        return False
    return True


def refuse_conflict(paths: list[str]) -> None:
    """The least set path under another, with the shortest above it."""
    known = set(paths)
    for path in paths:
        elements = path.split("/")
        for count in range(1, len(elements)):
            short = "/".join(elements[:count])
            if short in known:
                raise Refusal(422, "self-conflict", long=path, short=short)


def with_parent(record: Record, parent: str, moment: int) -> Record:
    """The changeset with another parent, and with this date where it is of version 2."""
    data = record.data[:3] + bytes.fromhex(parent) + record.data[35:]
    if record.is_dated:
        date = 37 + int.from_bytes(data[35:37], "big")
        seconds = struct.pack(">Q", min(moment, LAST_SECOND))
        data = data[:date] + seconds + bytes(4) + data[date + 12 :]
    return Record(digest(data), data, (parent,), record.changes)


def summary_bytes(summary: tuple[int, ...]) -> bytes:
    return struct.pack(">5Q", *summary)
