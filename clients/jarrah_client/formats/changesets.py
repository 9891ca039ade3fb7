"""Changesets: their one spelling and their ids, as docs/FORMATS.md has them."""

from __future__ import annotations

from dataclasses import dataclass, field, replace
from enum import IntEnum
from functools import cached_property
from itertools import pairwise
from typing import Any

from .fields import Fields, digest
from .paths import MOST_PATH_BYTES, is_above, path_fault, path_key

MARK = 0x43
FIRST, SECOND = 1, 2
"""The versions. The second tells where files that are set were copied from."""
MOST_AUTHOR_BYTES = 1_024
MOST_CHANGES = 4_096
MOST_CHANGESET_BYTES = 1_048_576
MOST_CONTENT_BYTES = 1_048_576
MOST_SIZE_BYTES = 67_108_864


class Kind(IntEnum):
    """What a file is."""

    REGULAR = 0
    EXECUTABLE = 1
    SYMLINK = 2

    @property
    def word(self) -> str:
        return self.name.lower()


class SelfConflict(ValueError):
    """A set path lies under another set path."""

    def __init__(self, long: str, short: str):
        super().__init__(f"{long} lies under {short}, and one changeset can't set both")
        self.long = long
        self.short = short


class CannotSpell(ValueError):
    """The values break a rule of changesets; the text says which."""


@dataclass(frozen=True)
class File:
    """A file of a tree, and what a set puts at a path."""

    content: str
    size: int
    kind: Kind = Kind.REGULAR


@dataclass(frozen=True)
class CopySource:
    """Where a file was copied from: a path at a parent, which is told by its place."""

    parent: int
    path: str


@dataclass(frozen=True)
class Changeset:
    """A changeset. `changes` maps a path to the file that is set there, or to None for a delete."""

    parents: tuple[str, ...]
    author: str
    seconds: int
    offset: int
    message: str
    changes: dict[str, File | None] = field(default_factory=dict)
    copies: dict[str, CopySource] = field(default_factory=dict)
    """Where files that are set were copied from, by their paths."""
    asked_version: int | None = None
    """The version of the spelling, where it is another than the copies want."""

    @property
    def version(self) -> int:
        """The version of the spelling."""
        return wanted_version(self.copies) if self.asked_version is None else self.asked_version

    @cached_property
    def encoded(self) -> bytes:
        """The spelling."""
        return encode(self)

    @cached_property
    def id(self) -> str:
        """The SHA-256 of the spelling, in hex."""
        return digest(self.encoded)

    @property
    def parent(self) -> str | None:
        """The first parent."""
        return self.parents[0] if self.parents else None

    @property
    def is_merge(self) -> bool:
        """Whether it has two parents."""
        return len(self.parents) == 2

    def changing(
        self,
        changes: dict[str, File | None],
        copies: dict[str, CopySource] | None = None,
        **fields: Any,
    ) -> Changeset:
        """The same with other changes, and what is copied where a path is set still."""
        kept = self.copies if copies is None else copies
        kept = {path: source for path, source in kept.items() if changes.get(path)}
        return replace(self, changes=changes, copies=kept, **fields)


def wanted_version(copies: dict[str, CopySource]) -> int:
    """The first version that has room for the copies."""
    return SECOND if copies else FIRST


def encode(changeset: Changeset) -> bytes:
    """The one spelling of a changeset, or CannotSpell or SelfConflict."""
    author = changeset.author.encode()
    message = changeset.message.encode()
    refuse_fields(changeset, author)
    refuse_copies(changeset)
    parts = [bytes((MARK, changeset.version, len(changeset.parents)))]
    parts += [bytes.fromhex(parent) for parent in changeset.parents]
    parts += [len(author).to_bytes(2, "big"), author]
    parts += [changeset.seconds.to_bytes(8, "big", signed=True)]
    parts += [changeset.offset.to_bytes(4, "big", signed=True)]
    parts += [len(message).to_bytes(4, "big"), message]
    parts += [len(changeset.changes).to_bytes(4, "big")]
    ordered = sorted(changeset.changes, key=path_key)
    refuse_conflict([path for path in ordered if changeset.changes[path]])
    parts += [encode_change(changeset, path) for path in ordered]
    spelling = b"".join(parts)
    if len(spelling) > MOST_CHANGESET_BYTES:
        raise CannotSpell(
            f"the changeset has {len(spelling):,} bytes, over {MOST_CHANGESET_BYTES:,}"
        )
    return spelling


def refuse_fields(changeset: Changeset, author: bytes) -> None:
    """Refuses values that no field can hold."""
    if not 1 <= len(author) <= MOST_AUTHOR_BYTES:
        raise CannotSpell(f"the author has {len(author):,} bytes, not 1 to {MOST_AUTHOR_BYTES:,}")
    if b"\x00" in author or b"\n" in author:
        raise CannotSpell("the author has a zero byte or a line end")
    if len(changeset.changes) > MOST_CHANGES:
        raise CannotSpell(f"{len(changeset.changes):,} paths change, over {MOST_CHANGES:,}")
    if (
        not -(2**63) <= changeset.seconds < 2**63
        or not -(2**31) <= changeset.offset < 2**31
    ):
        raise CannotSpell("the date doesn't fit its field")
    for path in changeset.changes:
        refuse_path(path)


def refuse_copies(changeset: Changeset) -> None:
    """Refuses a version that isn't known, and copy sources that it has no room for."""
    if changeset.version not in (FIRST, SECOND):
        raise CannotSpell(f"there is no version {changeset.version} of changesets")
    if changeset.version == FIRST and changeset.copies:
        raise CannotSpell("the first version of changesets has no copy sources")
    for path, source in changeset.copies.items():
        if not changeset.changes.get(path):
            raise CannotSpell(f"{path} has a copy source, and isn't set")
        if not 0 <= source.parent < len(changeset.parents):
            raise CannotSpell(f"{path} is copied from a parent that isn't there")
        refuse_path(source.path)


def refuse_path(path: str) -> None:
    """Refuses a path that breaks a rule."""
    fault = path_fault(path.encode())
    if fault:
        raise CannotSpell(f"the path {path!r} is refused: {fault}")


def encode_change(changeset: Changeset, path: str) -> bytes:
    """One change of a spelling."""
    head, file = encode_path(path), changeset.changes[path]
    if file is None:
        return head + b"\x00"
    if file.size > MOST_SIZE_BYTES:
        raise CannotSpell(f"{path} has {file.size:,} bytes, over {MOST_SIZE_BYTES:,}")
    rest = bytes((1, file.kind)) + file.size.to_bytes(8, "big") + bytes.fromhex(file.content)
    if changeset.version == SECOND:
        rest += encode_source(changeset.copies.get(path))
    return head + rest


def encode_source(source: CopySource | None) -> bytes:
    """What the second version tells behind the content id of a set."""
    return bytes((1, source.parent)) + encode_path(source.path) if source else b"\x00"


def encode_path(path: str) -> bytes:
    """A path with its length before it."""
    name = path.encode()
    return len(name).to_bytes(2, "big") + name


def refuse_conflict(set_paths: list[str]) -> None:
    """Refuses a set path under another; `set_paths` rise.

    What lies under a path follows it at once, so neighbours tell.
    """
    for above, path in pairwise(set_paths):
        if is_above(above, path):
            raise SelfConflict(path, above)


def decode(data: bytes) -> Changeset:
    """The changeset that the bytes spell, or BadEncoding or SelfConflict."""
    fields = Fields(data)
    fields.require(fields.number(1) == MARK)
    version = fields.number_in(1, FIRST, SECOND)
    parents = [fields.id() for _ in range(fields.number_in(1, 0, 2))]
    fields.require(len(set(parents)) == len(parents))
    author = fields.text(fields.number_in(2, 1, MOST_AUTHOR_BYTES))
    fields.require("\x00" not in author and "\n" not in author)
    seconds = fields.number(8, signed=True)
    offset = fields.number(4, signed=True)
    message = fields.text(fields.number_in(4, 0, MOST_CHANGESET_BYTES))
    changes, copies = decode_changes(fields, version, len(parents))
    fields.end()
    refuse_conflict([path for path, file in changes.items() if file])
    asked = None if version == wanted_version(copies) else version
    return Changeset(tuple(parents), author, seconds, offset, message, changes, copies, asked)


def decode_changes(
    fields: Fields, version: int, parents: int
) -> tuple[dict[str, File | None], dict[str, CopySource]]:
    """The changes of a spelling by rising paths, and which of them are copies of what."""
    changes: dict[str, File | None] = {}
    copies: dict[str, CopySource] = {}
    last: tuple[bytes, ...] | None = None
    for _ in range(fields.number_in(4, 0, MOST_CHANGES)):
        path = decode_path(fields)
        fields.require(last is None or path_key(path) > last)
        last = path_key(path)
        changes[path] = decode_file(fields) if fields.number_in(1, 0, 1) else None
        if changes[path] and version == SECOND and fields.number_in(1, 0, 1):
            copies[path] = decode_source(fields, parents)
    return changes, copies


def decode_path(fields: Fields) -> str:
    """A path with its length before it."""
    data = fields.take(fields.number_in(2, 1, MOST_PATH_BYTES))
    fields.require(path_fault(data) is None)
    return data.decode()


def decode_file(fields: Fields) -> File:
    """What a set puts at its path."""
    kind = Kind(fields.number_in(1, 0, 2))
    size = fields.number_in(8, 0, MOST_SIZE_BYTES)
    return File(fields.id(), size, kind)


def decode_source(fields: Fields, parents: int) -> CopySource:
    """Where a file was copied from, at one of so many parents."""
    return CopySource(fields.number_in(1, 0, parents - 1), decode_path(fields))
