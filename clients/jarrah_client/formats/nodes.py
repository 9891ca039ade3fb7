"""Nodes of manifests: fsnodes and unodes, as docs/FORMATS.md has them."""

from __future__ import annotations

import operator
import struct
from collections.abc import Iterator
from dataclasses import astuple, dataclass

from .changesets import File, Kind
from .fields import Fields
from .paths import element_fault

FSNODE_MARK = 0x46
UNODE_MARK = 0x55
FILE_UNODE_MARK = 0x56
VERSION = 0x01
FSNODE_HEAD = bytes((FSNODE_MARK, VERSION))
SUMMARY_AND_COUNT = struct.Struct(">5QI")
FILE_ENTRY = struct.Struct(">BQ32s")
DIRECTORY_ENTRY = struct.Struct(">32s5Q")
KINDS = {int(kind): kind for kind in Kind}
NO_NAMES = {b"", b".", b".."}


@dataclass(frozen=True)
class Summary:
    """Counts and sizes (in bytes) of a directory's files and directories."""

    child_files: int = 0
    child_files_size: int = 0
    child_dirs: int = 0
    descendant_files: int = 0
    descendant_files_size: int = 0


@dataclass(frozen=True)
class Directory:
    """A directory in its parent's fsnode."""

    node: str
    summary: Summary


Entries = dict[str, "File | Directory"]


@dataclass(frozen=True)
class Fsnode:
    """The manifest of a directory: its files and directories by rising names."""

    summary: Summary
    entries: Entries


@dataclass(frozen=True)
class Unode:
    """The past of a file or a directory: who made it, and the nodes before."""

    parents: tuple[str, ...]
    linknode: str
    entries: dict[str, str] | None
    """A directory's nodes by name; None for a file."""
    content: str | None = None
    """A file's content; None for a directory."""


def encode_fsnode(node: Fsnode) -> bytes:
    """The spelling of an fsnode."""
    parts = [bytes((FSNODE_MARK, VERSION)), encode_summary(node.summary)]
    parts.append(len(node.entries).to_bytes(4, "big"))
    for name in sorted(node.entries, key=str.encode):
        entry = node.entries[name]
        data = name.encode()
        parts.append(bytes((len(data),)) + data)
        if isinstance(entry, File):
            parts.append(bytes((0, entry.kind)) + entry.size.to_bytes(8, "big"))
            parts.append(bytes.fromhex(entry.content))
        else:
            parts.append(b"\x01" + bytes.fromhex(entry.node) + encode_summary(entry.summary))
    return b"".join(parts)


def encode_summary(summary: Summary) -> bytes:
    """The forty bytes of a summary."""
    return b"".join(number.to_bytes(8, "big") for number in astuple(summary))


def decode_fsnode(data: bytes) -> Fsnode:
    """The fsnode that the bytes spell, or BadEncoding."""
    try:
        return quick_fsnode(data)
    except (IndexError, KeyError, ValueError, struct.error):
        return careful_fsnode(data)


def quick_fsnode(data: bytes) -> Fsnode:
    """The same, without the place of a fault: trees have many files."""
    if data[:2] != FSNODE_HEAD:
        raise ValueError
    *numbers, count = SUMMARY_AND_COUNT.unpack_from(data, 2)
    at = 46
    names: list[bytes] = []
    found: list[File | Directory] = []
    for _ in range(count):
        end = at + 1 + data[at]
        names.append(data[at + 1 : end])
        if data[end] == 0:
            kind, size, content = FILE_ENTRY.unpack_from(data, end + 1)
            found.append(File(content.hex(), size, KINDS[kind]))
            at = end + 1 + FILE_ENTRY.size
        elif data[end] == 1:
            node, *below = DIRECTORY_ENTRY.unpack_from(data, end + 1)
            found.append(Directory(node.hex(), Summary(*below)))
            at = end + 1 + DIRECTORY_ENTRY.size
        else:
            raise ValueError
    if at != len(data):
        raise ValueError
    return Fsnode(Summary(*numbers), dict(zip(quick_names(names), found)))


def quick_names(names: list[bytes]) -> list[str]:
    """Names as text, all together; ValueError where one breaks a rule."""
    whole = b"/".join(names)
    rises = all(map(operator.lt, names, names[1:]))
    is_clean = b"\x00" not in whole and b"\n" not in whole and whole.count(b"/") < len(names)
    if names and not (rises and is_clean and NO_NAMES.isdisjoint(names)):
        raise ValueError
    return whole.decode().split("/") if names else []


def careful_fsnode(data: bytes) -> Fsnode:
    """The same, with the place of the first fault."""
    fields = Fields(data)
    fields.marks(FSNODE_MARK, VERSION)
    summary = decode_summary(fields)
    entries: Entries = {}
    for name in names(fields):
        entries[name] = (
            decode_directory(fields) if fields.number_in(1, 0, 1) else decode_file(fields)
        )
    fields.end()
    return Fsnode(summary, entries)


def decode_summary(fields: Fields) -> Summary:
    """A summary, which is one field."""
    data = fields.take(40)
    return Summary(*(int.from_bytes(data[at : at + 8], "big") for at in range(0, 40, 8)))


def decode_directory(fields: Fields) -> Directory:
    """A directory's entry."""
    return Directory(fields.id(), decode_summary(fields))


def decode_file(fields: Fields) -> File:
    """A file's entry."""
    kind = Kind(fields.number_in(1, 0, 2))
    size = fields.number(8)
    return File(fields.id(), size, kind)


def names(fields: Fields) -> Iterator[str]:
    """The names of a node's entries, each before the rest of its entry is read."""
    last = b""
    for _ in range(fields.number(4)):
        name = fields.take(fields.number_in(1, 1, 255))
        text = name.decode(errors="replace")
        fields.require(text.encode() == name and element_fault(name) is None and name > last)
        last = name
        yield text


def decode_unode(data: bytes) -> Unode:
    """The unode of a file or a directory that the bytes spell, or BadEncoding."""
    if data[:1] == bytes((FILE_UNODE_MARK,)):
        return decode_file_unode(data)
    fields = Fields(data)
    fields.marks(UNODE_MARK, VERSION)
    parents = decode_parents(fields)
    linknode = fields.id()
    entries: dict[str, str] = {}
    for name in names(fields):
        fields.number_in(1, 0, 1)
        entries[name] = fields.id()
    fields.end()
    return Unode(parents, linknode, entries)


def decode_file_unode(data: bytes) -> Unode:
    """The unode of a file."""
    fields = Fields(data)
    fields.marks(FILE_UNODE_MARK, VERSION)
    parents = decode_parents(fields)
    content = fields.id()
    fields.number_in(1, 0, 2)
    fields.id()
    linknode = fields.id()
    fields.end()
    return Unode(parents, linknode, None, content)


def decode_parents(fields: Fields) -> tuple[str, ...]:
    """A unode's parents: none, one or two."""
    return tuple(fields.id() for _ in range(fields.number_in(1, 0, 2)))
