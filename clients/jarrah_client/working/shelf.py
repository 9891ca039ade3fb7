"""Shelves: what is changed in a folder, put aside in it, and taken back onto any base."""

from __future__ import annotations

import json
import shutil
from dataclasses import dataclass, field
from pathlib import Path
from typing import Any

from ..formats.changesets import File
from ..formats.paths import is_bookmark_name, is_id
from ..history.reads import file_at
from ..net.contents import Source
from ..net.server import Server, Trouble
from ..trees.tree import tree_of
from . import disk, sides
from .merging import Merge, merge_file
from .rebase import restore
from .scan import look_into
from .stack import need_settled, take
from .state import FOLDER, KINDS, WorkingCopy

SHELVES = "shelves"


@dataclass
class Shelf:
    """What is on a shelf: the base that it was changed on, the changes, and where files were at."""

    name: str
    base: str
    changes: dict[str, File | None]
    copied: dict[str, str] = field(default_factory=dict)


def folder_of(copy: WorkingCopy, name: str) -> Path:
    """Where a shelf is."""
    if not is_bookmark_name(name) or name in (".", ".."):
        raise Trouble(f"{name!r} is no shelf's name: it is 1 to 128 of A-Z a-z 0-9 _ . -")
    return copy.top / FOLDER / SHELVES / name


def names(copy: WorkingCopy) -> list[str]:
    """The names of all shelves, the newest last."""
    places = (copy.top / FOLDER / SHELVES).glob("*/shelf")
    return [place.parent.name for place in sorted(places, key=lambda one: one.stat().st_mtime_ns)]


def shelve(
    copy: WorkingCopy, server: Server, name: str | None, under: list[str] | None
) -> Shelf:
    """Puts what is changed, or some paths of it, on a shelf, and the base's files back."""
    need_settled(copy, under)
    found = take(copy, server, under)
    if not found.changes:
        raise Trouble("nothing is changed")
    copied = {path: source.path for path, source in found.copies.items()}
    shelf = Shelf(name or free_name(copy), copy.state.base, found.changes, copied)
    write(copy, shelf, found.contents)
    restore(copy, server, list(found.changes))
    copy.state.copied = {p: at for p, at in copy.state.copied.items() if p not in found.changes}
    copy.save()
    return shelf


def free_name(copy: WorkingCopy) -> str:
    """The first number that no shelf has for its name."""
    taken = set(names(copy))
    return next(str(number) for number in range(1, len(taken) + 2) if str(number) not in taken)


def write(copy: WorkingCopy, shelf: Shelf, contents: dict[str, Source]) -> None:
    """Writes a shelf: its contents first, so that one that is there is whole."""
    place = folder_of(copy, shelf.name)
    if (place / "shelf").exists():
        raise Trouble(f"there is a shelf {shelf.name} already")
    files = {path: spelled(file) for path, file in shelf.changes.items()}
    document = {"base": shelf.base, "changes": files, "copied": shelf.copied}
    try:
        place.mkdir(parents=True, exist_ok=True)
        for source in contents.values():
            with (place / source.id).open("wb") as out:
                for number in range(len(source.pieces)):
                    out.write(source.piece(number))
        (place / "shelf").write_text(json.dumps(document), encoding="utf-8")
    except OSError as fault:
        raise Trouble(f"{place}: {fault.strerror}") from None


def spelled(file: File | None) -> list[Any] | None:
    return [file.kind.word, file.size, file.content] if file else None


def read(copy: WorkingCopy, name: str) -> Shelf:
    """A shelf by its name."""
    place = folder_of(copy, name) / "shelf"
    try:
        document = json.loads(place.read_text(encoding="utf-8"))
        files = {path: file_of(one) for path, one in document["changes"].items()}
        return Shelf(name, document["base"], files, document["copied"])
    except OSError:
        raise Trouble(f"there is no shelf {name}") from None
    except (ValueError, KeyError, TypeError, AttributeError):
        raise Trouble(f"{place} is no shelf") from None


def file_of(spelling: list[Any] | None) -> File | None:
    """A file of a shelf."""
    if spelling is None:
        return None
    kind, size, content = spelling
    if not is_id(content):
        raise ValueError
    return File(content, int(size), KINDS[kind])


def delete(copy: WorkingCopy, name: str) -> None:
    """Lets go of a shelf."""
    shelf = folder_of(copy, name)
    if not (shelf / "shelf").exists():
        raise Trouble(f"there is no shelf {name}")
    shutil.rmtree(shelf, ignore_errors=True)


def unshelve(copy: WorkingCopy, server: Server, shelf: Shelf) -> dict[str, str]:
    """Takes what is on a shelf into the folder, and gives the conflicts. The shelf stays."""
    need_settled(copy)
    base = tree_of(server, shelf.base)
    merges: dict[str, Merge] = {}
    conflicts: dict[str, str] = {}
    for path, shelved in shelf.changes.items():
        ours, source = look_into(copy.top, path)

        def content(file: File, source: Source | None = source) -> bytes:
            if source and source.id == file.content:
                return source.read()
            return shelved_bytes(copy, shelf, file) or server.content(file.content)

        why = disk.blocked_by(copy.top, path) if shelved else None
        if why:
            conflicts[path] = f"{why} is in its way"
            continue
        merge = merge_file(content, file_at(base, path), ours, shelved)
        if merge.file != ours:
            merges[path] = merge
        if merge.conflict:
            conflicts[path] = merge.conflict
            sides.hold(copy, path, ours, source)
    carry_out(copy, server, shelf, merges)
    copy.state.conflicts += [path for path in conflicts if path not in copy.state.conflicts]
    copy.state.copied |= {path: at for path, at in shelf.copied.items() if path not in conflicts}
    copy.save()
    return conflicts


def carry_out(
    copy: WorkingCopy, server: Server, shelf: Shelf, merges: dict[str, Merge]
) -> None:
    """Deletes and writes what comes of the merges."""
    for path, merge in merges.items():
        if merge.file is None:
            disk.remove(copy.top, path)
    for path, merge in merges.items():
        if merge.file is None:
            continue
        data = merge.data
        if data is None:
            data = shelved_bytes(copy, shelf, merge.file)
        if data is None:
            data = server.content(merge.file.content)
        disk.put(copy.top, path, merge.file, data)


def shelved_bytes(copy: WorkingCopy, shelf: Shelf, file: File) -> bytes | None:
    """The bytes of a file that are on the shelf, or None."""
    try:
        return (folder_of(copy, shelf.name) / file.content).read_bytes()
    except FileNotFoundError:
        return None
    except OSError as fault:
        raise Trouble(f"the shelf {shelf.name}: {fault.strerror}") from None
