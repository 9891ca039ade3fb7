"""What differs in a working copy's folder from its base: by sizes and times, then by ids."""

from __future__ import annotations

import os
import stat
from collections.abc import Iterator
from contextlib import suppress
from dataclasses import dataclass, field
from pathlib import Path

from ..formats.changesets import MOST_SIZE_BYTES, File, Kind
from ..formats.paths import OWN_NAMES, is_above, path_fault, path_key
from ..net.contents import Source, in_file, in_memory
from ..net.server import Trouble
from .ignoring import Ignoring, Rules
from .state import NEVER, Kept, Stamp, WorkingCopy

OUTSIDE = "it is outside of the directories that are in the folder (`jarrah sparse`)"
"""Why a new file can't be committed: what the base has in its place isn't known."""


@dataclass
class Scan:
    """What differs: paths with what is there now, None where nothing is."""

    changes: dict[str, File | None] = field(default_factory=dict)
    faults: dict[str, str] = field(default_factory=dict)
    """Paths that no changeset can hold, and why."""
    has_new_stamps: bool = False

    def word(self, copy: WorkingCopy, path: str) -> str:
        """How a path differs."""
        if path in copy.state.conflicts:
            return "conflict"
        if self.changes.get(path) is None:
            return "deleted"
        return "changed" if path in copy.state.files else "added"


def scan(copy: WorkingCopy, under: list[str] | None = None) -> Scan:
    """Compares the folder, or the paths at and under some, with the base.

    What is found to be as the base has it gets its new stamp, so that its bytes aren't read again.
    """
    found = Scan()
    seen = set()
    profile = copy.state.profile
    for path, status in walked(copy):
        if not is_in(path, under):
            continue
        seen.add(path)
        if profile and path not in copy.state.files and not profile.has(path):
            found.faults[path] = OUTSIDE
        else:
            look_at(copy, path, status, found)
    for path in copy.state.files:
        if path not in seen and is_in(path, under):
            found.changes[path] = None
    found.changes = {path: found.changes[path] for path in sorted(found.changes, key=path_key)}
    return found


def changed_files(copy: WorkingCopy) -> list[str]:
    """The base's files that aren't as the base has them."""
    found = scan(copy)
    return [path for path in [*found.changes, *found.faults] if path in copy.state.files]


def look_at(copy: WorkingCopy, path: str, status: os.stat_result, found: Scan) -> None:
    """Compares one file with the base's."""
    files, stamp = copy.state.files, Stamp.of(status)
    kind = kind_of(status)
    known = files.get(path)
    if known and kind is known.file.kind and copy.state.is_as_kept(path, stamp):
        return
    why = path_fault(os.fsencode(path))
    if why is None and kind is None:
        why = "it is no file and no link"
    if why is None and status.st_size > MOST_SIZE_BYTES:
        why = f"it has {status.st_size:,} bytes, over {MOST_SIZE_BYTES:,}"
    if why:
        found.faults[path] = why
        return
    file, _ = look_into(copy.top, path)
    if known and file == known.file:
        files[path] = Kept(file, stamp)
        found.has_new_stamps = True
    elif file:
        found.changes[path] = file


def walked(copy: WorkingCopy) -> Iterator[tuple[str, os.stat_result]]:
    """All that lies in the folder but directories, with its status; what is ignored is left out."""
    ignoring = Ignoring(copy.top, copy.state.files)
    waiting: list[tuple[Path, str, Rules | None, bool]] = [(copy.top, "", None, False)]
    while waiting:
        folder, above, rules, is_over = waiting.pop()
        entries = entries_of(folder)
        if not is_over:
            rules = ignoring.rules_in(folder, above, (entry.name for entry in entries), rules)
        for entry in entries:
            path = above + entry.name
            if entry.name.lower() in OWN_NAMES:
                continue
            if entry.is_dir(follow_symlinks=False):
                passes = is_over or ignoring.passes_over(path, True, rules)
                if not passes or path in ignoring.folders:
                    waiting.append((Path(entry.path), f"{path}/", rules, passes))
            elif path in copy.state.files or not (
                is_over or ignoring.passes_over(path, False, rules)
            ):
                status = status_of(entry)
                if status:
                    yield path, status


def entries_of(folder: Path) -> list[os.DirEntry[str]]:
    """What lies in a folder, by names."""
    try:
        return sorted(os.scandir(folder), key=lambda entry: entry.name)
    except OSError as fault:
        raise Trouble(f"{folder}: {fault.strerror}") from None


def status_of(entry: os.DirEntry[str]) -> os.stat_result | None:
    """A file's status, or None where it is gone meanwhile."""
    with suppress(FileNotFoundError):
        return entry.stat(follow_symlinks=False)
    return None


def is_in(path: str, under: list[str] | None) -> bool:
    """Whether a path is one of some, or lies under one."""
    return under is None or any(not top or path == top or is_above(top, path) for top in under)


def kind_of(status: os.stat_result) -> Kind | None:
    """What a file is, or None where no changeset can hold it."""
    if stat.S_ISLNK(status.st_mode):
        return Kind.SYMLINK
    if not stat.S_ISREG(status.st_mode):
        return None
    return Kind.EXECUTABLE if status.st_mode & stat.S_IXUSR else Kind.REGULAR


def look_into(top: Path, path: str) -> tuple[File | None, Source | None]:
    """A file as it is now, and the source of its bytes; None where it is gone."""
    place = top / path
    try:
        kind = kind_of(place.lstat())
        if kind is None:
            return None, None
        if kind is Kind.SYMLINK:
            source = in_memory(path, os.fsencode(os.readlink(place)))
        else:
            source = in_file(path, place)
    except (FileNotFoundError, NotADirectoryError):
        return None, None
    except OSError as fault:
        raise Trouble(f"{place}: {fault.strerror}") from None
    return File(source.id, source.size, kind), source


def stamp_of(top: Path, path: str) -> Stamp:
    """The stamp of a file, or NEVER where there is none."""
    try:
        return Stamp.of((top / path).lstat())
    except OSError:
        return NEVER
