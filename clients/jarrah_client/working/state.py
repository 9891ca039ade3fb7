"""What a working copy keeps of itself, in the file `.jarrah/state` of its folder."""

from __future__ import annotations

import json
import os
from collections.abc import Iterator
from contextlib import contextmanager
from dataclasses import dataclass, field
from pathlib import Path
from typing import Any

from ..formats.changesets import File, Kind
from ..formats.paths import is_id
from ..history.log_cache import lock
from ..net.server import Trouble
from .sparse import Profile

FOLDER = ".jarrah"
EARLIER, VERSION = 1, 2
"""The versions that are read: the first lacks what the second has besides."""
KINDS = {kind.word: kind for kind in Kind}
GRAIN = 20_000_000
"""Nanoseconds within which a file system may give two writes the same time."""


@dataclass(frozen=True)
class Stamp:
    """The size and the times of a file on the disk, in bytes and nanoseconds."""

    size: int
    changed: int
    touched: int

    @classmethod
    def of(cls, status: os.stat_result) -> Stamp:
        return cls(status.st_size, status.st_mtime_ns, status.st_ctime_ns)


NEVER = Stamp(-1, 0, 0)
"""The stamp of no file: what has it is compared by its bytes."""


@dataclass(frozen=True)
class Kept:
    """A file of the base, and its stamp when it was last known to be so."""

    file: File
    stamp: Stamp


PICK, REWORD, FOLD, EDIT = "pick", "reword", "fold", "edit"
"""What is done with a draft that is put onto another changeset: it stays one of its own, gets
another message, goes into the one below it, or is one that is stopped at."""


@dataclass
class Rebase:
    """A rebase that stopped: its draft, those after it, and where it began."""

    draft: str
    left: list[str]
    """What comes after: a word and an id each, or an id alone, which is picked."""
    root: str
    drafts: list[str]
    word: str = PICK
    """What was to be done with the draft."""
    is_conflict: bool = True
    """Whether it stopped at a conflict, and not to have the draft edited."""
    messages: dict[str, str] = field(default_factory=dict)
    """What drafts get in place of their messages."""


@dataclass
class State:
    """A working copy's server, bookmark, base and files.

    The base is the last of the drafts, or else the root: a changeset of the bookmark's line.
    """

    server: str
    bookmark: str | None
    root: str
    drafts: list[str] = field(default_factory=list)
    conflicts: list[str] = field(default_factory=list)
    rebase: Rebase | None = None
    titles: dict[str, str] = field(default_factory=dict)
    """The first lines of drafts' messages."""
    ours: dict[str, list[Any] | None] = field(default_factory=dict)
    """What conflicts had here before: a file's kind, size and content, or None for nothing."""
    copied: dict[str, str] = field(default_factory=dict)
    """New files that a person moved or copied, each with the path that it was at."""
    files: dict[str, Kept] = field(default_factory=dict)
    sparse: list[str] | None = None
    """The directories of the tree that are in the folder; None where all are."""
    saved: int = 0
    """When it was written: a file with a stamp as late may have been changed unseen."""

    @property
    def base(self) -> str:
        return self.drafts[-1] if self.drafts else self.root

    @property
    def profile(self) -> Profile | None:
        """What is in the folder of the tree; None for all of it."""
        return None if self.sparse is None else Profile.of(self.sparse)

    def is_as_kept(self, path: str, stamp: Stamp) -> bool:
        """Whether a file's stamp shows that it is as it was kept."""
        return self.files[path].stamp == stamp and stamp.touched + GRAIN < self.saved


class WorkingCopy:
    """The folder of a working copy, and its state."""

    def __init__(self, top: Path, state: State):
        self.top = top
        self.state = state

    @classmethod
    def find(cls, place: Path) -> WorkingCopy | None:
        """The working copy that a place lies in."""
        for top in (place, *place.parents):
            if (top / FOLDER / "state").is_file():
                return cls(top, load(top / FOLDER / "state"))
        return None

    @contextmanager
    def alone(self) -> Iterator[None]:
        """Holds the working copy, so that no other command changes it meanwhile."""
        with (self.top / FOLDER / "lock").open("a+b") as file:
            if not lock(file):
                raise Trouble(f"another command works in {self.top}")
            self.state = load(self.top / FOLDER / "state")
            yield

    def save(self) -> None:
        """Writes the state, whole or not at all."""
        folder = self.top / FOLDER
        folder.mkdir(exist_ok=True)
        before = folder / "state.new"
        with before.open("w", encoding="utf-8", newline="\n") as file:
            file.write(json.dumps(header(self.state)) + "\n")
            for path, kept in self.state.files.items():
                file.write(spelled(path, kept))
            file.flush()
            os.fsync(file.fileno())
        os.replace(before, folder / "state")
        self.state.saved = (folder / "state").stat().st_mtime_ns

    def path_of(self, place: Path) -> str:
        """The path of a place in the folder; the folder's own is the empty text."""
        try:
            inside = Path(os.path.abspath(place)).relative_to(os.path.abspath(self.top))
        except ValueError:
            raise Trouble(f"{place} isn't in the working copy {self.top}") from None
        return "" if inside == Path(".") else inside.as_posix()


def header(state: State) -> dict[str, Any]:
    """The first line of a state."""
    document = {"version": VERSION, "server": state.server, "bookmark": state.bookmark}
    document |= {"root": state.root, "drafts": state.drafts, "conflicts": state.conflicts}
    document |= {"titles": state.titles, "ours": state.ours, "copied": state.copied}
    document |= {} if state.sparse is None else {"sparse": state.sparse}
    return document | {"rebase": rebase_document(state.rebase) if state.rebase else None}


def rebase_document(rebase: Rebase) -> dict[str, Any]:
    """A rebase as it is kept; earlier versions of the client know of no messages."""
    return {name: value for name, value in vars(rebase).items() if name != "messages" or value}


def spelled(path: str, kept: Kept) -> str:
    """A file's line; its path comes last and may have spaces."""
    file, stamp = kept.file, kept.stamp
    times = f"{stamp.size} {stamp.changed} {stamp.touched}"
    return f"{file.kind.word} {file.size} {file.content} {times} {path}\n"


def load(place: Path) -> State:
    """The state that a file has."""
    try:
        with place.open(encoding="utf-8", newline="\n") as file:
            document = json.loads(file.readline())
            if document.pop("version") not in (EARLIER, VERSION):
                raise Trouble(f"{place} was written by another version of jarrah")
            if document["rebase"]:
                document["rebase"] = Rebase(**document["rebase"])
            files = dict(map(read, file))
            return State(**document, files=files, saved=os.fstat(file.fileno()).st_mtime_ns)
    except OSError as fault:
        raise Trouble(f"{place}: {fault.strerror}") from None
    except (ValueError, KeyError, TypeError):
        raise Trouble(f"{place} is no state of a working copy") from None


def read(line: str) -> tuple[str, Kept]:
    """A file's path and what is kept of it."""
    kind, size, content, *times, path = line.removesuffix("\n").split(" ", 6)
    if not is_id(content):
        raise ValueError
    return path, Kept(File(content, int(size), KINDS[kind]), Stamp(*map(int, times)))
