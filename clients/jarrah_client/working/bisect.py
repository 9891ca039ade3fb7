"""Finding the changeset that broke something: the middle of what is left is tried, and again.

`Search` knows ids and verdicts alone. `Folder` brings a working copy to what is to be tried and
back, and `Command` tries it.
"""

from __future__ import annotations

import os
import subprocess
import sys
from collections.abc import Iterator
from contextlib import contextmanager
from dataclasses import dataclass, field
from enum import Enum
from pathlib import Path

from ..formats.changesets import File
from ..formats.paths import own_name, path_key
from ..net.server import Server, Trouble
from ..refusals import Fault
from ..terminal.output import clean, counted, some_of, title
from ..trees.differences import Difference
from ..trees.tree import tree_of
from . import disk
from .moves import Moved, between, carry_out, keep
from .rebase import restore
from .scan import changed_files
from .stack import need_no_drafts, need_settled
from .state import NEVER, WorkingCopy

MOST_STATUS = 127
"""A status above is no verdict: a shell tells by it that a signal ended the command."""
SHORT = 12
"""So many digits of an id stand in a line of progress."""


class Verdict(Enum):
    """What comes of a try."""

    GOOD = "good"
    BAD = "bad"
    SKIPPED = "skipped"


@dataclass
class Search:
    """What is known of a line of ids: a good one, and after it all that may be the first bad one.

    What is left goes from old to new, and its last is bad.
    """

    good: str
    left: list[str]
    tried: dict[str, Verdict] = field(default_factory=dict)

    @property
    def first_bad(self) -> str | None:
        """The first bad one, once it is found."""
        return self.left[0] if len(self.left) == 1 else None

    @property
    def untried(self) -> dict[str, int]:
        """What can be tried, with its places in what is left."""
        ids = enumerate(self.left[:-1])
        return {id: place for place, id in ids if id not in self.tried}

    def next(self) -> str | None:
        """What is to be tried: the nearest to the middle; none at the end."""
        middle = len(self.left) // 2 - 1
        tries = ((abs(place - middle), place, id) for id, place in self.untried.items())
        return min(tries, default=(0, 0, None))[2]

    def take(self, id: str, verdict: Verdict) -> None:
        """Takes what came of a try."""
        self.tried[id] = verdict
        place = self.left.index(id)
        if verdict is Verdict.GOOD:
            self.good, self.left = id, self.left[place + 1 :]
        elif verdict is Verdict.BAD:
            self.left = self.left[: place + 1]

    def expected(self) -> int:
        """How many tries there will have been at the end, unless more are skipped."""
        return len(self.tried) + len(self.untried).bit_length()

    def known(self) -> str:
        """What is known, in the words by which a search goes on."""
        if self.first_bad:
            return f"the first bad one is {self.first_bad}"
        count = counted(len(self.left), "changeset")
        return f"{count} left: `--good {self.good} --bad {self.left[-1]}` goes on"


@dataclass(frozen=True)
class Command:
    """The words of a command, the status by which it skips, and where its output goes."""

    words: list[str]
    skips: int
    output: int | None = None

    def verdict(self, top: Path) -> Verdict:
        """Runs the command in a folder, and takes its status as a verdict."""
        name = self.words[0]
        try:
            status = subprocess.run(self.words, cwd=top, stdout=self.output).returncode
        except OSError as fault:
            raise Trouble(f"{name} can't be started: {fault.strerror}") from None
        if status < 0:
            raise Trouble(f"{name} was ended by signal {-status}")
        if status > MOST_STATUS:
            raise Trouble(f"{name} ended with status {status}, which is no verdict")
        if status == self.skips:
            return Verdict.SKIPPED
        return Verdict.BAD if status else Verdict.GOOD


class Folder:
    """A working copy that is brought to one changeset after another, and back to where it was.

    The base's files are as the base has them when it begins. So whatever changes them later, or
    stands in their place, came there since, and is taken away. New files stay otherwise, and
    where a changeset has files in their place, the folder can't be brought there.
    """

    def __init__(self, copy: WorkingCopy, server: Server, connections: int):
        self.copy = copy
        self.server = server
        self.connections = connections
        self.home = copy.state.base
        self.files = self.held()
        self.tree = tree_of(server, self.home)

    def held(self) -> dict[str, File]:
        """The files of the base; after a fault on the way elsewhere, those of both."""
        return {path: kept.file for path, kept in self.copy.state.files.items()}

    def go(self, target: str) -> None:
        """Brings the folder to a changeset."""
        tree = tree_of(self.server, target)
        coming = [one for one in between(self.copy, self.tree, tree) if not own_name(one[0])]
        self.put_back(coming)
        for path, what in self.in_the_way(coming):
            raise Trouble(f"{what} is new and in the way: {target} has {path}")
        self.carry(target, coming)
        self.tree = tree

    def go_home(self) -> None:
        """Brings the folder back, also from where a fault left it."""
        self.server.close()
        now, then = self.held(), self.files
        paths = [path for path in now.keys() | then.keys() if now.get(path) != then.get(path)]
        coming = [(path, now.get(path), then.get(path)) for path in sorted(paths, key=path_key)]
        self.put_back(coming)
        for path, what in self.in_the_way(coming):
            tell(f"took away {what}, which was new and in the way of {path}")
            disk.clear(self.copy.top, path)
        self.carry(self.home, coming)

    def put_back(self, coming: list[Difference]) -> None:
        """Puts the base's files back where they were changed, but for those that come anyway."""
        copy, comes = self.copy, {path: after for path, _, after in coming}
        changed = changed_files(copy)
        seen = [path for path in changed if copy.state.files[path].stamp != NEVER]
        if seen:
            tell(f"put back {some_of(seen)}, changed since the folder was brought there")
        for path in changed:
            if path not in comes or comes[path]:
                disk.clear(copy.top, path)
        restore(copy, self.server, [path for path in changed if path not in comes])

    def in_the_way(self, coming: list[Difference]) -> Iterator[tuple[str, str]]:
        """Paths that come new, each with what the base doesn't have and stands in its place."""
        for path, before, after in coming:
            what = in_place_of(self.copy, path) if after and not before else None
            if what:
                yield path, what

    def carry(self, target: str, coming: list[Difference]) -> None:
        """Writes and deletes what differs. Whatever may be there meanwhile is kept in the state."""
        moved = Moved()
        for path, _, after in coming:
            if after:
                keep(self.copy, path, after)
        carry_out(self.copy, self.server, coming, moved, self.connections)
        for path, why in moved.conflicts.items():
            raise Trouble(f"{path}: {why}")
        self.copy.state.root = target
        self.copy.save()


def in_place_of(copy: WorkingCopy, path: str) -> str | None:
    """What stands in the place of a file that the base doesn't have, and isn't the base's either.

    It is in the way also where it is the same file: as the trunk's, it would be deleted later.
    """
    place, what = copy.top / path, disk.blocked_by(copy.top, path)
    if what is None:
        return path if place.is_symlink() or (place.exists() and not place.is_dir()) else None
    found = inside(copy.top, place) if what.endswith("/") else iter([what])
    return next((one for one in found if one not in copy.state.files), None)


def inside(top: Path, folder: Path) -> Iterator[str]:
    """The paths of all that is in a folder, but for folders with something in them."""
    for place in folder.rglob("*"):
        if place.is_symlink() or not place.is_dir() or not any(os.scandir(place)):
            yield place.relative_to(top).as_posix()


def need_as_base(copy: WorkingCopy) -> None:
    """Refuses drafts, what isn't settled, and changed files of the base; new files may be there."""
    need_settled(copy)
    need_no_drafts(copy)
    for path in changed_files(copy):
        raise Trouble(f"{path} is changed: commit or revert it first")


@contextmanager
def lent(copy: WorkingCopy, server: Server, connections: int) -> Iterator[Folder]:
    """The folder of a working copy, which is brought back at the end, whatever happens."""
    folder = Folder(copy, server, connections)
    try:
        yield folder
    finally:
        try:
            folder.go_home()
        except BaseException:
            tell(f"the folder isn't back yet: `jarrah update {folder.home}` brings it there")
            raise


@contextmanager
def telling(search: Search) -> Iterator[None]:
    """Has what ends a search early tell what is known."""
    try:
        yield
    except Fault as fault:
        fault.advice = search.known()
        raise
    except BaseException:
        tell(search.known())
        raise


def find(search: Search, folder: Folder, command: Command) -> None:
    """Tries one changeset after another, until there is none to be tried."""
    while id := search.next():
        words = title(folder.server.changeset(id).message)
        number, of = len(search.tried) + 1, search.expected()
        tell(f"trying {number:,} of about {of:,}: {id[:SHORT]} {words}")
        folder.go(id)
        folder.server.close()
        search.take(id, command.verdict(folder.copy.top))


def tell(line: str) -> None:
    """Writes a line on standard error at once."""
    print(clean(line), file=sys.stderr, flush=True)
