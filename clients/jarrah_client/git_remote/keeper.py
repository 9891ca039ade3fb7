"""Keeps the mirror at what the server's log says, and mends it."""

from __future__ import annotations

import shutil
import sys
import threading
import time
from collections.abc import Callable
from dataclasses import dataclass
from pathlib import Path

from ..formats.changesets import Changeset
from ..history.repository import parents_first, reached
from ..net.server import BadAnswer, NotReached, Server
from ..refusals import Fault, Refused
from ..terminal.output import clean, counted
from .branches import HEADS, beside_one_another, branch_of
from .git import is_git_fine
from .log import LandedLog
from .mirror import Mirror, made, opened

LATE_SECONDS = 60.0
"""A mirror that couldn't be brought up to date for so long isn't well."""
MOST_PAUSE_SECONDS = 30.0
OF_THE_SERVER = (NotReached, BadAnswer, Refused)
"""Faults by which the mirror is none the worse."""


def tell(line: str) -> None:
    """A line of the remote's own log, with the time in UTC."""
    moment = time.strftime("%Y-%m-%dT%H:%M:%SZ", time.gmtime())
    print(f"{moment} {clean(line)}", file=sys.stderr, flush=True)


@dataclass(frozen=True)
class Look:
    """What the mirror showed at one moment."""

    refs: dict[str, str]
    changesets: dict[str, str]
    """The changesets of all commits."""


class Keeper:
    """The mirror in a folder, the server's log, and whose turn it is to write either."""

    def __init__(self, server: Server, folder: Path, trunk: str, connections: int):
        self.server = server
        self.folder = folder
        self.trunk = trunk
        self.connections = connections
        self.log = LandedLog(server, folder / "log")
        self.turn = threading.RLock()
        self.mirror: Mirror | None = None
        self.refs: dict[str, str] = {}
        self.hidden: list[str] = []
        """Branches that git can't have beside the others."""
        self.followed: dict[str, str] | None = None
        """The bookmarks as the mirror has them."""
        self.mirrored = 0
        """The number of entries to which it was brought."""
        self.doubted = threading.Event()
        """Whether something went wrong that damage of the mirror may explain."""
        self.fresh_at = 0.0
        self.fault: str | None = None

    @property
    def directory(self) -> Path:
        return self.folder / "mirror.git"

    def start(self) -> None:
        """Opens the mirror, or makes it, and brings it up to date."""
        with self.turn:
            self.log.read_on()
            try:
                if self.directory.exists():
                    self.mirror = opened(self.directory, self.trunk)
                    if self.mirror.is_sound():
                        self.update()
                        return
            except OF_THE_SERVER:
                raise
            except (Fault, OSError, ValueError) as fault:
                tell(f"mirror: {fault}")
            self.remake()

    def update(self) -> None:
        """Brings the mirror to where the log ends."""
        with self.turn:
            try:
                self.log.read_on()
                if self.log.bookmarks != self.followed or not self.is_there():
                    self.mended(self.follow)
                self.note_fresh()
            except Exception as fault:
                self.fault = str(fault)
                raise
            finally:
                self.server.close()

    def note_fresh(self) -> None:
        """Notes that the mirror has all that the log has."""
        self.fresh_at, self.fault, self.mirrored = time.monotonic(), None, self.log.next

    def is_there(self) -> bool:
        return self.mirror is not None and self.mirror.is_there()

    def mended(self, call: Callable[[], None]) -> None:
        """Makes a call; where it fails and the mirror is damaged, that is made anew."""
        try:
            call()
        except OF_THE_SERVER:
            raise
        except (Fault, OSError, ValueError) as fault:
            if self.is_there() and self.reopened().is_sound():
                raise
            tell(f"mirror: {fault}")
            self.remake()

    def reopened(self) -> Mirror:
        """The mirror with its marks read again, since the last may be half written."""
        if self.mirror:
            self.mirror.close()
        self.mirror = opened(self.directory, self.trunk)
        return self.mirror

    def follow(self) -> None:
        """Writes what is new, and moves the branches."""
        assert self.mirror
        self.bring(self.mirror)
        self.refs = self.wanted(self.mirror)
        self.mirror.set_branches(self.refs)
        self.followed = dict(self.log.bookmarks)
        self.mirror.pack()

    def bring(self, mirror: Mirror) -> None:
        """Writes the changesets that bookmarks reach and a mirror lacks."""
        line: dict[str, Changeset] = {}
        for head in dict.fromkeys(self.log.bookmarks.values()):
            if head not in mirror.commits and head not in line:
                known = mirror.commits.keys() | line.keys()
                line |= {one.id: one for one in reached(self.server, head, known)}
        if not line:
            return
        report = mirror.take(self.server, parents_first(line.values()), self.connections)
        for one in report.left_out:
            changeset, path = one["changeset"][:12], one["path"]
            tell(f"mirror: without {path!r} of changeset {changeset}: {one['why']}")

    def wanted(self, mirror: Mirror) -> dict[str, str]:
        """Where each branch has to be."""
        heads = {branch_of(name): id for name, id in self.log.bookmarks.items()}
        kept, hidden = beside_one_another(heads)
        for branch in hidden:
            if branch not in self.hidden:
                tell(f"mirror: without {branch}, which lies under another branch")
        self.hidden = hidden
        return {HEADS + branch: mirror.commits[heads[branch]] for branch in kept}

    def remake(self) -> None:
        """Makes the mirror anew beside the old one, and puts it in its place."""
        begun = time.monotonic()
        new, old = self.folder / "new.git", self.folder / "old.git"
        mirror = made(new, self.trunk)
        try:
            self.bring(mirror)
            refs = self.wanted(mirror)
            mirror.set_branches(refs)
            mirror.pack_whole()
        except BaseException:
            mirror.close()
            shutil.rmtree(new, ignore_errors=True)
            raise
        mirror.close()
        shutil.rmtree(old, ignore_errors=True)
        if self.mirror:
            self.mirror.close()
        if self.directory.exists():
            self.directory.rename(old)
        new.rename(self.directory)
        shutil.rmtree(old, ignore_errors=True)
        self.mirror, self.refs = opened(self.directory, self.trunk), refs
        self.followed = dict(self.log.bookmarks)
        self.note_fresh()
        count = counted(len(mirror.commits), "commit")
        tell(f"mirror: made with {count} in {time.monotonic() - begun:.1f} s")

    def need_mirror(self) -> None:
        """Makes the mirror first where somebody has removed it. Else nobody waits for a turn."""
        if not self.is_there():
            self.update()

    def look(self) -> Look:
        """What the mirror shows now. The branches are read first: its commits only grow."""
        self.need_mirror()
        refs = self.refs
        assert self.mirror
        return Look(refs, dict(self.mirror.changesets))

    def commit_of(self, id: str) -> str | None:
        """The commit of a changeset, once the mirror has all that the log has."""
        with self.turn:
            self.update()
            return self.mirror.commits.get(id) if self.mirror else None

    def landed(self, bookmark: str, draft: str) -> str | None:
        """What a draft became on a bookmark that has it still, by the log to its end."""
        with self.turn:
            self.update()
            id = self.log.drafts.get((bookmark, draft))
            head = self.log.bookmarks.get(bookmark)
            if not self.mirror or id is None or head is None:
                return None
            found = [self.mirror.commits.get(it, "") for it in (id, head)]
        words = ("merge-base", "--is-ancestor", *found)
        return id if is_git_fine(self.directory, *words) else None

    def doubt(self) -> None:
        """Has the watcher look whether the mirror is damaged."""
        self.doubted.set()

    def check(self) -> None:
        """Looks at each byte of the mirror, and makes it anew where one is wrong."""
        self.doubted.clear()
        mirror = self.mirror
        if mirror and not mirror.is_sound(thorough=True):
            with self.turn:
                tell("mirror: damaged")
                self.log.read_on()
                self.remake()

    def is_well(self) -> bool:
        """Whether the mirror is at most a little behind."""
        return self.fault is None or time.monotonic() - self.fresh_at < LATE_SECONDS

    def watch(self, seconds: float) -> None:
        """Follows the log for good; a fault is told once and tried again, less often each time."""
        pause, told = seconds, None
        while True:
            if not self.doubted.wait(pause):
                pause = seconds
            try:
                if self.doubted.is_set():
                    self.check()
                self.update()
                pause, told = seconds, None
            except Exception as fault:
                # Whatever it is, the watcher goes on.
                if str(fault) != told:
                    told = str(fault)
                    tell(f"mirror: behind: {told}")
                pause = min(2 * pause, MOST_PAUSE_SECONDS)
