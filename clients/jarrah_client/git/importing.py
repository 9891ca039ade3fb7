"""Importing the history of a git branch."""

from __future__ import annotations

import queue
import threading
import time
from collections import deque
from collections.abc import Callable, Iterator
from concurrent.futures import Future
from contextlib import closing, contextmanager, suppress
from dataclasses import dataclass, field
from functools import cached_property, partial
from hashlib import sha256
from pathlib import Path

from ..formats.changesets import MOST_CHANGES, MOST_SIZE_BYTES, SECOND, Changeset, CopySource, File
from ..formats.fields import digest
from ..formats.lists import Batch
from ..formats.paths import own_name, path_fault, path_key
from ..net.contents import PIECE_BYTES, join
from ..net.pool import Pool
from ..net.server import Server, Trouble
from ..refusals import Fault, Refused, about
from ..terminal.output import counted
from ..terminal.progress import Progress
from ..trees.tree import tree_of
from .commit_graph import GitGraph, LostCommits
from .marks import Marks
from .merges import (
    CHANGE_OVERHEAD,
    MOST_CHANGE_BYTES,
    SOURCE_OVERHEAD,
    SidedChange,
    fit_one,
    of_one_parent,
    settled,
)
from .source import GitChange, GitCommit, GitRepository, GitSource

AHEAD_COMMITS = 128
AHEAD_BYTES = 64 << 20
FILL_SECONDS = 1.0
"""So long at most a request of several changesets is waited for until it is full."""
MOST_MESSAGE_BYTES = 262_144
DONE: Future[None] = Future()
"""Stands for the upload of a change that sends nothing."""
DONE.set_result(None)


@dataclass(frozen=True)
class Wanted:
    """What is imported: a branch of a repository, and how."""

    repository: Path
    branch: str
    with_copies: bool = True
    first_parents: bool = False
    """Whether each merge becomes its difference from its first parent."""
    copies_harder: bool = False
    """Whether copies are looked for among all files, and not those that a commit changes alone."""


@dataclass
class Report:
    """What an import did."""

    bookmark: str
    head: str | None = None
    commits: int = 0
    changesets: int = 0
    contents: int = 0
    content_bytes: int = 0
    copies: int = 0
    """Files that are told as copies of others, or as others of new names."""
    merges: int = 0
    """Merges that have two parents still."""
    octopuses: int = 0
    """Those among them that had more in git."""
    lost: int = 0
    """Commits that are reached through further parents of octopuses alone, and aren't imported."""
    flattened: int = 0
    """Merges that became their differences from their first parents."""
    takes_merges: bool = True
    """Whether the server stores changesets of two parents, as far as it was asked."""
    known: int = 0
    """Commits that an earlier run had imported."""
    seconds: float = 0.0
    left_out: list[dict[str, str]] = field(default_factory=list)
    altered: list[str] = field(default_factory=list)


@dataclass
class Taken:
    """What is taken over of a commit, and the uploads of its contents."""

    changes: dict[str, File | None] = field(default_factory=dict)
    copies: dict[str, CopySource] = field(default_factory=dict)
    uploads: list[Future[None]] = field(default_factory=list)
    wholes: dict[str, list[str]] = field(default_factory=dict)
    """Large contents with their pieces, which are joined once those are uploaded."""


@dataclass(frozen=True)
class Step:
    """The changesets of one commit, and the uploads that they wait for."""

    commit: GitCommit
    changesets: list[Changeset]
    uploads: list[Future[None]]
    wholes: dict[str, list[str]]


class Room:
    """How many bytes may be on their way at a time."""

    def __init__(self, count: int):
        self.count = count
        self.changed = threading.Condition()

    def take(self, count: int) -> None:
        """Waits until there is room for so many."""
        with self.changed:
            self.changed.wait_for(lambda: self.count >= count)
            self.count -= count

    def give(self, count: int) -> None:
        """Gives back the room of so many."""
        with self.changed:
            self.count += count
            self.changed.notify_all()


class Uploaded:
    """How much of each commit to come is up, so that the bar moves within one of many files."""

    def __init__(self, progress: Progress):
        self.progress = progress
        self.turn = threading.Lock()
        self.shares: deque[list[int]] = deque()
        """Of each commit that isn't done: how many of its changes are up, and how many it has."""

    def begin(self, count: int) -> list[int]:
        """The share of a commit of so many changes."""
        share = [0, count]
        self.shares.append(share)
        return share

    def add(self, share: list[int]) -> None:
        """One more is up. The bar tells of the first commit that isn't done."""
        with self.turn:
            share[0] += 1
            if self.shares and self.shares[0] is share:
                self.progress.part = min(share[0] / share[1], 1.0)
        self.progress.tick()

    def end(self) -> None:
        """The first commit is done."""
        with self.turn:
            self.shares.popleft()


class Reader:
    """Turns commits into changesets, and has their contents uploaded ahead of them."""

    def __init__(
        self, source: GitRepository, going: Plan, pool: Pool, report: Report, progress: Progress
    ):
        self.source = source
        self.going = going
        self.made = dict(going.known)
        """The changesets of the commits so far."""
        self.pool = pool
        self.report = report
        self.progress = progress
        self.room = Room(AHEAD_BYTES)
        self.steps: queue.Queue[Step | Exception | None] = queue.Queue(AHEAD_COMMITS)
        self.blobs: dict[str, tuple[str, int]] = {}
        self.sent: set[str] = set()
        """The contents and pieces that this run has uploaded."""
        self.uploaded = Uploaded(progress)

    def read(self) -> None:
        """Puts a step for each commit, then None, or what went wrong."""
        try:
            for commit in self.source.commits(self.going.graph, self.going.oids):
                step = self.step(commit)
                self.made[commit.oid] = step.changesets[-1].id
                self.steps.put(step)
            self.steps.put(None)
        except Exception as fault:
            self.steps.put(fault)

    def parents_of(self, oid: str) -> tuple[str, ...]:
        """The changesets that a commit's stands on: its first two parents', each once."""
        gits = self.going.graph.parents[oid]
        if not gits:
            return self.going.base if oid == self.going.root else ()
        return tuple(dict.fromkeys(self.made[parent] for parent in gits[:2]))

    def changes_of(
        self, commit: GitCommit, parents: tuple[str, ...]
    ) -> tuple[tuple[str, ...], list[SidedChange]]:
        """The parents and changes of a commit; one of a merge without room for both is dropped."""
        if len(parents) == 2:
            changes = settled(*commit.sides)
            if fit_one(changes):
                self.count_merge(commit)
                return parents, changes
            self.report.flattened += 1
            why = f"its {len(changes):,} changes don't fit one changeset with two parents"
            self.tell(commit, f"made its difference from its first parent: {why}")
        return parents[:1], of_one_parent(commit.sides[0])

    def count_merge(self, commit: GitCommit) -> None:
        """Counts a merge, and tells where git has more parents of it."""
        self.report.merges += 1
        count = len(self.going.graph.parents[commit.oid])
        if count > 2:
            self.report.octopuses += 1
            lost = counted(len(self.lost.by(commit.oid)), "commit")
            self.report.lost = len(self.lost.found)
            kept = f"the first two of its {count} parents are kept"
            self.tell(commit, f"{kept}; what the others bring is set, {lost} of theirs lost")

    @cached_property
    def lost(self) -> LostCommits:
        """The commits that octopuses lead to, and that aren't imported."""
        return LostCommits(self.going.graph)

    def step(self, commit: GitCommit) -> Step:
        """The changesets of a commit onto those of its parents."""
        taken = Taken()
        parents, changes = self.changes_of(commit, self.parents_of(commit.oid))
        share = self.uploaded.begin(len(changes))
        for one in changes:
            count = len(taken.uploads)
            self.take(commit, one, taken)
            for upload in taken.uploads[count:] or [DONE]:
                upload.add_done_callback(lambda _: self.uploaded.add(share))
        message = commit.message
        if commit.is_altered:
            self.alter(commit, "its author or message isn't text that a changeset can hold")
        if len(message.encode()) > MOST_MESSAGE_BYTES:
            message = message.encode()[:MOST_MESSAGE_BYTES].decode(errors="ignore")
            self.alter(commit, f"its message was cut to {MOST_MESSAGE_BYTES:,} bytes")
        whole = Changeset(
            (), commit.author, commit.seconds, commit.offset, message, taken.changes, taken.copies
        )
        return Step(commit, stacked(whole, parents), taken.uploads, taken.wholes)

    def take(self, commit: GitCommit, sided: SidedChange, taken: Taken) -> None:
        """Adds one change of a commit, or names why it is left out."""
        change = sided.change
        fault = path_fault(change.path)
        if fault:
            self.leave_out(commit, change, f"the path is refused: {fault}")
            return
        path = change.path.decode()
        if own_name(path):
            self.leave_out(commit, change, f"it has the element `{own_name(path)}`")
            return
        file = self.file(commit, change, taken)
        if file or change.was_file:
            taken.changes[path] = file
        if file and change.source and self.is_imported(change.source):
            taken.copies[path] = CopySource(sided.side, change.source.path.decode())
            self.report.copies += 1

    def is_imported(self, source: GitSource) -> bool:
        """Whether a file of a parent was imported too."""
        if path_fault(source.path) or own_name(source.path.decode()):
            return False
        if source.blob in self.blobs:
            return True
        return self.why_too_large(self.source.size(source.blob)) is None

    @cached_property
    def server_joins(self) -> bool:
        """Whether the server takes contents of several pieces."""
        return self.pool.ask(Server.joins).result()

    def why_too_large(self, size: int) -> str | None:
        """Why the server can't have a content of so many bytes, or None where it can."""
        if size > MOST_SIZE_BYTES:
            return f"it has {size:,} bytes, over {MOST_SIZE_BYTES:,}"
        if size > PIECE_BYTES and not self.server_joins:
            takes = "which a server takes whose file has version 2 (`hg_cli migrate OLD NEW`)"
            return f"it has {size:,} bytes, over {PIECE_BYTES:,}, {takes}"
        return None

    def file(self, commit: GitCommit, change: GitChange, taken: Taken) -> File | None:
        """The file that a change sets, its content on its way; None where there is none."""
        if change.is_submodule:
            self.leave_out(commit, change, "it is a submodule")
        if change.kind is None:
            return None
        if change.blob not in self.blobs:
            size = self.source.begin(change.blob)
            why = self.why_too_large(size)
            if why:
                self.source.skip(change.blob, size)
                self.leave_out(commit, change, why)
                return None
            self.blobs[change.blob] = (self.upload_blob(change.blob, size, taken), size)
        return File(*self.blobs[change.blob], change.kind)

    def upload_blob(self, blob: str, size: int, taken: Taken) -> str:
        """Has a content uploaded as git gives its pieces, and tells its id."""
        whole, pieces = sha256(), []
        for data in self.source.pieces(blob, size):
            whole.update(data)
            pieces.append(digest(data))
            if pieces[-1] not in self.sent:
                self.sent.add(pieces[-1])
                taken.uploads.append(self.upload(pieces[-1], data))
        if len(pieces) > 1:
            taken.wholes[whole.hexdigest()] = pieces
        self.report.contents += 1
        self.report.content_bytes += size
        contents, total = self.report.contents, self.report.content_bytes / (1 << 20)
        self.progress.detail = f"{contents:,} contents, {total:,.1f} MiB"
        return whole.hexdigest()

    def upload(self, id: str, data: bytes) -> Future[None]:
        """Has a content, or a piece of one, uploaded by the next connection that is free."""
        self.room.take(len(data))
        future = self.pool.ask(lambda server: server.put_content(id, data))
        # A pool may make the call again, and gives its answer once.
        future.add_done_callback(lambda _: self.room.give(len(data)))
        return future

    def leave_out(self, commit: GitCommit, change: GitChange, why: str) -> None:
        """Names a path that isn't imported."""
        path = change.path.decode(errors="backslashreplace")
        self.report.left_out.append({"commit": commit.oid, "path": path, "why": why})
        self.progress.note(f"left out: {path!r} of commit {commit.oid[:12]}: {why}")

    def alter(self, commit: GitCommit, why: str) -> None:
        """Names a commit whose words aren't kept as git has them."""
        self.report.altered.append(commit.oid)
        self.progress.note(f"altered: commit {commit.oid[:12]}: {why}")

    def tell(self, commit: GitCommit, what: str) -> None:
        """Tells of a merge that isn't kept as git has it."""
        self.progress.note(f"merge: commit {commit.oid[:12]}: {what}")


def parts_of(whole: Changeset) -> list[dict[str, File | None]]:
    """Changes in as few parts as changesets can hold, by rising paths.

    Copies come first, so that their sources are there still in what they are put onto.
    """
    parts: list[dict[str, File | None]] = [{}]
    room = MOST_CHANGE_BYTES
    order = lambda path: (path not in whole.copies, path_key(path))  # noqa: E731
    for path in sorted(whole.changes, key=order):
        needs = len(path.encode()) + CHANGE_OVERHEAD
        if path in whole.copies:
            needs += len(whole.copies[path].path.encode()) + SOURCE_OVERHEAD
        if len(parts[-1]) == MOST_CHANGES or needs > room:
            parts.append({})
            room = MOST_CHANGE_BYTES
        parts[-1][path] = whole.changes[path]
        room -= needs
    return parts


def stacked(whole: Changeset, parents: tuple[str, ...]) -> list[Changeset]:
    """One changeset for each part, each onto the one before; the last has the whole message."""
    changesets: list[Changeset] = []
    parts = parts_of(whole)
    for number, part in enumerate(parts, 1):
        title = whole.message.partition("\n")[0]
        message = whole.message if number == len(parts) else f"{title} ({number}/{len(parts)})"
        changesets.append(whole.changing(part, parents=parents, message=message))
        parents = (changesets[-1].id,)
    return changesets


@dataclass(frozen=True)
class Plan:
    """Where an import goes on: the bookmark's head, what was imported, and the commits to come."""

    graph: GitGraph
    known: dict[str, str]
    head: str | None
    base: tuple[str, ...]
    """What the root of the first-parent line stands on, if anything."""
    oids: list[str]

    @cached_property
    def root(self) -> str:
        """The root of the first-parent line."""
        return self.graph.line()[0]


def plan(server: Server, bookmark: str, graph: GitGraph, marks: Marks) -> Plan:
    """Finds where to go on, or says why the import would not fit."""
    head = server.head(bookmark)
    last = next((oid for oid in reversed(graph.parents) if oid in marks.known), None)
    if last:
        need_known(server, marks.known[last], marks)
    is_own = head is None or (last and head in marks.known.values())
    base: tuple[str, ...] = ()
    if head and not is_own:
        need_empty(server, bookmark, head)
        base = (head,)
    return Plan(graph, marks.known, head, base, graph.to_come(marks.known))


def taken_graph(
    whole: GitGraph, first_parents: bool, pool: Pool, marks: Marks, report: Report
) -> GitGraph:
    """The commits to import: all that the branch reaches, or its first-parent line alone."""
    to_come = whole.to_come(marks.known)
    if not first_parents and any(len(whole.parents[oid]) > 1 for oid in to_come):
        report.takes_merges = pool.ask(Server.takes_merges).result()
    if report.takes_merges and not first_parents:
        return whole
    line = whole.of_first_parents()
    report.flattened = sum(len(whole.parents[oid]) > 1 for oid in line.to_come(marks.known))
    return line


def need_known(server: Server, id: str, marks: Marks) -> None:
    """Refuses marks of another server."""
    try:
        server.changeset(id)
    except Refused as refusal:
        if refusal.code != "no-changeset":
            raise
        raise Trouble(
            f"{marks.place} has marks of another server: this one doesn't know {id};"
            " name another file with --marks"
        ) from None


def need_empty(server: Server, bookmark: str, head: str) -> None:
    """Refuses a bookmark with files that no run of this import put there."""
    if tree_of(server, head).count():
        raise Trouble(
            f"{bookmark} is at {head}, which this import didn't make;"
            " import onto a new bookmark, or name its file with --marks"
        )


def import_git(
    server: Server, wanted: Wanted, bookmark: str, marks_file: Path | None, connections: int
) -> Report:
    """Imports what a branch reaches, and moves the bookmark to its end."""
    begun = time.monotonic()
    copies = (wanted.with_copies, wanted.copies_harder)
    with GitRepository(wanted.repository, *copies) as source:
        whole = source.graph(wanted.branch)
        place = marks_file or source.directory / "jarrah" / f"{bookmark}.marks"
        with closing(Marks(place)) as marks, Pool(server, connections) as pool:
            report = Report(bookmark, marks.known.get(whole.tip))
            graph = taken_graph(whole, wanted.first_parents, pool, marks, report)
            report.known = sum(oid in marks.known for oid in graph.parents)
            going = pool.ask(lambda server: plan(server, bookmark, graph, marks)).result()
            upload_all(source, pool, going, marks, report)
            if report.head != going.head:
                pool.ask(
                    lambda server: server.move_bookmark(bookmark, going.head, report.head),
                    once=True,
                ).result()
    report.seconds = time.monotonic() - begun
    return report


def upload_all(
    source: GitRepository, pool: Pool, going: Plan, marks: Marks, report: Report
) -> None:
    """Uploads the commits to come, each changeset after its contents and its parents."""
    with Progress("commits", len(going.oids)) as progress:
        reader = Reader(source, going, pool, report, progress)

        def finish(step: Step) -> None:
            marks.add(step.commit.oid, step.changesets[-1].id)
            report.commits += 1
            reader.uploaded.end()
            progress.step()

        sender = Sender(pool, report, progress, finish, stopped_at)
        threading.Thread(target=reader.read, daemon=True).start()
        while step := next_step(reader, sender):
            if isinstance(step, Exception):
                sender.send()
                raise step
            sender.add(step)
        sender.send()


def next_step(reader: Reader, sender: Sender) -> Step | Exception | None:
    """What the reader has next. Where that takes long, what is gathered is sent meanwhile."""
    if sender.steps:
        with suppress(queue.Empty):
            return reader.steps.get(timeout=sender.patience)
        sender.send()
    return reader.steps.get()


class Sender:
    """Has changesets uploaded, those of several commits by one request."""

    def __init__(
        self,
        pool: Pool,
        report: Report,
        progress: Progress,
        finish: Callable[[Step], None],
        named: Callable[[GitCommit], str],
    ):
        self.pool = pool
        self.report = report
        self.progress = progress
        self.finish = finish
        """What is done once all changesets of a commit are stored."""
        self.named = named
        """What a commit is called where a fault stopped at it."""
        self.steps: list[Step] = []
        self.batch = Batch()
        self.begun = 0.0

    @property
    def patience(self) -> float:
        """How long the next commit may be waited for."""
        return max(self.begun + FILL_SECONDS - time.monotonic(), 0.001)

    def add(self, step: Step) -> None:
        """Takes a commit in once its contents are there. What is full is sent before."""
        if self.steps and not self.batch.has_room(step.changesets):
            self.send()
        try:
            with about(self.named(step.commit)):
                await_contents(step, self.pool, self.progress)
        except Fault:
            self.send()
            raise
        if not self.steps:
            self.begun = time.monotonic()
        self.steps.append(step)
        self.batch.add(step.changesets)

    def send(self) -> None:
        """Has the changesets stored that were taken in; a fault says where that stopped."""
        steps, changesets = self.steps, self.batch.changesets
        self.steps, self.batch = [], Batch()
        if not steps:
            return
        try:
            call = partial(Server.put_changesets, changesets=changesets)
            self.pool.ask(call, urgent=True).result()
        except Fault as fault:
            stored = fault.members.get("at", 0) if isinstance(fault, Refused) else 0
            rest = self.take_up_to(steps, stored)
            with about(self.named(rest[0].commit)), advised(changesets[stored]):
                raise
        self.take_up_to(steps, len(changesets))

    def take_up_to(self, steps: list[Step], stored: int) -> list[Step]:
        """Finishes the commits whose changesets are among so many, and gives the others."""
        for number, step in enumerate(steps):
            count = min(stored, len(step.changesets))
            self.report.changesets += count
            if count:
                self.report.head = step.changesets[count - 1].id
            if count < len(step.changesets):
                return steps[number:]
            stored -= count
            self.finish(step)
        return []


def stopped_at(commit: GitCommit) -> str:
    """What is said of the commit at which an import stopped."""
    return f"stopped at commit {commit.oid[:12]} (run again to go on)"


def await_contents(step: Step, pool: Pool, progress: Progress) -> None:
    """Waits for the contents of a commit, and has the large ones joined."""
    for content in step.uploads:
        content.result()
        progress.tick()
    for id, pieces in step.wholes.items():
        pool.ask(lambda server: join(server, id, pieces), urgent=True).result()
        progress.tick()


@contextmanager
def advised(changeset: Changeset) -> Iterator[None]:
    """Has a server that doesn't know the second version refuse it with what helps."""
    try:
        yield
    except Refused as refusal:
        if refusal.code == "bad-encoding" and changeset.version == SECOND:
            refusal.advice = "an older server knows no copies: `--no-copies` leaves them out"
        raise
