"""Reads beside writers: how long a bookmark, a page of the log, an fsnode and a small content take to be read.

Writers land drafts that lie ready, as in the row `seals`; one reader asks for the same thing again
and again meanwhile, over a connection that is kept. Both are programs in C. The writers begin before
the reader and end after it, and a turn in which they had no draft left before its end doesn't count.
Syncs are slower by the library that `seals` preloads.
"""

from __future__ import annotations

import statistics
import subprocess
import time
from collections.abc import Iterator
from contextlib import ExitStack
from dataclasses import dataclass

from jarrah_client.formats.changesets import File

from .journal import ROOT, Journal, drafted
from .landings import BOOKMARK, TURN_SECONDS
from .link import Failed, Link
from .row import Bench
from .seals import NANOSECONDS, Server, Syncs, Tools, Turn, compiled, lines

PAUSES = {"as is": 0, "+1 ms": 1_000_000, "+20 ms": 20_000_000}
"""The nanoseconds that each sync sleeps first, by what a disk is called."""
START_SECONDS = 0.1
"""The writers have so long to begin, and end so much after the reader."""
READ_MILLISECONDS = str(int(1_000 * TURN_SECONDS))
WRITE_SECONDS = TURN_SECONDS + 2 * START_SECONDS
WRITE_MILLISECONDS = str(int(1_000 * WRITE_SECONDS))
WRITERS = (0, 4, 16)
CONTENT_BYTES = 1_024
PAGE_ENTRIES = 100
HEADING = (
    "                                                          ms of a read            landings\n"
    "disk    writers  of                        reads    median     99th   longest   a second"
)


@dataclass(frozen=True)
class Target:
    """What is read, by which path."""

    what: str
    path: str


class Beside(Server):
    """A server whose writers land while one thing is read."""

    @property
    def lanes(self) -> int:
        return self.clients + 1

    def fill(self, journal: Journal) -> None:
        super().fill(journal)
        small = journal.content(b"." * CONTENT_BYTES)
        tree = journal.changeset(drafted(ROOT.id, "a tree", files(small)))
        while journal.count < 2 * PAGE_ENTRIES:
            journal.changeset(drafted(ROOT.id, f"a draft, the {journal.count}th", files(small)))
        self.targets = [
            Target("a bookmark", f"/bookmark/{BOOKMARK}"),
            Target("100 entries of the log", "/log/0"),
            Target("an fsnode", f"/fsnode/{tree.id}/directory"),
            Target("a content of 1 KiB", f"/content/{small.content}"),
        ]

    def warm(self, program) -> None:
        link = Link(self.served.address)
        for it in self.targets:
            link.read("GET", it.path)
        link.close()
        if self.clients:
            super().warm(program)

    def read_beside(self, target: Target) -> tuple[Turn, Turn]:
        """The reads of a turn, and the landings, once the writers wrote all the time."""
        while True:
            reads, writes = self.both(target)
            if not self.clients or writes.seconds >= WRITE_SECONDS:
                return reads, writes

    def both(self, target: Target) -> tuple[Turn, Turn]:
        port = self.served.address[1]
        reading = (self.tools.folder / "readers", port, target.path, READ_MILLISECONDS)
        if not self.clients:
            return self.tools.turn(reading), Turn(TURN_SECONDS, [])
        ids = self.upload()
        with self.counted(), ExitStack() as stack:
            writing = [str(it) for it in self.landers(WRITE_MILLISECONDS)]
            pipe = subprocess.PIPE
            started = subprocess.Popen(writing, stdin=pipe, stdout=pipe, text=True)
            landers = stack.enter_context(started)
            landers.stdin.write(lines(ids))
            landers.stdin.close()
            time.sleep(START_SECONDS)
            reads = self.tools.turn(reading)
            whole, *each = (int(it) / NANOSECONDS for it in landers.stdout.read().split())
            if landers.wait():
                raise Failed(f"{writing[0]} ended with the status {landers.returncode}")
        writes = Turn(whole, each)
        self.count(ids, writes, WRITE_SECONDS)
        return reads, writes


def files(content: File) -> dict[str, File]:
    return {f"directory/file-{it:02}": content for it in range(16)}


def line(disk: str, writers: int, target: Target, turns: list[tuple[Turn, Turn]]) -> str:
    """What the turns of one target took."""
    each = sorted(1_000 * it for reads, _ in turns for it in reads.each)
    last = each[-(-99 * len(each) // 100) - 1]
    seconds = sum(writes.seconds for _, writes in turns)
    landed = sum(len(writes.each) for _, writes in turns) / seconds
    return (
        f"{disk:<6}  {writers:7}  {target.what:<22}  {len(each):8,}  {statistics.median(each):8.3f}"
        f"  {last:7.2f}  {each[-1]:8.2f}  {landed:9,.0f}"
    )


def measured(bench: Bench, tools: Tools, disk: str, writers: int) -> Iterator[str]:
    """A line for each target, which take turns."""
    with ExitStack() as stack:
        file = bench.folder / "served"
        server = Beside("A", tools, file, writers, Syncs(stack), PAUSES[disk])
        stack.enter_context(server.serve(bench.program))
        turns = {it: [] for it in server.targets}
        for _ in range(bench.turns or bench.choose(12, 3)):
            for target, taken in turns.items():
                taken.append(server.read_beside(target))
    for target, taken in turns.items():
        yield line(disk, writers, target, taken)


def reads(bench: Bench) -> Iterator[str]:
    """A line for each disk, number of writers, and target."""
    tools = compiled(bench.folder)
    if not tools:
        yield "neither gcc nor cc is installed, so nothing is measured"
        return
    yield HEADING
    for disk in PAUSES:
        for writers in bench.clients if bench.clients is not None else WRITERS:
            yield from measured(bench, tools, disk, writers)
