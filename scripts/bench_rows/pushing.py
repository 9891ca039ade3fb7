"""What a push and an import take: each request by itself, as clients did before, or several
changesets in one.

A push is 20 new contents and a stack of 5 changesets that sets them, landed. The ways take turns on
one server, whose syncs sleep first, by the library that `seals` preloads. An import is of a git
history that this makes, into a new file each time, beside `git fast-export` into `git fast-import`,
and `hg convert`.
"""

from __future__ import annotations

import random
import shutil
import statistics
import subprocess
import time
from collections.abc import Iterator
from contextlib import ExitStack, contextmanager
from dataclasses import dataclass, field
from pathlib import Path

from jarrah_client.formats.changesets import Changeset, File
from jarrah_client.git.importing import Wanted, import_git
from jarrah_client.net.contents import CONNECTIONS, in_memory, store_all
from jarrah_client.net.server import Server

from .journal import CAPACITY, ROOT, Journal, drafted
from .landings import BOOKMARK
from .link import Failed, opened
from .process import ratio
from .program import Served
from .row import Bench, Figure
from .seals import UNCOUNTED, Syncs, Tools, compiled

LANES = 16
CONTENTS, CHANGESETS = 20, 5
CONTENT_BYTES = 2_000
FILES_A_COMMIT = 4
DIRECTORIES = 200
PUSH_PAUSES = {"+1 ms": 1_000_000, "+8 ms": 8_000_000}
IMPORT_PAUSES = {"as is": 0, "+1 ms": 1_000_000}
"""The nanoseconds that each sync sleeps first, by what a disk is called."""
NO_COMPILER = "neither gcc nor cc is installed, so syncs can't be counted or made slower"


@dataclass
class Way:
    """How a push goes, and what each took."""

    name: str
    connections: int
    takes_lists: bool
    milliseconds: list[float] = field(default_factory=list)
    syncs: int = 0


def ways() -> list[Way]:
    """The first is the one that the others are compared with."""
    return [
        Way("each request by itself", 1, False),
        Way("one stack", 1, True),
        Way(f"one stack, contents over {CONNECTIONS}", CONNECTIONS, True),
    ]


@contextmanager
def counted(bench: Bench, tools: Tools, file: Path, pause: int) -> Iterator[tuple[Served, Syncs]]:
    """A server of a file whose syncs are counted, and so slow."""
    with ExitStack() as stack:
        syncs = Syncs(stack)
        syncs.pause(pause)
        before = tools.preloaded(syncs)
        served = stack.enter_context(bench.program.serve(file, LANES, before=before))
        opened(served.address).close()
        yield served, syncs


def client(served: Served, takes_lists: bool) -> Server:
    """A client, which may be told that the server takes no lists."""
    host, port = served.address
    server = Server(f"http://{host}:{port}")
    server.known.takes_lists = takes_lists
    return server


# A push


def push(server: Server, way: Way, number: int, head: str) -> str:
    """Pushes a stack onto the head, and gives the new one."""
    words = (f"push {number} content {it} ".encode() for it in range(CONTENTS))
    data = (it.ljust(CONTENT_BYTES, b".") for it in words)
    sources = [in_memory(f"file-{it}", one) for it, one in enumerate(data)]
    stack: list[Changeset] = []
    for part in range(CHANGESETS):
        files = sources[part::CHANGESETS]
        changes: dict[str, File | None] = {
            f"push-{number}/{it.name}": File(it.id, it.size) for it in files
        }
        stack.append(drafted(stack[-1].id if stack else head, f"part {part}", changes))
    store_all(server, sources, quietly=True, connections=way.connections)
    return server.land_stack(BOOKMARK, stack).head


def pushed(bench: Bench, tools: Tools, disk: str) -> Iterator[Figure]:
    """Each way's time and syncs, on one server."""
    file, pause, tried = bench.folder / "pushed", PUSH_PAUSES[disk], ways()
    with Journal(file) as journal:
        journal.bookmark(BOOKMARK, ROOT.id)
    with counted(bench, tools, file, pause) as (served, syncs):
        links = {way.name: client(served, way.takes_lists) for way in tried}
        head, number = ROOT.id, 0
        # The first turn warms up.
        for turn in range(1 + bench.choose(20, 5)):
            for way in tried if turn % 2 else reversed(tried):
                before, begun = syncs.count, time.monotonic()
                head = push(links[way.name], way, number, head)
                number += 1
                if turn:
                    way.milliseconds.append(1_000 * (time.monotonic() - begun))
                    way.syncs += syncs.count - before
        for link in links.values():
            link.close()
        if not syncs.count:
            raise Failed(f"{bench.program.path} {UNCOUNTED}")
    file.unlink()
    yield from figures(disk, tried)


def figures(disk: str, tried: list[Way]) -> Iterator[Figure]:
    """Each beside the first."""
    first = statistics.median(tried[0].milliseconds)
    for way in tried:
        middle, syncs = statistics.median(way.milliseconds), way.syncs / len(way.milliseconds)
        yield Figure(f"{disk}: {way.name}", middle, "ms a push", middle / first)
        yield Figure(f"{disk}: {way.name}", syncs, "syncs a push", ratio(way.syncs, tried[0].syncs))


def pushes(bench: Bench) -> Iterator[Figure | str]:
    """A push by each way, at syncs of each length."""
    tools = compiled(bench.folder, ["syncs"])
    if not tools:
        yield NO_COMPILER
        return
    for disk in PUSH_PAUSES:
        yield from pushed(bench, tools, disk)


# An import


def history(commits: int) -> Iterator[bytes]:
    """A stream for `git fast-import`: each commit sets some files of random hexadecimal lines."""
    draws = random.Random(7)
    for number in range(commits):
        yield b"commit refs/heads/main\ncommitter A <a@example.org> %d +0000\n" % (10**9 + number)
        message = b"commit %d" % number
        yield b"data %d\n%s\n" % (len(message), message)
        for _ in range(FILES_A_COMMIT):
            place = draws.randrange(20_000)
            data = draws.randbytes(CONTENT_BYTES // 2).hex(" ", 32).replace(" ", "\n").encode()
            name = b"d%d/f%d" % (place % DIRECTORIES, place)
            yield b"M 644 inline %s\ndata %d\n%s\n" % (name, len(data), data)


def made(folder: Path, stream: Iterator[bytes]) -> Path:
    """A bare repository of git that has a stream's history."""
    subprocess.run(["git", "init", "-q", "--bare", "-b", "main", folder], check=True)
    words = ["git", "-C", str(folder), "fast-import", "--quiet"]
    with subprocess.Popen(words, stdin=subprocess.PIPE) as importing:
        for data in stream:
            importing.stdin.write(data)
    if importing.returncode:
        raise Failed(f"git fast-import ended with status {importing.returncode}")
    return folder


def by_git(bench: Bench, source: Path) -> float:
    """The seconds of git's own export into its own import."""
    target = bench.folder / "by-git"
    subprocess.run(["git", "init", "-q", "--bare", target], check=True)
    words = 'git -C "$1" fast-export main | git -C "$2" fast-import --quiet'
    begun = time.monotonic()
    subprocess.run(["sh", "-c", words, "sh", source, target], check=True)
    seconds = time.monotonic() - begun
    shutil.rmtree(target)
    return seconds


def by_hg(bench: Bench, source: Path) -> float | None:
    """The seconds of Mercurial's import, where it is installed."""
    program = shutil.which("hg")
    if not program:
        return None
    target, begun = bench.folder / "by-hg", time.monotonic()
    convert = [program, "--config", "extensions.convert=", "convert", "-q", source, target]
    subprocess.run(convert, check=True)
    seconds = time.monotonic() - begun
    shutil.rmtree(target)
    return seconds


def imported(
    bench: Bench, tools: Tools, source: Path, disk: str, takes_lists: bool
) -> tuple[float, int, str | None]:
    """The seconds of an import into a new file, its syncs, and where the bookmark is then."""
    file, marks = bench.folder / "imported", bench.folder / "marks"
    bench.program.init(file, CAPACITY)
    with counted(bench, tools, file, IMPORT_PAUSES[disk]) as (served, syncs):
        server, before = client(served, takes_lists), syncs.count
        begun = time.monotonic()
        report = import_git(server, Wanted(source, "main"), BOOKMARK, marks, 4)
        seconds, count = time.monotonic() - begun, syncs.count - before
        server.close()
    if not count:
        raise Failed(f"{bench.program.path} {UNCOUNTED}")
    file.unlink()
    marks.unlink()
    return seconds, count, report.head


def imports(bench: Bench) -> Iterator[Figure | str]:
    """An import with each request by itself, and with lists, beside those of git and Mercurial."""
    tools, commits = compiled(bench.folder, ["syncs"]), bench.choose(3_000, 300)
    if not tools:
        yield NO_COMPILER
        return
    source = made(bench.folder / "source", history(commits))
    git = by_git(bench, source)
    yield Figure(f"git fast-export and fast-import, {commits:,} commits", git, "seconds", 1.0)
    hg = by_hg(bench, source)
    yield "hg isn't installed" if hg is None else Figure("hg convert", hg, "seconds", hg / git)
    for disk in IMPORT_PAUSES:
        heads = []
        for name, takes_lists in (("each changeset by itself", False), ("in lists", True)):
            seconds, syncs, head = imported(bench, tools, source, disk, takes_lists)
            heads.append(head)
            yield Figure(f"{disk}: import-git, {name}", seconds, "seconds", seconds / git)
            yield Figure(f"{disk}: import-git, {name}", syncs, "syncs")
        if heads[0] != heads[1]:
            raise Failed(f"the imports ended at {heads[0]} and at {heads[1]}")
