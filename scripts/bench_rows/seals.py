"""Landings alone, of drafts that lie ready: how many a second, how long each takes, and its syncs.

A landing is one request on a connection that is kept, and one entry. Clients are threads of a
program in C, so that they take little of the processors. Each program has a file of its own, and
they and the raw log take turns of a quarter of a second: on the disk as it is, and where each sync
sleeps a millisecond first, by a library that is preloaded and counts them. Before a turn the drafts
are uploaded, each on the head of that time with a path of its own; these uploads aren't synced one
by one. A turn ends early where a client has no draft left. The raw log writes the records of
landings in one process: each its bytes, a sync, its gate, a sync.
"""

from __future__ import annotations

import mmap
import os
import shutil
import statistics
import struct
import subprocess
from collections.abc import Iterable, Iterator
from contextlib import ExitStack, contextmanager
from dataclasses import dataclass
from pathlib import Path

from jarrah_client.formats.changesets import Changeset, File

from .journal import ROOT, Journal, drafted
from .landings import BOOKMARK, TURN_SECONDS
from .link import Failed, Link, opened
from .process import Cost
from .program import Program
from .row import Bench

TURN_MILLISECONDS = str(int(1_000 * TURN_SECONDS))
NANOSECONDS = 1_000_000_000
PAUSES = {"as is": 0, "+1 ms": 1_000_000}
"""The nanoseconds that each sync sleeps first, by what a disk is called."""
UNSYNCED = -1
FEWEST_DRAFTS = 32
"""So many lie ready for each client at first, and twice as many after a turn that used them up."""
FARTHEST = 8_000
"""So many lie ready at most for all: the last one may still be landed over the others."""
UNCOUNTED = (
    "doesn't sync by a call of the C library that a preloaded one can take the place of"
    " (ldd says whether it is linked to that), so its syncs can't be counted or made slower"
)
C_NAMES = {
    "landers": ["-pthread"],
    "readers": [],
    "appends": [],
    "syncs": ["-shared", "-fPIC", "-ldl"],
}
HEADING = (
    "                                               a  beside raw log  beside"
    "      syncs    ms of a landing      ms of\n"
    "disk   clients  of       landings  seconds  second    all  median       A"
    "  a landing     median    99th  processor"
)


class Syncs:
    """What tells a preloaded library how to sync, and is told how often it did. It lies in no file
    of the disk that is measured."""

    def __init__(self, stack: ExitStack):
        memory = stack.enter_context(os.fdopen(os.memfd_create("bench-syncs"), "r+b"))
        memory.truncate(16)
        self.path = f"/proc/{os.getpid()}/fd/{memory.fileno()}"
        self.room = stack.enter_context(mmap.mmap(memory.fileno(), 16))

    def pause(self, nanoseconds: int) -> None:
        self.room[:8] = struct.pack("=q", nanoseconds)

    @property
    def count(self) -> int:
        return struct.unpack("=Q", self.room[8:])[0]


@dataclass(frozen=True)
class Turn:
    """What was landed or appended in a turn: the time of all, and of each."""

    seconds: float
    each: list[float]

    @property
    def rate(self) -> float:
        return len(self.each) / self.seconds


class Side:
    """What takes turns, and what it took in them."""

    def __init__(self, name: str, syncs: Syncs, pause: int):
        self.name, self.syncs, self.pause = name, syncs, pause
        self.forget()

    def forget(self) -> None:
        self.turns: list[Turn] = []
        self.synced, self.cost = 0, Cost()

    @contextmanager
    def counted(self) -> Iterator[None]:
        """Counts the syncs of what is done within, each with its pause."""
        self.syncs.pause(self.pause)
        before = self.syncs.count
        yield
        self.synced += self.syncs.count - before

    @property
    def seconds(self) -> float:
        return sum(it.seconds for it in self.turns)

    @property
    def milliseconds(self) -> list[float]:
        """Of each landing, the shortest first."""
        return sorted(1_000 * it for turn in self.turns for it in turn.each)

    @property
    def rate(self) -> float:
        return len(self.milliseconds) / self.seconds

    def beside(self, other: Side) -> float:
        """The median of the turns' ratios."""
        pairs = zip(self.turns, other.turns, strict=True)
        return statistics.median(it.rate / beside.rate for it, beside in pairs)


@dataclass(frozen=True)
class Tools:
    """The compiled helpers, in a folder."""

    folder: Path

    def preloaded(self, syncs: Syncs) -> tuple[str, ...]:
        """The words that start a program with its syncs counted."""
        return ("env", f"LD_PRELOAD={self.folder / 'syncs'}", f"BENCH_SYNCS={syncs.path}")

    def turn(self, words: tuple, given: str = "") -> Turn:
        """Runs a helper, which tells the nanoseconds of all and of each."""
        ran = subprocess.run(
            [str(it) for it in words], input=given, stdout=subprocess.PIPE, text=True, check=True
        )
        whole, *each = (int(it) / NANOSECONDS for it in ran.stdout.split())
        return Turn(whole, each)


def compiled(folder: Path, names: Iterable[str] = tuple(C_NAMES)) -> Tools | None:
    """The helpers of these names. None where there is no compiler."""
    compiler = shutil.which("gcc") or shutil.which("cc")
    if not compiler:
        return None
    for name in names:
        source = Path(__file__).with_name(f"{name}.c")
        command = [compiler, "-O2", "-D_GNU_SOURCE", "-o", folder / name, source, *C_NAMES[name]]
        subprocess.run(command, check=True)
    return Tools(folder)


def lines(ids: list[str]) -> str:
    return "".join(it + "\n" for it in ids)


def ready(number: int, client: int, count: int, head: str, content: File) -> list[Changeset]:
    """A client's drafts of a turn, each with a path of its own."""
    paths = (f"client-{client:02}/turn-{number:03}/stack-{it:05}" for it in range(count))
    return [drafted(head, "a stack", {path: content}) for path in paths]


class RawLog(Side):
    """Appends as many bytes as a landing's record has."""

    def __init__(self, tools: Tools, file: Path, syncs: Syncs, pause: int):
        super().__init__("raw log", syncs, pause)
        (draft,) = ready(0, 0, 1, ROOT.id, File(ROOT.id, 6))
        length = 5 + 1 + len(BOOKMARK) + 32 + 32 + 2 + 4 + len(draft.encoded) + 1
        self.tools, self.file = tools, file
        self.words = (*tools.preloaded(syncs), tools.folder / "appends", file, length)

    def take(self) -> None:
        with self.counted():
            self.turns.append(self.tools.turn((*self.words, TURN_MILLISECONDS)))


class Server(Side):
    """A server of a program, whose clients land in turns."""

    def __init__(self, name: str, tools: Tools, file: Path, clients: int, syncs: Syncs, pause: int):
        super().__init__(name, syncs, pause)
        self.tools, self.file, self.clients = tools, file, clients
        self.drafts, self.taken, self.entries = FEWEST_DRAFTS, 0, 0

    @contextmanager
    def serve(self, program: Program) -> Iterator[None]:
        """Serves a new file that has the bookmark, and checks in the end what was made of it."""
        with Journal(self.file) as journal:
            self.fill(journal)
            self.entries = journal.count
        before = self.tools.preloaded(self.syncs)
        with program.serve(self.file, lanes=self.lanes, before=before) as self.served:
            self.warm(program)
            yield
            self.check()
        self.file.unlink()

    @property
    def lanes(self) -> int:
        """So many connections at once are served."""
        return self.clients

    def fill(self, journal: Journal) -> None:
        """What the file has at first."""
        self.content = journal.content(b"a file")
        journal.bookmark(BOOKMARK, ROOT.id)

    def warm(self, program: Program) -> None:
        """Turns that don't count, until there are drafts enough for one."""
        opened(self.served.address).close()
        if not self.syncs.count:
            raise Failed(f"{program.path} {UNCOUNTED}")
        drafts = 0
        while drafts < self.drafts:
            drafts = self.drafts
            self.take()
        self.forget()

    def take(self) -> None:
        ids = self.upload()
        with self.counted(), self.cost.measure(self.served.pid):
            turn = self.tools.turn(self.landers(TURN_MILLISECONDS), lines(ids))
        self.turns.append(turn)
        self.count(ids, turn, TURN_SECONDS)

    def landers(self, milliseconds: str) -> tuple:
        """The words that land for so long."""
        port = self.served.address[1]
        return (self.tools.folder / "landers", port, BOOKMARK, self.clients, milliseconds)

    def count(self, ids: list[str], turn: Turn, seconds: float) -> None:
        """What a turn made. Where it didn't take so long, there are more drafts in the next."""
        self.taken += 1
        self.entries += len(ids) + len(turn.each)
        if turn.seconds < seconds:
            self.drafts = min(2 * self.drafts, FARTHEST // self.clients)

    def upload(self) -> list[str]:
        """Uploads the drafts of the next turn. Their ids, one client's after another's."""
        self.syncs.pause(UNSYNCED)
        link = Link(self.served.address)
        head = link.ask("GET", f"/bookmark/{BOOKMARK}")["head"]
        ids = []
        for client in range(self.clients):
            for it in ready(self.taken, client, self.drafts, head, self.content):
                link.ask("PUT", "/changeset", it.encoded)
                ids.append(it.id)
        link.close()
        with self.file.open("rb") as written:
            os.fdatasync(written)
        return ids

    def check(self) -> None:
        """Whether the server has as many entries as were made."""
        link = opened(self.served.address)
        total = link.ask("GET", "/log/0")["total"]
        link.close()
        if total != self.entries:
            raise Failed(f"the server has {total} entries, and {self.entries} were wanted")


def line(start: str, side: Side, raw: Side, first: Side) -> str:
    """What one side did."""
    each = side.milliseconds
    beside, to_first, used = "", "", ""
    if side is not raw:
        beside = f"{side.rate / raw.rate:.2f}  {side.beside(raw):6.2f}"
        used = f"{1_000 * side.cost.processor / len(each):.3f}"
    if side not in (raw, first):
        to_first = f"{side.beside(first):.2f}"
    last = each[-(-99 * len(each) // 100) - 1]
    return (
        f"{start}  {side.name:<7}  {len(each):8,}  {side.seconds:7.2f}  {side.rate:6,.0f}"
        f"{beside:>15}  {to_first:>6}  {side.synced / len(each):9.3f}"
        f"  {statistics.median(each):9.3f}  {last:6.2f}  {used:>9}"
    ).rstrip()


def measured(bench: Bench, tools: Tools, disk: str, clients: int) -> Iterator[str]:
    """Measures so many clients of each program, and the raw log, in turns."""
    pause, folder = PAUSES[disk], bench.folder
    with ExitStack() as stack:
        raw = RawLog(tools, folder / "raw", Syncs(stack), pause)
        sides: list[Side] = [raw]
        for name, program in zip("AB", bench.programs, strict=False):
            file = folder / f"served-{name}"
            server = Server(name, tools, file, clients, Syncs(stack), pause)
            stack.enter_context(server.serve(program))
            sides.append(server)
        for turn in range(bench.turns or bench.choose(20, 4)):
            for side in sides if turn % 2 == 0 else reversed(sides):
                side.take()
    raw.file.unlink()
    for side in sides:
        yield line(f"{disk:<6} {clients:7}", side, raw, sides[1])


def landings(bench: Bench) -> Iterator[str]:
    """A line for each disk, number of clients, and side."""
    tools = compiled(bench.folder)
    if not tools:
        yield "neither gcc nor cc is installed, so nothing is measured"
        return
    for letter, program in zip("AB", bench.programs, strict=False):
        yield f"{letter}: {program.path}"
    yield HEADING
    for disk in PAUSES:
        for clients in bench.clients or ([1, 4] if bench.small else [1, 4, 16]):
            yield from measured(bench, tools, disk, clients)
