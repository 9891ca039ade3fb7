"""How many stacks a second a server lands, beside the raw log of the same appends.

A stack is a content, a changeset that sets a path of its own to it, and its landing: three
requests on a connection that is kept, and three entries. The raw log writes the same records on one
thread: each its bytes, a sync, its gate, a sync. The two take turns of a quarter of a second, since
a sync of the same disk may take ten times as long a moment later; `median` is that of the turns'
ratios.
"""

from __future__ import annotations

import os
import signal
import statistics
import subprocess
import time
from collections.abc import Iterator
from dataclasses import dataclass

from jarrah_client.formats.changesets import Changeset, File
from jarrah_client.formats.fields import digest

from .journal import CAPACITY, ROOT
from .link import Failed, Link
from .peers import FORK
from .row import Bench

TURN_SECONDS = 0.25
MOST_STACKS = 500
"""No client lands more in a turn, also where syncs cost nothing."""
WAIT_SECONDS = 60
BOOKMARK = "main"
HEADER_BYTES = 17
FIRST_ENTRIES = 2
"""The root and the bookmark, which are made before the clients begin."""
HEADING = (
    "clients  stacks  stacks/s  raw log/s  ratio  median    ms of processor a stack\n"
    "                                                       a client   the server"
)


@dataclass(frozen=True)
class Load:
    """So many clients at once, the turns that they take, and the bytes of each content."""

    clients: int
    turns: int
    size: int


@dataclass(frozen=True)
class Turn:
    """How many stacks, and the time that they took."""

    stacks: int
    seconds: float

    @property
    def rate(self) -> float:
        return self.stacks / self.seconds


def content_of(client: int, stack: int, size: int) -> bytes:
    """A content that no other stack has."""
    return f"client {client} stack {stack} ".encode().ljust(size, b".")


def draft_of(client: int, stack: int, parent: str, content: bytes) -> Changeset:
    """A changeset that touches a path of its own."""
    path = f"client-{client:02}/stack-{stack:05}"
    file = File(digest(content), len(content))
    return Changeset((parent,), "a bench", 0, 0, "a stack", {path: file})


def land(link: Link, draft: Changeset, content: bytes) -> str:
    """Lands a stack, and gives the new head."""
    link.ask("PUT", "/content", content)
    link.ask("PUT", "/changeset", draft.encoded)
    return link.ask("POST", f"/land/{BOOKMARK}/{draft.id}")["head"]


def client(*words) -> None:
    """A client, which tells why it fails in place of its count."""
    *_, gate, results = words
    try:
        lands_in_turns(*words)
    except (OSError, Failed) as fault:
        results.put(fault)
        gate.abort()


def lands_in_turns(number: int, load: Load, address, head: str, gate, results) -> None:
    """Lands stacks in each turn, each on the head that the one before made."""
    link, stacks, used = Link(address), 0, time.process_time()
    for _ in range(load.turns):
        gate.wait(WAIT_SECONDS)
        first, begun = stacks, time.monotonic()
        while stacks - first < MOST_STACKS and time.monotonic() - begun < TURN_SECONDS:
            content = content_of(number, stacks, load.size)
            head = land(link, draft_of(number, stacks, head, content), content)
            stacks += 1
        results.put(stacks - first)
        gate.wait(WAIT_SECONDS)
    results.put(time.process_time() - used)


def started(load: Load, address: tuple[str, int], gate, results) -> list:
    """So many clients, each a process of its own, of a server that has the bookmark."""
    link = Link(address)
    link.ask("PUT", "/changeset", ROOT.encoded)
    link.ask("PUT", f"/bookmark/{BOOKMARK}/none/{ROOT.id}")
    link.close()
    words = (load, address, ROOT.id, gate, results)
    clients = [
        FORK.Process(target=client, args=(it, *words), daemon=True) for it in range(load.clients)
    ]
    for it in clients:
        it.start()
    return clients


def turn(count: int, gate, results) -> Turn:
    """Lets the clients have a turn."""
    gate.wait(WAIT_SECONDS)
    begun = time.monotonic()
    stacks = [results.get(timeout=WAIT_SECONDS) for _ in range(count)]
    for fault in stacks:
        if isinstance(fault, Exception):
            raise SystemExit(f"scripts/bench: a client failed: {fault}")
    seconds = time.monotonic() - begun
    gate.wait(WAIT_SECONDS)
    return Turn(sum(stacks), seconds)


def end_of(served: subprocess.Popen, stacks: int) -> float:
    """The processor time of a server that ended by itself, with as many entries as were made."""
    signal.alarm(WAIT_SECONDS)
    said = served.stdout.read()
    _, status, used = os.wait4(served.pid, 0)
    signal.alarm(0)
    served.returncode = os.waitstatus_to_exitcode(status)
    wanted = f" entries {3 * stacks + FIRST_ENTRIES}\n"
    if served.returncode or not said.endswith(wanted):
        raise SystemExit(f"scripts/bench: the server said {said!r}, and {wanted!r} was wanted")
    return used.ru_utime + used.ru_stime


def records(size: int) -> list[int]:
    """The lengths of a stack's three records, without their gates."""
    content = content_of(0, 0, size)
    spelling = draft_of(0, 0, "0" * 64, content).encoded
    landing = 1 + 1 + len(BOOKMARK) + 32 + 32 + 2 + 4 + len(spelling)
    return [4 + payload + 1 for payload in (1 + len(content), len(spelling), landing)]


def raw_log(log: int, lengths: list[int]) -> Turn:
    """Appends stacks to an open log for a turn."""
    gate = os.lseek(log, 0, os.SEEK_END) or os.pwrite(log, bytes(HEADER_BYTES), 0)
    data, begun, stacks = [bytes(it) for it in lengths], time.monotonic(), 0
    while stacks < MOST_STACKS and time.monotonic() - begun < TURN_SECONDS:
        for record in data:
            os.pwrite(log, record, gate)
            os.fdatasync(log)
            os.pwrite(log, b"\x01", gate - 1)
            os.fdatasync(log)
            gate += len(record)
        stacks += 1
    return Turn(stacks, time.monotonic() - begun)


def total(turns: list[Turn]) -> Turn:
    return Turn(sum(it.stacks for it in turns), sum(it.seconds for it in turns))


def measured(load: Load, bench: Bench) -> str:
    """Measures so many clients and the raw log in turns."""
    count, lengths = load.clients, records(load.size)
    log = os.open(bench.folder / f"raw-{count}", os.O_RDWR | os.O_CREAT)
    gate, results = FORK.Barrier(count + 1), FORK.Queue()
    file = bench.folder / f"served-{count}"
    bench.program.init(file, CAPACITY)
    with bench.program.serve(file, lanes=count, connections=count + 1) as served:
        clients = started(load, served.address, gate, results)
        pairs = [(raw_log(log, lengths), turn(count, gate, results)) for _ in range(load.turns)]
        used = sum(results.get(timeout=WAIT_SECONDS) for _ in clients)
        raw, done = (total(list(it)) for it in zip(*pairs, strict=True))
        processor = end_of(served.process, done.stacks)
    os.close(log)
    median = statistics.median(served.rate / raw.rate for raw, served in pairs)
    costs = [1_000 * it / done.stacks for it in (used, processor)]
    return (
        f"{count:7}  {done.stacks:6}  {done.rate:8.1f}  {raw.rate:9.1f}"
        f"  {done.rate / raw.rate:5.2f}  {median:6.2f}  {costs[0]:11.2f}  {costs[1]:11.2f}"
    )


def stacks(bench: Bench) -> Iterator[str]:
    """A line for each number of clients."""
    yield HEADING
    turns = bench.turns or bench.choose(20, 4)
    for count in bench.clients or ([1, 4] if bench.small else [1, 4, 16]):
        yield measured(Load(count, turns, bench.size), bench)
