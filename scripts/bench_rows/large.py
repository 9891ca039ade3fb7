"""A content of 64 MiB: its upload in pieces, their join, and its read, beside hashing it."""

from __future__ import annotations

import random
from collections.abc import Iterator
from contextlib import contextmanager

from jarrah_client.formats.fields import digest

from .journal import Journal
from .link import Link, opened
from .peers import hashed
from .process import Cost, forget_peak, memory, ratio
from .row import Bench, Figure
from .upload import MIB

MOST_PIECES, FEWER_PIECES = 64, 16
MEGABYTE = 1_000_000
WHATS = {
    "pieces": "its upload in pieces of 1 MiB",
    "join": "their join",
    "read": "its read",
}


class Peak:
    """The most that a server had in memory during something, over what it had before."""

    def __init__(self, pid: int):
        self.pid = pid
        self.most = 0

    @contextmanager
    def measure(self) -> Iterator[None]:
        forget_peak(self.pid)
        before = memory(self.pid)
        yield
        self.most = max(self.most, memory(self.pid, "VmHWM") - before)


def contents(bench: Bench) -> Iterator[Figure]:
    """Each round has a content of its own, whose pieces nobody has uploaded."""
    rounds, count = bench.choose(5, 2), max(2, bench.choose(MOST_PIECES, FEWER_PIECES))
    block = random.Random(1).randbytes(MIB)
    costs, hashes = {kind: Cost() for kind in WHATS}, Cost()
    with Journal(file := bench.folder / "repository"):
        pass
    with bench.program.serve(file) as served:
        link = opened(served.address)
        peaks = {kind: Peak(served.pid) for kind in WHATS}
        for turn in range(rounds):
            pieces = [b"%6d%6d" % (turn, number) + block[12:] for number in range(count)]
            whole = b"".join(pieces)
            ids = bytes.fromhex("".join(map(digest, pieces)))
            hashes.add(hashed([whole]))
            calls = {
                "pieces": lambda: put_all(link, pieces),
                "join": lambda: link.ask("PUT", "/whole", ids),
                "read": lambda: link.read("GET", f"/content/{digest(whole)}"),
            }
            for kind, call in calls.items():
                with peaks[kind].measure(), costs[kind].measure(served.pid, 1):
                    call()
    yield from speeds(f"the SHA-256 of {count} MiB", hashes, hashes, count)
    for kind, what in WHATS.items():
        yield from speeds(what, costs[kind], hashes, count)
    for kind, what in WHATS.items():
        share, wanted = peaks[kind].most / (count * MIB), "1" if kind == "read" else ""
        yield Figure(f"memory for {what}", peaks[kind].most / MIB, "MiB", share, wanted)


def put_all(link: Link, pieces: list[bytes]) -> None:
    for piece in pieces:
        link.ask("PUT", "/content", piece)


def speeds(what: str, cost: Cost, limit: Cost, count: int) -> Iterator[Figure]:
    """How fast so many MiB go through, beside how fast they are hashed."""
    size = count * MIB / MEGABYTE
    share = ratio(limit.processor / limit.count, cost.processor / cost.count)
    yield Figure(what, size * cost.a_processor_second, "MB/processor second", share)
    share = ratio(cost.a_second, limit.a_second)
    yield Figure("the same by the clock", size * cost.a_second, "MB/s", share)
