"""Calls of the system a small read, counted by strace: what wakes a waiter, and what sends."""

from __future__ import annotations

import re
import shutil
from collections.abc import Iterator
from contextlib import ExitStack
from pathlib import Path

from .journal import ROOT, Journal
from .link import BATCH, Batch, Link
from .row import Bench, Figure

KINDS = {
    "futex": ("futex",),
    "send": ("sendto", "sendmsg", "write", "writev"),
    "receive": ("recvfrom", "recvmsg", "read", "readv"),
}
TARGET = "/bookmark/main"


def calls(bench: Bench) -> Iterator[Figure | str]:
    strace = shutil.which("strace")
    if not strace:
        yield "strace isn't installed, so nothing is counted"
        return
    with Journal(file := bench.folder / "repository") as journal:
        journal.bookmark("main", ROOT.id)
    batches = bench.choose(500, 100)
    for at_once in (1, BATCH):
        few, many = (counted(bench, strace, file, at_once, it) for it in (0, batches))
        for kind, names in KINDS.items():
            each = sum(many.get(it, 0) - few.get(it, 0) for it in names) / (batches * at_once)
            limit = 0 if kind == "futex" else 1 / at_once
            share = each / limit if limit else None
            wanted = "none" if kind == "futex" else "1"
            yield Figure(f"{kind} calls, {at_once} at once", each, "a read", share, wanted)


def counted(bench: Bench, strace: str, file: Path, at_once: int, batches: int) -> dict[str, int]:
    """The calls of a server of one connection that answers so many batches and one read more."""
    told = bench.folder / "calls"
    names = ",".join(it for kind in KINDS.values() for it in kind)
    words = (strace, "-f", "-c", "-U", "calls,name", "-o", told, "-e", f"trace={names}")
    with ExitStack() as stack:
        served = stack.enter_context(bench.program.serve(file, connections=1, before=words))
        link = Link(served.address)
        batch = Batch(link, TARGET, at_once)
        for _ in range(batches):
            batch.send()
        link.close()
        served.process.wait(timeout=60)
    lines = re.findall(r"^ *(\d+) (\w+)$", told.read_text(), re.MULTILINE)
    return {name: int(count) for count, name in lines if name != "total"}
