"""Uploads of contents of 1 MiB, and of changesets with their landings."""

from __future__ import annotations

import random
from collections.abc import Iterator

from jarrah_client.formats.changesets import Changeset, File

from .journal import ROOT, Journal, drafted
from .link import Link, opened
from .peers import hashed
from .process import Cost, forget_peak, memory, ratio
from .row import Bench, Figure

MIB = 1_048_576
KIB = 1_024
PATHS = 10


def contents(bench: Bench) -> Iterator[Figure]:
    """New contents go up once, and then again as known ones."""
    rounds, each = (2, 8) if bench.small else (5, 20)
    size = bench.choose(MIB, MIB)
    block = random.Random(1).randbytes(size)
    costs = {kind: Cost() for kind in ("new", "known")}
    kept, hashes = {kind: 0 for kind in costs}, Cost()
    with Journal(file := bench.folder / "repository"):
        pass
    with bench.program.serve(file) as served:
        link = opened(served.address)
        link.ask("PUT", "/content", block[:12])
        idle = memory(served.pid)
        link.ask("PUT", "/content", block)
        forget_peak(served.pid)
        stays = memory(served.pid) - idle
        for turn in range(rounds):
            data = [b"%12d" % (turn * each + it) + block[12:] for it in range(each)]
            for kind, cost in costs.items():
                before = memory(served.pid)
                with cost.measure(served.pid, each):
                    for it in data:
                        link.ask("PUT", "/content", it)
                kept[kind] += memory(served.pid) - before
            hashes.add(each_of(hashed(data), each))
        peak = memory(served.pid, "VmHWM") - idle
    yield Figure(f"the SHA-256 of {size // KIB:,} KiB", hashes.milliseconds, "ms of processor", 1.0)
    for kind, cost in costs.items():
        share = ratio(cost.milliseconds, hashes.milliseconds)
        what = f"upload of a {kind} content"
        yield Figure(what, cost.milliseconds, "ms of processor", share)
    what = "the most in memory over an idle server"
    yield Figure(what, peak / KIB, "KiB", peak / size, "at most 1")
    yield Figure("what stays after the first upload", stays / KIB, "KiB")
    for kind, count in kept.items():
        yield Figure(f"kept of a {kind} content", count / costs[kind].count / KIB, "KiB")


def known(link: Link, pid: int, pieces: list[bytes], times: int) -> Cost:
    """The upload of these bytes as known contents: what the program takes to hash them, and little
    more. An unproved program is as slow in this as in what is measured beside it."""
    for piece in pieces:
        link.ask("PUT", "/content", piece)
    cost = Cost()
    with cost.measure(pid, times):
        for piece in pieces * times:
            link.ask("PUT", "/content", piece)
    return cost


def each_of(cost: Cost, count: int) -> Cost:
    """The cost of one run, as that of so many pieces."""
    return Cost(count, cost.clock, cost.processor)


def changesets(bench: Bench) -> Iterator[Figure]:
    """Beside a content of as many bytes, which is hashed and makes one entry too."""
    rounds, each = bench.choose(5, 4), bench.choose(400, 60)
    with Journal(file := bench.folder / "repository") as journal:
        content = journal.content(b"a file")
        journal.bookmark("main", ROOT.id)
    whats = {
        "content": "upload of a content of as many bytes",
        "changeset": f"upload of a changeset of {PATHS} paths",
        "landing": "its landing",
    }
    costs, head = {kind: Cost() for kind in whats}, ROOT.id
    with bench.program.serve(file) as served:
        link = opened(served.address)
        for turn in range(rounds):
            drafts = stacks(head, content, range(turn * each, (turn + 1) * each))
            size = len(drafts[0].encoded)
            fillers = [f"{turn} {it}".encode().ljust(size, b".") for it in range(each)]
            with costs["content"].measure(served.pid, each):
                for it in fillers:
                    link.ask("PUT", "/content", it)
            with costs["changeset"].measure(served.pid, each):
                for it in drafts:
                    link.ask("PUT", "/changeset", it.encoded)
            with costs["landing"].measure(served.pid, each):
                for it in drafts:
                    head = link.ask("POST", f"/land/main/{it.id}")["head"]
    for kind, cost in costs.items():
        share = ratio(cost.milliseconds, costs["content"].milliseconds)
        yield Figure(whats[kind], cost.milliseconds, "ms of processor", share)
        share = ratio(cost.a_second, costs["content"].a_second)
        yield Figure("the same by the clock", cost.a_second, "a second", share)


def stacks(head: str, content: File, numbers: range) -> list[Changeset]:
    """Drafts on a head, each of ten paths of its own."""
    return [
        drafted(head, "a stack", {f"d{number:06}/f{it}": content for it in range(PATHS)})
        for number in numbers
    ]
