"""Reads of one name in wide directories beside the root, and a commit to a wide directory."""

from __future__ import annotations

import time
from collections.abc import Iterator
from pathlib import Path

from jarrah_client.formats.changesets import Changeset, File

from .journal import ROOT, Journal, drafted
from .link import Batch, Link, opened
from .peers import hashed
from .process import Cost, memory, processor_seconds, ratio
from .row import Bench, Figure
from .upload import known

HUNDRED = 100
STEP = 4_000
"""So many paths a changeset, which has at most 4,096."""
TURN_SECONDS = 0.1
"""Of processor, where that takes no longer than MOST_SECONDS by the clock."""
MOST_SECONDS = 5
LOOK_SECONDS = 0.02
CHANGED = "wide/f00050"
HALF = "at least 0.50"


def filled(file: Path, wide: int) -> tuple[Changeset, list[File]]:
    """A tree with two directories: of 100 names and of so many, each with a directory `sub` of one
    file. Gives the changeset, and two contents."""
    with Journal(file) as journal:
        contents = [journal.content(it) for it in (b"a file", b"another")]
        names = [f"hundred/f{it:05}" for it in range(HUNDRED - 1)]
        names += [f"wide/f{it:05}" for it in range(wide - 1)]
        names += ["hundred/sub/file", "wide/sub/file"]
        last = ROOT
        for first in range(0, len(names), STEP):
            changes = {it: contents[0] for it in names[first : first + STEP]}
            last = journal.changeset(drafted(last.id, "names", changes))
    return last, contents


def width(bench: Bench) -> int:
    """10,000, of which --divide leaves 101 at least."""
    return max(HUNDRED + 1, bench.choose(10_000, 10_000))


def reads(bench: Bench) -> Iterator[Figure]:
    file = bench.folder / "repository"
    wide = width(bench)
    tree, _ = filled(file, wide)
    targets = {
        "the root's fsnode": f"/fsnode/{tree.id}",
        "an fsnode in a directory of 100": f"/fsnode/{tree.id}/hundred/sub",
        f"an fsnode in a directory of {wide:,}": f"/fsnode/{tree.id}/wide/sub",
        "a file's unode in a directory of 100": f"/unode/{tree.id}/hundred/f00050",
        f"a file's unode in a directory of {wide:,}": f"/unode/{tree.id}/{CHANGED}",
    }
    with bench.program.serve(file) as served:
        link = opened(served.address)
        batches = {what: Batch(link, target) for what, target in targets.items()}
        costs = {what: Cost() for what in targets}
        for _ in range(bench.choose(12, 4)):
            for what, batch in batches.items():
                take_turn(served.pid, batch, costs[what])
    root = next(iter(costs.values()))
    for what, cost in costs.items():
        share = ratio(cost.a_processor_second, root.a_processor_second)
        wanted = HALF if cost is not root else ""
        yield Figure(what, cost.a_processor_second, "a processor second", share, wanted)


def take_turn(pid: int, batch: Batch, cost: Cost) -> None:
    """Sends batches for a turn, and adds what they cost the process."""
    with cost.measure(pid):
        begun, used, now = time.monotonic(), processor_seconds(pid), 0.0
        while processor_seconds(pid) - used < TURN_SECONDS and now - begun < MOST_SECONDS:
            looked = time.monotonic()
            while (now := time.monotonic()) - looked < LOOK_SECONDS:
                batch.send()
                cost.count += batch.count


def commit(bench: Bench) -> Iterator[Figure]:
    """Each commit sets one file, and the root of its tree is read, which derives its nodes."""
    file = bench.folder / "repository"
    wide = width(bench)
    tree, contents = filled(file, wide)
    rounds, each = bench.choose(10, 4), bench.choose(10, 5)
    commits, hashes, own, kept = Cost(), Cost(), Cost(), 0
    with bench.program.serve(file) as served:
        link = opened(served.address)
        tree = committed(link, tree, contents, each)
        for _ in range(rounds):
            before = memory(served.pid)
            with commits.measure(served.pid, each):
                tree = committed(link, tree, contents, each)
            kept += memory(served.pid) - before
            nodes = nodes_of(link, tree.id)
            hashes.add(hashed(nodes, 10))
            own.add(known(link, served.pid, nodes, each))
    what, unit = f"a commit in {wide:,} files", "ms of processor"
    yield Figure("the SHA-256 of the nodes of a commit", hashes.milliseconds, unit, 1.0)
    share = ratio(commits.milliseconds, hashes.milliseconds)
    yield Figure(what, commits.milliseconds, unit, share, "at most 3")
    yield Figure("the same nodes uploaded as known contents", own.milliseconds, unit, 1.0)
    share = ratio(commits.milliseconds, own.milliseconds)
    yield Figure(what, commits.milliseconds, unit, share)
    kept_kib = kept / commits.count / 1_024
    yield Figure("kept of it in memory, beside 16 KiB", kept_kib, "KiB", kept_kib / 16, "at most 1")


def committed(link: Link, tree: Changeset, contents: list[File], count: int) -> Changeset:
    """So many commits on a changeset. Gives the last."""
    for _ in range(count):
        is_other = tree.changes.get(CHANGED) == contents[1]
        tree = drafted(tree.id, "a commit", {CHANGED: contents[0 if is_other else 1]})
        link.ask("PUT", "/changeset", tree.encoded)
        link.read("GET", f"/fsnode/{tree.id}")
    return tree


def nodes_of(link: Link, id: str) -> list[bytes]:
    """The bytes of the nodes that a commit makes."""
    targets = [f"/{kind}/{id}{path}" for kind in ("fsnode", "unode") for path in ("", "/wide")]
    return [link.read("GET", it) for it in (*targets, f"/unode/{id}/{CHANGED}")]

