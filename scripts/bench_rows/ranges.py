"""Landings over a long range of changesets, and over a range of 1."""

from __future__ import annotations

import statistics
from collections.abc import Iterator
from pathlib import Path

from jarrah_client.formats.changesets import Changeset, File

from .journal import ROOT, Journal, drafted
from .link import opened
from .process import Cost, ratio
from .row import Bench, Figure

PATHS = 10
CONTENT = b"a file"


def grown(journal: Journal, file: File, length: int) -> list[str]:
    """A chain of so many changesets on ROOT, each of its own ten paths."""
    ids = [ROOT.id]
    for number in range(length):
        changes = {f"trunk/{number:05}/{path}": file for path in range(PATHS)}
        ids.append(journal.changeset(drafted(ids[-1], "a step", changes)).id)
    return ids


def drafts_of(journal: Journal, file: File, kind: str, count: int) -> list[Changeset]:
    """Drafts on ROOT, each of a path of its own."""
    return [
        journal.changeset(drafted(ROOT.id, kind, {f"{kind}/{number:05}": file}))
        for number in range(count)
    ]


def marked(journal: Journal, kind: str, head: str, count: int) -> None:
    """A bookmark at the head for each draft, so that each lands over the same range."""
    for number in range(count):
        journal.bookmark(f"{kind}-{number}", head)


def landing(bench: Bench) -> Iterator[Figure]:
    length, rounds = bench.choose(9_990, 990), bench.choose(5, 5)
    each = {"near": bench.choose(200, 40), "far": bench.choose(20, 4)}
    file, drafts = bench.folder / "repository", {}
    with Journal(file) as journal:
        content = journal.content(CONTENT)
        ids = grown(journal, content, length)
        for kind, head in (("near", ids[1]), ("far", ids[-1])):
            drafts[kind] = drafts_of(journal, content, kind, rounds * each[kind])
            marked(journal, kind, head, rounds * each[kind])
    costs = {kind: Cost() for kind in each}
    with bench.program.serve(file) as served:
        link = opened(served.address)
        for turn in range(rounds):
            for kind, cost in costs.items():
                with cost.measure(served.pid, each[kind]):
                    for number in range(turn * each[kind], (turn + 1) * each[kind]):
                        link.ask("POST", f"/land/{kind}-{number}/{drafts[kind][number].id}")
    near, far = costs["near"], costs["far"]
    yield Figure("landing over a range of 1", near.milliseconds, "ms of processor", 1.0)
    share = ratio(far.milliseconds, near.milliseconds)
    what = f"landing over a range of {length:,} x {PATHS} paths"
    yield Figure(what, far.milliseconds, "ms of processor", share, "at most 2")


def landed_file(file: Path, length: int, count: int, kind: str) -> Path:
    """A journal of as many landings over the whole length, or over 1, or with none."""
    with Journal(file) as journal:
        content = journal.content(CONTENT)
        ids = grown(journal, content, length)
        head = ids[-1] if kind == "far" else ids[1]
        drafts = drafts_of(journal, content, "draft", count)
        marked(journal, "mark", head, count)
        for number, draft in enumerate(drafts if kind != "none" else []):
            journal.landing(f"mark-{number}", head, draft)
    return file


def opening(bench: Bench) -> Iterator[Figure]:
    length, count = bench.choose(9_990, 990), bench.choose(400, 200)
    kinds = ("none", "near", "far")
    files = {it: landed_file(bench.folder / it, length, count, it) for it in kinds}
    runs: dict[str, list[float]] = {it: [] for it in kinds}
    for _ in range(bench.choose(5, 3)):
        for kind in kinds:
            runs[kind].append(bench.program.opening(files[kind]).processor)
    none, near, far = (statistics.median(runs[it]) for it in kinds)
    each = [1_000 * (it - none) / count for it in (near, far)]
    yield Figure("the same journal without its landings", none, "s of processor")
    yield Figure("a landing over a range of 1, opened", each[0], "ms of processor", 1.0)
    what = f"a landing over a range of {length:,}, opened"
    yield Figure(what, each[1], "ms of processor", ratio(each[1], each[0]), "1.00")
