"""Uploads of merges whose parents have ten files that the other lacks, in a large tree and in a small one."""

from __future__ import annotations

from collections.abc import Iterator
from pathlib import Path

from jarrah_client.formats.changesets import Changeset, File

from .journal import ROOT, Journal, drafted
from .link import Link, opened
from .process import Cost, ratio
from .row import Bench, Figure

FILES_A_DIRECTORY = 100
DIRECTORIES_A_CHANGESET = 40
"""A changeset has at most 4,096 changes."""
DIFFERING = 10
SMALL_TREE = 1_000


def uploads(bench: Bench) -> Iterator[Figure]:
    """Each merge has sides of its own, whose manifests are there."""
    sizes = (SMALL_TREE, max(SMALL_TREE, bench.choose(100_000, 20_000)))
    rounds, each = bench.choose(10, 4), bench.choose(20, 10)
    costs, derived = {size: Cost() for size in sizes}, {size: Cost() for size in sizes}
    for size in sizes:
        file = bench.folder / f"repository-{size}"
        tree, contents = filled(file, size)
        with bench.program.serve(file) as served:
            link = opened(served.address)
            link.read("GET", f"/fsnode/{tree.id}")
            for turn in range(rounds):
                merges = [sides(link, tree, contents, f"{turn} {at}", size) for at in range(each)]
                with costs[size].measure(served.pid, each):
                    for merge in merges:
                        link.ask("PUT", "/changeset", merge.encoded)
                with derived[size].measure(served.pid, each):
                    for merge in merges:
                        link.read("GET", f"/fsnode/{merge.id}")
    for what, cost in (("upload of a merge", costs), ("its manifests", derived)):
        for size in sizes:
            share = ratio(cost[size].milliseconds, cost[SMALL_TREE].milliseconds)
            wanted = "at most 2" if size > SMALL_TREE else ""
            yield Figure(f"{what}, in {size:,} files", cost[size].milliseconds, "ms of processor", share, wanted)


def filled(file: Path, size: int) -> tuple[Changeset, list[File]]:
    """A tree of so many files in directories of a hundred, twenty of which lie in one. Gives the
    changeset, and two contents."""
    with Journal(file) as journal:
        contents = [journal.content(it) for it in (b"a file", b"another")]
        last, count = ROOT, size // FILES_A_DIRECTORY
        for first in range(0, count, DIRECTORIES_A_CHANGESET):
            changes = {
                path(directory, number): contents[0]
                for directory in range(first, min(count, first + DIRECTORIES_A_CHANGESET))
                for number in range(FILES_A_DIRECTORY)
            }
            last = journal.changeset(drafted(last.id, "files", changes))
    return last, contents


def path(directory: int, number: int) -> str:
    return f"part{directory // 20:03}/{directory % 20:02}/f{number:02}"


def sides(link: Link, tree: Changeset, contents: list[File], message: str, size: int) -> Changeset:
    """Stores two changesets that add five files each, in directories of their own, reads the roots
    of both, and gives their merge, which nobody has stored."""
    step = size // FILES_A_DIRECTORY // DIFFERING
    places = [step * at for at in range(DIFFERING)]
    ids = []
    for side in range(2):
        changes = {f"{path(it, 0)}-new": contents[1] for it in places[side::2]}
        one = drafted(tree.id, f"{message} {side}", changes)
        link.ask("PUT", "/changeset", one.encoded)
        link.read("GET", f"/fsnode/{one.id}")
        ids.append(one.id)
    return Changeset(tuple(ids), ROOT.author, 0, 0, message, {})
