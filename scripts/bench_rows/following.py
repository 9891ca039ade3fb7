"""`follow FILE ADDR` of a server over loopback, beside opening the same file."""

from __future__ import annotations

import filecmp
import statistics
from collections.abc import Iterator
from pathlib import Path

from .journal import CAPACITY, ROOT, Journal, drafted
from .link import Failed, opened
from .process import Cost, ratio
from .row import Bench, Figure

CONTENT_BYTES = (100, 400, 1_000, 4_000)
DIRECTORIES = 100


def mixed_entries(file: Path, least: int) -> int:
    """A file of so many entries or a few more, and how many. Of ten four are contents, two drafts
    on one head, two their landings, of which the first stays as it is, and two moves."""
    with Journal(file) as journal:
        for name in ("main", "seen"):
            journal.bookmark(name, ROOT.id)
        head, number = ROOT.id, 0
        while journal.count < least:
            data = b"content %d " % number * max(CONTENT_BYTES)
            set_to = [journal.content(data[:size]) for size in CONTENT_BYTES]
            directory = f"directory-{number % DIRECTORIES:02}"
            changes = {f"{directory}/{number}-{at}": file for at, file in enumerate(set_to)}
            draft = journal.changeset(drafted(head, "a draft", changes))
            other = journal.changeset(drafted(head, "other", {f"other/{number}": set_to[0]}))
            before, head = head, journal.landing("main", head, draft).id
            head = journal.landing("main", head, other).id
            journal.move("seen", before, head)
            journal.bookmark(f"seen-{number}", head)
            number += 1
    return journal.count


def follows(bench: Bench) -> Iterator[Figure]:
    source, copy = bench.folder / "source", bench.folder / "copy"
    entries = mixed_entries(source, bench.choose(100_000, 10_000))
    costs: dict[str, list[Cost]] = {kind: [] for kind in ("opening", "follower", "server")}
    for _ in range(3):
        costs["opening"].append(bench.program.opening(source))
        bench.program.init(copy, CAPACITY)
        with bench.program.serve(source) as served:
            opened(served.address).close()
            costs["server"].append(spent := Cost())
            with spent.measure(served.pid):
                costs["follower"].append(bench.program.follow(copy, served.address, entries))
        if not filecmp.cmp(source, copy, shallow=False):
            raise Failed("the file that followed is another than the one that was served")
        copy.unlink()
    seconds = {kind: statistics.median(it.clock for it in them) for kind, them in costs.items()}
    rates = {kind: entries / taken for kind, taken in seconds.items()}
    yield Figure(f"opening {entries:,} entries (fsck)", rates["opening"], "a second", 1.0)
    followed = rates["follower"]
    yield Figure("following them", followed, "a second", ratio(followed, rates["opening"]))
    used = {kind: statistics.median(it.processor for it in them) for kind, them in costs.items()}
    yield Figure("opening them (fsck)", used["opening"], "s of processor", 1.0)
    for kind in ("follower", "server"):
        what = f"following them: the {kind}"
        yield Figure(what, used[kind], "s of processor", ratio(used[kind], used["opening"]))
