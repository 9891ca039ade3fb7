"""The log of a path over a long line, beside the history of the file and beside walking the line."""

from __future__ import annotations

from collections.abc import Iterator

from .journal import ROOT, Journal, drafted
from .link import Link, opened
from .process import Cost, ratio
from .row import Bench, Figure

CHANGES = 10
PATH = "of/interest/file"


def logs(bench: Bench) -> Iterator[Figure]:
    length, rounds = bench.choose(10_000, 1_000), bench.choose(20, 5)
    file, line = bench.folder / "repository", [ROOT.id]
    with Journal(file) as journal:
        contents = [journal.content(it) for it in (b"a file", b"another")]
        for number in range(length):
            step, at = length // CHANGES, number // (length // CHANGES)
            of_interest = number % step == step // 2
            # the fifth change takes the file away, and the next sets it again
            content = None if at == 4 else contents[at % 2]
            changes = {PATH: content} if of_interest else {f"trunk/{number % 97:02}": contents[at % 2]}
            line.append(journal.changeset(drafted(line[-1], f"step {number}", changes)).id)
    head = line[-1]
    costs = {kind: Cost() for kind in ("pathlog", "history", "line")}
    with bench.program.serve(file) as served:
        link = opened(served.address)
        found = link.ask("GET", f"/pathlog/{head}/{PATH}")["ids"]
        assert len(found) == CHANGES, len(found)
        for _ in range(rounds):
            for kind in ("pathlog", "history"):
                with costs[kind].measure(served.pid, 100):
                    for _ in range(100):
                        link.read("GET", f"/{kind}/{head}/{PATH}")
        with costs["line"].measure(served.pid, 1):
            walked(link, line)
    log = costs["pathlog"].milliseconds
    yield Figure(f"the log of a path of {CHANGES} changes in {length:,}", log, "ms of processor", 1.0)
    for kind, what in (
        ("history", "the history of the file, back to its deletion"),
        ("line", f"reading the {length:,} changesets of the line"),
    ):
        amount = costs[kind].milliseconds
        yield Figure(what, amount, "ms of processor", ratio(amount, log))


def walked(link: Link, line: list[str]) -> None:
    """Reads each changeset of a line, as one does who has no log of a path."""
    for id in line:
        link.read("GET", f"/changeset/{id}")
