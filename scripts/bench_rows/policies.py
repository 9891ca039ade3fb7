"""Landings of many paths under policies of many rules, and under none."""

from __future__ import annotations

from collections.abc import Iterator
from pathlib import Path

from jarrah_client.formats.changesets import Changeset

from .journal import ROOT, Journal, drafted
from .link import opened
from .process import Cost, ratio
from .row import Bench, Figure

PATHS = 4_096
"""As many as a changeset may have."""
CALLER = "anonymous"
DEEP = "of/some/depth"


def rules(count: int) -> bytes:
    """So many rules, of which the last alone allows: each speaks of a caller or a path of its own."""
    lines = [f"deny somebody-{at} /" if at % 2 else f"deny * other/{at:05}" for at in range(count - 1)]
    return "".join(f"{line}\n" for line in [*lines, "allow * /"]).encode()


def laid(file: Path, text: bytes | None, count: int) -> list[Changeset]:
    """A repository that holds a policy, and drafts of many paths, each with a bookmark at ROOT."""
    with Journal(file) as journal:
        content = journal.content(b"a file")
        drafts = []
        for number in range(count):
            changes = {f"draft-{number:03}/{DEEP}/{path:04}": content for path in range(PATHS)}
            drafts.append(journal.changeset(drafted(ROOT.id, "many paths", changes)))
            journal.bookmark(f"mark-{number}", ROOT.id)
        if text is not None:
            journal.policy(CALLER, text)
    return drafts


def landings(bench: Bench) -> Iterator[Figure]:
    rounds, each = bench.choose(5, 3), bench.choose(8, 3)
    kinds = {"no policy": None, "1 rule": rules(1), "1,000 rules": rules(1_000)}
    costs = {kind: Cost() for kind in kinds}
    for turn in range(rounds):
        for kind, text in kinds.items():
            file = bench.folder / f"repository-{turn}-{len(text or b'')}"
            drafts = laid(file, text, each)
            with bench.program.serve(file) as served:
                link = opened(served.address)
                with costs[kind].measure(served.pid, each):
                    for number, draft in enumerate(drafts):
                        link.ask("POST", f"/land/mark-{number}/{draft.id}")
            file.unlink()
    none = costs["no policy"].milliseconds
    for kind, cost in costs.items():
        what = f"landing {PATHS:,} paths under {kind}"
        yield Figure(what, cost.milliseconds, "ms of processor", ratio(cost.milliseconds, none))
