"""`migrate OLD NEW` of a file of version 1, beside one read and one write of it in sequence."""

from __future__ import annotations

import statistics
from collections.abc import Iterator
from pathlib import Path

from .link import Failed
from .opening import KIB, mixed_file
from .process import Cost, ratio
from .program import cost_of
from .row import Bench, Figure

VERSION_AT = 7
COPYING = 'cp "$1" "$2" && sync "$2"'
PIECE = 1 << 20


def migration(bench: Bench) -> Iterator[Figure]:
    size = bench.choose(1_048_576, 102_400)
    old, new = bench.folder / "old", bench.folder / "new"
    mixed_file(old, size * KIB)
    with old.open("r+b") as file:
        file.seek(VERSION_AT)
        file.write(b"\x01")
    costs: dict[str, list[Cost]] = {kind: [] for kind in ("copy", "opening", "migrate")}
    for _ in range(3):
        costs["copy"].append(cost_of(["sh", "-c", COPYING, "sh", old, new]))
        new.unlink()
        costs["opening"].append(bench.program.opening(old))
        costs["migrate"].append(bench.program.migrate(old, new))
        compare(old, new)
        new.unlink()
    copied = median(costs["copy"])
    taken = old.stat().st_size / KIB / KIB
    yield Figure(f"cp and sync of {taken:,.0f} MiB", copied, "seconds", 1.0)
    opened = median(costs["opening"])
    yield Figure("opening it (fsck)", opened, "seconds", ratio(opened, copied))
    migrated = median(costs["migrate"])
    yield Figure("migrate", migrated, "seconds", ratio(migrated, copied))
    both = ratio(migrated, opened + copied)
    yield Figure("the same, beside opening and copying it", migrated, "seconds", both)


def median(costs: list[Cost]) -> float:
    """The median of the seconds by the clock."""
    return statistics.median(cost.clock for cost in costs)


def compare(old: Path, new: Path) -> None:
    """The new file has to be the old one, but for its version."""
    with old.open("rb") as before, new.open("rb") as after:
        left, right = before.read(PIECE), after.read(PIECE)
        if right != left[:VERSION_AT] + b"\x02" + left[VERSION_AT + 1 :]:
            raise Failed("the migrated file begins otherwise than the old one")
        while left:
            left, right = before.read(PIECE), after.read(PIECE)
            if left != right:
                raise Failed("the migrated file goes on otherwise than the old one")
