"""Lines that lead from changesets to their parents, drawn beside a log."""

from __future__ import annotations

from collections.abc import Iterator, Sequence

from ..formats.changesets import Changeset
from ..terminal.colours import Line


class Graph:
    """Lanes from left to right, each of which leads down to the changeset that it waits for.

    A lane that has ended stays empty until another begins there, so that the others needn't move.
    """

    def __init__(self) -> None:
        self.lanes: list[str | None] = []

    def drawn(self, changeset: Changeset, lines: Sequence[Line]) -> Iterator[Line]:
        """A changeset's lines, each behind the lanes, and then what leads to its parents."""
        at = self.lane_of(changeset.id)
        yield self.row({at: "*"}) + lines[0]
        if not changeset.parents:
            self.lanes[at] = None
        for line in lines[1:]:
            yield self.row({}) + line if str(line) else self.row({}).rstrip()
        yield from self.led(at, [*dict.fromkeys(changeset.parents)])
        while self.lanes and self.lanes[-1] is None:
            self.lanes.pop()

    def lane_of(self, id: str) -> int:
        """The lane that waits for a changeset; where none does, one that begins here."""
        if id in self.lanes:
            return self.lanes.index(id)
        if None not in self.lanes:
            self.lanes.append(None)
        at = self.lanes.index(None)
        self.lanes[at] = id
        return at

    def row(self, marks: dict[int, str]) -> str:
        """The lanes side by side, with other marks in place of some."""
        drawn = ("|" if lane else " " for lane in self.lanes)
        return "".join(f"{marks.get(at, lane)} " for at, lane in enumerate(drawn))

    def led(self, at: int, parents: list[str]) -> Iterator[str]:
        """The rows in which lines lead from a lane to those of the parents."""
        self.lanes[at] = None
        new = [parent for parent in parents if parent not in self.lanes]
        old = [parent for parent in parents if parent in self.lanes]
        pulled = next((it for it in old if self.lanes.index(it) > at), None)
        if new:
            self.lanes[at] = new.pop(0)
        elif pulled:
            yield from self.pull(pulled, at)
        for parent in old:
            yield from slanted(at, self.lanes.index(parent), self.row({}))
        for parent in new:
            row = self.row({})
            yield from slanted(at, self.lane_of(parent), row)

    def pull(self, id: str, at: int) -> Iterator[str]:
        """Ends the lane that waits for a changeset, and has an empty one to its left wait."""
        start = self.lanes.index(id)
        self.lanes[start], self.lanes[at] = None, id
        yield from slanted(start, at, self.row({}))


def slanted(start: int, end: int, row: str) -> Iterator[str]:
    """Rows in which a line goes aslant from one lane to another, one lane further in each."""
    mark, step = ("\\", 2) if end > start else ("/", -2)
    for place in range(2 * start + step // 2, 2 * end, step):
        yield (row[:place].ljust(place) + mark + row[place + 1 :]).rstrip()
