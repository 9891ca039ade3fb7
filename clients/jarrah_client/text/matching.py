"""Where lines of two texts are equal, found within bounds."""

from __future__ import annotations

import difflib
from bisect import bisect_left
from collections import Counter
from collections.abc import Callable, Iterator
from itertools import accumulate, pairwise

MOST_STEPS = 10_000_000
"""So many steps difflib takes for two texts: a line, or a pair of equal ones, for each stretch of
equal lines that it looks for. Where there would be more, texts are cut at lines that each has
once, and only what lies between these is compared by difflib, within the bounds below."""
MOST_PAIRS = 100_000
MOST_BETWEEN = 2_000
"""Between such lines there may be so many pairs of equal ones, and so many lines, beside what both
begin and end with: difflib's time grows with the pairs, and with the lines for each match."""
MOST_WITHOUT_JUNK = 2_000
"""Where the first text has more lines, difflib begins no stretch at lines that are over a
hundredth of the second one."""
Rest = Callable[[list[str], list[str]], Iterator[tuple[int, int]]]
"""Tells where lines of two texts are equal."""
WIDTHS = (1, 4, 16)
"""Lines are looked for that are there once; then so many in a row."""


class TooLong(Exception):
    """A comparison takes more steps than it may."""


class Matcher(difflib.SequenceMatcher[str]):
    """What difflib finds, or where that takes too many steps, what `places` does."""

    def __init__(self, left: list[str], right: list[str], most_steps: int = MOST_STEPS):
        super().__init__(None, left, right, autojunk=len(left) > MOST_WITHOUT_JUNK)
        self.left, self.right = left, right
        self.steps, self.most_steps = 0, most_steps
        self.found: list[difflib.Match] = []
        known: dict[str, list[int]] = vars(self)["b2j"]
        self.sums = [0, *accumulate(1 + len(known.get(line, ())) for line in left)]

    def find_longest_match(
        self, alo: int = 0, ahi: int | None = None, blo: int = 0, bhi: int | None = None
    ) -> difflib.Match:
        """The longest stretch of equal lines between some, once it is known to be found soon."""
        self.steps += self.sums[len(self.left) if ahi is None else ahi] - self.sums[alo]
        if self.steps > self.most_steps:
            raise TooLong
        return super().find_longest_match(alo, ahi, blo, bhi)

    def get_matching_blocks(self) -> list[difflib.Match]:
        """The stretches of equal lines; the last is an empty one at both ends."""
        if not self.found:
            try:
                self.found = super().get_matching_blocks()
            except TooLong:
                found = places(self.left, self.right, some_matched)
                self.found = blocks_of(found, len(self.left), len(self.right))
        return self.found


def some_matched(left: list[str], right: list[str]) -> Iterator[tuple[int, int]]:
    """Where lines are equal by difflib, or nowhere where that would take too long."""
    return matched(left, right) if is_quick(left, right) else iter(())


def is_quick(left: list[str], right: list[str]) -> bool:
    """Whether difflib compares what lies between two lines within the bounds."""
    start = front(left, right)
    left, right = left[start:], right[start:]
    end = front(left[::-1], right[::-1])
    left, right = left[: len(left) - end], right[: len(right) - end]
    counts, others = Counter(left), Counter(right)
    pairs = sum(count * others[line] for line, count in counts.items())
    return pairs <= MOST_PAIRS and max(len(left), len(right)) <= MOST_BETWEEN


def blocks_of(found: dict[int, int], left: int, right: int) -> list[difflib.Match]:
    """Equal lines as stretches, as a matcher has them; the last is an empty one at both ends."""
    blocks: list[difflib.Match] = []
    for at, it in sorted(found.items()):
        last = blocks[-1] if blocks else difflib.Match(-1, -1, 0)
        if (last.a + last.size, last.b + last.size) == (at, it):
            blocks[-1] = last._replace(size=last.size + 1)
        else:
            blocks.append(difflib.Match(at, it, 1))
    return [*blocks, difflib.Match(left, right, 0)]


def places(base: list[str], other: list[str], rest: Rest | None = None) -> dict[int, int]:
    """Where lines of the base are in another text; both rise together.

    Equal ends are taken off, what is left is cut at lines that both have once, and so on. Where no
    line is so, `rest` tells where lines are equal, or else difflib.
    """
    found: dict[int, int] = {}
    waiting = [(0, len(base), 0, len(other))]
    while waiting:
        here, last, there, end = waiting.pop()
        length = front(base[here:last], other[there:end])
        found.update(zip(range(here, here + length), range(there, there + length)))
        here, there = here + length, there + length
        if here == last or there == end:
            continue
        length = front(base[here:last][::-1], other[there:end][::-1])
        last, end = last - length, end - length
        found.update(zip(range(last, last + length), range(end, end + length)))
        left, right = base[here:last], other[there:end]
        cuts = [(here + at, there + it) for at, it in anchors(left, right)]
        if not cuts:
            found.update((here + at, there + it) for at, it in (rest or matched)(left, right))
            continue
        bounds = pairwise([(here, there), *cuts, (last, end)])
        waiting += [(i, j, k, m) for (i, k), (j, m) in bounds]
    return found


def front(left: list[str], right: list[str]) -> int:
    """How many lines at the beginning of two texts are equal."""
    differ = (number for number, (one, other) in enumerate(zip(left, right)) if one != other)
    return next(differ, min(len(left), len(right)))


def matched(left: list[str], right: list[str]) -> Iterator[tuple[int, int]]:
    """Where lines of two texts are equal, by difflib, which is slow where lines are there often."""
    matcher = difflib.SequenceMatcher(None, left, right, autojunk=False)
    for here, there, length in matcher.get_matching_blocks():
        yield from zip(range(here, here + length), range(there, there + length))


def anchors(left: list[str], right: list[str]) -> list[tuple[int, int]]:
    """Where lines that each of two texts has once are in both, the most that rise together.

    Where no line is so, then some lines in a row. Of those behind one another the first is given.
    """
    for width in WIDTHS:
        here, there = once(left, width), once(right, width)
        found = rising([(here[lines], there[lines]) for lines in here if lines in there])
        if found:
            followers = {(at + 1, it + 1) for at, it in found}
            return [pair for pair in found if pair not in followers]
    return []


def once(lines: list[str], width: int) -> dict[tuple[str, ...], int]:
    """So many lines in a row that are there once, in order, and where they are."""
    rows = list(zip(*(lines[start:] for start in range(width))))
    counts = Counter(rows)
    return {row: number for number, row in enumerate(rows) if counts[row] == 1}


def rising(pairs: list[tuple[int, int]]) -> list[tuple[int, int]]:
    """The longest part of some pairs, whose first numbers rise, in which the second rise too."""
    ends: list[int] = []
    tops: list[int] = []
    before: list[int] = []
    for number, (_, end) in enumerate(pairs):
        length = bisect_left(ends, end)
        ends[length : length + 1] = [end]
        tops[length : length + 1] = [number]
        before.append(tops[length - 1] if length else -1)
    found = []
    number = tops[-1] if tops else -1
    while number >= 0:
        found.append(pairs[number])
        number = before[number]
    return found[::-1]
