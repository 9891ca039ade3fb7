"""Which new files were made of others: by equal contents, then by lines that both have."""

from __future__ import annotations

from collections import Counter
from collections.abc import Callable, Iterable, Mapping
from dataclasses import dataclass, field
from functools import cache

from ..formats.changesets import MOST_CONTENT_BYTES, File, Kind

LEAST_ALIKE = 0.5
"""What share of the larger file has to be in lines that both have."""
MOST_PAIRS = 20_000
"""Where more pairs of files were to be compared by lines, none is."""

Read = Callable[[File], bytes]


@dataclass
class Found:
    """Where new files were, by their paths, and whether some weren't looked for."""

    sources: dict[str, str] = field(default_factory=dict)
    is_cut: bool = False


def found(
    new: Mapping[str, File], gone: Mapping[str, File], kept: Mapping[str, File], read: Read
) -> Found:
    """The sources of new files among those that went, each for one, and those that were changed."""
    result = Found()
    left = dict(gone)
    for path, file in new.items():
        alike = [at for at in left if is_equal(file, left[at], is_near(path, at))]
        alike = alike or [at for at in kept if is_equal(file, kept[at], False)]
        if alike:
            result.sources[path] = nearest(path, alike)
            left.pop(result.sources[path], None)
    rest = {path: file for path, file in new.items() if path not in result.sources}
    by_lines(rest, left, kept, read, result)
    return result


def is_equal(file: File, other: File, is_near: bool) -> bool:
    """Whether two files have the same bytes; those without any are told apart by their names."""
    kinds = {file.kind, other.kind}
    is_same_sort = Kind.SYMLINK not in kinds or len(kinds) == 1
    return file.content == other.content and is_same_sort and (file.size > 0 or is_near)


def is_near(path: str, other: str) -> bool:
    """Whether two paths end in the same name."""
    return path.rpartition("/")[2] == other.rpartition("/")[2]


def nearest(path: str, others: Iterable[str]) -> str:
    """The path among some that ends in the same name, else the first."""
    return min(others, key=lambda other: (not is_near(path, other), other))


def by_lines(
    new: dict[str, File],
    gone: dict[str, File],
    kept: Mapping[str, File],
    read: Read,
    result: Found,
) -> None:
    """The same for files that have lines in common; the pairs that are most alike come first."""
    olds = {path: file for path, file in {**kept, **gone}.items() if has_lines(file)}
    news = {path: file for path, file in new.items() if has_lines(file)}
    if len(olds) * len(news) > MOST_PAIRS:
        result.is_cut = True
        return
    lines = cache(lambda file: Counter(read(file).splitlines(keepends=True)))
    scored = [
        (-share, not is_near(path, at), path, at)
        for path, file in news.items()
        for at, old in olds.items()
        if (share := alike(file, old, lines)) >= LEAST_ALIKE
    ]
    taken: set[str] = set()
    for _, _, path, at in sorted(scored):
        if path not in result.sources and at not in taken:
            result.sources[path] = at
            taken |= {at} & gone.keys()


def has_lines(file: File) -> bool:
    """Whether a file's lines are compared."""
    return file.kind is not Kind.SYMLINK and 0 < file.size <= MOST_CONTENT_BYTES


def alike(file: File, other: File, lines: Callable[[File], Counter[bytes]]) -> float:
    """What share of the larger of two files is in lines that both have."""
    most = max(file.size, other.size)
    if min(file.size, other.size) < LEAST_ALIKE * most:
        return 0.0
    common = lines(file) & lines(other)
    return sum(len(line) * count for line, count in common.items()) / most
