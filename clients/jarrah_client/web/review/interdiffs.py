"""The difference of two versions of a stack, also where the later one stands on another base.

The first version's changes are put onto the second one's base, as a rebase would, and the result
is compared with the second version: so what the base brought isn't told. That is how
`jj interdiff` defines it. Where the changes don't fit there, both sides stand between marks.
"""

from __future__ import annotations

from collections.abc import Iterable
from dataclasses import dataclass
from typing import Any

from ...formats.changesets import File
from ...formats.paths import path_key
from ...history.reads import file_at
from ...working.merging import Merge, merge_file
from ...working.renamed import moved_to
from ..diffs import LINES_SECONDS, MOST_FILES, files_at, one_file
from ..library import Question, Visit
from .asking import need_known, number_within
from .budget import Budget
from .comparing import INDEX_LENGTH, MOST_INDEX_LENGTH, against, compared, need_change
from .drafts import Stack, row_of, stack_of
from .index import Window

MOST_MERGED = 200
"""So many files that the other base has changed too are merged for an index, and for so many
seconds; of the others it is told only that they have to be looked at:"""
MERGE_SECONDS = 8.0
MOST_MOVED = 50


@dataclass(frozen=True)
class Sides:
    """A file at both bases, and as both versions have it."""

    old_base: File | None
    old: File | None
    new_base: File | None
    new: File | None
    at: str | None = None
    """Its path in the first version, where the other base has moved it."""

    @property
    def is_lost(self) -> bool:
        """Whether the first version changed it, and the other base has it there no more."""
        was_edited = self.old_base and self.old and self.old != self.old_base
        return bool(was_edited) and self.new_base is None and self.new is None

    @property
    def needs_merge(self) -> bool:
        """Whether bytes have to be merged: both the first version and the other base changed it."""
        return self.old not in (self.old_base, self.new_base) and self.old_base != self.new_base


@dataclass(frozen=True)
class Versions:
    """Two versions of a stack, each from its base to its tip."""

    old: Stack
    new: Stack
    old_tip: str
    new_tip: str

    @property
    def bases(self) -> tuple[str | None, str | None]:
        return self.old.base, self.new.base


def interdiff(visit: Visit, question: Question) -> dict[str, Any]:
    """The files in which two versions differ; with a path that one, with its lines."""
    need_known(question, "against", "base", "against_base", "skip", "count")
    versions = versions_of(visit, question)
    sides, passed = sides_of(visit, versions)
    document = head_of(visit, versions) | {"passed": passed}
    if not question.path:
        return document | index(visit, question, sides)
    one = sides.get(question.path, Sides(None, None, None, None))
    merge = merge_of(visit, one)
    need_change(question.path, merge.file, one.new, merge.conflict)
    row = file_row(visit, question.path, one, merge, True)
    return document | {"files": [row], "total": 1, "unmerged": 0, "next": None}


def versions_of(visit: Visit, question: Question) -> Versions:
    """The two versions that a question names; the bases that it doesn't are looked for."""
    new, old = visit.resolve(question.name), visit.resolve(against(question))
    query = question.query
    stacks = (
        stack_of(visit, old, query.get("against_base")),
        stack_of(visit, new, query.get("base")),
    )
    return Versions(*stacks, old, new)


def sides_of(visit: Visit, versions: Versions) -> tuple[dict[str, Sides], int]:
    """The files that either version changes, by rising paths, and how many directories weren't
    looked into."""
    old, old_passed = changed(visit, versions.old.base, versions.old_tip)
    new, new_passed = changed(visit, versions.new.base, versions.new_tip)
    befores = old | left_alone(visit, versions.old.base, new.keys() - old.keys())
    afters = new | left_alone(visit, versions.new.base, old.keys() - new.keys())
    found = {path: Sides(*befores[path], *afters[path]) for path in sorted(befores, key=path_key)}
    if versions.new.base:
        found = followed(visit, versions.new.base, found)
    return found, old_passed + new_passed


def followed(visit: Visit, base: str, sides: dict[str, Sides]) -> dict[str, Sides]:
    """The same with files that the other base has moved, by what its changesets tell, at the paths
    that they have there; so many are looked for."""
    found = dict(sides)
    for path in [path for path, one in sides.items() if one.is_lost][:MOST_MOVED]:
        target = moved_to(visit.server, path, base)
        there = file_at(visit.tree(base), target) if target else None
        if target is None or there is None:
            continue
        known = found.get(target, Sides(None, None, there, there))
        if known.old_base is None and known.old is None:
            was = found.pop(path)
            found[target] = Sides(was.old_base, was.old, there, known.new, path)
    return {path: found[path] for path in sorted(found, key=path_key)}


def changed(
    visit: Visit, base: str | None, tip: str
) -> tuple[dict[str, tuple[File | None, File | None]], int]:
    """What a version changes from its base; from nothing where it has none."""
    if base is None:
        return {path: (None, file) for path, file in visit.tree(tip).files()}, 0
    found = compared(visit, base, tip)
    return {path: (old, new) for path, old, new in found.files}, found.passed


def left_alone(
    visit: Visit, base: str | None, paths: Iterable[str]
) -> dict[str, tuple[File | None, File | None]]:
    """Files that a version leaves as its base has them."""
    wanted = list(paths)
    files = files_at(visit.tree(base), wanted) if base and wanted else {}
    return {path: (files.get(path), files.get(path)) for path in wanted}


def merge_of(visit: Visit, sides: Sides) -> Merge:
    """What the first version's change of a file becomes on the second one's base."""
    read = lambda file: visit.server.content(file.content)  # noqa: E731
    return merge_file(read, sides.old_base, sides.old, sides.new_base)


def index(visit: Visit, question: Question, sides: dict[str, Sides]) -> dict[str, Any]:
    """A stretch of the files that differ; all with their lines where they are few."""
    skip = number_within(question, "skip", 0, 0, 10**9)
    count = number_within(question, "count", INDEX_LENGTH, 1, MOST_INDEX_LENGTH)
    merging, lines = Budget(MERGE_SECONDS), Budget(LINES_SECONDS)
    merged = unmerged = 0
    found: list[tuple[str, Sides, Merge | None]] = []
    for path, one in sides.items():
        if one.needs_merge and (merged == MOST_MERGED or merging.is_over()):
            unmerged += 1
            found.append((path, one, None))
            continue
        merged += one.needs_merge
        merge = merge_of(visit, one)
        if merge.file != one.new or merge.conflict:
            found.append((path, one, merge))
    rows = []
    for path, one, made in found[skip : skip + count]:
        with_lines = len(found) <= MOST_FILES and not lines.is_over()
        rows.append(file_row(visit, path, one, made, with_lines))
    following = skip + count if skip + count < len(found) else None
    return {"files": rows, "total": len(found), "unmerged": unmerged, "next": following}


def file_row(
    visit: Visit, path: str, sides: Sides, merge: Merge | None, with_lines: bool
) -> dict[str, Any]:
    """One file of two versions. What wasn't merged is shown as it is, and its lines come later."""
    before = (merge.file, merge.data) if merge else (sides.old, None)
    row = one_file(visit.server, path, before, (sides.new, None), with_lines and bool(merge))
    conflict = merge.conflict if merge else None
    told = {"conflict": conflict, "is_rebased": sides.old_base != sides.new_base}
    return row | told | ({"moved_from": sides.at} if sides.at else {})


def head_of(visit: Visit, versions: Versions) -> dict[str, Any]:
    """The two versions and their drafts, side by side."""
    window = visit.uploads()
    return {
        "id": versions.new_tip,
        "against": versions.old_tip,
        "base": versions.new.base,
        "against_base": versions.old.base,
        "pairs": pairs(visit, window, versions),
    }


def pairs(visit: Visit, window: Window, versions: Versions) -> list[dict[str, Any]]:
    """The drafts of both versions: those of the same author, date and title belong together, then
    those of the same title; what has none was added, or dropped."""
    olds, news = (
        [row_of(visit, window, id) for id in stack.ids] for stack in (versions.old, versions.new)
    )
    partners: dict[str, dict[str, Any]] = {}
    for words in (("author", "seconds", "offset", "title"), ("title",)):
        left = [one for one in olds if one not in partners.values()]
        for one in news:
            alike = [it for it in left if all(it[word] == one[word] for word in words)]
            if one["id"] not in partners and alike:
                partners[one["id"]] = alike[0]
                left.remove(alike[0])
    taken = [one["id"] for one in partners.values()]
    dropped = [{"before": it, "after": None} for it in olds if it["id"] not in taken]
    return [{"before": partners.get(one["id"]), "after": one} for one in news] + dropped
