"""What the trees of two changesets differ in: an index of files, and the lines of each."""

from __future__ import annotations

from dataclasses import dataclass
from typing import Any

from ...formats.changesets import File
from ...formats.paths import is_comparable
from ...history.reads import file_at
from ...trees.differences import Difference, differences
from ..diffs import MOST_FILES, file_rows
from ..library import BadQuestion, Question, Visit
from .asking import need_known, number_within
from .budget import Budget

MOST_DIRECTORIES = 5_000
"""So many directories that differ are looked into, and for so many seconds:"""
COMPARE_SECONDS = 10.0
INDEX_LENGTH = 1_000
MOST_INDEX_LENGTH = 5_000


@dataclass(frozen=True)
class Compared:
    """The files in which two trees differ, and how many directories weren't looked into."""

    files: list[Difference]
    passed: int


def compared(visit: Visit, old: str, new: str, under: str = "") -> Compared:
    """What two trees differ in, at and under a path. What is whole is kept."""

    def make() -> Compared:
        budget = Budget(COMPARE_SECONDS)
        count = passed = 0

        def looks_into(directory: str) -> bool:
            nonlocal count, passed
            if under and not is_comparable(directory, under):
                return False
            if count >= MOST_DIRECTORIES or budget.is_over():
                passed += 1
                return False
            count += 1
            return True

        found = differences(visit.tree(old), visit.tree(new), looks_into)
        return Compared([one for one in found if is_under(one[0], under)], passed)

    return visit.library.compared.get((old, new, under), make, lambda it: not it.passed)


def is_under(path: str, top: str) -> bool:
    """Whether a path is another, or lies under it."""
    return not top or path == top or path.startswith(f"{top}/")


def compare(visit: Visit, question: Question) -> dict[str, Any]:
    """The files in which a tree differs from another's; with a path that one, with its lines."""
    need_known(question, "against", "under", "skip", "count")
    new, old = visit.resolve(question.name), visit.resolve(against(question))
    document = {"id": new, "against": old}
    if question.path:
        path = question.path
        before, after = (file_at(visit.tree(one), path) for one in (old, new))
        need_change(path, before, after)
        rows = file_rows(visit.server, [(path, before, after)], 1)
        return document | {"files": rows, "total": 1, "passed": 0, "next": None}
    under = question.query.get("under", "").strip("/")
    found = compared(visit, old, new, under)
    return document | index(visit, question, found.files) | {"passed": found.passed}


def against(question: Question) -> str:
    """The other changeset that a question names."""
    name = question.query.get("against", "")
    if not name:
        raise BadQuestion("say `against` which changeset")
    return name


def need_change(
    path: str, old: File | None, new: File | None, conflict: str | None = None
) -> None:
    """Refuses a path at which nothing differs."""
    if old == new and not conflict:
        raise BadQuestion(f"there is no difference at {path}")


def index(visit: Visit, question: Question, files: list[Difference]) -> dict[str, Any]:
    """A stretch of files; all with their lines where they are few, and else none."""
    skip = number_within(question, "skip", 0, 0, 10**9)
    count = number_within(question, "count", INDEX_LENGTH, 1, MOST_INDEX_LENGTH)
    most = MOST_FILES if len(files) <= MOST_FILES else 0
    rows = file_rows(visit.server, files[skip : skip + count], most)
    following = skip + count if skip + count < len(files) else None
    return {"files": rows, "total": len(files), "next": following}
