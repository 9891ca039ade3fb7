"""How bookmarks are spelled as branches of git, and branches as bookmarks.

A slash of a branch is `..` in its bookmark: git has no branch with two dots in a row. A bookmark
that would be no branch then has its dots, and a first `-`, escaped as `%2E` and `%2D`.
"""

from __future__ import annotations

import re
from collections.abc import Iterable

from ..formats.paths import is_bookmark_name

HEADS = "refs/heads/"
FOR = "refs/for/"
"""A push to this and a branch's name is landed on the branch, as with Gerrit."""
DOTS = re.compile(r"\.+")
SPELLED = {1: ".", 2: "/", 3: "./"}
"""What so many dots in a row stand for; of three the first is the name's own."""
ESCAPE = re.compile(r"%([0-9A-F]{2})")
BAD_BRANCH = re.compile(r"^[-/]|//|/$|(^|/)\.|\.$|\.\.|\.lock(/|$)|^HEAD$")


def branch_of(bookmark: str) -> str:
    """The branch of a bookmark, without `refs/heads/`."""
    plain = DOTS.sub(lambda dots: SPELLED.get(len(dots[0]), dots[0]), bookmark)
    if not BAD_BRANCH.search(plain):
        return plain
    escaped = re.sub(r"^-|\.", lambda found: f"%{ord(found[0]):02X}", bookmark)
    return "%48EAD" if escaped == "HEAD" else escaped


def bookmark_of(branch: str) -> str | None:
    """The bookmark of a branch, or None where no bookmark is spelled so."""
    if "%" in branch:
        name = ESCAPE.sub(lambda found: chr(int(found[1], 16)), branch)
    else:
        name = branch.replace("/", "..")
    return name if is_bookmark_name(name) and branch_of(name) == branch else None


def in_the_way(branch: str, branches: Iterable[str]) -> str | None:
    """A branch above or under this one, beside which git can't have it."""
    for other in branches:
        if branch.startswith(f"{other}/") or other.startswith(f"{branch}/"):
            return other
    return None


def beside_one_another(branches: Iterable[str]) -> tuple[list[str], list[str]]:
    """The branches that git can have at once, and those under one of them that it can't."""
    kept: list[str] = []
    hidden: list[str] = []
    taken: set[str] = set()
    for branch in sorted(branches):
        elements = branch.split("/")
        above = ("/".join(elements[:count]) for count in range(1, len(elements)))
        if any(one in taken for one in above):
            hidden.append(branch)
        else:
            taken.add(branch)
            kept.append(branch)
    return kept, hidden
