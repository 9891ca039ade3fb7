"""What a server answers in JSON: the members of each body, and the entries of its log."""

from __future__ import annotations

from collections.abc import Mapping
from dataclasses import dataclass
from typing import Generic, Literal, TypedDict, TypeVar, cast


class Stored(TypedDict):
    """A content or a changeset is stored under this id."""

    id: str


class Bookmark(TypedDict):
    """A bookmark's head; None where it is deleted."""

    head: str | None


class LandedDraft(TypedDict):
    """A landing: the new head, the new changesets in order, and the old head."""

    head: str
    ids: list[str]
    old: str


class Ids(TypedDict):
    """Changesets, the newest first."""

    ids: list[str]


class PolicySet(TypedDict):
    """The number of the entry that set a policy."""

    number: int


CopyRow = TypedDict("CopyRow", {"from": str, "parent": int, "to": str})
"""A file that a changeset sets, and at which parent it was copied from what."""


class Copies(TypedDict):
    """What files that a changeset sets were copied from."""

    copies: list[CopyRow]


class ContentEntry(TypedDict):
    """A content was stored."""

    kind: Literal["content"]
    number: int
    id: str
    size: int


class WholeEntry(TypedDict):
    """A content was made of others."""

    kind: Literal["whole"]
    number: int
    id: str
    parts: list[str]
    size: int


class ChangesetEntry(TypedDict):
    """A changeset was stored."""

    kind: Literal["changeset"]
    number: int
    id: str


class Asked(TypedDict, total=False):
    """Who asked, which is told where a policy was held before."""

    caller: str


Ends = TypedDict("Ends", {"from": "str | None", "to": "str | None"})
"""Where a bookmark was, and where it is now."""


class BookmarkEntry(Asked, Ends):
    """A bookmark was made, moved or deleted."""

    kind: Literal["bookmark"]
    number: int
    name: str


class Dated(TypedDict, total=False):
    """When it was, in seconds since 1970, where a changeset of the stack is of version 2."""

    moment: int


class LandingEntry(Asked, Dated):
    """A draft was landed."""

    kind: Literal["landing"]
    number: int
    name: str
    draft: str
    ids: list[str]
    old: str


class PolicyEntry(Asked):
    """A policy was set."""

    kind: Literal["policy"]
    number: int
    rules: int


Entry = (
    ContentEntry | WholeEntry | ChangesetEntry | BookmarkEntry | LandingEntry | PolicyEntry
)


class LogPage(TypedDict):
    """Entries of the log, and how many there are in all."""

    entries: list[Entry]
    total: int


Members = TypeVar("Members")


@dataclass(frozen=True)
class Shape(Generic[Members]):
    """An answer's code, and the members that its body has to have."""

    code: str
    kind: type[Members]

    def of(self, body: Mapping[str, object]) -> Members | None:
        """The members of a body, or None where it has another code, or lacks one."""
        names: frozenset[str] = vars(self.kind)["__required_keys__"]
        if body.get("code") != self.code or not names <= body.keys():
            return None
        return cast(Members, body)


CONTENT = Shape("content", Stored)
WHOLE = Shape("whole", Stored)
CHANGESET = Shape("changeset", Stored)
BOOKMARK = Shape("bookmark", Bookmark)
LANDED = Shape("landed", LandedDraft)
LOG = Shape("log", LogPage)
COPIES = Shape("copies", Copies)
HISTORY = Shape("history", Ids)
PATH_LOG = Shape("path-log", Ids)
POLICY = Shape("policy", PolicySet)
