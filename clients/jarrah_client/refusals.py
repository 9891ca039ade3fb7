"""What the server's refusals mean, in words."""

from __future__ import annotations

from collections.abc import Iterator
from contextlib import contextmanager
from typing import Any, TypedDict

WORDS = {
    "bad-target": "the server can't read the request's target",
    "bad-id": "an id in the request isn't 64 hex digits; the fault is at character {place}",
    "bad-name": "the server refuses the bookmark's name; the fault is at character {place}"
    " (1 to 128 of A-Z a-z 0-9 _ . - are allowed)",
    "bad-path": "the server refuses the path; the fault is at byte {place}",
    "bad-number": "a number in the request isn't 1 to 19 decimal digits",
    "no-route": "this server doesn't have this route",
    "no-content": "the server has no content {id}",
    "no-changeset": "the server has no changeset {id}",
    "no-bookmark": "the server has no bookmark of this name",
    "no-path": "there is nothing at this path",
    "no-policy": "the server holds no policy, or this entry is none",
    "not-a-dir": "the path is a file and no directory",
    "not-a-file": "the path is a directory and no file",
    "method": "the server's route has another method",
    "bad-caller": "the server refuses the caller's name"
    " (1 to 128 of A-Z a-z 0-9 _ . - are allowed)",
    "denied": "the server's policy doesn't allow this at {path}",
    "bad-policy": "the server refuses the policy: its line {line}, counted from 0,"
    " breaks the grammar",
    "old-format": "the server's file has version 1, which can't have this:"
    " `hg_cli migrate OLD NEW` makes a file of version 2 of it, once the server is stopped",
    "bad-parts": "the body has {length} bytes, and not 1 to 64 ids of 32 bytes each",
    "no-piece": "the server doesn't have the content {id}, which is to be joined",
    "not-a-piece": "the content {id} is itself made of others, so no other can be made of it",
    "clash": "{left} in the draft clashes with {right}, which was changed on the bookmark"
    " since the draft began",
    "moved": "the bookmark has moved: it is at {found}",
    "already-in": "the bookmark has this draft already",
    "no-root": "the draft and the bookmark share no changeset",
    "collision": "another changeset has the id {id}",
    "too-far-behind": "the bookmark has {distance} changesets since the draft began, over 10,000;"
    " put the draft onto a newer one",
    "stack-too-long": "the draft is a stack of {count} changesets, over 100; land it in pieces",
    "too-large": "the landing's record would have {length} bytes, over 16,777,216;"
    " land it in pieces",
    "too-long": "the body has {length} bytes, over 1,048,576",
    "bad-encoding": "the bytes spell no changeset; the fault is at byte {place}",
    "self-conflict": "{long} lies under {short}, and one changeset can't set both",
    "merge": "the changeset has two parents, which this server doesn't take",
    "unresolved": "the merge leaves a file of one parent against a file of the other at {path}:"
    " a merge sets or deletes what its parents don't agree on",
    "merge-in-stack": "the changeset {id} of the draft is a merge, and no merge can be landed",
    "merge-in-range": "the bookmark has the merge {id} since the draft began;"
    " put the draft onto the head (in a working copy: `jarrah rebase`)",
    "no-parent": "the server doesn't have the parent {id}",
    "missing-content": "the server doesn't have the content {id} that is set at {path}",
    "wrong-size": "the content set at {path} has {found} bytes, and the changeset says {wanted}",
    "disk-fault": "the server's disk failed, and nothing more can be stored until it is restarted",
    "down": "the server's disk failed earlier, and nothing can be stored until it is restarted",
    "read-fault": "the server's disk failed to read it",
    "bad-bytes": "the server's disk gave bytes of {found} where those of {wanted} were stored",
    "memory": "the server had no memory for this; nothing was stored",
    "full": "the server's file is full: it has {size} bytes, and a record of {length} doesn't fit",
    "head-too-large": "the request's head is over 16,384 bytes",
    "bad-head": "the server can't read the request's head",
    "too-many-headers": "the request has more than 64 headers",
    "transfer-encoding": "the server takes no `Transfer-Encoding`",
    "bad-length": "the request's `Content-Length` is no number, or there are several",
    "no-length": "the request has no `Content-Length`",
    "body-too-large": "the body is over 1,048,576 bytes",
}


class RefusalMembers(TypedDict, total=False):
    """What a refusal's body tells beside its code: of each code other members."""

    id: str
    path: str
    left: str
    right: str
    long: str
    short: str
    place: int
    line: int
    length: int
    size: int
    count: int
    distance: int
    rule: int | None
    """The rule that decides; None where none speaks of the path."""
    found: int | str | None
    """A size, an id, or where a bookmark is; None where there is none."""
    wanted: int | str
    at: int
    """The place in a list of changesets; that of a landing is behind them."""
    draft: str
    """What the gateway tells besides: the draft that it made and couldn't land."""


class Fault(Exception):
    """What went wrong, in one line."""

    about = ""
    """What was asked for, said before the words."""
    advice = ""
    """What can be done, said after them."""

    def __str__(self) -> str:
        words = super().__str__() + (f"; {self.advice}" if self.advice else "")
        return f"{self.about}: {words}" if self.about else words


class WrongWords(Fault):
    """The words of the command line don't go together."""


class Refused(Fault):
    """The server's refusal: its status, its code and the other members of its body."""

    def __init__(self, status: int, code: str, members: RefusalMembers):
        super().__init__(in_words(status, code, members))
        self.status = status
        self.code = code
        self.members = members

    def __reduce__(self) -> tuple[Any, ...]:
        """How it goes from one process to another."""
        return type(self), (self.status, self.code, self.members), self.__dict__


@contextmanager
def about(what: str) -> Iterator[None]:
    """Has faults say what was asked for."""
    try:
        yield
    except Fault as fault:
        fault.about = what
        raise


def in_words(status: int, code: str, members: RefusalMembers) -> str:
    """A refusal in words; a code that isn't known is told as it stands."""
    words = WORDS.get(code)
    if words is None:
        return f"the server refuses with status {status}: {code} {members or ''}".rstrip()
    try:
        return words.format_map({name: told(value) for name, value in members.items()})
    except KeyError as missing:
        return f"{code} (status {status}, without its member {missing})"


def told(value: object) -> str:
    """A member of a body as a person reads it."""
    if value is None:
        return "no changeset (there is no such bookmark)"
    if isinstance(value, int):
        return f"{value:,}"
    return str(value).replace("\n", "\\n")
