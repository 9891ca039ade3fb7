"""Which changeset a person means."""

from __future__ import annotations

import re
from collections.abc import Callable, Iterator
from difflib import get_close_matches

from ..formats.paths import is_bookmark_name, is_id
from ..net.server import Server, Trouble
from ..refusals import WrongWords
from .log_cache import CachedLog
from .repository import by_front, is_front

STEPS = re.compile(r"[~^]\d*")
NAMED = re.compile(rf"([^~^]*)((?:{STEPS.pattern})*)")
MOST_STEPS = 100_000
HERE = ("", ".")
"""Names of what a working copy stands on."""


def resolve(
    server: Server,
    name: str,
    front: Callable[[str], str] | None = None,
    base: str | None = None,
    *,
    hints: bool = True,
) -> str:
    """The id that a person means: a bookmark, an id, or the front of one in the log; behind it
    steps to parents, as `~2` and `^2`.

    `front` finds the one id that begins so, where a log is at hand, and `base` is what a working
    copy stands on. With `hints` it is told which bookmark may have been meant.
    """
    found = NAMED.fullmatch(name)
    if not found:
        raise Trouble(f"{name!r} names no changeset")
    id = start_of(server, found[1], front, base)
    if id is None:
        hint = like_it(server, found[1]) if hints else ""
        raise Trouble(f"there is no bookmark {found[1]}{hint}")
    for number in steps_of(found[2]):
        parents = server.changeset(id).parents
        if number > len(parents):
            count = len(parents)
            raise Trouble(f"{name}: {id} has {count} parents, and so none of number {number}")
        id = parents[number - 1]
    return id


def steps_of(text: str) -> Iterator[int]:
    """Which parent is gone to at each step, counted from 1."""
    for step in STEPS.findall(text):
        count = int(step[1:] or 1)
        if count > MOST_STEPS:
            raise Trouble(f"{step} is too far")
        yield from (count,) if step[0] == "^" and count else (1,) * (count if step[0] == "~" else 0)


def start_of(
    server: Server, name: str, front: Callable[[str], str] | None, base: str | None
) -> str | None:
    """The id that a name without steps means, or None where it is no bookmark's."""
    if name in HERE and base:
        return base
    if is_id(name):
        return name.lower()
    head = server.head(name) if is_bookmark_name(name) else None
    if head is not None:
        return head
    if is_front(name):
        return front(name.lower()) if front else by_front(CachedLog(server), name.lower())
    if not name:
        raise WrongWords("name a changeset, or work in a working copy")
    return None


def like_it(server: Server, name: str) -> str:
    """What a person may have meant by a bookmark that isn't there."""
    log = CachedLog(server)
    log.read_on()
    found = get_close_matches(name, log.bookmarks, 1)
    return f": did you mean {found[0]}?" if found else ""
