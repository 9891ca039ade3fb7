"""Patterns of `.gitignore` files as regular expressions, by the rules of git's wildmatch.

A pattern is of bytes, and so is what it fits: `?` is one byte.
"""

from __future__ import annotations

import re

NOTHING = b"(?!)"
"""Fits no text."""


class Open(Exception):
    """A pattern that ends within a bracket or behind a backslash, and fits nothing."""


CLASSES = {
    b"alnum": re.compile(rb"[0-9A-Za-z]"),
    b"alpha": re.compile(rb"[A-Za-z]"),
    b"blank": re.compile(rb"[ \t]"),
    b"cntrl": re.compile(rb"[\x00-\x1f\x7f]"),
    b"digit": re.compile(rb"[0-9]"),
    b"graph": re.compile(rb"[!-~]"),
    b"lower": re.compile(rb"[a-z]"),
    b"print": re.compile(rb"[ -~]"),
    b"punct": re.compile(rb"[!-/:-@[-`{-~]"),
    b"space": re.compile(rb"[\t-\r ]"),
    b"upper": re.compile(rb"[A-Z]"),
    b"xdigit": re.compile(rb"[0-9A-Fa-f]"),
}


def regex_of(pattern: bytes, *, with_slashes: bool) -> bytes | None:
    """The regular expression of a pattern, or None where it fits nothing.

    Without slashes, `*`, `?` and brackets fit none, and `**` between slashes fits any folders.
    """
    found: list[bytes] = []
    at = 0
    try:
        while at < len(pattern):
            one = pattern[at : at + 1]
            if one == b"*":
                at = add_stars(pattern, at, with_slashes, found)
            elif one == b"[":
                at = add_bracket(pattern, at, with_slashes, found)
            elif one == b"?":
                found.append(b"." if with_slashes else b"[^/]")
                at += 1
            else:
                at += one == b"\\"
                found.append(re.escape(taken(pattern, at)))
                at += 1
    except Open:
        return None
    return b"".join(found)


def taken(pattern: bytes, at: int) -> bytes:
    """A byte of a pattern, which has to be there."""
    if at >= len(pattern):
        raise Open
    return pattern[at : at + 1]


def add_stars(pattern: bytes, at: int, with_slashes: bool, found: list[bytes]) -> int:
    """Adds what a run of stars fits, and gives the place behind it."""
    end = at
    while pattern[end : end + 1] == b"*":
        end += 1
    begins = at == 0 or pattern[at - 1 : at] == b"/"
    rest = pattern[end : end + 2]
    if with_slashes:
        found.append(b".*")
    elif end - at == 1 or not begins or not (rest in (b"", b"\\/") or rest[:1] == b"/"):
        found.append(b"[^/]*")
    elif rest[:1] == b"/":
        found.append(b"(?:.*/)?")
        return end + 1
    else:
        found.append(b".*")
    return end


def add_bracket(pattern: bytes, at: int, with_slashes: bool, found: list[bytes]) -> int:
    """Adds the bytes that a bracket fits, and gives the place behind it."""
    at += 1
    is_negated = taken(pattern, at) in (b"!", b"^")
    at += is_negated
    fits: set[int] = set()
    last: int | None = None
    is_first = True
    while is_first or taken(pattern, at) != b"]":
        at, last = add_of_bracket(pattern, at, last, fits)
        is_first = False
    if is_negated:
        fits = set(range(1, 256)) - fits
    if not with_slashes:
        fits.discard(ord("/"))
    listed = b"".join(b"\\x%02x" % one for one in sorted(fits))
    found.append(b"[" + listed + b"]" if fits else NOTHING)
    return at + 1


def add_of_bracket(
    pattern: bytes, at: int, last: int | None, fits: set[int]
) -> tuple[int, int | None]:
    """Adds a byte, a range or a class. Gives the place behind it, and what a range may begin at."""
    one, after = taken(pattern, at), pattern[at + 1 : at + 2]
    if one == b"-" and last and after not in (b"", b"]"):
        at += 1 + (after == b"\\")
        fits.update(range(last, ord(taken(pattern, at)) + 1))
        return at + 1, None
    if one == b"[" and after == b":":
        end = pattern.find(b"]", at + 2)
        if end == -1:
            raise Open
        if end > at + 2 and pattern[end - 1 : end] == b":":
            fits.update(of_class(pattern[at + 2 : end - 1]))
            return end + 1, None
    elif one == b"\\":
        at += 1
        one = taken(pattern, at)
    fits.add(ord(one))
    return at + 1, ord(one)


def of_class(name: bytes) -> set[int]:
    """The bytes of a class such as `alpha`."""
    if name not in CLASSES:
        raise Open
    return {one for one in range(256) if CLASSES[name].fullmatch(bytes((one,)))}
