"""Paths and names by the server's rules, and the order of paths."""

from __future__ import annotations

import re

MOST_PATH_BYTES = 4_096
MOST_ELEMENT_BYTES = 255
MOST_NAME_BYTES = 128
OWN_NAMES = (".git", ".jarrah")
"""Names of folders, in any case, in which git and this client keep what is theirs."""

BOOKMARK_NAME = re.compile(r"[A-Za-z0-9_.-]{1,%d}" % MOST_NAME_BYTES, re.ASCII)
HEX_ID = re.compile(r"[0-9a-fA-F]{64}", re.ASCII)


def path_key(path: str) -> tuple[bytes, ...]:
    """What paths are ordered by: element by element, each by its bytes, a shorter list first."""
    return tuple(path.encode().split(b"/"))


def path_fault(path: bytes) -> str | None:
    """Which rule of the server the path breaks, in words, or None."""
    if not path:
        return "it is empty"
    if len(path) > MOST_PATH_BYTES:
        return f"it has {len(path):,} bytes, over {MOST_PATH_BYTES:,}"
    if not is_text(path):
        return "it isn't UTF-8"
    for element in path.split(b"/"):
        fault = element_fault(element)
        if fault:
            return fault
    return None


def element_fault(element: bytes) -> str | None:
    """Which rule one element of a path breaks, in words, or None."""
    if not element:
        return "it has an empty element"
    if len(element) > MOST_ELEMENT_BYTES:
        return f"it has an element of {len(element):,} bytes, over {MOST_ELEMENT_BYTES}"
    if element in (b".", b".."):
        return f"it has the element `{element.decode()}`"
    if b"\x00" in element or b"\n" in element:
        return "it has a zero byte or a line end"
    if b"/" in element:
        return "it has a slash in a name"
    return None


def own_name(path: str) -> str | None:
    """The first element of a path that names git's or this client's own folder, or None."""
    return next((one for one in path.split("/") if one.lower() in OWN_NAMES), None)


def is_text(data: bytes) -> bool:
    """Whether the bytes are UTF-8."""
    try:
        data.decode()
    except UnicodeDecodeError:
        return False
    return True


def is_above(short: str, long: str) -> bool:
    """Whether `long` lies strictly under `short`."""
    return long.startswith(short + "/")


def is_comparable(left: str, right: str) -> bool:
    """Whether the paths are equal or one lies under the other."""
    return left == right or is_above(left, right) or is_above(right, left)


def joined(directory: str, name: str) -> str:
    """The path of a name in a directory; the root is the empty text."""
    return f"{directory}/{name}" if directory else name


def is_bookmark_name(name: str) -> bool:
    """Whether a bookmark may have this name."""
    return BOOKMARK_NAME.fullmatch(name) is not None


def is_id(text: str) -> bool:
    """Whether the text is a whole id, 64 hex digits."""
    return HEX_ID.fullmatch(text) is not None
