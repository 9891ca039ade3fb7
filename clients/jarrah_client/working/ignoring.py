"""New files that aren't looked at: by `.gitignore` files of every folder, and `.jarrahignore`."""

from __future__ import annotations

import os
import re
import stat
from collections.abc import Iterable, Iterator
from dataclasses import dataclass
from fnmatch import fnmatchcase
from functools import cached_property
from pathlib import Path

from ..net.server import Trouble
from ..trees.folded import fronts
from .git_patterns import regex_of

OWN = ".jarrahignore"
"""A file at the top with patterns of a path or a name, one a line."""
GITS = ".gitignore"
"""A file of any folder with patterns as git has them, for what lies in the folder."""
BYTE_ORDER_MARK = b"\xef\xbb\xbf"


@dataclass(frozen=True)
class Pattern:
    """A line of a `.gitignore` file."""

    expression: re.Pattern[bytes]
    of_names: bool
    """Whether it is of a name anywhere below, and not of a path from the folder on."""
    of_folders: bool
    """Whether it fits folders alone."""
    takes_back: bool
    """Whether what it fits is looked at after all."""

    def fits(self, path: bytes, is_folder: bool) -> bool:
        """Whether it fits what is at a path, as the folder of the file sees it."""
        if self.of_folders and not is_folder:
            return False
        text = path.rpartition(b"/")[2] if self.of_names else path
        return self.expression.fullmatch(text) is not None


@dataclass(frozen=True)
class Rules:
    """The patterns of a folder, with those of the folders above it, which yield to them."""

    folder: str
    """The folder's path with a slash behind it; the empty text at the top."""
    patterns: list[Pattern]
    above: Rules | None

    def ignore(self, path: str, is_folder: bool) -> bool:
        """Whether the last pattern that fits a path takes it away, the nearest folder's first."""
        at: Rules | None = self
        while at:
            rest = os.fsencode(path[len(at.folder) :])
            for pattern in reversed(at.patterns):
                if pattern.fits(rest, is_folder):
                    return not pattern.takes_back
            at = at.above
        return False


class Ignoring:
    """What is ignored in a working copy. What the base has is looked at in any case."""

    def __init__(self, top: Path, known: Iterable[str]):
        self.known = known
        """The paths of the base."""
        self.own = own_patterns(top)

    @cached_property
    def folders(self) -> set[str]:
        """The folders in which the base has files."""
        return {front for path in self.known for front in fronts(path)}

    def rules_in(
        self, folder: Path, path: str, names: Iterable[str], above: Rules | None
    ) -> Rules | None:
        """The rules for what lies in a folder: those above it, and its own `.gitignore` file's."""
        if GITS not in names:
            return above
        patterns = list(git_patterns(read(folder / GITS)))
        return Rules(path, patterns, above) if patterns else above

    def passes_over(self, path: str, is_folder: bool, rules: Rules | None) -> bool:
        """Whether what is at a path is ignored, with all that is in it."""
        if is_own_ignored(path, self.own):
            return True
        return rules is not None and rules.ignore(path, is_folder)


def read(place: Path) -> bytes:
    """The bytes of a file of patterns; nothing where it is no file, as git does with links."""
    try:
        if not stat.S_ISREG(place.lstat().st_mode):
            return b""
        return place.read_bytes()
    except FileNotFoundError:
        return b""
    except OSError as fault:
        raise Trouble(f"{place}: {fault.strerror}") from None


def git_patterns(data: bytes) -> Iterator[Pattern]:
    """The patterns of a `.gitignore` file; lines that fit nothing are passed over."""
    for line in data.removeprefix(BYTE_ORDER_MARK).split(b"\n"):
        pattern = git_pattern(trimmed(line.removesuffix(b"\r")))
        if pattern:
            yield pattern


def trimmed(line: bytes) -> bytes:
    """A line without the spaces at its end, but for one that has a backslash before it."""
    short = line.rstrip(b" ")
    escapes = len(short) - len(short.rstrip(b"\\"))
    return line[: len(short) + 1] if escapes % 2 and short != line else short


def git_pattern(line: bytes) -> Pattern | None:
    """The pattern of a line, or None where it is none."""
    if not line or line.startswith(b"#"):
        return None
    takes_back = line.startswith(b"!")
    text = line[1:] if takes_back else line
    of_folders = text.endswith(b"/")
    text = text[:-1] if of_folders else text
    of_names = b"/" not in text
    expression = regex_of(text.removeprefix(b"/"), with_slashes=of_names)
    if not text or expression is None:
        return None
    return Pattern(re.compile(expression, re.DOTALL), of_names, of_folders, takes_back)


def own_patterns(top: Path) -> list[str]:
    """The patterns of `.jarrahignore`."""
    try:
        lines = (top / OWN).read_text(encoding="utf-8").splitlines()
    except (OSError, UnicodeDecodeError):
        return []
    return [line.strip() for line in lines if line.strip() and not line.startswith("#")]


def is_own_ignored(path: str, patterns: list[str]) -> bool:
    """Whether one of these fits a path, a folder above it, or one of its names."""
    if not patterns:
        return False
    places = [*fronts(path), path, *path.split("/")]
    return any(fnmatchcase(one, pattern.rstrip("/")) for pattern in patterns for one in places)
