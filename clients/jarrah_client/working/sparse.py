"""Sparse working copies: a profile says which directories of a tree are in the folder."""

from __future__ import annotations

import sys
from collections.abc import Iterable, Iterator
from dataclasses import dataclass
from functools import cached_property
from pathlib import Path

from ..formats.changesets import File
from ..formats.paths import path_fault, path_key
from ..net.server import Trouble
from ..refusals import Refused
from ..trees.folded import fronts
from ..trees.tree import Tree

ABSENT = ("no-path", "not-a-dir")
"""What is answered of a directory that isn't there, or is a file."""


@dataclass(frozen=True)
class Profile:
    """The files under some directories, and those that lie directly in a directory above one."""

    directories: tuple[str, ...]

    @classmethod
    def of(cls, directories: Iterable[str]) -> Profile:
        """The profile of directories, without those that lie under another."""
        wanted = set(directories)
        kept = (one for one in wanted if not wanted.intersection(fronts(one)))
        return cls(tuple(sorted(kept, key=path_key)))

    @cached_property
    def wanted(self) -> frozenset[str]:
        return frozenset(self.directories)

    @cached_property
    def above(self) -> frozenset[str]:
        """The directories above them, the top among them."""
        return frozenset({"", *(front for one in self.directories for front in fronts(one))})

    def has(self, path: str) -> bool:
        """Whether a file at a path is in the folder."""
        if path.rpartition("/")[0] in self.above or path in self.wanted:
            return True
        return not self.wanted.isdisjoint(fronts(path))

    def leads(self, directory: str) -> bool:
        """Whether files under a directory may be in the folder."""
        if directory in self.above or directory in self.wanted:
            return True
        return not self.wanted.isdisjoint(fronts(directory))

    def with_more(self, directories: Iterable[str]) -> Profile:
        """The same with further directories."""
        return Profile.of([*self.directories, *directories])

    def without(self, directories: Iterable[str]) -> Profile:
        """The same without some of its directories."""
        gone = set(directories)
        for one in gone - self.wanted:
            raise Trouble(f"the profile has no line {one}")
        kept = [one for one in self.directories if one not in gone]
        if not kept:
            raise Trouble("the profile would have no directory left")
        return Profile.of(kept)


def profile_named(name: str) -> Profile:
    """The profile of a file; `-` is the standard input."""
    try:
        data = sys.stdin.buffer.read() if name == "-" else Path(name).read_bytes()
    except OSError as fault:
        raise Trouble(f"{name}: {fault.strerror}") from None
    return read_profile(name, data)


def read_profile(name: str, data: bytes) -> Profile:
    """The profile of a text: a directory a line; empty lines and those from `#` on say nothing."""
    try:
        lines = data.decode().splitlines()
    except UnicodeDecodeError:
        raise Trouble(f"{name} isn't UTF-8") from None
    found = []
    for number, line in enumerate(lines, 1):
        text = line.strip()
        if text and not text.startswith("#"):
            found.append(directory_of(text, f"{name}, line {number}"))
    if not found:
        raise Trouble(f"{name} names no directory")
    return Profile.of(found)


def directory_of(text: str, where: str) -> str:
    """A directory as a tree has it, of a text that may have slashes at its ends."""
    directory = text.strip("/")
    fault = path_fault(directory.encode(errors="surrogateescape"))
    if fault:
        raise Trouble(f"{where}: the directory {text!r} is refused: {fault}")
    return directory


def files_of(tree: Tree, profile: Profile | None) -> Iterator[tuple[str, File]]:
    """The files of a tree that are in the folder, by rising paths."""
    if profile is None:
        return iter(tree.files())
    found: dict[str, File] = {}
    for above in profile.above:
        found |= files_directly_in(tree, above)
    for directory in profile.directories:
        if is_directory(tree, directory):
            found |= dict(tree.files(directory))
    return iter(sorted(found.items(), key=lambda one: path_key(one[0])))


def files_directly_in(tree: Tree, directory: str) -> dict[str, File]:
    """The files that lie directly in a directory, where there is one."""
    front = f"{directory}/" if directory else ""
    if directory and not is_directory(tree, directory):
        return {}
    return {front + name: file for name, file in tree.list(directory).items() if file}


def is_directory(tree: Tree, directory: str) -> bool:
    """Whether a tree has a directory."""
    try:
        tree.list(directory)
    except Refused as refusal:
        if refusal.code not in ABSENT:
            raise
        return False
    return True


def absent(tree: Tree, profile: Profile) -> list[str]:
    """The directories of a profile that a tree doesn't have."""
    return [one for one in profile.directories if not is_directory(tree, one)]
