"""Makes git repositories with many merges, in which trees of parents are against one another."""

from __future__ import annotations

import random
import subprocess
from dataclasses import dataclass
from pathlib import Path

PATHS = ["a", "a/b", "a/b/c", "a/d", "a.b", "e", "e/f", "e/f/g", "ü", "lib/x", "lib/y", "z z"]
MODES = ["100644", "100644", "100644", "100755", "120000"]
CONTENTS = [b"", b"abc", b"other", b"more\nlines\n", b"and more"]

Tree = dict[str, tuple[str, bytes]]
"""The mode and the content of each file."""


@dataclass(frozen=True)
class Commit:
    """A commit by its number: its parents' numbers, and its tree."""

    parents: tuple[int, ...]
    tree: Tree


class Dag:
    """Commits at random; where `octopuses` is said, some have three parents."""

    def __init__(self, seed: int, count: int, octopuses: bool = False):
        self.random = random.Random(seed)
        self.octopuses = octopuses
        self.commits: list[Commit] = [Commit((), {"a": ("100644", b"abc")})]
        while len(self.commits) < count:
            self.add(self.some_parents())
        while len(heads := self.heads()) > 1:
            self.add(tuple(heads[:2]))

    def some_parents(self) -> tuple[int, ...]:
        """None for a further root, or one to three of the last commits."""
        number = len(self.commits)
        if number in (7, 19):
            return ()
        most = 3 if self.octopuses and number % 11 == 0 else self.random.choice((1, 1, 2))
        lately = range(max(0, number - 6), number)
        return tuple(self.random.sample(lately, min(most, len(lately))))

    def heads(self) -> list[int]:
        """The commits on which none stands."""
        used = {parent for commit in self.commits for parent in commit.parents}
        return [number for number in range(len(self.commits)) if number not in used]

    def add(self, parents: tuple[int, ...]) -> None:
        """A commit with some of what each parent has, and with some changes."""
        sides = [self.commits[it].tree for it in parents]
        wanted: Tree = {}
        for path in self.random.sample(PATHS, len(PATHS)):
            values = [side.get(path) for side in sides] or [None]
            value = self.random.choice(values)
            if value is None and any(values) and self.random.random() < 0.8:
                value = next(filter(None, values))
            if self.random.random() < 0.12:
                value = (self.random.choice(MODES), self.random.choice(CONTENTS))
            if value and not any(is_near(path, other) for other in wanted):
                wanted[path] = value
        self.commits.append(Commit(parents, wanted))

    def make(self, folder: Path) -> list[str]:
        """Makes a repository whose branch is at the last commit, and gives their names."""
        git(folder.parent, "init", "-q", "--bare", "-b", "main", str(folder))
        marks = folder / "made"
        stream = b"".join(map(self.spelled, range(len(self.commits))))
        words = ("fast-import", "--quiet", f"--export-marks={marks}")
        git(folder, *words, data=stream)
        rows = sorted((int(mark[1:]), oid) for mark, oid in map(str.split, marks.open()))
        return [oid for _, oid in rows]

    def spelled(self, number: int) -> bytes:
        """A commit as `git fast-import` reads it, its files and all."""
        commit = self.commits[number]
        moment = f"{1_000_000_000 + 3_600 * number} +0130"
        person = f"Ann {number % 3} <ann@example.org> {moment}"
        message = f"Commit {number}\n\nwith a body\n".encode()
        lines = [] if commit.parents else ["reset refs/heads/main"]
        lines += ["commit refs/heads/main", f"mark :{number + 1}"]
        lines += [f"author {person}", f"committer {person}", f"data {len(message)}"]
        out = "\n".join(lines).encode() + b"\n" + message
        for word, parent in zip(("from", "merge", "merge"), commit.parents):
            out += f"{word} :{parent + 1}\n".encode()
        out += b"deleteall\n"
        for path, (mode, data) in commit.tree.items():
            out += f'M {mode} inline "{path}"\ndata {len(data)}\n'.encode() + data + b"\n"
        return out + b"\n"


def is_near(left: str, right: str) -> bool:
    """Whether one lies under the other."""
    return left.startswith(right + "/") or right.startswith(left + "/")


def git(folder: Path, *words: str, data: bytes = b"") -> str:
    """What git says of a repository."""
    command = ["git", "-c", "core.fsync=none", "-C", str(folder), *words]
    done = subprocess.run(command, input=data, capture_output=True, check=True)
    return done.stdout.decode(errors="surrogateescape").strip()
