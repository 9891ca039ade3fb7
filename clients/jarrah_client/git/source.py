"""Reading the commits of a git repository through git's own plumbing."""

from __future__ import annotations

import re
import subprocess
import tempfile
from collections.abc import Iterator
from dataclasses import dataclass
from pathlib import Path
from typing import IO

from ..formats.changesets import MOST_AUTHOR_BYTES, Kind
from ..net.contents import PIECE_BYTES
from ..net.server import Trouble
from .commit_graph import GitGraph

KINDS = {
    b"100644": Kind.REGULAR,
    b"100664": Kind.REGULAR,
    b"100755": Kind.EXECUTABLE,
    b"120000": Kind.SYMLINK,
}
SUBMODULE = b"160000"
PERSON = re.compile(rb"(.*?) ?(-?\d+) ([+-])(\d+)(\d\d)", re.DOTALL)
READ_BYTES = 1 << 16
DIFF = "diff-tree --stdin --root --always -r -z --raw --no-abbrev".split()
PLAIN = ["--no-renames"]
COPIES = "-M -C -l1000".split()
"""Asks for renames, and for copies of files that the commit changes; the limit is said so that no
setting of git's has another."""
HARDER = ["--find-copies-harder"]
"""Asks for copies of all files, which takes git as long as the tree is large, for each commit."""
RENAME, COPY = b"R", b"C"


@dataclass(frozen=True)
class GitSource:
    """The file of a parent that git takes another for a copy of."""

    path: bytes
    blob: str


@dataclass(frozen=True)
class GitChange:
    """A changed path. `kind` is None where the path is gone or a submodule now."""

    path: bytes
    blob: str
    kind: Kind | None
    was_file: bool
    is_submodule: bool
    source: GitSource | None = None


@dataclass(frozen=True)
class GitCommit:
    """What a commit says, and the paths that differ from its parents, or from nothing."""

    oid: str
    author: str
    seconds: int
    offset: int
    message: str
    is_altered: bool
    """Whether author or message aren't as git has them, since no changeset can hold those."""
    sides: list[list[GitChange]]
    """The paths that differ from the first parent, and from the second where there is one."""


class GitRepository:
    """A repository that git reads. Its process for objects ends with it."""

    def __init__(self, folder: Path, with_copies: bool, copies_harder: bool = False):
        self.folder = folder
        self.diff = DIFF + (COPIES if with_copies else PLAIN) + (HARDER if copies_harder else [])
        self.directory = Path(self.run("rev-parse", "--absolute-git-dir").strip())
        self.objects = subprocess.Popen(
            self.command("cat-file", "--batch"), stdin=subprocess.PIPE, stdout=subprocess.PIPE
        )

    def __enter__(self) -> GitRepository:
        return self

    def __exit__(self, *_: object) -> None:
        self.objects.kill()
        self.objects.communicate()

    def command(self, *words: str) -> list[str]:
        """A command of git on this repository."""
        return ["git", "--no-replace-objects", "-C", str(self.folder), *words]

    def run(self, *words: str) -> str:
        """The output of a command of git, or trouble with its first line of complaint."""
        try:
            done = subprocess.run(self.command(*words), capture_output=True)
        except FileNotFoundError:
            raise Trouble("there is no git on this machine") from None
        if done.returncode != 0:
            raise Trouble(first_line(done.stderr) or f"git {words[0]} failed")
        return done.stdout.decode(errors="surrogateescape")

    def graph(self, branch: str) -> GitGraph:
        """The commits that a branch reaches."""
        commit = self.run("rev-parse", "--verify", "--end-of-options", f"{branch}^{{commit}}")
        words = ("--topo-order", "--reverse", "--parents")
        rows = map(str.split, self.run("rev-list", *words, commit.strip()).splitlines())
        return GitGraph(commit.strip(), {oid: tuple(parents) for oid, *parents in rows})

    def commits(self, graph: GitGraph, oids: list[str]) -> Iterator[GitCommit]:
        """The commits with these oids, compared with their first two parents."""
        with tempfile.TemporaryFile() as feed, tempfile.TemporaryFile() as complaint:
            for oid in oids:
                lines = [f"{oid} {parent}\n" for parent in graph.parents[oid][:2]]
                feed.write("".join(lines or [f"{oid}\n"]).encode())
            feed.seek(0)
            differ = subprocess.Popen(
                self.command(*self.diff), stdin=feed, stdout=subprocess.PIPE, stderr=complaint
            )
            try:
                found = changes_by_commit(pieces(differ, complaint))
                for oid, changes in found:
                    sides = [changes]
                    if len(graph.parents[oid]) > 1:
                        sides.append(next(found)[1])
                    yield self.commit(oid, sides)
            finally:
                differ.kill()
                differ.communicate()

    def commit(self, oid: str, sides: list[list[GitChange]]) -> GitCommit:
        """A commit by its oid and the paths that differ."""
        head, _, message = self.read(oid).partition(b"\n\n")
        headers = dict(line.partition(b" ")[::2] for line in reversed(head.split(b"\n")))
        encoding = headers.get(b"encoding", b"utf-8").decode("ascii", "replace")
        author, seconds, offset = person(headers.get(b"author", b""))
        name, name_altered = text(author, encoding)
        words, words_altered = text(message, encoding)
        fitting = fit_author(name)
        altered = name_altered or words_altered or fitting != name
        return GitCommit(oid, fitting, seconds, offset, words, altered, sides)

    def read(self, oid: str) -> bytes:
        """An object's bytes."""
        return b"".join(self.pieces(oid, self.begin(oid)))

    def size(self, oid: str) -> int:
        """How many bytes an object has."""
        length = self.begin(oid)
        self.skip(oid, length)
        return length

    def begin(self, oid: str) -> int:
        """Begins to read an object, and gives its length; then its pieces are read, or skipped."""
        assert self.objects.stdin and self.objects.stdout
        self.objects.stdin.write(oid.encode() + b"\n")
        self.objects.stdin.flush()
        answer = self.objects.stdout.readline().split()
        if len(answer) != 3:
            raise Trouble(f"git has no object {oid}")
        return int(answer[2])

    def pieces(self, oid: str, length: int) -> Iterator[bytes]:
        """The bytes of an object that was begun, in pieces of which only the last is shorter."""
        assert self.objects.stdout
        for at in range(0, max(length, 1), PIECE_BYTES):
            data = self.objects.stdout.read(min(PIECE_BYTES, length - at))
            if len(data) < min(PIECE_BYTES, length - at):
                raise Trouble(f"git broke off in the object {oid}")
            yield data
        self.objects.stdout.read(1)

    def skip(self, oid: str, length: int) -> None:
        """Reads over the bytes of an object that was begun."""
        for _ in self.pieces(oid, length):
            pass


def pieces(process: subprocess.Popen[bytes], complaint: IO[bytes]) -> Iterator[bytes]:
    """What a process writes between zero bytes, each of which ends a piece."""
    assert process.stdout
    rest = b""
    while data := process.stdout.read(READ_BYTES):
        *whole, rest = (rest + data).split(b"\x00")
        yield from whole
    if process.wait() != 0:
        complaint.seek(0)
        raise Trouble(first_line(complaint.read()) or "git broke off its list of changes")


def first_line(complaint: bytes) -> str:
    """The first line of what git complains of."""
    return complaint.decode(errors="replace").strip().partition("\n")[0]


def changes_by_commit(tokens: Iterator[bytes]) -> Iterator[tuple[str, list[GitChange]]]:
    """Commits with their changed paths, from the raw output of git's differ."""
    oid = ""
    changes: list[GitChange] = []
    for token in tokens:
        if token.startswith(b":"):
            changes += changes_of(token, tokens)
            continue
        if oid:
            yield oid, changes
        oid, changes = token.decode(), []
    if oid:
        yield oid, changes


def changes_of(raw: bytes, tokens: Iterator[bytes]) -> list[GitChange]:
    """The changes of a raw line such as `:100644 100755 OLD NEW M`, whose path comes next.

    That of a rename or a copy, such as `R100`, has the path of its source before its own.
    """
    old_mode, new_mode, old_blob, blob, status = raw[1:].split(b" ")
    path, was_file = next(tokens), old_mode in KINDS
    kind, is_submodule = KINDS.get(new_mode), new_mode == SUBMODULE
    if status[:1] not in (RENAME, COPY):
        return [GitChange(path, blob.decode(), kind, was_file, is_submodule)]
    source = GitSource(path, old_blob.decode()) if was_file else None
    gone = GitChange(path, "", None, was_file, False)
    copied = GitChange(next(tokens), blob.decode(), kind, False, is_submodule, source)
    return [gone, copied] if status[:1] == RENAME else [copied]


def person(line: bytes) -> tuple[bytes, int, int]:
    """Name with address, seconds since 1970, and seconds east of UTC."""
    found = PERSON.fullmatch(line)
    if found is None:
        return line, 0, 0
    name, seconds, sign, hours, minutes = found.groups()
    offset = int(hours) * 3_600 + int(minutes) * 60
    return name, int(seconds), -offset if sign == b"-" else offset


def text(data: bytes, encoding: str) -> tuple[str, bool]:
    """Text in an encoding, and whether bytes that aren't in it were replaced."""
    try:
        return data.decode(encoding), False
    except (UnicodeDecodeError, LookupError):
        return data.decode("utf-8", "replace"), True


def fit_author(name: str) -> str:
    """A name that a changeset's author field takes."""
    clean = name.replace("\x00", "").replace("\n", " ").strip() or "unknown"
    return clean.encode()[:MOST_AUTHOR_BYTES].decode(errors="ignore")
