"""The bare repository of git that mirrors the server: a copy that can be made anew at any time."""

from __future__ import annotations

import shutil
from pathlib import Path

from ..formats.changesets import Changeset
from ..git.exporting import Report, feed
from ..git.marks import EXPORTED, Marks
from ..net.server import Server, Trouble
from .branches import HEADS
from .git import GitFault, git, is_git_fine

NEW = "refs/jarrah/new"
"""Where an export writes before branches are moved; it is hidden from clients."""
MOST_PACKS = 50
"""With so many packs the mirror is packed anew."""
MOST_PUSH_BYTES = 4 << 30
SETTINGS = {
    "core.logAllRefUpdates": "false",
    "fastimport.unpackLimit": "1",
    "gc.auto": "0",
    "http.getanyfile": "false",
    "http.receivepack": "true",
    "http.uploadpack": "true",
    "receive.advertiseAtomic": "false",
    "receive.autogc": "false",
    "receive.fsckObjects": "true",
    "receive.maxInputSize": str(MOST_PUSH_BYTES),
    "receive.procReceiveRefs": "refs",
    "transfer.hideRefs": "refs/jarrah",
    "uploadpack.allowAnySHA1InWant": "true",
    "uploadpack.allowFilter": "true",
}
LEFTOVERS = ("*.lock", "tmp_*", "fast_import_crash_*", ".tmp-*")
"""Files of a git that was killed, which would stop the next one or only take room."""


class Mirror:
    """One repository, with the marks of what was exported to it."""

    def __init__(self, directory: Path):
        self.directory = directory
        self.marks = Marks(directory / "jarrah" / "exported", EXPORTED)
        self.changesets = {commit: id for id, commit in self.marks.known.items()}
        """The changesets of the commits."""

    def close(self) -> None:
        self.marks.close()

    @property
    def commits(self) -> dict[str, str]:
        """The commits of the changesets."""
        return self.marks.known

    def take(self, server: Server, line: list[Changeset], connections: int) -> Report:
        """Writes changesets that are new, parents first."""
        report = Report(NEW, line[-1].id)
        feed(server, self.directory, NEW, line, self.marks, report, connections, forced=True)
        for changeset in line:
            self.changesets[self.commits[changeset.id]] = changeset.id
        return report

    def set_branches(self, wanted: dict[str, str]) -> None:
        """Moves all branches to the commits that they have to be at, and removes all else."""
        found = self.refs()
        gone = [f"delete {ref}\n" for ref in found if ref not in wanted]
        moved = [f"update {ref} {at}\n" for ref, at in wanted.items() if found.get(ref) != at]
        # Removals first: git takes no branch under another that goes in the same step.
        for lines in (gone, moved):
            if lines:
                git(self.directory, "update-ref", "--stdin", data="".join(lines).encode())

    def refs(self) -> dict[str, str]:
        """All that clients see, with where it is."""
        words = ("for-each-ref", "--format=%(refname) %(objectname)")
        rows = (row.split(" ") for row in git(self.directory, *words).splitlines())
        return {ref: commit for ref, commit in rows if not ref.startswith("refs/jarrah/")}

    def is_there(self) -> bool:
        """Whether nobody has removed it."""
        return (self.directory / "HEAD").exists() and self.marks.place.exists()

    def is_sound(self, *, thorough: bool = False) -> bool:
        """Whether git has all that it was given: each marked commit, and all that branches reach.

        A thorough look reads the bytes of each object too.
        """
        if not self.is_there():
            return False
        commits = "".join(f"{commit}\n" for commit in list(self.changesets)).encode()
        words = ("cat-file", "--batch-check=%(objectname)")
        try:
            if " missing" in git(self.directory, *words, data=commits):
                return False
        except GitFault:
            return False
        if thorough:
            return is_git_fine(self.directory, "fsck", "--no-dangling", "--no-progress")
        return is_git_fine(self.directory, "rev-list", "--objects", "--all", "--quiet")

    def pack(self) -> None:
        """Joins packs where there are many, each time as few as keep their count low."""
        packs = list((self.directory / "objects" / "pack").glob("*.pack"))
        if len(packs) >= MOST_PACKS:
            git(self.directory, "repack", "-d", "-q", "--geometric=2")

    def pack_whole(self) -> None:
        """Packs all anew, with an index by which a clone is soon counted."""
        git(self.directory, "repack", "-a", "-d", "-q", "--write-bitmap-index")


def opened(directory: Path, trunk: str) -> Mirror:
    """The mirror in a directory, made where there is none; what a killed git has left goes."""
    if not (directory / "HEAD").exists():
        return made(directory, trunk)
    for pattern in LEFTOVERS:
        for place in directory.rglob(pattern):
            place.unlink(missing_ok=True)
    prepare(directory, trunk)
    return Mirror(directory)


def made(directory: Path, trunk: str) -> Mirror:
    """A new mirror without anything in it, in place of what stands there."""
    shutil.rmtree(directory, ignore_errors=True)
    make_bare(directory)
    prepare(directory, trunk)
    return Mirror(directory)


def make_bare(directory: Path) -> None:
    """Makes an empty repository, without what git's templates would put there."""
    try:
        directory.mkdir(parents=True)
    except OSError as fault:
        raise Trouble(f"{directory}: {fault.strerror}") from None
    git(directory, "init", "-q", "--bare", "--template=", "--object-format=sha1")


def prepare(directory: Path, trunk: str) -> None:
    """Says all that a repository of the remote is set to."""
    lines = ["[core]\n\trepositoryformatversion = 0\n\tbare = true\n"]
    for name, value in SETTINGS.items():
        section, _, key = name.partition(".")
        lines.append(f"[{section}]\n\t{key} = {value}\n")
    (directory / "config").write_text("".join(lines))
    (directory / "HEAD").write_text(f"ref: {HEADS}{trunk}\n")
