"""Exporting a changeset and its ancestors into a git repository, by `git fast-import`."""

from __future__ import annotations

import subprocess
import tempfile
import time
from collections.abc import Iterator
from contextlib import closing, contextmanager
from dataclasses import dataclass, field
from pathlib import Path
from typing import IO

from ..formats.changesets import Changeset, File
from ..formats.paths import own_name
from ..history.repository import parents_first, reached
from ..net.contents import Data
from ..net.pool import Pool
from ..net.server import Server, Trouble
from ..terminal.progress import Progress
from ..trees.checkout import with_contents
from .export_steps import Step, steps_of
from .fast_import import Stream, first_fault
from .marks import EXPORTED, Marks

QUIET = ["--quiet", "--date-format=raw-permissive", "--done"]


@dataclass
class Report:
    """What an export did."""

    branch: str
    id: str
    commit: str | None = None
    changesets: int = 0
    contents: int = 0
    content_bytes: int = 0
    known: int = 0
    """Changesets that an earlier run had exported."""
    seconds: float = 0.0
    left_out: list[dict[str, str]] = field(default_factory=list)
    altered: list[str] = field(default_factory=list)


@dataclass(frozen=True)
class Target:
    """Where an export goes: a repository, its branch, and the file of what was exported."""

    folder: Path
    branch: str
    marks: Path | None


class Export:
    """Writes changesets, parents first, with the contents that no earlier one had."""

    def __init__(self, pool: Pool, stream: Stream, report: Report):
        self.pool = pool
        self.stream = stream
        self.report = report

    def write(self, steps: list[Step]) -> None:
        """Writes changesets, contents ahead on their way."""
        coming = with_contents(self.pool, contents_of(steps))
        with Progress("changesets", len(steps)) as progress:
            for step in steps:
                for file in step.put.values():
                    while file.content not in self.stream.blobs:
                        self.take_content(*next(coming))
                if self.stream.commit(step.changeset, step.gone, step.put):
                    self.report.altered.append(step.changeset.id)
                self.report.changesets += 1
                progress.step()

    def take_content(self, id: str, file: File, data: Data) -> None:
        """Writes a content."""
        self.stream.blob(id, file.size, data)
        self.report.contents += 1
        self.report.content_bytes += file.size


def contents_of(steps: list[Step]) -> Iterator[tuple[str, File]]:
    """The contents of some steps in order, each once, by their ids and the first file of each."""
    seen: set[str] = set()
    for step in steps:
        for file in step.put.values():
            if file.content not in seen:
                seen.add(file.content)
                yield file.content, file


def export_git(server: Server, id: str, target: Target, connections: int) -> Report:
    """Exports a changeset and its ancestors to a branch of a repository, made if need be."""
    begun = time.monotonic()
    directory = git_directory(target.folder)
    name = target.branch.removeprefix("refs/heads/")
    place = target.marks or directory / "jarrah" / f"{name.replace('/', '-')}.exported"
    report = Report(name, id)
    with closing(Marks(place, EXPORTED)) as marks:
        line = new_ones(server, id, marks)
        before = {marks.known[it] for it in known_below(line, id, marks)}
        report.known = len(marks.known) if before else 0
        need_own(directory, target.branch, before)
        if line:
            feed(server, directory, target.branch, line, marks, report, connections)
        point_head(directory, target.branch)
        report.commit = marks.known.get(id)
    report.seconds = time.monotonic() - begun
    return report


def new_ones(server: Server, id: str, marks: Marks) -> list[Changeset]:
    """The changesets that weren't exported yet, parents first."""
    line: list[Changeset] = []
    if id in marks.known:
        return []
    with Progress("changesets read", None) as progress:
        for changeset in reached(server, id, marks.known):
            line.append(changeset)
            progress.step()
    return parents_first(line)


def known_below(line: list[Changeset], id: str, marks: Marks) -> dict[str, None]:
    """The exported ones that new changesets stand on; where none is new, the one asked for."""
    parents = (parent for changeset in line for parent in changeset.parents)
    return dict.fromkeys(it for it in (parents if line else [id]) if it in marks.known)


def feed(
    server: Server,
    directory: Path,
    branch: str,
    line: list[Changeset],
    marks: Marks,
    report: Report,
    connections: int,
    *,
    forced: bool = False,
) -> None:
    """Has git take changesets, and keeps which commit each became. A branch moves on, or where
    that is forced to anywhere."""
    with tempfile.TemporaryDirectory(prefix="jarrah-export-") as folder:
        made, complaint = Path(folder) / "marks", Path(folder) / "complaint"
        words = ["fast-import", *QUIET, f"--export-marks={made}"]
        words += ["--force"] if forced else []
        with complaint.open("w+b") as says, taking(directory, words, says) as out:
            stream = Stream(out, branch, marks.known)
            write_line(server, stream, line, report, connections)
        oids = dict(one.split() for one in made.read_text().splitlines())
    for changeset in line:
        marks.add(changeset.id, oids[stream.commits[changeset.id]])


def write_line(
    server: Server, stream: Stream, line: list[Changeset], report: Report, connections: int
) -> None:
    """Writes changesets to a stream, to its end."""
    steps = steps_of(server, line)
    report.left_out += left_out(line)
    with Pool(server, connections) as pool:
        Export(pool, stream, report).write(steps)
    stream.end()


def left_out(line: list[Changeset]) -> list[dict[str, str]]:
    """The paths of changesets that git or this client keeps for itself."""
    return [
        {"changeset": changeset.id, "path": path, "why": f"it has the element `{name}`"}
        for changeset in line
        for path in changeset.changes
        if (name := own_name(path))
    ]


@contextmanager
def taking(directory: Path, words: list[str], complaint: IO[bytes]) -> Iterator[IO[bytes]]:
    """Has git read what is written, and take it whole or not at all."""
    command = ["git", f"--git-dir={directory}", *words]
    pipe, null = subprocess.PIPE, subprocess.DEVNULL
    process = subprocess.Popen(command, stdin=pipe, stdout=null, stderr=complaint)
    assert process.stdin
    try:
        yield process.stdin
        process.stdin.close()
    except BrokenPipeError:
        pass
    except BaseException:
        process.kill()
        process.wait()
        raise
    if process.wait() != 0:
        raise Trouble(first_fault(complaint))


def export_stream(server: Server, id: str, branch: str, out: IO[bytes], connections: int) -> Report:
    """Writes a changeset and its ancestors as the stream that `git fast-import` reads."""
    begun = time.monotonic()
    report = Report(branch.removeprefix("refs/heads/"), id)
    line = parents_first(reached(server, id))
    out.write(b"feature date-format=raw-permissive\nfeature done\n")
    write_line(server, Stream(out, branch, {}), line, report, connections)
    report.seconds = time.monotonic() - begun
    return report


def git_directory(folder: Path) -> Path:
    """Git's folder of a repository; where there is nothing yet, a bare one is made."""
    try:
        if not folder.exists() or not any(folder.iterdir()):
            run(["git", "init", "--quiet", "--bare", str(folder)])
    except OSError as fault:
        raise Trouble(f"{folder}: {fault.strerror}") from None
    return Path(run(["git", "-C", str(folder), "rev-parse", "--absolute-git-dir"]))


def run(words: list[str], *, fails: bool = False) -> str:
    """What a command of git says; trouble where it fails, or nothing where it may."""
    try:
        done = subprocess.run(words, capture_output=True, text=True)
    except FileNotFoundError:
        raise Trouble("there is no git on this machine") from None
    if done.returncode and not fails:
        raise Trouble(done.stderr.strip().partition("\n")[0] or f"git {words[-1]} failed")
    return done.stdout.strip() if not done.returncode else ""


def need_own(directory: Path, branch: str, before: set[str]) -> None:
    """Refuses a branch that an export didn't leave where it is, or that is checked out."""
    at = [f"--git-dir={directory}"]
    run(["git", *at, "check-ref-format", branch])
    found = run(["git", *at, "rev-parse", "--verify", "--quiet", branch], fails=True)
    if found and found not in before:
        raise Trouble(f"{branch} is at {found}, where no export left it: name another --branch")
    is_bare = run(["git", *at, "rev-parse", "--is-bare-repository"]) == "true"
    head = run(["git", *at, "symbolic-ref", "--quiet", "HEAD"], fails=True)
    if found and not is_bare and head == branch:
        raise Trouble(f"{branch} is checked out there: name another --branch")


def point_head(directory: Path, branch: str) -> None:
    """Has a bare repository's HEAD name the branch where it names one that isn't there."""
    at = ["git", f"--git-dir={directory}"]
    found = run([*at, "rev-parse", "--verify", "--quiet", "HEAD"], fails=True)
    is_bare = run([*at, "rev-parse", "--is-bare-repository"]) == "true"
    if is_bare and not found and branch.startswith("refs/heads/"):
        run([*at, "symbolic-ref", "HEAD", branch])
