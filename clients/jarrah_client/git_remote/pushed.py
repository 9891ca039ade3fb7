"""Turns pushed commits into drafts; a commit that no changeset can hold refuses the push."""

from __future__ import annotations

import io
from dataclasses import dataclass
from pathlib import Path

from ..formats.changesets import CannotSpell, SelfConflict
from ..formats.lists import MOST_LISTED
from ..git.commit_graph import GitGraph
from ..git.fast_import import date_of, person_of
from ..git.importing import Plan, Reader, Report, Sender, Step, await_contents
from ..git.source import GitChange, GitCommit, GitRepository, text
from ..net.pool import Pool
from ..net.server import Landed, Server
from ..refusals import Fault, Refused, about
from ..terminal.progress import Progress
from .git import git


class PushRefused(Fault):
    """A push, or one branch of it, that isn't taken."""


@dataclass(frozen=True)
class Pushed:
    """The commits of a push that the mirror doesn't have, in the order in which they stand."""

    tip: str
    graph: GitGraph
    known: dict[str, str]
    """The changesets of the mirror's commits."""
    oids: list[str]

    @property
    def merges(self) -> list[str]:
        """Those with several parents."""
        return [oid for oid in self.oids if len(self.graph.parents[oid]) > 1]


class PushReader(Reader):
    """Reads commits as an import does, but nothing may be left out or altered."""

    def step(self, commit: GitCommit) -> Step:
        with about(named(commit)):
            refuse_altered(self.source, commit)
            step = self.spelled(commit)
            if len(step.changesets) > 1:
                raise PushRefused(
                    "it changes more paths than one changeset holds (4,096):"
                    " make several commits of it, or bring a history in by `jarrah import-git`"
                )
        self.made[commit.oid] = step.changesets[-1].id
        return step

    def spelled(self, commit: GitCommit) -> Step:
        """The changesets of a commit, or why none can hold it."""
        try:
            return super().step(commit)
        except (CannotSpell, SelfConflict) as fault:
            raise PushRefused(str(fault)) from None

    def leave_out(self, commit: GitCommit, change: GitChange, why: str) -> None:
        path = change.path.decode(errors="backslashreplace")
        raise PushRefused(f"{path!r}: {why}")

    def alter(self, commit: GitCommit, why: str) -> None:
        raise PushRefused(why)

    def tell(self, commit: GitCommit, what: str) -> None:
        raise PushRefused(f"it would be altered: {what}")


def named(commit: GitCommit) -> str:
    """What a commit is called where it is refused."""
    return f"commit {commit.oid[:12]}"


def refuse_altered(source: GitRepository, commit: GitCommit) -> None:
    """Refuses a commit whose author, date or message the mirror would show otherwise."""
    head, _, message = source.read(commit.oid).partition(b"\n\n")
    headers = dict(line.partition(b" ")[::2] for line in reversed(head.split(b"\n")))
    encoding = headers.get(b"encoding", b"utf-8").decode("ascii", "replace")
    author, is_altered = text(headers.get(b"author", b""), encoding)
    date, _ = date_of(commit.seconds, commit.offset)
    if is_altered or author != f"{person_of(commit.author)} {date}":
        raise PushRefused("its author or date isn't text that a changeset can hold as it is")
    if b"\x00" in message:
        raise PushRefused("its message has a zero byte")


def pushed(folder: Path, tip: str, known: dict[str, str]) -> Pushed:
    """The commits that one reaches, up to those that the mirror has."""
    if git(folder, "cat-file", "-t", tip) != "commit":
        raise PushRefused("it is at no commit")
    words = ("rev-list", "--topo-order", "--reverse", "--parents", tip, "--not", "--all")
    rows = (row.split() for row in git(folder, *words).splitlines())
    parents = {oid: tuple(above) for oid, *above in rows}
    ends = {above: () for found in parents.values() for above in found if above not in parents}
    graph = GitGraph(tip, {**ends, **parents} or {tip: ()})
    oids = graph.to_come(known)
    lacking = next((oid for oid in oids if oid not in parents), None)
    if lacking:
        raise PushRefused(f"commit {lacking} isn't on a branch here: fetch first")
    return Pushed(tip, graph, known, oids)


@dataclass(frozen=True)
class Drafts:
    """What commits became: the changeset of the last, and those that aren't stored yet."""

    id: str
    steps: list[Step]

    def land(self, server: Server, name: str) -> Landed:
        """Lands them by one request; a refusal of one of them says of which commit."""
        if not self.steps:
            return server.land(name, self.id)
        try:
            return server.land_stack(name, [step.changesets[0] for step in self.steps])
        except Refused as refusal:
            at = refusal.members.get("at", len(self.steps))
            if at < len(self.steps):
                refusal.about = named(self.steps[at].commit)
            raise


@dataclass(frozen=True)
class How:
    """How commits become drafts."""

    with_copies: bool
    connections: int
    lands: bool
    """Whether their changesets are stored by the landing only."""


def drafted(server: Server, folder: Path, new: Pushed, how: How) -> Drafts:
    """Uploads the contents of commits, and their drafts unless those are to be landed."""
    if not new.oids:
        return Drafts(new.known[new.tip], [])
    report, quiet = Report(""), Progress("commits", None, io.StringIO())
    going = Plan(new.graph, new.known, None, (), new.oids)
    with GitRepository(folder, how.with_copies) as source, Pool(server, how.connections) as pool:
        reader = PushReader(source, going, pool, report, quiet)
        sender = Sender(pool, report, quiet, lambda _: None, named)
        steps: list[Step] = []
        for commit in source.commits(new.graph, new.oids):
            steps.append(reader.step(commit))
            if not how.lands and len(steps) == MOST_LISTED:
                store(sender, steps)
                steps = []
        for step in steps:
            with about(named(step.commit)):
                await_contents(step, pool, quiet)
        if not how.lands:
            store(sender, steps)
            steps = []
        return Drafts(reader.made[new.tip], steps)


def store(sender: Sender, steps: list[Step]) -> None:
    """Stores the changesets of commits."""
    for step in steps:
        sender.add(step)
    sender.send()
