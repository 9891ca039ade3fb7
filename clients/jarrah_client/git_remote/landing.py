"""What becomes of each branch that a push names."""

from __future__ import annotations

import time
from collections.abc import Callable
from dataclasses import dataclass, field
from pathlib import Path

from ..net.server import Landed, Server
from ..refusals import Fault, Refused
from ..terminal.output import clean, counted
from .branches import FOR, HEADS, bookmark_of, in_the_way
from .git import NOTHING, git, is_git_fine
from .keeper import Keeper, Look, tell
from .pushed import Drafts, How, Pushed, PushRefused, drafted, pushed

MOST_STACK = 100
MOST_REASON = 900
"""So many characters of a reason go into a line of git's."""
LOST_SECONDS = (0.2, 1.0, 3.0, 6.0)
"""When the log is asked again for a landing whose answer was lost."""
PULL = "`git pull --rebase` brings it"
FETCH = "`git fetch` brings it"
WORDS = "%H%n%an%n%ae%n%s"
"""What git's log tells of a commit: its id, the author, and the first paragraph of its message."""
REWORD = "`git commit --amend`, or `git rebase -i` where others stand on it, gives it one"


@dataclass(frozen=True)
class Rules:
    """What pushes may do here."""

    trunks: tuple[str, ...]
    """The bookmarks that are landed on, and never moved otherwise."""
    with_deletes: bool = False
    with_force: bool = False
    with_copies: bool = False
    allows_empty: bool = False
    """Whether what has an empty message lands too."""
    connections: int = 2


@dataclass(frozen=True)
class Command:
    """What a push asks of one ref: to go from one commit to another."""

    old: str
    new: str
    ref: str


@dataclass
class Outcome:
    """What became of a command: the lines of git's report, and what is told beside."""

    report: list[str]
    words: str
    said: list[str] = field(default_factory=list)


class Lander:
    """Answers the commands of one push, whose objects are in a folder of its own."""

    def __init__(self, keeper: Keeper, rules: Rules, server: Server, folder: Path, look: Look):
        self.keeper = keeper
        self.rules = rules
        self.server = server
        self.folder = folder
        self.look = look

    def outcome(self, command: Command) -> Outcome:
        """Does what a command asks, or says why not; a line of the log tells either."""
        begun = time.monotonic()
        try:
            outcome = self.act_for(command)(command)
        except Refused as refusal:
            outcome = refused(command, f"{refusal.code}: {refusal}")
        except Fault as fault:
            outcome = refused(command, str(fault))
        except Exception as fault:
            # Whatever it is, who pushed is told, and the other commands go on.
            outcome = refused(command, f"the remote failed: {type(fault).__name__}: {fault}")
        who = self.server.caller or "-"
        span = f"{command.old[:12]}..{command.new[:12]}"
        seconds = time.monotonic() - begun
        tell(f"push by {who} {command.ref} {span} {outcome.words} ({seconds:.2f} s)")
        return outcome

    def act_for(self, command: Command) -> Callable[[Command], Outcome]:
        """What does a command."""
        ref = command.ref
        if ref.startswith(FOR) and command.new != NOTHING:
            return self.land
        if not ref.startswith(HEADS):
            raise PushRefused(f"only branches, and {FOR}BRANCH, can be pushed")
        if command.new == NOTHING:
            return self.delete
        if ref not in self.look.refs:
            return self.create
        return self.land if bookmark(ref) in self.rules.trunks else self.move

    def land(self, command: Command) -> Outcome:
        """Lands commits on a bookmark, by rebase where it has moved on."""
        name = bookmark(command.ref)
        if HEADS + branch(command.ref) not in self.look.refs:
            raise PushRefused(f"there is no branch {branch(command.ref)} to land on")
        if command.ref.startswith(HEADS) and not self.is_onward(command):
            raise PushRefused(
                f"{branch(command.ref)} is landed on and never moved back: `git pull --rebase`, and"
                " push again"
            )
        new = self.pushed(command)
        refuse_stack(new)
        self.refuse_unsaid(command)
        drafts = self.drafted(new, lands=True)
        if id := self.keeper.landed(name, drafts.id):
            return self.told(command, id, "landed before on", "")
        try:
            landed = self.landed(name, drafts)
        except Refused as refusal:
            if id := self.keeper.landed(name, drafts.id):
                return self.told(command, id, "landed before on", "")
            if refusal.code == "already-in":
                return self.told(command, drafts.id, "there is nothing new for", "")
            if refusal.code == "clash":
                refusal.advice = "`git pull --rebase`, settle it, and push again"
            raise
        return self.told(command, landed.head, f"landed {commits(len(landed.ids))} on", PULL)

    def refuse_unsaid(self, command: Command) -> None:
        """Refuses commits that say not who made them, or not why. Those that another branch has
        are looked at too, and none that the branch itself has."""
        span = f"{self.look.refs[HEADS + branch(command.ref)]}..{command.new}"
        found = git(self.folder, "log", "-z", "--reverse", f"--format={WORDS}", span, "--")
        for one in filter(None, found.split("\0")):
            oid, name, address, title = one.split("\n", 3)
            if not (name.strip() or address.strip()):
                raise PushRefused(f"commit {oid[:12]}: its author is empty: {REWORD}")
            if not title.strip() and not self.rules.allows_empty:
                raise PushRefused(f"commit {oid[:12]}: its message is empty: {REWORD}")

    def landed(self, name: str, drafts: Drafts) -> Landed:
        """Lands drafts; where the answer is lost, the log is asked what became of them."""
        try:
            return drafts.land(self.server, name)
        except Refused:
            raise
        except Fault as fault:
            for seconds in LOST_SECONDS:
                time.sleep(seconds)
                if id := self.found_in_log(name, drafts.id):
                    return Landed(id, [id], "")
            raise PushRefused(
                f"the server's answer was lost ({fault}): push again, which lands it or tells that"
                " it was landed"
            ) from None

    def found_in_log(self, name: str, draft: str) -> str | None:
        """What the log says of a draft, where the server answers."""
        try:
            return self.keeper.landed(name, draft)
        except Fault:
            return None

    def create(self, command: Command) -> Outcome:
        """Makes a bookmark."""
        name = bookmark(command.ref)
        branches = [ref.removeprefix(HEADS) for ref in self.look.refs]
        other = in_the_way(branch(command.ref), branches)
        if other:
            raise PushRefused(f"git can't have it beside the branch {other}")
        draft = self.drafted(self.pushed(command)).id
        self.move_bookmark(name, None, draft)
        return self.told(command, draft, "made", FETCH)

    def move(self, command: Command) -> Outcome:
        """Moves a bookmark that isn't landed on, from where the pusher saw it."""
        if not self.is_onward(command) and not self.rules.with_force:
            raise PushRefused("it isn't a fast-forward, and branches aren't moved back here")
        old = self.changeset_of(command)
        draft = self.drafted(self.pushed(command)).id
        self.move_bookmark(bookmark(command.ref), old, draft)
        return self.told(command, draft, "moved", FETCH)

    def delete(self, command: Command) -> Outcome:
        """Deletes a bookmark."""
        name = bookmark(command.ref)
        if name in self.rules.trunks:
            raise PushRefused(f"{branch(command.ref)} is landed on and never deleted by a push")
        if not self.rules.with_deletes:
            raise PushRefused("branches aren't deleted here")
        if command.old == NOTHING:
            raise PushRefused(f"there is no branch {branch(command.ref)}")
        self.move_bookmark(name, self.changeset_of(command), None)
        self.keeper.update()
        return Outcome([f"ok {command.ref}"], "deleted")

    def move_bookmark(self, name: str, old: str | None, new: str | None) -> None:
        """Moves a bookmark; one that is there already is as good."""
        try:
            self.server.move_bookmark(name, old, new)
        except Refused as refusal:
            if refusal.code != "moved" or refusal.members.get("found", "") != new:
                raise

    def changeset_of(self, command: Command) -> str:
        """The changeset at which the pusher saw a branch."""
        if command.old not in self.look.changesets:
            raise PushRefused(f"commit {command.old[:12]} isn't on a branch here: fetch first")
        return self.look.changesets[command.old]

    def is_onward(self, command: Command) -> bool:
        """Whether a push is a fast-forward from where the pusher saw the branch."""
        words = ("merge-base", "--is-ancestor", command.old, command.new)
        return is_git_fine(self.folder, *words)

    def pushed(self, command: Command) -> Pushed:
        return pushed(self.folder, command.new, self.look.changesets)

    def drafted(self, new: Pushed, *, lands: bool = False) -> Drafts:
        how = How(self.rules.with_copies, self.rules.connections, lands)
        return drafted(self.server, self.folder, new, how)

    def told(self, command: Command, id: str, what: str, advice: str) -> Outcome:
        """What a push did, once the mirror has it; a mirror that is behind takes nothing back."""
        try:
            commit = self.keeper.commit_of(id)
        except Exception as fault:
            tell(f"mirror: behind: {fault}")
            commit = None
        name, at = branch(command.ref), commit[:12] if commit else f"changeset {id[:12]}"
        words = f"{what} {name} as {at}"
        is_same = commit == command.new
        said = words if is_same or not advice else f"{words}: {advice}"
        return Outcome(report_of(command, HEADS + name, is_same, self.look), words, [said])


def report_of(command: Command, head: str, is_same: bool, look: Look) -> list[str]:
    """Git's report of a command that was done.

    The pusher's git notes that the branch is at the pushed commit only where that is so: a commit
    that it lacks, or that isn't there, would spoil what it knows of the remote.
    """
    if is_same and command.ref != head:
        at = look.refs.get(head, NOTHING)
        options = (f"refname {head}", f"old-oid {at}", f"new-oid {command.new}")
        return [f"ok {command.ref}", *(f"option {option}" for option in options)]
    if not is_same and command.ref == head:
        name = head.removeprefix(HEADS)
        return [f"ok {command.ref}", f"option refname {FOR}{name}"]
    return [f"ok {command.ref}"]


def refused(command: Command, words: str) -> Outcome:
    """A command that wasn't done, and why, in one line."""
    reason = clean(" ".join(words.split()))[:MOST_REASON]
    return Outcome([f"ng {command.ref} {reason}"], f"refused: {reason}")


def refuse_stack(new: Pushed) -> None:
    """Refuses, before anything is uploaded, what the server would refuse to land."""
    if new.merges:
        raise PushRefused(
            f"commit {new.merges[0][:12]} is a merge, and no merge can be landed:"
            " `git pull --rebase` makes a line of it"
        )
    if len(new.oids) > MOST_STACK:
        raise PushRefused(f"{commits(len(new.oids))} are pushed, over {MOST_STACK}: push a part")


def branch(ref: str) -> str:
    """The branch that a ref is of, or is to be landed on."""
    return ref.removeprefix(HEADS).removeprefix(FOR)


def bookmark(ref: str) -> str:
    """The bookmark of a ref's branch."""
    name = bookmark_of(branch(ref))
    if name is None:
        raise PushRefused(
            f"{branch(ref)!r} is no name that a bookmark has here: it is made of A-Z a-z 0-9 _ . -"
            " and /, at most 128 with each / as two"
        )
    return name


def commits(count: int) -> str:
    return counted(count, "commit")
