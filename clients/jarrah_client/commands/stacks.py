"""Subcommands for the drafts of a working copy, and for what is put aside in it."""

from __future__ import annotations

import sys
from dataclasses import dataclass
from pathlib import Path

from ..drafting.said import SaidMessage
from ..net.server import Server, Trouble
from ..refusals import Fault, WrongWords
from ..terminal.editor import edited
from ..terminal.output import Output, changeset_document, counted, told_id
from ..working import shelf as shelves
from ..working import stacks
from ..working.rebase import need_clean
from .committing import message_of
from .given import Command, CopyOptions, PathsOptions
from .options import Add, add_allow
from .working_copy import conflict_status, named, need_copy, rebased_lines

DRAFT = "a draft: the first 6 digits or more of its id, or its title"
PLAN = (
    "A line is a draft, the lowest first: pick lets it be, reword asks for another message, fold",
    "puts it into the draft of the line above, edit stops at it, drop lets it go. The order may be",
    "another. An empty text ends it.",
)

REWORDED = ("An empty message ends it, and nothing is done.", "")


@dataclass(frozen=True)
class DropOptions(CopyOptions):
    """What `drop` is told."""

    drafts: list[str]
    all: bool
    keep: bool


@dataclass(frozen=True)
class SplitOptions(SaidMessage, PathsOptions):
    """What `split` is told."""

    draft: str | None


@dataclass(frozen=True)
class HisteditOptions(CopyOptions):
    """What `histedit` is told."""

    plan: str | None


@dataclass(frozen=True)
class ShelveOptions(PathsOptions):
    """What `shelve` is told."""

    name: str | None
    lists: bool
    delete: str | None


@dataclass(frozen=True)
class UnshelveOptions(CopyOptions):
    """What `unshelve` is told."""

    name: str | None
    keep: bool


def add(add: Add) -> None:
    """Adds the subcommands."""
    one = add("drop", Command(DropOptions, drop), "let drafts go")
    one.add_argument("drafts", nargs="*", metavar="DRAFT", help=DRAFT)
    one.add_argument("--all", action="store_true", help="all drafts")
    one.add_argument(
        "--keep", action="store_true", help="leave what they did in the folder, as changed"
    )
    how = Command(CopyOptions, uncommit)
    add("uncommit", how, "take the last draft back into the folder, as what is changed")
    parts = Command(SplitOptions, split)
    one = add("split", parts, "make two drafts of one: some paths, and on it the others")
    one.add_argument("paths", nargs="+", metavar="PATH", help="files or folders of the first")
    one.add_argument("--draft", metavar="DRAFT", help=f"{DRAFT}; default: the last")
    one.add_argument("-m", "--message", help="what the first does; the other keeps its message")
    add_allow(one)
    steps = Command(HisteditOptions, histedit)
    one = add("histedit", steps, "fold, drop, move, reword and edit drafts, by a list")
    one.add_argument("--plan", metavar="FILE", help="the list; `-`: the standard input")
    add_shelves(add)


def add_shelves(add: Add) -> None:
    """Adds those that put aside."""
    how = Command(ShelveOptions, shelve)
    one = add("shelve", how, "put what is changed aside, and the base's files back")
    one.add_argument("paths", nargs="*", metavar="PATH", help="files or folders; default: all")
    way = one.add_mutually_exclusive_group()
    way.add_argument("--name", help="what the shelf is called; default: a number")
    way.add_argument(
        "--list", dest="lists", action="store_true", help="tell what is put aside"
    )
    way.add_argument("--delete", metavar="NAME", help="let a shelf go")
    back = Command(UnshelveOptions, unshelve)
    one = add("unshelve", back, "take what was put aside back into the folder")
    one.add_argument("name", nargs="?", help="default: the newest shelf")
    one.add_argument("--keep", action="store_true", help="let the shelf be")


def drop(options: DropOptions, server: Server, out: Output) -> int:
    """Lets drafts go."""
    copy = need_copy(options)
    if options.all == bool(options.drafts):
        raise WrongWords("name drafts, or say `--all`")
    with copy.alone():
        if options.all:
            gone, done = stacks.drop_all(copy, server, options.keep), None
        else:
            stacks.need_drafts(copy)
            gone = [stacks.draft_named(copy, name) for name in options.drafts]
            done = stacks.drop(copy, server, gone, options.keep)
        titles = [copy.state.titles.get(id, "") for id in gone]
    lines = [f"dropped {told_id(id)}  {title}".rstrip() for id, title in zip(gone, titles)]
    conflicts = done.conflicts if done else {}
    document = {"dropped": gone, "drafts": copy.state.drafts, "conflicts": conflicts}
    out.tell(document, [*lines, *(rebased_lines(done) if done else ())])
    return conflict_status(conflicts)


def uncommit(options: CopyOptions, server: Server, out: Output) -> None:
    """Takes the last draft back into the folder."""
    copy = need_copy(options)
    with copy.alone():
        id = stacks.uncommit(copy, server)
    title = copy.state.titles.get(id, "")
    line = f"uncommitted {told_id(id)}  {title}".rstrip()
    out.tell({"uncommitted": id, "base": copy.state.base}, line)


def split(options: SplitOptions, server: Server, out: Output) -> None:
    """Makes two drafts of one."""
    copy = need_copy(options)
    with copy.alone():
        drafts = stacks.need_drafts(copy)
        id = stacks.draft_named(copy, options.draft) if options.draft else drafts[-1]
        under = named(copy, options.paths) or []
        message = message_of(options, lambda: [f"the first of {id}", *under], None)
        both = stacks.split(copy, server, id, under, message)
    documents = [changeset_document(one) for one in both]
    lines = [f"made the draft {told_id(one.id)}" for one in both]
    out.tell({"split": id, "drafts": documents}, lines)


def histedit(options: HisteditOptions, server: Server, out: Output) -> int:
    """Has a person say what becomes of the drafts."""
    copy = need_copy(options)
    with copy.alone():
        stacks.need_drafts(copy)
        need_clean(copy)
        text = read_plan(options.plan) if options.plan else edited_plan(stacks.plan_lines(copy))
        if not text.strip():
            raise Trouble("the plan is empty: nothing is done")
        steps = stacks.read_plan(copy, text)
        done = stacks.carry_out(copy, server, steps, messages_of(server, steps))
    out.tell(vars(done), rebased_lines(done))
    return conflict_status(done.conflicts)


def messages_of(server: Server, steps: list[str]) -> dict[str, str]:
    """The messages that a person writes of the drafts which a plan rewords, before it is done."""
    found: dict[str, str] = {}
    for id in stacks.reworded(steps):
        old = server.changeset(id)
        try:
            found[id] = edited(old.message, (f"the draft {id}", *REWORDED, *old.changes))
        except Fault as fault:
            fault.advice = "`jarrah amend --draft DRAFT -m MESSAGE` says it"
            raise
        if not found[id]:
            raise Trouble(f"the message of the draft {id} is empty: nothing is done")
    return found


def edited_plan(lines: list[str]) -> str:
    """The plan as a person leaves it in an editor."""
    return edited("\n".join(lines), ("", *PLAN))


def read_plan(place: str) -> str:
    """The plan of a file."""
    try:
        return sys.stdin.read() if place == "-" else Path(place).read_text(encoding="utf-8")
    except OSError as fault:
        raise Trouble(f"{place}: {fault.strerror}") from None
    except UnicodeDecodeError:
        raise Trouble(f"{place} isn't UTF-8") from None


def shelve(options: ShelveOptions, server: Server, out: Output) -> None:
    """Puts what is changed aside, or tells what is."""
    copy = need_copy(options)
    with copy.alone():
        if options.lists:
            rows = [shelves.read(copy, name) for name in shelves.names(copy)]
            lines = [f"{one.name}  {counted(len(one.changes), 'path')}" for one in rows]
            found = [{"name": one.name, "paths": list(one.changes)} for one in rows]
            out.tell({"shelves": found}, lines)
            return
        if options.delete:
            shelves.delete(copy, options.delete)
            out.tell({"deleted": options.delete}, f"let the shelf {options.delete} go")
            return
        shelf = shelves.shelve(copy, server, options.name, named(copy, options.paths))
    line = f"put {counted(len(shelf.changes), 'path')} on the shelf {shelf.name}"
    out.tell({"shelf": shelf.name, "paths": list(shelf.changes)}, line)


def unshelve(options: UnshelveOptions, server: Server, out: Output) -> int:
    """Takes what was put aside back."""
    copy = need_copy(options)
    with copy.alone():
        known = shelves.names(copy)
        if not known and not options.name:
            raise Trouble("there is no shelf")
        shelf = shelves.read(copy, options.name or known[-1])
        conflicts = shelves.unshelve(copy, server, shelf)
        if not conflicts and not options.keep:
            shelves.delete(copy, shelf.name)
    lines = [f"conflict {path}: {why}" for path, why in conflicts.items()]
    lines += [f"the shelf {shelf.name} is kept"] if conflicts or options.keep else []
    said = f"took {counted(len(shelf.changes), 'path')} from the shelf {shelf.name}"
    document = {"shelf": shelf.name, "paths": list(shelf.changes), "conflicts": conflicts}
    out.tell(document, [said, *lines])
    return conflict_status(conflicts)
