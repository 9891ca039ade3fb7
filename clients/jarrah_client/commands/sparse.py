"""The subcommand of sparse working copies."""

from __future__ import annotations

from dataclasses import dataclass

from ..net.server import Server, Trouble
from ..terminal.output import Output, counted
from ..working.profiles import take_profile
from ..working.sparse import Profile, directory_of, profile_named
from .given import Command, ConnectionsOptions
from .options import Add, add_connections
from .working_copy import moved_lines, need_copy, tell_absent

PROFILE = "a file of directories, one a line (`-`: the standard input)"


@dataclass(frozen=True)
class SparseOptions(ConnectionsOptions):
    """What `sparse` is told."""

    set: str | None
    add: list[str] | None
    remove: list[str] | None
    all: bool


def add(add: Add) -> None:
    """Adds the subcommand."""
    how = Command(SparseOptions, sparse)
    one = add("sparse", how, "tell or change which directories of the tree are in the folder")
    way = one.add_mutually_exclusive_group()
    way.add_argument("--set", metavar="FILE", help=f"those of {PROFILE}")
    way.add_argument("--add", metavar="DIRECTORY", nargs="+", help="these too")
    way.add_argument("--remove", metavar="DIRECTORY", nargs="+", help="no more these")
    way.add_argument("--all", action="store_true", help="the whole tree")
    add_connections(one)


def sparse(options: SparseOptions, server: Server, out: Output) -> None:
    """Tells the profile of the working copy, or brings the folder to another one."""
    copy = need_copy(options)
    with copy.alone():
        old = copy.state.profile
        if not (options.set or options.add or options.remove or options.all):
            document = {"directories": list(old.directories) if old else None}
            out.tell(document, old.directories if old else "the whole tree")
            return
        new = wanted(options, old)
        moved, absent = take_profile(copy, server, new, options.connections)
    document = {"directories": list(new.directories) if new else None, "absent": absent}
    tell_absent(absent, copy.state.base)
    count = counted(len(copy.state.files), "file")
    out.tell(document | vars(moved), [*moved_lines(moved), f"{count} in the folder"])


def wanted(options: SparseOptions, old: Profile | None) -> Profile | None:
    """The profile that the words ask for."""
    if options.all:
        return None
    if options.set:
        return profile_named(options.set)
    if old is None:
        raise Trouble("the whole tree is in the folder: `--set FILE` names what is to stay")
    named = [directory_of(one, "the command line") for one in options.add or options.remove or ()]
    return old.with_more(named) if options.add else old.without(named)
