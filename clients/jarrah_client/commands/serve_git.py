"""The subcommand that serves git's clients."""

from __future__ import annotations

import argparse
import signal
import threading
from dataclasses import dataclass
from pathlib import Path

from ..drafting.drafts import need_name
from ..git.exporting import run
from ..git_remote.branches import branch_of
from ..git_remote.git import separate
from ..git_remote.keeper import Keeper
from ..git_remote.landing import Rules
from ..git_remote.serving import HOST, Remote
from ..history.log_cache import opened
from ..net.server import Server, Trouble
from ..terminal.output import Output
from .given import Command, ConnectionsOptions
from .options import Add, add_allow, natural, positive, span


@dataclass(frozen=True)
class ServeGitOptions(ConnectionsOptions):
    """What `serve-git` is told."""

    folder: str
    port: int
    host: list[str]
    name: str
    trunk: list[str] | None
    allow_delete: bool
    allow_force: bool
    allows_empty: bool
    copies: bool
    every: float


def add(add: Add) -> None:
    """Adds the subcommand."""
    how = Command(ServeGitOptions, serve_git)
    one = add("serve-git", how, "serve git's clients: clone, pull, and pushes that land")
    one.add_argument("folder", help="where a mirror is kept, which may be deleted at any time")
    one.add_argument("--port", type=natural, default=0, help="default: any that is free")
    one.add_argument(
        "--host",
        metavar="NAME",
        action="append",
        default=[],
        help="answer to this name too, which a proxy passes on; can be repeated",
    )
    one.add_argument(
        "--name", default="repository", help="the repository's in the URL; default: repository"
    )
    one.add_argument(
        "--trunk",
        metavar="BOOKMARK",
        action="append",
        help="its branch is landed on, and never moved or deleted by a push; can be repeated,"
        " and the first is what a clone checks out; default: main",
    )
    add_allowed(one)
    one.add_argument(
        "--every", type=span, default=1.0, metavar="SECONDS", help="read the log so; default: 1"
    )
    one.add_argument(
        "--connections",
        type=positive,
        default=2,
        metavar="N",
        help="to the server, of each push and of the mirror; default: 2",
    )


def add_allowed(one: argparse.ArgumentParser) -> None:
    """Options that allow what isn't by itself."""
    one.add_argument("--allow-delete", action="store_true", help="pushes may delete other branches")
    one.add_argument("--allow-force", action="store_true", help="pushes may move others back")
    add_allow(one)
    one.add_argument(
        "--copies",
        action="store_true",
        help="tell renames and copies of pushed files; such a commit gets its landing's date",
    )


def serve_git(options: ServeGitOptions, server: Server, out: Output) -> None:
    """Serves until it is ended."""
    trunks = options.trunk or ["main"]
    for name in (*trunks, options.name):
        need_name(name)
    separate()
    run(["git", "--version"])
    folder = Path(options.folder).resolve()
    with opened(folder / "lock") as lock:
        if not lock:
            raise Trouble(f"{folder}: it can't be had, or another program serves it")
        keeper = Keeper(server, folder, branch_of(trunks[0]), options.connections)
        keeper.start()
        rules = Rules(
            tuple(trunks),
            options.allow_delete,
            options.allow_force,
            options.copies,
            options.allows_empty,
            options.connections,
        )
        serve(keeper, rules, options, out)


def serve(keeper: Keeper, rules: Rules, options: ServeGitOptions, out: Output) -> None:
    """Listens, follows the log beside, and ends at a signal with what is under way."""
    try:
        remote = Remote(keeper, rules, options.name, options.port, options.host)
    except OSError as fault:
        raise Trouble(f"port {options.port} of {HOST} can't be had: {fault.strerror}") from None
    threading.Thread(target=keeper.watch, args=(options.every,), daemon=True).start()
    ending = threading.Thread(target=remote.finish)

    def finish(*_: object) -> None:
        if ending.ident is None:
            ending.start()

    signal.signal(signal.SIGTERM, finish)
    out.tell({"url": remote.url}, f"git clone {remote.url}  (Ctrl-C ends it)")
    with remote:
        remote.serve_forever(0.1)
    if ending.ident:
        ending.join()
