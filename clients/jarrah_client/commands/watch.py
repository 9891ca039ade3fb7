"""The subcommand that runs something for each landing."""

from __future__ import annotations

import os
import subprocess
import sys
import time
from dataclasses import dataclass
from pathlib import Path

from ..drafting.drafts import need_name
from ..history.watching import LANDING, Event, Memory, Wanted, entries_from, event_of
from ..net.server import NotReached, Server, Trouble, is_passing
from ..refusals import Fault
from ..terminal.output import Output, as_json, clean, date, title, told_id
from .bisect import STANDARD_ERROR
from .given import Command, CopyOptions
from .options import Add, natural

POLL_SECONDS = 1.0
MOST_PATHS_BYTES = 65_536
"""What a variable of the environment has room for, by far; all is in the standard input."""


@dataclass(frozen=True)
class WatchOptions(CopyOptions):
    """What `watch` is told."""

    bookmark: str | None
    shell: str | None
    path: list[str]
    remember: str | None
    start: int | None
    once: bool
    stop: bool


def add(add: Add) -> None:
    """Adds the subcommand."""
    how = Command(WatchOptions, watch)
    one = add("watch", how, "tell each landing as it comes, and run a command for it")
    one.add_argument("bookmark", nargs="?", help="default: any")
    one.add_argument(
        "--exec",
        dest="shell",
        metavar="COMMAND",
        help="run by the shell for each, with LANDED_ID, LANDED_AUTHOR, LANDED_PATHS and more in"
        " its environment, and the whole as JSON in its standard input",
    )
    one.add_argument(
        "--path",
        metavar="PATH",
        action="append",
        default=[],
        help="only those that change this path, or something under it; can be repeated",
    )
    one.add_argument(
        "--remember",
        metavar="FILE",
        help="go on after the last one that FILE remembers; without it, or where FILE isn't"
        " there yet, begin with what comes from now on",
    )
    one.add_argument(
        "--from",
        dest="start",
        metavar="N",
        type=natural,
        help="begin with this entry, where nothing is remembered",
    )
    one.add_argument("--once", action="store_true", help="end when all that is there was told")
    one.add_argument(
        "--stop",
        action="store_true",
        help="end where the command fails; the next run begins with the same landing",
    )


class Watch:
    """What is told of a log, from where on, and what is run."""

    def __init__(self, options: WatchOptions, server: Server, out: Output):
        self.wanted = Wanted.of(options.bookmark, options.path)
        self.command = options.shell
        self.stops = options.stop
        self.server = server
        self.out = out
        self.memory = Memory(Path(options.remember)) if options.remember else None
        known = self.memory.load(server) if self.memory else None
        began = options.start if known is None else known
        self.next = server.log(0).total if began is None else began
        if self.memory and known is None:
            self.memory.keep(self.next)

    def poll(self) -> None:
        """Tells what is new."""
        begun = self.next
        for entry in entries_from(self.server, self.next):
            if entry["kind"] == LANDING and self.wanted.bookmark in (None, entry["name"]):
                event = event_of(self.server, entry)
                if self.wanted.takes(event):
                    self.server.close()
                    self.tell(event)
            self.next = entry["number"] + 1
        if self.memory and self.next != begun:
            self.memory.keep(self.next)

    def tell(self, event: Event) -> None:
        """Tells a landing, runs the command, and remembers the landing."""
        at = date(event.moment, 0) if event.moment is not None else f"entry {event.entry:,}"
        line = (
            f"{told_id(event.id)}  {at}  {event.bookmark}  {event.author}  {title(event.message)}"
        )
        status = None
        if not self.command:
            self.out.tell(event.document(), line)
        else:
            status = run(self.command, event, self.server.url, self.out)
            self.out.tell(event.document() | {"status": status}, line)
        if status and self.stops:
            raise Trouble(f"the command ended with status {status} for {event.id}")
        if self.memory:
            self.memory.keep(event.entry + 1, event)


def watch(options: WatchOptions, server: Server, out: Output) -> None:
    """Tells each landing as it comes, until it is interrupted."""
    if options.bookmark:
        need_name(options.bookmark)
    one = Watch(options, server, out)
    is_lost = False
    while True:
        try:
            one.poll()
            is_lost = False
        except Fault as fault:
            if options.once or not (is_passing(fault) or isinstance(fault, NotReached)):
                raise
            if not is_lost:
                print(f"jarrah: {fault}; waiting for it", file=sys.stderr, flush=True)
            is_lost = True
        if options.once:
            return
        server.close()
        time.sleep(POLL_SECONDS)


def run(command: str, event: Event, url: str, out: Output) -> int:
    """Runs the command for a landing, and gives its status; one that fails is told."""
    said = as_json(event.document()).encode() + b"\n"
    to = STANDARD_ERROR if out.as_json else None
    environment = {**os.environ, **variables(event), "JARRAH_SERVER": url}
    done = subprocess.run(command, shell=True, input=said, stdout=to, env=environment)
    if done.returncode:
        words = f"the command ended with status {done.returncode} for {event.id}"
        print(f"jarrah: {clean(words)}", file=sys.stderr, flush=True)
    return done.returncode


def variables(event: Event) -> dict[str, str]:
    """What the environment tells of a landing. Names of this client's own settings aren't used."""
    return {
        "LANDED_ENTRY": str(event.entry),
        "LANDED_BOOKMARK": event.bookmark,
        "LANDED_ID": event.id,
        "LANDED_IDS": " ".join(event.ids),
        "LANDED_OLD": event.old,
        "LANDED_MOMENT": "" if event.moment is None else str(event.moment),
        "LANDED_CALLER": event.caller or "",
        "LANDED_AUTHOR": event.author,
        "LANDED_TITLE": title(event.message).replace("\x00", " "),
        "LANDED_PATH_COUNT": str(len(event.paths)),
        "LANDED_PATHS": "\n".join(fitting(event.paths)),
    }


def fitting(paths: tuple[str, ...]) -> list[str]:
    """As many of some paths as a variable has room for."""
    found, room = [], MOST_PATHS_BYTES
    for path in paths:
        room -= len(path.encode()) + 1
        if room < 0:
            break
        found.append(path)
    return found
