"""The subcommand that finds the changeset that broke something."""

from __future__ import annotations

from argparse import ArgumentTypeError
from collections.abc import Iterator
from dataclasses import dataclass
from functools import partial
from typing import Any

from ..history.log_cache import CachedLog
from ..history.repository import Log, by_front, line_between, need_head
from ..net.server import Server, Trouble
from ..terminal.colours import Line
from ..terminal.output import Output, changeset_lines, counted, short_lines
from ..working.bisect import (
    MOST_STATUS,
    Command,
    Search,
    Verdict,
    find,
    lent,
    need_as_base,
    telling,
)
from ..working.stack import need_bookmark
from ..working.state import WorkingCopy
from . import given
from .options import LEFT_OUT, REVISION, Add, add_connections, id_of, positive
from .working_copy import need_copy

SKIPS = 125
STANDARD_ERROR = 2
"""Where the command's output goes while the standard output is a script's."""


@dataclass(frozen=True)
class BisectOptions(given.ConnectionsOptions):
    """What `bisect` is told."""

    good: str
    bad: str | None
    skips: int
    words: list[str]


def add(add: Add) -> None:
    """Adds the subcommand."""
    how = given.Command(BisectOptions, bisect)
    one = add("bisect", how, "find the changeset that broke something, by trying some between")
    one.add_argument(
        "--good", metavar="ID", required=True, help=f"where it worked still: {REVISION}"
    )
    one.add_argument(
        "--bad", metavar="ID", help=f"where it fails: {REVISION}; default: the bookmark's head"
    )
    one.add_argument(
        "--skip-status",
        dest="skips",
        type=verdict_status,
        default=SKIPS,
        metavar="N",
        help=f"the status of what can't be tried; default: {SKIPS}",
    )
    one.add_argument(
        "words",
        nargs="+",
        metavar="COMMAND",
        help="is run in the folder's top, and ends with status 0 where all is good;"
        " write it after `--`",
    )
    add_connections(one)


def verdict_status(text: str) -> int:
    """A status that isn't good and may be taken as a verdict."""
    if positive(text) > MOST_STATUS:
        raise ArgumentTypeError(f"it has to be at most {MOST_STATUS}")
    return int(text)


def bisect(options: BisectOptions, server: Server, out: Output) -> int:
    """Finds the first bad changeset after a good one, and brings the folder back."""
    copy, log = need_copy(options), CachedLog(server)
    command = Command(options.words, options.skips, STANDARD_ERROR if out.as_json else None)
    with copy.alone():
        need_as_base(copy)
        search = wanted(options, copy, server, log)
        with telling(search):
            with lent(copy, server, options.connections) as folder:
                find(search, folder, command)
            tell_found(search, server, log, out)
    return 0 if search.first_bad else LEFT_OUT


def wanted(options: BisectOptions, copy: WorkingCopy, server: Server, log: Log) -> Search:
    """The search between what is said to be good and what is said to be bad."""
    bad = options.bad or need_head(server, need_bookmark(copy))
    front = partial(by_front, log)
    ids = (id_of(options, server, one, front) for one in (options.good, bad))
    good, bad = (server.changeset(id).id for id in ids)
    if good == bad:
        raise Trouble(f"{good} can't be good and bad")
    return Search(good, line_between(server, log, good, bad))


def tell_found(search: Search, server: Server, log: Log, out: Output) -> None:
    """Tells the first bad changeset, or all that may be it, the newest first."""
    tried = [{"id": id, "verdict": verdict.value} for id, verdict in search.tried.items()]
    document: dict[str, Any] = {"first_bad": search.first_bad, "tried": tried}
    out.tell(document | {"left": search.left[::-1]}, found_lines(search, server, log))


def found_lines(search: Search, server: Server, log: Log) -> Iterator[Line]:
    """The same for people, as `log` tells changesets."""
    verdicts = list(search.tried.values())
    skipped = verdicts.count(Verdict.SKIPPED)
    after = f"tried {counted(len(verdicts), 'changeset')}"
    after += f", {skipped:,} of them skipped" if skipped else ""
    if search.first_bad:
        yield f"{after}: the first bad one is"
        names, landing = log.names().get(search.first_bad, []), log.landings.get(search.first_bad)
        yield from changeset_lines(server.changeset(search.first_bad), names, False, landing)
        return
    yield f"{after}: the first bad one is one of {len(search.left):,}"
    for id in search.left[::-1]:
        yield short_lines(server.changeset(id))
