"""What a repository has: bookmarks and entries by its log, chains, and names of changesets."""

from __future__ import annotations

from collections.abc import Callable, Container, Iterable, Iterator, Sequence
from dataclasses import dataclass
from heapq import heappop, heappush

from ..formats.changesets import Changeset
from ..net.answers import Entry
from ..net.server import Server, Trouble
from ..terminal.progress import Progress

LEAST_ABBREVIATION = 6


@dataclass(frozen=True)
class Landing:
    """Where a changeset landed: on which bookmark, by which entry, and when if that is told."""

    bookmark: str
    entry: int
    moment: int | None = None
    """Seconds since 1970."""


class Log:
    """The update log, read on from where the last reading ended."""

    def __init__(self, server: Server):
        self.server = server
        self.forget()

    def forget(self) -> None:
        """Begins anew."""
        self.next = 0
        self.total = 0
        self.bookmarks: dict[str, str] = {}
        self.changesets: dict[str, None] = {}
        self.landings: dict[str, Landing] = {}
        """Landed changesets, with the first landing of each."""
        self.parents: dict[str, str] = {}
        """The parent of each landed changeset: no merge is landed."""

    def copied(self, server: Server) -> Log:
        """What is known so far, for one who reads on alone over another connection."""
        log = Log(server)
        log.next, log.total = self.next, self.total
        log.bookmarks, log.changesets = dict(self.bookmarks), dict(self.changesets)
        log.landings, log.parents = dict(self.landings), dict(self.parents)
        return log

    def read_on(self) -> None:
        """Reads the entries that are new."""
        for _ in self.entries():
            pass

    def entries(self) -> Iterator[Entry]:
        """The new entries, in order."""
        while True:
            page = self.server.log(self.next)
            if page.total < self.total:
                raise Trouble(
                    f"{self.server.url} has {page.total:,} entries now, and had {self.total:,}:"
                    " it serves another repository"
                )
            self.total = page.total
            for entry in page.entries:
                self.take(entry)
                yield entry
            if not page.entries or self.next >= page.total:
                return

    def take(self, entry: Entry) -> None:
        """Keeps what an entry says of bookmarks and changesets."""
        self.next = entry["number"] + 1
        if entry["kind"] == "changeset":
            self.changesets[entry["id"]] = None
        elif entry["kind"] == "landing":
            self.changesets.update(dict.fromkeys(entry["ids"]))
            self.bookmarks[entry["name"]] = entry["ids"][-1]
            landing = Landing(entry["name"], entry["number"], entry.get("moment"))
            for parent, id in zip([entry["old"], *entry["ids"]], entry["ids"]):
                self.landings.setdefault(id, landing)
                self.parents[id] = parent
        elif entry["kind"] == "bookmark":
            if entry["to"] is None:
                self.bookmarks.pop(entry["name"], None)
            else:
                self.bookmarks[entry["name"]] = entry["to"]

    def places(self) -> dict[str, int]:
        """The place of each changeset among those that are known."""
        return {id: place for place, id in enumerate(self.changesets)}

    def names(self) -> dict[str, list[str]]:
        """The names of the bookmarks at each changeset that has one."""
        found: dict[str, list[str]] = {}
        for name in sorted(self.bookmarks):
            found.setdefault(self.bookmarks[name], []).append(name)
        return found


def is_front(name: str) -> bool:
    """Whether a name may be the front of an id."""
    return len(name) >= LEAST_ABBREVIATION and not set(name.lower()) - set("0123456789abcdef")


def by_front(log: Log, front: str) -> str:
    """The one changeset of the log whose id begins so."""
    log.read_on()
    found = [id for id in log.changesets if id.startswith(front)]
    if len(found) != 1:
        count = f"{len(found):,} changesets" if found else "no bookmark and no changeset"
        raise Trouble(f"{count} of this server {'begin' if found else 'begins'} with {front}")
    return found[0]


def need_head(server: Server, bookmark: str) -> str:
    """A bookmark's head, or trouble where there is none."""
    head = server.head(bookmark)
    if head is None:
        raise Trouble(f"there is no bookmark {bookmark}")
    return head


def reached(server: Server, id: str, but: Container[str] = ()) -> Iterator[Changeset]:
    """A changeset and all that it reaches through parents, but through those of some ids; each
    after one that stands on it."""
    waiting, seen = [id], {id}
    while waiting:
        changeset = server.changeset(waiting.pop())
        yield changeset
        for parent in changeset.parents[::-1]:
            if parent not in seen and parent not in but:
                seen.add(parent)
                waiting.append(parent)


def parents_first(changesets: Iterable[Changeset]) -> list[Changeset]:
    """The same in an order in which parents come before what stands on them."""
    by_id = {changeset.id: changeset for changeset in changesets}
    ordered: dict[str, Changeset] = {}
    for start in by_id.values():
        waiting = [start]
        while waiting:
            parents = waiting[-1].parents
            missing = [by_id[it] for it in parents if it in by_id and it not in ordered]
            if missing:
                waiting.append(missing[0])
            else:
                one = waiting.pop()
                ordered[one.id] = one
    return list(ordered.values())


def last_known_first(server: Server, id: str, places: dict[str, int]) -> Iterator[Changeset]:
    """A changeset and all that it reaches through parents, by falling places."""
    read: dict[str, Changeset] = {}
    for one in last_ids_first(id, places, lambda id: read.pop(id).parents):
        read[one] = server.changeset(one)
        yield read[one]


def last_ids_first(
    id: str, places: dict[str, int], parents: Callable[[str], Iterable[str]]
) -> Iterator[str]:
    """The same by ids. The parents of each are asked for once it was given out."""
    waiting, seen = [(-places[id], id)], {id}
    while waiting:
        one = heappop(waiting)[1]
        yield one
        for parent in parents(one):
            if parent not in seen:
                seen.add(parent)
                heappush(waiting, (-places[parent], parent))


def is_reached(server: Server, log: Log, head: str, id: str) -> bool:
    """Whether a head reaches a changeset through parents.

    The log knows the parents of what was landed. Those of others are read, back to where the
    changeset came to be known: nothing that is known before it stands on it.
    """
    log.read_on()
    places = log.places()
    at = places.get(id, len(places))
    with Progress("changesets", None) as progress:
        line = last_ids_first(head, places, parents_by(server, log, progress))
        return next((one for one in line if places[one] <= at), None) == id


def parents_by(server: Server, log: Log, progress: Progress) -> Callable[[str], Sequence[str]]:
    """What gives the parents of a changeset: the log where it was landed, else the server."""

    def parents(id: str) -> Sequence[str]:
        if id in log.parents:
            return (log.parents[id],)
        progress.step()
        return server.changeset(id).parents

    return parents


def line_between(server: Server, log: Log, good: str, bad: str) -> list[str]:
    """The changesets by first parents from after one to another, the oldest first; or trouble
    where the one isn't on the other's line.

    Parents are known as by `is_reached`, and none is read that is known before the one.
    """
    log.read_on()
    places = log.places()
    line: list[str] = []
    at: str | None = bad
    with Progress("changesets", None) as progress:
        parents = parents_by(server, log, progress)
        while at is not None and places[at] > places[good]:
            line.append(at)
            at = next(iter(parents(at)), None)
    if at != good:
        raise Trouble(f"{good} isn't on the line of first parents of {bad}")
    return line[::-1]


def chain(server: Server, id: str) -> Iterator[Changeset]:
    """A changeset and its ancestors by first parents, the newest first."""
    following: str | None = id
    while following is not None:
        changeset = server.changeset(following)
        yield changeset
        following = changeset.parent
