"""Landings as they come: read from the update log on, with what they changed."""

from __future__ import annotations

import json
import os
from collections.abc import Iterable, Iterator
from dataclasses import asdict, dataclass
from pathlib import Path
from typing import Any, Final

from ..formats.paths import is_comparable, is_id, path_key
from ..net.answers import Entry, LandingEntry
from ..net.server import Server, Trouble
from .log_cache import parsed

LANDING: Final = "landing"


@dataclass(frozen=True)
class Event:
    """A landing: its entry, where it landed, and what it did there."""

    entry: int
    bookmark: str
    id: str
    """The new head, the last of the changesets."""
    ids: tuple[str, ...]
    old: str
    moment: int | None
    """Seconds since 1970, where the log has them."""
    caller: str | None
    author: str
    message: str
    """The author and the message of the last."""
    paths: tuple[str, ...]
    """All that the changesets set or delete, rising."""

    def document(self) -> dict[str, Any]:
        """It for scripts."""
        return asdict(self)


@dataclass(frozen=True)
class Wanted:
    """Which landings are told: of one bookmark, or any; of some paths, or any."""

    bookmark: str | None = None
    paths: tuple[str, ...] = ()

    @classmethod
    def of(cls, bookmark: str | None, paths: Iterable[str]) -> Wanted:
        """Those of paths that may have slashes at their ends; a slash alone is all of them."""
        inside = tuple(path.strip("/") for path in paths)
        return cls(bookmark, () if "" in inside else inside)

    def takes(self, event: Event) -> bool:
        """Whether a landing is told: of a path, what is at it, under it, or above it counts."""
        if self.bookmark not in (None, event.bookmark):
            return False
        pairs = ((one, path) for one in self.paths for path in event.paths)
        return not self.paths or any(is_comparable(*pair) for pair in pairs)


def event_of(server: Server, entry: LandingEntry) -> Event:
    """The event of a landing's entry, whose changesets are read."""
    changesets = [server.changeset(id) for id in entry["ids"]]
    paths = sorted({path for one in changesets for path in one.changes}, key=path_key)
    last = changesets[-1]
    return Event(
        entry["number"],
        entry["name"],
        last.id,
        tuple(entry["ids"]),
        entry["old"],
        entry.get("moment"),
        entry.get("caller"),
        last.author,
        last.message,
        tuple(paths),
    )


def entries_from(server: Server, number: int) -> Iterator[Entry]:
    """The entries of the log from a number on, as many as there are now."""
    while True:
        page = server.log(number)
        need_same(server, page.total, number)
        yield from page.entries
        number += len(page.entries)
        if not page.entries or number >= page.total:
            return


def need_same(server: Server, total: int, number: int) -> None:
    """Refuses a log that has fewer entries than were read of it."""
    if total < number:
        raise Trouble(
            f"{server.url} has {total:,} entries, and {number:,} were read of it:"
            " it serves another repository now"
        )


def landings(entries: Iterable[Entry]) -> Iterator[LandingEntry]:
    """Those of some entries that are landings."""
    return (entry for entry in entries if entry["kind"] == LANDING)


class Memory:
    """A file that remembers up to where the log was told, by its last landing's entry and id."""

    def __init__(self, place: Path):
        self.place = place
        self.last: dict[str, Any] | None = None

    def load(self, server: Server) -> int | None:
        """The number of the next entry, or None where nothing is remembered yet."""
        try:
            document = parsed(self.place.read_bytes())
        except FileNotFoundError:
            return None
        except OSError as fault:
            raise Trouble(f"{self.place}: {fault.strerror}") from None
        if not document or not is_memory(document):
            raise Trouble(f"{self.place} isn't a file that `jarrah watch` wrote")
        self.last = document["last"]
        if self.last and not self.is_there(server):
            raise Trouble(
                f"{self.place} remembers another repository's landing,"
                f" {self.last.get('id')}: remove it to begin anew"
            )
        following: int = document["next"]
        return following

    def is_there(self, server: Server) -> bool:
        """Whether the server has the last landing where it was."""
        assert self.last
        entries = server.log(self.last["entry"]).entries[:1]
        return [(one["kind"], one["ids"][-1]) for one in landings(entries)] == [
            (LANDING, self.last["id"])
        ]

    def keep(self, number: int, event: Event | None = None) -> None:
        """Remembers the next entry's number, and the last landing; whole or not at all."""
        if event:
            self.last = {"entry": event.entry, "id": event.id}
        beside = self.place.with_name(f"{self.place.name}.new")
        try:
            with beside.open("w", encoding="utf-8") as file:
                file.write(json.dumps({"next": number, "last": self.last}) + "\n")
                file.flush()
                os.fsync(file.fileno())
            os.replace(beside, self.place)
        except OSError as fault:
            raise Trouble(f"{self.place}: {fault.strerror}") from None


def is_memory(document: dict[str, Any]) -> bool:
    """Whether a document is one that a memory keeps."""
    number, last = document.get("next"), document.get("last")
    if not isinstance(number, int) or number < 0 or not isinstance(last, (dict, type(None))):
        return False
    return last is None or (isinstance(last.get("entry"), int) and is_id(str(last.get("id"))))
