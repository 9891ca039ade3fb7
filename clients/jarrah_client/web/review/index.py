"""The uploads of a server, read from the newest back as far as somebody asks, and what became of
them: drafts, or changesets that a landing made or a bookmark has."""

from __future__ import annotations

import threading
from collections.abc import Iterator
from dataclasses import dataclass, field

from ...formats.changesets import Changeset, decode
from ...formats.fields import BadEncoding, digest
from ...terminal.output import title
from ...net.pipeline import answers
from ...net.server import BadAnswer, Server
from .budget import Budget
from .uploaded import DraftLanding, Shown

MOST_KEPT = 20_000
"""So many uploads are looked at, the newest; what is older isn't told of."""
CHUNK = 64
"""So many are read together; between two the time is looked at."""
MOST_TITLE = 500
MOST_STACK = 100
"""So many changesets a landing takes, and so a stack has."""
MOST_VERSIONS = 50
"""Where more drafts have the same author, date and title, they aren't taken for versions."""


@dataclass(frozen=True)
class Upload:
    """An uploaded changeset without its changes."""

    entry: int
    id: str
    parents: tuple[str, ...]
    author: str
    seconds: int
    offset: int
    title: str
    changes: int
    """How many paths it sets and deletes."""

    @property
    def words(self) -> tuple[str, int, int, str]:
        """What an amended or rebased draft keeps of the one before."""
        return self.author, self.seconds, self.offset, self.title


@dataclass(frozen=True)
class Became:
    """What a draft landed as."""

    landing: DraftLanding
    id: str


@dataclass
class Window:
    """The uploads from an entry on, and what became of them."""

    shown: Shown
    uploads: dict[str, Upload]
    """By their ids, the oldest first."""
    is_whole: bool
    """Whether they are all that there are."""
    is_full: bool
    """Whether no more are looked at."""
    on_bookmarks: set[str] = field(default_factory=set)
    became: dict[str, list[Became]] = field(default_factory=dict)
    """What drafts landed as, the first landing first."""
    later: dict[str, str] = field(default_factory=dict)
    """Drafts of which a later upload is another version, with the last such."""
    above: dict[str, int] = field(default_factory=dict)
    """How many open drafts stand directly on one."""

    @property
    def start(self) -> int:
        """The entry from which on all uploads are known."""
        return 0 if self.is_whole else next((it.entry for it in self.uploads.values()), 1 << 63)

    def is_draft(self, id: str) -> bool:
        """Whether an upload is on no bookmark, and no landing made it."""
        return id in self.uploads and id not in self.shown.landed and id not in self.on_bookmarks

    def is_settled(self, id: str) -> bool:
        """Whether a changeset is known to be more than a draft."""
        heads = self.shown.bookmarks.values()
        return id in self.shown.landed or id in self.on_bookmarks or id in heads

    def is_open(self, id: str) -> bool:
        """Whether a draft hasn't landed, and has no later version."""
        return self.is_draft(id) and id not in self.became and id not in self.later

    def below(self, id: str) -> Iterator[Upload]:
        """The drafts that a draft stands on, the next one first, as far as a stack goes."""
        at = self.uploads.get(id)
        for _ in range(MOST_STACK - 1):
            if at is None or not at.parents or not self.is_draft(at.parents[0]):
                return
            at = self.uploads[at.parents[0]]
            yield at

    def versions(self, id: str) -> list[Upload]:
        """Drafts of the same author, date and title, the newest first, itself among them."""
        one = self.uploads.get(id)
        if one is None or not self.is_draft(id):
            return []
        alike = [it for it in self.uploads.values() if it.words == one.words]
        found = [it for it in alike if self.is_draft(it.id)]
        if len(found) > MOST_VERSIONS:
            return [one]
        stack = {it.id for it in self.below(id)}
        found = [it for it in found if it.id not in stack]
        return [it for it in reversed(found) if all(low.id != id for low in self.below(it.id))]


class UploadIndex:
    """What was read of uploads, by their ids. One reads at a time."""

    def __init__(self) -> None:
        self.known: dict[str, Upload] = {}
        self.turn = threading.Lock()
        self.last: Window | None = None

    def window(self, shown: Shown) -> Window:
        """The uploads that are known without a gap, from the newest back."""
        with self.turn:
            return self.known_window(shown)

    def read_on(self, server: Server, shown: Shown, count: int, budget: Budget) -> bool:
        """Reads so many further ones, the newest first; false where there are none to read."""
        with self.turn:
            missing = [
                (entry, id)
                for entry, id in reversed(shown.uploads[-MOST_KEPT:])
                if id not in self.known
            ][:count]
            for at in range(0, len(missing), CHUNK):
                if at and budget.is_over():
                    break
                self.read(server, missing[at : at + CHUNK])
            return bool(missing)

    def read(self, server: Server, wanted: list[tuple[int, str]]) -> None:
        """Reads some changesets together."""
        bodies = answers(server, [f"/changeset/{id}" for _, id in wanted])
        for (entry, id), data in zip(wanted, bodies):
            if digest(data) != id:
                raise BadAnswer(f"{server.url} sent other bytes than those of the changeset {id}")
            try:
                self.known[id] = upload_of(entry, decode(data))
            except BadEncoding as fault:
                raise BadAnswer(f"{server.url} sent no changeset for {id}: {fault}") from None

    def known_window(self, shown: Shown) -> Window:
        """The same as `window`, which is kept until something is read."""
        recent = shown.uploads[-MOST_KEPT:]
        found: list[Upload] = []
        for _, id in reversed(recent):
            if id not in self.known:
                break
            found.append(self.known[id])
        if len(self.known) > len(recent):
            self.forget_but(recent)
        last = self.last
        if last and last.shown is shown and len(last.uploads) == len(found):
            return last
        uploads = {one.id: one for one in reversed(found)}
        is_full = len(found) == MOST_KEPT < len(shown.uploads)
        window = Window(shown, uploads, len(found) == len(shown.uploads), is_full)
        settle(window)
        self.last = window
        return window

    def forget_but(self, recent: list[tuple[int, str]]) -> None:
        """Lets go what isn't among the uploads that are looked at."""
        kept = {id for _, id in recent}
        self.known = {id: one for id, one in self.known.items() if id in kept}


def upload_of(entry: int, changeset: Changeset) -> Upload:
    """What is kept of a changeset."""
    return Upload(
        entry,
        changeset.id,
        changeset.parents,
        changeset.author,
        changeset.seconds,
        changeset.offset,
        title(changeset.message)[:MOST_TITLE],
        len(changeset.changes),
    )


def settle(window: Window) -> None:
    """Finds what became of a window's uploads."""
    window.on_bookmarks = on_bookmarks(window)
    find_landed(window)
    find_later(window)
    for one in window.uploads.values():
        if one.parents and window.is_open(one.id):
            window.above[one.parents[0]] = window.above.get(one.parents[0], 0) + 1


def on_bookmarks(window: Window) -> set[str]:
    """The uploads that bookmarks reach through parents. What lies before the window's start isn't
    followed: nothing that stands before something is known after it."""
    shown, start = window.shown, window.start
    waiting, seen = list(shown.bookmarks.values()), set(shown.bookmarks.values())
    found: set[str] = set()
    while waiting:
        id = waiting.pop()
        parents: tuple[str, ...] = ()
        if id in window.uploads:
            found.add(id)
            parents = window.uploads[id].parents
        elif shown.landed.get(id, -1) >= start:
            parents = (shown.parents[id],)
        waiting += [parent for parent in parents if parent not in seen]
        seen.update(parents)
    return found


def find_landed(window: Window) -> None:
    """Finds which drafts the landings took, and what each became."""
    for landing in window.shown.stacks:
        at = window.uploads.get(landing.draft)
        for id in reversed(landing.ids):
            if at is None:
                break
            if at.id != id:
                window.became.setdefault(at.id, []).append(Became(landing, id))
            at = window.uploads.get(at.parents[0]) if at.parents else None


def find_later(window: Window) -> None:
    """Finds drafts that were amended or rebased: a later one has the same author, date and title,
    and doesn't stand on them."""
    groups: dict[tuple[str, int, int, str], list[Upload]] = {}
    for one in window.uploads.values():
        if window.is_draft(one.id):
            groups.setdefault(one.words, []).append(one)
    for group in groups.values():
        if not 2 <= len(group) <= MOST_VERSIONS:
            continue
        stands_on = {one.id: {low.id for low in window.below(one.id)} for one in group}
        for at, one in enumerate(group):
            newer = [it for it in group[at + 1 :] if one.id not in stands_on[it.id]]
            newer = [it for it in newer if it.id not in stands_on[one.id]]
            if newer:
                window.later[one.id] = newer[-1].id
