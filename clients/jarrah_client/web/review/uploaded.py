"""The update log as a review needs it: which changesets were uploaded, and what landed of them."""

from __future__ import annotations

from dataclasses import dataclass

from ...history.log_cache import CachedLog
from ...net.answers import Entry, LandingEntry


@dataclass(frozen=True)
class DraftLanding:
    """A landing by its draft, the last of a stack of as many drafts as `ids` has."""

    draft: str
    bookmark: str
    entry: int
    ids: tuple[str, ...]
    """What the drafts became, in the order of the stack."""
    moment: int | None
    """Seconds since 1970; None where the log doesn't tell it."""
    caller: str | None
    """Who asked; None where no policy was held, and so the log doesn't tell it."""


class UploadLog(CachedLog):
    """The log, with the entry of each uploaded changeset, and each landing by its draft."""

    def forget(self) -> None:
        """Begins anew."""
        super().forget()
        self.uploads: list[tuple[int, str]] = []
        """The number of each entry that tells a changeset, and its id, by rising numbers."""
        self.stacks: list[DraftLanding] = []
        self.last: Shown | None = None

    def take(self, entry: Entry) -> None:
        """Keeps what an entry says."""
        super().take(entry)
        if entry["kind"] == "changeset":
            self.uploads.append((entry["number"], entry["id"]))
        elif entry["kind"] == "landing":
            self.stacks.append(landing_of(entry))

    def shown(self) -> Shown:
        """What is known now; what is read later doesn't change it."""
        if self.last is None or self.last.entries != self.next:
            self.last = self.copy()
        return self.last

    def copy(self) -> Shown:
        """The same, copied anew."""
        return Shown(
            self.next,
            list(self.uploads),
            list(self.stacks),
            dict(self.bookmarks),
            {id: landing.entry for id, landing in self.landings.items()},
            dict(self.parents),
        )


@dataclass(frozen=True)
class Shown:
    """The log at one moment."""

    entries: int
    uploads: list[tuple[int, str]]
    stacks: list[DraftLanding]
    bookmarks: dict[str, str]
    landed: dict[str, int]
    """Changesets that a landing made, with the entry of the first."""
    parents: dict[str, str]
    """The parent of each of them."""


def landing_of(entry: LandingEntry) -> DraftLanding:
    """A landing, from its entry."""
    who = (entry.get("moment"), entry.get("caller"))
    ids = tuple(entry["ids"])
    return DraftLanding(entry["draft"], entry["name"], entry["number"], ids, *who)
