"""The server's log with the drafts that were landed, kept beside the mirror."""

from __future__ import annotations

from pathlib import Path

from ..history.log_cache import CachedLog
from ..net.answers import Entry
from ..net.server import Server


class LandedLog(CachedLog):
    """A log that knows what became of each draft on each bookmark."""

    def __init__(self, server: Server, place: Path):
        super().__init__(server)
        self.place = place

    def forget(self) -> None:
        super().forget()
        self.drafts: dict[tuple[str, str], str] = {}
        """The last changeset of a landing, by its bookmark and its draft."""
        self.last: Entry | None = None

    def take(self, entry: Entry) -> None:
        super().take(entry)
        self.last = entry
        if entry["kind"] == "landing":
            self.drafts[entry["name"], entry["draft"]] = entry["ids"][-1]

    def read_on(self) -> None:
        """Reads the entries that are new. Where the last one isn't the server's any more, which
        a crash there can bring, all is read anew."""
        if self.is_loaded and self.last and self.last["number"] == self.next - 1:
            page = self.server.log(self.next - 1)
            if page.entries[:1] != [self.last]:
                self.forget()
            elif page.total == self.next:
                return
        super().read_on()
