"""The dates of changesets, each read from the server once and kept beside the user's cache."""

from __future__ import annotations

from ..formats.paths import is_id
from ..net.server import Server
from .log_cache import cache_folder, opened

Date = tuple[int, int]
"""Seconds since 1970, and the offset from UTC in seconds."""


class Dates:
    """Dates by the ids of changesets, which no other changeset has, on no server."""

    def __init__(self, server: Server):
        self.server = server
        self.place = cache_folder() / "dates"
        self.known: dict[str, Date] = {}
        with opened(self.place, waits=True) as file:
            if file:
                file.seek(0)
                self.known = dict(filter(None, map(read, file)))

    def of(self, id: str) -> Date:
        """The date of a changeset."""
        if id not in self.known:
            changeset = self.server.changeset(id)
            self.known[id] = (changeset.seconds, changeset.offset)
            with opened(self.place, waits=True) as file:
                if file:
                    file.write(f"{id} {changeset.seconds} {changeset.offset}\n".encode())
        return self.known[id]


def read(line: bytes) -> tuple[str, Date] | None:
    """The id and the date of a line, or None where it was cut off."""
    words = line.decode("ascii", "replace").split()
    if len(words) != 3 or not line.endswith(b"\n") or not is_id(words[0]):
        return None
    try:
        return words[0], (int(words[1]), int(words[2]))
    except ValueError:
        return None
