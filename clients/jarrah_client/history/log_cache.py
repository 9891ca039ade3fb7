"""The update log kept beside the user's cache, so that it is read on and never read again."""

from __future__ import annotations

import io
import json
import os
from collections import deque
from collections.abc import Iterator, Mapping, Sequence
from contextlib import contextmanager, suppress
from pathlib import Path
from typing import Any, BinaryIO, cast

from ..formats.fields import digest
from ..net.answers import Entry
from ..net.server import Server
from ..terminal.progress import Progress
from .repository import Log

VERSION = 1
TAIL = 32
"""So many last entries have to be the server's still, or it serves another repository now."""
CONTENTS = ("content", "whole")
"""The kinds of entries that are read over: no command asks for them by the log."""


class CachedLog(Log):
    """A log that begins with what the last command read.

    The file has an entry a line, but for contents, and behind each reading a line with the number
    of the next entry and a digest of the last ones. What follows the last such line is cut off.
    """

    def __init__(self, server: Server):
        self.place = cache_folder() / "logs" / digest(server.url.encode())[:32]
        self.tail: deque[str] = deque(maxlen=TAIL)
        self.is_loaded = False
        super().__init__(server)

    def read_on(self) -> None:
        if self.is_loaded:
            super().read_on()
            return
        with opened(self.place) as file:
            ending = self.load(file or snapshot(self.place))
            fresh: list[Mapping[str, object]] = []
            if not self.confirm(ending):
                fresh = [{"log": VERSION, "server": self.server.url}]
            kept = self.next
            fresh += self.fresh()
            if file and (self.next > kept or fresh):
                self.write(file, fresh)
        self.is_loaded = True

    def fresh(self) -> list[Entry]:
        """The new entries, but for contents."""
        found = []
        with Progress("entries", None) as progress:
            for entry in self.entries():
                self.tail.append(canonical(entry))
                progress.step()
                if entry["kind"] not in CONTENTS:
                    found.append(entry)
        return found

    def load(self, file: BinaryIO) -> str | None:
        """Takes what the file holds, and gives the digest of its last entries."""
        file.seek(0)
        ending, length = None, 0
        waiting: list[dict[str, Any]] = []
        try:
            for line in file:
                one = parsed(line)
                if one is None:
                    break
                if "next" not in one:
                    waiting.append(one)
                    continue
                for entry in waiting:
                    if "log" not in entry:
                        self.take(cast(Entry, entry))
                self.next, ending, length = int(one["next"]), str(one["tail"]), file.tell()
                waiting.clear()
        except (KeyError, TypeError, ValueError, IndexError):
            ending, length = None, 0
        file.truncate(length)
        return ending

    def confirm(self, ending: str | None) -> bool:
        """Whether the server has what was kept; else all is forgotten."""
        if ending is None:
            self.forget()
            return False
        start = max(0, self.next - TAIL)
        entries = self.server.log(start).entries[: self.next - start]
        self.tail.extend(canonical(entry) for entry in entries)
        if len(entries) == self.next - start and self.ending() == ending:
            return True
        self.forget()
        return False

    def forget(self) -> None:
        """Begins anew."""
        super().forget()
        self.tail.clear()

    def ending(self) -> str:
        """The digest of the last entries."""
        return digest("\n".join(self.tail).encode())

    def write(self, file: BinaryIO, lines: Sequence[Mapping[str, object]]) -> None:
        """Writes lines, and where they end."""
        if lines and "log" in lines[0]:
            file.seek(0)
            file.truncate(0)
        file.seek(0, os.SEEK_END)
        lines = [*lines, {"next": self.next, "tail": self.ending()}]
        with suppress(OSError):
            file.write("".join(canonical(line) + "\n" for line in lines).encode())


def cache_folder() -> Path:
    """The folder of this client in the user's cache (`XDG_CACHE_HOME`)."""
    top = os.environ.get("XDG_CACHE_HOME")
    return (Path(top) if top else Path.home() / ".cache") / "jarrah"


def snapshot(place: Path) -> BinaryIO:
    """What a file has now that another program holds; nothing where there is none."""
    try:
        return io.BytesIO(place.read_bytes())
    except OSError:
        return io.BytesIO()


@contextmanager
def opened(place: Path, *, waits: bool = False) -> Iterator[BinaryIO | None]:
    """The file, held alone; None where it can't be had, and then nothing is kept.

    Another program's hold is waited for where that is asked for, which is for short ones.
    """
    file = None
    with suppress(OSError, RuntimeError):
        place.parent.mkdir(parents=True, exist_ok=True)
        file = place.open("a+b")
        if not lock(file, waits=waits):
            file.close()
            file = None
    try:
        yield file
    finally:
        if file:
            with suppress(OSError):
                file.close()


def lock(file: BinaryIO, *, waits: bool = False) -> bool:
    """Holds the file until it is closed; false where another program holds it."""
    try:
        import fcntl
    except ImportError:
        return True
    try:
        fcntl.flock(file, fcntl.LOCK_EX | (0 if waits else fcntl.LOCK_NB))
    except OSError:
        return False
    return True


def canonical(entry: Mapping[str, object]) -> str:
    """One spelling of an entry."""
    return json.dumps(entry, sort_keys=True, separators=(",", ":"))


def parsed(line: bytes) -> dict[str, Any] | None:
    """The document of a whole line, or None."""
    try:
        one = json.loads(line) if line.endswith(b"\n") else None
    except ValueError:
        return None
    return one if isinstance(one, dict) else None
