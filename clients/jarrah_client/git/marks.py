"""The file of marks: what became what, so that an import or an export can go on."""

from __future__ import annotations

import re
from pathlib import Path
from typing import TextIO

from ..net.server import Trouble

IMPORTED = "jarrah marks 1\n"
"""Begins a file of commits with their changesets."""
EXPORTED = "jarrah exported 1\n"
"""Begins a file of changesets with their commits."""
WORD = re.compile(r"[0-9a-f]{40,64}", re.ASCII)


class Marks:
    """Ids with what they became, in a file that grows by one line for each."""

    def __init__(self, place: Path, header: str = IMPORTED):
        self.place = place
        try:
            place.parent.mkdir(parents=True, exist_ok=True)
            self.file = place.open("a+", encoding="ascii")
        except OSError as fault:
            raise Trouble(f"{place}: {fault.strerror}") from None
        try:
            self.known, length = read(self.file, place, header)
        except UnicodeDecodeError:
            raise Trouble(f"{place} is no file of marks") from None
        self.file.truncate(length)
        if not length:
            self.file.write(header)

    def add(self, old: str, new: str) -> None:
        """Keeps what an id became."""
        self.known[old] = new
        self.file.write(f"{old} {new}\n")
        self.file.flush()

    def close(self) -> None:
        self.file.close()


def read(file: TextIO, place: Path, header: str) -> tuple[dict[str, str], int]:
    """The marks of a file, and the length up to a last line that was cut off."""
    file.seek(0)
    data = file.read()
    if data and not data.startswith(header):
        raise Trouble(f"{place} is no file of marks")
    whole = data[: data.rfind("\n") + 1]
    marks: dict[str, str] = {}
    for line in whole.splitlines()[1:]:
        old, _, new = line.partition(" ")
        if not WORD.fullmatch(new):
            raise Trouble(f"{place} has a line that is no mark: {line[:80]!r}")
        marks[old] = new
    return marks, len(whole)
