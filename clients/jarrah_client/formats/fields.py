"""A reader of fields that tells the place of the first one that is cut off or breaks its rule."""

from __future__ import annotations

import hashlib
from typing import IO

READ_BYTES = 1 << 18
"""What goes through a file is read in pieces of so many bytes."""


class BadEncoding(ValueError):
    """The bytes spell nothing; `place` is where the first faulty field begins."""

    def __init__(self, place: int):
        super().__init__(f"the bytes break the format at byte {place:,}")
        self.place = place


def digest(data: bytes) -> str:
    """The SHA-256 (FIPS 180-4) of the bytes, in hex."""
    return hashlib.sha256(data).hexdigest()


def digest_of(file: IO[bytes]) -> str:
    """The same of what a file has from where it is."""
    found = hashlib.sha256()
    while data := file.read(READ_BYTES):
        found.update(data)
    return found.hexdigest()


class Fields:
    """Takes fields off the front of some bytes. Numbers stand high byte first."""

    def __init__(self, data: bytes):
        self.data = data
        self.place = 0
        self.begin = 0

    def take(self, count: int) -> bytes:
        """The next field, of `count` bytes."""
        self.begin = self.place
        if count > len(self.data) - self.place:
            raise BadEncoding(self.begin)
        self.place += count
        return self.data[self.begin : self.place]

    def number(self, count: int, *, signed: bool = False) -> int:
        """The next field, a number of `count` bytes."""
        return int.from_bytes(self.take(count), "big", signed=signed)

    def number_in(self, count: int, least: int, most: int) -> int:
        """A number that has to lie between two bounds."""
        value = self.number(count)
        self.require(least <= value <= most)
        return value

    def id(self) -> str:
        """An id, in hex."""
        return self.take(32).hex()

    def text(self, count: int) -> str:
        """The next field, text of `count` bytes."""
        data = self.take(count)
        try:
            return data.decode()
        except UnicodeDecodeError:
            raise BadEncoding(self.begin) from None

    def marks(self, mark: int, version: int) -> None:
        """The mark and the version, one byte each."""
        self.require(self.number(1) == mark)
        self.require(self.number(1) == version)

    def require(self, holds: bool) -> None:
        """Refuses the field that was read last unless its rule holds."""
        if not holds:
            raise BadEncoding(self.begin)

    def end(self) -> None:
        """Refuses bytes after the last field."""
        if self.place != len(self.data):
            raise BadEncoding(self.place)
