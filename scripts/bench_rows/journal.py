"""Files of repositories as docs/FORMATS.md has them, so that a row begins where it has to."""

from __future__ import annotations

from pathlib import Path

from jarrah_client.formats.changesets import Changeset, File
from jarrah_client.formats.fields import digest

MARK = b"BONSAI\x00\x02"
CAPACITY = 4_294_967_296
ROOT = Changeset((), "a bench", 0, 0, "")
"""The empty changeset that stands under all others."""


class Journal:
    """A file that is being written. It holds ROOT from its beginning on."""

    def __init__(self, file: Path):
        self.file = file
        self.out = file.open("wb")
        self.count = 0
        """How many entries it holds."""
        self.out.write(MARK + CAPACITY.to_bytes(8, "big"))
        self.changeset(ROOT)

    def __enter__(self) -> Journal:
        return self

    def __exit__(self, *_: object) -> None:
        self.out.write(b"\x00")
        self.out.close()

    def record(self, payload: bytes) -> None:
        self.out.write(b"\x01" + len(payload).to_bytes(4, "big") + payload)
        self.count += 1

    def content(self, data: bytes) -> File:
        """A stored content, as a file of a tree."""
        self.record(b"\x42" + data)
        return File(digest(data), len(data))

    def changeset(self, changeset: Changeset) -> Changeset:
        self.record(changeset.encoded)
        return changeset

    def bookmark(self, name: str, to: str) -> None:
        """A bookmark that wasn't there."""
        self.record(b"\x4d" + named(name) + b"\x00\x01" + bytes.fromhex(to))

    def move(self, name: str, old: str, new: str) -> None:
        """A bookmark that was at one changeset and is at another now."""
        ids = b"".join(b"\x01" + bytes.fromhex(id) for id in (old, new))
        self.record(b"\x4d" + named(name) + ids)

    def policy(self, caller: str, text: bytes) -> None:
        """A policy, after which a bookmark's move and a landing would tell their callers."""
        self.record(b"\x41" + named(caller) + b"\x52" + text)

    def landing(self, name: str, old: str, draft: Changeset) -> Changeset:
        """The landing of a draft, a stack of one, on the bookmark's head. Gives the new head."""
        new = drafted(old, draft.message, draft.changes)
        ids = bytes.fromhex(old) + bytes.fromhex(draft.id)
        spelling = new.encoded
        count = (1).to_bytes(2, "big") + len(spelling).to_bytes(4, "big")
        self.record(b"\x4c" + named(name) + ids + count + spelling)
        return new


def named(name: str) -> bytes:
    return bytes((len(name),)) + name.encode()


def drafted(parent: str, message: str, changes: dict[str, File | None]) -> Changeset:
    """A changeset on a parent, by the author of all."""
    return Changeset((parent,), ROOT.author, 0, 0, message, changes)
