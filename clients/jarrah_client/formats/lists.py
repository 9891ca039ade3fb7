"""Lists of changesets that one request takes, as docs/API.md has them."""

from __future__ import annotations

from collections.abc import Iterable, Iterator, Sequence

from .changesets import Changeset

MOST_LISTED = 100
MOST_LIST_BYTES = 1_048_576
LENGTH_BYTES = 4


class Batch:
    """Changesets that go together, as long as one request holds them."""

    def __init__(self) -> None:
        self.changesets: list[Changeset] = []
        self.size = 0

    def has_room(self, more: Sequence[Changeset]) -> bool:
        """Whether these fit in too."""
        count = len(self.changesets) + len(more)
        return count <= MOST_LISTED and self.size + listed_size(more) <= MOST_LIST_BYTES

    def add(self, more: Sequence[Changeset]) -> None:
        """Takes these in, whether they fit or not."""
        self.changesets += more
        self.size += listed_size(more)


def listed_size(changesets: Iterable[Changeset]) -> int:
    """The bytes that changesets take in a list."""
    return sum(LENGTH_BYTES + len(one.encoded) for one in changesets)


def encode_list(changesets: Iterable[Changeset]) -> bytes:
    """Each changeset's length and its spelling."""
    spellings = (one.encoded for one in changesets)
    return b"".join(len(it).to_bytes(LENGTH_BYTES, "big") + it for it in spellings)


def fits(changesets: Sequence[Changeset]) -> bool:
    """Whether one request holds them. One that is as long as a changeset may be goes alone."""
    return Batch().has_room(changesets)


def batches(changesets: Iterable[Changeset]) -> Iterator[list[Changeset]]:
    """Changesets in as few parts as requests hold; one that no list holds is a part alone."""
    batch = Batch()
    for one in changesets:
        if batch.changesets and not batch.has_room([one]):
            yield batch.changesets
            batch = Batch()
        batch.add([one])
    if batch.changesets:
        yield batch.changesets
