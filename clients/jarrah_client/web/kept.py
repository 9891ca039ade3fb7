"""What the local program keeps between requests, which run at once."""

from __future__ import annotations

import threading
from collections import OrderedDict
from collections.abc import Callable, Hashable
from typing import Generic, TypeVar

from ..formats.changesets import Changeset

Key = TypeVar("Key", bound=Hashable)
Value = TypeVar("Value")


class Kept(Generic[Key, Value]):
    """Values by their keys, those used last; a value may be made twice where two ask at once."""

    def __init__(self, most: int):
        self.most = most
        self.values: OrderedDict[Key, Value] = OrderedDict()
        self.turn = threading.Lock()

    def get(
        self, key: Key, make: Callable[[], Value], keeps: Callable[[Value], bool] = lambda _: True
    ) -> Value:
        """The value of a key, which is made where it isn't there, and kept unless it isn't to be."""
        with self.turn:
            if key in self.values:
                self.values.move_to_end(key)
                return self.values[key]
        made = make()
        if not keeps(made):
            return made
        with self.turn:
            found = self.values.setdefault(key, made)
            if len(self.values) > self.most:
                self.values.popitem(last=False)
        return found


class Line:
    """The ids of a changeset and its ancestors, the newest first, as far as they were read."""

    def __init__(self, head: str):
        self.ids: list[str] = []
        self.following: str | None = head
        self.turn = threading.Lock()

    def reach(self, count: int, read: Callable[[str], Changeset]) -> None:
        """Reads until there are so many, or no more."""
        with self.turn:
            while self.following is not None and len(self.ids) < count:
                parent = read(self.following).parent
                self.ids.append(self.following)
                self.following = parent

    @property
    def total(self) -> int | None:
        """How many there are, or None where that isn't known yet."""
        return len(self.ids) if self.following is None else None
