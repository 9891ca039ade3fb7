"""Trees of changesets that the server doesn't have yet, beside those that are folded."""

from __future__ import annotations

import random
import unittest

from jarrah_client.formats.changesets import Changeset, File
from jarrah_client.formats.paths import is_comparable
from jarrah_client.refusals import Refused
from jarrah_client.trees.changed import ChangedTree
from jarrah_client.trees.differences import by_changes, differences
from jarrah_client.trees.folded import FoldedTree

NAMES = ("a", "b", "c")
PATHS = [
    *NAMES,
    *(f"{one}/{two}" for one in NAMES for two in NAMES),
    *(f"{one}/{two}/{three}" for one in NAMES for two in NAMES for three in NAMES),
]


def told(call, *words):
    """What a call answers, or the code of its refusal."""
    try:
        return call(*words)
    except Refused as refusal:
        return refusal.code


class Changed(unittest.TestCase):
    """Random changes, one on another, of few paths, so that files and directories meet."""

    def setUp(self) -> None:
        self.random = random.Random(5)

    def changeset(self, number: int) -> Changeset:
        changes: dict[str, File | None] = {}
        for path in self.random.sample(PATHS, 4):
            is_free = all(not is_comparable(path, it) for it, file in changes.items() if file)
            if is_free and self.random.random() < 0.6:
                changes[path] = File(f"{number:064x}", number)
            else:
                changes.setdefault(path, None)
        return Changeset(("0" * 64,), "a", 0, 0, "", changes)

    def line(self) -> tuple[FoldedTree, FoldedTree, ChangedTree]:
        """A folded tree, and what some changesets make of it: folded too, and changed."""
        first = FoldedTree()
        first.apply(self.changeset(0))
        first.apply(self.changeset(1))
        folded, tree = first.copy(), first
        for number in range(2, 2 + self.random.randrange(1, 4)):
            made = self.changeset(number)
            folded.apply(made)
            tree = ChangedTree(tree, made)
        return first, folded, tree

    def test_files_and_lists(self):
        for _ in range(300):
            _, folded, tree = self.line()
            self.assertEqual(list(tree.files()), list(folded.files()))
            self.assertEqual(tree.count(), folded.count())
            for path in PATHS:
                self.assertEqual(told(tree.file, path), told(folded.file, path), path)
                self.assertEqual(told(tree.list, path), told(folded.list, path), path)
            self.assertEqual(list(tree.list("").items()), list(folded.list("").items()))

    def test_differences(self):
        for _ in range(300):
            first, folded, tree = self.line()
            wanted = differences(first, folded)
            self.assertEqual(differences(first, tree), wanted)
            found = {one for one in by_changes(first, tree, None) if one[1] != one[2]}
            self.assertEqual(found, set(wanted))
