"""Folded trees and histories, against the stand-in's, on random lines of changesets."""

import random
import unittest
from dataclasses import replace

from jarrah_client.formats.changesets import Changeset, File, Kind, SelfConflict, digest
from jarrah_client.formats.nodes import Directory, decode_fsnode
from jarrah_client.refusals import Refused
from jarrah_client.trees.folded import FoldedTree, folded_history

from ..formats.test_encoding import EMPTY
from ..stand_in.manifests import fsnodes
from ..stand_in.repository import Repository
from ..stand_in.spelling import Refusal

PATHS = ["a", "a/b", "a/b/c", "a/d", "a.b", "e", "e/f/g/h", "e/f", "ü/x", "ü"]
CONTENTS = [b"", b"abc", b"other"]
LENGTH = 60


def random_changeset(chooser: random.Random, parent: str | None, number: int) -> Changeset:
    """A changeset of some sets and deletes, without a self-conflict."""
    while True:
        changes: dict[str, File | None] = {}
        for path in sorted(chooser.sample(PATHS, chooser.randint(0, 3))):
            data = chooser.choice(CONTENTS)
            file = File(digest(data), len(data), chooser.choice(list(Kind)))
            changes[path] = chooser.choice([file, file, None])
        parents = (parent,) if parent else ()
        found = replace(EMPTY, parents=parents, message=str(number), changes=changes)
        try:
            found.encoded
        except SelfConflict:
            continue
        return found


class RandomLines(unittest.TestCase):
    """Each changeset of lines in which files become folders and back."""

    def test_against_the_definitions(self):
        for seed in range(12):
            repository = Repository()
            for data in CONTENTS:
                repository.put_content(data)
            self.follow(repository, random.Random(seed))

    def follow(self, repository: Repository, chooser: random.Random) -> None:
        """Compares trees and histories after each changeset of a line."""
        tree = FoldedTree()
        line: list[Changeset] = []
        for number in range(LENGTH):
            line.append(random_changeset(chooser, line[-1].id if line else None, number))
            repository.put_changeset(line[-1].encoded)
            tree.apply(line[-1])
            self.assert_same_tree(tree, repository, line[-1].id)
        for path in PATHS:
            self.assert_same_history(repository, line, path)

    def assert_same_tree(self, tree: FoldedTree, repository: Repository, id: str) -> None:
        wanted = repository.manifests.past(id).tree
        found = {path: (f.content, f.size, f.kind) for path, f in tree.files()}
        self.assertEqual(found, {p: (s.content, s.size, s.kind) for p, s in wanted.items()})
        self.assertEqual(tree.count(), len(wanted))
        for directory, data in fsnodes(wanted).items():
            entries = decode_fsnode(data).entries.items()
            listed = {n: None if isinstance(e, Directory) else e for n, e in entries}
            self.assertEqual(list(tree.list(directory).items()), list(listed.items()))

    def assert_same_history(self, repository: Repository, line: list[Changeset], path: str) -> None:
        try:
            wanted = repository.manifests.history(line[-1].id, path)
        except Refusal as refusal:
            with self.assertRaises(Refused) as caught:
                folded_history(line, path)
            self.assertEqual(caught.exception.code, refusal.code)
            return
        self.assertEqual(folded_history(line, path), wanted)
