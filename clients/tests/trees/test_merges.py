"""Merges: what is refused, trees, nodes and histories, by rows and against plain definitions."""

from __future__ import annotations

import random
from dataclasses import replace
from functools import cache

from jarrah_client.formats.changesets import Changeset, CopySource, File, Kind, SelfConflict
from jarrah_client.formats.fields import digest
from jarrah_client.formats.nodes import Unode, decode_unode
from jarrah_client.net.server import Server
from jarrah_client.refusals import Refused
from jarrah_client.trees.folded import folded, folded_history, folded_path_log
from jarrah_client.trees.tree import history_of, tree_of, whole_past

from ..formats.test_encoding import EMPTY
from ..harness import Case, fresh

ABC, NIL, OTHER = b"abc", b"", b"other"
CONTENTS = (ABC, NIL, OTHER)
PATHS = ["a", "a/b", "a/b/c", "a/d", "a.b", "e", "e/f", "e/f/g/h", "ü"]


def file_of(data: bytes, kind: Kind = Kind.REGULAR) -> File:
    return File(digest(data), len(data), kind)


class Merging(Case):
    """A server that takes merges, with an empty root `B`. All changesets are by `a` at second 0."""

    def setUp(self) -> None:
        super().setUp()
        self.server = self.merging()
        self.to = Server(self.server)
        self.addCleanup(self.to.close)
        for data in CONTENTS:
            self.to.put_content(digest(data), data)
        self.base = self.put().id

    def put(self, *parents: str, changes: dict[str, bytes | None] = {}, **words) -> Changeset:
        """Uploads a changeset that sets or deletes some paths."""
        files = {path: None if it is None else file_of(it) for path, it in changes.items()}
        changeset = replace(EMPTY, parents=parents, author="a", changes=files, **words)
        self.to.put_changeset(changeset)
        return changeset

    def assert_refused(self, status: int, code: str, call, *words, **members) -> None:
        with self.assertRaises(Refused) as caught:
            call(*words)
        refusal = caught.exception
        found = (refusal.status, refusal.code, refusal.members)
        self.assertEqual(found, (status, code, members))

    def assert_unresolved(self, path: str, *parents: str, changes: dict = {}) -> None:
        put = lambda: self.put(*parents, changes=changes)  # noqa: E731
        self.assert_refused(422, "unresolved", put, path=path)

    def tree(self, id: str) -> dict[str, bytes]:
        """The contents of a tree's files, which the fold has to have too."""
        files = dict(tree_of(self.to, id).files())
        self.assertEqual(dict(tree_of(self.to, id, fold=True).files()), files)
        known = {digest(data): data for data in CONTENTS}
        return {path: known[file.content] for path, file in files.items()}

    def unode_bytes(self, id: str, path: str = "") -> bytes:
        return self.to.ask("GET", f"/unode/{id}/{path}" if path else f"/unode/{id}")


class Rows(Merging):
    """What is refused, what a merge's tree has, and how its nodes are spelled."""

    def setUp(self) -> None:
        super().setUp()
        self.x = self.put(self.base, changes={"x": ABC}).id
        self.y = self.put(self.base, changes={"y": ABC}).id
        self.x1 = self.put(self.base, changes={"x": NIL}).id

    def test_both_are_there(self):
        merge = self.put(self.x, self.y)
        self.assertEqual(len(merge.encoded), 90)
        self.assertEqual(self.tree(merge.id), {"x": ABC, "y": ABC})
        root = self.unode_bytes(merge.id)
        parents = tuple(digest(self.unode_bytes(it)) for it in (self.x, self.y))
        self.assertEqual((len(root), decode_unode(root).parents), (173, parents))
        self.assertEqual(self.unode_bytes(merge.id, "x"), self.unode_bytes(self.x, "x"))
        self.assertEqual(self.to.history(merge.id, "x"), [self.x])
        before = self.to.log(0).total
        self.put(self.x, self.y)
        self.assertEqual(self.to.log(0).total, before)

    def test_unresolved(self):
        self.assert_unresolved("x", self.x, self.x1)
        merge = self.put(self.x, self.x1, changes={"x": ABC}).id
        node = self.unode_bytes(merge, "x")
        parents = tuple(digest(self.unode_bytes(it, "x")) for it in (self.x, self.x1))
        self.assertEqual((len(node), decode_unode(node).parents), (164, parents))
        self.assertEqual(self.to.history(merge, "x"), [merge, self.x1, self.x])
        dropped = self.put(self.x, self.x1, changes={"x": None}).id
        self.assertEqual(self.tree(dropped), {})

    def test_equal_files_of_different_pasts(self):
        again = self.put(self.base, changes={"x": ABC}, message="again").id
        merge = self.put(again, self.x).id
        node = decode_unode(self.unode_bytes(merge, "x"))
        parents = tuple(digest(self.unode_bytes(it, "x")) for it in (again, self.x))
        self.assertEqual((node.parents, node.linknode), (parents, merge))
        self.assertEqual(self.to.history(merge, "x"), [merge, again, self.x])
        self.assertEqual(history_of(self.to, merge, "x", fold=True), [merge, again, self.x])

    def test_a_node_is_kept_where_parents_have_the_same(self):
        left, right = (self.put(self.x, changes={it: NIL}).id for it in ("a", "b"))
        merge = self.put(left, right).id
        self.assertEqual(self.unode_bytes(merge, "x"), self.unode_bytes(self.x, "x"))
        self.assertEqual(self.to.history(merge, "x"), [self.x])

    def test_kinds_differ(self):
        link = replace(EMPTY, parents=(self.base,), author="a")
        link = replace(link, changes={"x": file_of(ABC, Kind.SYMLINK)})
        self.to.put_changeset(link)
        self.assert_unresolved("x", self.x, link.id)

    def test_the_order_of_an_uploads_refusals(self):
        words = {"parents": (self.x, "0" * 64), "author": "a"}
        unknown = replace(EMPTY, **words)
        self.assert_refused(422, "no-parent", self.to.put_changeset, unknown, id="0" * 64)
        lacking = replace(EMPTY, parents=(self.x, self.x1), changes={"z": File("1" * 64, 0)})
        members = {"id": "1" * 64, "path": "z"}
        self.assert_refused(422, "missing-content", self.to.put_changeset, lacking, **members)
        wrong = replace(EMPTY, parents=(self.x, self.x1), changes={"z": File(digest(ABC), 4)})
        members = {"found": 3, "path": "z", "wanted": 4}
        self.assert_refused(422, "wrong-size", self.to.put_changeset, wrong, **members)
        twice = bytearray(self.put(self.x, self.y).encoded)
        twice[35:67] = twice[3:35]
        words = ("PUT", "/changeset", bytes(twice))
        self.assert_refused(422, "bad-encoding", self.to.ask, *words, place=35)

    def test_a_file_against_a_directory(self):
        self.put(self.base)
        above = self.put(self.base, changes={"d": ABC}).id
        below = self.put(self.base, changes={"d/e/f": NIL, "d.e": NIL}).id
        for sides in ((above, below), (below, above)):
            self.assert_unresolved("d", *sides)
            self.assert_unresolved("d", *sides, changes={"d/e": None})
            for changes, wanted in (
                ({"d": None}, {"d/e/f": NIL}),
                ({"d/e/f": None}, {"d": ABC}),
                ({"d": OTHER}, {"d": OTHER}),
                ({"d/e": OTHER}, {"d/e": OTHER}),
                ({"d/e/g": OTHER}, {"d/e/f": NIL, "d/e/g": OTHER}),
                ({"d": None, "d/e/f": None}, {}),
            ):
                merge = self.put(*sides, changes=changes).id
                self.assertEqual(self.tree(merge), wanted | {"d.e": NIL}, changes)

    def test_the_least_path_is_by_elements(self):
        left = self.put(self.base, changes={"a.b": ABC, "a/b": ABC, "b/c": ABC}).id
        right = self.put(self.base, changes={"a.b": NIL, "a/b": NIL, "b/c/d": ABC}).id
        self.assert_unresolved("a/b", left, right)
        self.assert_unresolved("a.b", left, right, changes={"a/b": NIL})
        rest = {"a/b": NIL, "a.b": NIL}
        self.assert_unresolved("b/c", left, right, changes=rest)
        self.put(left, right, changes=rest | {"b/c": None})

    def test_criss_cross(self):
        first, second = self.put(self.x, self.y).id, self.put(self.y, self.x).id
        self.assertEqual(self.tree(first), self.tree(second))
        both = self.put(first, second).id
        self.assertEqual(self.tree(both), {"x": ABC, "y": ABC})
        self.assertEqual(len(self.unode_bytes(both)), 173)
        first, second = (
            self.put(it, changes={"x": data}).id for it, data in ((first, NIL), (second, OTHER))
        )
        self.assert_unresolved("x", first, second)
        both = self.put(first, second, changes={"x": NIL}).id
        self.assertEqual(self.to.history(both, "x"), [both, second, first, self.x])

    def test_merges_of_merges(self):
        sides = [self.put(self.base, changes={name: NIL}).id for name in "pqrs"]
        left, right = self.put(*sides[:2]).id, self.put(*sides[2:]).id
        top = self.put(left, right).id
        self.assertEqual(self.tree(top), dict.fromkeys("pqrs", NIL))
        self.assertEqual([self.to.history(top, name) for name in "pqrs"], [[it] for it in sides])
        self.assertEqual(self.tree(self.put(top, self.x1).id), dict.fromkeys("pqrsx", NIL))

    def test_roots(self):
        other = self.put(changes={"o": OTHER}).id
        merge = self.put(other, self.x).id
        self.assertEqual(self.tree(merge), {"o": OTHER, "x": ABC})
        self.assertEqual(self.tree(self.put(self.x, self.put(self.x).id).id), {"x": ABC})

    def test_copies(self):
        words = {"copies": {"z": CopySource(1, "y")}}
        merge = self.put(self.x, self.y, changes={"z": ABC}, **words)
        self.assertEqual(self.to.copies(merge.id), words["copies"])

    def test_what_was_taken_away(self):
        left = self.put(self.x, changes={"x": None}).id
        merge = self.put(left, self.x, changes={"x": None}).id
        other = self.put(self.x, left, changes={"x": None}).id
        back = self.put(left, self.x).id
        deleted = lambda id, at="": self.to.ask("GET", f"/deleted/{id}{at}")  # noqa: E731
        self.assertEqual(self.to.path_log(merge, "x"), [left, self.x])
        self.assertEqual(self.to.path_log(other, "x"), [other, self.x])
        self.assertEqual(self.to.path_log(back, "x"), [back, left, self.x])
        self.assertEqual([len(deleted(it)) for it in (merge, other, back)], [41, 41, 7])
        self.assertEqual(deleted(merge, "/x")[3:35].hex(), left)
        self.assertEqual(deleted(other, "/x")[3:35].hex(), other)
        drops = self.put(self.y, self.x, changes={"x": None}).id
        self.assertEqual((self.tree(drops), len(deleted(drops))), ({"y": ABC}, 7))

    def test_landings(self):
        name = fresh()
        merge = self.put(self.x, self.y)
        self.to.move_bookmark(name, None, merge.id)
        draft = self.put(self.x, changes={"x": NIL, "z": NIL}).id
        self.assert_refused(409, "merge-in-range", self.to.land, name, draft, id=merge.id)
        onto = self.put(merge.id, changes={"z": NIL}).id
        self.assertEqual(self.to.land(name, onto).ids, [onto])
        self.assertEqual(self.tree(onto), {"x": ABC, "y": ABC, "z": NIL})
        rebased = self.put(merge.id, changes={"w": NIL}).id
        landed = self.to.land(name, rebased).head
        self.assertEqual(self.tree(landed), {"x": ABC, "y": ABC, "z": NIL, "w": NIL})
        self.assert_refused(409, "already-in", self.to.land, name, self.x)

    def test_a_merge_in_the_stack(self):
        name = fresh()
        self.to.move_bookmark(name, None, self.x)
        merge = self.put(self.x, self.y).id
        draft = self.put(self.put(merge, changes={"x": NIL}).id, self.y).id
        self.assert_refused(409, "merge-in-stack", self.to.land, name, draft, id=merge)
        self.to.move_bookmark(name, self.x, self.put(self.x1, self.y).id)
        self.assert_refused(409, "merge-in-stack", self.to.land, name, draft, id=merge)
        line = [merge]
        for number in range(100):
            line.append(self.put(line[-1], message=str(number)).id)
        self.assert_refused(413, "stack-too-long", self.to.land, name, line[-1], count=102)

    def test_a_merge_and_a_clash(self):
        name = fresh()
        self.to.move_bookmark(name, None, self.put(self.x, self.y, changes={"z": NIL}).id)
        draft = self.put(self.x, changes={"z": ABC}).id
        with self.assertRaises(Refused) as caught:
            self.to.land(name, draft)
        self.assertEqual(caught.exception.code, "merge-in-range")


class Today(Case):
    """A server without merges."""

    def test_refused(self):
        early = self.special_stand_in()
        server = Server(early.url)
        self.addCleanup(server.close)
        self.assertFalse(server.takes_merges())
        for changeset in (EMPTY, replace(EMPTY, message="b")):
            server.put_changeset(changeset)
        parents = (EMPTY.id, replace(EMPTY, message="b").id)
        with self.assertRaises(Refused) as caught:
            server.put_changeset(replace(EMPTY, parents=parents))
        self.assertEqual((caught.exception.status, caught.exception.code), (422, "merge"))

    def test_taken(self):
        server = Server(self.special_stand_in(merges=True).url)
        self.addCleanup(server.close)
        before = server.log(0).total
        self.assertTrue(server.takes_merges())
        self.assertEqual(server.log(0).total, before)


class Plain:
    """The definitions, path by path, over changesets in the order in which they are known."""

    def __init__(self) -> None:
        self.known: dict[str, Changeset] = {}
        self.value, self.node = cache(self.value), cache(self.node)

    def decides(self, x: Changeset, q: str) -> bool:
        """It sets or deletes the path, or sets one above or under it."""
        if q in x.changes:
            return True
        sets = [path.split("/") for path, file in x.changes.items() if file]
        mine = q.split("/")
        return any(it == mine[: len(it)] or mine == it[: len(mine)] for it in sets)

    def value(self, id: str, q: str) -> File | None:
        """The file at a path of a changeset's tree."""
        x = self.known[id]
        if self.decides(x, q):
            return x.changes.get(q)
        return next(filter(None, (self.value(parent, q) for parent in x.parents)), None)

    def unresolved(self, x: Changeset) -> str | None:
        """The least path that a merge doesn't decide, and at which its parents don't agree."""
        open_ = [q for q in PATHS if not self.decides(x, q)]
        for q in sorted(open_, key=lambda q: q.encode().split(b"/")):
            for one, other in (x.parents, x.parents[::-1]):
                mine = self.value(one, q)
                for p in open_:
                    theirs = self.value(other, p)
                    is_other = p == q and mine != theirs
                    near = p.startswith(q + "/") or q.startswith(p + "/")
                    if mine and theirs and (is_other or near):
                        return q
        return None

    def is_there(self, id: str, p: str) -> bool:
        """Whether the path is a directory of the tree; the root always is."""
        return not p or any(q.startswith(p + "/") and self.value(id, q) for q in PATHS)

    def node(self, id: str, p: str) -> tuple[str, frozenset] | None:
        """Who made the unode of a path, and the nodes before it; None where nothing is there."""
        x, file = self.known[id], self.value(id, p) if p else None
        if not file and not self.is_there(id, p):
            return None
        same = [it for it in x.parents if bool(self.value(it, p) if p else None) == bool(file)]
        before = list(dict.fromkeys(filter(None, (self.node(it, p) for it in same))))
        is_made = bool(x.changes.get(p)) if file else not p or any(
            q.startswith(p + "/") for q in x.changes
        )
        return (id, tuple(before)) if is_made or len(before) == 2 else before[0]

    def history(self, id: str, p: str) -> list[str]:
        """Who made the nodes that are reached, the last known first."""
        reached, waiting = set(), [self.node(id, p)]
        while waiting:
            maker, before = waiting.pop()
            reached.add(maker)
            waiting += before
        return [it for it in reversed(self.known) if it in reached]

    def line(self, id: str) -> list[str]:
        """A changeset and its first parents, newest first."""
        found = [id]
        while self.known[found[-1]].parents:
            found.append(self.known[found[-1]].parents[0])
        return found

    def before(self, id: str, p: str) -> File | None:
        return next((self.value(it, p) for it in self.known[id].parents[:1]), None)

    def path_log(self, id: str, p: str) -> list[str]:
        differ = lambda it: self.value(it, p) != self.before(it, p)  # noqa: E731
        return [it for it in self.line(id) if self.known[it].changes.get(p) or differ(it)]

    def deleted(self, id: str, p: str) -> str | None:
        """The last of the line that took the file away, where none is there."""
        line = self.line(id) if not self.value(id, p) else []
        return next((it for it in line if self.before(it, p) and not self.value(it, p)), None)


class RandomHistories(Merging):
    """Histories with many merges, in which files become folders and back."""

    LENGTH = 45

    def test_against_the_definitions(self):
        for seed in range(4):
            with self.subTest(seed=seed):
                self.follow(random.Random(seed), str(seed))

    def follow(self, chooser: random.Random, words: str) -> None:
        plain, refused = Plain(), 0
        root = self.put(message=f"{fresh()} {words}")
        plain.known[root.id] = root
        while len(plain.known) < self.LENGTH:
            changeset = self.chosen(chooser, plain, words)
            wanted = plain.unresolved(changeset) if changeset.is_merge else None
            if wanted is not None:
                put = lambda: self.to.put_changeset(changeset)  # noqa: E731
                self.assert_refused(422, "unresolved", put, path=wanted)
                refused += 1
                continue
            self.to.put_changeset(changeset)
            plain.known[changeset.id] = changeset
        self.assertGreater(refused, 5)
        self.assertGreater(sum(it.is_merge for it in plain.known.values()), 5)
        for id in list(plain.known)[-12:]:
            self.compare(plain, id)

    def chosen(self, chooser: random.Random, plain: Plain, words: str) -> Changeset:
        """A changeset on one or two of the last, with some sets and deletes."""
        lately = list(plain.known)[-8:]
        count = min(chooser.choice((1, 1, 2, 2, 2)), len(lately))
        while True:
            changes: dict[str, File | None] = {}
            for path in chooser.sample(PATHS, chooser.randint(0, 4)):
                kind = chooser.choice((Kind.REGULAR,) * 3 + tuple(Kind))
                file = file_of(chooser.choice(CONTENTS), kind)
                changes[path] = chooser.choice((file, file, None))
            parents = tuple(chooser.sample(lately, count))
            message = f"{words} {len(plain.known)} {chooser.random()}"
            found = replace(EMPTY, parents=parents, message=message, changes=changes)
            try:
                found.encoded
            except SelfConflict:
                continue
            return found

    def compare(self, plain: Plain, id: str) -> None:
        """Trees, nodes, histories and logs of a changeset, as served and as folded."""
        wanted = {path: plain.value(id, path) for path in PATHS if plain.value(id, path)}
        past = whole_past(self.to, id)
        for tree in (tree_of(self.to, id), folded(past)):
            self.assertEqual((dict(tree.files()), tree.count()), (wanted, len(wanted)))
        for path in ["", *PATHS]:
            self.compare_node(plain, id, path)
        for path in PATHS:
            log, gone = plain.path_log(id, path), plain.deleted(id, path)
            if log:
                self.assertEqual(self.to.path_log(id, path), log)
                self.assertEqual(folded_path_log(past, path), log)
            if path in wanted:
                history = plain.history(id, path)
                self.assertEqual(self.to.history(id, path), history)
                self.assertEqual(folded_history(past, path), history)
            if gone:
                node = self.to.ask("GET", f"/deleted/{id}/{path.replace('ü', '%C3%BC')}")
                self.assertEqual(node[2:35], b"\1" + bytes.fromhex(gone))

    def compare_node(self, plain: Plain, id: str, path: str) -> None:
        """The makers of a node and of those it reaches."""
        wanted = plain.node(id, path)
        if wanted is None:
            self.assert_refused(404, "no-path", self.to.unode, id, path)
            return
        self.compare_unode(plain, self.to.unode(id, path), wanted, path)

    def compare_unode(self, plain: Plain, found: Unode, wanted: tuple, path: str) -> None:
        maker, before = wanted
        self.assertEqual((found.linknode, len(found.parents)), (maker, len(before)))
        at_maker = [self.unode_id(it, path) for it in plain.known[maker].parents]
        self.assertEqual(set(found.parents) - set(at_maker), set())

    @cache
    def unode_id(self, id: str, path: str) -> str | None:
        try:
            name = path.replace("ü", "%C3%BC")
            return digest(self.to.ask("GET", f"/unode/{id}/{name}" if path else f"/unode/{id}"))
        except Refused:
            return None
