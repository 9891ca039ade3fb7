"""Git histories with merges, in and out again."""

from __future__ import annotations

import unittest
from unittest import mock

from jarrah_client.formats.changesets import CopySource, Kind
from jarrah_client.formats.fields import digest
from jarrah_client.git import importing, merges
from jarrah_client.git.marks import Marks
from jarrah_client.git.merges import settled
from jarrah_client.git.source import GitChange
from jarrah_client.net.server import Server
from jarrah_client.trees.tree import tree_of

from ..git_dag import Dag, Tree, git
from ..git_maker import Maker
from ..harness import Case, Ran, fresh, jarrah

Files = dict[str, bytes]
KINDS = {"100644": Kind.REGULAR, "100755": Kind.EXECUTABLE, "120000": Kind.SYMLINK}


class Histories(Case):
    """Random histories, on a server that takes merges."""

    def setUp(self) -> None:
        super().setUp()
        self.server = self.merging()
        self.to = Server(self.server)
        self.addCleanup(self.to.close)
        self.name, self.marks = fresh("merges"), self.folder / "marks"
        self.top = self.folder / "repository"

    def made(self, *words: object, **further: bool) -> list[str]:
        """A repository, and the names of its commits."""
        self.dag = Dag(*words, **further)
        return self.dag.make(self.top)

    def imported(self, *words: object) -> Ran:
        asked = ("--json", "import-git", self.top, self.name, "--marks", self.marks, *words)
        return jarrah(*asked, server=self.server)

    def told(self, *words: object) -> dict:
        """What an import tells that has nothing to say aside."""
        ran = self.imported(*words)
        self.assertEqual((ran.status, ran.complaint), (0, ""))
        return ran.document

    def changesets(self) -> dict[str, str]:
        """The changesets of the commits."""
        marks = Marks(self.marks)
        self.addCleanup(marks.close)
        return marks.known

    def assert_trees(self, oids: list[str], *numbers: int) -> None:
        """Some commits' trees, or all of those that were imported, are git's."""
        known = self.changesets()
        for number, oid in enumerate(oids):
            if oid in known and (not numbers or number in numbers):
                self.assert_tree(known[oid], self.dag.commits[number].tree)

    def assert_tree(self, id: str, wanted: Tree) -> None:
        found = {path: (file.kind, file.content) for path, file in tree_of(self.to, id).files()}
        files = {path: (KINDS[mode], digest(data)) for path, (mode, data) in wanted.items()}
        self.assertEqual(found, files)

    def assert_parents(self, oids: list[str]) -> None:
        known = self.changesets()
        for commit, oid in zip(self.dag.commits, oids):
            if oid in known:
                wanted = tuple(known[oids[parent]] for parent in commit.parents[:2])
                self.assertEqual(self.to.changeset(known[oid]).parents, wanted)

    def test_in_and_out(self):
        oids = self.made(1, 60)
        told = self.told()
        merges = sum(len(commit.parents) == 2 for commit in self.dag.commits)
        self.assertGreater(merges, 15)
        counts = (told["commits"], told["merges"], told["octopuses"], told["flattened"])
        self.assertEqual(counts, (len(oids), merges, 0, 0))
        self.assertEqual(told["head"], self.changesets()[oids[-1]])
        self.assert_trees(oids)
        self.assert_parents(oids)
        out = self.folder / "out"
        exported = self.ask("export-git", self.name, out)
        self.assertEqual((exported["changesets"], exported["altered"]), (len(oids), []))
        self.assertEqual(exported["commit"], oids[-1])
        git(out, "fsck", "--strict")
        again = self.ask("export-git", self.name, out)
        self.assertEqual((again["changesets"], again["commit"]), (0, oids[-1]))
        words = ("import-git", self.top, self.name, "--marks", self.marks)
        self.assertIn("nothing new", self.ok(*words).out)
        stream = jarrah("export-git", self.name, "-", server=self.server, binary=True)
        git(self.folder, "init", "-q", "--bare", "streamed")
        git(self.folder / "streamed", "fast-import", "--quiet", data=stream.data)
        self.assertEqual(git(self.folder / "streamed", "rev-parse", self.name), oids[-1])

    def test_going_on(self):
        oids = self.made(2, 50)
        out, done = self.folder / "out", 0
        for number in (9, 24, 33, len(oids) - 1):
            reached = git(self.top, "rev-list", "--count", oids[number])
            told = self.told("--branch", oids[number])
            self.assertEqual(told["commits"] + told["known"], int(reached))
            head = git(out, "rev-parse", self.name) if done else None
            if head and head not in git(self.top, "rev-list", oids[number]).split():
                self.assertIn("no export left", self.refused("export-git", self.name, out))
                continue
            exported = self.ask("export-git", self.name, out)
            self.assertEqual(exported["commit"], oids[number])
            done += 1
        self.assertGreater(done, 2)
        self.assert_trees(oids)
        self.assert_parents(oids)
        back = self.told("--branch", oids[24])
        self.assertEqual(back["known"], int(git(self.top, "rev-list", "--count", oids[24])))
        self.assertEqual(back["head"], self.changesets()[oids[24]])

    def test_onto_an_empty_bookmark(self):
        oids = self.made(3, 30)
        self.ok("init", self.name)
        root = self.ask("bookmark", self.name)["head"]
        line = git(self.top, "rev-list", "--first-parent", "--reverse", "main").split()
        self.told("--branch", line[len(line) // 2])
        told = self.told()
        known = self.changesets()
        roots = {oid for oid, it in zip(oids, self.dag.commits) if not it.parents}
        found = {oid: self.to.changeset(known[oid]).parents for oid in roots}
        self.assertEqual(found, dict.fromkeys(roots, ()) | {line[0]: (root,)})
        self.assertEqual(len(roots), 3)
        self.assertEqual(told["head"], known[oids[-1]])
        self.assert_trees(oids)

    def test_octopuses(self):
        oids = self.made(4, 45, octopuses=True)
        ran = self.imported()
        known = self.changesets()
        octopuses = [
            oid for oid, it in zip(oids, self.dag.commits) if len(it.parents) == 3 and oid in known
        ]
        self.assertGreater(len(octopuses), 2)
        self.assertEqual((ran.status, ran.document["octopuses"]), (0, len(octopuses)))
        for said in ("the first two of its 3 parents are kept", "\n"):
            self.assertEqual(ran.complaint.count(said), len(octopuses))
        reached = git(self.top, "rev-list", "main").split()
        self.assertEqual(ran.document["lost"], len(set(reached) - known.keys()))
        self.assert_trees(oids)
        self.assert_parents(oids)

    def test_what_octopuses_lose(self):
        git(self.folder, "init", "-q", "--bare", "-b", "main", str(self.top))
        tree = git(self.top, "mktree")
        words = ("-c", "user.name=A", "-c", "user.email=a@example.org", "commit-tree", tree)

        def commit(message: str, *parents: str) -> str:
            between = [word for parent in parents for word in ("-p", parent)]
            return git(self.top, *words, *between, "-m", message)

        first = commit("first")
        left, right = commit("left", first), commit("right", first)
        lost = commit("second", commit("beside", first))
        octopus = commit("octopus", left, right, lost)
        last = commit("again", commit("none", octopus, right, first), left, lost)
        git(self.top, "update-ref", "refs/heads/main", last)
        ran = self.imported()
        found = [line.rpartition("is set, ")[2] for line in ran.complaint.splitlines()]
        count = "commits of theirs lost"
        self.assertEqual(found, [f"2 {count}", f"0 {count}", f"2 {count}"])
        self.assertEqual((ran.document["octopuses"], ran.document["lost"]), (3, 2))
        self.assertEqual(len(self.changesets()), 6)

    def test_merges_without_room(self):
        oids = self.made(5, 30)
        with mock.patch.object(merges, "MOST_CHANGES", 2):
            ran = self.imported()
        report = ran.document
        self.assertGreater(min(report["merges"], report["flattened"]), 1)
        said = "made its difference from its first parent"
        self.assertEqual(ran.complaint.count(said), report["flattened"])
        self.assert_trees(oids)

    def test_the_first_parent_line(self):
        oids = self.made(6, 40)
        line = git(self.top, "rev-list", "--first-parent", "main").split()
        told = self.told("--first-parent")
        merges = git(self.top, "rev-list", "--first-parent", "--merges", "main").split()
        counts = (told["commits"], told["merges"], told["flattened"])
        self.assertEqual(counts, (len(line), 0, len(merges)))
        self.assertEqual(set(self.changesets()), set(line))
        self.assert_trees(oids)

    def test_merges_after_a_line(self):
        oids = self.made(7, 50)
        line = git(self.top, "rev-list", "--first-parent", "--reverse", "main").split()
        self.told("--branch", line[len(line) // 2], "--first-parent")
        told = self.told()
        self.assertGreater(told["merges"], 1)
        self.assert_trees(oids)

    def test_a_server_without_merges(self):
        oids = self.made(8, 40)
        early = self.special_stand_in()
        ran = jarrah("import-git", self.top, self.name, "--marks", self.marks, server=early.url)
        line = git(self.top, "rev-list", "--first-parent", "main").split()
        merges = git(self.top, "rev-list", "--first-parent", "--merges", "main").split()
        self.assertEqual((ran.status, ran.complaint), (0, ""))
        says = f"made {len(merges)} merges the difference from the first parent"
        self.assertIn(f"\n{says}; this server takes no merges\n", ran.out)
        self.assertEqual(set(self.changesets()), set(line))
        self.to.close()
        self.to = Server(early.url)
        self.assert_trees(oids)

    def test_told_to_people(self):
        self.made(9, 20)
        said = self.ok("import-git", self.top, self.name, "--marks", self.marks).out
        self.assertRegex(said, r"\nkept \d+ merges\n")


class LeftOut(Case):
    """Merges of what can't be imported, and of renames."""

    def setUp(self) -> None:
        super().setUp()
        self.server = self.merging()
        self.maker = Maker(self.folder / "repository")
        self.name, self.marks = fresh("merges"), self.folder / "marks"
        self.words = ("import-git", self.maker.folder, self.name, "--marks", self.marks)

    def put(self, name: str, data: bytes) -> None:
        place = self.maker.folder / name
        place.parent.mkdir(parents=True, exist_ok=True)
        place.write_bytes(data)

    def merged(self, ours: Files, theirs: Files, made: Files) -> None:
        """Two commits on one, and a merge of both with files of its own."""
        self.put("kept", b"kept")
        self.maker.commit("First")
        self.maker.git("checkout", "-q", "-b", "side")
        for files, message in ((theirs, "Theirs"), (ours, "Ours")):
            for name, data in files.items():
                self.put(name, data)
            self.maker.commit(message)
            self.maker.git("checkout", "-q", "main")
        words = ("--no-commit", "--no-ff", "-s", "ours", "side")
        self.maker.git("merge", "-q", *words, **self.maker.date())
        for name, data in made.items():
            self.put(name, data)
        self.maker.commit("Merge")

    def test_left_out(self):
        large, small = bytes(1_048_577), b"small"
        self.merged(
            ours={"a": large, "b": small, ".jarrah/x": small, "c": small},
            theirs={"a": small, "b": large, ".jarrah/x": large, "d": large},
            made={"c": large, "d": small},
        )
        with mock.patch.object(importing, "MOST_SIZE_BYTES", 1_048_576):
            ran = jarrah("--json", *self.words, server=self.server)
        self.assertEqual((ran.status, ran.document["merges"]), (3, 1))
        listed = {one["name"]: one["size"] for one in self.ask("ls", "-r", self.name)["entries"]}
        self.assertEqual(listed, {"kept": 4, "b": 5, "d": 5})

    def test_copies(self):
        text = b"".join(b"line %d\n" % number for number in range(30))
        self.merged(ours={"g": b"x"}, theirs={"of theirs": text}, made={"copy": text + b"end\n"})
        self.ok(*self.words)
        merge = Server(self.server).changeset(self.ask("bookmark", self.name)["head"])
        self.assertEqual((len(merge.parents), merge.version), (2, 2))
        self.assertEqual(merge.copies, {"copy": CopySource(1, "of theirs")})


class Settled(unittest.TestCase):
    """What a merge has to change, of what differs from each parent."""

    def one(self, path: str, *, was_file: bool, is_gone: bool = False) -> GitChange:
        kind = None if is_gone else Kind.REGULAR
        return GitChange(path.encode(), "" if is_gone else path, kind, was_file, False)

    def test_paths(self):
        new, edited = self.one("new", was_file=False), self.one("edited", was_file=True)
        gone, both = self.one("gone", was_file=True, is_gone=True), self.one("both", was_file=False)
        for sides in (([new, edited, gone, both], [both]), ([both], [new, edited, gone, both])):
            found = {one.change.path.decode() for one in settled(*sides)}
            self.assertEqual(found, {"edited", "gone", "both"})
        was_there = self.one("both", was_file=True)
        for sides in (([both], [was_there]), ([was_there], [both])):
            self.assertEqual([one.change.was_file for one in settled(*sides)], [True])
