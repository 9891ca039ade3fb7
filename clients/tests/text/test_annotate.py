"""Who brought each line of a file, by rows, and in random histories as git says it."""

from __future__ import annotations

import random
import re
from pathlib import Path
from unittest import mock

from jarrah_client.formats.changesets import Changeset, CopySource
from jarrah_client.formats.fields import digest
from jarrah_client.git.marks import Marks
from jarrah_client.net.server import Server

from ..git_dag import Commit, Dag, git
from ..harness import Case, fresh
from ..trees.test_merges import file_of
from ..working.test_working import LINES, CopyCase

BLAMED = re.compile(r"[0-9a-f]{40} \d+ \d+( \d+)?")
"""Begins what `git blame` tells of a line."""


class Annotating(Case):
    """Changesets with names, which are their messages, and their authors at `example.org`."""

    def setUp(self) -> None:
        super().setUp()
        self.connect()
        self.names: dict[str, str] = {}

    def connect(self) -> None:
        self.to = Server(self.server)
        self.addCleanup(self.to.close)

    def put(
        self,
        name: str,
        *parents: str,
        copies: dict[str, tuple[int, str]] = {},
        **changes: bytes | None,
    ) -> str:
        """Uploads a changeset that sets or deletes some paths, and gives its id."""
        for data in changes.values():
            if data is not None:
                self.to.put_content(digest(data), data)
        files = {path: None if it is None else file_of(it) for path, it in changes.items()}
        sources = {path: CopySource(*source) for path, source in copies.items()}
        author = f"{name} <{name}@example.org>"
        one = Changeset(parents, author, 86_400 * len(self.names), 0, name, files, sources)
        self.to.put_changeset(one)
        self.names[one.id] = name
        return one.id

    def line(self, *versions: bytes | None) -> str:
        """Changesets one on another, each with the next version of the file `f`: `v0`, `v1`, .."""
        id = ""
        for number, data in enumerate(versions):
            id = self.put(f"v{number}", *filter(None, [id]), f=data)
        return id

    def told(self, id: str, path: str, *words: str) -> str:
        """Each line with the name of who brought it, also without manifests."""
        found = self.ok("--json", "annotate", id, path, *words).documents
        folded = self.ok("--json", "annotate", id, path, "--fold", *words).documents
        self.assertEqual(found, folded)
        self.assertEqual([one["line"] for one in found], [*range(1, len(found) + 1)])
        return " ".join(f"{self.names[one['id']]}:{one['text']}" for one in found)


class Rows(Annotating):
    """Lines of one branch, what is written, and what is refused."""

    def test_added_changed_and_removed(self):
        added, changed = b"0\na\nm\nb\nc\nz\n", b"0\na\nm\nB\nc\nz\n"
        id = self.line(b"a\nb\nc\n", added, changed, b"0\na\nB\nc\nz\n")
        self.assertEqual(self.told(id, "f"), "v1:0 v0:a v2:B v0:c v1:z")

    def test_a_revert_brings_lines_again(self):
        id = self.line(b"a\nb\nc\n", b"a\nx\nc\n", b"a\nb\nc\n")
        self.assertEqual(self.told(id, "f"), "v0:a v2:b v0:c")

    def test_what_changes_no_line_brings_none(self):
        first = self.line(b"a\nb\n", b"a\nb\nc\n")
        again = self.put("again", self.put("other", first, g=b"g"), f=b"a\nb\nc\n")
        self.assertEqual(self.told(again, "f"), "v0:a v0:b v1:c")

    def test_a_file_that_was_gone_is_new(self):
        id = self.line(b"a\nb\n", None, b"a\nb\nc\n")
        self.assertEqual(self.told(id, "f"), "v2:a v2:b v2:c")

    def test_equal_lines(self):
        id = self.line(b"a\n\n", b"a\n\nb\n\n", b"a\n\n\nb\n\n", b"a\n\n\nb\n\na\n")
        self.assertEqual(self.told(id, "f"), "v0:a v0: v2: v1:b v1: v3:a")

    def test_no_end_of_the_last_line(self):
        first = self.line(b"a\nb")
        self.assertEqual(self.told(first, "f"), "v0:a v0:b")
        self.assertEqual(self.told(self.line(b"a\nb", b"a\nb\nc"), "f"), "v0:a v1:b v1:c")
        self.assertTrue(self.ok("annotate", first, "f").out.endswith("  2  b\n"))

    def test_an_empty_file(self):
        id = self.line(b"a\n", b"", b"a\nb\n")
        self.assertEqual(self.told(id, "f"), "v2:a v2:b")
        before = self.to.changeset(id).parents[0]
        for words in (("annotate",), ("--json", "annotate")):
            self.assertEqual(self.ok(*words, before, "f").out, "")

    def test_what_a_person_reads(self):
        first = self.put("Ann", f=b"a\n\n\ttab \x1b[2J\n" + b"b\n" * 6)
        second = self.put("Bartholomew", first, f=b"new\na\n\n\ttab \x1b[2J\n" + b"b\n" * 6)
        lines = self.ok("annotate", second, "f").out.splitlines()
        ann = f"{first[:12]}  Ann          1970-01-01"
        wanted = [f"{second[:12]}  Bartholomew  1970-01-02   1  new", f"{ann}   2  a"]
        wanted += [f"{ann}   3", f"{ann}   4  \ttab \\x1b[2J"]
        wanted += [f"{ann}  {number:>2}  b" for number in range(5, 11)]
        self.assertEqual(lines, wanted)

    def test_documents(self):
        found = self.ok("--json", "annotate", self.line(b"a\tb\r\n"), "/f").documents
        wanted = {"id": [*self.names][0], "author": "v0 <v0@example.org>"}
        wanted |= {"date": "1970-01-01 00:00:00 +0000", "line": 1, "text": "a\tb\r"}
        self.assertEqual(found, [wanted])

    def test_what_is_no_file_is_refused_as_by_cat(self):
        id = self.put("one", **{"d/f": b"a\n"})
        for path in ("d", "x", "d/x", "d/f/x", "", "..", "d//f"):
            for fold in ((), ("--fold",)):
                said = self.refused("annotate", id, path, *fold)
                self.assertEqual(said, self.refused("cat", id, path, *fold))
        said = self.refused("annotate", id, "d")
        self.assertEqual(said, "d: the path is a directory and no file")
        self.assertIn("there is nothing at this path", self.refused("annotate", id, "x"))
        self.assertIn("no bookmark", self.refused("annotate", fresh(), "x"))

    def test_what_is_no_text_is_refused(self):
        for data in (b"a\0\n", b"a\n\xff\n"):
            said = self.refused("annotate", self.line(b"a\n", data), "f")
            self.assertEqual(said, "f: it is no text, and so has no lines")

    def test_lines_before_and_after_what_is_no_text(self):
        id = self.line(b"a\nb\n", b"a\n\xe4\0\nb\n", b"a\nb\nc\n")
        self.assertEqual(self.told(id, "f"), "v0:a v0:b v2:c")

    def test_a_large_file_has_no_lines(self):
        self.needs_wholes()
        name, large = fresh(), self.write("large", b"a\n" * 524_289)
        self.ok("init", name)
        self.ok("commit", name, "-m", "c", "--set", f"f={large}")
        said = self.refused("annotate", name, "f")
        self.assertEqual(said, "f: it has 1,048,578 bytes, over 1,048,576, and so no lines")
        short = self.write("short", b"a\na\n")
        head = self.ask("commit", name, "-m", "c", "--set", f"f={short}")["head"]
        found = self.ok("--json", "annotate", name, "f").documents
        self.assertEqual([one["id"] for one in found], [head] * 2)

    def test_a_server_without_manifests(self):
        self.server = self.special_stand_in(has_manifests=False).url
        self.connect()
        id = self.line(b"a\nb\n", b"a\nB\n")
        self.assertEqual(self.told(id, "f"), "v0:a v1:B")
        self.assertIn("there is nothing at this path", self.refused("annotate", id, "x"))

    def test_contents_are_read_once_and_as_long_as_lines_are_left(self):
        id = self.line(b"0\n", b"a\n", b"b\na\n", b"a\n", b"c\na\n")
        self.assertEqual(self.read(id), [b"c\na\n", b"a\n", b"b\na\n", b"0\n"])
        self.assertEqual(self.read(self.put("x", id, f=b"x\n")), [b"x\n", b"c\na\n"])

    def read(self, id: str) -> list[bytes]:
        """The contents that are read, in order."""
        found: list[bytes] = []
        content = Server.content
        reads = lambda server, id: found.append(content(server, id)) or found[-1]  # noqa: E731
        with mock.patch.object(Server, "content", reads):
            self.ok("annotate", id, "f")
        return found


class Copies(Annotating):
    """Files that were renamed or copied."""

    def setUp(self) -> None:
        super().setUp()
        self.needs_copies()
        self.first = self.line(b"a\nb\nc\n", b"a\nb\nc\nd\n")

    def test_a_rename(self):
        words = {"copies": {"g": (0, "f")}, "f": None, "g": b"a\nB\nc\nd\n"}
        moved = self.put("moved", self.first, **words)
        self.assertEqual(self.told(moved, "g"), "v0:a moved:B v0:c v1:d")
        self.assertEqual(self.told(moved, "g", "--no-follow"), "moved:a moved:B moved:c moved:d")
        words = {"copies": {"h": (0, "g")}, "g": None, "h": b"a\nB\nc\nd\ne\n"}
        again = self.put("again", moved, **words)
        self.assertEqual(self.told(again, "h"), "v0:a moved:B v0:c v1:d again:e")
        edited = self.put("edited", again, h=b"a\nd\ne\n")
        self.assertEqual(self.told(edited, "h"), "v0:a v1:d again:e")
        self.assertEqual(self.told(edited, "h", "--no-follow"), "again:a again:d again:e")

    def test_a_copy(self):
        copy = self.put("copy", self.first, copies={"g": (0, "f")}, g=b"a\nb\nx\n")
        edited = self.put("edited", copy, f=b"f\na\n", g=b"a\nb\nx\ny\n")
        self.assertEqual(self.told(edited, "g"), "v0:a v0:b copy:x edited:y")
        self.assertEqual(self.told(edited, "g", "--no-follow"), "copy:a copy:b copy:x edited:y")
        self.assertEqual(self.told(edited, "f"), "edited:f v0:a")

    def test_a_copy_of_nothing(self):
        copy = self.put("copy", self.first, copies={"g": (0, "absent")}, g=b"a\n")
        self.assertEqual(self.told(copy, "g"), "copy:a")

    def test_a_copy_over_a_file(self):
        old = self.put("old", self.first, g=b"x\ny\n")
        copy = self.put("copy", old, copies={"g": (0, "f")}, g=b"a\nx\n")
        self.assertEqual(self.told(copy, "g"), "copy:a old:x")


class Merges(Annotating):
    """Lines that came by both parents."""

    def setUp(self) -> None:
        super().setUp()
        self.server = self.merging()
        self.connect()
        self.base = self.put("base", f=b"a\nb\nc\nd\n")
        self.left = self.put("left", self.base, f=b"left\na\nb\nc\nd\n")
        self.right = self.put("right", self.base, f=b"a\nb\nc\nd\nright\n")

    def test_both_sides(self):
        merge = self.put("merge", self.left, self.right, f=b"left\na\nb\nmerge\nc\nd\nright\n")
        wanted = "left:left base:a base:b merge:merge base:c base:d right:right"
        self.assertEqual(self.told(merge, "f"), wanted)
        other = self.put("other", self.right, self.left, f=b"left\na\nd\nright\n")
        self.assertEqual(self.told(other, "f"), "left:left base:a base:d right:right")
        both = self.put("both", merge, other, f=b"left\na\nmerge\nd\nright\nboth\n")
        wanted = "left:left base:a merge:merge base:d right:right both:both"
        self.assertEqual(self.told(both, "f"), wanted)

    def test_the_first_parent_that_has_it(self):
        again = self.put("again", self.base, f=b"left\na\nb\nc\nd\n")
        for parents, name in (((self.left, again), "left"), ((again, self.left), "again")):
            merge = self.put(f"merge-{name}", *parents)
            self.assertEqual(self.told(merge, "f"), f"{name}:left base:a base:b base:c base:d")

    def test_one_side(self):
        beside = self.put("beside", self.base, g=b"g\n")
        merge = self.put("merge", beside, self.left, f=b"left\na\nb\nc\nd\n")
        self.assertEqual(self.told(merge, "f"), "left:left base:a base:b base:c base:d")
        self.assertEqual(self.told(merge, "g"), "beside:g")
        taken = self.put("taken", self.left, self.right, f=b"a\nb\nc\nd\nright\n")
        self.assertEqual(self.told(taken, "f"), "base:a base:b base:c base:d right:right")

    def test_two_files_that_became_one(self):
        other = self.put("other", f=b"x\ny\n")
        merge = self.put("merge", self.left, other, f=b"left\na\nx\ny\nb\n")
        self.assertEqual(self.told(merge, "f"), "left:left base:a other:x other:y base:b")

    def test_a_line_twice(self):
        left = self.put("twice", self.base, f=b"b\nb\nc\n")
        right = self.put("moved", self.base, f=b"c\nx\na\nb\n")
        merge = self.put("merge", left, right, f=b"b\nc\nx\na\nb\n")
        self.assertIn(":c moved:x base:a base:b", self.told(merge, "f"))

    def test_copies_from_each_parent(self):
        self.needs_copies()
        gone = self.put("gone", self.base, f=None, g=b"g\n")
        for parents, place in (((gone, self.left), 1), ((self.left, gone), 0)):
            words = {"copies": {"h": (place, "f")}, "f": None, "h": b"left\nb\nh\n"}
            merge = self.put(f"merge-{place}", *parents, **words)
            self.assertEqual(self.told(merge, "h"), f"left:left base:b merge-{place}:h")
        there = self.put("there", gone, h=b"h\n")
        words = {"copies": {"h": (1, "f")}, "f": None, "h": b"left\nb\nh\n"}
        merge = self.put("both", there, self.left, **words)
        self.assertEqual(self.told(merge, "h"), "left:left base:b there:h")


class Folder(CopyCase):
    """In a working copy."""

    def test_its_base(self):
        first, name = self.first["head"][:12], "A Tester"
        for place, words in ((self.ours, ("text",)), (self.ours / "lib", ("../text",))):
            lines = self.done(place, "annotate", *words).out.splitlines()
            self.assertEqual(len(lines), LINES.count(b"\n"))
            self.assertTrue(lines[4].startswith(f"{first}  {name}  "))
            self.assertTrue(lines[4].endswith("   5  line 4"))
        (self.ours / "text").write_bytes(b"draft\n" + LINES)
        self.assertEqual(len(self.done(self.ours, "annotate", "text").out.splitlines()), 20)
        self.done(self.ours, "commit", "-m", "Draft")
        found = self.done(self.ours, "--json", "annotate", "text").documents
        self.assertEqual([one["id"] for one in found[1:]], [self.first["head"]] * 20)
        self.assertNotEqual(found[0]["id"], self.first["head"])
        landed = self.done(self.ours, "annotate", self.name, "text").out.splitlines()
        self.assertEqual(len(landed), 20)
        self.assertIn("lib: the path is a directory", self.fails(self.ours, "annotate", "lib"))
        self.assertIn("isn't in the working copy", self.fails(self.ours, "annotate", "../x"))

    def test_without_one(self):
        ran = self.within(self.folder, "annotate", "text")
        self.assertEqual((ran.status, ran.out, ran.complaint.count("\n")), (2, "", 1))
        self.assertIn("name a changeset", ran.complaint)


class Texts(Dag):
    """Commits of one file, which is renamed once. No two of its lines are equal, and they rise."""

    def __init__(self, seed: int):
        self.random = random.Random(seed)
        self.commits: list[Commit] = []
        self.makers: dict[str, int] = {}
        """The commit that brought each line."""
        for path in ("first", "renamed"):
            self.grow(path)

    def grow(self, path: str) -> None:
        """Commits on the last one, with the file at a path, and at the end one head."""
        first = len(self.commits)
        self.write(path, *range(first)[-1:])
        while len(self.commits) < first + 22:
            lately = range(max(first, len(self.commits) - 5), len(self.commits))
            count = min(len(lately), self.random.choice((1, 1, 2)))
            self.write(path, *self.random.sample(lately, count))
        while len(heads := self.heads()) > 1:
            self.write(path, *heads[:2])

    def write(self, path: str, *parents: int) -> None:
        """A commit with some lines of its parents, and new ones."""
        kept = {line for it in parents for line in self.lines(it) if self.random.random() < 0.95}
        count = self.random.randrange(5) if parents else 40
        own = {f"{self.random.random():.12f} of {len(self.commits)}" for _ in range(count)}
        self.makers |= dict.fromkeys(own, len(self.commits))
        data = "".join(f"{line}\n" for line in sorted(kept | own)).encode()
        self.commits.append(Commit(parents, {path: ("100644", data)}))

    def lines(self, number: int) -> list[str]:
        """The lines of a commit's file."""
        return next(iter(self.commits[number].tree.values()))[1].decode().splitlines()


class Gits(Case):
    """Git histories that were imported."""

    def test_lines_are_those_of_git(self):
        self.server = self.merging()
        for seed in range(2):
            with self.subTest(seed=seed):
                self.compare(Texts(seed), self.folder / str(seed))

    def compare(self, dag: Texts, top: Path) -> None:
        """Compares each line's changeset with git's commit, and with who brought it."""
        oids, name, place = dag.make(top), fresh("annotate"), top / "known"
        self.assertGreater(sum(len(commit.parents) == 2 for commit in dag.commits), 10)
        self.ok("import-git", top, name, "--marks", place)
        marks = Marks(place)
        self.addCleanup(marks.close)
        lines = dag.lines(-1)
        wanted = [marks.known[oids[dag.makers[line]]] for line in lines]
        self.assertGreater(len(set(wanted)), 15)
        blamed = git(top, "blame", "--line-porcelain", "main", "--", "renamed").splitlines()
        gits = [line.split()[0] for line in blamed if BLAMED.fullmatch(line)]
        self.assertEqual([marks.known[oid] for oid in gits], wanted)
        for words in ((), ("--fold",)):
            found = self.ok("--json", "annotate", name, "renamed", *words).documents
            self.assertEqual([one["text"] for one in found], lines)
            self.assertEqual([one["id"] for one in found], wanted)
