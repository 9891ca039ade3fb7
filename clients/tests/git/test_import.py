"""A real history in, and its trees out again, byte for byte as git has them."""

from __future__ import annotations

import json
import subprocess
import tempfile
from pathlib import Path
from typing import Any
from unittest import mock

from jarrah_client.git import importing
from jarrah_client.net.server import Server
from jarrah_client.terminal.progress import Progress

from ..git_maker import Maker
from ..harness import Case, folder_files, fresh, jarrah
from ..stand_in.http import StandIn
from ..stand_in.spelling import Refusal

COMMITS = 200
LOWER_BOUND = mock.patch.object(importing, "MOST_SIZE_BYTES", 1_048_576)
"""Has an import leave files out that a quick test can make."""
RENAMES = "-r -z -M -C -l1000 --name-status".split()
HARDER = "--find-copies-harder"


def copies_by_git(maker: Maker, before: str, commit: str, *further: str) -> dict[str, str]:
    """What git says that files between two commits were copied or renamed from."""
    asked = ("diff-tree", *RENAMES, *further, before, commit)
    words = iter(maker.git(*asked).split("\0")[:-1])
    found = {}
    for status in words:
        path = next(words)
        if status[0] in "RC":
            found[next(words)] = path
    return found


def copies_told(changeset: dict[str, Any]) -> dict[str, str]:
    """What a changeset tells of that, each of the first parent."""
    copied = {one["path"]: one["copied"] for one in changeset["changes"] if "copied" in one}
    assert {one["parent"] for one in copied.values()} <= {0}
    return {path: one["path"] for path, one in copied.items()}


class Whole(Case):
    """A line of 200 commits."""

    @classmethod
    def setUpClass(cls) -> None:
        super().setUpClass()
        cls.top = tempfile.TemporaryDirectory(prefix="jarrah-git-")
        cls.addClassCleanup(cls.top.cleanup)
        cls.maker = Maker(Path(cls.top.name) / "repository")
        for number in range(COMMITS):
            cls.maker.step(number)
        cls.line = cls.maker.line()

    def imported(self, *words: object) -> tuple[dict, dict[str, str]]:
        """What an import of the line told, and the changesets by commits."""
        name, marks = fresh("import"), self.folder / "marks"
        told = self.ask(
            "import-git", "--first-parent", self.maker.folder, name, "--marks", marks, *words
        )
        self.assertEqual(self.ask("bookmark", name)["head"], told["head"])
        return told, dict(line.split() for line in marks.read_text().splitlines()[1:])

    def assert_same_tree(self, id: str, commit: str, *words: str) -> None:
        ours, gits = (
            self.folder / f"{commit}.ours{len(words)}",
            self.folder / f"{commit}.git{len(words)}",
        )
        self.ok("checkout", id, ours, *words)
        self.maker.check_out(commit, gits)
        self.assertEqual(folder_files(ours), folder_files(gits), commit)

    def test_the_history_has_what_it_should(self):
        changes = self.maker.git(
            "log", "--first-parent", "--format=", "--raw", "--no-renames", "-m"
        )
        kinds = {
            (line.split()[0][1:], line.split()[1], line.split()[4][0])
            for line in changes.splitlines()
        }
        for wanted in (
            ("100644", "100755", "M"),
            ("000000", "120000", "A"),
            ("100644", "000000", "D"),
        ):
            self.assertIn(wanted, kinds)
        self.assertEqual(len(self.line), COMMITS)
        titles = self.maker.git("log", "--first-parent", "--format=%s")
        for word in ("Empty", "Merge", "Rename", "File to folder", "Folder to file"):
            self.assertIn(word, titles)

    def test_trees(self):
        told, changesets = self.imported()
        self.assertEqual((told["commits"], told["left_out"], told["altered"]), (COMMITS, [], []))
        self.assertEqual(list(changesets), self.line)
        for commit in self.line[9::10]:
            self.assert_same_tree(changesets[commit], commit)
        for commit in (self.line[99], self.line[-1]):
            self.assert_same_tree(changesets[commit], commit, "--fold")
        log = self.ok("--json", "log", changesets[self.line[-1]]).documents
        self.check_words(log)
        self.check_copies(log, told["copies"])
        self.check_histories(told["head"])

    def check_words(self, log: list[dict[str, Any]]) -> None:
        """Authors, dates and messages are git's."""
        gits = self.maker.git(
            "log", "--first-parent", "--date=iso", "--format=%an <%ae>%x00%ad%x00%B%x01"
        )
        wanted = [
            tuple(one.strip("\n").split("\0")) for one in gits.split("\x01") if one.strip("\n")
        ]
        found = [(one["author"], one["date"], one["message"].rstrip("\n")) for one in log]
        self.assertEqual(
            found, [(author, date, words.rstrip("\n")) for author, date, words in wanted]
        )

    def check_copies(self, log: list[dict[str, Any]], count: int) -> None:
        """Renames and copies are git's, also where a merge has them."""
        found = [copies_told(changeset) for changeset in log[-2::-1]]
        pairs = zip(self.line, self.line[1:])
        self.assertEqual(found, [copies_by_git(self.maker, *pair) for pair in pairs])
        self.assertEqual(count, sum(map(len, found)))
        self.assertGreater(count, 5)

    def check_histories(self, head: str) -> None:
        """The history of files, by the server and by the fold."""
        listed = self.ok("--json", "ls", "-r", head).document["entries"]
        self.assertGreater(len(listed), 5)
        for entry in listed[:5]:
            words = ("--json", "history", head, entry["name"])
            ids = [one["id"] for one in self.ok(*words).documents]
            folded = [one["id"] for one in self.ok(*words, "--fold").documents]
            self.assertEqual(ids, folded)
            self.assertTrue(ids)

    def test_going_on(self):
        name, marks = fresh("import"), self.folder / "marks"
        words = ("import-git", "--first-parent", self.maker.folder, name, "--marks", marks)
        first = self.ask(*words, "--branch", self.line[79])
        self.assertEqual((first["commits"], first["known"]), (80, 0))
        marks.write_text(marks.read_text() + "cut off")
        second = self.ask(*words, "--connections", "1")
        self.assertEqual((second["commits"], second["known"]), (COMMITS - 80, 80))
        again = self.ok(*words)
        self.assertIn("200 commits imported before", again.out)
        self.assertIn("nothing new", again.out)
        other = self.ask(
            "import-git",
            "--first-parent",
            self.maker.folder,
            fresh(),
            "--marks",
            self.folder / "other",
        )
        self.assertEqual(other["head"], second["head"])

    def test_a_server_with_fewer_lanes_than_connections(self):
        narrow = self.special(lanes=1)
        words = (
            "import-git",
            "--first-parent",
            self.maker.folder,
            "b",
            "--marks",
            self.folder / "marks",
        )
        ran = jarrah("--json", *words, "--connections", "6", server=narrow.url)
        self.assertEqual((ran.status, ran.complaint, ran.document["commits"]), (0, "", COMMITS))

    def test_marks_of_another_server(self):
        other = self.special()
        name, marks = fresh("import"), self.folder / "marks"
        words = (
            "import-git",
            "--first-parent",
            self.maker.folder,
            name,
            "--marks",
            marks,
            "--branch",
            self.line[3],
        )
        self.ok(*words)
        ran = jarrah(*words, server=other.url)
        self.assertEqual((ran.status, ran.complaint.count("\n")), (1, 1))
        self.assertIn("marks of another server", ran.err)

    def test_a_bookmark_with_other_files(self):
        name = fresh()
        self.ok("init", name)
        words = (
            "import-git",
            "--first-parent",
            self.maker.folder,
            name,
            "--marks",
            self.folder / "marks",
            "--branch",
            self.line[3],
        )
        self.ok(*words)
        self.assertEqual(len(self.ok("--json", "log", name).documents), 5)
        self.ok("commit", name, "--symlink", "new=x", "-m", "not of the import")
        self.assertIn("didn't make", self.refused(*words[:-1], self.line[5]))

    def test_a_server_that_goes_away(self):
        narrow = self.special_stand_in(lanes=1)
        calls = narrow.service.repository.put_changeset
        known = narrow.service.repository.changesets

        def store(data: bytes) -> str:
            if len(known) == 50:
                raise ConnectionError
            return calls(data)

        narrow.service.repository.put_changeset = store
        words = (
            "import-git",
            "--first-parent",
            self.maker.folder,
            "b",
            "--marks",
            self.folder / "marks",
        )
        ran = jarrah(*words, server=narrow.url)
        self.assertEqual((ran.status, ran.complaint.count("\n")), (1, 1))
        # What became of the others that were sent with the fifty isn't known: they are sent again.
        done = len((self.folder / "marks").read_text().splitlines()) - 1
        self.assertLessEqual(done, 50)
        where = f"stopped at commit {self.line[done][:12]} (run again to go on)"
        self.assertTrue(
            ran.complaint.startswith(f"jarrah: {where}: {narrow.url} broke off"), ran.err
        )

    def test_a_server_that_is_full(self):
        small = self.special(capacity=40_000)
        marks = self.folder / "marks"
        words = ("import-git", "--first-parent", self.maker.folder, "b", "--marks", marks)
        ran = jarrah(*words, server=small.url)
        self.assertEqual((ran.status, ran.complaint.count("\n")), (1, 1))
        where, _, why = ran.complaint.partition(" (run again to go on): ")
        self.assertRegex(where, "^jarrah: stopped at commit [0-9a-f]{12}$")
        self.assertTrue(why.startswith("the server's file is full"))
        done = len(marks.read_text().splitlines()) - 1
        entries = jarrah("--json", "entries", server=small.url).documents
        self.assertEqual([one["kind"] for one in entries].count("changeset"), done)
        if not isinstance(small, StandIn):
            return
        small.repository.capacity = 1 << 30
        ran = jarrah("--json", *words, server=small.url)
        self.assertEqual((ran.status, ran.document["known"]), (0, done))
        self.assertEqual(ran.document["commits"], COMMITS - done)


class Copies(Case):
    """Renames and copies, as git tells them."""

    def setUp(self) -> None:
        super().setUp()
        self.maker = Maker(self.folder / "repository")
        self.name, self.marks = fresh("import"), self.folder / "marks"
        self.words = ("import-git", self.maker.folder, self.name, "--marks", self.marks)

    def put(self, name: str, *lines: str) -> Path:
        """Writes a file of the work tree, with lines enough to be known again."""
        place = self.maker.folder / name
        place.parent.mkdir(exist_ok=True)
        further = (f"{name} {number}" for number in range(20))
        place.write_text("\n".join([*lines, *further]) + "\n")
        return place

    def line(self) -> list[str]:
        """Commits that move, copy, move with an edit, delete and add; and one that edits."""
        for name in ("kept", "changed", "renamed", "edited", "deleted"):
            self.put(name)
        self.maker.commit("First")
        top = self.maker.folder
        (top / "dir").mkdir()
        (top / "renamed").rename(top / "dir" / "new name")
        (top / "dir" / "far").write_bytes((top / "kept").read_bytes())
        (top / "dir" / "near").write_bytes((top / "changed").read_bytes())
        self.put("changed", "one more line")
        (top / "dir" / "moved").write_text("a line\n" + (top / "edited").read_text())
        (top / "edited").unlink()
        (top / "deleted").unlink()
        self.put("added")
        self.maker.commit("Second")
        self.put("kept", "one more line")
        self.maker.commit("Third")
        return self.maker.line()

    def imported(self, *words: str) -> list[dict[str, Any]]:
        """The changesets of an import, the oldest first."""
        self.ok(*self.words, *words)
        return self.ok("--json", "log", self.name).documents[::-1]

    def versions(self, changesets: list[dict[str, Any]]) -> list[int]:
        """The version byte of each."""
        server = Server(self.server)
        return [server.ask("GET", f"/changeset/{one['id']}")[1] for one in changesets]

    def test_told_as_by_git(self):
        first, second, third = self.line()
        changesets = self.imported()
        said = copies_by_git(self.maker, first, second)
        wanted = {"dir/near": "changed", "dir/moved": "edited", "dir/new name": "renamed"}
        self.assertEqual((said, copies_by_git(self.maker, second, third)), (wanted, {}))
        self.assertEqual([copies_told(one) for one in changesets], [{}, wanted, {}])
        self.assertEqual(self.versions(changesets), [1, 2, 1])
        changed = {one["path"]: one["change"] for one in changesets[1]["changes"]}
        gone = dict.fromkeys(("deleted", "edited", "renamed"), "delete")
        sets = (*wanted, "dir/far", "changed", "added")
        self.assertEqual(changed, dict.fromkeys(sets, "set") | gone)
        for commit, changeset in zip((first, second, third), changesets):
            places = [self.folder / f"{commit}.{side}" for side in ("ours", "git")]
            self.ok("checkout", changeset["id"], places[0])
            self.maker.check_out(commit, places[1])
            self.assertEqual(*map(folder_files, places))

    def test_copies_of_files_that_stay(self):
        first, second, third = self.line()
        changesets = self.imported("--copies-harder")
        said = copies_by_git(self.maker, first, second, HARDER)
        self.assertEqual(said.keys() - copies_by_git(self.maker, first, second), {"dir/far"})
        self.assertEqual([copies_told(one) for one in changesets], [{}, said, {}])
        ran = jarrah(*self.words, "--copies-harder", "--no-copies", server=self.server)
        self.assertEqual(ran.status, 2)

    def test_asked_of_the_server(self):
        self.needs_copies()
        self.line()
        changesets = self.imported()
        found = [self.ask("copies", one["id"])["copies"] for one in changesets]
        self.assertEqual([len(one) for one in found], [0, 3, 0])
        self.assertEqual({one["to"]: one["from"] for one in found[1]}, copies_told(changesets[1]))

    def test_told_to_people(self):
        self.line()
        told = self.ok(*self.words).out
        self.assertIn("\ntold where 3 files came from by renames and copies\n", told)

    def test_without_copies(self):
        self.line()
        changesets = self.imported("--no-copies")
        self.assertEqual([copies_told(one) for one in changesets], [{}] * 3)
        self.assertEqual(self.versions(changesets), [1] * 3)
        changed = {one["path"]: one["change"] for one in changesets[1]["changes"]}
        self.assertEqual((len(changed), changed["renamed"]), (9, "delete"))

    def test_sources_that_are_left_out(self):
        top = self.maker.folder
        self.put("line\nend")
        self.put(".jarrah/own")
        (top / "large").write_bytes(bytes(1_048_577))
        self.maker.git("update-index", "--add", "--cacheinfo", f"160000,{'1' * 40},module")
        first = self.maker.commit("First")
        for old, new in (("line\nend", "a"), (".jarrah/own", "b"), ("large", "c")):
            (top / old).rename(top / new)
        (top / "c").write_bytes(bytes(1_048_576))
        self.maker.git("add", "-A")
        self.maker.git("update-index", "--remove", "module")
        self.maker.git("update-index", "--add", "--cacheinfo", f"160000,{'1' * 40},other")
        self.maker.git("commit", "-q", "-m", "Second", **self.maker.date())
        said = copies_by_git(self.maker, first, "HEAD")
        self.assertEqual({"a", "b", "c"} - set(said), set())
        with LOWER_BOUND:
            ran = jarrah("--json", *self.words, server=self.server)
        self.assertEqual((ran.status, ran.document["copies"]), (3, 0))
        changesets = self.ok("--json", "log", self.name).documents[::-1]
        sets = [one["path"] for one in changesets[1]["changes"] if one["change"] == "set"]
        self.assertEqual(sets, ["a", "b", "c"])
        self.assertEqual(self.versions(changesets), [1, 1])

    def test_many_renames(self):
        git, count = self.maker.git, 4_500
        blobs = [git("hash-object", "-w", "--stdin", data=b"%d" % n) for n in range(50)]
        old = [f"old/f{number}" for number in range(count)]
        lines = "".join(f"100644 {blobs[n % 50]}\t{path}\n" for n, path in enumerate(old))
        git("update-index", "--index-info", data=lines.encode())
        git("commit", "-q", "-m", "First", **self.maker.date())
        lines = lines.replace("old/", "new/") + "".join(f"0 {'0' * 40}\t{path}\n" for path in old)
        git("update-index", "--index-info", data=lines.encode())
        git("commit", "-q", "-m", "Second", **self.maker.date())
        changesets = self.imported()
        found = [copies_told(one) for one in changesets]
        self.assertEqual([len(one) for one in found], [0, 0, 4_096, 404, 0])
        self.assertEqual(found[2] | found[3], {f"new/{path[4:]}": path for path in old})
        listed = self.ask("ls", "-r", changesets[2]["id"])["entries"]
        self.assertEqual({one["name"] for one in listed} & set(old), set(old))
        self.assertEqual(len(self.ask("ls", "-r", self.name)["entries"]), count)

    def test_a_server_that_knows_no_copies(self):
        older = self.special_stand_in()
        store = older.service.repository.put_changeset

        def refuse(data: bytes) -> str:
            if data[1] == 2:
                raise Refusal(422, "bad-encoding", place=1)
            return store(data)

        older.service.repository.put_changeset = refuse
        self.line()
        ran = jarrah(*self.words, server=older.url)
        self.assertEqual((ran.status, ran.complaint.count("\n")), (1, 1))
        self.assertIn("; an older server knows no copies: `--no-copies` leaves them out", ran.err)
        ran = jarrah("--json", *self.words, "--no-copies", server=older.url)
        self.assertEqual((ran.status, ran.document["known"], ran.document["commits"]), (0, 1, 2))


class LeftOut(Case):
    """What a server can't hold is named and counted."""

    def test_named_and_counted(self):
        maker = Maker(self.folder / "repository")
        top = maker.folder
        (top / "small").write_bytes(b"abc")
        (top / "grows").write_bytes(b"small at first")
        (top / "most").write_bytes(bytes(1_048_576))
        maker.commit("First")
        (top / "grows").write_bytes(bytes(1_048_577))
        (top / "line\nend").write_bytes(b"x")
        maker.commit("Second")
        blob = maker.git("hash-object", "-w", "--stdin", data=b"y")
        maker.git("update-index", "--add", "--cacheinfo", f"160000,{'1' * 40},module")
        bad = b"100644 " + blob.encode() + b"\tbad\xff\0"
        maker.git("update-index", "-z", "--index-info", data=bad)
        maker.git("commit", "-q", "-m", "Third", **maker.date())
        name = fresh("import")
        words = ("import-git", top, name, "--marks", self.folder / "marks")
        with LOWER_BOUND:
            ran = jarrah("--json", *words, server=self.server)
        left_out = {(one["path"], one["why"].split(",")[0]) for one in ran.document["left_out"]}
        wanted = {
            ("grows", "it has 1"),
            ("line\nend", "the path is refused: it has a zero byte or a line end"),
            ("bad\\xff", "the path is refused: it isn't UTF-8"),
            ("module", "it is a submodule"),
        }
        self.assertEqual((ran.status, left_out), (3, wanted))
        self.assertEqual(ran.err.count("left out: "), 4)
        listed = self.ask("ls", name)["entries"]
        self.assertEqual([entry["name"] for entry in listed], ["most", "small"])
        again = jarrah(*words[:-1], self.folder / "again", server=self.server)
        self.assertIn("didn't make", again.err)

    def test_many_paths(self):
        maker = Maker(self.folder / "repository")
        blob = maker.git("hash-object", "-w", "--stdin", data=b"abc")
        lines = "".join(f"100644 {blob}\td{n % 7}/f{n}\n" for n in range(9_000))
        maker.git("update-index", "--index-info", data=lines.encode())
        maker.git("commit", "-q", "-m", "Nine thousand", **maker.date())
        name = fresh("import")
        told = self.ask("import-git", maker.folder, name, "--marks", self.folder / "marks")
        self.assertEqual((told["commits"], told["changesets"]), (1, 3))
        listed = self.ok("--json", "ls", "-r", name).document["entries"]
        self.assertEqual(len(listed), 9_000)
        messages = [one["message"] for one in self.ok("--json", "log", name).documents]
        wanted = ["Nine thousand\n", "Nine thousand (2/3)", "Nine thousand (1/3)"]
        self.assertEqual(messages, wanted)

    def test_the_bar_within_a_commit(self):
        maker = Maker(self.folder / "repository")
        for number in range(200):
            (maker.folder / f"f{number}").write_text(str(number % 150))
        maker.commit("Two hundred files")
        parts: list[tuple[int, float]] = []

        def look(bar: Progress) -> None:
            if bar.what == "commits":
                parts.append((bar.done, bar.part))

        with mock.patch.object(Progress, "tick", look):
            self.ok("import-git", maker.folder, fresh(), "--marks", self.folder / "marks")
        within = [part for done, part in parts if done == 0]
        self.assertGreater(len(set(within)), 100)
        self.assertGreater(max(within), 0.9)
        self.assertEqual(parts[-1], (1, 0.0))

    def test_words_in_other_encodings(self):
        maker = Maker(self.folder / "repository")
        tree = maker.git("write-tree")
        parent = ""
        for header, message in (("encoding ISO-8859-1\n", b"gr\xfc\xdf"), ("", b"no \xff text")):
            people = "author A <a@b> 5 -0130\ncommitter A <a@b> 5 +0000\n"
            data = f"tree {tree}\n{parent}{people}{header}\n".encode() + message
            oid = maker.git("hash-object", "-t", "commit", "-w", "--stdin", data=data)
            parent = f"parent {oid}\n"
        maker.git("update-ref", "refs/heads/main", oid)
        name = fresh("import")
        ran = jarrah(
            "--json",
            "import-git",
            maker.folder,
            name,
            "--marks",
            self.folder / "marks",
            server=self.server,
        )
        self.assertEqual((ran.status, ran.document["altered"]), (0, [oid]))
        newest, oldest = self.ok("--json", "log", name).documents
        self.assertEqual((newest["message"], oldest["message"]), ("no \ufffd text", "grüß"))
        self.assertEqual((newest["seconds"], newest["offset"]), (5, -5_400))

    def test_a_repository_that_lacks_an_object(self):
        maker = Maker(self.folder / "repository")
        for number in range(4):
            (maker.folder / "file").write_text(str(number))
            commit = maker.commit(str(number))
        tree = maker.git("rev-parse", f"{commit}~1^{{tree}}")
        (maker.folder / ".git" / "objects" / tree[:2] / tree[2:]).unlink()
        name, marks = fresh("import"), self.folder / "marks"
        words = self.refused("import-git", maker.folder, name, "--marks", marks)
        self.assertIn("fatal", words)
        self.assertLess(len(marks.read_text().splitlines()), 3)
        self.assertIn("there is no bookmark", self.refused("bookmark", name))

    def test_what_is_no_repository(self):
        words = self.refused("import-git", self.folder, fresh(), "--marks", self.folder / "marks")
        self.assertIn("not a git repository", words)
        maker = Maker(self.folder / "repository")
        words = self.refused("import-git", maker.folder, fresh(), "--branch", "absent")
        self.assertIn("fatal", words)
        ran = jarrah("--json", "import-git", maker.folder, "a/b", server=self.server)
        self.assertIn("no bookmark's name", json.loads(ran.err)["error"])


def setUpModule() -> None:
    subprocess.run(["git", "--version"], check=True, capture_output=True)
