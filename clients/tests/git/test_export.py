"""A git history in and out again: the same trees at each commit."""

from __future__ import annotations

import os
import subprocess
import tempfile
from pathlib import Path

from jarrah_client.git.fast_import import date_of, person_of

from ..git_maker import Maker
from ..harness import ENVIRONMENT, Case, fresh, jarrah

COMMITS = 160


def git(folder: Path, *words: str, data: bytes = b"") -> str:
    """What git says of a repository."""
    done = subprocess.run(
        ["git", "-C", str(folder), *words], input=data, capture_output=True, check=True
    )
    return done.stdout.decode(errors="surrogateescape").strip()


def trees(folder: Path, branch: str) -> list[str]:
    """The trees of a branch's first-parent line, the oldest first."""
    words = ("log", "--first-parent", "--reverse", "--format=%T", branch, "--")
    return git(folder, *words).split()


class RoundTrip(Case):
    """A line with merges, renames, links, modes, and files that become folders and back."""

    @classmethod
    def setUpClass(cls) -> None:
        super().setUpClass()
        cls.top = tempfile.TemporaryDirectory(prefix="jarrah-git-")
        cls.addClassCleanup(cls.top.cleanup)
        cls.maker = Maker(Path(cls.top.name) / "repository")
        for number in range(COMMITS):
            cls.maker.step(number)

    def imported(self, *words: object) -> tuple[str, Path]:
        name, marks = fresh("round"), self.folder / "marks"
        self.ok("import-git", "--first-parent", self.maker.folder, name, "--marks", marks, *words)
        return name, marks

    def test_the_same_trees(self):
        name, _ = self.imported()
        out = self.folder / "out"
        told = self.ask("export-git", name, out)
        self.assertEqual((told["changesets"], told["left_out"], told["altered"]), (COMMITS, [], []))
        self.assertEqual(trees(out, name), trees(self.maker.folder, "main"))
        git(out, "fsck", "--strict")
        words = ("log", "--first-parent", "--format=%an <%ae> %ad %B", "--date=raw")
        self.assertEqual(git(out, *words, name, "--"), git(self.maker.folder, *words, "main", "--"))
        self.assertEqual(git(out, "rev-parse", name), told["commit"])
        again = self.ask("export-git", name, out)
        self.assertEqual((again["changesets"], again["commit"]), (0, told["commit"]))

    def test_going_on(self):
        line = self.maker.line()
        name, marks = self.imported("--branch", line[60])
        out = self.folder / "out"
        first = self.ask("export-git", name, out)
        self.assertEqual(first["changesets"], 61)
        self.ok("import-git", "--first-parent", self.maker.folder, name, "--marks", marks)
        second = self.ask("export-git", name, out, "--connections", "1")
        self.assertEqual((second["changesets"], second["known"]), (COMMITS - 61, 61))
        self.assertEqual(trees(out, name), trees(self.maker.folder, "main"))
        whole = self.ask("export-git", name, self.folder / "whole")
        self.assertEqual(whole["commit"], second["commit"])

    def test_a_server_with_one_lane(self):
        narrow = self.special(lanes=1)
        out, copy = self.folder / "out", self.folder / "copy"
        words = (
            "import-git",
            "--first-parent",
            self.maker.folder,
            "b",
            "--marks",
            self.folder / "marks",
        )
        line = self.maker.line()
        for words in (
            (*words, "--branch", line[8]),
            ("export-git", "b", out),
            (*words, "--branch", line[16]),
            ("export-git", "b", out),
            ("checkout", "b", copy),
        ):
            ran = jarrah("--timeout", "50", *words, server=narrow.url)
            self.assertEqual((ran.status, ran.complaint), (0, ""), words)
        self.assertEqual(trees(out, "b"), trees(self.maker.folder, line[16]))

    def test_a_stream(self):
        name, _ = self.imported("--branch", self.maker.line()[30])
        words = ("export-git", name, "-", "--branch", "line")
        stream = jarrah(*words, server=self.server, binary=True)
        self.assertEqual((stream.status, stream.complaint), (0, ""))
        out = self.folder / "out"
        git(self.folder, "init", "-q", "--bare", str(out))
        git(out, "fast-import", "--quiet", data=stream.data)
        self.assertEqual(trees(out, "line"), trees(self.maker.folder, "main")[:31])
        cut = subprocess.run(
            ["git", "-C", str(out), "fast-import", "--quiet"],
            input=stream.data[:-5],
            capture_output=True,
        )
        self.assertNotEqual(cut.returncode, 0)


class GoingOn(Case):
    """An export that goes on asks for no more than what changesets don't tell."""

    def setUp(self) -> None:
        super().setUp()
        self.served = self.special_stand_in()
        self.server = self.served.url
        self.name, self.out = "b", self.folder / "out"
        self.ok("init", self.name)
        self.abc = self.write("abc")
        paths = [f"d{number % 7}/f{number}" for number in range(40)]
        sets = [word for path in paths for word in self.set(path)]
        self.ok("commit", self.name, "-m", "A change", *sets)
        self.export()
        self.asked: list[tuple[str, str]] = []
        for route in ("fsnode", "unode"):
            self.listen(route)

    def listen(self, route: str) -> None:
        """Keeps what is asked of a route."""
        answer = getattr(self.served.service, route)

        def listened(id: str, path: str = "") -> bytes:
            self.asked.append((route, path))
            return answer(id, path)

        setattr(self.served.service, route, listened)

    def set(self, path: str) -> tuple[str, str]:
        return ("--set", f"{path}={self.abc}")

    def export(self) -> list[str]:
        """The files of the branch once it was exported."""
        self.ok("export-git", self.name, self.out)
        return git(self.out, "ls-tree", "-r", "--name-only", self.name).split()

    def changed(self, *words: str) -> list[tuple[str, str]]:
        """What an export asks for after a commit. Its tree is the server's."""
        self.ok("commit", self.name, "-m", "A change", *words)
        self.asked.clear()
        found = self.export()
        asked = list(self.asked)
        self.assertEqual(found, [one["name"] for one in self.ask("ls", "-r", self.name)["entries"]])
        return asked

    def test_sets(self):
        sets = [word for path in ("d0/new", "d1/f1", "e/f") for word in self.set(path)]
        self.assertEqual(self.changed(*sets), [])

    def test_deletes(self):
        root = ("fsnode", "")
        self.assertEqual(self.changed("--delete", "d0/f7"), [root, ("unode", "d0/f7")])
        several = ("--delete", "d1/f1", "--delete", "d1/f8", *self.set("d2/new"))
        self.assertEqual(self.changed(*several), [root, ("fsnode", "d1")])
        gone = ("--delete", "d3/f3", "--delete", "d4/f4", "--delete", "d4/f11", *self.set("d4"))
        asked = self.changed(*gone)
        self.assertEqual(asked, [root, ("unode", "d3/f3"), ("fsnode", "d4")])

    def test_many_deletes_are_folded(self):
        paths = [f"d{number % 7}/f{number}" for number in range(40)]
        for turn in range(4):
            for number in range(0, 36, 12):
                gone = (word for path in paths[number : number + 12] for word in ("--delete", path))
                self.ok("commit", self.name, "-m", "A change", *gone)
            if turn < 3:
                again = (word for path in paths[:36] for word in self.set(path))
                self.ok("commit", self.name, "-m", "A change", *again)
        self.ok("commit", self.name, "-m", "A change", *self.set("d4"), "--delete", "d1/f36")
        self.asked.clear()
        self.assertEqual(self.export(), ["d2/f37", "d3/f38", "d4"])
        self.assertEqual({route for route, _ in self.asked}, {"fsnode"})
        self.assertLess(len(self.asked), 12)

    def test_a_server_without_manifests(self):
        older = self.special_stand_in(has_manifests=False)
        self.server, self.out = older.url, self.folder / "older"
        self.ok("init", self.name)
        sets = [word for path in ("a", "b/c", "d") for word in self.set(path)]
        self.ok("commit", self.name, "-m", "A change", *sets)
        self.export()
        self.ok("commit", self.name, "-m", "A change", "--delete", "b/c", *self.set("e"))
        self.assertEqual(self.export(), ["a", "d", "e"])


class Exports(Case):
    """What the line has that git can't, and branches that aren't the export's."""

    def setUp(self) -> None:
        super().setUp()
        self.name, self.out = fresh(), self.folder / "out"
        self.ok("init", self.name)
        self.abc = self.write("abc")

    def test_deletes_and_sets(self):
        for words in (
            ("--set", f"d/x={self.abc}", "--set", f"d/y={self.abc}", "--set", f"e={self.abc}"),
            ("--set", f"d={self.abc}", "--delete", "d/x"),
            ("--set", f"e/f={self.abc}"),
            ("--delete", "e", "-r"),
        ):
            self.ok("commit", self.name, "-m", "c", *words)
        self.ok("export-git", self.name, self.out)
        names = [
            git(self.out, "ls-tree", "-r", "--name-only", f"{self.name}~{back}").split()
            for back in (3, 2, 1, 0)
        ]
        wanted = [["d/x", "d/y", "e"], ["d", "e"], ["d", "e/f"], ["d"]]
        self.assertEqual(names, wanted)

    def test_the_head(self):
        self.ok("commit", self.name, "-m", "A", "--set", f"a={self.abc}")
        self.ok("export-git", self.name, self.out)
        self.assertEqual(git(self.out, "symbolic-ref", "HEAD"), f"refs/heads/{self.name}")
        git(self.folder, "clone", "-q", str(self.out), "cloned")
        self.assertEqual((self.folder / "cloned" / "a").read_bytes(), b"abc")
        self.ok("export-git", self.name, self.out, "--branch", "second")
        self.assertEqual(git(self.out, "symbolic-ref", "HEAD"), f"refs/heads/{self.name}")
        git(self.out, "symbolic-ref", "HEAD", "refs/heads/absent")
        self.ok("export-git", self.name, self.out)
        self.assertEqual(git(self.out, "symbolic-ref", "HEAD"), f"refs/heads/{self.name}")

    def test_the_head_of_a_work_tree(self):
        git(self.folder, "init", "-q", "-b", "mine", "work")
        self.ok("export-git", self.name, self.folder / "work")
        self.assertEqual(git(self.folder / "work", "symbolic-ref", "HEAD"), "refs/heads/mine")

    def test_names_of_git(self):
        words = ("--set", f".git/config={self.abc}", "--set", f"a/.GIT={self.abc}")
        self.ok("commit", self.name, "-m", "c", *words, "--set", f"a/b={self.abc}")
        ran = jarrah("--json", "export-git", self.name, self.out, server=self.server)
        self.assertEqual((ran.status, ran.complaint.count("left out: ")), (3, 2))
        left_out = [one["path"] for one in ran.document["left_out"]]
        self.assertEqual(left_out, [".git/config", "a/.GIT"])
        self.assertEqual(git(self.out, "ls-tree", "-r", "--name-only", self.name), "a/b")

    def test_a_branch_of_others(self):
        self.ok("export-git", self.name, self.out)
        tree = git(self.out, "rev-parse", f"{self.name}^{{tree}}")
        identity = ENVIRONMENT | {"GIT_AUTHOR_NAME": "a", "GIT_AUTHOR_EMAIL": "b"}
        identity |= {"GIT_COMMITTER_NAME": "a", "GIT_COMMITTER_EMAIL": "b"}
        words = ["git", "-C", str(self.out), "commit-tree", "-m", "x", tree]
        other = subprocess.run(words, env=identity, capture_output=True, check=True, text=True)
        git(self.out, "update-ref", f"refs/heads/{self.name}", other.stdout.strip())
        self.ok("commit", self.name, "-m", "c", "--set", f"a={self.abc}")
        words = self.refused("export-git", self.name, self.out)
        self.assertIn("where no export left it", words)
        self.ok("export-git", self.name, self.out, "--branch", "mine")
        self.write("other/file")
        self.assertIn("fatal", self.refused("export-git", self.name, self.folder / "other"))

    def test_words_that_git_cannot_have(self):
        self.assertEqual(person_of("Ann <a@b>"), "Ann <a@b>")
        self.assertEqual(person_of("jarrah"), "jarrah <>")
        self.assertEqual(person_of("a <b> c"), "a b c <>")
        self.assertEqual(date_of(5, -5_400), ("5 -0130", False))
        self.assertEqual(date_of(-5, 3_630), ("0 +0100", True))
        words = ("--author", "odd <", "--date", "@-1 +0000", "--set", f"a={self.abc}")
        self.ok("commit", self.name, "-m", "c", *words)
        ran = jarrah("--json", "export-git", self.name, self.out, server=self.server)
        self.assertEqual(ran.status, 0)
        self.assertEqual(len(ran.document["altered"]), 1)
        found = git(self.out, "log", "-1", "--format=%an %at", self.name, "--")
        self.assertEqual(found, "odd 0")


def setUpModule() -> None:
    os.environ["GIT_CONFIG_GLOBAL"] = os.devnull
