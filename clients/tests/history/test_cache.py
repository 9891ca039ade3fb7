"""What the client keeps in the user's cache: the log, dates, and what was read; and git's names."""

from __future__ import annotations

import os
import subprocess
import threading
from unittest import mock

from jarrah_client.drafting.drafts import ROOT
from jarrah_client.formats.changesets import Changeset
from jarrah_client.history.log_cache import opened
from jarrah_client.net.server import Server

from ..harness import ENVIRONMENT, Case, enter, fresh, jarrah, jarrah_process


class Cache(Case):
    """The log is kept, and read on from where it ended."""

    def setUp(self) -> None:
        super().setUp()
        enter(self, mock.patch.dict(ENVIRONMENT, {"XDG_CACHE_HOME": str(self.folder / "c")}))
        self.served = self.special_stand_in()
        self.server = self.served.url
        self.asked: list[int] = []
        log = self.served.service.log
        self.served.service.log = lambda start: self.asked.append(start) or log(start)

    def fill(self, count: int) -> None:
        """Makes so many entries."""
        for number in range(count):
            data = b"%d %s" % (number, os.urandom(8))
            self.served.repository.put_content(data)

    def test_read_on(self):
        self.fill(250)
        self.ok("init", "main")
        head = self.ask("bookmark", "main")["head"]
        self.assertEqual(self.ask("bookmark")["bookmarks"], {"main": head})
        self.assertEqual(self.asked, [0, 100, 200])
        self.asked.clear()
        self.ok("bookmark")
        self.assertEqual(self.asked, [220, 252])
        self.asked.clear()
        self.ok("commit", "main", "-m", "c", "--symlink", "a=b")
        head = self.ask("log", "main", "-n", 1)
        self.assertEqual(self.asked, [220, 252])
        landing = {"bookmark": "main", "entry": 254}
        self.assertEqual((head["bookmarks"], head["landed"]), (["main"], landing))
        self.assertEqual(self.ask("log", head["id"][:8], "-n", 1)["id"], head["id"])
        self.assertIn("landed    on main, entry 254\n", self.ok("log", "main").out)

    def test_moments_are_kept(self):
        self.ok("init", "main")
        self.served.repository.clock = lambda: 86_400
        draft = Changeset((ROOT.id,), "A", 0, 0, "m", asked_version=2)
        Server(self.server).put_changeset(draft)
        head = self.ask("land", "main", draft.id)["head"]
        landing = {"bookmark": "main", "entry": 3, "moment": 86_400}
        for _ in range(2):
            found = self.ask("log", "main", "-n", 1)
            self.assertEqual((found["id"], found["landed"]), (head, landing))
        self.assertEqual(self.asked, [0, 0, 4])
        line = "landed    on main, entry 3, 1970-01-02 00:00:00 +0000\n"
        self.assertIn(line, self.ok("log", "main").out)

    def test_dates_are_read_once(self):
        self.ok("init", "main")
        self.ok("commit", "main", "-m", "c", "--symlink", "a=b", "--date", "@86400 +0000")
        self.assertIn("  1970-01-02  main\n", self.ok("bookmark").out)
        self.served.service.changeset = None
        self.assertIn("  1970-01-02  main\n", self.ok("bookmark").out)

    def test_another_repository_at_the_same_place(self):
        self.ok("init", "main")
        self.fill(40)
        self.ok("bookmark")
        self.served.repository = self.served.service.repository = type(self.served.repository)()
        self.ok("init", "other")
        self.fill(60)
        self.assertEqual(list(self.ask("bookmark")["bookmarks"]), ["other"])
        self.assertEqual(list(self.ask("bookmark")["bookmarks"]), ["other"])

    def test_a_file_that_was_cut_or_spoiled(self):
        self.ok("init", "main")
        self.ok("bookmark")
        place = next((self.folder / "c" / "jarrah" / "logs").iterdir())
        whole = place.read_bytes()
        for data in (
            b"",
            whole[:-5],
            whole[: len(whole) // 2],
            b"\xff\n" + whole,
            whole + b'{"kind":"landing"',
            whole.replace(b'"kind":"changeset"', b'"kind":"landing"'),
            b'{"next":"x","tail":1}\n',
        ):
            place.write_bytes(data)
            self.assertEqual(list(self.ask("bookmark")["bookmarks"]), ["main"], data)
            self.assertEqual(place.read_bytes(), whole, data)

    def test_a_file_that_another_program_holds(self):
        self.fill(150)
        self.ok("init", "main")
        self.ok("bookmark")
        place = next((self.folder / "c" / "jarrah" / "logs").iterdir())
        whole = place.read_bytes()
        self.fill(3)
        self.asked.clear()
        with opened(place):
            self.assertEqual(list(self.ask("bookmark")["bookmarks"]), ["main"])
        self.assertEqual(self.asked, [120, 152])
        self.assertEqual(place.read_bytes(), whole)

    def test_no_place_to_keep_it(self):
        self.ok("init", "main")
        place = self.write("file")
        with mock.patch.dict(ENVIRONMENT, {"XDG_CACHE_HOME": str(place)}):
            self.assertEqual(list(self.ask("bookmark")["bookmarks"]), ["main"])


class Stale(Case):
    """Changes of named files on what was read."""

    def setUp(self) -> None:
        super().setUp()
        enter(self, mock.patch.dict(ENVIRONMENT, {"XDG_CACHE_HOME": str(self.folder / "c")}))
        self.name = fresh()
        self.ok("init", self.name)
        words = ("commit", self.name, "-m", "c", "--set", f"p={self.write('one')}")
        self.first = self.ask(*words)["head"]

    def edit(self, number: int, *words: object, run=jarrah):
        place = self.write(f"edit-{number}", b"edit %d" % number)
        words = ("commit", self.name, "-m", "c", "--set", f"p={place}", *words)
        return run(*words, server=self.server)

    def test_racing_edits_of_what_all_had_read(self):
        self.ok("cat", self.name, "p")
        found: list = []
        threads = [
            threading.Thread(
                target=lambda n=number: found.append(self.edit(n, run=jarrah_process))
            )
            for number in range(8)
        ]
        for thread in threads:
            thread.start()
        for thread in threads:
            thread.join()
        self.assertEqual(sorted(ran.status for ran in found), [0] + [1] * 7)
        for ran in found:
            if ran.status:
                self.assertRegex(ran.complaint, "since it was read|clashes")
        self.assertEqual(len(self.ok("--json", "log", self.name).documents), 3)

    def test_racing_edits_with_their_base(self):
        found = [self.edit(number, "--base", self.first) for number in range(3)]
        self.assertEqual([ran.status for ran in found], [0, 1, 1])
        self.assertIn("p in the draft clashes with p", found[1].err)

    def test_what_was_read(self):
        self.ok("cat", self.name, "p")
        self.ok("commit", self.name, "-m", "c", "--symlink", "other=x")
        self.assertEqual(self.edit(1).status, 0)
        words = self.refused("commit", self.name, "-m", "c", "--set", f"p={self.write('two')}")
        self.assertIn(f"since it was read at {self.first[:12]}", words)
        self.ok("cat", self.name, "p")
        self.assertEqual(self.edit(2).status, 0)
        self.assertEqual(self.edit(3, "--base", self.name).status, 0)
        self.ok("checkout", self.name, self.folder / "tree", "--plain")
        self.assertEqual(self.edit(4).status, 0)
        self.assertEqual(self.edit(5).status, 1)

    def test_deletes(self):
        words = ("--set", f"d/x={self.write('x')}", "--set", f"d/y/z={self.write('z')}")
        self.ok("commit", self.name, "-m", "c", *words)
        for path, why in (
            ("none", "there is nothing at none to delete"),
            ("d", "d is a directory of 2 files: `-r` deletes and lists them"),
        ):
            self.assertEqual(self.refused("commit", self.name, "-m", "c", "--delete", path), why)
        self.assertIn("nothing at x", self.refused("draft", "--parent", "none", "--delete", "x"))
        ran = self.ok("commit", self.name, "-m", "c", "-r", "--delete", "d")
        self.assertEqual(ran.out.splitlines()[:2], ["delete d/x", "delete d/y/z"])
        names = [one["name"] for one in self.ask("ls", "-r", self.name)["entries"]]
        self.assertEqual(names, ["p"])
        told = self.ask("commit", self.name, "-m", "c", "-r", "--delete", "p")
        self.assertEqual(told["deleted"], ["p"])


class GitNames(Case):
    """Paths that git or this client would take for its own."""

    def test_check_out(self):
        name = fresh()
        self.ok("init", name)
        paths = ("a/.git/x", ".GIT", ".Jarrah/state", "b")
        words = [f"{path}={self.write('abc')}" for path in paths]
        self.ok("commit", name, "-m", "c", *[word for one in words for word in ("--set", one)])
        ran = jarrah("--json", "checkout", name, self.folder / "out", server=self.server)
        self.assertEqual((ran.status, ran.complaint.count("left out: ")), (3, 3))
        left_out = [".GIT", ".Jarrah/state", "a/.git/x"]
        self.assertEqual(ran.document["left_out"], left_out)
        written = {place.name for place in (self.folder / "out").iterdir()}
        self.assertEqual(written, {".jarrah", "b"})

    def test_import(self):
        top = self.folder / "repository"
        run = lambda *words, data=b"": subprocess.run(  # noqa: E731
            ["git", "-C", str(top), *words], input=data, capture_output=True, check=True
        ).stdout.strip()
        top.mkdir()
        run("init", "-q", "--bare")
        blob = bytes.fromhex(run("hash-object", "-w", "--stdin", data=b"x").decode())
        tree = b"".join(b"100644 %s\0%s" % (name, blob) for name in (b".GIT", b"a"))
        words = ("hash-object", "-t", "tree", "-w", "--literally", "--stdin")
        oid = run(*words, data=tree).decode()
        people = b"author A <a@b> 5 +0000\ncommitter A <a@b> 5 +0000\n\nFirst"
        data = b"tree %s\n" % oid.encode() + people
        commit = run("hash-object", "-t", "commit", "-w", "--stdin", data=data).decode()
        ran = jarrah("--json", "import-git", top, fresh(), "--branch", commit, server=self.server)
        self.assertEqual(ran.status, 3, ran)
        self.assertEqual([one["path"] for one in ran.document["left_out"]], [".GIT"])
