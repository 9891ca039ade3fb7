"""The parts of the remote: names, bodies, answers that get lost, and a mirror that is mended."""

from __future__ import annotations

import io
import os
import shutil
import subprocess
import unittest
from collections.abc import Sequence
from contextlib import redirect_stderr
from itertools import product
from unittest import mock

from jarrah_client.formats.changesets import Changeset
from jarrah_client.git import importing
from jarrah_client.git_remote import landing
from jarrah_client.git_remote.bodies import BadBody, body_of
from jarrah_client.git_remote.branches import beside_one_another, bookmark_of, branch_of
from jarrah_client.git_remote.git import NOTHING
from jarrah_client.git_remote.keeper import Keeper
from jarrah_client.git_remote.landing import Command, Lander, Outcome, Rules
from jarrah_client.git_remote.push_folder import PushFolders
from jarrah_client.net.server import NotReached, Server

from ..git_remote import RemoteCase, git
from ..harness import Case, enter, fresh


class Names(unittest.TestCase):
    """Bookmarks as branches, and back."""

    def test_each_bookmark_has_one_branch(self):
        found = {}
        for length in range(1, 6):
            for letters in product("a.-", repeat=length):
                name = "".join(letters)
                branch = branch_of(name)
                self.assertEqual(bookmark_of(branch), name)
                found[branch] = name
        self.assertEqual(len(found), sum(3**length for length in range(1, 6)))
        if shutil.which("git"):
            for branch in found:
                words = ["git", "check-ref-format", "--branch", branch]
                self.assertEqual(subprocess.run(words, capture_output=True).returncode, 0, branch)

    def test_spellings(self):
        for bookmark, branch in (
            ("main", "main"),
            ("feature..x", "feature/x"),
            ("v1.2", "v1.2"),
            ("a...b", "a./b"),
            ("a..b.lock", "a%2E%2Eb%2Elock"),
            ("HEAD", "%48EAD"),
            ("-x", "%2Dx"),
        ):
            self.assertEqual((branch_of(bookmark), bookmark_of(branch)), (branch, bookmark))
        for branch in ("a%2Eb", "a b", "ä", "a%2e", "x" * 129, "a/" * 64 + "a", "a%41", ""):
            self.assertIsNone(bookmark_of(branch), branch)

    def test_branches_beside_one_another(self):
        kept, hidden = beside_one_another(["a/b/c", "a", "ab", "b/a", "a-b", "b"])
        self.assertEqual((kept, hidden), (["a", "a-b", "ab", "b"], ["a/b/c", "b/a"]))


class Bodies(unittest.TestCase):
    """The bodies of requests."""

    def read(self, headers: dict[str, str], data: bytes) -> bytes:
        """All of a body, after which the next request has to stand."""
        stream = io.BufferedReader(io.BytesIO(data + b"NEXT"))
        lengths = [headers["Content-Length"]] if "Content-Length" in headers else []
        body = body_of(headers, lengths, stream)
        found = b"".join(iter(body.read, b""))
        self.assertTrue(body.is_over)
        self.assertEqual(stream.read(), b"NEXT")
        return found

    def test_bodies(self):
        self.assertEqual(self.read({}, b""), b"")
        self.assertEqual(self.read({"Content-Length": "3"}, b"abc"), b"abc")
        chunked = {"Transfer-Encoding": "Chunked"}
        data = b"3;x=y\r\nabc\r\n0a\r\n0123456789\r\n0\r\nTrailer: x\r\n\r\n"
        self.assertEqual(self.read(chunked, data), b"abc0123456789")

    def test_what_is_no_body(self):
        chunked = {"Transfer-Encoding": "chunked"}
        for headers, data in (
            ({"Content-Length": "9"}, b"abc"),
            ({"Content-Length": "-1"}, b""),
            ({"Content-Length": "1"} | chunked, b""),
            ({"Transfer-Encoding": "gzip"}, b""),
            (chunked, b"x\r\nabc"),
            (chunked, b"\r\nabc"),
            (chunked, b"-1\r\nabc"),
            (chunked, b"3\r\nabcd\r\n0\r\n\r\n"),
            (chunked, b"5\r\nabc"),
            (chunked, b"3\r\nabc\r\n"),
            (chunked, b"1" * 2_000),
            (chunked, b"0\r\n" + b"a: b\r\n" * 100),
        ):
            with self.assertRaises(BadBody, msg=(headers, data)):
                stream = io.BufferedReader(io.BytesIO(data))
                lengths = [headers["Content-Length"]] if "Content-Length" in headers else []
                body = body_of(headers, lengths, stream)
                while body.read():
                    pass


class KeptCase(RemoteCase):
    """A test with a mirror in this process, and pushes that take the hook's way alone."""

    def setUp(self) -> None:
        super().setUp()
        enter(self, redirect_stderr(io.StringIO()))
        self.keeper = Keeper(Server(self.server), self.folder / "kept", self.trunk, 2)
        self.keeper.start()
        self.work = self.folder / "work"
        git(self.folder, "clone", "-q", self.keeper.directory, "work", "--branch", self.trunk)

    def tearDown(self) -> None:
        assert self.keeper.mirror
        self.keeper.mirror.close()

    def commit(self, path: str, data: bytes = b"1") -> str:
        """Commits a file in the clone."""
        (self.work / path).write_bytes(data)
        git(self.work, "add", "-A")
        who = ("-c", "user.name=Ann", "-c", "user.email=ann@example.org")
        git(self.work, *who, "commit", "-q", "-m", path)
        return git(self.work, "rev-parse", "HEAD").out

    def pushed(self, commit: str, server: Server | None = None, **rules: object) -> Outcome:
        """What becomes of a push of a commit that is to be landed."""
        folders, look = PushFolders(self.folder, self.trunk), self.keeper.look()
        ask = server or Server(self.server)
        with folders.made(look.refs) as folder:
            words = (str(self.work / ".git" / "objects"),)
            (folder / "objects" / "info" / "alternates").write_text("\n".join(words) + "\n")
            lander = Lander(self.keeper, Rules((self.trunk,), **rules), ask, folder, look)
            outcome = lander.outcome(Command(NOTHING, commit, f"refs/for/{self.trunk}"))
        ask.close()
        return outcome


class Landings(KeptCase):
    """Answers that no quick test gets through git's own client."""

    def test_an_answer_that_gets_lost(self):
        ask, real = Server(self.server), Server.land_stack

        def lost(server: Server, name: str, changesets: Sequence[Changeset]):
            real(server, name, changesets)
            raise NotReached("the line was cut")

        commit = self.commit("a")
        with mock.patch.object(Server, "land_stack", lost):
            outcome = self.pushed(commit, ask)
        self.assertEqual(outcome.report[0], f"ok refs/for/{self.trunk}")
        self.assertIn(f"as {commit[:12]}", outcome.words)
        self.assertEqual(len(self.landings()), 2)
        with mock.patch.object(landing, "LOST_SECONDS", (0.0,)):
            with mock.patch.object(Server, "land_stack", side_effect=NotReached("nobody")):
                outcome = self.pushed(self.commit("b"))
        self.assertRegex(outcome.report[0], "^ng .*answer was lost.*push again")
        self.assertEqual(len(self.landings()), 2)
        self.assertRegex(
            self.pushed(git(self.work, "rev-parse", "HEAD").out).words, "landed 1 commit"
        )

    def test_what_is_too_large(self):
        commit = self.commit("large", b"x" * 2_000)
        with mock.patch.object(importing, "MOST_SIZE_BYTES", 1_000):
            words = self.pushed(commit).report[0]
        self.assertRegex(
            words, f"^ng .*commit {commit[:12]}: 'large': it has 2,000 bytes, over 1,000"
        )
        self.assertEqual(len(self.landings()), 1)

    def test_a_commit_of_too_many_paths(self):
        with mock.patch.object(importing, "MOST_CHANGES", 2):
            for name in "abc":
                (self.work / name).write_text(name)
            words = self.pushed(self.commit("d")).report[0]
        self.assertIn("changes more paths than one changeset holds", words)
        self.assertEqual(len(self.landings()), 1)

    def test_a_refusal_of_the_server(self):
        faulty = mock.patch.object(Server, "land_stack", side_effect=ValueError("odd"))
        with faulty:
            words = self.pushed(self.commit("a")).report[0]
        self.assertIn("the remote failed: ValueError: odd", words)
        self.assertEqual(len(self.landings()), 1)

    def test_renames_are_told_where_that_is_asked(self):
        self.needs_copies()
        self.commit("one", b"some lines\nthat stay\nas they are\n" * 9)
        self.pushed(git(self.work, "rev-parse", "HEAD").out)
        git(self.work, "mv", "one", "two")
        outcome = self.pushed(self.commit("three"), with_copies=True)
        self.assertIn("landed 1 commit", outcome.words)
        copies = self.ask("copies", self.head())
        self.assertIn("one", str(copies))


class Mirrors(KeptCase):
    """What is damaged is made anew, with the same ids."""

    def refs(self) -> str:
        return git(self.keeper.directory, "for-each-ref", "refs/heads").out

    def opened(self) -> Keeper:
        """The mirror as another start of the remote finds it."""
        assert self.keeper.mirror
        self.keeper.mirror.close()
        self.keeper = Keeper(Server(self.server), self.folder / "kept", self.trunk, 2)
        self.keeper.start()
        return self.keeper

    def spoil(self, what: str) -> None:
        """Spoils a part of the mirror."""
        directory = self.keeper.directory
        packs = sorted((directory / "objects" / "pack").glob("*.pack"))
        marks = directory / "jarrah" / "exported"
        if what == "removed":
            shutil.rmtree(directory)
        elif what == "a pack is gone":
            packs[0].unlink()
        elif what == "a pack is cut":
            packs[0].chmod(0o644)
            os.truncate(packs[0], packs[0].stat().st_size // 2)
        elif what == "a byte is wrong":
            longest = max(packs, key=lambda pack: pack.stat().st_size)
            longest.chmod(0o644)
            with longest.open("r+b") as file:
                file.seek(2_000)
                file.write(bytes(8))
        elif what == "marks are cut":
            os.truncate(marks, marks.stat().st_size - 9)
        elif what == "marks are spoiled":
            marks.write_bytes(b"\xff" + marks.read_bytes())
        elif what == "branches are moved":
            git(directory, "update-ref", "-d", f"refs/heads/{self.trunk}")
            commit = git(directory, "rev-parse", "refs/jarrah/new").out
            git(directory, "update-ref", "refs/heads/strange", commit)
            git(directory, "update-ref", "refs/tags/strange", commit)
        else:
            (directory / "refs" / "heads" / f"{self.trunk}.lock").touch()
            (directory / "packed-refs.lock").touch()

    def test_what_a_start_mends(self):
        self.pushed(self.commit("a"))
        wanted = self.refs()
        for what in (
            "removed",
            "a pack is gone",
            "a pack is cut",
            "marks are cut",
            "marks are spoiled",
            "branches are moved",
            "locks are left",
        ):
            with self.subTest(what):
                self.spoil(what)
                self.opened()
                self.assertEqual(self.refs(), wanted)
                git(self.keeper.directory, "fsck", "--strict")
                self.assertEqual(git(self.keeper.directory, "tag").out, "")
                self.assertIn("landed 1 commit", self.pushed(self.commit(f"after {what}")).words)
                wanted = self.refs()

    def test_what_is_removed_meanwhile(self):
        self.pushed(self.commit("a"))
        self.spoil("removed")
        self.assertIn("landed 1 commit", self.pushed(self.commit("b")).words)
        git(self.keeper.directory, "fsck", "--strict")

    def test_what_a_thorough_look_finds(self):
        self.pushed(self.commit("a", os.urandom(5_000)))
        wanted = self.refs()
        for what in ("a byte is wrong", "a pack is gone"):
            with self.subTest(what):
                self.spoil(what)
                self.keeper.doubt()
                self.keeper.check()
                self.assertEqual(self.refs(), wanted)
                git(self.keeper.directory, "fsck", "--strict")


@unittest.skipUnless(shutil.which("git"), "git")
class Followed(Case):
    """The log of a server that lost its last entries."""

    def test_a_log_that_is_another(self):
        stand_in = self.special_stand_in()
        enter(self, redirect_stderr(io.StringIO()))
        self.server, first = stand_in.url, fresh("first")
        self.ok("init", first)
        keeper = Keeper(Server(self.server), self.folder / "kept", first, 2)
        keeper.start()
        stand_in.repository.entries.pop()
        self.ok("bookmark", "second", "--to", first)
        keeper.update()
        self.assertEqual(sorted(keeper.refs), ["refs/heads/second"])
        assert keeper.mirror
        keeper.mirror.close()
