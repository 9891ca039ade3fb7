"""Searches for the first bad changeset: by verdicts alone, and in a folder that is brought back."""

from __future__ import annotations

import io
import itertools
import os
import random
import shutil
import signal
import subprocess
import sys
import tempfile
import time
import unittest
from collections.abc import Callable, Sequence
from contextlib import AbstractContextManager, redirect_stderr
from pathlib import Path
from unittest import mock

from jarrah_client.commands import bisect as commands
from jarrah_client.drafting.drafts import ROOT, initialize
from jarrah_client.formats.changesets import Changeset, File
from jarrah_client.formats.fields import digest
from jarrah_client.history.log_cache import CachedLog
from jarrah_client.history.repository import line_between
from jarrah_client.net.server import Server, Trouble
from jarrah_client.working import disk
from jarrah_client.working.bisect import Command, Folder, Search, Verdict, lent, telling
from jarrah_client.working.state import KINDS, Rebase, WorkingCopy

from ..drafting.test_backout import watched_reads
from ..harness import ENVIRONMENT, PROGRAM, Ran, folder_files, fresh, jarrah, jarrah_process
from ..trees.test_merges import ABC, Merging
from .test_working import InFolders

GOOD, BAD, SKIPPED = Verdict.GOOD, Verdict.BAD, Verdict.SKIPPED
COUNT = 20
Files = dict[str, tuple[str, bytes]]
"""Files by their paths, as `folder_files` tells them."""


def searched(search: Search, verdict: Callable[[str], Verdict]) -> Search:
    """A search to its end."""
    while id := search.next():
        search.take(id, verdict(id))
    return search


def linear(line: list[str], verdict: Callable[[str], Verdict]) -> list[str]:
    """What may be the first bad one where all but the last are tried, by a plain scan."""
    left: list[str] = []
    for id in line[:-1]:
        left.append(id)
        if verdict(id) is BAD:
            return left
        if verdict(id) is GOOD:
            left = []
    return [*left, line[-1]]


def verdicts(line: list[str], first: int, skipped: Sequence[str]) -> Callable[[str], Verdict]:
    """Verdicts of a line that is bad from a place on."""

    def verdict(id: str) -> Verdict:
        if id in skipped:
            return SKIPPED
        return BAD if line.index(id) >= first else GOOD

    return verdict


class Searches(unittest.TestCase):
    """The search alone."""

    def test_each_first_bad_one_and_all_that_are_skipped(self):
        for count in range(1, 8):
            line = [f"id {place}" for place in range(count)]
            for first, width in itertools.product(range(count), range(count)):
                for skipped in itertools.combinations(line[:-1], width):
                    verdict = verdicts(line, first, skipped)
                    search = searched(Search("good", line), verdict)
                    self.assertEqual(search.left, linear(line, verdict), (first, skipped))
                    tried = {id: verdict(id) for id in search.tried}
                    self.assertEqual(search.tried, tried)
                    self.assertNotIn(line[-1], tried)

    def test_so_few_tries(self):
        for count, most in ((1, 0), (2, 1), (4, 2), (5, 3), (COUNT, 5), (1_025, 11)):
            line = [f"id {place}" for place in range(count)]
            for first in range(0, count, count // 20 or 1):
                search, places = Search("good", line), {id: at for at, id in enumerate(line)}
                self.assertEqual(search.expected(), most)
                searched(search, lambda id: BAD if places[id] >= first else GOOD)
                self.assertEqual(search.first_bad, line[first])
                self.assertLessEqual(len(search.tried), most)

    def test_the_nearest_comes_after_what_is_skipped(self):
        search = Search("good", list("abcdefghi"))
        tried = list(searched(search, lambda id: SKIPPED).tried)
        self.assertEqual(tried, list("dcebfagh"))
        self.assertIsNone(search.first_bad)
        self.assertEqual(search.known(), "9 changesets left: `--good good --bad i` goes on")

    def test_how_many_are_expected(self):
        line = [f"id {place}" for place in range(COUNT)]
        for first in range(COUNT):
            search, verdict = Search("good", line), verdicts(line, first, line[::3])
            while id := search.next():
                self.assertGreater(search.expected(), len(search.tried))
                search.take(id, verdict(id))
            self.assertEqual(search.expected(), len(search.tried))


def files_of(number: int) -> Files:
    """The files of a numbered changeset: some come and go, and become folders, links or others."""
    told = b"%d\n" % number
    files = {"number": ("regular", told), "same": ("regular", b"same\n")}
    files["lines"] = ("regular", b"".join(b"%d\n" % one for one in range(1, number + 1)))
    files["lib/a"] = ("executable" if number % 3 else "regular", b"a")
    files["spot" if number % 2 else "spot/in"] = ("regular", b"spot")
    if number % 4 < 2:
        files["link"] = ("symlink", b"lib")
    else:
        files["link/a"] = ("regular", told)
    if number % 5 == 0:
        files[f"at/{number}"] = ("regular", told)
    return files


class OnALine(InFolders):
    """A bookmark with numbered changesets, and a working copy of it."""

    @classmethod
    def setUpClass(cls) -> None:
        super().setUpClass()
        cls.to = Server(cls.server)
        cls.addClassCleanup(cls.to.close)
        cls.name = fresh()
        initialize(cls.to, cls.name)
        cls.contents: set[bytes] = set()
        at, before = ROOT.id, {}
        for number in range(1, COUNT + 1):
            at = cls.put(at, before, number)
            before = files_of(number)
        cls.ids = ["", *cls.to.land(cls.name, at).ids]
        cls.whole = Path(tempfile.mkdtemp(prefix="jarrah-test-"))
        cls.addClassCleanup(shutil.rmtree, cls.whole)
        ran = jarrah("checkout", cls.name, cls.whole, server=cls.server)
        assert ran.status == 0, ran

    @classmethod
    def stored(cls, file: tuple[str, bytes] | None) -> File | None:
        """A file whose bytes are stored."""
        if file is None:
            return None
        word, data = file
        if data not in cls.contents:
            cls.to.put_content(digest(data), data)
            cls.contents.add(data)
        return File(digest(data), len(data), KINDS[word])

    @classmethod
    def put(cls, parent: str, before: Files, number: int) -> str:
        """Stores a numbered changeset on what has some files."""
        after = files_of(number)
        paths = sorted(after.keys() | before.keys())
        changed = [path for path in paths if after.get(path) != before.get(path)]
        files = {path: cls.stored(after.get(path)) for path in changed}
        words = ("Ann <a@b>", 1_000_000_000 + number, 3_600, f"Number {number}\n\nof {cls.name}")
        draft = Changeset((parent,), *words, files)
        cls.to.put_changeset(draft)
        return draft.id

    def setUp(self) -> None:
        super().setUp()
        self.top = self.folder / "copy"
        shutil.copytree(self.whole, self.top, symlinks=True)

    def is_back(self, further: dict[str, bytes] = {}) -> None:
        """Whether the folder is as it was, but for new files."""
        news = {path: ("regular", data) for path, data in further.items()}
        self.assertEqual(folder_files(self.top), files_of(COUNT) | news)
        told = self.done(self.top, "--json", "status").document
        self.assertEqual((told["base"], told["bookmark"]), (self.ids[COUNT], self.name))
        wanted = [{"path": path, "change": "added"} for path in further]
        self.assertEqual((told["changes"], told["faults"], told["drafts"]), (wanted, {}, []))

    def bisect(self, script: str, *words: object, good: int = 1) -> Ran:
        """Searches by a script of the shell, in which `n` is the number that is tried."""
        command = ["sh", "-c", f"read n < number; {script}"]
        words = ("bisect", "--good", self.ids[good], "--connections", 1, *words, "--", *command)
        return self.within(self.top, *words)

    def document(self, script: str, *words: object, status: int = 0, good: int = 1) -> dict:
        """What a search tells scripts, with numbers in the place of ids."""
        ran = self.bisect(script, "--json", *words, good=good)
        self.assertEqual(ran.status, status, ran)
        told = ran.document
        told["tried"] = {self.ids.index(one["id"]): one["verdict"] for one in told["tried"]}
        told["left"] = [self.ids.index(id) for id in told["left"]]
        return told

    def goes_on(self, good: int, bad: int) -> str:
        """What is told of a range that is left."""
        words = f"--good {self.ids[good]} --bad {self.ids[bad]}"
        return f"{bad - good} changesets left: `{words}` goes on"


class Tries(OnALine):
    """What is tried and told."""

    def test_for_people(self):
        command = ["sh", "-c", "! grep -qx 7 lines"]
        ran = self.within(self.top, "bisect", "--good", self.ids[1][:10], "--", *command)
        told = self.ok("log", self.ids[7], "-n", 1).out
        wanted = (0, f"tried 4 changesets: the first bad one is\n{told}")
        self.assertEqual((ran.status, ran.out), wanted)
        self.assertIn("\nauthor    Ann <a@b>\ndate      2001-09-09 02:46:47 +0100\n", ran.out)
        self.assertIn("\n    Number 7\n", ran.out)
        lines = [(1, 5, 10), (2, 5, 5), (3, 5, 7), (4, 4, 6)]
        wanted = [f"trying {a} of about {b}: {self.ids[n][:12]} Number {n}" for a, b, n in lines]
        self.assertEqual(ran.complaint.splitlines(), wanted)

    def test_places(self):
        for first, good in ((2, 1), (20, 16)):
            told = self.document(f"test $n -lt {first}", good=good)
            self.assertEqual((told["first_bad"], told["left"]), (self.ids[first], [first]))
            wanted = {n: "good" if n < first else "bad" for n in told["tried"]}
            self.assertEqual(told["tried"], wanted)
        told = self.document("test $n -lt 5", "--bad", self.ids[6][:10], good=3)
        self.assertEqual((told["first_bad"], told["tried"]), (self.ids[5], {4: "good", 5: "bad"}))
        told = self.document("exit 0", "--bad", self.ids[6], good=5)
        self.assertEqual((told["first_bad"], told["tried"]), (self.ids[6], {}))

    def test_what_is_skipped(self):
        to = ("--bad", self.ids[12])
        told = self.document("test $n = 9 && exit 125; test $n -lt 8 || exit 127", *to, good=6)
        self.assertEqual(told["first_bad"], self.ids[8])
        self.assertEqual(told["tried"], {9: "skipped", 8: "bad", 7: "good"})
        told = self.document("test $n -lt 9 || exit 125", *to, good=6, status=3)
        self.assertEqual((told["first_bad"], told["left"]), (None, [12, 11, 10, 9]))
        wanted = {9: "skipped", 8: "good", 10: "skipped", 11: "skipped"}
        self.assertEqual(told["tried"], wanted)
        script = "test $n = 9 && exit 4; test $n -lt 8 || exit 125"
        told = self.document(script, *to, "--skip-status", 4, good=6)
        self.assertEqual(told["tried"], {9: "skipped", 8: "bad", 7: "good"})

    def test_all_are_skipped(self):
        ran = self.bisect("exit 125", "--bad", self.ids[4])
        told = self.ok("log", self.ids[4], "-n", 3, "--oneline").out
        said = "tried 2 changesets, 2 of them skipped: the first bad one is one of 3\n"
        self.assertEqual((ran.status, ran.out), (3, said + told))

    def test_where_the_commands_output_goes(self):
        words = ["bisect", "--good", self.ids[18], "--", "sh", "-c", "pwd; echo err >&2"]
        ran = jarrah_process(*words, folder=self.top / "lib")
        self.assertEqual((ran.status, ran.out.splitlines()[0]), (0, str(self.top)))
        self.assertEqual(ran.complaint.splitlines()[1:], ["err"])
        with tempfile.TemporaryFile() as error:
            with mock.patch.object(commands, "STANDARD_ERROR", error.fileno()):
                self.document("pwd", good=18)
            error.seek(0)
            self.assertEqual(error.read().decode(), f"{self.top}\n")

    def test_the_log_tells_the_line(self):
        parent, drafts = self.ids[9], []
        for number in (30, 31, 32):
            parent = self.put(parent, files_of(number - 1 if drafts else 9), number)
            drafts.append(parent)
        log = CachedLog(self.to)
        for bad, line, read in (
            (self.ids[20], self.ids[5:21], []),
            (drafts[-1], [*self.ids[5:10], *drafts], drafts[::-1]),
        ):
            with watched_reads() as reads:
                self.assertEqual(line_between(self.to, log, self.ids[4], bad), line)
            self.assertEqual([call.args[1] for call in reads.mock_calls], read)


class Refusals(OnALine):
    """What isn't begun, and what ends a search."""

    def not_begun(self, *words: object, top: Path | None = None) -> str:
        """What a refusal says that comes before anything is tried."""
        return self.fails(top or self.top, "bisect", *words, "--", "true")

    def test_ids(self):
        for good, bad in ((9, 5), (20, 19)):
            said = self.not_begun("--good", self.ids[good], "--bad", self.ids[bad])
            line = f"{self.ids[good]} isn't on the line of first parents of {self.ids[bad]}"
            self.assertEqual(said, f"jarrah: {line}\n")
        aside = self.put(self.ids[3], files_of(3), 40)
        self.assertIn(f"{aside} isn't on the line", self.not_begun("--good", aside))
        same = self.not_begun("--good", self.name)
        self.assertEqual(same, f"jarrah: {self.ids[20]} can't be good and bad\n")
        self.assertIn("has no changeset", self.not_begun("--good", "1" * 64))
        self.assertIn("no bookmark", self.not_begun("--good", self.ids[1], "--bad", fresh()))

    def test_words(self):
        good = ["--good", self.ids[1]]
        for words in ([*good, "--"], ["--", "true"], [*good, "--skip-status", 128, "--", "true"]):
            ran = self.within(self.top, "bisect", *words)
            self.assertEqual((ran.status, ran.out), (2, ""), words)
        self.assertIn("no working copy", self.not_begun(*good, top=self.folder))
        self.assertIn("no working copy", self.not_begun("--json", *good, top=self.folder))

    def test_a_changed_folder(self):
        (self.top / "lines").write_bytes(b"other")
        (self.top / "same").unlink()
        said = self.not_begun("--good", self.ids[1])
        self.assertEqual(said, "jarrah: lines is changed: commit or revert it first\n")
        self.assertEqual((self.top / "lines").read_bytes(), b"other")
        self.done(self.top, "revert", "lines")
        self.assertIn("same is changed", self.not_begun("--good", self.ids[1]))
        self.done(self.top, "revert", "same")

    def test_what_is_pending(self):
        copy = WorkingCopy.find(self.top)
        for name, value, words in (
            ("drafts", [self.ids[20]], "there are 1 draft: `jarrah land`"),
            ("conflicts", ["lines"], "lines is a conflict"),
            ("rebase", Rebase(self.ids[20], [], self.ids[19], []), "a rebase isn't over"),
        ):
            before = getattr(copy.state, name)
            setattr(copy.state, name, value)
            copy.save()
            self.assertIn(words, self.not_begun("--good", self.ids[1]))
            setattr(copy.state, name, before)
            copy.save()

    def test_statuses(self):
        for status, verdict in ((0, GOOD), (1, BAD), (125, SKIPPED), (126, BAD), (127, BAD)):
            command = Command(["sh", "-c", f"exit {status}"], 125)
            self.assertIs(command.verdict(self.top), verdict)
        for script, words in (
            ("kill -9 $$", "sh was ended by signal 9"),
            ("exit 128", "sh ended with status 128, which is no verdict"),
            ("exit 255", "sh ended with status 255, which is no verdict"),
        ):
            with self.assertRaises(Trouble) as caught:
                Command(["sh", "-c", script], 125).verdict(self.top)
            self.assertEqual(str(caught.exception), words)

    def test_a_search_that_ends_goes_on(self):
        script = "test $n = 12 && kill -9 $$; test $n -lt 12"
        ran = self.bisect(script, "--bad", self.ids[18], good=10)
        self.assertEqual((ran.status, ran.out), (1, ""))
        *tried, said = ran.complaint.splitlines()
        self.assertEqual([int(line.split()[-1]) for line in tried], [14, 12])
        self.assertEqual(said, f"jarrah: sh was ended by signal 9; {self.goes_on(10, 14)}")
        self.is_back()
        told = self.document("test $n -lt 12", "--bad", self.ids[14], good=10)
        self.assertEqual(told["first_bad"], self.ids[12])

    def test_a_command_that_is_not_there(self):
        ran = self.within(self.top, "bisect", "--good", self.ids[1], "./not-there")
        self.assertEqual((ran.status, ran.out, ran.complaint.count("\n")), (1, "", 2))
        said = "jarrah: ./not-there can't be started: No such file or directory; "
        self.assertEqual(ran.complaint.splitlines()[1], said + self.goes_on(1, 20))
        self.is_back()
        with self.assertRaises(Trouble) as caught:
            Command(["./lines"], 125).verdict(self.top)
        self.assertEqual(str(caught.exception), "./lines can't be started: Permission denied")


class Folders(OnALine):
    """The folder, at what is tried and afterwards."""

    def lent(self) -> AbstractContextManager[Folder]:
        """The folder, brought back at the end."""
        return lent(WorkingCopy.find(self.top), self.to, 1)

    def test_each_tree(self):
        numbers = random.Random(0).sample(range(1, COUNT + 1), 8)
        with self.lent() as folder:
            for number in numbers:
                folder.go(self.ids[number])
                self.assertEqual(folder_files(self.top), files_of(number))
        self.is_back()

    def test_a_fault_at_each_write(self):
        for owner, name in ((disk.Putter, "put"), (disk.Ways, "remove")):
            whole = getattr(owner, name)
            for count in itertools.count():
                calls = itertools.count()

                def faulty(*words: object) -> object:
                    if next(calls) == count:
                        raise Trouble("the disk is full")
                    return whole(*words)

                try:
                    with self.lent() as folder:
                        folder.go(self.ids[10])
                        with mock.patch.object(owner, name, faulty):
                            folder.go(self.ids[13])
                        break
                except Trouble:
                    self.assertEqual(folder_files(self.top), files_of(COUNT))
            self.assertGreater(count, 2)
            self.is_back()

    def test_what_the_command_changes_is_put_back(self):
        script = "rm same lib/a; mkdir same; echo x > same/x; rmdir lib; echo x > lib"
        script += "; echo x > number; chmod +x lines; rm -r link; echo x > new; test $n -lt 7"
        ran = self.bisect(script, "--bad", self.ids[12], good=4)
        self.assertIn(f"the first bad one is\nchangeset {self.ids[7]}\n", ran.out)
        self.assertEqual(ran.complaint.count("\nput back lib/a, "), 3)
        self.is_back({"new": b"x\n"})

    def test_what_is_new_stays(self):
        (self.top / "test").write_bytes(b"read n < number; test $n -lt 13; exit $?")
        ran = self.within(self.top, "bisect", "--good", self.ids[11], "sh", "test")
        self.assertIn(f"\nchangeset {self.ids[13]}\n", ran.out)
        self.is_back({"test": (self.top / "test").read_bytes()})

    def test_what_is_new_and_in_the_way(self):
        for script, files, what in (
            ("mkdir -p at; echo x > at/15", {"at/15": b"x\n"}, "at/15"),
            ("mkdir -p at/15/in; echo x > at/15/in/x", {"at/15/in/x": b"x\n"}, "at/15/in/x"),
            ("mkdir -p at/15/in", {}, "at/15/in"),
            ("mkdir -p at; echo 15 > at/15", {"at/15": b"15\n"}, "at/15"),
            ("echo x > at", {}, "at"),
        ):
            ran = self.bisect(script, "--bad", self.ids[17], good=10)
            self.assertEqual((ran.status, ran.out), (1, ""))
            line = f"jarrah: {what} is new and in the way: {self.ids[15]} has at/15; "
            self.assertEqual(ran.complaint.splitlines()[-1], line + self.goes_on(13, 17))
            self.is_back(files)
            shutil.rmtree(self.top / "at" / "15", ignore_errors=True)
            (self.top / "at" / "15").unlink(missing_ok=True)

    def test_what_is_new_where_the_folder_had_a_file(self):
        for script in ("mkdir -p at; echo x > at/20", "mkdir -p at/20/in", "echo x > at"):
            ran = self.bisect(script, good=18)
            self.assertEqual((ran.status, ran.complaint.count("\ntook away at")), (0, 1), ran)
            self.is_back()

    def test_an_interrupt(self):
        script = "read n < number; test $n = 10 && exit 1; echo x > new; rm same; exec sleep 60"
        words = ["bisect", "--good", self.ids[1], "--", "sh", "-c", script]
        process = subprocess.Popen(
            [sys.executable, str(PROGRAM), *words],
            stdout=subprocess.PIPE,
            stderr=subprocess.PIPE,
            env=ENVIRONMENT,
            cwd=self.top,
            start_new_session=True,
            # A run in the background of a script ignores it.
            preexec_fn=lambda: signal.signal(signal.SIGINT, signal.SIG_DFL),
        )
        self.addCleanup(process.kill)
        while (self.top / "same").exists():
            self.assertIsNone(process.poll())
            time.sleep(0.01)
        os.killpg(process.pid, signal.SIGINT)
        out, err = process.communicate(timeout=60)
        self.assertEqual((process.returncode, out), (130, b""))
        last = err.decode().splitlines()[-2:]
        self.assertEqual(last, [self.goes_on(1, 10), "jarrah: interrupted"])
        self.is_back({"new": b"x\n"})

    def test_a_server_that_is_gone(self):
        """What is known is told also where the folder can't be brought back."""
        said = io.StringIO()
        with (
            redirect_stderr(said),
            mock.patch("jarrah_client.net.server.AGAIN_SECONDS", ()),
            self.assertRaises(Trouble) as caught,
            telling(Search("x", ["y", "z"])),
            self.lent() as folder,
        ):
            folder.go(self.ids[10])
            folder.server = Server("http://127.0.0.1:1")
            folder.go(self.ids[15])
        self.assertIn("; 2 changesets left: `--good x --bad z` goes on", str(caught.exception))
        words = f"the folder isn't back yet: `jarrah update {self.ids[20]}` brings it there\n"
        self.assertEqual(said.getvalue(), words)
        self.done(self.top, "update", self.name)
        self.is_back()


class Merges(Merging):
    """A line through merges."""

    def test_second_parents_are_not_on_the_line(self):
        first = self.put(self.base, changes={"x": ABC}).id
        second = self.put(self.base, changes={"y": ABC}).id
        merge = self.put(first, second, changes={}).id
        head = self.put(merge, changes={"z": ABC}).id
        log = CachedLog(self.to)
        self.assertEqual(line_between(self.to, log, first, head), [merge, head])
        with self.assertRaises(Trouble) as caught:
            line_between(self.to, log, second, head)
        said = f"{second} isn't on the line of first parents of {head}"
        self.assertEqual(str(caught.exception), said)
