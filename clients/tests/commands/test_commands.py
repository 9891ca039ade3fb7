"""The subcommands against a server, for people and for scripts."""

from __future__ import annotations

import base64
import io
import os
import subprocess
import sys
import threading

from jarrah_client.drafting.drafts import ROOT, read_date
from jarrah_client.formats.changesets import Changeset, CopySource, File
from jarrah_client.net.server import Server
from jarrah_client.terminal.output import clean, date
from jarrah_client.terminal.progress import Progress

from ..formats.test_encoding import ABC
from ..harness import (
    ENVIRONMENT,
    PROGRAM,
    Case,
    folder_files,
    fresh,
    has_manifests,
    jarrah,
    jarrah_process,
)

COMMANDS = (
    "init draft land commit bookmark backout checkout status update rebase amend revert resolve"
    " bisect log entries ls cat history annotate copies diff policy"
    " import-git export-git browse gateway"
).split()


class Words(Case):
    """Help, wrong usage, and what is written where."""

    def test_help_of_each(self):
        top = jarrah_process("--help")
        self.assertEqual(top.status, 0)
        for command in COMMANDS:
            self.assertIn(f"    {command}", top.out)
            ran = jarrah(command, "--help", server="http://127.0.0.1:1")
            self.assertEqual((ran.status, ran.err), (0, ""))
            self.assertIn("--json", ran.out)

    def test_wrong_usage(self):
        for words in (
            (),
            ("nothing",),
            ("log",),
            ("land", "main"),
            ("log", "main", "-n", "x"),
            ("draft", "--set", "a"),
            ("draft", "--parent", "none", "--set", "=x"),
            ("commit", "main", "--date", "yesterday"),
            ("import-git", ".", "main", "--connections", "0"),
            ("bookmark", "main", "--to", "x", "--delete"),
        ):
            ran = jarrah(*words, server="http://127.0.0.1:1")
            self.assertEqual((ran.status, ran.out), (2, ""), words)
        self.assertEqual(jarrah_process("log", "main").status, 2)

    def test_words_that_are_no_text(self):
        done = subprocess.run(
            [sys.executable, str(PROGRAM), "--server", self.server, "init", b"\xff"],
            capture_output=True,
            env=ENVIRONMENT,
        )
        self.assertEqual(done.returncode, 2)
        self.assertIn(b"isn't UTF-8", done.stderr)

    def test_the_server_by_a_variable(self):
        name = fresh()
        done = subprocess.run(
            [sys.executable, str(PROGRAM), "init", name],
            env=ENVIRONMENT | {"JARRAH_SERVER": self.server},
            capture_output=True,
        )
        self.assertEqual(done.returncode, 0)
        after = jarrah_process("bookmark", name, "--server", self.server)
        self.assertEqual((after.status, after.out), (0, f"{name} is at {ROOT.id}\n"))

    def test_urls(self):
        for url in ("ftp://x", "http://", "http://x:y", "http://127.0.0.1:1/below"):
            self.assertEqual(jarrah("log", "main", server=url).status, 1, url)
        bare = self.server.removeprefix("http://")
        self.assertEqual(jarrah("entries", "--from", "9" * 18, server=bare).status, 0)

    def test_a_pipe_that_closes(self):
        name = fresh()
        self.ok("init", name)
        command = f"'{sys.executable}' '{PROGRAM}' --server {self.server} log {name} | head -n 0"
        done = subprocess.run(["sh", "-c", command], capture_output=True, env=ENVIRONMENT)
        self.assertEqual(done.stderr, b"")

    def test_control_characters_are_shown(self):
        self.assertEqual(clean("a\x1b[2Jb\tü\n"), "a\\x1b[2Jb\tü\\n")

    def test_dates(self):
        self.assertEqual(date(0, 5_400), "1970-01-01 01:30:00 +0130")
        self.assertEqual(date(2**62, 0), f"@{2**62} +0")
        self.assertEqual(read_date("@-5 -0130"), (-5, -5_400))
        self.assertEqual(read_date("@7"), (7, 0))
        self.assertEqual(read_date("1970-01-01T01:30:00+01:30"), (0, 5_400))

    def test_a_progress_bar_on_a_terminal_alone(self):
        quiet, terminal = io.StringIO(), Terminal()
        for out in (quiet, terminal):
            with Progress("files", 4, out) as progress:
                progress.begun -= 1
                progress.step()
                progress.note("named")
        self.assertEqual(quiet.getvalue(), "named\n")
        self.assertIn("\x1b[Knamed\n", terminal.getvalue())
        self.assertRegex(terminal.getvalue(), r"\[#{7}\.{21}\] 1/4 files  [\d,]+/s")
        soon = Terminal()
        with Progress("files", 1, soon) as progress:
            progress.step()
        self.assertEqual(soon.getvalue(), "")


class Terminal(io.StringIO):
    """A terminal that keeps what is written."""

    def isatty(self) -> bool:
        return True


class Work(Case):
    """Changesets, bookmarks and trees."""

    def setUp(self) -> None:
        super().setUp()
        self.name = fresh()
        self.ok("init", self.name)
        self.abc = self.write("abc")

    def test_commit_in_processes_of_their_own(self):
        words = ("commit", self.name, "-m", "ü", "--set", "ü=-")
        ran = jarrah_process(*words, server=self.server, data=b"\xff")
        self.assertEqual((ran.status, ran.err), (0, ""))
        ran = jarrah_process("--json", "log", self.name, server=self.server)
        self.assertEqual([one["message"] for one in ran.documents], ["ü", ""])

    def committed(self) -> dict:
        """What a commit of a file, an executable and a link told."""
        run = self.write("run", b"#!/bin/sh\n")
        words = ["-m", "First\n\nwith a body", "--author", "Ann <a@b>"]
        words += ["--date", "@1000000000 +0100", "--symlink", "link=docs"]
        words += ["--set", f"docs/ä.txt={self.abc}", "--exec", f"run={run}"]
        return self.ask("commit", self.name, "-m", "c", *words)

    def test_commit(self):
        landed = self.committed()
        self.assertEqual((landed["old"], landed["ids"]), (ROOT.id, [landed["head"]]))
        found = self.ask("diff", self.name)["changes"]
        self.assertEqual([one["path"] for one in found], ["docs/ä.txt", "link", "run"])
        self.assertEqual([one["kind"] for one in found], ["regular", "symlink", "executable"])
        self.assertEqual(found[0]["content"], ABC)
        log = self.ok("log", self.name, "--patch-names").out
        names = log.partition(f"changeset {landed['head']}  (")[2].partition(")\n")[0]
        self.assertIn(self.name, names.split(", "))
        for line in (
            "author    Ann <a@b>",
            "date      2001-09-09 02:46:40 +0100",
            "    with a body",
            "    set f           3  docs/ä.txt",
        ):
            self.assertIn(f"\n{line}\n", "\n" + log)

    def test_look_at_files(self):
        self.committed()
        self.assertEqual(self.ok("cat", self.name, "docs/ä.txt").out, "abc")
        document = self.ask("cat", self.name, "docs/ä.txt")
        self.assertEqual((base64.b64decode(document["base64"]), document["size"]), (b"abc", 3))
        listed = self.ok("ls", self.name).out.split()
        self.assertEqual(listed, ["d", "docs/", "l", "4", "link", "x", "10", "run"])
        listed = self.ok("ls", "-r", self.name, "docs").out.split()
        self.assertEqual(listed, ["f", "3", "docs/ä.txt"])

    def test_check_out(self):
        self.committed()
        told = self.ask("checkout", self.name, self.folder / "out")
        source = "fsnodes" if has_manifests(self.server) else "fold"
        self.assertEqual((told["files"], told["source"]), (3, source))
        wanted = {
            "docs/ä.txt": ("regular", b"abc"),
            "link": ("symlink", b"docs"),
            "run": ("executable", b"#!/bin/sh\n"),
        }
        self.assertEqual(folder_files(self.folder / "out"), wanted)

    def test_drafts_and_stacks(self):
        first = self.draft(self.name, "--set", f"a={self.abc}", "-m", "one")
        second = self.draft(first, "--set", "b=-", "-m", "two", data=b"piped")
        self.assertEqual(self.ask("bookmark", self.name)["head"], ROOT.id)
        self.ok("commit", self.name, "--set", f"c={self.abc}", "-m", "between")
        landed = self.ok("land", self.name, second).out
        self.assertIn("landed 2 changesets", landed)
        titles = [one["message"] for one in self.ok("--json", "log", self.name).documents]
        self.assertEqual(titles, ["two", "one", "between", ""])
        self.assertEqual(self.ok("cat", self.name, "b").out, "piped")
        oneline = self.ok("log", self.name, "-n", 2, "--oneline").out.splitlines()
        self.assertEqual(len(oneline), 2)
        self.assertTrue(oneline[0].endswith("A Tester <tester@example.org>  two"))

    def test_a_content_is_uploaded_once(self):
        if self.stand_in is None:
            self.skipTest("a look inside the server")
        before = len(self.stand_in.repository.entries)
        unique = self.write("unique", os.urandom(20))
        self.draft(
            self.name, "--set", f"a={unique}", "--set", f"b={unique}", "--exec", f"c={unique}"
        )
        kinds = [entry["kind"] for entry in self.stand_in.repository.entries[before:]]
        self.assertEqual(kinds, ["content", "changeset"])

    def test_bookmarks(self):
        other = fresh("other")
        head = self.ask("commit", self.name, "-m", "c", "--set", f"a={self.abc}")["head"]
        self.assertEqual(self.ask("bookmark", other, "--to", head[:20])["head"], head)
        listed = self.ask("bookmark")["bookmarks"]
        self.assertEqual((listed[self.name], listed[other]), (head, head))
        self.ok("bookmark", other, "--to", ROOT.id, "--from", head)
        self.assertEqual(self.ok("bookmark", other).out, f"{other} is at {ROOT.id}\n")
        self.assertEqual(self.ok("bookmark", other, "--delete").out, f"{other} is deleted\n")
        self.assertNotIn(other, self.ask("bookmark")["bookmarks"])

    def test_file_to_folder_and_back(self):
        ids = []
        for words in (
            ("--set", f"p={self.abc}"),
            ("--set", f"p/q={self.abc}"),
            ("--set", f"p={self.abc}", "--delete", "p/q"),
            ("--delete", "p"),
            ("--set", f"p={self.abc}"),
        ):
            ids.append(self.ask("commit", self.name, "-m", "c", *words)["head"])
        for fold in ((), ("--fold",)):
            names = [self.ask("ls", id, "-r", *fold)["entries"] for id in ids]
            self.assertEqual(
                [[one["name"] for one in tree] for tree in names],
                [["p"], ["p/q"], ["p"], [], ["p"]],
            )
            history = self.ok("--json", "history", self.name, "p", *fold).documents
            self.assertEqual([one["id"] for one in history], [ids[4]])
            history = self.ok("--json", "history", ids[2], "p", *fold).documents
            self.assertEqual([one["id"] for one in history], [ids[2]])

    def test_who_touched_what_last(self):
        self.needs_manifests()
        words = ("--set", f"a/x={self.abc}", "--set", f"b={self.abc}")
        first = self.ask("commit", self.name, "-m", "c", *words)["head"]
        second = self.ask("commit", self.name, "-m", "c", "--set", f"a/y={self.abc}")["head"]
        listed = self.ask("ls", self.name, "--last")["entries"]
        self.assertEqual({one["name"]: one["last"] for one in listed}, {"a": second, "b": first})
        listed = self.ask("ls", self.name, "a", "--last")["entries"]
        self.assertEqual({one["name"]: one["last"] for one in listed}, {"x": first, "y": second})

    def copied(self) -> Changeset:
        """A draft whose file was copied from one of the head's."""
        words = ("-m", "c", "--set", f"p={self.abc}", "--date", "@5 +0000")
        head = self.ask("commit", self.name, *words)["head"]
        sets, source = {"q": File(ABC, 3)}, {"q": CopySource(0, "p")}
        draft = Changeset((head,), "A", 5, 3_600, "copy", sets, source)
        Server(self.server).put_changeset(draft)
        return draft

    def test_copies(self):
        self.needs_copies()
        draft = self.copied()
        rows = [{"from": "p", "parent": 0, "to": "q"}]
        self.assertEqual(self.ask("copies", draft.id), {"id": draft.id, "copies": rows})
        self.assertEqual(self.ok("copies", draft.id).out, "q  from p\n")
        self.assertEqual(self.ok("copies", self.name).out, "")
        self.assertEqual(self.ok("diff", draft.id).out, "set f           3  q  from p\n")
        change = self.ask("diff", draft.id)["changes"][0]
        self.assertEqual(change["copied"], {"parent": 0, "path": "p"})
        self.assertIn("has no changeset", self.refused("copies", "0" * 64))

    def test_the_moment_of_a_landing(self):
        self.needs_copies()
        draft = self.copied()
        landed = self.ask("land", self.name, draft.id)
        newest, older = self.ok("--json", "log", self.name, "-n", 2).documents
        moment = newest["landed"]["moment"]
        self.assertEqual((newest["id"], newest["parents"]), (landed["head"], list(draft.parents)))
        self.assertEqual((newest["seconds"], newest["offset"]), (moment, 0))
        self.assertEqual(newest["changes"][0]["copied"], {"parent": 0, "path": "p"})
        self.assertEqual((older["seconds"], "moment" in older["landed"]), (5, False))
        number = newest["landed"]["entry"]
        log = self.ok("log", self.name, "-n", 1, "--patch-names").out
        self.assertIn("\n    set f           3  q  from p\n", log)
        at = date(moment, 0)
        self.assertIn(f"\nlanded    on {self.name}, entry {number:,}, {at}\n", log)
        told = self.ok("entries", "--from", number).out.splitlines()[0]
        self.assertTrue(told.endswith(f"{landed['head']}  1 changeset  {at}"), told)
        entry = self.ok("--json", "entries", "--from", number).documents[0]
        self.assertEqual((entry["kind"], entry["moment"]), ("landing", moment))

    def test_names_that_a_target_has_to_escape(self):
        path = "a b/%41?#ü+&\"'"
        self.ok("commit", self.name, "-m", "c", "--set", f"{path}={self.abc}")
        self.assertEqual(self.ok("cat", self.name, path).out, "abc")
        self.assertEqual(len(self.ok("--json", "history", self.name, path).documents), 1)
        self.assertEqual(self.ask("ls", self.name, "a b")["entries"][0]["name"], path[4:])

    def test_entries(self):
        total = self.ok("--json", "entries").documents[-1]["number"] + 1
        process = subprocess.Popen(
            [
                sys.executable,
                str(PROGRAM),
                "--server",
                self.server,
                "entries",
                "--from",
                str(total),
                "--follow",
            ],
            stdout=subprocess.PIPE,
            env=ENVIRONMENT,
        )
        self.addCleanup(process.communicate)
        self.addCleanup(process.kill)
        data = os.urandom(9)
        self.ok("commit", self.name, "-m", "c", "--set", f"a={self.write('random', data)}")
        lines = [process.stdout.readline().decode() for _ in range(3)]
        self.assertRegex(lines[0], rf"^ *{total}  content    [0-9a-f]{{64}}  9 bytes\n$")
        self.assertRegex(lines[1], r"  changeset  [0-9a-f]{64}\n$")
        self.assertRegex(
            lines[2], rf"  landing    {self.name}  {ROOT.id} -> [0-9a-f]{{64}}  1 changeset\n$"
        )

    def test_a_long_chain(self):
        names = [
            jarrah("commit", self.name, "-m", str(n), server=self.server).status for n in range(120)
        ]
        self.assertEqual(set(names), {0})
        self.assertEqual(len(self.ok("--json", "log", self.name).documents), 121)


class AtOnce(Case):
    """Two clients that land on one bookmark at once."""

    def landed_at_once(self, name: str, *sets: str) -> list:
        """Lands drafts with these paths, each by a client of its own, all at once."""
        abc = self.write("abc")
        drafts = [self.draft(name, "--set", f"{path}={abc}", "-m", path) for path in sets]
        gate = threading.Barrier(len(drafts))
        found: list = [None] * len(drafts)

        def land(number: int) -> None:
            gate.wait()
            found[number] = jarrah_process("land", name, drafts[number], server=self.server)

        threads = [threading.Thread(target=land, args=(number,)) for number in range(len(drafts))]
        for thread in threads:
            thread.start()
        for thread in threads:
            thread.join()
        return found

    def test_both_stand(self):
        name = fresh()
        self.ok("init", name)
        found = self.landed_at_once(name, "left/x", "right/y")
        self.assertEqual([ran.status for ran in found], [0, 0])
        self.assertEqual(len(self.ok("--json", "log", name).documents), 3)
        listed = self.ask("ls", "-r", name)["entries"]
        self.assertEqual([one["name"] for one in listed], ["left/x", "right/y"])

    def test_one_is_told_its_clash(self):
        name = fresh()
        self.ok("init", name)
        found = sorted(self.landed_at_once(name, "lib/x", "lib"), key=lambda ran: ran.status)
        self.assertEqual([ran.status for ran in found], [0, 1])
        ours, theirs = (
            ("lib/x", "lib") if "lib/x in the draft" in found[1].err else ("lib", "lib/x")
        )
        self.assertIn(f"{ours} in the draft clashes with {theirs},", found[1].err)
        listed = self.ask("ls", "-r", name)["entries"]
        self.assertEqual([one["name"] for one in listed], [theirs])
