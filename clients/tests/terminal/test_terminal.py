"""Colours and pagers on a terminal, and bars that move."""

from __future__ import annotations

import io
import shutil
import tempfile
import unittest
from pathlib import Path
from unittest import mock

from jarrah_client.net.contents import store
from jarrah_client.terminal.pager import Pager
from jarrah_client.terminal.progress import CLEAR, Progress

from ..harness import ENVIRONMENT, jarrah, on_terminal
from ..working.test_working import CopyCase, with_line

ESCAPE = "\x1b"
PLAIN = {"TERM": "dumb"}
SHOWN = {"TERM": "xterm"}


class TerminalCase(CopyCase):
    """A working copy, and commands on a terminal."""

    def shown(self, *words: object, status: int = 0, **variables: str) -> str:
        """What a terminal shows of a command in the working copy."""
        ran = on_terminal(*words, folder=self.ours, **(SHOWN | variables))
        self.assertEqual(ran.status, status, ran)
        return ran.out


class Colours(TerminalCase):
    """Which lines have colours, and when."""

    def test_when(self):
        words = ("log", "--oneline")
        for variables, options, has in (
            ({}, (), True),
            (PLAIN, (), False),
            ({"NO_COLOR": "1"}, (), False),
            ({"NO_COLOR": ""}, (), True),
            ({"NO_COLOR": "1"}, ("--color", "always"), True),
            ({}, ("--color", "never"), False),
            ({}, ("--json",), False),
        ):
            told = self.shown(*words, *options, **variables)
            self.assertEqual(ESCAPE in told, has, (variables, options, told))
        self.assertNotIn(ESCAPE, self.done(self.ours, *words).out)
        self.assertIn(ESCAPE, self.done(self.ours, "--color", "always", *words).out)
        self.assertNotIn(ESCAPE, self.done(self.ours, "--json", "--color", "always", *words).out)
        self.assertEqual(self.within(self.ours, *words, "--color", "red").status, 2)

    def test_lines(self):
        (self.ours / "text").write_bytes(with_line(3, b"a \x1b[2J line"))
        (self.ours / "new").write_bytes(b"new\n")
        (self.ours / "lib" / "a").unlink()
        status = self.shown("status").splitlines()[1:]
        wanted = ["\x1b[31mD lib/a\x1b[0m", "\x1b[32mA new\x1b[0m", "\x1b[34mM text\x1b[0m"]
        self.assertEqual(sorted(status), wanted)
        diff = self.shown("diff", "text").splitlines()
        self.assertEqual(diff[:2], ["\x1b[1m--- a/text\x1b[0m", "\x1b[1m+++ b/text\x1b[0m"])
        self.assertIn("\x1b[31m-line 3\x1b[0m", diff)
        self.assertIn("\x1b[32m+a \\x1b[2J line\x1b[0m", diff)
        stat = self.shown("diff", "--stat", "text").splitlines()
        self.assertEqual(stat[0], "text  \x1b[32m+1\x1b[0m \x1b[31m-1\x1b[0m")
        id = self.first["head"][:12]
        log = self.shown("log", "--graph", "-n", "1").splitlines()
        self.assertEqual(log[0], f"* \x1b[33mchangeset {id}\x1b[0m  (\x1b[36m{self.name}\x1b[0m)")
        line = self.shown("annotate", "text").splitlines()[0]
        self.assertRegex(line, rf"^\x1b\[33m{id}\x1b\[0m  A Tester  [-\d]+  \x1b\[32m *1\x1b\[0m ")
        rows = [line.split(maxsplit=2)[-1] for line in self.shown("ls").splitlines()]
        lib, run, link = "\x1b[1;34mlib/\x1b[0m", "\x1b[1;32mrun\x1b[0m", "\x1b[1;36mlink\x1b[0m"
        self.assertEqual([row for row in rows if row.startswith(ESCAPE)], [lib, link, run])
        self.assertEqual(self.shown("history", "text").splitlines()[0][:19], f"\x1b[33m{id}\x1b[")

    def test_a_conflict_and_a_draft(self):
        (self.theirs / "text").write_bytes(with_line(3, b"theirs"))
        self.done(self.theirs, "commit", "--land", "-m", "Theirs")
        (self.ours / "text").write_bytes(with_line(3, b"ours"))
        self.done(self.ours, "update", status=1)
        self.assertIn("\x1b[35mC text\x1b[0m\n", self.shown("status"))
        self.done(self.ours, "resolve", "--ours", "text")
        draft = self.done(self.ours, "--json", "commit", "-m", "Ours").document["id"]
        self.assertIn(f"\x1b[33mdraft {draft[:12]}\x1b[0m  Ours\n", self.shown("status"))


class Pages(TerminalCase):
    """A pager, which is a script that keeps what it reads."""

    def setUp(self) -> None:
        super().setUp()
        self.place = self.folder / "read"
        self.command = f"tee {self.place} | sed s/^/page:/"

    def read(self) -> str:
        """What the pager has read since it was last asked for."""
        if not self.place.exists():
            return ""
        text = self.place.read_text()
        self.place.unlink()
        return text

    def test_which_commands(self):
        (self.ours / "text").write_bytes(with_line(3, b"ours"))
        for words in (("log",), ("diff",), ("annotate", "text"), ("history", "text")):
            told = self.shown(*words, JARRAH_PAGER=self.command)
            lines = told.splitlines()
            self.assertTrue(lines and all(line.startswith("page:") for line in lines), told)
            text = self.read()
            self.assertEqual(text, "".join(f"{line[5:]}\n" for line in lines))
            self.assertIn(ESCAPE, text)
        for words in (("status",), ("ls",), ("cat", "text"), ("log", "--json"), ("bookmark",)):
            self.assertNotIn("page:", self.shown(*words, JARRAH_PAGER=self.command))
            self.assertEqual(self.read(), "")
        self.done(self.ours, "log")
        self.assertEqual(self.read(), "")

    def test_which_pager(self):
        other = f"cat >{self.folder / 'other'}"
        config = self.write("jarrah/config", f"[default]\npager = {self.command}\n".encode())
        for variables, is_paged in (
            ({"JARRAH_PAGER": self.command, "PAGER": other}, True),
            ({"JARRAH_PAGER": "", "PAGER": self.command}, False),
            ({"JARRAH_PAGER": "cat", "PAGER": self.command}, False),
            ({"JARRAH_PAGER": self.command, **PLAIN}, False),
        ):
            told = self.shown("log", **variables)
            self.assertEqual("page:" in told, is_paged, (variables, told))
        for words in (("--no-pager", "log"), ("log", "--no-pager")):
            self.assertNotIn("page:", self.shown(*words, JARRAH_PAGER=self.command))
        with mock.patch.dict(ENVIRONMENT):
            del ENVIRONMENT["JARRAH_PAGER"]
            self.assertIn("page:", self.shown("log", PAGER=self.command))
            told = self.shown("log", PAGER=other, JARRAH_CONFIG=str(config))
            self.assertIn("page:", told)
        self.assertFalse((self.folder / "other").exists())

    def test_what_pagers_are_asked(self):
        command = f"cat >/dev/null; echo $LESS $LV >{self.place}"
        self.shown("log", JARRAH_PAGER=command)
        self.assertEqual(self.read(), "FRX -c\n")
        self.shown("log", JARRAH_PAGER=command, LESS="S")
        self.assertEqual(self.read(), "S -c\n")

    def test_one_that_ends_soon(self):
        data = b"".join(b"%d\n" % number for number in range(40_000))
        self.ok("commit", self.name, "-m", "Many", "--set", f"many={self.write('many', data)}")
        told = self.shown("diff", self.name, "--patch", JARRAH_PAGER="head -n 2")
        self.assertEqual(told.count("\n"), 2)

    def test_one_that_can_not_be_run(self):
        told = self.shown("log", JARRAH_PAGER="/absent/pager", status=1)
        self.assertIn("jarrah: the pager '/absent/pager' can't be run: JARRAH_PAGER names", told)

    def test_faults(self):
        told = self.shown("log", "absent", JARRAH_PAGER=self.command, status=1)
        self.assertNotIn("page:", told)
        self.assertIn("jarrah: there is no", told)

    def test_commands_without_one(self):
        """What a script reads is as without a pager."""
        told = jarrah("log", self.name, server=self.server)
        self.assertEqual((told.status, told.err), (0, ""))
        self.assertIn(self.first["head"], told.out)


class Terminal(io.StringIO):
    """A terminal in memory."""

    def isatty(self) -> bool:
        return True


class Bars(unittest.TestCase):
    """Bars that move while something goes on within the next one, and those that aren't drawn."""

    def bar(self, total: int) -> Progress:
        """A bar that has been going on for a minute."""
        bar = Progress("contents", total, Terminal())
        bar.begun -= 60
        return bar

    def test_many_small_ones(self):
        bar = self.bar(4)
        widths = []
        for _ in range(4):
            bar.step()
            bar.shown = 0.0
            widths.append(bar.line().count("#"))
        self.assertEqual(widths, [7, 14, 21, 28])

    def test_pieces_of_a_large_one(self):
        pieces = tuple(f"{number:064}" for number in range(8))
        large = mock.Mock(is_large=True, pieces=pieces, id="id")
        large.name = "large"
        server = mock.Mock()
        sent: set[str] = set()
        server.put_content.side_effect = lambda id, data: sent.add(id)
        lacking = lambda *_: next((one for one in pieces if one not in sent), None)  # noqa: E731
        server.put_whole.side_effect = lacking
        bar, parts = self.bar(1), []
        with mock.patch.object(Progress, "tick", lambda self: parts.append(self.part)):
            store(server, large, bar)
        self.assertEqual(parts, [number / 8 for number in range(8)])

    def test_none_beside_a_pager(self):
        bar = self.bar(4)
        with mock.patch.object(Progress, "is_hidden", True), bar:
            bar.step()
        self.assertEqual(bar.out.getvalue(), "")
        with bar:
            bar.step()
        self.assertTrue(bar.out.getvalue().startswith(CLEAR))
        self.assertFalse(Progress.is_drawn)


class Beginning(unittest.TestCase):
    """A pager in this process."""

    def test_lines_of_it(self):
        folder = Path(tempfile.mkdtemp(prefix="jarrah-pager-"))
        self.addCleanup(shutil.rmtree, folder)
        with mock.patch("sys.stdout", Terminal()) as terminal:
            one = Pager(f"cat >{folder / 'read'}")
            one.end()
            one.begin()
            print("ü", flush=True)
            one.end()
            print("after")
        self.assertEqual((folder / "read").read_bytes(), "ü\n".encode())
        self.assertEqual(terminal.getvalue(), "after\n")
