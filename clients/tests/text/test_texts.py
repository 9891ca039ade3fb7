"""Diffs of texts and their merges, against git's."""

from __future__ import annotations

import difflib
import io
import random
import subprocess
import time
from contextlib import redirect_stdout
from itertools import pairwise

from jarrah_client.terminal.colours import painted
from jarrah_client.terminal.output import Output
from jarrah_client.text.diff import by_lines, merged, unified
from jarrah_client.text.matching import Matcher, places

from ..harness import Case
from ..working.test_working import LINES, with_line

EQUAL = "the same line\n" * 20_000
MIXED = "".join("the same line\n" * 9 + f"{number}\n" for number in range(199))
"""Of so few lines that difflib leaves out none for being there often."""
MOST_SECONDS = 20
"""Of a processor; each takes under two."""


class Texts(Case):
    """Diffs, and the merge of three texts by git and by difflib."""

    def test_diffs_are_those_of_git(self):
        chooser = random.Random(5)
        for _ in range(20):
            lines = [b"%d\n" % chooser.randrange(12) for _ in range(chooser.randrange(40))]
            old = b"".join(lines)
            for _ in range(chooser.randrange(1, 4)):
                if lines:
                    del lines[chooser.randrange(len(lines))]
                lines.insert(chooser.randrange(len(lines) + 1), b"new %d\n" % chooser.randrange(9))
            self.compare(old, b"".join(lines) + chooser.choice([b"", b"no end"]))

    def compare(self, old: bytes, new: bytes) -> None:
        """Has git make the one text of the other by the lines that differ."""
        patch = "".join(f"{line}\n" for line in unified("file", old, new))
        (self.folder / "file").write_bytes(old)
        words = ["git", "apply", "--unsafe-paths", "--whitespace=nowarn", "-"]
        subprocess.run(words, input=patch.encode(), cwd=self.folder, check=True)
        self.assertEqual((self.folder / "file").read_bytes(), new)

    def test_many_equal_lines(self):
        for old, new in ((MIXED, EQUAL), (EQUAL, MIXED), (EQUAL, EQUAL + "more\n")):
            begun = time.process_time()
            self.compare(old.encode(), new.encode())
            self.assertLess(time.process_time() - begun, MOST_SECONDS)

    def test_quick_ones_are_those_of_difflib(self):
        chance = random.Random(2)
        for kinds, length in [(9, 60)] * 50 + [(10**9, 3_000), (600, 3_000), (500, 1_500)]:
            old = [f"{chance.randrange(kinds)}\n" for _ in range(length)]
            new = [line for line in old if chance.random() > 0.2]
            junk = length > 2_000
            wanted = difflib.SequenceMatcher(None, old, new, autojunk=junk).get_opcodes()
            self.assertEqual(Matcher(old, new).get_opcodes(), wanted)

    def test_colours(self):
        out = Output(False, "always")
        lines = [out.written(line) for line in unified("p", b"a\n", b"b\n")]
        wanted = ["\x1b[1m--- a/p\x1b[0m", "\x1b[1m+++ b/p\x1b[0m", "\x1b[36m@@ -1 +1 @@\x1b[0m"]
        self.assertEqual(lines, [*wanted, "\x1b[31m-a\x1b[0m", "\x1b[32m+b\x1b[0m"])
        self.assertEqual(out.written(painted("32", "+\x1b[2J")), "\x1b[32m+\\x1b[2J\x1b[0m")
        self.assertEqual(out.written("\x1b[32m+"), "\\x1b[32m+")
        with redirect_stdout(io.StringIO()):
            self.assertEqual(Output(False).written(painted("32", "+")), "+")

    def test_by_lines(self):
        names = ("here", "there")
        for ours, theirs in (
            (with_line(2, b"ours"), with_line(15, b"theirs")),
            (LINES + b"ours\n", with_line(0, b"theirs")),
            (LINES.replace(b"line 5\n", b""), b"theirs\n" + LINES),
            (LINES, with_line(3, b"theirs")),
            (b"", LINES),
        ):
            found = by_lines(LINES, ours, theirs, names)
            self.assertEqual(found, merged(LINES, ours, theirs, names), ours)
            self.assertTrue(found[1])
        found, clean = by_lines(LINES, with_line(4, b"ours"), with_line(4, b"theirs"), names)
        self.assertFalse(clean)
        marks = b"<<<<<<< here\nours\n=======\ntheirs\n>>>>>>> there\n"
        self.assertEqual(found, LINES.replace(b"line 4\n", marks))
        self.assertEqual(merged(b"\0", b"\1\0", b"\2\0", names), (b"\1\0", False))

    def test_places(self):
        chooser = random.Random(6)
        for kinds in (3, 12, 10**9) * 100:
            lines = [[chooser.randrange(kinds) for _ in range(chooser.randrange(40))] for _ in "12"]
            shared = sorted({chooser.randrange(10**9, 10**10) for _ in range(9)})
            old, new = ([*map(str, sorted([*some, *shared]))] for some in lines)
            found = sorted(places(old, new).items())
            self.assertTrue(all(old[here] == new[there] for here, there in found))
            self.assertTrue(all(one[1] < other[1] for one, other in pairwise(found)))
            self.assertLessEqual({*map(str, shared)}, {old[here] for here, _ in found})
            chooser.shuffle(new)
            found = sorted(places(old, new).items())
            self.assertTrue(all(old[here] == new[there] for here, there in found))
            self.assertTrue(all(one[1] < other[1] for one, other in pairwise(found)))
