"""New files that are passed over: by `.gitignore` files as git has them, and `.jarrahignore`."""

from __future__ import annotations

import os
import random
import subprocess
import tempfile
import unittest
from pathlib import Path
from unittest import mock

from jarrah_client.formats.changesets import File
from jarrah_client.working.scan import walked
from jarrah_client.working.state import NEVER, Kept, State, WorkingCopy

from ..harness import ENVIRONMENT

NAMES = ["a", "b.c", "b.o", "build", "c d", "doc", "ä", "x[1]", "#hash", "!bang", "lib", "z.tmp"]
WHOLE = """a b.c *.o build/ /build doc/** **/doc a/**/lib [ab].c [!a]*.o ?.c ä \\#hash \\!bang
!b.o !lib/ lib/* !lib/a x\\[1\\] [[:alpha:]] *.t?p **/ a/ */b.o c\\ d **a b** [a-c]*/ [^x]* [ [a
a\\\x20
/** /*/a !a/b.c c?d [[:digit:]-] [a\\-c] x[[]1] *** a** a**/b lib/**/a ***/a
[[:nonsense:]]""".split(
    " "
)
LINES = [line for text in WHOLE for line in text.split("\n") if line] + ["c d", "c d  ", "", "# no"]
CASES = 60


def files_by_git(top: Path) -> set[str]:
    """The new files that git would look at."""
    words = ["git", "-C", str(top), "ls-files", "-z", "--others", "--exclude-standard"]
    environment = ENVIRONMENT | {"GIT_CONFIG_GLOBAL": os.devnull}
    out = subprocess.run(words, capture_output=True, check=True, env=environment).stdout
    return {os.fsdecode(path) for path in out.split(b"\0") if path}


def looked_at(top: Path, known: tuple[str, ...] = ()) -> set[str]:
    """The files that a scan looks at, where the base has some."""
    kept = {path: Kept(File("0" * 64, 0), NEVER) for path in known}
    copy = WorkingCopy(top, State("http://127.0.0.1:1", None, "0" * 64, files=kept))
    return {path for path, _ in walked(copy)}


class Ignored(unittest.TestCase):
    """Folders with files of patterns."""

    def setUp(self) -> None:
        held = tempfile.TemporaryDirectory(prefix="jarrah-test-")
        self.addCleanup(held.cleanup)
        self.top = Path(held.name)

    def put(self, path: str, text: str = "") -> None:
        place = self.top / path
        place.parent.mkdir(parents=True, exist_ok=True)
        place.write_text(text, encoding="utf-8", newline="")

    def test_as_git_has_it(self):
        chance = random.Random(20_261_201)
        environment = ENVIRONMENT | {"GIT_CONFIG_GLOBAL": os.devnull}
        subprocess.run(["git", "init", "-q", str(self.top)], check=True, env=environment)
        folders = ["", "a/", "build/", "a/lib/", "lib/", "doc/a/", "a/doc/lib/", "ä/"]
        for folder in folders:
            for name in NAMES:
                if not any(one.startswith(f"{folder}{name}/") for one in folders):
                    self.put(folder + name)
        passed = 0
        for case in range(CASES):
            said = {folder: chance.choices(LINES, k=chance.randint(0, 4)) for folder in folders}
            for folder, lines in said.items():
                end = chance.choice(("\n", "\n", "\r\n"))
                self.put(f"{folder}.gitignore", end.join(lines) + chance.choice((end, "")))
            wanted = files_by_git(self.top)
            self.assertEqual(looked_at(self.top), wanted, said)
            passed += len(wanted) < len(folders) * len(NAMES)
        self.assertGreater(passed, CASES // 2)

    def test_what_the_base_has_is_looked_at(self):
        self.put(".gitignore", "build/\n*.o\n")
        for path in ("build/kept", "build/new", "build/in/kept", "build/in/new", "x.o", "y.o"):
            self.put(path)
        known = ("build/kept", "build/in/kept", "x.o", "gone")
        self.assertEqual(looked_at(self.top, known), {".gitignore", *known[:3]})

    def test_own_patterns_beside(self):
        self.put(".jarrahignore", "# no\nout/deep\n*.tmp\nsome\n")
        self.put(".gitignore", "*.o\n!b.tmp\n")
        for path in ("out/deep/a", "out/a", "b.tmp", "c.o", "some/x", "d"):
            self.put(path)
        self.assertEqual(looked_at(self.top), {".gitignore", ".jarrahignore", "d", "out/a"})

    def test_folders_that_are_passed_over_are_not_entered(self):
        self.put("build/deep/file")
        self.put(".gitignore", "build\n")
        entered = []
        scandir = os.scandir
        with mock.patch.object(
            os, "scandir", lambda place: entered.append(Path(place).name) or scandir(place)
        ):
            looked_at(self.top)
        self.assertEqual(entered, [self.top.name])

    def test_patterns_that_are_no_file(self):
        self.put("a")
        self.put("patterns", "a\n")
        (self.top / ".gitignore").symlink_to("patterns")
        self.assertEqual(looked_at(self.top), {".gitignore", "a", "patterns"})
        (self.top / ".gitignore").unlink()
        (self.top / ".gitignore").mkdir()
        self.assertEqual(looked_at(self.top), {"a", "patterns"})
