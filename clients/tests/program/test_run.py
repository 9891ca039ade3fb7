"""Words of `scripts/run` for which nothing is built."""

from __future__ import annotations

import os
import shutil
import subprocess
import tempfile
import unittest
from pathlib import Path

from ..harness import TOP

TEXTS = Path("crates/program_words/src/texts.rt")


class Run(unittest.TestCase):
    """A checkout in which nothing was built, and a toolchain that tells its calls."""

    def setUp(self) -> None:
        self.top = Path(tempfile.mkdtemp(prefix="jarrah-run-"))
        self.addCleanup(shutil.rmtree, self.top)
        for name in ("scripts/run", "crates.txt", str(TEXTS)):
            (self.top / name).parent.mkdir(parents=True, exist_ok=True)
            shutil.copy(TOP / name, self.top / name)
        for folder in ("specs", "proofs"):
            (self.top / "crates" / "hg_cli" / folder).mkdir(parents=True)
        self.calls = self.top / "calls"
        tool = self.top / "bin" / "rt"
        tool.parent.mkdir()
        tool.write_text(f"#!/bin/sh\necho called >> '{self.calls}'\nexit 1\n")
        tool.chmod(0o755)

    def ran(self, *words: str) -> tuple[int, str, str]:
        """The status and what was written."""
        path = f"{self.top / 'bin'}:{os.environ['PATH']}"
        environment = {**os.environ, "PATH": path, "JARRAH_UNPROVED": "0"}
        command = ["sh", str(self.top / "scripts" / "run"), *words]
        done = subprocess.run(command, env=environment, capture_output=True, text=True, timeout=100)
        return done.returncode, done.stdout, done.stderr

    def test_words_that_want_no_program(self):
        for words in (("--help",), ("-h",), ("serve", "--help"), ("--unproved", "-h")):
            status, out, err = self.ran(*words)
            self.assertEqual((status, err), (0, ""), words)
            self.assertTrue(out.startswith("hg_cli keeps a repository in one file"), out)
            self.assertIn("\nhg_cli follow FILE ADDR   brings", out)
            self.assertIn("\nscripts/run --build ", out)
            self.assertNotIn('"', out)
        for word in ("--version", "-V"):
            self.assertRegex(self.ran(word)[1], r"\Ahg_cli \d+\.\d+\.\d+\n\Z")
        for words in (("wrong",), (), ("--",), ("-x", "fsck"), ("Serve",)):
            status, out, err = self.ran(*words)
            self.assertEqual((status, out), (1, ""), words)
            self.assertRegex(err, r"\Ausage: hg_cli init FILE CAP [^\n]*\n\Z")
        self.assertFalse(self.calls.exists())

    def test_words_that_want_it(self):
        for words in (("fsck", "x"), ("--", "init"), ("--build",)):
            self.assertIn("was not built", self.ran(*words)[2])
            self.assertTrue(self.calls.exists(), words)
            self.calls.unlink()
