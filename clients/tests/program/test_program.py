"""The session that the program's run is compared with."""

import re
import unittest

from ..harness import TOP
from ..program_session import PROGRAM, made

FORMATS = (TOP / "docs" / "FORMATS.md").read_text()


class ProgramSession(unittest.TestCase):
    def test_committed_files_are_as_made(self) -> None:
        script = made()
        for name, data in [("stdin", script.read), ("stdout", script.written)]:
            with self.subTest(name):
                self.assertEqual((PROGRAM / name).read_bytes(), data, "run scripts/session-script")

    def test_worked_ids_are_answered(self) -> None:
        worked = set(re.findall(r"`([0-9a-f]{64})`", FORMATS.split("## Nodes of manifests")[0]))
        self.assertEqual(len(worked), 5)
        uploaded = set(re.findall(r"with the id `([0-9a-f]{64})`", FORMATS))
        self.assertEqual(len(uploaded), 2)
        answered = made().written
        for id in worked | uploaded:
            self.assertIn(f'"id":"{id}"'.encode(), answered)
