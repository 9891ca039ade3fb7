"""Lines of diffs in bounds: each diff leads from one text to the other, and none takes long."""

from __future__ import annotations

import random
import time
import unittest
from pathlib import Path

from jarrah_client.text.diff import Hunk, counts, hunks
from jarrah_client.web.lines import MOST_LINES, bounded_hunks

MOST_SECONDS = 20
"""Of a processor; each takes under two."""


def patched(old: str, found: list[Hunk]) -> str:
    """The text that some hunks make of another, by the rules of unified diffs."""
    lines = old.split("\n")
    ends = [True] * (len(lines) - 1) + [False]
    left = [line + "\n" if end else line for line, end in zip(lines, ends) if line or end]
    made: list[str] = []
    at = 0
    for hunk in found:
        start = hunk.old_start - 1 if hunk.old_count else hunk.old_start
        made += left[at:start]
        at = start + hunk.old_count
        before = ""
        for tag, line in hunk.lines:
            if tag == "\\" and before != "-":
                made[-1] = made[-1].removesuffix("\n")
            if tag in " +":
                made.append(line + "\n")
            before = tag
    return "".join(made + left[at:])


class Lines(unittest.TestCase):
    """Texts of all sorts."""

    def compare(self, old: str, new: str) -> list[Hunk]:
        """The hunks of two texts, which have to be right, and soon there."""
        begun = time.process_time()
        found = bounded_hunks(old, new)
        self.assertLess(time.process_time() - begun, MOST_SECONDS)
        self.assertIsNotNone(found)
        self.assertEqual(patched(old, found), new)
        return found

    def test_random_texts(self):
        chance = random.Random(1)
        for _ in range(300):
            words = "abcdefgh"[: chance.randint(1, 8)]
            old, new = (
                "\n".join(chance.choices(words, k=chance.randint(0, 30))) for _ in range(2)
            )
            self.compare(old, new)

    def test_small_texts_as_ever(self):
        chance = random.Random(2)
        for _ in range(50):
            old = "".join(f"{chance.randrange(9)}\n" for _ in range(60))
            new = "".join(line for line in old.splitlines(True) if chance.random() > 0.2)
            self.assertEqual(bounded_hunks(old, new), list(hunks(old, new)))

    def test_lines_that_are_there_often(self):
        chance = random.Random(3)
        braces = ["".join(f"{{\n}}\n{n % k}\n" for n in range(6_000)) for k in (7, 5)]
        two = ["".join(chance.choices(["a\n", "b\n"], k=20_000)) for _ in range(2)]
        hundred = ["".join(f"{n * k % 101}\n" for n in range(20_000)) for k in (1, 7)]
        twice = ["".join(f"{n // k}\n" for n in range(20_000)) for k in (2, 3)]
        order = list(range(20_000))
        straight = "".join(f"{n}\n" for n in order)
        chance.shuffle(order)
        shuffled = "".join(f"{n}\n" for n in order)
        for old, new in (braces, two, hundred, twice, (straight, shuffled)):
            self.compare(old, new)

    def test_a_long_text_with_few_changes(self):
        folder = Path(__file__).resolve().parents[1]
        text = "".join(path.read_text() for path in sorted(folder.rglob("test_*.py")))
        lines = text.splitlines(True)[:MOST_LINES]
        kept = [line for number, line in enumerate(lines) if number % 97 != 96]
        kept[len(kept) // 2] = "another line\n"
        added, deleted = counts(self.compare("".join(lines), "".join(kept)))
        gone = len(lines) - len(kept)
        self.assertEqual(deleted - added, gone)
        self.assertLess(added, gone // 10)

    def test_too_many_lines(self):
        old, new = "a\n" * MOST_LINES, "b\n" * (MOST_LINES + 1)
        self.assertIsNotNone(bounded_hunks(old, old + ""))
        for pair in ((old, new), (new, old)):
            self.assertIsNone(bounded_hunks(*pair))
