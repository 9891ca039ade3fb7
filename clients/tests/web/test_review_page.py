"""The page's review: its script's own functions by node, and working copies that are named."""

from __future__ import annotations

import json
import random
import re
import shutil
import subprocess
import sys
from typing import Any

from jarrah_client.net.server import Server
from jarrah_client.text.diff import hunks
from jarrah_client.web import pages
from jarrah_client.web.diffs import told
from jarrah_client.web.library import Library, Question
from jarrah_client.web.review.folders import folders

from ..harness import ENVIRONMENT, PROGRAM, Case
from ..working.test_working import CopyCase

STUBS = """
const window = { matchMedia: () => ({ matches: true, addEventListener() {} }) };
const localStorage = { getItem: () => null };
"""
WAYS_IN = r"innerHTML|outerHTML|insertAdjacentHTML|document\.write|\beval\(|new Function|DOMParser"
"""What would read a text as a page or a script."""


class Script(Case):
    """What the page's script does with lines."""

    @classmethod
    def setUpClass(cls) -> None:
        """It needs no server."""

    def by_node(self, expression: str, given: Any) -> Any:
        """What an expression of the script `sides.js` gives for `given`."""
        node = shutil.which("node")
        if not node:
            self.skipTest("node runs scripts")
        script = STUBS + (pages.FOLDER / "sides.js").read_text()
        script += f"\nconst given = {json.dumps(given)};\nconsole.log(JSON.stringify({expression}));"
        done = subprocess.run([node, "-e", script], capture_output=True, check=True)
        return json.loads(done.stdout)

    def test_nothing_is_read_as_a_page(self):
        self.assertRegex("x.innerHTML = y", WAYS_IN)
        for name in pages.SCRIPTS:
            text = (pages.FOLDER / name).read_text()
            self.assertIsNone(re.search(WAYS_IN, text), name)
            self.assertIsNone(re.search(r"setAttribute\(\"on|javascript:", text), name)

    def test_side_by_side(self):
        old, new = "a\nb\nc\nd\ne\n", "a\nB\nC\nX\nd\ne"
        found = [told(hunk) for hunk in hunks(old, new)]
        pairs = self.by_node("sideBySide(diffLines(given))", found)
        rows = [
            [side and (side["sign"], side["text"], side.get(key)) for side, key in zip(
                (pair.get("left"), pair.get("right")), ("old", "now"))]
            for pair in pairs[1:]
        ]
        self.assertEqual(rows, [
            [(" ", "a", 1), (" ", "a", 1)],
            [("-", "b", 2), ("+", "B", 2)],
            [("-", "c", 3), ("+", "C", 3)],
            [None, ("+", "X", 4)],
            [(" ", "d", 4), (" ", "d", 5)],
            [("-", "e", 5), ("+", "e", 6)],
        ])
        self.assertEqual(pairs[-1]["right"]["note"], "No newline at end of file")
        self.assertNotIn("note", pairs[-1]["left"])

    def test_both_columns_have_all_lines(self):
        chance = random.Random(3)
        for _ in range(20):
            old, new = ("".join(chance.choices(["a\n", "b\n", "c\n", "d\n"], k=12)) for _ in range(2))
            found = [told(hunk) for hunk in hunks(old, new)]
            pairs = self.by_node("sideBySide(diffLines(given))", found)
            for side, key, text in (("left", "old", old), ("right", "now", new)):
                lines = [one[side] for one in pairs if one.get(side) and one[side]["sign"] != "@"]
                numbers = [line[key] for line in lines]
                self.assertEqual(numbers, sorted(set(numbers)))
                for line in lines:
                    self.assertEqual(line["text"], text.split("\n")[line[key] - 1])

    def test_the_part_that_differs(self):
        for left, right, wanted in (
            ("self.a = 1", "self.a = 23", ("1", "23")),
            ("call(one)", "call(one, two)", ("", ", two")),
            ("abc", "xyz", None),
            ("grin \U0001f600 end", "grin \U0001f601 end", ("\U0001f600", "\U0001f601")),
            ("\U0001f600abcdef", "\U0001f400abcdef", ("\U0001f600", "\U0001f400")),
        ):
            pair = [{"sign": "-", "text": left}, {"sign": "+", "text": right}]
            words = "(([left, right]) => { markParts({ left, right }); return [left, right].map(({ text, part }) => part && text.slice(...part)); })(given)"
            found = self.by_node(words, pair)
            self.assertEqual(found, list(wanted) if wanted else [None, None], (left, right))


class Folders(CopyCase):
    """Working copies whose drafts are told."""

    def test_drafts_of_working_copies(self):
        (self.ours / "new").write_bytes(b"new\n")
        self.done(self.ours, "commit", "-m", "One\n\nbody")
        (self.ours / "new").write_bytes(b"newer\n")
        self.done(self.ours, "commit", "-m", "Two")
        drafts = self.done(self.ours, "--json", "log", "-n", "2").documents
        tops = [self.ours, self.theirs, self.folder / "gone"]
        library = Library(Server(self.server), fold=False, folders=tops)
        with library.connected() as visit:
            ours, theirs, gone = folders(visit, Question())["folders"]
        told = (ours["name"], ours["bookmark"], ours["root"], ours["error"])
        self.assertEqual(told, ("ours", self.name, self.first["head"], None))
        self.assertEqual([one["id"] for one in ours["drafts"]], [one["id"] for one in drafts])
        self.assertEqual([one["title"] for one in ours["drafts"]], ["Two", "One"])
        self.assertEqual((theirs["drafts"], theirs["error"]), ([], None))
        self.assertIn("No such file", gone["error"])

    def test_a_working_copy_of_another_server(self):
        library = Library(Server("http://127.0.0.1:1"), fold=False, folders=[self.ours])
        with library.connected() as visit:
            row = folders(visit, Question())["folders"][0]
        self.assertEqual(row["error"], f"it is a working copy of {self.server}")

    def test_what_is_no_working_copy(self):
        words = self.refused("browse", "--working-copy", self.folder)
        self.assertIn("is no working copy", words)

    def test_the_one_that_it_is_started_in(self):
        for words, cwd, names in (
            (["browse"], self.ours / "lib", ["ours"]),
            (["browse", "--working-copy", str(self.theirs)], self.ours, ["ours", "theirs"]),
            (["gateway"], self.ours, []),
            (["gateway", "--working-copy", "."], self.ours, ["ours"]),
        ):
            self.assertEqual(self.names(words, cwd), names, words)

    def names(self, words: list[str], cwd: Any) -> list[str]:
        """The names of the working copies that a program tells."""
        command = [sys.executable, str(PROGRAM), "--server", self.server, "--json", *words]
        process = subprocess.Popen(command, stdout=subprocess.PIPE, env=ENVIRONMENT, cwd=cwd)
        try:
            url = json.loads(process.stdout.readline())["url"]
            found = json.loads(Server(url).ask("GET", "/api/folders"))["folders"]
        finally:
            process.kill()
            process.communicate()
        return [one["name"] for one in found]
