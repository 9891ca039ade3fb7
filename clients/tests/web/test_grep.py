"""Search in the contents of a tree, by rows, and in random trees as a plain loop finds it."""

from __future__ import annotations

import random
from typing import Any
from unittest import mock
from urllib.parse import quote

from jarrah_client.formats.changesets import Kind
from jarrah_client.drafting.drafts import ROOT
from jarrah_client.formats.paths import path_key
from jarrah_client.net.server import Server
from jarrah_client.web.library import Library, Question
from jarrah_client.web.review import grep as grep_module
from jarrah_client.web.review.grep import grep

from .reviewing import Reviewing
from .test_gateway import sets


class Grep(Reviewing):
    """What is found, what is passed over, and what is refused."""

    words = ("gateway",)

    def search(self, id: str, text: str, path: str = "", **query: Any) -> dict[str, Any]:
        """What a search is answered by."""
        words = "".join(f"&{name}={quote(str(value))}" for name, value in query.items())
        return self.got(f"/api/grep/{id}/{path}?text={quote(text, safe='')}{words}")

    def places(self, answer: dict[str, Any]) -> list[tuple[str, int, str]]:
        """Where lines were found, and the lines."""
        return [
            (file["path"], line["line"], line["text"])
            for file in answer["files"]
            for line in file["lines"]
        ]

    def test_lines(self):
        id = self.put("t", ROOT.id, {
            "a": b"one\nNeedle here\nno\nneedle\n",
            "b/c": "weiß Needle <script>\r\n".encode(),
            "b/d": b"needl\nneed\nle\n",
            "e": b"needle",
        })
        found = self.search(id, "needle")
        wanted = [("a", 2, "Needle here"), ("a", 4, "needle"), ("b/c", 1, "weiß Needle <script>\r")]
        self.assertEqual(self.places(found), [*wanted, ("e", 1, "needle")])
        told = (found["lines"], found["looked_at"], found["stopped"], found["next"])
        self.assertEqual(told, (4, 4, None, None))
        cased = self.search(id, "Needle", case=1)
        self.assertEqual(self.places(cased), [wanted[0], wanted[2]])
        self.assertEqual(self.places(self.search(id, "WEISS n")), [wanted[2]])
        self.assertEqual(self.places(self.search(id, "<script>")), [wanted[2]])
        self.assertEqual(self.places(self.search(id, "n.edle")), [])
        self.assertEqual(self.places(self.search(id, "needle", "b")), [wanted[2]])
        self.assertEqual(self.places(self.search(id, "needle", "a", case=1)), [wanted[1]])

    def test_what_is_passed_over(self):
        self.needs_wholes()
        link = self.put("l", ROOT.id, {"link": b"needle"}, kind=Kind.SYMLINK)
        large = sets("large", b"needle\n" * 149_797)
        changes = [sets("bin", b"needle\0"), sets("ok", b"needle\n"), sets("wrong", b"\xffneedle"), large]
        _, made = self.upload(*changes, parent=link)
        found = self.search(made["id"], "needle")
        self.assertEqual(self.places(found), [("ok", 1, "needle")])
        told = {name: found[name] for name in ("looked_at", "binary", "large", "bytes")}
        self.assertEqual(told, {"looked_at": 3, "binary": 2, "large": 1, "bytes": 21})

    def test_many_lines_of_a_file_and_long_ones(self):
        long = b"x" * 1_000 + b"needle" + b"y" * 1_000
        id = self.put("t", ROOT.id, {"many": b"needle\n" * 21, "long": long, "some": b"needle\n" * 20})
        found = {one["path"]: one for one in self.search(id, "needle")["files"]}
        counts = {path: (len(one["lines"]), one["more"]) for path, one in found.items()}
        self.assertEqual(counts, {"long": (1, False), "many": (20, True), "some": (20, False)})
        line = found["long"]["lines"][0]
        self.assertTrue(line["is_cut"])
        self.assertEqual(line["text"], "x" * 100 + "needle" + "y" * 194)

    def test_questions_that_break_a_rule(self):
        id = self.put("t", ROOT.id, {"a": b"a\n"})
        at = f"/api/grep/{id}"
        for query, words in (
            ("", "text has 0 characters"),
            ("?text=", "text has 0 characters"),
            (f"?text={'x' * 201}", "text has 201 characters"),
            ("?text=a%0Ab", "a line end"),
            ("?text=a%00b", "a zero byte"),
            ("?text=a&case=2", "case is 2"),
            ("?text=a&case=yes", "no number"),
            ("?text=a&from=a/../b", "no path"),
            ("?text=a&regex=1", "'regex' is no word"),
        ):
            self.assertIn(words, self.refused_by(400, at + query), query)
        self.assertIn("nothing at this path", self.refused_by(404, f"{at}/none?text=a"))
        self.assertIn("nothing at this path", self.refused_by(404, f"{at}/none/b?text=a"))
        self.assertIn("no changeset", self.refused_by(404, f"/api/grep/{'0' * 64}?text=a"))


class Bounds(Reviewing):
    """A search that stops goes on where it stopped, and finds what one without bounds does."""

    def found(self, id: str, path: str, bounds: dict[str, Any], fold: bool) -> tuple[list, set]:
        """What searches find one after another, and by which bounds they stopped."""
        places: list[tuple[str, int]] = []
        reasons, start = set(), {}
        with (
            mock.patch.multiple(grep_module, **bounds),
            Library(Server(self.server), fold).connected() as visit,
        ):
            while True:
                answer = grep(visit, Question(id, path, {"text": "x"} | start))
                places += [(one["path"], row["line"]) for one in answer["files"] for row in one["lines"]]
                reasons.add(answer["stopped"])
                if answer["next"] is None:
                    self.assertIsNone(answer["stopped"])
                    return places, reasons - {None}
                self.assertGreater(path_key(answer["next"]), path_key(start.get("from", "")))
                start = {"from": answer["next"]}

    def tree(self, chance: random.Random) -> dict[str, bytes]:
        """Files of a few names at some depths, half of them with the text."""
        names = ["a", "a.b", "a0", "b", "ä", "B"]
        files: dict[str, bytes] = {}
        for _ in range(40):
            path = "/".join(chance.choices(names, k=chance.randint(1, 4)))
            if not any(f"{one}/".startswith(f"{path}/") or f"{path}/".startswith(f"{one}/") for one in files):
                files[path] = chance.choice([b"x\n", b"y\n", b"y\nX\n", b"x\0"])
        return files

    def test_random_trees(self):
        self.needs_manifests()
        chance = random.Random(7)
        for number in range(6):
            files = self.tree(chance)
            id = self.put(f"t{number}", ROOT.id, files)
            wanted = [
                (path, 1 + data.split(b"\n").index(line))
                for path, data in sorted(files.items(), key=lambda one: path_key(one[0]))
                for line in (b"x", b"X")
                if line in data.split(b"\n")
            ]
            for bound, bounds in (
                (None, {"MOST_FILES": 2_000}),
                ("files", {"MOST_FILES": chance.randint(1, 5), "READ_AHEAD": 2}),
                ("bytes", {"MOST_BYTES": chance.randint(1, 9), "CHUNK_FILES": 2}),
                ("lines", {"MOST_LINES": chance.randint(1, 3), "CHUNK_BYTES": 3}),
                ("time", {"GREP_SECONDS": 0.0, "CHUNK_FILES": 3, "READ_AHEAD": 1}),
            ):
                for fold in (False, True):
                    found, reasons = self.found(id, "", bounds, fold)
                    self.assertEqual(found, wanted, (bounds, files))
                    self.assertEqual(reasons, {bound} if bound else set())
            top = sorted(files)[0].partition("/")[0]
            under = [one for one in wanted if one[0] == top or one[0].startswith(f"{top}/")]
            self.assertEqual(self.found(id, top, {"MOST_FILES": 2}, False)[0], under)

    def test_directories_are_read_as_they_are_come_to(self):
        self.needs_manifests()
        files = {f"d{number:02}/f": b"x\n" for number in range(20)}
        id = self.put("t", ROOT.id, files)
        with (
            mock.patch.multiple(grep_module, MOST_FILES=3, READ_AHEAD=2),
            Library(Server(self.server), fold=False).connected() as visit,
        ):
            grep(visit, Question(id, "", {"text": "x"}))
            self.assertLessEqual(len(visit.tree(id).nodes), 1 + 4)
