"""What trees and versions of stacks differ in, by rows, and by merges that are written out."""

from __future__ import annotations

from typing import Any
from unittest import mock

from jarrah_client.formats.changesets import CopySource, Kind
from jarrah_client.drafting.drafts import ROOT
from jarrah_client.net.server import Server
from jarrah_client.web import diffs
from jarrah_client.web.library import Library, Question
from jarrah_client.web.review import comparing, interdiffs
from jarrah_client.web.review.comparing import compare
from jarrah_client.web.review.interdiffs import interdiff

from .reviewing import Reviewing

TEXT = [b"line %d\n" % number for number in range(1, 31)]


def text(**lines: bytes) -> bytes:
    """The lines with others at some numbers, as `l5=b"mine"`."""
    found = list(TEXT)
    for name, line in lines.items():
        found[int(name[1:]) - 1] = line + b"\n"
    return b"".join(found)


def lines_of(row: dict[str, Any]) -> list[str]:
    """The lines of a row that came or went."""
    lines = [line for hunk in row["hunks"] for line in hunk["lines"]]
    return [line for line in lines if line[0] in "+-"]


def told(answer: dict[str, Any]) -> dict[str, tuple[str, list[str] | None]]:
    """What became of each file of an answer, and its lines."""
    return {
        one["path"]: (one["change"], lines_of(one) if one["hunks"] is not None else None)
        for one in answer["files"]
    }


class Trees(Reviewing):
    """One tree against another's."""

    def setUp(self) -> None:
        super().setUp()
        changes = {"f": text(), "dir/a": b"a\n", "dir/b": b"b\n", "gone": b"g\n", "bin": b"\0"}
        self.old = self.put("old", ROOT.id, changes)
        edits = {"f": text(l3=b"new"), "dir/b": None, "gone": None, "bin": b"\0\1", "x/y": b"y\n"}
        self.new = self.put("new", self.old, edits)

    def test_files(self):
        answer = self.got(f"/api/compare/{self.new}?against={self.old}")
        wanted = {
            "bin": ("edited", None),
            "dir/b": ("deleted", ["-b"]),
            "f": ("edited", ["-line 3", "+new"]),
            "gone": ("deleted", ["-g"]),
            "x/y": ("added", ["+y"]),
        }
        self.assertEqual(told(answer), wanted)
        self.assertEqual((answer["total"], answer["passed"], answer["next"]), (5, 0, None))
        back = told(self.got(f"/api/compare/{self.old}?against={self.new}"))
        self.assertEqual(back["x/y"], ("deleted", ["-y"]))
        self.assertEqual(list(back), list(wanted))
        under = told(self.got(f"/api/compare/{self.new}?against={self.old}&under=dir"))
        self.assertEqual(list(under), ["dir/b"])
        self.assertEqual(self.got(f"/api/compare/{self.new}?against={self.new}")["files"], [])

    def test_one_file(self):
        answer = self.got(f"/api/compare/{self.new}/f?against={self.old}")
        self.assertEqual(told(answer), {"f": ("edited", ["-line 3", "+new"])})

    def test_questions_that_break_a_rule(self):
        at = f"/api/compare/{self.new}"
        self.assertIn("say `against`", self.refused_by(400, at))
        self.assertIn("say `against`", self.refused_by(400, f"{at}?against="))
        self.assertIn("no difference", self.refused_by(400, f"{at}/dir/a?against={self.old}"))
        self.assertIn("no difference", self.refused_by(400, f"{at}/none?against={self.old}"))
        self.assertIn("count is 5,001", self.refused_by(400, f"{at}?against={self.old}&count=5001"))
        self.assertIn("no number", self.refused_by(400, f"{at}?against={self.old}&skip=-1"))
        self.assertIn("'agianst'", self.refused_by(400, f"{at}?agianst={self.old}"))
        self.assertIn("no changeset", self.refused_by(404, f"{at}?against={'0' * 64}"))
        self.assertIn("no changeset", self.refused_by(404, f"/api/compare/{'0' * 64}?against={self.old}"))

    def test_many_files_come_without_lines(self):
        many = {f"many/{number:03}": b"%d\n" % number for number in range(41)}
        new = self.put("many", self.new, many)
        answer = self.got(f"/api/compare/{new}?against={self.new}")
        self.assertEqual({one["why"] for one in answer["files"]}, {"later"})
        self.assertEqual([one["path"] for one in answer["files"]], list(many))
        found, skip = [], 0
        while skip is not None:
            part = self.got(f"/api/compare/{new}?against={self.new}&count=20&skip={skip}")
            self.assertLessEqual(len(part["files"]), 20)
            found += part["files"]
            skip = part["next"]
        self.assertEqual(found, answer["files"])
        one = self.got(f"/api/compare/{new}/many/040?against={self.new}")
        self.assertEqual(told(one), {"many/040": ("added", ["+40"])})

    def test_directories_that_are_too_many(self):
        self.needs_manifests()
        new = self.put("many", self.new, {f"d{number}/f": b"f\n" for number in range(5)})
        library = Library(Server(self.server), fold=False)
        question = Question(new, query={"against": self.new})
        with library.connected() as visit:
            with mock.patch.object(comparing, "MOST_DIRECTORIES", 3):
                answer = compare(visit, question)
            self.assertEqual((answer["total"], answer["passed"]), (3, 2))
            with mock.patch.object(comparing, "COMPARE_SECONDS", 0.0):
                answer = compare(visit, question)
            self.assertEqual((answer["total"], answer["passed"]), (0, 5))
            answer = compare(visit, question)
            self.assertEqual((answer["total"], answer["passed"]), (5, 0))

    def test_lines_that_take_too_long_come_later(self):
        with mock.patch.object(diffs, "LINES_SECONDS", 0.0):
            with Library(Server(self.server), fold=False).connected() as visit:
                answer = compare(visit, Question(self.new, query={"against": self.old}))
                rows = diffs.diff(visit, Question(self.new))["files"]
        for files in (answer["files"], rows):
            self.assertEqual({one["why"] for one in files}, {"later"})

    def test_a_changeset_without_its_lines(self):
        rows = self.got(f"/api/diff/{self.new}?lines=0")["files"]
        told = {one["path"]: (one["change"], one["why"]) for one in rows}
        words = {"f": "edited", "dir/b": "deleted", "gone": "deleted", "bin": "edited", "x/y": "added"}
        self.assertEqual(told, {path: (word, "later") for path, word in words.items()})

    def test_directories_are_read_together(self):
        self.needs_manifests()
        many = {f"d{number}/e/f": b"f\n" for number in range(20)}
        old = self.put("many", self.new, many)
        new = self.put("edits", old, {path: b"F\n" for path in many} | {"no/where": b"n\n"})
        with Library(Server(self.server), fold=False).connected() as visit:
            visit.tree(old)
            with mock.patch.object(Server, "fsnode", side_effect=AssertionError("one at a time")):
                found = diffs.files_at(visit.tree(old), [f"d{number}/e/f" for number in range(20)])
                self.assertEqual(set(found), set(many))
            rows = diffs.diff(visit, Question(new))["files"]
        words = {one["path"]: one["change"] for one in rows}
        self.assertEqual(words, dict.fromkeys(many, "edited") | {"no/where": "added"})

    def test_without_manifests(self):
        early = self.special_stand_in(has_manifests=False)
        server = Server(early.url)
        for id in (ROOT.id, self.old, self.new):
            one = self.to.changeset(id) if id != ROOT.id else ROOT
            for file in one.changes.values():
                if file:
                    server.put_content(file.content, self.to.content(file.content))
            server.put_changeset(one)
        question = Question(self.new, query={"against": self.old})
        with Library(server, fold=False).connected() as visit:
            found = told(compare(visit, question))
        self.assertEqual(found, told(self.got(f"/api/compare/{self.new}?against={self.old}")))


class Versions(Reviewing):
    """Two versions of a stack."""

    def setUp(self) -> None:
        super().setUp()
        self.base = self.land(self.put("base", ROOT.id, {"f": text(), "g": b"g\n", "h": b"h\n"}))

    def theirs(self, changes: dict[str, bytes | None]) -> str:
        """The bookmark's head once somebody else has landed."""
        return self.land(self.put("theirs", self.base, changes))

    def differ(self, old: str, new: str, **query: str) -> dict[str, Any]:
        """What two versions differ in."""
        words = "".join(f"&{name}={value}" for name, value in query.items())
        return self.got(f"/api/interdiff/{new}?against={old}{words}")

    def test_on_one_base(self):
        old = self.put("d", self.base, {"f": text(l3=b"old"), "g": b"old\n"})
        new = self.put("d", self.base, {"f": text(l3=b"new"), "k": b"k\n"}, like=old)
        answer = self.differ(old, new)
        wanted = {"f": ("edited", ["-old", "+new"]), "g": ("edited", ["-old", "+g"])}
        self.assertEqual(told(answer), wanted | {"k": ("added", ["+k"])})
        self.assertEqual((answer["base"], answer["against_base"]), (self.base, self.base))
        self.assertEqual(answer["files"], [
            one | {"conflict": None, "is_rebased": False}
            for one in self.got(f"/api/compare/{new}?against={old}")["files"]
        ])

    def test_a_rebase_alone_changes_nothing(self):
        old = self.put("d", self.base, {"f": text(l3=b"mine"), "k": b"k\n"})
        head = self.theirs({"f": text(l20=b"theirs"), "g": b"theirs\n", "h": None})
        new = self.put("d", head, {"f": text(l3=b"mine", l20=b"theirs"), "k": b"k\n"}, like=old)
        answer = self.differ(old, new)
        self.assertEqual((answer["files"], answer["total"]), ([], 0))
        self.assertEqual((answer["base"], answer["against_base"]), (head, self.base))
        trees = told(self.got(f"/api/compare/{new}?against={old}"))
        self.assertEqual(list(trees), ["f", "g", "h"])

    def test_what_was_changed_beside_the_rebase(self):
        low = self.put("low", self.base, {"f": text(l3=b"mine"), "k": b"k\n"})
        old = self.put("high", low, {"g": b"mine\n"})
        head = self.theirs({"f": text(l20=b"theirs")})
        mine = text(l3=b"mine", l10=b"more", l20=b"theirs")
        again = self.put("low", head, {"f": mine}, like=low)
        new = self.put("high", again, {"g": b"mine\n", "h": b"H\n"}, like=old)
        answer = self.differ(old, new)
        wanted = {"f": ("edited", ["-line 10", "+more"]), "h": ("edited", ["-h", "+H"])}
        self.assertEqual(told(answer), wanted | {"k": ("deleted", ["-k"])})
        rebased = {one["path"]: one["is_rebased"] for one in answer["files"]}
        self.assertEqual(rebased, {"f": True, "h": False, "k": False})
        one = self.got(f"/api/interdiff/{new}/f?against={old}")
        self.assertEqual(one["files"], [answer["files"][0]])
        pairs = [(p["before"]["id"], p["after"]["id"]) for p in answer["pairs"]]
        self.assertEqual(pairs, [(low, again), (old, new)])
        upper = self.differ(old, new, base=again, against_base=low)
        self.assertEqual(told(upper), {"h": ("edited", ["-h", "+H"])})

    def test_a_conflict_stands_between_marks(self):
        old = self.put("d", self.base, {"f": text(l3=b"mine")})
        head = self.theirs({"f": text(l3=b"theirs")})
        new = self.put("d", head, {"f": text(l3=b"both")}, like=old)
        row = self.differ(old, new)["files"][0]
        self.assertEqual(row["conflict"], "changed here and there")
        marks = ["-<<<<<<< here", "-mine", "-=======", "-theirs", "->>>>>>> there", "+both"]
        self.assertEqual(lines_of(row), marks)

    def test_what_one_side_deletes(self):
        old = self.put("d", self.base, {"f": text(l3=b"mine"), "g": None, "h": b"mine\n"})
        head = self.theirs({"f": None, "g": b"theirs\n"})
        new = self.put("d", head, {"h": b"mine\n"}, like=old)
        answer = self.differ(old, new)
        told = {one["path"]: (one["change"], one["conflict"]) for one in answer["files"]}
        wanted = {"f": ("deleted", "changed here and deleted there")}
        self.assertEqual(told, wanted | {"g": ("added", "deleted here and changed there")})

    def test_a_conflict_that_kept_what_was_before(self):
        old = self.put("d", self.base, {"f": text(l3=b"mine")})
        head = self.theirs({"f": None})
        new = self.put("d", head, {"f": text(l3=b"mine")}, like=old)
        row = self.differ(old, new)["files"][0]
        told = (row["path"], row["conflict"], row["hunks"])
        self.assertEqual(told, ("f", "changed here and deleted there", []))

    def test_kinds(self):
        old = self.put("d", self.base, {"run": b"r\n"}, kind=Kind.EXECUTABLE)
        new = self.put("d", self.base, {"run": b"r\n"}, like=old)
        row = self.differ(old, new)["files"][0]
        kinds = (row["before"]["kind"], row["after"]["kind"], row["hunks"])
        self.assertEqual(kinds, ("executable", "regular", []))

    def test_what_the_second_takes_back_of_the_base(self):
        old = self.put("d", self.base, {"g": b"mine\n"})
        head = self.theirs({"f": text(l3=b"theirs")})
        new = self.put("d", head, {"g": b"mine\n", "f": text()}, like=old)
        self.assertEqual(told(self.differ(old, new)), {"f": ("edited", ["-theirs", "+line 3"])})

    def test_drafts_that_came_and_went(self):
        low, high = self.line("d", b"1", b"2", at=self.base)
        again = self.put("d 0", self.base, {"f": b"1!"}, like=low)
        new = self.put("new", again, {"x": b"x"})
        pairs = [
            tuple(one and one["id"] for one in (pair["before"], pair["after"]))
            for pair in self.differ(high, new)["pairs"]
        ]
        self.assertEqual(pairs, [(low, again), (None, new), (high, None)])
        retold = self.put("d 1", again, {"x": b"x"})
        pairs = [(p["before"]["id"], p["after"]["id"]) for p in self.differ(high, retold)["pairs"]]
        self.assertEqual(pairs, [(low, again), (high, retold)])

    def test_what_is_not_merged_is_told(self):
        names = [f"m{number}" for number in range(4)]
        base = self.put("many", self.base, {name: text() for name in names})
        head = self.put("theirs", base, {name: text(l20=b"theirs") for name in names})
        old = self.put("d", base, {name: text(l3=b"mine") for name in names})
        new = self.put("d", head, {name: text(l3=b"mine", l20=b"theirs") for name in names}, like=old)
        question = Question(new, query={"against": old, "base": head, "against_base": base})
        with Library(Server(self.server), fold=False).connected() as visit:
            for bound, value, unmerged in (("MOST_MERGED", 1, 3), ("MERGE_SECONDS", 0.0, 4)):
                with mock.patch.object(interdiffs, bound, value):
                    answer = interdiff(visit, question)
                self.assertEqual((answer["unmerged"], answer["total"]), (unmerged, unmerged))
                found = {(one["path"], one["why"]) for one in answer["files"]}
                self.assertEqual(found, {(name, "later") for name in names[4 - unmerged :]})
            self.assertEqual(interdiff(visit, question)["total"], 0)
        at = f"/api/interdiff/{new}/m3?against={old}&base={head}&against_base={base}"
        self.assertIn("no difference", self.refused_by(400, at))

    def test_a_file_that_the_base_has_moved(self):
        self.needs_copies()
        old = self.put("d", self.base, {"f": text(l3=b"mine")})
        moved = {"f": None, "moved": text(l20=b"theirs")}
        head = self.land(self.put("theirs", self.base, moved, copies={"moved": CopySource(0, "f")}))
        mine = {"moved": text(l3=b"mine", l20=b"theirs")}
        self.assertEqual(self.differ(old, self.put("d", head, mine, like=old))["files"], [])
        new = self.put("d", head, {"moved": text(l3=b"mine", l10=b"more", l20=b"theirs")}, like=old)
        answer = self.differ(old, new)
        self.assertEqual(told(answer), {"moved": ("edited", ["-line 10", "+more"])})
        self.assertEqual(answer["files"][0]["moved_from"], "f")
        nothing = self.put("d", head, {"g": b"mine\n"}, like=old)
        lost = told(self.differ(old, nothing))
        self.assertEqual(lost["moved"], ("edited", ["-mine", "+line 3"]))

    def test_questions_that_break_a_rule(self):
        old = self.put("d", self.base, {"g": b"mine\n"})
        at = f"/api/interdiff/{old}"
        self.assertIn("say `against`", self.refused_by(400, at))
        self.assertIn("no difference", self.refused_by(400, f"{at}/none?against={old}"))
        other = self.put("other", ROOT.id, {"g": b"g\n"})
        words = self.refused_by(400, f"{at}?against={old}&base={other}")
        self.assertEqual(words, f"{other} isn't on the line of first parents of {old}")
        self.assertIn("'under'", self.refused_by(400, f"{at}?against={old}&under=a"))
        self.assertIn("no changeset", self.refused_by(404, f"{at}?against={'0' * 64}"))
