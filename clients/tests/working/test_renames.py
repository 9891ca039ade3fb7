"""Renames and copies: how they are found, said, followed and told."""

from __future__ import annotations

import unittest

from jarrah_client.formats.changesets import File, Kind
from jarrah_client.formats.fields import digest
from jarrah_client.net.server import Server
from jarrah_client.text.renames import MOST_PAIRS, found
from jarrah_client.web.library import Library, Question

from .test_working import LINES, CopyCase, with_line

SOME = with_line(4, b"edited")


class Finding(unittest.TestCase):
    """What files were made of, by their bytes."""

    def sources(self, new: dict, gone: dict, kept: dict = {}) -> dict[str, str]:
        """Where new files were, given all bytes."""
        data: dict[str, bytes] = {}

        def files(named: dict[str, bytes]) -> dict[str, File]:
            data.update((digest(one), one) for one in named.values())
            return {path: File(digest(one), len(one)) for path, one in named.items()}

        read = lambda file: data[file.content]  # noqa: E731
        return found(files(new), files(gone), files(kept), read).sources

    def test_equal_bytes(self):
        self.assertEqual(self.sources({"b": b"x"}, {"a": b"x", "c": b"y"}), {"b": "a"})
        names = self.sources({"d/q": b"x", "d/p": b"x"}, {"p": b"x", "q": b"x"})
        self.assertEqual(names, {"d/p": "p", "d/q": "q"})
        self.assertEqual(self.sources({"b": b"x"}, {}, {"a": b"x"}), {"b": "a"})
        self.assertEqual(self.sources({"b": b"x", "c": b"x"}, {"a": b"x"}), {"b": "a"})

    def test_empty_files(self):
        new = {"d/a": b"", "b": b""}
        self.assertEqual(self.sources(new, {"a": b"", "c": b""}), {"d/a": "a"})

    def test_similar_lines(self):
        self.assertEqual(self.sources({"b": SOME}, {"a": LINES, "c": b"x"}), {"b": "a"})
        half = b"".join(LINES.splitlines(keepends=True)[:9])
        self.assertEqual(self.sources({"b": half}, {"a": LINES}), {})
        self.assertEqual(self.sources({"b": SOME + b"more\n"}, {"a": LINES, "c": SOME}), {"b": "c"})
        self.assertEqual(self.sources({"b": SOME, "c": SOME + b"x"}, {"a": LINES}), {"b": "a"})

    def test_kinds_and_bounds(self):
        link, file = File(digest(b"x"), 1, Kind.SYMLINK), File(digest(b"x"), 1)
        self.assertEqual(found({"b": link}, {"a": file}, {}, None).sources, {})
        run = File(digest(b"x"), 1, Kind.EXECUTABLE)
        self.assertEqual(found({"b": run}, {"a": file}, {}, None).sources, {"b": "a"})
        many = {str(n): File(digest(b"%d" % n), 9) for n in range(MOST_PAIRS)}
        looked = found({"a": File("0" * 64, 9), "b": File("1" * 64, 9)}, many, {}, None)
        self.assertEqual((looked.sources, looked.is_cut), ({}, True))


class RenameCase(CopyCase):
    """Renames in working copies."""

    def copies(self, revision: str) -> dict[str, str]:
        rows = self.ask("copies", revision)["copies"]
        return {row["to"]: row["from"] for row in rows}

    def renamed(self, old: str, new: str, data: bytes | None = None) -> None:
        """Moves a file in the other copy, as by `mv`, and lands that."""
        (self.theirs / new).parent.mkdir(exist_ok=True)
        (self.theirs / old).rename(self.theirs / new)
        if data is not None:
            (self.theirs / new).write_bytes(data)
        self.done(self.theirs, "commit", "--land", "-m", f"Rename {old}")


class Committing(RenameCase):
    """What a commit tells of renames."""

    def setUp(self) -> None:
        super().setUp()
        self.needs_copies()

    def test_found_at_a_commit(self):
        (self.ours / "text").rename(self.ours / "words")
        (self.ours / "words").write_bytes(SOME)
        (self.ours / "run").rename(self.ours / "lib" / "run")
        self.done(self.ours, "commit", "--land", "-m", "Renamed")
        self.assertEqual(self.copies(self.name), {"words": "text", "lib/run": "run"})
        lines = self.ok("annotate", self.name, "words").out.splitlines()
        first, now = self.first["head"][:12], self.ask("bookmark", self.name)["head"][:12]
        makers = [line.split()[0] for line in lines]
        self.assertEqual((makers[0], makers[4]), (first, now))
        told = self.ok("log", self.name, "--path", "words").out
        self.assertIn("path      set words  from text\n", told)
        self.assertIn("path      set text\n", told)
        log = self.ok("--json", "log", self.name, "--path", "words").documents
        rows = [(one["message"], one["path"]) for one in log]
        self.assertEqual(rows, [("Renamed", "words"), ("First", "text")])
        alone = self.ok("--json", "log", self.name, "--path", "words", "--no-follow").documents
        self.assertEqual([one["message"] for one in alone], ["Renamed"])

    def test_the_page(self):
        self.renamed("text", "words")
        library = Library(Server(self.server), False)
        with library.connected() as visit:
            past = visit.past(Question(self.name, "words"))
        rows = [(one["path"], one.get("copied", {}).get("path")) for one in past["changesets"]]
        self.assertEqual((rows, past["older"]), ([("words", "text"), ("text", None)], 0))

    def test_moved_and_copied_by_word(self):
        self.done(self.ours, "mv", "text", "lib")
        self.assertEqual(self.changes(self.ours), {"text": "deleted", "lib/text": "added"})
        self.assertIn("A lib/text  (from text)", self.done(self.ours, "status").out)
        (self.ours / "lib" / "text").write_bytes(b"nothing alike")
        self.done(self.ours, "cp", "run", "again")
        self.done(self.ours, "mv", "lib", "library")
        (self.ours / "link").unlink()
        (self.ours / "bond").write_bytes(b"made by hand")
        self.done(self.ours, "mv", "--after", "link", "bond")
        self.done(self.ours, "commit", "--land", "-m", "Moved")
        wanted = {"library/text": "text", "library/a": "lib/a", "again": "run", "bond": "link"}
        self.assertEqual(self.copies(self.name), wanted)
        self.assertEqual(self.done(self.ours, "status").out.count("\n"), 1)

    def test_moves_that_can_not_be(self):
        for words, said in (
            (("absent", "x"), "there is no absent"),
            (("text", "run"), "run is there already"),
            (("text", "run", "x"), "x is no folder"),
            (("lib", "lib/x"), "lies in"),
            (("--after", "text", "x"), "there is no x"),
            (("text", self.folder / "x"), "isn't in the working copy"),
        ):
            self.assertIn(said, self.fails(self.ours, "mv", *words))
        self.assertEqual(self.changes(self.ours), {})

    def test_there_and_back(self):
        self.done(self.ours, "mv", "text", "words")
        self.done(self.ours, "mv", "words", "text")
        self.assertEqual(self.changes(self.ours), {})
        (self.ours / "new").write_bytes(b"new")
        self.done(self.ours, "mv", "new", "newer")
        self.done(self.ours, "commit", "-m", "New")
        self.assertEqual(self.copies(self.done(self.ours, "--json", "status").document["base"]), {})

    def test_amended(self):
        (self.ours / "new").write_bytes(LINES + b"new\n")
        self.done(self.ours, "commit", "-m", "One")
        self.done(self.ours, "mv", "text", "words")
        self.done(self.ours, "mv", "new", "newer")
        self.done(self.ours, "amend")
        self.done(self.ours, "mv", "words", "letters")
        draft = self.done(self.ours, "--json", "amend").document["id"]
        self.assertEqual(self.copies(draft), {"letters": "text"})


class FollowCase(RenameCase):
    """A file that both sides change, each at another line."""

    def setUp(self) -> None:
        super().setUp()
        self.needs_copies()
        self.both = with_line(15, b"ours").replace(b"line 2\n", b"theirs\n")

    def tree_is(self, there: dict[str, bytes | None]) -> None:
        """Compares files of the folder, which has nothing more to be committed."""
        found = {path: self.data(path) for path in there}
        self.assertEqual(found, there)

    def data(self, path: str) -> bytes | None:
        place = self.ours / path
        return place.read_bytes() if place.is_file() else None


class Following(FollowCase):
    """Changes of one side are put into what the other has renamed."""

    def test_a_rebase_onto_a_rename(self):
        self.renamed("text", "lib/words", with_line(2, b"theirs"))
        (self.ours / "text").write_bytes(with_line(15, b"ours"))
        self.warned(self.ours, "text was changed", "commit", "-m", "Ours")
        self.done(self.ours, "rebase")
        self.tree_is({"text": None, "lib/words": self.both})
        self.done(self.ours, "land")
        self.assertEqual(self.tree(self.name)["lib/words"], self.both)

    def test_a_rebase_onto_two_renames_that_nobody_tells(self):
        data = (self.theirs / "text").read_bytes()
        for old, new in (("text", "words"), ("words", "letters")):
            words = ("--delete", old, "--set", f"{new}={self.write('in/new', data)}")
            self.ok("commit", self.name, "-m", new, *words)
        (self.ours / "text").write_bytes(with_line(15, b"ours"))
        self.warned(self.ours, "text was changed", "commit", "-m", "Ours")
        self.done(self.ours, "rebase")
        self.tree_is({"text": None, "words": None, "letters": with_line(15, b"ours")})

    def test_a_rebase_of_a_rename(self):
        (self.theirs / "text").write_bytes(with_line(2, b"theirs"))
        self.done(self.theirs, "commit", "--land", "-m", "Theirs")
        self.done(self.ours, "mv", "text", "words")
        (self.ours / "words").write_bytes(with_line(15, b"ours"))
        self.warned(self.ours, "text was changed", "commit", "-m", "Ours")
        self.done(self.ours, "rebase")
        self.tree_is({"text": None, "words": self.both})
        self.done(self.ours, "land")
        self.assertEqual(self.copies(self.name), {"words": "text"})
        self.assertNotIn("text", self.tree(self.name))

    def test_a_conflict_in_a_rename(self):
        self.renamed("text", "words", with_line(2, b"theirs"))
        (self.ours / "text").write_bytes(with_line(2, b"ours"))
        self.warned(self.ours, "text was changed", "commit", "-m", "Ours")
        self.assertIn("conflict words", self.done(self.ours, "rebase", status=1).out)
        self.done(self.ours, "resolve", "--ours", "words")
        self.done(self.ours, "rebase", "--continue")
        self.tree_is({"text": None, "words": with_line(2, b"ours")})

    def test_an_update_onto_a_rename(self):
        self.renamed("text", "words", with_line(2, b"theirs"))
        (self.ours / "text").write_bytes(with_line(15, b"ours"))
        self.done(self.ours, "update")
        self.tree_is({"text": None, "words": self.both})
        self.assertEqual(self.changes(self.ours), {"words": "changed"})

    def test_an_update_of_a_rename(self):
        (self.theirs / "text").write_bytes(with_line(2, b"theirs"))
        self.done(self.theirs, "commit", "--land", "-m", "Theirs")
        (self.ours / "text").rename(self.ours / "words")
        (self.ours / "words").write_bytes(with_line(15, b"ours"))
        self.done(self.ours, "update")
        self.tree_is({"text": None, "words": self.both})
        self.assertEqual(self.changes(self.ours), {"text": "deleted", "words": "added"})
        self.done(self.ours, "commit", "--land", "-m", "Ours")
        self.assertEqual(self.copies(self.name), {"words": "text"})

    def test_a_file_that_is_gone_for_good(self):
        (self.theirs / "text").unlink()
        self.done(self.theirs, "commit", "--land", "-m", "Gone")
        (self.ours / "text").write_bytes(with_line(15, b"ours"))
        ran = self.done(self.ours, "update", status=1)
        self.assertIn("conflict text: changed here and deleted there", ran.out)


class Twice(FollowCase):
    """Files that both sides rename, and that are renamed again and again."""

    def both_move(self, theirs: bytes = with_line(2, b"theirs"), here: str = "words") -> None:
        """Each side moves the file and edits it; here it isn't committed yet."""
        self.renamed("text", "letters", theirs)
        self.done(self.ours, "mv", "text", here)
        (self.ours / here).write_bytes(with_line(15, b"ours"))

    def stopped(self, **bytes_of: bytes | None) -> None:
        """The folder has both names, and both are conflicts."""
        self.tree_is({"text": None} | bytes_of)
        wanted = dict.fromkeys(("letters", "words"), "conflict")
        found = self.changes(self.ours).items()
        self.assertEqual({path: word for path, word in found if path != "text"}, wanted)

    def rebased(self, theirs: bytes = with_line(2, b"theirs")) -> str:
        """Commits what is moved here, and tells what its rebase says."""
        self.both_move(theirs)
        self.warned(self.ours, "text was changed", "commit", "-m", "Ours")
        return self.done(self.ours, "rebase", status=1).out

    def test_a_rebase_to_two_names(self):
        told = self.rebased()
        self.assertIn("conflict words: it was text, which was moved to letters there\n", told)
        self.assertIn("conflict letters: it was text, which was moved to words here\n", told)
        self.stopped(words=self.both, letters=with_line(2, b"theirs"))
        self.assertIn("conflict", self.fails(self.ours, "rebase", "--continue"))
        (self.ours / "letters").unlink()
        self.done(self.ours, "resolve", "words", "letters")
        self.done(self.ours, "rebase", "--continue")
        self.done(self.ours, "land")
        tree = self.tree(self.name)
        self.assertEqual(
            (tree["words"], tree.get("letters"), tree.get("text")), (self.both, None, None)
        )
        self.assertEqual(self.copies(self.name), {"words": "letters"})

    def test_a_rebase_to_their_name(self):
        self.rebased()
        self.done(self.ours, "resolve", "--theirs", "words", "letters")
        self.tree_is({"words": None, "letters": with_line(2, b"theirs")})
        self.assertIn("has the draft", self.done(self.ours, "rebase", "--continue").out)

    def test_a_rebase_to_our_name(self):
        self.rebased()
        self.done(self.ours, "resolve", "--ours", "words", "letters")
        self.tree_is({"words": with_line(15, b"ours"), "letters": None})
        self.done(self.ours, "rebase", "--continue")
        self.assertEqual(self.changes(self.ours), {})

    def test_a_rebase_to_two_names_that_is_taken_back(self):
        self.rebased()
        self.done(self.ours, "rebase", "--abort")
        self.tree_is({"text": None, "words": with_line(15, b"ours"), "letters": None})
        self.assertEqual(self.changes(self.ours), {})

    def test_lines_that_meet_too(self):
        told = self.rebased(with_line(15, b"theirs"))
        said = "conflict words: it was text, which was moved to letters there, and changed here"
        self.assertIn(said, told)
        said = self.fails(self.ours, "rebase", "--continue")
        self.assertIn("words has the marks of its conflict still", said)
        self.assertEqual(self.data("letters"), with_line(15, b"theirs"))
        self.done(self.ours, "resolve", "--ours", "words", "letters")
        self.done(self.ours, "rebase", "--continue")
        self.tree_is({"words": with_line(15, b"ours"), "letters": None})

    def test_their_other_file_at_our_name(self):
        (self.theirs / "words").write_bytes(b"another")
        self.both_move()
        self.warned(self.ours, "text, words was changed", "commit", "-m", "Ours")
        told = self.done(self.ours, "rebase", status=1).out
        self.assertIn("conflict words: changed here and there", told)
        self.assertEqual(self.data("letters"), with_line(2, b"theirs"))
        self.assertIn(b"ours\n", self.data("words"))

    def test_a_rebase_to_one_name(self):
        self.both_move(here="letters")
        self.warned(self.ours, "was changed", "commit", "-m", "Ours")
        self.done(self.ours, "rebase")
        self.tree_is({"text": None, "letters": self.both})
        self.assertEqual(self.changes(self.ours), {})

    def test_an_update_to_two_names(self):
        self.both_move()
        told = self.done(self.ours, "update", status=1).out
        self.assertIn("conflict words: it was text, which was moved to letters there\n", told)
        self.stopped(words=self.both, letters=with_line(2, b"theirs"))
        self.assertIn("conflict", self.fails(self.ours, "commit", "-m", "Ours"))
        (self.ours / "letters").unlink()
        self.done(self.ours, "resolve", "words", "letters")
        self.done(self.ours, "commit", "--land", "-m", "Ours")
        self.assertEqual(self.copies(self.name), {"words": "letters"})
        self.assertEqual(self.tree(self.name)["words"], self.both)

    def test_an_update_to_their_name_or_ours(self):
        self.both_move()
        self.done(self.ours, "update", status=1)
        self.done(self.ours, "resolve", "--ours", "letters", "words")
        self.tree_is({"words": with_line(15, b"ours"), "letters": None})
        self.done(self.ours, "revert", "letters")
        (self.ours / "words").unlink()
        self.assertEqual(self.changes(self.ours), {})

    def test_an_update_to_one_name(self):
        self.both_move(here="letters")
        self.done(self.ours, "update")
        self.tree_is({"text": None, "letters": self.both})
        self.assertEqual(self.changes(self.ours), {"letters": "changed"})

    def test_a_stack_that_renames_twice(self):
        (self.theirs / "text").write_bytes(with_line(2, b"theirs"))
        self.done(self.theirs, "commit", "--land", "-m", "Theirs")
        for old, new in (("text", "words"), ("words", "letters")):
            self.done(self.ours, "mv", old, new)
            if new == "letters":
                (self.ours / new).write_bytes(with_line(15, b"ours"))
            within = self.within(self.ours, "commit", "-m", f"To {new}")
            self.assertEqual(within.status, 0, within)
        self.done(self.ours, "rebase")
        self.tree_is({"text": None, "words": None, "letters": self.both})
        ids = self.done(self.ours, "--json", "status").document["drafts"]
        self.assertEqual([self.copies(id) for id in ids], [{"words": "text"}, {"letters": "words"}])
        self.done(self.ours, "land")
        tree = self.tree(self.name)
        self.assertEqual(
            (tree["letters"], "words" in tree, "text" in tree), (self.both, False, False)
        )

    def test_two_renames_there(self):
        self.renamed("text", "words")
        self.renamed("words", "letters", with_line(2, b"theirs"))
        (self.ours / "text").write_bytes(with_line(15, b"ours"))
        self.done(self.ours, "update")
        self.tree_is({"text": None, "words": None, "letters": self.both})
