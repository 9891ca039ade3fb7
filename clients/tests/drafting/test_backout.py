"""Backouts: trees as they were before, what came later, what is refused, and what is told."""

from __future__ import annotations

from typing import Any
from unittest import mock

from jarrah_client.drafting.drafts import ROOT, initialize
from jarrah_client.formats.changesets import Changeset, File, Kind
from jarrah_client.formats.fields import digest
from jarrah_client.net.server import Server
from jarrah_client.trees.tree import tree_of

from ..harness import Case, folder_files, fresh, jarrah
from ..trees.test_merges import ABC, NIL, OTHER, Merging
from ..working.test_working import LINES, CopyCase, with_line

Held = tuple[Kind, bytes]
"""A file's kind and its bytes."""


def plain(data: bytes) -> Held:
    return Kind.REGULAR, data


def run(data: bytes) -> Held:
    return Kind.EXECUTABLE, data


def link(data: bytes) -> Held:
    return Kind.SYMLINK, data


FIRST = {"text": plain(LINES), "lib/a": plain(b"a"), "lib/b": plain(b"b")}
FIRST |= {"run": run(LINES), "link": link(b"lib")}


def watched_reads() -> Any:
    """Keeps which changesets are read from a server."""
    return mock.patch.object(Server, "changeset", autospec=True, side_effect=Server.changeset)


class Keeping(Case):
    """Refusals that leave the server as it is."""

    to: Server

    def not_stored(self, *words: object) -> str:
        """What a refusal says, at which nothing is stored and no bookmark moves."""
        before = self.to.log(0).total
        said = self.refused("backout", *words)
        self.assertEqual(self.to.log(0).total, before)
        return said


class BackoutCase(Keeping):
    """A bookmark with some files."""

    def setUp(self) -> None:
        super().setUp()
        self.begin()

    def begin(self) -> None:
        """Makes the bookmark and its first files."""
        self.to = Server(self.server)
        self.addCleanup(self.to.close)
        self.name = fresh()
        initialize(self.to, self.name)
        self.first = self.land(FIRST)

    def stored(self, held: Held | None) -> File | None:
        """Stores the bytes of a file."""
        if held is None:
            return None
        kind, data = held
        self.to.put_content(digest(data), data)
        return File(digest(data), len(data), kind)

    def put(self, parent: str, changes: dict[str, Held | None], message: str = "") -> str:
        """Stores a draft that sets or deletes some paths."""
        files = {path: self.stored(held) for path, held in changes.items()}
        changeset = Changeset((parent,), "a", 0, 0, message, files)
        self.to.put_changeset(changeset)
        return changeset.id

    def land(self, changes: dict[str, Held | None], message: str = "", name: str = "") -> str:
        """Lands changes on the head, and gives the new one."""
        name = name or self.name
        return self.to.land(name, self.put(self.to.head(name), changes, message)).head

    def back_out(self, id: str, *words: object) -> str:
        """Backs a changeset out, and gives the new head."""
        return self.ask("backout", id, self.name, *words)["head"]

    def tree(self, revision: str) -> dict[str, Held]:
        """The kinds and the bytes of a tree's files."""
        files = tree_of(self.to, self.to.head(revision) or revision).files()
        return {path: (file.kind, self.to.content(file.content)) for path, file in files}

    def later_at(self, named: str) -> str:
        """What is said where other changes stand at some paths."""
        return f"{named} can't be backed out: {self.name} has other changes there since"


class Trees(BackoutCase):
    """What a backout leaves, by the trees of other changesets."""

    def test_a_simple_undo(self):
        target = self.land({"text": plain(b"other"), "new": plain(b"new"), "lib/a": None})
        self.assertNotEqual(self.tree(target), FIRST)
        self.back_out(target)
        self.assertEqual(self.tree(self.name), FIRST)
        for revision in (self.name, self.first):
            self.ok("checkout", revision, self.folder / revision, "--plain")
        found, wanted = (folder_files(self.folder / it) for it in (self.name, self.first))
        self.assertEqual(found, wanted)

    def test_under_what_others_landed(self):
        target = self.land({"text": plain(b"other"), "run": None})
        self.land({"lib/c": plain(b"c"), "lib/a": None})
        self.back_out(target)
        wanted = FIRST | {"lib/c": plain(b"c")}
        del wanted["lib/a"]
        self.assertEqual(self.tree(self.name), wanted)

    def test_a_deletion(self):
        target = self.land(dict.fromkeys(("lib/a", "lib/b", "link")))
        self.assertEqual(set(self.tree(target)), {"run", "text"})
        self.back_out(target)
        self.assertEqual(self.tree(self.name), FIRST)

    def test_kinds(self):
        others = {"text": run(LINES), "run": plain(LINES), "link": plain(b"lib")}
        others |= {"lib/a": link(b"b")}
        target = self.land(others)
        self.assertEqual(self.tree(target), FIRST | others)
        self.back_out(target)
        self.assertEqual(self.tree(self.name), FIRST)

    def test_files_become_folders_and_back(self):
        target = self.land({"text/in/side": plain(b"x"), "lib": plain(b"file")})
        self.assertEqual(set(self.tree(target)), {"lib", "link", "run", "text/in/side"})
        self.back_out(target)
        self.assertEqual(self.tree(self.name), FIRST)

    def test_a_backout_of_a_backout(self):
        target = self.land({"text": plain(b"other"), "link/below": link(b"x"), "run": None})
        for wanted in (self.first, target, self.first):
            self.back_out(self.to.head(self.name))
            self.assertEqual(self.tree(self.name), self.tree(wanted))

    def test_a_server_without_manifests(self):
        self.server = self.special_stand_in(has_manifests=False).url
        self.begin()
        target = self.land({"text/in": plain(b"x"), "lib/c": plain(b"c"), "lib/a": None})
        self.land({"other": plain(b"other")})
        self.back_out(target)
        self.assertEqual(self.tree(self.name), FIRST | {"other": plain(b"other")})


class Later(BackoutCase):
    """What was changed after what is backed out."""

    def test_elsewhere_in_the_same_file(self):
        theirs = with_line(2, b"theirs")
        target = self.land({"text": plain(theirs), "lib/a": plain(b"A")})
        self.land({"text": plain(theirs.replace(b"line 15\n", b"later\n"))})
        told = self.ask("backout", target, self.name)
        self.assertEqual(told["merged"], ["text"])
        wanted = FIRST | {"text": plain(with_line(15, b"later"))}
        self.assertEqual(self.tree(self.name), wanted)

    def test_a_kind_beside_lines(self):
        target = self.land({"run": plain(LINES)})
        self.land({"run": plain(with_line(3, b"later"))})
        self.assertIn("\nmerged run\n", self.ok("backout", target, self.name).out)
        self.assertEqual(self.tree(self.name), FIRST | {"run": run(with_line(3, b"later"))})

    def test_what_is_as_before_already(self):
        target = self.land({"text": plain(b"other"), "lib/a": plain(b"A"), "lib/b": None})
        self.land({path: FIRST[path] for path in ("text", "lib/b")})
        head = self.back_out(target)
        self.assertEqual(set(self.to.changeset(head).changes), {"lib/a"})
        self.assertEqual(self.tree(self.name), FIRST)

    def test_a_conflict(self):
        target = self.land({"text": plain(with_line(2, b"theirs")), "lib/a": plain(b"A")})
        self.land({"text": plain(with_line(2, b"later"))})
        self.assertEqual(self.not_stored(target, self.name), self.later_at("text"))
        self.land({"lib/a": None})
        self.assertEqual(self.not_stored(target, self.name), self.later_at("lib/a, text"))

    def test_many_conflicts(self):
        paths = [f"d/{number}" for number in range(1, 6)]
        target = self.land(dict.fromkeys(paths, plain(b"new")))
        self.land(dict.fromkeys(paths, plain(b"later")))
        wanted = self.later_at("d/1, d/2, d/3 and 2 more")
        self.assertEqual(self.not_stored(target, self.name), wanted)

    def test_what_has_no_lines(self):
        target = self.land({"text": None, "run": link(b"text"), "link": link(b"x")})
        self.land({"text": plain(b""), "run": run(b""), "link": link(b"y")})
        wanted = self.later_at("link, run, text")
        self.assertEqual(self.not_stored(target, self.name), wanted)
        binary = self.land({"lib/a": plain(b"\0a"), "lib/b": plain(b"\0b")})
        self.land({"lib/a": plain(b"\0A"), "lib/b": FIRST["lib/b"]})
        self.assertEqual(self.not_stored(binary, self.name), self.later_at("lib/a"))

    def test_a_place_that_is_taken(self):
        target = self.land({"lib/a": None, "text": None})
        self.land({"text/in/side": plain(b"x")})
        self.assertEqual(self.not_stored(target, self.name), self.later_at("text"))
        self.land({"text/in/side": None, "lib": plain(b"file")})
        self.assertEqual(self.not_stored(target, self.name), self.later_at("lib/a"))
        self.land({"lib/b": FIRST["lib/b"]})
        self.back_out(target)
        self.assertEqual(self.tree(self.name), FIRST)


class Refusals(BackoutCase):
    """What can't be backed out."""

    def test_nothing_to_do(self):
        target, empty = self.land({"text": plain(b"other")}), self.land({})
        self.assertIn("nothing to back out", self.not_stored(empty, self.name))
        self.back_out(target)
        self.assertIn("nothing to back out", self.not_stored(target, self.name))

    def test_the_root(self):
        self.assertIn(f"{ROOT.id} is a root", self.not_stored(ROOT.id, self.name))

    def test_what_is_not_on_the_bookmark(self):
        other, changes = fresh("other"), {"text": plain(b"other")}
        self.to.move_bookmark(other, None, self.first)
        early = self.put(self.first, changes, "early")
        there = self.land(changes, "there", other)
        self.land({"new": plain(b"new")})
        late = self.put(self.to.head(self.name), changes, "late")
        for id in (early, there, late):
            self.assertEqual(self.not_stored(id, self.name), f"{id} isn't on {self.name}")
        self.assertIn("has no changeset", self.not_stored("1" * 64, self.name))
        self.assertIn("no bookmark", self.not_stored(there, fresh()))
        self.assertIn("no bookmark's name", self.not_stored(there, "a/b"))

    def test_words_that_are_wrong(self):
        self.assertIn("one parent", self.not_stored(self.first, self.name, "--parent", 1))
        for words in ((), (self.first,), (self.first, self.name, "--parent", "2")):
            ran = jarrah("backout", *words, server=self.server)
            self.assertEqual((ran.status, ran.out), (2, ""), words)

    def test_more_than_a_changeset_holds(self):
        self.server = self.special_stand_in(has_manifests=False).url
        self.begin()
        file, head = self.stored(plain(b"")), self.first
        for number in range(2):
            files = {f"p/{number}/{name}": file for name in range(2_050)}
            changeset = Changeset((head,), "a", 0, 0, "", files)
            self.to.put_changeset(changeset)
            head = changeset.id
        self.to.move_bookmark(self.name, self.first, head)
        target = self.land({"p": plain(b"file")})
        self.assertIn("4,101 paths change, over 4,096", self.not_stored(target, self.name))

    def test_the_log_tells_what_stands_on_what(self):
        target = self.land({"text": plain(b"other")})
        for number in range(5):
            self.land({"new": plain(b"%d" % number)})
        with watched_reads() as read:
            self.back_out(target[:20])
        self.assertEqual([call.args[1] for call in read.mock_calls], [target])


class Told(BackoutCase):
    """What a backout is, and what is told of it."""

    def test_for_people(self):
        target = self.land({"text": plain(b"other")}, "Second\n\nwith a body")
        said = self.ok("backout", target, self.name).out
        head = self.to.head(self.name)
        self.assertEqual(said, f"landed 1 changeset: {self.name} is at {head}\n")
        made = self.to.changeset(head)
        words = f'Back out "Second"\n\nThis backs out changeset {target}.'
        self.assertEqual((made.message, made.parents), (words, (target,)))
        self.assertEqual(made.author, "A Tester <tester@example.org>")

    def test_for_scripts(self):
        target = self.land({"text": plain(b"other")})
        told = self.ask("backout", target[:20], self.name)
        head = self.to.head(self.name)
        wanted = {"bookmark": self.name, "head": head, "ids": [head], "old": target}
        self.assertEqual(told, wanted | {"backed_out": target, "merged": []})
        self.assertIn('Back out "(no message)"\n', self.to.changeset(head).message)

    def test_words(self):
        target = self.land({"text": plain(b"other")})
        words = ["-m", "Mine", "--author", "Ann <a@b>", "--date", "@1000000000 +0100"]
        made = self.to.changeset(self.back_out(target, *words))
        found = (made.message, made.author, made.seconds, made.offset)
        self.assertEqual(found, ("Mine", "Ann <a@b>", 1_000_000_000, 3_600))

    def test_a_draft(self):
        target = self.land({"text": plain(b"other")})
        told = self.ask("backout", target, self.name, "--draft", "-m", "Draft")
        found = (told["parents"], told["message"], told["backed_out"])
        self.assertEqual(found, ([target], "Draft", target))
        line = self.ok("backout", target, self.name, "--draft", "--date", "@5").out
        draft = line.removeprefix("made the draft ").strip()
        self.assertEqual((self.to.head(self.name), self.tree(draft)), (target, FIRST))
        self.ok("land", self.name, draft)
        self.assertEqual(self.to.head(self.name), draft)


class Folder(CopyCase):
    """In a working copy."""

    def test_the_folder_is_left_as_it_is(self):
        (self.theirs / "text").write_bytes(b"theirs")
        self.done(self.theirs, "commit", "--land", "-m", "Theirs")
        self.done(self.ours, "update")
        (self.ours / "lib" / "a").write_bytes(b"not yet")
        before = folder_files(self.ours)
        said = self.done(self.ours, "backout", self.name).out
        self.assertIn("\n`jarrah update` brings it into the working copy\n", said)
        self.assertEqual(folder_files(self.ours), before)
        self.assertEqual(self.tree(self.name), self.tree(self.first["head"]))
        self.done(self.ours, "update")
        self.assertEqual((self.ours / "text").read_bytes(), LINES)
        self.assertEqual(self.changes(self.ours), {"lib/a": "changed"})

    def test_another_bookmark(self):
        other = fresh("other")
        self.ok("bookmark", other, "--to", self.first["head"])
        said = self.done(self.ours, "backout", other, other).out
        self.assertEqual(said.count("\n"), 1)
        self.assertEqual(self.tree(other), {})
        self.assertEqual(self.ask("bookmark", self.name)["head"], self.first["head"])


class Merges(Keeping, Merging):
    """Merges, and what a merge brought."""

    def setUp(self) -> None:
        super().setUp()
        self.name = fresh()
        self.x = self.put(self.base, changes={"x": ABC, "all": ABC}).id
        self.y = self.put(self.base, changes={"d/y": ABC, "all": OTHER}).id
        self.z = self.put(self.y, changes={"d/z": ABC, "d/y": OTHER}).id
        self.merge = self.put(self.x, self.z, changes={"all": NIL}).id
        self.to.move_bookmark(self.name, None, self.merge)

    def test_which_parent(self):
        said = self.not_stored(self.merge, self.name)
        self.assertIn(f"{self.merge} is a merge: say `--parent 0` or `--parent 1`", said)
        for number, parent in enumerate((self.x, self.z)):
            name = fresh()
            self.to.move_bookmark(name, None, self.merge)
            self.ok("backout", self.merge, name, "--parent", number)
            self.assertEqual(self.tree(self.to.head(name)), self.tree(parent))

    def test_under_what_was_landed(self):
        landed = self.put(self.merge, changes={"e": ABC, "x": OTHER}).id
        self.to.land(self.name, landed)
        self.ok("backout", self.merge, self.name, "--parent", 0)
        wanted = self.tree(self.x) | {"e": ABC, "x": OTHER}
        self.assertEqual(self.tree(self.to.head(self.name)), wanted)
        self.assertIn("nothing to back out", self.not_stored(self.merge, self.name, "--parent", 0))

    def test_what_a_merge_brought(self):
        self.ok("backout", self.z, self.name)
        wanted = self.tree(self.merge) | {"d/y": ABC}
        del wanted["d/z"]
        self.assertEqual(self.tree(self.to.head(self.name)), wanted)
        self.assertIn("all can't be backed out", self.not_stored(self.y, self.name))

    def test_what_no_merge_brought(self):
        aside = self.put(self.y, changes={"d/y": NIL}).id
        with watched_reads() as read:
            self.assertEqual(self.not_stored(aside, self.name), f"{aside} isn't on {self.name}")
        self.assertEqual([call.args[1] for call in read.mock_calls], [aside])
        onto = self.put(self.merge, changes={"e": ABC}).id
        self.to.land(self.name, onto)
        self.assertEqual(self.not_stored(aside, self.name), f"{aside} isn't on {self.name}")
