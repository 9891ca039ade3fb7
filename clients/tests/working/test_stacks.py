"""Drafts of a working copy: let go, taken back, taken apart, put in another order, put aside."""

from __future__ import annotations

import json
from pathlib import Path

from ..harness import Ran, on_terminal
from .test_working import LINES, CopyCase, with_line


class StackCase(CopyCase):
    """Drafts in a working copy."""

    def drafted(self, path: str, data: bytes = b"x", title: str = "") -> str:
        """Makes a draft that sets a file, and gives its id."""
        place = self.ours / path
        place.parent.mkdir(exist_ok=True)
        place.write_bytes(data)
        words = ("--json", "commit", path, "-m", title or f"Set {path}")
        return self.done(self.ours, *words).document["id"]

    def state(self) -> dict:
        return self.done(self.ours, "--json", "status").document

    def titles(self) -> list[str]:
        """The titles of the drafts, the lowest first."""
        told = self.state()
        return [told["titles"][id] for id in told["drafts"]]

    def data(self, path: str) -> bytes | None:
        place = self.ours / path
        return place.read_bytes() if place.is_file() else None

    def landed_titles(self) -> list[str]:
        return [one["message"] for one in self.ok("--json", "log", self.name).documents]


class Letting(StackCase):
    """Drop and uncommit."""

    def test_status_lists_drafts(self):
        ids = [self.drafted(path) for path in "ab"]
        lines = self.done(self.ours, "status").out.splitlines()
        self.assertIn(", 2 drafts on it", lines[0])
        self.assertEqual(lines[1:], [f"draft {ids[1]}  Set b", f"draft {ids[0]}  Set a"])
        self.assertEqual(self.titles(), ["Set a", "Set b"])

    def test_a_state_of_the_first_version(self):
        self.drafted("a")
        place = self.ours / ".jarrah" / "state"
        head, *files = place.read_text().splitlines(keepends=True)
        document = json.loads(head) | {"version": 1}
        for name in ("titles", "ours", "copied"):
            del document[name]
        place.write_text("".join([json.dumps(document), "\n", *files]))
        self.assertEqual(self.titles(), ["Set a"])
        document["version"] = 3
        place.write_text(json.dumps(document) + "\n")
        self.assertIn("another version of jarrah", self.fails(self.ours, "status"))

    def test_drop_in_the_middle(self):
        ids = [self.drafted(path) for path in "abc"]
        told = self.done(self.ours, "drop", ids[1][:12]).out
        self.assertIn(f"dropped {ids[1]}  Set b", told)
        self.assertEqual(self.titles(), ["Set a", "Set c"])
        self.assertEqual([self.data(path) for path in "abc"], [b"x", None, b"x"])
        self.assertEqual(self.changes(self.ours), {})
        self.done(self.ours, "land")
        self.assertEqual(self.landed_titles(), ["Set c", "Set a", "First", ""])

    def test_drop_by_title_and_keep(self):
        for path in "abc":
            self.drafted(path)
        self.done(self.ours, "drop", "Set b", "Set c", "--keep")
        self.assertEqual(self.changes(self.ours), {"b": "added", "c": "added"})
        self.assertEqual(self.titles(), ["Set a"])

    def test_drop_all(self):
        for number in range(2):
            self.drafted("text", b"other")
            self.drafted("lib/new")
            (self.ours / "run").unlink()
            self.done(self.ours, "commit", "-m", "No run")
            words = ("drop", "--all", "--keep")[: 2 + number]
            self.done(self.ours, *words)
            wanted = {"text": "changed", "lib/new": "added", "run": "deleted"}
            self.assertEqual(self.changes(self.ours), wanted if number else {})
            self.assertEqual(self.state()["base"], self.first["head"])
            self.assertEqual(self.data("text"), b"other" if number else LINES)

    def test_a_conflict_of_a_drop(self):
        self.drafted("text", with_line(2, b"one"))
        second = self.drafted("text", with_line(2, b"two"))
        first = self.state()["drafts"][0]
        self.assertIn("can't be put there: text", self.fails(self.ours, "drop", first, "--keep"))
        self.assertEqual(len(self.titles()), 2)
        ran = self.done(self.ours, "drop", first, status=1)
        self.assertIn("conflict text", ran.out)
        self.done(self.ours, "resolve", "--ours", "text")
        self.assertEqual(self.data("text"), with_line(2, b"two"))
        self.done(self.ours, "rebase", "--continue")
        self.assertEqual(self.titles(), ["Set text"])
        self.assertNotEqual(self.state()["drafts"], [second])
        self.done(self.ours, "land")
        self.assertEqual(self.tree(self.name)["text"], with_line(2, b"two"))

    def test_what_can_not_be_dropped(self):
        self.assertIn("there are no drafts", self.fails(self.ours, "drop", "--all"))
        self.drafted("a")
        self.assertIn("has the name", self.fails(self.ours, "drop", self.first["head"]))
        (self.ours / "text").write_bytes(b"other")
        self.assertIn("text is changed", self.fails(self.ours, "drop", "--all"))
        self.assertEqual(self.within(self.ours, "drop").status, 2)
        self.assertEqual(self.within(self.ours, "drop", "--all", "x").status, 2)

    def test_uncommit(self):
        self.drafted("a")
        self.drafted("text", b"other")
        (self.ours / "a").write_bytes(b"later")
        self.done(self.ours, "uncommit")
        self.assertEqual(self.changes(self.ours), {"a": "changed", "text": "changed"})
        self.done(self.ours, "uncommit")
        self.assertEqual(self.changes(self.ours), {"a": "added", "text": "changed"})
        self.assertIn("there are no drafts", self.fails(self.ours, "uncommit"))
        self.assertEqual((self.data("a"), self.data("text")), (b"later", b"other"))


class Aside(StackCase):
    """Shelves."""

    def test_shelve_and_unshelve(self):
        (self.ours / "text").write_bytes(with_line(15, b"ours"))
        (self.ours / "new").write_bytes(b"new")
        (self.ours / "lib" / "a").unlink()
        before = self.changes(self.ours)
        self.assertIn("3 paths on the shelf 1", self.done(self.ours, "shelve").out)
        self.assertEqual(self.changes(self.ours), {})
        self.assertEqual((self.data("text"), self.data("new")), (LINES, None))
        self.done(self.ours, "unshelve")
        self.assertEqual(self.changes(self.ours), before)
        self.assertEqual(self.data("text"), with_line(15, b"ours"))
        told = self.done(self.ours, "--json", "shelve", "--list").document
        self.assertEqual(told, {"shelves": []})

    def test_onto_another_base(self):
        (self.ours / "text").write_bytes(with_line(15, b"ours"))
        (self.ours / "more").write_bytes(b"more")
        self.done(self.ours, "shelve", "text", "--name", "mine")
        self.assertEqual(self.changes(self.ours), {"more": "added"})
        (self.theirs / "text").write_bytes(with_line(2, b"theirs"))
        self.done(self.theirs, "commit", "--land", "-m", "Theirs")
        self.done(self.ours, "update")
        self.done(self.ours, "unshelve", "mine", "--keep")
        both = with_line(15, b"ours").replace(b"line 2\n", b"theirs\n")
        self.assertEqual(self.data("text"), both)
        self.done(self.ours, "shelve", "--delete", "mine")
        self.assertIn("no shelf", self.fails(self.ours, "unshelve", "mine"))

    def test_a_conflict(self):
        (self.ours / "text").write_bytes(with_line(2, b"shelved"))
        self.done(self.ours, "shelve")
        (self.ours / "text").write_bytes(with_line(2, b"later"))
        ran = self.done(self.ours, "unshelve", status=1)
        self.assertIn("conflict text: changed here and there", ran.out)
        self.assertIn("the shelf 1 is kept", ran.out)
        self.assertIn("is a conflict", self.fails(self.ours, "commit", "-m", "x"))
        self.done(self.ours, "resolve", "--ours", "text")
        self.assertEqual(self.data("text"), with_line(2, b"later"))

    def test_names_and_shelves_that_are_none(self):
        for words, said in (
            (("shelve",), "nothing is changed"),
            (("unshelve",), "there is no shelf"),
            (("unshelve", "../x"), "no shelf's name"),
            (("shelve", "--delete", "x"), "no shelf x"),
        ):
            self.assertIn(said, self.fails(self.ours, *words))
        (self.ours / "new").write_bytes(b"new")
        self.done(self.ours, "shelve", "--name", "x")
        (self.ours / "new").write_bytes(b"other")
        self.assertIn("a shelf x already", self.fails(self.ours, "shelve", "--name", "x"))
        self.assertEqual(self.data("new"), b"other")
        (self.ours / ".jarrah" / "shelves" / "x" / "shelf").write_bytes(b"{}")
        self.assertIn("is no shelf", self.fails(self.ours, "unshelve", "x"))


class Conflicts(StackCase):
    """A conflict is settled by either side."""

    def setUp(self) -> None:
        super().setUp()
        (self.theirs / "text").write_bytes(with_line(2, b"theirs"))
        (self.theirs / "lib" / "a").unlink()
        (self.theirs / "run").write_bytes(b"theirs")
        self.done(self.theirs, "commit", "--land", "-m", "Theirs")
        (self.ours / "text").write_bytes(with_line(2, b"ours"))
        (self.ours / "lib" / "a").write_bytes(b"ours")
        (self.ours / "run").unlink()

    def sides(self) -> tuple:
        return self.data("text"), self.data("lib/a"), self.data("run")

    def settled(self, *words: str) -> tuple:
        """The files once all are settled so."""
        self.done(self.ours, *words, "text", "lib/a", "run")
        self.assertNotIn("conflict", self.changes(self.ours).values())
        self.assertFalse((self.ours / ".jarrah" / "ours").exists())
        return self.sides()

    def test_after_an_update(self):
        self.done(self.ours, "update", status=1)
        self.assertEqual(set(self.changes(self.ours).values()), {"conflict"})
        self.assertIn(b"<<<<<<< here", self.data("text"))
        ours = (with_line(2, b"ours"), b"ours", None)
        self.assertEqual(self.settled("resolve", "--ours"), ours)
        wanted = {"text": "changed", "lib/a": "added", "run": "deleted"}
        self.assertEqual(self.changes(self.ours), wanted)

    def test_by_the_other_side(self):
        theirs = (with_line(2, b"theirs"), None, b"theirs")
        self.done(self.ours, "update", status=1)
        self.assertEqual(self.settled("resolve", "--theirs"), theirs)
        self.assertEqual(self.changes(self.ours), {})

    def test_by_revert(self):
        self.done(self.ours, "update", status=1)
        theirs = (with_line(2, b"theirs"), None, b"theirs")
        self.assertEqual(self.settled("revert"), theirs)

    def test_after_a_rebase(self):
        self.warned(self.ours, "lib/a, run, text was changed", "commit", "-m", "Ours")
        self.done(self.ours, "rebase", status=1)
        self.assertEqual(set(self.changes(self.ours)), {"text", "lib/a", "run"})
        ours = (with_line(2, b"ours"), b"ours", None)
        self.assertEqual(self.settled("resolve", "--ours"), ours)
        self.done(self.ours, "rebase", "--continue")
        self.done(self.ours, "land")
        tree = self.tree(self.name)
        self.assertEqual((tree["text"], tree["lib/a"], tree.get("run")), ours)

    def test_nothing_is_left_of_a_draft(self):
        self.warned(self.ours, "was changed", "commit", "-m", "Ours")
        self.done(self.ours, "rebase", status=1)
        self.settled("resolve", "--theirs")
        self.assertIn("has the draft", self.done(self.ours, "rebase", "--continue").out)
        self.assertEqual(self.state()["drafts"], [])


class Orders(StackCase):
    """Histedit, split, amend below and landing of a part."""

    def plan(self, *lines: str, status: int = 0) -> str:
        """Has the drafts edited by a plan."""
        place = self.write("plan", "\n".join(lines).encode())
        return self.done(self.ours, "histedit", "--plan", place, status=status).out

    def test_fold_drop_and_move(self):
        a, b, c, d = (self.drafted(path) for path in "abcd")
        self.plan(f"pick {c}", f"pick {a[:8]} a title", "", f"fold {d}", f"drop {b}")
        self.assertEqual(self.titles(), ["Set c", "Set a"])
        self.assertEqual([self.data(path) for path in "abcd"], [b"x", None, b"x", b"x"])
        last = self.ok("--json", "log", self.state()["base"], "-n", 1).document
        self.assertEqual(last["message"], "Set a\n\nSet d")
        self.assertEqual([one["path"] for one in last["changes"]], ["a", "d"])
        self.assertEqual(self.changes(self.ours), {})
        self.done(self.ours, "land")

    def test_edit(self):
        a, b = self.drafted("a"), self.drafted("b")
        told = self.plan(f"edit {a}", f"pick {b}")
        self.assertIn("`jarrah amend` changes it", told)
        self.assertEqual((self.data("a"), self.data("b")), (b"x", None))
        self.assertIn("isn't over", self.fails(self.ours, "land"))
        (self.ours / "a").write_bytes(b"edited")
        self.assertIn("a is changed", self.fails(self.ours, "rebase", "--continue"))
        self.done(self.ours, "amend", "-m", "Edited")
        self.drafted("between")
        self.done(self.ours, "rebase", "--continue")
        self.assertEqual(self.titles(), ["Edited", "Set between", "Set b"])
        self.assertEqual((self.data("a"), self.data("b")), (b"edited", b"x"))

    def test_edit_is_taken_back(self):
        a, b = self.drafted("a"), self.drafted("b")
        self.plan(f"edit {a}", f"pick {b}")
        (self.ours / "a").write_bytes(b"edited")
        self.done(self.ours, "rebase", "--abort")
        self.assertEqual(self.state()["drafts"], [a, b])
        self.assertEqual((self.data("a"), self.data("b")), (b"x", b"x"))

    def test_a_conflict(self):
        one = self.drafted("text", with_line(2, b"one"), "One")
        two = self.drafted("text", with_line(2, b"two"), "Two")
        told = self.plan(f"pick {two}", f"pick {one}", status=1)
        self.assertIn("conflict text", told)
        self.done(self.ours, "resolve", "--ours", "text")
        self.done(self.ours, "rebase", "--continue", status=1)
        self.done(self.ours, "rebase", "--abort")
        self.assertEqual(self.state()["drafts"], [one, two])
        self.assertEqual(self.data("text"), with_line(2, b"two"))

    def test_a_fold_with_a_conflict(self):
        self.drafted("a")
        one = self.drafted("text", with_line(2, b"one"), "One")
        two = self.drafted("text", with_line(2, b"two"), "Two")
        first = self.state()["drafts"][0]
        self.plan(f"pick {first}", f"fold {two}", f"drop {one}", status=1)
        self.done(self.ours, "resolve", "--ours", "text")
        self.done(self.ours, "rebase", "--continue")
        self.assertEqual(self.titles(), ["Set a"])
        last = self.ok("--json", "log", self.state()["base"], "-n", 1).document
        self.assertEqual([one["path"] for one in last["changes"]], ["a", "text"])
        self.assertEqual(last["message"], "Set a\n\nTwo")

    def test_plans_that_are_none(self):
        a, b = self.drafted("a"), self.drafted("b")
        for lines, said in (
            ((f"pick {a}",), f"lacks {b}"),
            ((f"pick {a}", f"pick {a}", f"pick {b}"), "named twice"),
            ((f"fold {a}", f"pick {b}"), "nothing below"),
            ((f"squash {a}", f"pick {b}"), "'squash' is none of"),
            ((f"pick {'0' * 12}", f"pick {b}"), "no draft"),
            (("pick",), "no draft"),
            (("", " "), "the plan is empty"),
        ):
            place = self.write("plan", "\n".join(lines).encode())
            self.assertIn(said, self.fails(self.ours, "histedit", "--plan", place))
        self.assertIn("no terminal", self.fails(self.ours, "histedit"))
        self.assertEqual(self.state()["drafts"], [a, b])

    def test_by_an_editor(self):
        self.drafted("a"), self.drafted("b")
        place = self.write("editor", b'#!/bin/sh\ncp "$1" "$0.shown"\nsed -i "1!G;h;\\$!d" "$1"\n')
        place.chmod(0o755)
        ran = on_terminal("histedit", folder=self.ours, EDITOR=str(place))
        self.assertEqual(ran.status, 0, ran)
        self.assertEqual(self.titles(), ["Set b", "Set a"])
        shown = Path(f"{place}.shown").read_text().splitlines()
        self.assertRegex(shown[0], r"^pick [0-9a-f]{12} Set a$")

    def reword(self, script: bytes, *lines: str) -> Ran:
        """Has the drafts edited by a plan, and messages by a script that is the editor."""
        place = self.write("editor", b'#!/bin/sh\n' + script)
        place.chmod(0o755)
        plan = self.write("plan", "\n".join(lines).encode())
        return on_terminal("histedit", "--plan", plan, folder=self.ours, EDITOR=str(place))

    def message(self, id: str) -> str:
        return self.ok("--json", "log", id, "-n", 1).document["message"]

    def test_reword(self):
        a = self.drafted("a", title="Set a\n\nAnd why.")
        b, c = self.drafted("b"), self.drafted("c")
        script = b'cp "$1" "$0.$(head -n 1 "$1" | cut -c 5)"\nsed -i "1s/Set/Put/" "$1"\n'
        ran = self.reword(script, f"reword {a}", f"pick {c}", f"reword {b}")
        self.assertEqual(ran.status, 0, ran)
        self.assertEqual(self.titles(), ["Put a", "Set c", "Put b"])
        new = self.state()["drafts"][0]
        self.assertEqual(self.message(new), "Put a\n\nAnd why.")
        told = Path(f"{self.folder / 'editor'}.a").read_text().splitlines()
        self.assertEqual(told[:4], ["Set a", "", "And why.", f"JARRAH: the draft {a}"])
        self.assertEqual(told[-1], "JARRAH: a")
        self.assertEqual([self.data(path) for path in "abc"], [b"x"] * 3)
        self.assertEqual(self.changes(self.ours), {})
        self.done(self.ours, "land")
        self.assertEqual(self.landed_titles()[:2], ["Put b", "Set c"])

    def test_a_message_that_stays(self):
        drafts = [self.drafted("a"), self.drafted("b")]
        ran = self.reword(b":", *(f"reword {id}" for id in drafts))
        self.assertEqual((ran.status, self.state()["drafts"]), (0, drafts))

    def test_a_message_that_is_folded(self):
        a, b = self.drafted("a"), self.drafted("b")
        self.assertEqual(self.reword(b'echo New >"$1"', f"reword {a}", f"fold {b}").status, 0)
        self.assertEqual(self.message(self.state()["base"]), "New\n\nSet b")

    def test_a_conflict_behind_a_reword(self):
        one = self.drafted("text", with_line(2, b"one"), "One")
        two = self.drafted("text", with_line(2, b"two"), "Two")
        three = self.drafted("a", title="Three")
        script = b'sed -i "1s/$/, said anew/" "$1"\n'
        plan = (f"reword {two}", f"drop {one}", f"reword {three}")
        self.assertIn("conflict text", self.reword(script, *plan).out)
        self.done(self.ours, "resolve", "--ours", "text")
        self.done(self.ours, "rebase", "--continue")
        self.assertEqual(self.titles(), ["Two, said anew", "Three, said anew"])

    def test_messages_that_are_none(self):
        a, b = self.drafted("a"), self.drafted("b")
        plan = (f"reword {b}", f"reword {a}")
        ran = self.reword(b'grep -q "Set b" "$1" || : >"$1"\n', *plan)
        self.assertIn(f"the message of the draft {a} is empty: nothing is done", ran.out)
        self.assertIn("the editor ended with status 3", self.reword(b"exit 3", *plan).out)
        said = self.fails(self.ours, "histedit", "--plan", self.folder / "plan")
        self.assertIn("no terminal for an editor; `jarrah amend --draft DRAFT -m MESSAGE`", said)
        self.assertEqual(self.state()["drafts"], [a, b])
        self.assertIsNone(self.state()["rebase"])

    def test_split(self):
        (self.ours / "text").write_bytes(b"other")
        (self.ours / "lib" / "b").write_bytes(b"b")
        draft = self.drafted("lib/a", b"A")
        self.done(self.ours, "drop", "--all", "--keep")
        self.done(self.ours, "commit", "-m", "Both")
        above = self.drafted("above")
        (self.ours / "run").write_bytes(b"not yet")
        told = self.state()["drafts"]
        self.done(self.ours, "split", "lib", "-m", "The library", "--draft", told[0])
        self.assertEqual(self.titles(), ["The library", "Both", "Set above"])
        self.assertEqual(self.changes(self.ours), {"run": "changed"})
        paths = lambda id: [one["path"] for one in self.ask("diff", id)["changes"]]  # noqa: E731
        ids = self.state()["drafts"]
        self.assertEqual([paths(id) for id in ids], [["lib/a", "lib/b"], ["text"], ["above"]])
        for words, said in (
            (("run",), "doesn't change run"),
            (("above",), "nothing else"),
        ):
            self.assertIn(said, self.fails(self.ours, "split", *words, "-m", "x"))
        self.assertIn("`-m` says", self.fails(self.ours, "split", "above"))
        self.assertEqual((draft in ids, above in ids), (False, False))
        self.done(self.ours, "land")

    def test_amend_below(self):
        low = self.drafted("text", with_line(2, b"low"))
        self.drafted("text", with_line(2, b"low").replace(b"line 9\n", b"high\n"))
        self.drafted("other")
        changed = self.data("text").replace(b"line 15\n", b"amended\n")
        (self.ours / "text").write_bytes(changed)
        (self.ours / "new").write_bytes(b"new")
        self.done(self.ours, "amend", "text", "--draft", low, "-m", "Low")
        self.assertEqual(self.titles(), ["Low", "Set text", "Set other"])
        self.assertEqual(self.changes(self.ours), {"new": "added"})
        self.assertEqual(self.data("text"), changed)
        first = self.state()["drafts"][0]
        wanted = with_line(2, b"low").replace(b"line 15\n", b"amended\n")
        self.assertEqual(self.tree(first)["text"], wanted)
        (self.ours / "text").write_bytes(changed.replace(b"high\n", b"higher\n"))
        said = self.fails(self.ours, "amend", "text", "--draft", first)
        self.assertIn("it can't be put into the draft", said)
        self.assertEqual(self.changes(self.ours), {"new": "added", "text": "changed"})

    def test_land_a_part(self):
        a, b, c = (self.drafted(path) for path in "abc")
        (self.theirs / "new").write_bytes(b"new")
        self.done(self.theirs, "commit", "--land", "-m", "Theirs")
        told = self.done(self.ours, "land", "--stack", b).out
        self.assertIn("landed 2 changesets", told)
        self.assertEqual(self.titles(), ["Set c"])
        self.assertEqual(self.landed_titles(), ["Set b", "Set a", "Theirs", "First", ""])
        found = [self.data(path) for path in ("a", "b", "c", "new")]
        self.assertEqual(found, [b"x"] * 3 + [b"new"])
        self.assertEqual(self.changes(self.ours), {})
        self.done(self.ours, "land", "--stack", "Set c")
        self.assertEqual(self.landed_titles()[0], "Set c")
        self.assertEqual(self.state()["drafts"], [])
        self.assertIn("no drafts", self.fails(self.ours, "land", "--stack", c))
        self.assertEqual(self.within(self.ours, "land", self.name, "--stack", c).status, 2)
