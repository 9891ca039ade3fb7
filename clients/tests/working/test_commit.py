"""A commit of a working copy: a draft, with a message from an editor where none is said."""

from __future__ import annotations

from ..harness import on_terminal
from .test_working import CopyCase


class Drafts(CopyCase):
    """Nothing lands by a commit."""

    def head(self) -> str:
        return self.ask("bookmark", self.name)["head"]

    def edited(self, script: str, *words: object) -> tuple[int, str]:
        """A commit whose editor is a script; what it was shown is kept."""
        place = self.write("editor", f'#!/bin/sh\ncp "$1" shown\n{script}\n'.encode())
        place.chmod(0o755)
        ran = on_terminal("commit", *words, folder=self.ours, EDITOR=f"'{place}'")
        return ran.status, ran.out

    def test_a_commit_is_a_draft(self):
        (self.ours / "new").write_bytes(b"new")
        told = self.done(self.ours, "commit", "-m", "New").out
        self.assertIn("`jarrah land` lands 1 draft", told)
        self.assertEqual(self.head(), self.first["head"])
        (self.ours / "more").write_bytes(b"more")
        self.done(self.ours, "commit", "--draft", "-m", "More")
        self.assertEqual(self.head(), self.first["head"])
        (self.ours / "last").write_bytes(b"last")
        told = self.done(self.ours, "commit", "--land", "-m", "Last").out
        self.assertIn("landed 3 changesets", told)

    def test_without_a_terminal(self):
        (self.ours / "new").write_bytes(b"new")
        for words in ((), ("--land",), ("--json",)):
            said = self.fails(self.ours, "commit", *words)
            self.assertIn("there is no terminal for an editor; `-m` says the message", said)
        ran = on_terminal("commit", folder=self.ours)
        self.assertEqual(ran.status, 1)
        self.assertIn("there is no editor: EDITOR names one", ran.out)
        self.assertEqual(self.done(self.ours, "--json", "status").document["drafts"], [])

    def test_an_editor(self):
        (self.ours / "new").write_bytes(b"new")
        (self.ours / "text").write_bytes(b"other")
        (self.ours / "lib" / "a").unlink()
        script = 'printf "Title\\n\\n#1 body  \\nJARRAH: no\\n" > "$1"'
        status, said = self.edited(script, "text", "lib", "new")
        self.assertEqual(status, 0, said)
        shown = (self.ours / "shown").read_text().splitlines()
        self.assertEqual(shown[0], "")
        self.assertTrue(all(line.startswith("JARRAH:") for line in shown[1:]), shown)
        self.assertEqual(shown[-3:], ["JARRAH: D lib/a", "JARRAH: A new", "JARRAH: M text"])
        draft = self.done(self.ours, "--json", "status").document["drafts"][0]
        log = self.ok("--json", "log", draft, "-n", 1).document
        self.assertEqual(log["message"], "Title\n\n#1 body")
        self.assertFalse((self.ours / ".jarrah" / "message").exists())

    def test_an_editor_that_says_nothing_or_fails(self):
        (self.ours / "new").write_bytes(b"new")
        for script, words in (
            ("", "the message is empty: nothing is done"),
            ('printf "  \\n\\n" > "$1"', "the message is empty"),
            ("exit 3", "ended with status 3: nothing is done"),
            ('printf "\\377" > "$1"', "isn't UTF-8"),
        ):
            status, said = self.edited(script, "new", "--land")
            self.assertEqual((status, words in said), (1, True), said)
        self.assertEqual(self.head(), self.first["head"])
        self.assertEqual(self.done(self.ours, "--json", "status").document["drafts"], [])

    def test_a_message_that_can_not_be_used_is_kept(self):
        (self.ours / "new").write_bytes(b"new")
        self.edited('echo Written > "$1"', "new", "--author", "a\nb")
        kept = (self.ours / ".jarrah" / "message").read_text()
        self.assertEqual(kept, "Written\n")

    def test_an_amended_message(self):
        (self.ours / "new").write_bytes(b"new")
        self.done(self.ours, "commit", "-m", "Old")
        place = self.write("editor", b'#!/bin/sh\nsed -i s/Old/New/ "$1"\n')
        place.chmod(0o755)
        ran = on_terminal("amend", "--edit", folder=self.ours, JARRAH_EDITOR=str(place))
        self.assertEqual(ran.status, 0, ran)
        self.done(self.ours, "land")
        self.assertEqual(self.ok("--json", "log", self.name, "-n", 1).document["message"], "New")
        self.assertIn("only a draft", self.fails(self.ours, "amend", "-m", "x"))

    def test_amended_to_nothing(self):
        (self.ours / "new").write_bytes(b"new")
        self.done(self.ours, "commit", "-m", "Old")
        self.assertIn("message is empty", self.fails(self.ours, "amend", "-m", ""))
        self.assertIn("author is empty", self.fails(self.ours, "amend", "--author", ""))

    def test_a_commit_that_would_clash_is_not_made(self):
        (self.theirs / "text").write_bytes(b"theirs")
        self.done(self.theirs, "commit", "--land", "-m", "Theirs")
        (self.ours / "text").write_bytes(b"ours")
        said = self.fails(self.ours, "commit", "--land", "-m", "Ours")
        self.assertIn("nothing is committed: text was changed on", said)
        self.assertIn("`jarrah update` merges it", said)
        self.assertEqual(self.done(self.ours, "--json", "status").document["drafts"], [])
        self.warned(self.ours, "text was changed on", "commit", "-m", "Ours")
        (self.ours / "new").write_bytes(b"new")
        said = self.fails(self.ours, "commit", "--land", "-m", "x")
        self.assertIn("`jarrah rebase` merges it", said)
        self.assertEqual(len(self.done(self.ours, "--json", "status").document["drafts"]), 1)
