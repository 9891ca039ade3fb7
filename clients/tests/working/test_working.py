"""The working copy: what is changed in it, its drafts, updates, and merges."""

from __future__ import annotations

import os
from pathlib import Path

from ..harness import Case, Ran, folder_files, fresh, jarrah, jarrah_process

LINES = b"".join(b"line %d\n" % number for number in range(20))


def with_line(number: int, line: bytes) -> bytes:
    """The lines with another one."""
    lines = LINES.split(b"\n")
    lines[number] = line
    return b"\n".join(lines)


class InFolders(Case):
    """Runs of the program in folders."""

    def within(self, top: Path, *words: object) -> Ran:
        """Runs the program in a folder."""
        before = os.getcwd()
        os.chdir(top)
        try:
            return jarrah(*words, server=self.server)
        finally:
            os.chdir(before)

    def done(self, top: Path, *words: object, status: int = 0) -> Ran:
        """Runs the program in a folder, where it has to end so, and quietly."""
        ran = self.within(top, *words)
        self.assertEqual((ran.status, ran.complaint), (status, ""), (words, ran))
        return ran

    def fails(self, top: Path, *words: object) -> str:
        """Runs the program in a folder, where it has to be refused in one line."""
        ran = self.within(top, *words)
        self.assertEqual((ran.status, ran.out, ran.complaint.count("\n")), (1, "", 1), (words, ran))
        return ran.complaint

    def warned(self, top: Path, warning: str, *words: object) -> Ran:
        """Runs the program in a folder, where it has to end well, with a line that warns."""
        ran = self.within(top, *words)
        self.assertEqual((ran.status, ran.complaint.count("\n")), (0, 1), (words, ran))
        self.assertIn(warning, ran.complaint)
        return ran

    def changes(self, top: Path) -> dict[str, str]:
        """What differs in a folder."""
        found = self.done(top, "--json", "status").document["changes"]
        return {one["path"]: one["change"] for one in found}

    def tree(self, revision: str) -> dict[str, bytes]:
        """The bytes of the files of a tree, as another folder has them."""
        place = self.folder / f"tree-{len(list(self.folder.iterdir()))}"
        self.ok("checkout", revision, place, "--plain")
        return {path: data for path, (_, data) in folder_files(place).items()}


class CopyCase(InFolders):
    """A bookmark with some files, and two working copies of it."""

    def setUp(self) -> None:
        super().setUp()
        self.name = fresh()
        self.ok("init", self.name)
        words = ["--set", f"text={self.write('in/text', LINES)}"]
        words += ["--set", f"lib/a={self.write('in/a', b'a')}"]
        words += ["--exec", f"run={self.write('in/r')}"]
        self.first = self.ask("commit", self.name, *words, "--symlink", "link=lib", "-m", "First")
        self.ours, self.theirs = self.copy("ours"), self.copy("theirs")

    def copy(self, name: str) -> Path:
        self.ok("checkout", self.name, self.folder / name)
        return self.folder / name


class Status(CopyCase):
    """Status, diff and commit."""

    def test_what_is_changed(self):
        self.assertEqual(self.changes(self.ours), {})
        (self.ours / "text").write_bytes(LINES + b"more\n")
        (self.ours / "lib" / "a").unlink()
        (self.ours / "run").chmod(0o644)
        (self.ours / "new folder").mkdir()
        (self.ours / "new folder" / "ü").write_bytes(b"new")
        os.unlink(self.ours / "link")
        os.symlink("elsewhere", self.ours / "link")
        wanted = {"lib/a": "deleted", "link": "changed", "new folder/ü": "added"}
        wanted |= {"run": "changed", "text": "changed"}
        self.assertEqual(self.changes(self.ours), wanted)
        lines = self.done(self.ours, "status").out.splitlines()
        self.assertEqual(lines[0], f"on {self.first['head']} of {self.name}")
        wanted = ["A new folder/ü", "D lib/a", "M link", "M run", "M text"]
        self.assertEqual(sorted(lines[1:]), wanted)
        self.assertEqual(self.done(self.ours, "status", "lib").out.splitlines()[1:], ["D lib/a"])

    def test_by_time_and_then_by_id(self):
        place = self.ours / "text"
        os.utime(place)
        self.assertEqual(self.changes(self.ours), {})
        place.write_bytes(with_line(3, b"LINE 3"))
        self.assertEqual(len(place.read_bytes()), len(LINES))
        self.assertEqual(self.changes(self.ours), {"text": "changed"})
        place.write_bytes(LINES)
        self.assertEqual(self.changes(self.ours), {})

    def test_an_edit_within_a_grain_of_time_is_seen(self):
        for number in range(20):
            (self.ours / "text").write_bytes(with_line(3, b"LINE %d" % (number % 10)))
            self.assertEqual(self.changes(self.ours), {"text": "changed"})
            self.done(self.ours, "revert", "text")
            self.assertEqual((self.ours / "text").read_bytes(), LINES)

    def test_diff(self):
        (self.ours / "text").write_bytes(with_line(10, b"changed") + b"no end")
        (self.ours / "lib" / "a").unlink()
        lines = self.done(self.ours, "diff").out.splitlines()
        wanted = ["--- a/lib/a", "+++ /dev/null", "@@ -1 +0,0 @@", "-a"]
        wanted += ["\\ No newline at end of file", "--- a/text", "+++ b/text", "@@ -8,7 +8,7 @@"]
        wanted += [" line 7", " line 8", " line 9", "-line 10", "+changed", " line 11"]
        wanted += [" line 12", " line 13", "@@ -18,3 +18,4 @@", " line 17", " line 18", " line 19"]
        wanted += ["+no end", "\\ No newline at end of file"]
        self.assertEqual(lines, wanted)
        self.assertEqual(self.done(self.ours, "diff", "lib").out.splitlines(), wanted[:5])
        self.done(self.ours, "commit", "--land", "-m", "Changed")
        told = self.done(self.ours, "diff", self.name, "--patch").out.splitlines()
        self.assertEqual(told, wanted)
        told = self.done(self.ours, "diff", self.name).out
        self.assertIn("delete              lib/a", told)

    def test_commit_of_all_and_of_some(self):
        (self.ours / "text").write_bytes(b"ours")
        (self.ours / "new").write_bytes(b"new")
        (self.ours / "lib" / "a").unlink()
        self.done(self.ours, "commit", "--land", "text", "lib", "-m", "Some")
        self.assertEqual(self.changes(self.ours), {"new": "added"})
        self.done(self.ours, "commit", "--land", "-m", "All")
        self.assertEqual(self.changes(self.ours), {})
        wanted = {"text": b"ours", "new": b"new", "run": b"abc", "link": b"lib"}
        self.assertEqual(self.tree(self.name), wanted)
        self.assertIn("nothing is changed", self.fails(self.ours, "commit", "-m", "none"))
        self.assertIn("absent isn't changed", self.fails(self.ours, "commit", "absent"))

    def test_in_processes_of_their_own(self):
        (self.ours / "lib" / "new").write_bytes(b"new")
        ran = jarrah_process("commit", "--land", "new", "-m", "New", folder=self.ours / "lib")
        self.assertEqual((ran.status, ran.err), (0, ""))
        self.assertEqual(self.ok("cat", self.name, "lib/new").out, "new")
        outside = jarrah_process("status", server=self.server, folder=self.folder)
        self.assertIn("no working copy", outside.err)

    def test_what_no_changeset_can_hold(self):
        self.sparse(self.ours / "large", 67_108_865)
        (self.ours / "line\nend").write_bytes(b"x")
        os.mkfifo(self.ours / "pipe")
        Path(os.fsdecode(os.fsencode(self.ours) + b"/no \xff text")).write_bytes(b"x")
        (self.ours / ".git").mkdir()
        (self.ours / ".git" / "config").write_bytes(b"x")
        faults = self.done(self.ours, "--json", "status").document["faults"]
        self.assertEqual(set(faults), {"large", "line\nend", "pipe", "no \udcff text"})
        self.assertIn("can't be committed", self.fails(self.ours, "commit"))
        self.assertIn("\n! no \\udcff text: it isn't UTF-8\n", self.done(self.ours, "status").out)
        (self.ours / ".jarrahignore").write_bytes(b"large\nline*\npi?e\nno *\n")
        self.assertEqual(self.changes(self.ours), {".jarrahignore": "added"})

    def test_a_file_becomes_a_folder_and_back(self):
        (self.ours / "text").unlink()
        (self.ours / "text").mkdir()
        (self.ours / "text" / "inside").write_bytes(b"in")
        self.done(self.ours, "commit", "--land", "-m", "Folder")
        self.done(self.theirs, "update")
        self.assertEqual((self.theirs / "text" / "inside").read_bytes(), b"in")
        (self.theirs / "text" / "inside").unlink()
        (self.theirs / "text").rmdir()
        (self.theirs / "text").write_bytes(b"file")
        self.done(self.theirs, "commit", "--land", "-m", "File")
        self.done(self.ours, "update")
        self.assertEqual((self.ours / "text").read_bytes(), b"file")
        self.assertEqual(self.changes(self.ours), {})


class Clashes(CopyCase):
    """Edits of one file in two copies."""

    def test_an_edit_of_a_stale_file_clashes_and_is_rebased(self):
        (self.theirs / "text").write_bytes(with_line(2, b"theirs"))
        self.done(self.theirs, "commit", "--land", "-m", "Theirs")
        (self.ours / "text").write_bytes(with_line(15, b"ours"))
        (self.ours / "other").write_bytes(b"other")
        self.warned(self.ours, "text was changed on", "commit", "-m", "Ours")
        words = self.fails(self.ours, "land")
        self.assertIn("text in the draft clashes with text", words)
        self.assertIn("`jarrah rebase`", words)
        self.assertIn("1 draft on it", self.done(self.ours, "status").out)
        self.assertIn("1 draft", self.fails(self.ours, "update"))
        self.done(self.ours, "rebase")
        both = with_line(15, b"ours").replace(b"line 2\n", b"theirs\n")
        self.assertEqual((self.ours / "text").read_bytes(), both)
        self.assertEqual(self.changes(self.ours), {})
        self.done(self.ours, "land")
        self.assertEqual(self.tree(self.name)["text"], both)
        self.assertEqual(self.tree(self.name)["other"], b"other")
        titles = [one["message"] for one in self.ok("--json", "log", self.name).documents]
        self.assertEqual(titles, ["Ours", "Theirs", "First", ""])

    def test_a_conflict_is_settled(self):
        (self.theirs / "text").write_bytes(with_line(2, b"theirs"))
        self.done(self.theirs, "commit", "--land", "-m", "Theirs")
        (self.ours / "first").write_bytes(b"1")
        self.done(self.ours, "commit", "-m", "One")
        (self.ours / "text").write_bytes(with_line(2, b"ours"))
        self.warned(self.ours, "text was changed on", "commit", "-m", "Two")
        (self.ours / "last").write_bytes(b"3")
        self.warned(self.ours, "text was changed on", "commit", "-m", "Three")
        ran = self.done(self.ours, "rebase", status=1)
        self.assertIn("conflict text: changed here and there", ran.out)
        self.assertEqual(self.changes(self.ours), {"text": "conflict"})
        found = (self.ours / "text").read_bytes()
        self.assertIn(b"<<<<<<< here\nours\n", found)
        self.assertIn(b"=======\ntheirs\n>>>>>>> there\n", found)
        self.assertFalse((self.ours / "last").exists())
        self.assertIn("isn't over", self.fails(self.ours, "commit", "-m", "x"))
        self.assertIn("marks", self.fails(self.ours, "rebase", "--continue"))
        (self.ours / "text").write_bytes(with_line(2, b"both"))
        self.assertIn("is a conflict", self.fails(self.ours, "rebase", "--continue"))
        self.done(self.ours, "resolve", "text")
        self.done(self.ours, "rebase", "--continue")
        self.done(self.ours, "land")
        tree = self.tree(self.name)
        self.assertEqual(tree["text"], with_line(2, b"both"))
        self.assertEqual((tree["first"], tree["last"]), (b"1", b"3"))
        titles = [one["message"] for one in self.ok("--json", "log", self.name).documents]
        self.assertEqual(titles[:4], ["Three", "Two", "One", "Theirs"])

    def test_a_rebase_is_taken_back(self):
        (self.theirs / "text").write_bytes(b"theirs")
        self.done(self.theirs, "commit", "--land", "-m", "Theirs")
        (self.ours / "text").write_bytes(b"ours")
        (self.ours / "new").write_bytes(b"new")
        self.warned(self.ours, "text was changed on", "commit", "-m", "Ours")
        before = folder_files(self.ours)
        base = self.done(self.ours, "--json", "status").document["base"]
        self.done(self.ours, "rebase", status=1)
        (self.ours / "notes").write_bytes(b"of the conflict")
        self.done(self.ours, "rebase", "--abort")
        self.assertEqual((self.ours / "notes").read_bytes(), b"of the conflict")
        (self.ours / "notes").unlink()
        self.assertEqual(folder_files(self.ours), before)
        after = self.done(self.ours, "--json", "status").document
        self.assertEqual((after["base"], after["changes"], after["drafts"]), (base, [], [base]))

    def test_a_folder_in_the_way(self):
        (self.theirs / "spot").write_bytes(b"file")
        self.done(self.theirs, "commit", "--land", "-m", "A file")
        (self.ours / "spot").mkdir()
        (self.ours / "spot" / "x").write_bytes(b"x")
        self.done(self.ours, "commit", "-m", "A folder")
        self.assertIn("clashes", self.fails(self.ours, "land"))
        ran = self.done(self.ours, "rebase", status=1)
        self.assertIn("spot is in its way there", ran.out)
        self.assertEqual((self.ours / "spot").read_bytes(), b"file")

    def test_the_same_change_on_both_sides(self):
        for top in (self.theirs, self.ours):
            (top / "text").write_bytes(b"same")
        self.done(self.theirs, "commit", "--land", "-m", "Theirs")
        self.warned(self.ours, "text was changed on", "commit", "-m", "Ours")
        self.assertIn("has the draft", self.done(self.ours, "rebase").out)
        self.assertEqual(self.done(self.ours, "--json", "status").document["drafts"], [])

    def test_others_files_come_with_a_landing(self):
        (self.theirs / "text").write_bytes(b"theirs")
        self.done(self.theirs, "commit", "--land", "-m", "Theirs")
        (self.ours / "new").write_bytes(b"new")
        (self.ours / "lib" / "a").write_bytes(b"not yet")
        self.done(self.ours, "commit", "--land", "new", "-m", "Ours")
        self.assertEqual((self.ours / "text").read_bytes(), b"theirs")
        self.assertEqual(self.changes(self.ours), {"lib/a": "changed"})


class Updates(CopyCase):
    """Update, amend and revert."""

    def test_what_is_changed_is_kept(self):
        (self.theirs / "text").write_bytes(with_line(2, b"theirs"))
        (self.theirs / "lib" / "a").unlink()
        (self.theirs / "run").write_bytes(b"theirs")
        (self.theirs / "new").write_bytes(b"theirs")
        (self.theirs / "spot").write_bytes(b"theirs")
        self.done(self.theirs, "commit", "--land", "-m", "Theirs")
        (self.ours / "text").write_bytes(with_line(15, b"ours"))
        (self.ours / "lib" / "a").write_bytes(b"ours")
        (self.ours / "run").unlink()
        (self.ours / "new").write_bytes(b"ours")
        (self.ours / "spot").mkdir()
        (self.ours / "spot" / "x").write_bytes(b"ours")
        ran = self.done(self.ours, "--json", "update", status=1).document
        self.assertEqual(ran["merged"], ["new", "text"])
        wanted = {"lib/a": "changed here and deleted there"}
        wanted |= {"run": "deleted here and changed there"}
        wanted |= {"new": "changed here and there", "spot": "spot/ is in its way"}
        self.assertEqual(ran["conflicts"], wanted)
        both = with_line(15, b"ours").replace(b"line 2\n", b"theirs\n")
        self.assertEqual((self.ours / "text").read_bytes(), both)
        self.assertEqual((self.ours / "lib" / "a").read_bytes(), b"ours")
        self.assertFalse((self.ours / "run").exists())
        self.assertIn(b"<<<<<<< here\nours\n", (self.ours / "new").read_bytes())
        self.assertIn("is a conflict", self.fails(self.ours, "commit", "--land", "-m", "x"))
        self.done(self.ours, "revert", "run")
        self.assertEqual((self.ours / "run").read_bytes(), b"theirs")

    def test_an_update_that_was_killed_goes_on(self):
        (self.theirs / "text").write_bytes(b"theirs")
        self.done(self.theirs, "commit", "--land", "-m", "Theirs")
        (self.ours / "text").write_bytes(b"theirs")
        self.assertEqual(self.changes(self.ours), {"text": "changed"})
        self.done(self.ours, "update")
        self.assertEqual(self.changes(self.ours), {})

    def test_to_an_older_changeset_and_back(self):
        (self.ours / "text").write_bytes(b"new")
        self.done(self.ours, "commit", "--land", "-m", "New")
        self.done(self.ours, "update", self.first["head"])
        self.assertEqual((self.ours / "text").read_bytes(), LINES)
        self.done(self.ours, "update")
        self.assertEqual((self.ours / "text").read_bytes(), b"new")

    def test_a_link_becomes_a_folder_with_files_of_the_same_names(self):
        (self.theirs / "link").unlink()
        (self.theirs / "link").mkdir()
        (self.theirs / "link" / "a").write_bytes(b"its own")
        self.done(self.theirs, "commit", "--land", "-m", "A folder in place of the link")
        self.done(self.ours, "update")
        self.assertEqual((self.ours / "link" / "a").read_bytes(), b"its own")
        self.assertEqual((self.ours / "lib" / "a").read_bytes(), b"a")
        self.assertEqual(self.changes(self.ours), {})
        self.done(self.ours, "update", self.first["head"])
        self.assertEqual(os.readlink(self.ours / "link"), "lib")
        self.assertEqual((self.ours / "lib" / "a").read_bytes(), b"a")

    def test_a_link_of_ones_own_is_in_the_way_of_a_folder(self):
        (self.theirs / "more").mkdir()
        (self.theirs / "more" / "a").write_bytes(b"its own")
        self.done(self.theirs, "commit", "--land", "-m", "A folder")
        (self.ours / "more").symlink_to("lib")
        ran = self.within(self.ours, "update")
        self.assertEqual(ran.status, 1)
        self.assertIn("more is in its way", ran.out + ran.err)
        self.assertEqual(os.readlink(self.ours / "more"), "lib")
        self.assertEqual((self.ours / "lib" / "a").read_bytes(), b"a")

    def test_nothing_is_written_through_a_link(self):
        (self.theirs / "lib" / "b").write_bytes(b"b")
        self.done(self.theirs, "commit", "--land", "-m", "More")
        (self.folder / "outside").mkdir()
        (self.ours / "lib" / "a").unlink()
        (self.ours / "lib").rmdir()
        (self.ours / "lib").symlink_to(self.folder / "outside")
        self.done(self.ours, "--json", "update", status=1)
        self.assertEqual(list((self.folder / "outside").iterdir()), [])

    def test_amend(self):
        self.assertIn("only a draft", self.fails(self.ours, "amend", "-m", "x"))
        (self.ours / "text").write_bytes(b"one")
        (self.ours / "new").write_bytes(b"new")
        self.done(self.ours, "commit", "-m", "Draft")
        (self.ours / "text").write_bytes(LINES)
        (self.ours / "more").write_bytes(b"more")
        amended = self.done(self.ours, "--json", "amend", "-m", "Amended").document
        self.assertEqual([one["path"] for one in amended["changes"]], ["more", "new"])
        self.assertEqual(amended["message"], "Amended")
        self.assertEqual(amended["parents"], [self.first["head"]])
        self.assertEqual(self.changes(self.ours), {})
        self.done(self.ours, "land")
        titles = [one["message"] for one in self.ok("--json", "log", self.name).documents]
        self.assertEqual(titles, ["Amended", "First", ""])

    def test_revert(self):
        (self.ours / "text").write_bytes(b"changed")
        (self.ours / "lib" / "a").unlink()
        (self.ours / "lib" / "new").write_bytes(b"new")
        self.done(self.ours, "revert", ".")
        self.assertEqual(self.changes(self.ours), {"lib/new": "added"})
        self.assertIn("as the base", self.fails(self.ours, "revert", "text"))
        self.assertIn("nothing to put back", self.fails(self.ours, "revert", "lib/new"))
        self.assertIn("isn't in the working copy", self.fails(self.ours, "revert", self.folder))

    def test_two_commands_at_once(self):
        with (self.ours / ".jarrah" / "lock").open("a+b") as file:
            import fcntl

            fcntl.flock(file, fcntl.LOCK_EX)
            self.assertIn("another command", self.fails(self.ours, "status"))

    def test_a_state_that_is_none(self):
        (self.ours / ".jarrah" / "state").write_bytes(b"{}\n")
        self.assertIn("no state", self.fails(self.ours, "status"))
