"""Working copies that have only some directories of the tree."""

from __future__ import annotations

from jarrah_client.net.server import Trouble
from jarrah_client.working.sparse import Profile, read_profile

from ..harness import folder_files, fresh, jarrah
from .test_working import InFolders

PATHS = ["top", "app/build", "app/main/x", "app/main/deep/y", "app/other/z", "lib/a", "lib/b/c"]
MAIN = ["app/build", "app/main/deep/y", "app/main/x", "top"]
"""What a folder has whose profile is `app/main`."""


class Sparse(InFolders):
    """A tree with a few directories, and a folder with one of them."""

    def setUp(self) -> None:
        super().setUp()
        self.name = fresh()
        self.ok("init", self.name)
        self.commit(*PATHS)
        self.profile = self.write("profile", b"# what I work on\n\n/app/main/\n")
        self.top = self.folder / "copy"
        self.ok("checkout", self.name, self.top, "--sparse", self.profile)

    def commit(self, *paths: str, data: bytes = b"abc", words: tuple[str, ...] = ()) -> str:
        """Lands a changeset that sets paths to the same bytes."""
        place = self.write(f"data-{data.hex()}", data)
        sets = [word for path in paths for word in ("--set", f"{path}={place}")]
        said = ("-m", "A change", "--base", self.name)
        return self.ask("commit", self.name, *sets, *words, *said)["head"]

    def has(self) -> list[str]:
        return sorted(folder_files(self.top))

    def test_what_is_in_the_folder(self):
        self.assertEqual(self.has(), MAIN)
        self.assertEqual(self.changes(self.top), {})
        told = self.done(self.top, "--json", "sparse").document
        self.assertEqual(told, {"directories": ["app/main"]})
        plain = self.folder / "plain"
        self.ok("checkout", self.name, plain, "--plain", "--fold", "--sparse", self.profile)
        self.assertEqual(sorted(folder_files(plain)), MAIN)

    def test_updates(self):
        self.commit("lib/a", "app/main/x", "app/other/new", "app/new", "new/f", data=b"new")
        self.commit("app/main/more", words=("--delete", "app/main/deep/y", "--delete", "lib/b/c"))
        told = self.done(self.top, "--json", "update").document
        self.assertEqual((told["written"], told["deleted"], told["conflicts"]), (3, 1, {}))
        self.assertEqual(self.has(), ["app/build", "app/main/more", "app/main/x", "app/new", "top"])
        self.assertEqual((self.top / "app/main/x").read_bytes(), b"new")
        self.assertEqual(self.changes(self.top), {})

    def test_renames_that_come(self):
        self.commit("app/main/x", data=b"one\ntwo\nthree\n")
        self.commit("app/main/deep/y", data=b"four\nfive\nsix\n")
        self.done(self.top, "update")
        whole = self.folder / "whole"
        self.ok("checkout", self.name, whole)
        self.done(whole, "mv", "app/main/x", "app/main/moved")
        self.done(whole, "mv", "app/main/deep/y", "lib/y")
        self.done(whole, "commit", "-m", "Moved", "--land")
        (self.top / "app/main/x").write_bytes(b"one\ntwo\nTHREE\n")
        (self.top / "app/main/deep/y").write_bytes(b"FOUR\nfive\nsix\n")
        told = self.within(self.top, "--json", "update")
        self.assertEqual((told.status, list(told.document["conflicts"])), (1, ["app/main/deep/y"]))
        self.assertEqual((self.top / "app/main/moved").read_bytes(), b"one\ntwo\nTHREE\n")
        self.assertFalse((self.top / "lib").exists() or (self.top / "app/main/x").exists())

    def test_only_what_is_wanted_is_read(self):
        served = self.special_stand_in()
        self.server = served.url
        self.ok("init", self.name)
        self.commit(*PATHS, *(f"wide/d{number}/f" for number in range(30)))
        asked: list[str] = []
        fsnode = served.service.fsnode
        served.service.fsnode = lambda id, path="": asked.append(path) or fsnode(id, path)
        other = self.folder / "other"
        self.ok("checkout", self.name, other, "--sparse", self.profile)
        self.assertEqual(set(asked), {"", "app", "app/main", "app/main/deep"})
        self.commit("wide/d3/f", "app/main/x", "lib/a", data=b"new")
        asked.clear()
        self.done(other, "update")
        self.assertEqual(set(asked), {"", "app", "app/main"})

    def test_drafts_land_and_rebase(self):
        (self.top / "app/main/x").write_bytes(b"ours")
        (self.top / "app/main/new").write_bytes(b"new")
        self.done(self.top, "commit", "--draft", "-m", "Ours")
        self.commit("app/main/deep/y", "lib/a", data=b"theirs")
        self.done(self.top, "rebase")
        self.done(self.top, "land")
        self.assertEqual(self.has(), sorted([*MAIN, "app/main/new"]))
        tree = self.tree(self.name)
        self.assertEqual((tree["app/main/x"], tree["lib/a"]), (b"ours", b"theirs"))
        self.assertEqual(sorted(tree), sorted([*PATHS, "app/main/new"]))

    def test_new_files_outside(self):
        for path in ("lib/a", "app/other/mine", "app/main/mine"):
            (self.top / path).parent.mkdir(parents=True, exist_ok=True)
            (self.top / path).write_bytes(b"mine")
        told = self.done(self.top, "--json", "status").document
        self.assertEqual(set(told["faults"]), {"lib/a", "app/other/mine"})
        self.assertIn("can't be committed", self.fails(self.top, "commit", "-m", "All"))
        self.done(self.top, "commit", "--draft", "app/main", "-m", "Inside")
        self.done(self.top, "land")
        self.assertEqual(self.tree(self.name)["lib/a"], b"abc")
        said = self.fails(self.top, "sparse", "--add", "lib")
        self.assertIn("lib/a is in the way: put it elsewhere first", said)
        self.assertEqual((self.top / "lib/a").read_bytes(), b"mine")
        (self.top / "lib/a").write_bytes(b"abc")
        self.done(self.top, "sparse", "--add", "lib")
        told = self.done(self.top, "--json", "status").document
        self.assertEqual(set(told["faults"]), {"app/other/mine"})

    def test_another_profile(self):
        told = self.done(self.top, "--json", "sparse", "--add", "lib/b", "app/other").document
        self.assertEqual(told["directories"], ["app/main", "app/other", "lib/b"])
        self.assertEqual(self.has(), PATHS_SORTED)
        self.done(self.top, "sparse", "--remove", "app/main")
        self.assertEqual(self.has(), ["app/build", "app/other/z", "lib/a", "lib/b/c", "top"])
        self.assertFalse((self.top / "app/main").exists())
        self.done(self.top, "sparse", "--set", self.profile)
        self.assertEqual(self.has(), MAIN)
        self.done(self.top, "sparse", "--all")
        self.assertEqual(self.has(), PATHS_SORTED)
        self.assertEqual(self.done(self.top, "sparse").out, "the whole tree\n")
        self.assertEqual(self.changes(self.top), {})
        said = self.fails(self.top, "sparse", "--add", "x")
        self.assertIn("the whole tree is in the folder", said)

    def test_what_would_be_lost_is_refused(self):
        (self.top / "app/main/x").write_bytes(b"changed")
        for words in (("--set", self.write("other", b"lib\n")), ("--add", "lib", "..")):
            before = self.has()
            self.fails(self.top, "sparse", *words)
            self.assertEqual(self.has(), before)
        self.done(self.top, "sparse", "--add", "lib")
        self.done(self.top, "commit", "--draft", "-m", "Ours")
        self.assertIn("there are 1 draft", self.fails(self.top, "sparse", "--all"))
        self.assertIn("no line app", self.fails(self.top, "sparse", "--remove", "app"))

    def test_directories_that_are_not_there(self):
        other = self.write("other", b"app/main\nno/such\ntop\n")
        top = self.folder / "other-copy"
        ran = jarrah("checkout", self.name, top, "--sparse", other, server=self.server)
        self.assertEqual((ran.status, ran.complaint.count("is no directory of")), (0, 2))
        self.assertEqual(sorted(folder_files(top)), MAIN)

    def test_bisect(self):
        good = self.ask("bookmark", self.name)["head"]
        self.commit("lib/a", data=b"one")
        bad = self.commit("app/main/x", "lib/b/c", data=b"bad")
        self.commit("app/other/z", data=b"two")
        self.done(self.top, "update")
        words = ("--json", "bisect", "--good", good, "--", "grep", "-q", "abc", "app/main/x")
        ran = self.within(self.top, *words)
        self.assertEqual((ran.status, ran.document["first_bad"]), (0, bad))
        self.assertEqual(self.has(), MAIN)
        self.assertEqual(self.changes(self.top), {})

    def test_an_older_state(self):
        state = self.top / ".jarrah" / "state"
        self.assertIn('"sparse": ["app/main"]', state.read_text())
        self.done(self.top, "sparse", "--all")
        self.assertNotIn("sparse", state.read_text().partition("\n")[0])


PATHS_SORTED = sorted(PATHS)


class Profiles(InFolders):
    """Texts of profiles."""

    def test_what_is_refused(self):
        for text, said in (
            (b"# nothing\n\n", "names no directory"),
            (b"a\n\xff\n", "isn't UTF-8"),
            (b"a\n../b\n", "line 2: the directory '../b' is refused"),
            (b"/\n", "is refused: it is empty"),
        ):
            with self.assertRaisesRegex(Trouble, said):
                read_profile("it", text)

    def test_what_it_has(self):
        profile = Profile.of(["a/b", "a/b/c", "d"])
        self.assertEqual(profile.directories, ("a/b", "d"))
        has = {"x": True, "a/x": True, "a/b/x": True, "a/b/c/x": True, "a/c/x": False, "d": True}
        has |= {"d/e/f": True, "e/x": False, "a/bb/x": False}
        self.assertEqual({path: profile.has(path) for path in has}, has)
        leads = {"a": True, "a/b": True, "a/b/z": True, "a/c": False, "d": True, "e": False}
        self.assertEqual({path: profile.leads(path) for path in leads}, leads)
