"""Words by which a person names changesets and commands, and what is told of them."""

from __future__ import annotations

from jarrah_client.drafting.drafts import ROOT
from jarrah_client.formats.changesets import Changeset
from jarrah_client.net.server import Server

from ..harness import fresh, jarrah, on_terminal
from ..working.test_working import LINES, CopyCase, with_line


class Names(CopyCase):
    """What an id may be said by."""

    def setUp(self) -> None:
        super().setUp()
        (self.ours / "text").write_bytes(with_line(3, b"three"))
        landed = self.done(self.ours, "--json", "commit", "--land", "-m", "Two").document
        self.second = landed["head"]

    def id_of(self, name: str) -> str:
        """What a name means within a working copy."""
        return self.done(self.ours, "--json", "log", name, "-n", 1).document["id"]

    def test_steps(self):
        first, second = self.first["head"], self.second
        for name, wanted in (
            (".", second),
            ("~", first),
            (".~1", first),
            (f"{self.name}^", first),
            (f"{second[:8]}~2", ROOT.id),
            (f"{second}^^", ROOT.id),
            (".~1^1", ROOT.id),
            (".~0^0", second),
        ):
            self.assertEqual(self.id_of(name), wanted, name)
        for name, said in (
            (".~3", "has 0 parents"),
            (".^2", "has 1 parents"),
            ("~999999", "too far"),
            ("a~b", "names no changeset"),
        ):
            self.assertIn(said, self.fails(self.ours, "log", name))

    def test_the_other_parent(self):
        server = Server(self.merging())
        self.addCleanup(server.close)
        server.put_changeset(ROOT)
        sides = [Changeset((ROOT.id,), "A", n, 0, str(n)) for n in range(2)]
        merge = Changeset((sides[0].id, sides[1].id), "A", 0, 0, "both")
        for one in (*sides, merge):
            server.put_changeset(one)
        for name, wanted in (("^", 0), ("^2", 1), ("~1", 0)):
            ran = jarrah("--json", "log", merge.id + name, "-n", 1, server=server.url)
            self.assertEqual(ran.document["id"], sides[wanted].id)

    def test_no_id_at_all(self):
        logged = [one["id"] for one in self.done(self.ours, "--json", "log").documents]
        self.assertEqual(logged, [self.second, self.first["head"], ROOT.id])
        self.assertEqual(self.done(self.ours / "lib", "cat", "a").out, "a")
        self.assertEqual(self.done(self.ours, "cat", ".~1", "text").out, LINES.decode())
        history = self.done(self.ours / "lib", "--json", "history", "../text").documents
        self.assertEqual([one["id"] for one in history], logged[:2])
        log = self.done(self.ours / "lib", "--json", "log", "--path", "a").documents
        self.assertEqual([one["id"] for one in log], logged[1:2])
        self.assertIn("run", self.done(self.ours, "ls").out)
        self.assertEqual(self.done(self.ours, "ls", ".", "lib").out.split()[-1], "a")
        self.assertEqual(self.done(self.ours, "copies").out, "")
        for words in (("log",), ("ls",), ("cat", "text")):
            ran = jarrah(*words, server=self.server)
            self.assertEqual(ran.status, 2, words)
            self.assertIn("or work in a working copy", ran.err)
        self.assertIn("no bookmark .", self.refused("log", "."))

    def test_a_draft_by_few_digits(self):
        (self.ours / "new").write_bytes(b"new")
        draft = self.done(self.ours, "--json", "commit", "-m", "New").document["id"]
        self.assertEqual(self.id_of(draft[:6]), draft)
        self.assertEqual(self.id_of("."), draft)
        self.done(self.ours, "land", "--stack", draft[:6])

    def test_what_may_have_been_meant(self):
        words = self.refused("log", self.name[:-1] + "x" + self.name[-1])
        self.assertIn(f"did you mean {self.name[:2]}", words)
        ran = jarrah("comit", server=self.server)
        self.assertEqual(ran.status, 2)
        self.assertIn("there is no command comit: did you mean `commit`?", ran.err)
        self.assertIn("`jarrah help` tells them", jarrah("xyzzy", server=self.server).err)

    def test_help(self):
        told = jarrah("help", server=self.server)
        self.assertEqual((told.status, told.out), (0, jarrah("--help", server=self.server).out))
        told = jarrah("help", "commit", server=self.server)
        self.assertEqual(told.out, jarrah("commit", "--help", server=self.server).out)
        self.assertEqual(jarrah("help", "comit", server=self.server).status, 2)

    def test_few_digits_on_a_terminal(self):
        words = ("log", "--oneline", "--color", "never")
        told = on_terminal(*words, folder=self.ours).out.splitlines()
        self.assertRegex(told[0], rf"^{self.second[:12]}  \d{{4}}-\d\d-\d\d  ")
        self.assertIn(f"on {self.second[:12]} of", on_terminal("status", folder=self.ours).out)
        self.assertIn(self.second, on_terminal("--json", "status", folder=self.ours).out)
        self.assertIn(self.second, self.done(self.ours, "log", "--oneline").out)


class Between(CopyCase):
    """Diffs of two changesets, and how many lines come and go."""

    def setUp(self) -> None:
        super().setUp()
        (self.ours / "text").write_bytes(with_line(3, b"three") + b"more\n")
        (self.ours / "lib" / "a").unlink()
        (self.ours / "lib" / "b").write_bytes(b"\0b")

    def test_of_two_changesets(self):
        self.done(self.ours, "commit", "--land", "-m", "Two")
        told = self.ok("diff", f"{self.name}~1", self.name).out.splitlines()
        self.assertEqual(told, ["deleted  lib/a", "added    lib/b", "edited   text"])
        told = self.done(self.ours, "diff", ".", ".~1", "-p").out
        self.assertIn("--- /dev/null\n+++ b/lib/a\n", told)
        self.assertIn("-three\n+line 3\n", told)
        rows = self.ask("diff", self.first["head"], self.name, "lib")["changes"]
        self.assertEqual([one["path"] for one in rows], ["lib/a", "lib/b"])
        self.assertEqual(self.ok("diff", self.name, self.name).out, "")

    def test_counts(self):
        wanted = ["lib/a  +0 -1", "lib/b  the bytes differ", "text   +2 -1", "3 files, +2 -2"]
        self.assertEqual(self.done(self.ours, "diff", "--stat").out.splitlines(), wanted)
        some = self.done(self.ours, "diff", "--stat", "text").out.splitlines()
        self.assertEqual(some, ["text  +2 -1", "1 file, +2 -1"])
        self.done(self.ours, "commit", "--land", "-m", "Two")
        for words in ((self.name,), (f"{self.name}^", self.name)):
            self.assertEqual(self.ok("diff", "--stat", *words).out.splitlines(), wanted)
        told = self.ask("diff", "--stat", self.name)
        self.assertEqual((told["added"], told["deleted"]), (2, 2))
        self.assertEqual(told["files"][1]["added"], None)

    def test_words_that_go_nowhere(self):
        self.assertEqual(jarrah("diff", server=self.server).status, 2)
        self.assertIn("no bookmark", self.refused("diff", self.name, fresh("absent")))
        self.assertIn("no bookmark", self.fails(self.ours, "diff", "absent", "text"))
