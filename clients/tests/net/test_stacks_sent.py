"""Several changesets in one request: what the client sends, also where a server takes no lists."""

from __future__ import annotations

from dataclasses import replace

from jarrah_client.drafting import landing
from jarrah_client.formats.changesets import Changeset, File
from jarrah_client.net.contents import CONNECTIONS, in_memory, store_all
from jarrah_client.net.server import NotReached, Server
from jarrah_client.refusals import Refused

from ..formats.test_encoding import ABC, EMPTY
from ..git_maker import Maker
from ..harness import Case, enter, fresh, jarrah_process
from ..passing import Passing

NOTHING = "0" * 64
LANDS = ("POST /land/", "POST /stack/")


def commit(number: int) -> bytes:
    """A commit of a file of its own, for `git fast-import`."""
    words = b"commit refs/heads/main\ncommitter A <a@example.org> %d +0000\n" % number
    return words + b"data 1\nm\nM 644 inline f%d\ndata 3\n%03d\n" % (number, number)


class Sent(Case):
    """A bookmark of its own, and a line of changesets that the server doesn't know yet."""

    def setUp(self) -> None:
        super().setUp()
        self.needs_lists()
        self.abc = self.write("abc")
        self.name = fresh()
        self.to = Server(self.server)
        self.addCleanup(self.to.close)
        self.to.put_content(ABC, b"abc")
        self.base = replace(EMPTY, message=self.name)
        self.to.put_changeset(self.base)
        self.to.move_bookmark(self.name, None, self.base.id)

    def on(self, parent: Changeset, path: str, file: File | None = None, **words) -> Changeset:
        changed = replace(self.base, parents=(parent.id,), changes={path: file}, author="a tester")
        return replace(changed, **words)

    def line(self, count: int, **words) -> list[Changeset]:
        """So many, each on the one before."""
        line = [self.base]
        while len(line) <= count:
            line.append(self.on(line[-1], f"f{len(line)}", **words))
        return line[1:]

    def through(self, **words) -> tuple[Passing, Server]:
        """A proxy that keeps what it is asked, and a client of it."""
        proxy = Passing(self.server, **words)
        enter(self, proxy)
        server = Server(proxy.url)
        self.addCleanup(server.close)
        return proxy, server

    def changes(self, proxy: Passing) -> list[str]:
        """What was asked for beside reads and contents."""
        return [it for it in proxy.asked if not it.startswith("GET") and it != "PUT /content"]

    def refusal(self, call, *words) -> Refused:
        with self.assertRaises(Refused) as caught:
            call(*words)
        return caught.exception

    def is_known(self, *changesets: Changeset) -> list[bool]:
        return [landing.is_known(self.to, it.id) for it in changesets]


class Stacks(Sent):
    """Stacks that are landed."""

    def test_one_request(self):
        proxy, server = self.through()
        line = self.line(5)
        landed = server.land_stack(self.name, line)
        self.assertEqual(landed.ids, [it.id for it in line])
        self.assertEqual((landed.head, landed.old), (line[-1].id, self.base.id))
        self.assertEqual(proxy.asked, [f"POST /stack/{self.name}"])

    def test_an_older_server(self):
        proxy, server = self.through(is_older=True)
        line = self.line(4)
        self.assertEqual(server.land_stack(self.name, line[:2]).head, line[1].id)
        one_by_one = [*["PUT /changeset"] * 2, f"POST /land/{self.name}/{line[1].id}"]
        self.assertEqual(proxy.asked, [f"POST /stack/{self.name}", *one_by_one])
        other = server.another()
        other.put_changesets(line[2:])
        self.assertEqual(other.land_stack(self.name, line[2:]).head, line[3].id)
        other.close()
        self.assertFalse([it for it in proxy.asked[4:] if "stack" in it or "sets" in it])

    def test_a_refusal_in_the_middle(self):
        for is_older in (False, True):
            _, server = self.through(is_older=is_older)
            line = self.line(2, message=f"{self.name} {is_older}")
            line.append(self.on(line[-1], "c", File(NOTHING, 1)))
            line.append(self.on(line[-1], "d"))
            for call in (server.put_changesets, lambda it: server.land_stack(self.name, it)):
                refusal = self.refusal(call, line)
                found = (refusal.code, refusal.members["at"], refusal.members["path"])
                self.assertEqual(found, ("missing-content", 2, "c"))
            self.assertEqual(self.is_known(*line), [True, True, False, False])
            draft, words = line[-1].id, {"allows_empty": True, "new": line}
            refusal = self.refusal(lambda: landing.land(server, self.name, draft, **words))
            self.assertTrue(str(refusal).startswith(f"changeset {line[2].id}: the server doesn't"))

    def test_a_landing_that_is_refused(self):
        for is_older in (False, True):
            self.to.land_stack(self.name, [self.on(self.base, f"f2/{is_older}")])
            _, server = self.through(is_older=is_older)
            line = self.line(3, message=f"{self.name} {is_older}")
            words = {"allows_empty": True, "new": line}
            refusal = self.refusal(lambda: landing.land(server, self.name, line[-1].id, **words))
            self.assertEqual((refusal.code, refusal.members["at"]), ("clash", 3))
            self.assertTrue(str(refusal).startswith(f"draft {line[-1].id}: f2 in the draft"))
            self.assertEqual(self.is_known(*line), [True] * 3)

    def test_a_stack_that_says_nothing_is_not_sent(self):
        proxy, server = self.through()
        line = self.line(2, message=" ")
        with self.assertRaises(landing.Unsaid):
            landing.land(server, self.name, line[-1].id, new=line)
        self.assertFalse([it for it in proxy.asked if it.startswith(LANDS)])

    def test_the_same_stack_twice(self):
        """As where a push was interrupted once its landing was on its way."""
        _, server = self.through(loses="after")
        line = self.line(3)
        with self.assertRaises(NotReached):
            server.land_stack(self.name, line)
        self.assertEqual(self.to.head(self.name), line[-1].id)
        refusal = self.refusal(self.to.land_stack, self.name, line)
        self.assertEqual((refusal.code, refusal.members["at"]), ("already-in", 3))

    def test_a_stack_that_never_came(self):
        proxy, server = self.through(loses="before")
        line = self.line(3)
        with self.assertRaises(NotReached) as caught:
            landing.land(server, self.name, line[-1].id, allows_empty=True, new=line)
        self.assertIn("it hasn't landed by entry", str(caught.exception))
        self.assertEqual(proxy.asked.count(f"POST /stack/{self.name}"), 1)
        landed = landing.land(self.to, self.name, line[-1].id, allows_empty=True, new=line)
        self.assertEqual(landed.ids, [it.id for it in line])


class Long(Sent):
    """Lists that one request doesn't hold."""

    def test_over_a_hundred(self):
        proxy, server = self.through()
        line = self.line(250)
        server.put_changesets(line[:201])
        self.assertEqual(proxy.asked, [*["PUT /changesets"] * 2, "PUT /changeset"])
        server.land_stack(self.name, line[:100])
        del proxy.asked[:]
        landed = server.land_stack(self.name, line[100:200])
        self.assertEqual(landed.head, line[199].id)
        other = self.line(120, message=self.name + ".")
        refusal = self.refusal(server.land_stack, self.name, other)
        self.assertEqual((refusal.code, refusal.members["at"]), ("stack-too-long", 120))
        wanted = ["PUT /changesets", f"POST /stack/{self.name}"]
        self.assertEqual(proxy.asked, [wanted[1], *wanted])

    def test_a_refusal_behind_the_first_hundred(self):
        line = self.line(130)
        line.append(self.on(line[-1], "x", File(NOTHING, 1)))
        for is_older in (False, True):
            _, server = self.through(is_older=is_older)
            refusal = self.refusal(server.land_stack, self.name, line)
            self.assertEqual((refusal.code, refusal.members["at"]), ("missing-content", 130))

    def test_over_a_mebibyte(self):
        proxy, server = self.through()
        line = self.line(5, message="." * 400_000)
        server.land_stack(self.name, line)
        stack = f"POST /stack/{self.name}"
        self.assertEqual(proxy.asked, ["PUT /changesets", "PUT /changesets", stack])

    def test_one_that_no_list_holds(self):
        proxy, server = self.through()
        room = 1_048_576 - len(self.on(self.base, "f", message="").encoded)
        longest = self.on(self.base, "f", message="." * room)
        above = self.on(longest, "g")
        server.put_changesets([longest, above])
        server.land_stack(self.name, [longest])
        self.assertEqual(server.land_stack(self.name, [above]).head, above.id)
        one, lands = "PUT /changeset", f"POST /land/{self.name}/{longest.id}"
        self.assertEqual(proxy.asked, [one, one, one, lands, f"POST /stack/{self.name}"])


class Commands(Sent):
    """What the commands send."""

    def test_a_commit(self):
        for is_older in (False, True):
            proxy, _ = self.through(is_older=is_older)
            direct, self.server = self.server, proxy.url
            files = [f"--set={is_older}/{number}={self.abc}" for number in range(5)]
            head = self.ask("commit", self.name, "-m", "c", *files)["head"]
            self.server = direct
            stack, lands = f"POST /stack/{self.name}", f"POST /land/{self.name}/{head}"
            older = [stack, "PUT /changeset", lands]
            self.assertEqual(self.changes(proxy), older if is_older else [stack])

    def test_an_import(self):
        maker = Maker(self.folder / "git")
        maker.git("fast-import", "--quiet", data=b"".join(map(commit, range(130))))
        for is_older in (False, True):
            proxy, _ = self.through(is_older=is_older)
            direct, self.server = self.server, proxy.url
            marks = self.folder / f"marks-{is_older}"
            self.ok("import-git", maker.folder, fresh(), "--marks", marks)
            self.server = direct
            found = self.changes(proxy)
            self.assertLess(found.count("PUT /changesets"), 2 if is_older else 20)
            self.assertEqual(found.count("PUT /changeset"), 130 if is_older else 0)


class WorkingCopies(Sent):
    """A working copy, which the program is run in as people do."""

    def setUp(self) -> None:
        super().setUp()
        self.needs_manifests()
        self.top = self.folder / "copy"
        self.ok("commit", self.name, "-m", "c", "--set", f"a={self.abc}")
        self.ok("checkout", self.name, self.top)

    def run_there(self, proxy: Passing, *words: object, status: int = 0) -> str:
        """What a command in the folder says, by way of a proxy."""
        del proxy.asked[:]
        ran = jarrah_process(*words, server=proxy.url, folder=self.top)
        self.assertEqual(ran.status, status, ran)
        return ran.out + ran.err

    def drafts(self, proxy: Passing, count: int) -> None:
        for number in range(count):
            (self.top / f"f{number}").write_text(f"{number}")
            self.run_there(proxy, "commit", "-m", f"the {number}th")

    def test_a_commit_that_lands(self):
        proxy, _ = self.through()
        self.drafts(proxy, 1)
        for name in "pqrs":
            (self.top / name).write_text(name)
        self.assertIn("landed 2 changesets", self.run_there(proxy, "commit", "-m", "c", "--land"))
        self.assertEqual(self.changes(proxy), [f"POST /stack/{self.name}"])
        self.assertNotIn("draft", self.run_there(proxy, "status"))

    def test_a_commit_whose_landing_is_refused(self):
        """The draft is kept, as by a commit alone."""
        self.server, self.top = self.special().url, self.folder / "other"
        self.ok("init", "main")
        self.ok("checkout", "main", self.top)
        self.ok("policy", "--set", self.write("policy", b"deny * b\nallow * /\n"))
        proxy, _ = self.through()
        (self.top / "b").write_text("b")
        said = self.run_there(proxy, "commit", "-m", "b", "--land", status=1)
        self.assertRegex(said, "draft [0-9a-f]{64}: the server's policy doesn't allow this at b")
        self.assertIn("1 draft on it", self.run_there(proxy, "status"))

    def test_a_commit_that_is_refused_itself(self):
        self.server, self.top = self.special(capacity=4_096).url, self.folder / "other"
        self.ok("init", "main")
        self.ok("checkout", "main", self.top)
        proxy, _ = self.through()
        (self.top / "b").write_text("b")
        said = self.run_there(proxy, "commit", "-m", "b" * 4_000, "--land", status=1)
        self.assertRegex(said, "changeset [0-9a-f]{64}: the server's file is full")
        found = self.run_there(proxy, "status")
        self.assertNotIn("draft", found)
        self.assertIn("A b", found)

    def test_a_rebase(self):
        for is_older in (False, True):
            proxy, _ = self.through(is_older=is_older)
            self.drafts(proxy, 3)
            theirs = self.write("theirs", b"%d" % is_older)
            self.ok("commit", self.name, "-m", "theirs", "--set", f"t={theirs}")
            self.assertIn("3 drafts on", self.run_there(proxy, "rebase"))
            wanted = ["PUT /changesets", *["PUT /changeset"] * 3 * is_older]
            self.assertEqual(self.changes(proxy), wanted)
            self.run_there(proxy, "land")
            for number in range(3):
                self.ok("commit", self.name, "-m", "gone", "--delete", f"f{number}")
            self.run_there(proxy, "update")

    def test_the_rest_of_a_stack(self):
        proxy, _ = self.through()
        self.drafts(proxy, 4)
        self.ok("commit", self.name, "-m", "theirs", "--set", f"t={self.abc}")
        self.run_there(proxy, "land", "--stack", "the 0th")
        found = self.changes(proxy)
        self.assertTrue(found[0].startswith(f"POST /land/{self.name}/"), found)
        self.assertEqual(found[1:], ["PUT /changesets"])


class SideBySide(Sent):
    """Contents that go up over several connections."""

    def test_all_are_stored(self):
        sources = [in_memory(f"f{it}", f"{self.name} {it}".encode()) for it in range(30)]
        for server in (self.to, Server(self.special(lanes=1).url)):
            store_all(server, sources, quietly=True)
            for it in sources:
                self.assertEqual(server.content(it.id), it.read())
            server.close()
        self.assertLess(CONNECTIONS, len(sources))

    def test_one_that_is_refused(self):
        small = Server(self.special(capacity=4_096).url)
        self.addCleanup(small.close)
        sources = [in_memory(f"f{it}", b"%d" % it * 1_000) for it in range(8)]
        refusal = self.refusal(lambda: store_all(small, sources, quietly=True))
        self.assertEqual(refusal.code, "full")
