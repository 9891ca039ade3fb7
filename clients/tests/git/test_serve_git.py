"""Git's own client before a remote: clones, pulls, and pushes that land."""

from __future__ import annotations

import gzip
import http.client
import json
import os
import random
import shutil
import signal
import socket
import threading
import time
from collections.abc import Callable
from concurrent.futures import ThreadPoolExecutor

from ..git_maker import Maker
from ..git_remote import Clone, Remote, RemoteCase, git
from ..harness import fresh, jarrah

COMMITS = 40
CLONES, STACKS = (int(it) for it in os.environ.get("JARRAH_GIT_LOAD", "4x3").split("x"))
"""How many clones push how many stacks each at once."""
BESIDE = 3
"""Landings by another client meanwhile."""
PAUSES = (0.4, 0.8, 1.6)
"""Seconds after which a remote is killed again."""
MOST_SECONDS = 300
"""So long a push is tried again on a machine that has much else to do."""
LARGE = 300_000
"""Bytes of a push that git sends in chunks."""


class Reads(RemoteCase):
    """What a clone has is what an export has."""

    def test_clones_equal_the_export(self):
        maker = Maker(self.folder / "history")
        for number in range(COMMITS):
            maker.step(number)
        name = fresh("history")
        marks = self.folder / "marks"
        self.ok("import-git", "--first-parent", maker.folder, name, "--marks", marks)
        remote = self.remote()
        self.ok("export-git", name, self.folder / "out")
        wanted = git(self.folder / "out", "rev-list", "--objects", name, "--").out
        self.assertEqual(wanted.count("\n") > COMMITS, True)
        for number, words in enumerate(([], ["--filter=blob:none"])):
            one = self.clone(remote, f"clone{number}", "--branch", name, *words)
            self.assertEqual(one.git("rev-list", "--objects", name, "--").out, wanted)
            one.git("fsck", "--strict")
        shallow = self.clone(remote, "shallow", "--depth", 3, "--branch", name)
        self.assertEqual(shallow.git("rev-list", "--count", "HEAD").out, "3")
        again = self.remote(name="again")
        words = ("for-each-ref", "refs/heads")
        self.assertEqual(git(again.mirror, *words).out, git(remote.mirror, *words).out)

    def test_what_others_land_is_pulled(self):
        remote = self.remote()
        ann = self.clone(remote, "ann")
        self.ok(
            "commit", self.trunk, "-m", "beside", "--set", f"beside={self.write('b', b'beside')}"
        )
        other = fresh("other")
        self.ok("bookmark", other, "--to", self.trunk)
        self.until(lambda: remote_refs(ann).get(other), "the watcher finds a bookmark")
        ann.pull()
        self.assertEqual((ann.folder / "beside").read_bytes(), b"beside")
        self.ok("bookmark", other, "--delete")
        self.until(lambda: other not in remote_refs(ann), "the watcher finds that it is gone")

    def test_damage_that_a_fetch_meets(self):
        remote = self.remote()
        for pack in (remote.mirror / "objects" / "pack").glob("*.pack"):
            pack.chmod(0o644)
            os.truncate(pack, pack.stat().st_size // 2)

        def has_all() -> bool:
            shutil.rmtree(self.folder / "ann", ignore_errors=True)
            said = git(self.folder, "clone", "-q", remote.url, "ann", status=None)
            return said.status == 0 and (self.folder / "ann" / "base").exists()

        self.assertFalse(has_all())
        self.until(has_all, "the mirror is mended")
        self.assertIn("mirror: damaged", remote.log.read_text())


def remote_refs(clone: Clone) -> dict[str, str]:
    """The branches that a clone's remote shows."""
    rows = (row.split("\t") for row in clone.git("ls-remote", "--heads", "origin").out.splitlines())
    return {ref.removeprefix("refs/heads/"): commit for commit, ref in rows}


class Pushes(RemoteCase):
    """Each answer that a push can get."""

    def test_landings(self):
        remote = self.remote()
        ann, bob = self.clone(remote, "ann"), self.clone(remote, "bob")
        commit = ann.commit("a", "1")
        self.assertIn(f"landed 1 commit on {self.trunk} as {commit[:12]}", ann.push())
        self.assertTrue(ann.is_even())
        bob.commit("b", "1")
        bob.commit("b", "2")
        self.assertIn("fetch first", bob.push(status=1))
        said = bob.land()
        self.assertRegex(
            said, f"landed 2 commits on {self.trunk} as .*`git pull --rebase` brings it"
        )
        landings = self.landings()
        self.assertEqual(len(landings), 3)
        self.assertRegex(bob.land(), f"landed before on {self.trunk} as ")
        self.assertEqual(self.landings(), landings)
        bob.pull()
        self.assertTrue(bob.is_even())
        bob.git("config", "remote.origin.push", f"HEAD:refs/for/{self.trunk}")
        bob.commit("c", "1")
        self.assertIn("landed 1 commit", bob.push("origin"))
        self.assertTrue(bob.is_even())
        self.assertIn("landed before", bob.push("origin"))
        self.assertIn("nothing new", bob.push("origin", f"HEAD~1:refs/for/{self.trunk}"))
        self.assertEqual(len(self.landings()), 4)
        self.assertFalse(list((remote.folder / "pushes").iterdir()))

    def test_a_clash(self):
        remote = self.remote()
        ann, bob = self.clone(remote, "ann"), self.clone(remote, "bob")
        ann.commit("d/f", "1")
        ann.push()
        lost, head = bob.commit("d", "2"), self.head()
        said = bob.land(status=1)
        self.assertRegex(said, r"clash: .*d in the draft clashes with d/f, .*`git pull --rebase`")
        self.assertEqual(self.head(), head)
        self.assertTrue(git(remote.mirror, "cat-file", "-e", lost, status=None).status)
        self.assertFalse(list((remote.folder / "pushes").iterdir()))
        self.assertIn("clash", remote.log.read_text())

    def test_what_is_refused(self):
        remote = self.remote()
        ann = self.clone(remote, "ann")
        start, head = ann.at("HEAD"), self.head()
        ann.git("checkout", "-q", "-b", "side")
        ann.commit("s", "1")
        ann.git("checkout", "-q", self.trunk)
        ann.commit("t", "1")
        ann.git("merge", "-q", "-m", "merge", "side", GIT_AUTHOR_NAME="a", **identity())
        self.assertRegex(ann.land(status=1), "is a merge, and no merge can be landed")
        ann.git("reset", "-q", "--hard", start)
        self.refuses(ann, ".jarrah/state", "1", r"'\.jarrah/state': it has the element `\.jarrah`")
        self.refuses(ann, "a" * 256, None, "over 255")
        self.refuses_words(ann, "author \udce9 <a@b> 1 +0000", "x", "author or date isn't text")
        self.refuses_words(ann, "author a <a@b> 1 -0000", "x", "author or date isn't text")
        self.refuses_words(ann, "author a <a@b> 1 +0000", "\udce9", "isn't text that a changeset")
        ann.git("update-index", "--add", "--cacheinfo", f"160000,{start},module")
        ann.record("a submodule")
        self.assertRegex(ann.land(status=1), "'module': it is a submodule")
        ann.git("tag", "v1", start)
        for ref in ("refs/tags/v1", "refs/notes/x"):
            said = ann.push("origin", f"{start}:{ref}", status=1)
            self.assertIn("only branches, and refs/for/BRANCH, can be pushed", said)
        self.assertIn("no name that a bookmark has", ann.push("origin", "HEAD:ä", status=1))
        self.assertIn(
            "there is no branch x to land on", ann.push("origin", "HEAD:refs/for/x", status=1)
        )
        said = ann.push("origin", f"+{start}~1:{self.trunk}", status=1)
        self.assertIn("is landed on and never moved back", said)
        self.assertIn("never deleted", ann.push("origin", f":{self.trunk}", status=1))
        self.assertEqual(
            (self.head(), ann.git("ls-remote", "origin", self.trunk).out[:40]), (head, start)
        )

    def refuses(self, clone: Clone, path: str, data: str | None, why: str, **more: str) -> None:
        """Has a commit refused that names itself, and takes it back."""
        if data is None:
            blob = git(clone.folder, "hash-object", "-w", "--stdin", data=b"1").out
            clone.git("update-index", "--add", "--cacheinfo", f"100644,{blob},{path}")
            commit = clone.record("a long name")
        else:
            commit = clone.commit(path, data, **more)
        said = clone.land(status=1)
        self.assertRegex(said, f"commit {commit[:12]}: .*{why}")
        clone.git("reset", "-q", "--hard", "HEAD~1")

    def refuses_words(self, clone: Clone, author: str, message: str, why: str) -> None:
        """Has a commit refused that git's own commands wouldn't make."""
        tree, parent = clone.at("HEAD^{tree}"), clone.at("HEAD")
        lines = (
            f"tree {tree}",
            f"parent {parent}",
            author,
            "committer a <a@b> 1 +0000",
            "",
            message,
        )
        data = "\n".join(lines).encode(errors="surrogateescape")
        commit = git(clone.folder, "hash-object", "-t", "commit", "-w", "--stdin", data=data).out
        said = clone.push("origin", f"{commit}:refs/for/{self.trunk}", status=1)
        self.assertRegex(said, f"commit {commit[:12]}: .*{why}")

    def test_what_says_nothing(self):
        remote = self.remote()
        ann, head = self.clone(remote, "ann"), self.head()
        silent = ann.silent("s")
        ann.commit("t", "1")
        self.assertIn(f"commit {silent[:12]}: its message is empty: `git", ann.land(status=1))
        self.assertIn("its message is empty", ann.push(status=1))
        self.assertIn("made side", ann.push("origin", "HEAD:side"))
        self.assertIn(f"commit {silent[:12]}: its message is empty", ann.land(status=1))
        self.assertEqual(self.head(), head)
        ann.git("reset", "-q", "--hard", f"{silent}~1")
        self.refuses_words(ann, "author  <> 1 +0000", "x", "its author is empty")

    def test_what_says_nothing_where_it_may(self):
        remote = self.remote("--allow-empty-message")
        ann = self.clone(remote, "ann")
        ann.silent("s")
        self.assertIn("landed 1 commit", ann.land())
        strict = self.remote(name="strict")
        bob = self.clone(strict, "bob")
        bob.commit("t", "1")
        self.assertIn("landed 1 commit", bob.land())

    def test_a_long_stack(self):
        remote = self.remote()
        ann = self.clone(remote, "ann")
        start = ann.at("HEAD")
        lines = [
            f"commit refs/heads/long\nmark :{n}\ncommitter A <a@b> {n} +0000\ndata 1\nx"
            f"from {start if n == 1 else f':{n - 1}'}\nM 644 inline f{n}\ndata 1\n1\n"
            for n in range(1, 102)
        ]
        git(ann.folder, "fast-import", "--quiet", data="\n".join(lines).encode())
        said = ann.push("origin", f"long:refs/for/{self.trunk}", status=1)
        self.assertIn("101 commits are pushed, over 100", said)
        self.assertIn("landed 100 commits", ann.push("origin", f"long~1:refs/for/{self.trunk}"))

    def test_branches(self):
        remote, loose = self.remote(), self.remote("--allow-delete", "--allow-force", name="loose")
        ann, bob = self.clone(remote, "ann"), self.clone(loose, "bob")
        name = fresh("feature")
        first = ann.commit("a", "1")
        self.assertIn(f"made {name}/x as {first[:12]}", ann.push("origin", f"HEAD:{name}/x"))
        self.ask("bookmark", f"{name}..x")
        self.assertIn("beside the branch", ann.push("origin", f"HEAD:{name}", status=1))
        second = ann.commit("a", "2")
        self.assertIn("moved", ann.push("origin", f"HEAD:{name}/x"))
        said = ann.push("origin", f"+{first}:{name}/x", status=1)
        self.assertIn("branches aren't moved back here", said)
        self.assertIn("branches aren't deleted here", ann.push("origin", f":{name}/x", status=1))
        bob.git("fetch", "-q")
        self.assertEqual(bob.at(f"origin/{name}/x"), second)
        bob.push("origin", f"+{first}:{name}/x")
        self.assertEqual(remote_refs(bob)[f"{name}/x"], first)
        ann.push("origin", f"{second}:{name}/x", status=None)

        def deleted() -> bool:
            return "(moved:" not in bob.push("origin", f":{name}/x", status=None)

        # bob's remote may show what ann's has moved a moment late, and is refused by it then
        self.until(deleted, "bob's remote shows what ann pushed")
        self.assertNotIn(f"{name}/x", remote_refs(bob))

    def test_a_server_without_anything(self):
        self.server = self.special().url
        remote = self.remote()
        ann = self.clone(remote, "ann")
        first = ann.commit("a", "1")
        said = ann.push("origin", f"HEAD:{self.trunk}")
        self.assertIn(f"made {self.trunk} as {first[:12]}", said)
        bob = self.clone(remote, "bob")
        bob.commit("b", "1")
        self.assertIn("landed 1 commit", bob.push())

    def test_a_chunked_push(self):
        remote = self.remote()
        ann = self.clone(remote, "ann")
        ann.git("config", "http.postBuffer", "65536")
        data = random.Random(7).randbytes(LARGE)
        ann.commit("large", data)
        self.assertIn("landed 1 commit", ann.push())
        bob = self.clone(remote, "bob")
        self.assertEqual((bob.folder / "large").read_bytes(), data)


class Many(RemoteCase):
    """Clones that push at once, and a remote that is killed under them."""

    def setUp(self) -> None:
        super().setUp()
        self.landed: list[str] = []
        """The titles of the commits whose push was told landed."""
        self.refused = 0
        self.lost = 0

    def work(self, clone: Clone, stacks: int) -> None:
        """Pushes stacks to be landed; each third is of a file that all clones change."""
        for number in range(stacks):
            path = "shared" if number % 3 == 2 else f"{clone.name}/f{number}"
            titles = [f"{clone.name} {number} {part}" for part in range(2)]
            for title in titles:
                clone.commit(path, title, message=title)
            if self.is_landed(clone):
                self.landed += titles
            else:
                clone.git("reset", "-q", "--hard", "HEAD~2")
            self.again(lambda: clone.git("pull", "-q", "--rebase", status=None).status == 0)

    def is_landed(self, clone: Clone) -> bool:
        """Pushes until an answer comes: whether the push was landed, or else is a clash."""
        answers: list[str] = []

        def is_answered() -> bool:
            said = clone.git("push", "origin", f"HEAD:refs/for/{self.trunk}", status=None)
            answers.append(said.err)
            if said.status == 0:
                self.assertRegex(said.err, "landed (before|2 commits) on")
                return True
            return "clash: shared in the draft clashes with shared" in said.err

        self.again(is_answered)
        self.lost += len(answers) - 1
        is_clash = "clash" in answers[-1]
        self.refused += is_clash
        return not is_clash

    def again(self, call: Callable[[], bool]) -> None:
        """Makes a call until it goes well: a remote that was killed comes again."""
        begun = time.monotonic()
        while not call():
            self.assertLess(time.monotonic() - begun, MOST_SECONDS)
            time.sleep(0.2)

    def compare(self, clones: list[Clone]) -> None:
        """All that was told landed is in the history once, nothing else is, and clones are even."""
        for clone in clones:
            clone.pull()
            self.assertTrue(clone.is_even())
            self.assertEqual(clone.at("HEAD"), clones[0].at("HEAD"))
        titles = clones[0].git("log", "--format=%s", "--author=example.org").out.splitlines()
        own = ("base", "beside")
        self.assertEqual(sorted(it for it in titles if it not in own), sorted(self.landed))
        ids = [id for entry in self.landings() for id in entry["ids"]]
        self.assertEqual(len(ids), len(titles))

    def clones(self, remote: Remote, count: int) -> list[Clone]:
        return [self.clone(remote, f"c{number}") for number in range(count)]

    def push_at_once(self, clones: list[Clone], stacks: int) -> None:
        """Has clones push stacks, all at once."""
        with ThreadPoolExecutor(len(clones)) as pool:
            list(pool.map(lambda clone: self.work(clone, stacks), clones))

    def test_clones_that_push_at_once(self):
        clones = self.clones(self.remote(), CLONES)
        begun = time.monotonic()
        with ThreadPoolExecutor(1) as pool:
            pushing = pool.submit(self.push_at_once, clones, STACKS)
            for number in range(BESIDE):
                place = self.write("beside", b"%d" % number)
                self.ok("commit", self.trunk, "-m", "beside", "--set", f"beside/f{number}={place}")
            pushing.result()
        spent = time.monotonic() - begun
        self.compare(clones)
        self.assertEqual(self.lost, 0)
        self.assertEqual(len(self.landed) // 2 + self.refused, CLONES * STACKS)
        if "JARRAH_GIT_LOAD" in os.environ:
            print(f"{len(self.landed) // 2} landed, {self.refused} refused, {spent:.1f} s")

    def test_a_remote_that_is_killed(self):
        remote, done = self.remote(), threading.Event()
        clones = self.clones(remote, 3)

        def kill() -> None:
            for pause in PAUSES:
                if not done.wait(pause):
                    remote.end(signal.SIGKILL)
                    remote.start()

        with ThreadPoolExecutor(1) as pool:
            killing = pool.submit(kill)
            try:
                self.push_at_once(clones, 2)
            finally:
                done.set()
            killing.result()
        self.compare(clones)
        git(remote.mirror, "fsck", "--strict")


class Requests(RemoteCase):
    """What isn't git's, and who asks."""

    def ask(self, remote: Remote, method: str, target: str, data: bytes = b"", **headers: str):
        """The status and the body of an answer."""
        connection = http.client.HTTPConnection("127.0.0.1", int(remote.port), timeout=30)
        named = {name.replace("_", "-"): it for name, it in headers.items()}
        try:
            connection.request(method, target, data or None, named)
            answer = connection.getresponse()
            return answer.status, answer.read().decode(errors="replace")
        finally:
            connection.close()

    def test_requests_that_are_not_gits(self):
        remote = self.remote("--name", "mono", "--host", "git.example.org")
        refs, receive = "/mono.git/info/refs", "/mono.git/git-receive-pack"
        asked = f"{refs}?service=git-upload-pack"
        self.assertEqual(self.ask(remote, "GET", asked)[0], 200)
        self.assertEqual(self.ask(remote, "GET", asked, Host="git.example.org:1")[0], 200)
        for status, method, target, headers in (
            (403, "GET", asked, {"Host": "elsewhere"}),
            (403, "GET", refs, {}),
            (403, "GET", f"{refs}?service=git-x", {}),
            (404, "GET", "/other.git/info/refs?service=git-upload-pack", {}),
            (404, "GET", "/mono.git/HEAD", {}),
            (404, "GET", "/mono.git/objects/info/packs", {}),
            (404, "GET", "/mono.git/../mono.git/HEAD", {}),
            (404, "GET", "/", {}),
            (405, "POST", refs, {}),
            (400, "POST", receive, {"Caller": "no name"}),
            (400, "POST", receive, {"Content_Length": "x"}),
            (415, "POST", receive, {}),
            (501, "PUT", receive, {}),
        ):
            told = self.ask(remote, method, target, **headers)
            self.assertEqual(told[0], status, (method, target, headers, told))
        named = {"Content_Encoding": "gzip", "Git_Protocol": "version=2"}
        named["Content_Type"] = "application/x-git-upload-pack-request"
        data = gzip.compress(b"0014command=ls-refs\n0000")
        told = self.ask(remote, "POST", "/mono.git/git-upload-pack", data, **named)
        self.assertEqual((told[0], f"refs/heads/{self.trunk}" in told[1]), (200, True))
        kind = "application/x-git-receive-pack-request"
        for data in (b"0000", b"zzzz", b"0009x", b"\xff" * 100):
            self.ask(remote, "POST", receive, data, Content_Type=kind)
        self.answers_a_broken_chunk(remote, receive, kind)
        status, text = self.ask(remote, "GET", "/health")
        self.assertEqual((status, json.loads(text)["status"]), (200, "ok"))
        self.assertEqual(remote.end(), 0)
        remote.start()

    def answers_a_broken_chunk(self, remote: Remote, target: str, kind: str) -> None:
        """Sends a body whose first chunk tells no length."""
        with socket.create_connection(("127.0.0.1", int(remote.port)), 30) as link:
            host = f"Host: 127.0.0.1:{remote.port}\r\nContent-Type: {kind}\r\n"
            head = f"POST {target} HTTP/1.1\r\n{host}Transfer-Encoding: chunked\r\n\r\nxyz\r\n"
            link.sendall(head.encode())
            self.assertTrue(link.recv(100).startswith(b"HTTP/1.1 "))

    def test_callers(self):
        self.server = self.special().url
        self.ok("init", self.trunk)
        policy = self.write("policy", b"allow ann lib\ndeny * lib\nallow * /\n")
        self.ok("policy", "--set", policy)
        remote = self.remote()
        ann = self.clone(remote, "ann")
        commit = ann.commit("lib/x", "1")
        said = ann.land(status=1)
        self.assertRegex(
            said, "denied: .*doesn't allow this at lib/x; rule 1 decides: `deny [*] lib`"
        )
        self.assertEqual(self.landings(), [])
        ann.git("config", "http.extraHeader", "Caller: ann")
        self.assertIn(f"as {commit[:12]}", ann.land())
        self.assertEqual(self.landings()[0]["caller"], "ann")
        self.assertIn("push by ann", remote.log.read_text())
        self.assertIn("push by - ", remote.log.read_text())

    def test_what_does_not_start(self):
        remote = self.remote()
        words = ("serve-git", remote.folder)
        self.assertIn("another program serves it", self.refused(*words))
        self.assertIn("is no bookmark's name", self.refused(*words, "--trunk", "a b"))
        other = self.folder / "other"
        words = ("serve-git", other, "--port", remote.port, "--trunk", self.trunk)
        ran = jarrah(*words, server=self.server)
        self.assertEqual((ran.status, ran.out), (1, ""))
        said = f"jarrah: port {remote.port} of 127.0.0.1 can't be had"
        self.assertTrue(ran.err.splitlines()[-1].startswith(said), ran.err)


def identity() -> dict[str, str]:
    """The rest of who commits."""
    return {"GIT_AUTHOR_EMAIL": "a", "GIT_COMMITTER_NAME": "a", "GIT_COMMITTER_EMAIL": "a"}
