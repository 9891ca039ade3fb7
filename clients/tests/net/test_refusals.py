"""Every refusal of docs/API.md is told in words, in one line, with status 1."""

import json
import re
import socket
import unittest

from jarrah_client.net.server import Server
from jarrah_client.refusals import WORDS, Refused, in_words

from ..canned import Canned
from ..formats.test_encoding import ABC, EMPTY
from ..harness import TOP, Case, fresh, has_merges, jarrah

API = (TOP / "docs" / "API.md").read_text()
ANSWERS = {"content", "whole", "changeset", "copies", "bookmark", "landed", "log", "history"}
ANSWERS |= {"path-log", "policy"}
LATER = {"no-path", "not-a-dir", "not-a-file", "bad-path", "too-long"}
LATER |= {"merge"}
"""Codes that docs/API.md doesn't have: of manifests, and of servers that take no merges."""
ID = "0123456789abcdef" * 4
MEMBERS = {
    "id": ID,
    "place": 5,
    "left": "lib/x",
    "right": "lib",
    "found": 12,
    "wanted": 34,
    "distance": 10_001,
    "count": 101,
    "length": 4_075,
    "size": 17,
    "long": "a/b",
    "short": "a",
    "path": "some/path",
    "rule": 3,
    "line": 7,
}
NAMED = {
    "clash": ("lib/x", "lib,"),
    "self-conflict": ("a/b", "a,"),
    "wrong-size": ("12", "34", "some/path"),
    "missing-content": (ID, "some/path"),
    "full": ("4,075", "17"),
    "too-far-behind": ("10,001",),
    "stack-too-long": ("101",),
    "too-large": ("4,075",),
    "no-parent": (ID,),
    "no-changeset": (ID,),
    "no-content": (ID,),
    "collision": (ID,),
    "bad-encoding": ("5",),
    "bad-id": ("5",),
    "bad-name": ("5",),
    "bad-path": ("5",),
    "denied": ("some/path", "rule 3"),
    "bad-policy": ("7",),
    "bad-parts": ("4,075",),
    "no-piece": (ID,),
    "not-a-piece": (ID,),
    "old-format": ("version 1", "migrate OLD NEW"),
}
"""What the words have to name."""


def documented() -> set[str]:
    """The codes of refusals that docs/API.md has."""
    in_bodies = set(re.findall(r'"code":"([a-z-]+)"', API))
    closing = set(re.findall(r"^\| \d+ \| `([a-z-]+)` \|", API, re.M))
    return (in_bodies | closing) - ANSWERS


class InWords(unittest.TestCase):
    """All codes, also those that can't be provoked."""

    @classmethod
    def setUpClass(cls) -> None:
        cls.canned = Canned().__enter__()
        cls.addClassCleanup(cls.canned.__exit__)

    def test_all_documented_codes_have_words(self):
        self.assertGreater(len(documented()), 30)
        self.assertEqual(documented() - set(WORDS), set())
        self.assertEqual(set(WORDS) - documented() - LATER, set())

    def test_each_is_one_line_that_names_its_members(self):
        for code in WORDS:
            with self.subTest(code=code):
                self.canned.say(409, {"code": code, **MEMBERS})
                words = ("bookmark", "main", "--from", ID, "--to", ID)
                ran = jarrah(*words, server=self.canned.url)
                self.assertEqual((ran.status, ran.out, ran.err.count("\n")), (1, "", 1))
                self.assertNotIn("{", ran.err)
                self.assertGreater(len(ran.err.split()), 5)
                for name in NAMED.get(code, ()):
                    self.assertIn(name, ran.err)

    def test_for_scripts(self):
        self.canned.say(409, {"code": "clash", "left": "lib/x", "right": "lib"})
        ran = jarrah("--json", "land", "main", ID, server=self.canned.url)
        document = json.loads(ran.err)
        self.assertIn("lib/x in the draft clashes with lib", document.pop("error"))
        wanted = {"code": "clash", "left": "lib/x", "right": "lib", "status": 409}
        self.assertEqual((ran.status, document), (1, wanted))

    def test_unknown_codes(self):
        self.assertIn("novel", in_words(418, "novel", {"tea": 1}))
        self.assertIn("418", in_words(418, "novel", {}))
        self.assertIn("left", in_words(409, "clash", {}))

    def test_answers_that_no_document_has(self):
        for status, answer in (
            (200, b"{}"),
            (200, b"hello"),
            (200, {"code": "log"}),
            (200, {"code": "landed", "head": ID}),
            (500, b"oops"),
            (404, b"[]"),
        ):
            with self.subTest(answer=answer):
                self.canned.say(status, answer)
                words = ("bookmark", "main", "--from", ID, "--to", ID)
                ran = jarrah(*words, server=self.canned.url)
                self.assertEqual((ran.status, ran.out, ran.err.count("\n")), (1, "", 1))

    def test_bytes_of_another_id(self):
        self.canned.say(200, EMPTY.encoded)
        ran = jarrah("diff", ID, server=self.canned.url)
        self.assertEqual((ran.status, ran.out), (1, ""))
        self.assertIn("other bytes", ran.err)

    def test_another_id_of_what_is_stored(self):
        self.canned.say(200, {"code": "changeset", "id": ID})
        ran = jarrah("draft", "--parent", "none", server=self.canned.url)
        self.assertEqual((ran.status, ran.out), (1, ""))
        self.assertIn(f"under another id, {ID}", ran.err)

    def test_no_server(self):
        with socket.socket() as free:
            free.bind(("127.0.0.1", 0))
            url = f"http://127.0.0.1:{free.getsockname()[1]}"
            ran = jarrah("log", "main", server=url)
        self.assertEqual((ran.status, ran.err.count("\n")), (1, 1))
        self.assertIn("no answer from", ran.err)


class Provoked(Case):
    """Refusals of a running server."""

    def setUp(self) -> None:
        super().setUp()
        self.name = fresh()
        self.ok("init", self.name)
        self.abc = self.write("abc")

    def test_bookmarks(self):
        head = self.ask("bookmark", self.name)["head"]
        self.assertIn("there is no bookmark", self.refused("bookmark", fresh("absent")))
        self.assertIn("is no bookmark's name", self.refused("init", "a/b"))
        self.assertIn("already", self.refused("init", self.name))
        words = self.refused("bookmark", self.name, "--to", head, "--from", "none")
        self.assertEqual(words, f"the bookmark has moved: it is at {head}")
        words = self.refused("bookmark", self.name, "--to", ID)
        self.assertEqual(words, f"the server has no changeset {ID}")
        words = self.refused("bookmark", fresh("absent"), "--from", head, "--delete")
        self.assertIn("no such bookmark", words)

    def test_drafts(self):
        words = self.refused("draft", "--parent", ID)
        self.assertEqual(words, f"the server doesn't have the parent {ID}")
        words = self.refused(
            "draft", "--parent", self.name, "--set", f"a={self.abc}", "--set", f"a/b={self.abc}"
        )
        self.assertEqual(words, "a/b lies under a, and one changeset can't set both")
        self.assertIn(
            "twice", self.refused("draft", "--parent", self.name, "--delete", "a", "--delete", "a")
        )
        self.assertIn("refused", self.refused("draft", "--parent", self.name, "--delete", "a/../b"))
        large = self.sparse(self.folder / "large", 67_108_865)
        words = self.refused("draft", "--parent", self.name, "--set", f"l={large}")
        self.assertEqual(words, "l has 67,108,865 bytes, over 67,108,864")
        words = self.refused("draft", "--parent", self.name, "--set", f"l={self.folder}/absent")
        self.assertIn("No such file", words)

    def test_landings(self):
        draft = self.draft(self.name, "--set", f"lib/x={self.abc}")
        self.assertIn("no bookmark of this name", self.refused("land", fresh("absent"), draft))
        self.assertIn(ID, self.refused("land", self.name, ID))
        self.ok("commit", self.name, "-m", "c", "--set", f"lib={self.abc}")
        words = self.refused("land", self.name, draft)
        self.assertIn("lib/x in the draft clashes with lib,", words)
        self.assertIn("already", self.refused("land", self.name, self.name))
        other = self.draft("none", "-m", fresh("another root"))
        self.assertIn("share no changeset", self.refused("land", self.name, other))

    def test_long_stacks(self):
        draft = self.name
        for number in range(101):
            ran = jarrah("draft", "--parent", draft, "-m", str(number), server=self.server)
            draft = ran.out.strip()
        words = self.refused("land", self.name, draft)
        said = "the draft is a stack of 101 changesets, over 100; land it in pieces"
        self.assertEqual(words, f"draft {draft}: {said}")

    def test_reads(self):
        self.ok("commit", self.name, "-m", "c", "--set", f"a/b={self.abc}")
        self.assertEqual(self.refused("cat", self.name, "c"), "c: there is nothing at this path")
        self.assertEqual(
            self.refused("cat", self.name, "a"), "a: the path is a directory and no file"
        )
        self.assertEqual(
            self.refused("history", self.name, "a"), "a: the path is a directory and no file"
        )
        self.assertEqual(
            self.refused("ls", self.name, "a/b"), "a/b: the path is a file and no directory"
        )
        self.assertIn("there is nothing", self.refused("cat", self.name, "a/b/c"))
        self.assertIn("no bookmark", self.refused("log", fresh("absent")))
        self.assertIn("no bookmark and no changeset", self.refused("log", "0" * 12))
        self.write("full/x")
        self.assertIn("isn't empty", self.refused("checkout", self.name, self.folder / "full"))

    def test_want_of_room(self):
        small = self.special(capacity=4_096)
        file = self.write("file", bytes(4_074))
        ran = jarrah("draft", "--parent", "none", "--set", f"a={file}", server=small.url)
        words = "the server's file is full: it has 17 bytes, and a record of 4,075 doesn't fit"
        self.assertEqual((ran.status, ran.err), (1, f"jarrah: {words}\n"))

    def test_routes_that_come_later(self):
        early = self.special_stand_in(has_manifests=False)
        jarrah("init", "main", server=early.url)
        jarrah("commit", "main", "-m", "c", "--set", f"a={self.abc}", server=early.url)
        listed = jarrah("--json", "ls", "main", server=early.url).document
        self.assertEqual(listed["source"], "fold")
        self.assertEqual(jarrah("cat", "main", "a", server=early.url).out, "abc")
        ran = jarrah("ls", "main", "--last", server=early.url)
        self.assertEqual(ran.status, 1)
        self.assertEqual(ran.err, "jarrah: this server doesn't have this route\n")


def of_two_parents(url: str) -> tuple[str, dict]:
    """What a changeset of two parents that nobody has is refused as."""
    return ("no-parent", {"id": ID}) if has_merges(url) else ("merge", {})


class ByCalls(Case):
    """Refusals of requests that no subcommand sends."""

    def test_uploads(self):
        server = Server(self.server)
        self.addCleanup(server.close)
        server.put_content(ABC, b"abc")
        one = EMPTY.encoded
        two_parents = b"\x43\x01\x02" + bytes.fromhex(ID) + bytes.fromhex(ABC) + one[3:]
        sets = bytes.fromhex("00000001000170" + "0100") + (4).to_bytes(8, "big")
        unknown = one[:-4] + sets + bytes.fromhex(ID)
        wrong = one[:-4] + sets + bytes.fromhex(ABC)
        both = bytes.fromhex("000000020001620000016100")
        for data, code, members in (
            (one[:13], "bad-encoding", {"place": 6}),
            (one[:-4] + both, "bad-encoding", {"place": 32}),
            (two_parents, *of_two_parents(self.server)),
            (unknown, "missing-content", {"id": ID, "path": "p"}),
            (wrong, "wrong-size", {"found": 3, "path": "p", "wanted": 4}),
        ):
            with self.subTest(code=code), self.assertRaises(Refused) as caught:
                server.ask("PUT", "/changeset", data)
            refusal = caught.exception
            self.assertEqual((refusal.status, refusal.code, refusal.members), (422, code, members))
        for target, code in (
            ("/nowhere", "no-route"),
            ("/log/x", "bad-number"),
            ("/changeset/x", "bad-id"),
            ("/bookmark/%20", "bad-name"),
            ("/land/a/" + ID, "method"),
        ):
            with self.subTest(target=target), self.assertRaises(Refused) as caught:
                server.ask("GET", target)
            self.assertEqual(caught.exception.code, code)
        self.assertEqual(server.log(10**18).entries, [])
