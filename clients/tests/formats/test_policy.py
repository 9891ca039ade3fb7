"""Policies and callers, and the logs of paths."""

from __future__ import annotations

import json
import unittest

from jarrah_client.formats.policies import BadPolicy, is_allowed, read_rules, warnings
from jarrah_client.net.server import Server
from jarrah_client.refusals import Refused

from ..harness import Case, Ran, fresh, jarrah
from ..stand_in.policy import read_policy, refuse_denied
from ..stand_in.spelling import Refusal

LIB = b"allow ann lib\ndeny * lib\nallow * /\n"
GUARDED = b"allow ann /\ndeny * lib\ndeny * .policy\ndeny * .bookmarks\nallow * /\n"
"""The policy of docs/API.md."""
BAD = (
    (b"", 0),
    (b"x" * 65_537, 0),
    (b"allow ann\n", 0),
    (b"allow * /", 0),
    (b"allow * /\n\n", 1),
    (b"allow * /\nallow  /\n", 1),
    (b"allow * a//b\n", 0),
    (b"allow a/b /\n", 0),
    (b"Allow * /\n", 0),
    (b"allow * \xff\n", 0),
    (b"allow * /\n" * 1_000 + b"allow * /\n", 1_000),
)
"""Texts that are no policy, with the first line, from 0, that is wrong."""
GOOD = (LIB, b"deny a.b-c_D lib/a b\n", b"allow * /\n" * 1_000, "allow * ä/ö\n".encode())


class Texts(unittest.TestCase):
    """What a policy is, by the client and by the stand-in, which share no code."""

    def test_good(self):
        for text in GOOD:
            rules = read_rules(text)
            self.assertEqual("".join(f"{rule.text}\n" for rule in rules).encode(), text)
            self.assertEqual(len(read_policy(text)), len(rules))

    def test_bad(self):
        for text, line in BAD:
            with self.subTest(text=text[:20]):
                with self.assertRaises(BadPolicy) as caught:
                    read_rules(text)
                if text and len(text) < 65_537:
                    self.assertIn(f"line {line + 1} of", str(caught.exception))
                with self.assertRaises(Refusal) as refused:
                    read_policy(text)
                self.assertEqual(refused.exception.members, {"line": line})


OPEN = (
    (GUARDED, ()),
    (b"allow ann /\n", ()),
    (LIB, ((".policy", 2), (".bookmarks", 2))),
    (b"deny * .policy\nallow * /\n", ((".policy", 0), (".bookmarks", 1))),
    (b"deny * /\n", ((".policy", 0),)),
    (b"allow * lib\n", ((".policy", None),)),
    (b"deny ann /\nallow * .policy\n", ((".policy", 1),)),
    (b"allow ann .policy\nallow anonymous /\n", ((".policy", 1), (".bookmarks", 1))),
    (b"allow ann /\nallow * .bookmarks/bob\n", ((".bookmarks/bob", 1),)),
    (b"allow ann /\ndeny * .bookmarks/main\nallow * .bookmarks\n", ((".bookmarks", 2),)),
    (b"allow ann /\nallow * .bookmarks/a/b\n", ()),
    (b"allow ann /\ndeny * .policies\nallow * .policy/x\nallow * .bookmark\n", ()),
)
"""Policies, with the places of which they warn, and the rule that decides at each."""


class Warnings(unittest.TestCase):
    """What a policy leaves open to everybody, or to nobody."""

    def test_places(self):
        for text, wanted in OPEN:
            with self.subTest(text=text):
                found = tuple((one.place, one.rule) for one in warnings(read_rules(text)))
                self.assertEqual(found, wanted)

    def test_decisions_are_the_stand_ins(self):
        places = ("lib", "lib/x", "libx", ".policy", ".bookmarks/main", ".bookmarks/bob", "a b")
        for text, _ in OPEN:
            for caller in ("ann", "bob", "anonymous"):
                for place in places:
                    with self.subTest(text=text, caller=caller, place=place):
                        self.assertEqual(
                            is_allowed(read_rules(text), caller, place),
                            stand_in_allows(text, caller, place),
                        )


def stand_in_allows(text: bytes, caller: str, place: str) -> bool:
    """What the stand-in decides."""
    try:
        refuse_denied(read_policy(text), caller, [place])
    except Refusal:
        return False
    return True


class Policies(Case):
    """A server of its own, since a policy is for all of it."""

    def setUp(self) -> None:
        super().setUp()
        self.server = self.special().url
        self.name = "main"
        self.ok("init", self.name)
        self.abc = self.write("abc")

    def by(self, caller: str, *words: object) -> Ran:
        return jarrah("--caller", caller, *words, server=self.server)

    def commit(self, caller: str, path: str) -> Ran:
        return self.by(caller, "commit", self.name, "-m", "c", "--set", f"{path}={self.abc}")

    def test_landings(self):
        self.assertEqual(self.ok("policy").out, "there is no policy: all is allowed\n")
        ran = self.by("ann", "policy", "--set", self.write("rules", LIB))
        self.assertEqual((ran.status, ran.out), (0, "3 rules held from entry 2 on\n"))
        ran = self.commit("bob", "lib/x")
        words = "the server's policy doesn't allow this at lib/x; rule 1 decides: `deny * lib`"
        self.assertEqual(ran.status, 1)
        self.assertTrue(ran.err.endswith(f": {words}\n"), ran.err)
        self.assertEqual(self.commit("ann", "lib/x").status, 0)
        self.assertEqual(self.commit("bob", "libx").status, 0)
        self.assertIn("   1  deny * lib\n", self.ok("policy").out)
        last = self.ok("--json", "entries").documents[-1]
        self.assertEqual((last["kind"], last["caller"]), ("landing", "bob"))
        self.assertIn("3 rules  by ann", self.ok("entries").out)
        self.assertIn("allow * /", self.ok("policy", "--entry", 2).out)
        self.assertIn("is no policy", self.refused("policy", "--entry", 1))

    def test_moves_and_new_policies(self):
        other = self.draft("main", "-m", "other")
        self.ok("policy", "--set", self.write("rules", b"allow ann /\n"))
        ran = jarrah(
            *("--json", "--caller", "bob", "bookmark", "main", "--to", other), server=self.server
        )
        document = json.loads(ran.err)
        self.assertEqual((ran.status, document["code"]), (1, "denied"))
        self.assertEqual((document["path"], document["rule"]), (".bookmarks/main", None))
        self.assertIn("no rule", document["ruling"])
        self.assertIn("at .policy; no rule", self.refused("policy", "--set", self.folder / "rules"))
        self.assertEqual(self.by("ann", "bookmark", "main", "--to", other).status, 0)

    def test_what_the_documented_policy_guards(self):
        other = self.draft("main", "-m", "other")
        self.ok("policy", "--set", self.write("open", LIB))
        self.assertEqual(self.by("bob", "bookmark", "main", "--to", other).status, 0)
        guarded = self.write("guarded", GUARDED)
        self.assertEqual(self.by("bob", "policy", "--set", guarded).status, 0)
        ran = self.by("bob", "policy", "--set", self.folder / "open")
        self.assertIn("at .policy; rule 2 decides: `deny * .policy`", ran.err)
        ran = self.by("bob", "bookmark", "main", "--delete")
        self.assertIn("at .bookmarks/main; rule 3 decides", ran.err)
        self.assertIn("at lib/x; rule 1 decides", self.commit("bob", "lib/x").err)
        self.assertEqual(self.commit("bob", "libx").status, 0)
        self.assertEqual(self.commit("ann", "lib/x").status, 0)
        self.assertEqual(self.by("ann", "policy", "--set", self.folder / "open").status, 0)

    def test_a_set_above_a_denied_path(self):
        rules = b"allow ann /\ndeny * lib/core\ndeny * .policy\ndeny * .bookmarks\nallow * /\n"
        self.assertEqual(self.commit("ann", "lib/core/x").status, 0)
        self.ok("policy", "--set", self.write("rules", rules))
        self.assertIn("at lib/core/x; rule 1 decides", self.commit("bob", "lib/core/x").err)
        words = ("-m", "a file", "--base", self.name, "--set", f"lib={self.abc}")
        ran = self.by("bob", "commit", self.name, *words)
        self.assertEqual(ran.status, 0, ran.err)
        self.assertEqual(self.ok("ls", self.name, "-r", "--fold").out.split()[-1], "lib")

    def test_a_check_warns(self):
        ran = jarrah("policy", "--check", self.write("open", LIB), server=self.server)
        self.assertEqual(ran.status, 0)
        lines = ran.err.splitlines()
        places = [line.partition("; at ")[2] for line in lines]
        decides = "rule 2 decides: `allow * /`"
        self.assertEqual(places, [f".policy {decides}", f".bookmarks {decides}"])
        self.assertTrue(all(line.startswith("warning: any caller") for line in lines), ran.err)
        document = self.ok("--json", "policy", "--check", self.folder / "open").document
        self.assertEqual([one["rule"] for one in document["warnings"]], [2, 2])
        ran = jarrah("policy", "--check", self.write("rules", GUARDED), server=self.server)
        self.assertEqual((ran.status, ran.err), (0, ""))
        shut = self.write("shut", b"deny * /\n")
        ran = jarrah("policy", "--check", shut, server=self.server)
        self.assertIn("warning: nobody may set another policy", ran.err)

    def test_files_are_checked_first(self):
        bad = self.write("bad", b"allow * /\nallow ann\n")
        self.assertIn("line 2 of the policy, `allow ann`:", self.refused("policy", "--check", bad))
        self.assertIn("line 2 of the policy", self.refused("policy", "--set", bad))
        self.assertEqual(self.ok("--json", "policy").document, {"rules": None})
        good = self.write("good", GUARDED)
        self.assertTrue(self.ok("policy", "--check", good).out.endswith(" has 5 rules\n"))
        self.assertEqual(self.by("a/b", "policy").status, 2)

    def test_requests(self):
        server = Server(self.server)
        self.addCleanup(server.close)
        id = server.head("main")
        for target, data, status, code, members in (
            ("/policy", b"allow ann", 422, "bad-policy", {"line": 0}),
        ):
            with self.subTest(target=target), self.assertRaises(Refused) as caught:
                server.ask("PUT", target, data)
            found = caught.exception
            self.assertEqual((found.status, found.code, found.members), (status, code, members))
        for caller in ("", "a b", "x" * 129):
            with self.subTest(caller=caller), self.assertRaises(Refused) as caught:
                self.ask_as(caller, "POST", f"/land/main/{id}")
            self.assertEqual(caught.exception.code, "bad-caller")
        with self.assertRaises(Refused) as caught:
            self.ask_as("a b", "POST", "/land/main/x")
        self.assertEqual(caught.exception.code, "bad-id")

    def ask_as(self, caller: str, method: str, target: str) -> None:
        """Sends a request with a caller that no command takes."""
        server = Server(self.server)
        self.addCleanup(server.close)
        server.connection.request(method, target, headers={"Caller": caller})
        response = server.connection.getresponse()
        members = json.loads(response.read())
        raise Refused(response.status, members.pop("code"), members)

    def test_files_of_version_one(self):
        old = self.special_stand_in(version=1)
        ran = jarrah("policy", "--set", self.write("rules", LIB), server=old.url)
        self.assertEqual(ran.status, 1)
        self.assertIn("version 1", ran.err)


class PathLogs(Case):
    """A path that is set, taken away and set again."""

    def setUp(self) -> None:
        super().setUp()
        self.name = fresh()
        self.ok("init", self.name)
        self.abc = self.write("abc")

    def commit(self, *words: object) -> str:
        return self.ask("commit", self.name, "-m", "c", *words)["head"]

    def log(self, path: str, *words: object) -> list[tuple[str, str]]:
        ran = self.ok("--json", "log", self.name, "--path", path, *words)
        return [(one["id"], one["at_path"]) for one in ran.documents]

    def test_across_deletions(self):
        first = self.commit("--set", f"a/p={self.abc}", "-m", "first")
        self.commit("--set", f"q={self.abc}")
        second = self.commit("--delete", "a/p")
        third = self.commit("--set", f"a/p={self.abc}")
        fourth = self.commit("--set", f"a={self.abc}")
        wanted = [(fourth, "deleted"), (third, "set"), (second, "deleted"), (first, "set")]
        self.assertEqual(self.log("a/p", "--fold"), wanted)
        self.assertEqual(self.log("a"), [(fourth, "set")])
        self.assertEqual(self.log("a/p"), wanted)
        self.assertEqual(self.log("a/p", "-n", 1), wanted[:1])
        lines = self.ok("log", self.name, "--path", "a/p", "--oneline").out.splitlines()
        self.assertEqual([line.split()[0] for line in lines], [word for _, word in wanted])
        self.assertIn("path      deleted", self.ok("log", self.name, "--path", "a/p").out)
        for words in ((), ("--fold",)):
            said = self.refused("log", self.name, "--path", "b", *words)
            self.assertIn("there is nothing at this path", said)

    def test_deleted_nodes(self):
        self.needs_manifests()
        server = Server(self.server)
        self.addCleanup(server.close)
        first = self.commit("--set", f"p={self.abc}")
        second = self.commit("--delete", "p")
        third = self.commit("--set", f"p={self.abc}")

        def read(id: str, path: str = "") -> bytes:
            return server.ask("GET", f"/deleted/{id}{path}")

        self.assertEqual([len(read(id)) for id in (first, second, third)], [7, 41, 7])
        self.assertEqual(read(second, "/p"), b"\x44\x01\x01" + bytes.fromhex(second) + bytes(4))
        for id, path in ((first, "/p"), (third, "/p")):
            with self.assertRaises(Refused) as caught:
                read(id, path)
            self.assertEqual(caught.exception.code, "no-path")
        self.assertEqual(len(server.path_log(third, "p")), 3)
