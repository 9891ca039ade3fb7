"""The shapes of answers: those of a server, and what is refused as none."""

from __future__ import annotations

import unittest
from typing import Any, get_args, get_type_hints

from jarrah_client.drafting.drafts import ROOT
from jarrah_client.net import answers
from jarrah_client.net.answers import Entry, Shape
from jarrah_client.net.server import BadAnswer, Server

from ..canned import Canned
from ..harness import Case, fresh

SHAPES = [one for one in vars(answers).values() if isinstance(one, Shape)]
KINDS = {get_args(get_type_hints(one)["kind"])[0]: one for one in get_args(Entry)}
SAID = {"id": "0" * 64, "head": None, "old": "", "ids": [], "entries": [], "total": 0, "copies": []}
SAID |= {"number": 3}
POLICY = b"allow * .policy\nallow * .bookmarks\nallow * /\n"


class Shapes(unittest.TestCase):
    """Bodies of a server that answers all alike."""

    def test_members(self):
        with Canned() as canned:
            server = Server(canned.url)
            for shape in SHAPES:
                names = get_type_hints(shape.kind)
                whole: dict[str, Any] = {name: SAID[name] for name in names}
                canned.say(200, {"code": shape.code, "further": 1, **whole})
                found = server.ask_json("GET", "/", shape)
                self.assertEqual(found, {"code": shape.code, "further": 1, **whole})
                lacking = [{**whole, "code": "another"}, whole]
                for name in names:
                    rest = {one: value for one, value in whole.items() if one != name}
                    lacking.append({"code": shape.code, **rest})
                for body in (*lacking, b"[]", b"{"):
                    canned.say(200, body)
                    with self.subTest(code=shape.code, body=body):
                        with self.assertRaisesRegex(BadAnswer, "GET / with something unknown"):
                            server.ask_json("GET", "/", shape)
            server.close()


class Entries(Case):
    """Entries of a log."""

    def test_kinds(self):
        url = self.special().url
        server = Server(url)
        self.addCleanup(server.close)
        name = fresh()
        self.server = url
        self.ok("init", name)
        self.ok("commit", name, "-m", "One", "--set", f"a={self.write('a')}")
        self.ok("policy", "--set", self.write("policy", POLICY))
        self.ok("bookmark", name, "--to", ROOT.id)
        entries = server.log(0).entries
        self.assertEqual({one["kind"] for one in entries}, set(KINDS) - {"whole"})
        for one in entries:
            kind = KINDS[one["kind"]]
            with self.subTest(entry=one):
                self.assertLessEqual(kind.__required_keys__, one.keys())
                self.assertLessEqual(one.keys(), get_type_hints(kind).keys())
