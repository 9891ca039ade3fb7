"""The JSON routes of `gateway`, each answer compared with its OpenAPI file."""

from __future__ import annotations

import base64
import http.client
import json
import random
import re
import subprocess
import sys
import threading
import time
from contextlib import nullcontext
from itertools import pairwise
from typing import Any
from unittest import mock
from urllib.parse import quote, urlsplit

from jarrah_client.drafting.drafts import ROOT
from jarrah_client.formats.changesets import Changeset, CopySource, File
from jarrah_client.net.server import Server, Trouble
from jarrah_client.web.annotations import annotate
from jarrah_client.web.backouts import backout
from jarrah_client.web.library import Library, Question
from jarrah_client.web.routes import OPENAPI, READS, WRITES

from ..drafting.test_backout import FIRST, BackoutCase, plain
from ..formats.test_encoding import ABC
from ..harness import ENVIRONMENT, PROGRAM, Case, fresh, jarrah
from ..text.test_annotate import Annotating
from ..trees.test_merges import Merging
from ..working.test_working import with_line

DOCUMENT = json.loads(OPENAPI.read_text())
TYPES = {"object": dict, "array": list, "string": str, "integer": int}


def fault_of(value: Any, schema: dict[str, Any], place: str = "it") -> str | None:
    """Where a value isn't as a schema of OpenAPI 3.0 says, or None."""
    if "$ref" in schema:
        name = schema["$ref"].rpartition("/")[2]
        return fault_of(value, DOCUMENT["components"]["schemas"][name], place)
    if value is None and schema.get("nullable"):
        return None
    if "oneOf" in schema:
        faults = [fault_of(value, one, place) for one in schema["oneOf"]]
        return None if faults.count(None) == 1 else f"{place} is not one of {faults}"
    for one in schema.get("allOf", []):
        if fault := fault_of(value, one, place):
            return fault
    kind = TYPES.get(schema.get("type", ""))
    if kind and (not isinstance(value, kind) or isinstance(value, bool)):
        return f"{place} is {value!r}"
    if "enum" in schema and value not in schema["enum"]:
        return f"{place} is {value!r}"
    if "pattern" in schema and not re.search(schema["pattern"], value):
        return f"{place} is {value!r}"
    if "minimum" in schema and value < schema["minimum"]:
        return f"{place} is {value!r}"
    return fault_inside(value, schema, place)


def fault_inside(value: Any, schema: dict[str, Any], place: str) -> str | None:
    """The same of an object's members and an array's elements."""
    if isinstance(value, list):
        found = (fault_of(one, schema["items"], f"{place}[{n}]") for n, one in enumerate(value))
        return next(filter(None, found), None)
    if not isinstance(value, dict):
        return None
    properties = schema.get("properties", {})
    missing = [name for name in schema.get("required", []) if name not in value]
    if missing:
        return f"{place} lacks {missing}"
    further = schema.get("additionalProperties", not properties)
    for name, one in value.items():
        below = properties.get(name, further)
        if below is False:
            return f"{place} has {name}"
        if isinstance(below, dict) and (fault := fault_of(one, below, f"{place}.{name}")):
            return fault
    return None


class GatewayCase(Case):
    """The program's routes, which take changes too."""

    words: tuple[str, ...] = ("gateway", "--host", "proxy.example.org")

    @classmethod
    def setUpClass(cls) -> None:
        super().setUpClass()
        cls.process = subprocess.Popen(
            [sys.executable, str(PROGRAM), "--server", cls.server, "--json", *cls.words],
            stdout=subprocess.PIPE,
            env=ENVIRONMENT,
        )
        cls.addClassCleanup(cls.process.communicate)
        cls.addClassCleanup(cls.process.kill)
        cls.url = urlsplit(json.loads(cls.process.stdout.readline())["url"])

    def setUp(self) -> None:
        super().setUp()
        self.name = fresh()
        self.ok("init", self.name)

    def fetch(
        self, method: str, target: str, body: Any = None, **headers: str
    ) -> tuple[int, Any]:
        """The status and the document of an answer, which has to be as it is described."""
        connection = http.client.HTTPConnection(self.url.hostname, self.url.port, timeout=200)
        data = body if isinstance(body, bytes) else json.dumps(body).encode() if body else b""
        said = {"Content-Type": "application/json"}
        said |= {name.replace("_", "-"): value for name, value in headers.items()}
        connection.request(method, quote(target, safe="/?=&%"), body=data, headers=said)
        response = connection.getresponse()
        answer = json.loads(response.read())
        connection.close()
        self.compare(method, target, response.status, answer)
        return response.status, answer

    def compare(self, method: str, target: str, status: int, answer: Any) -> None:
        """Compares an answer with what the OpenAPI file says of it."""
        path = target.partition("?")[0]
        fits = [one for one in DOCUMENT["paths"] if re.fullmatch(pattern_of(one), path)]
        if not fits or method.lower() not in DOCUMENT["paths"][fits[0]]:
            return
        answers = DOCUMENT["paths"][fits[0]][method.lower()]["responses"]
        described = answers.get(str(status)) or answers["default"]
        schema = described["content"]["application/json"]["schema"]
        self.assertIsNone(fault_of(answer, schema), (method, target, answer))

    def got(self, target: str, **headers: str) -> Any:
        """The document of an answer that is one."""
        status, answer = self.fetch("GET", target, **headers)
        self.assertEqual(status, 200, answer)
        return answer

    def upload(self, *changes: dict, **members: Any) -> tuple[int, Any]:
        """What the upload of a changeset is answered by."""
        body = {"author": "A", "message": "c", "changes": list(changes), **members}
        return self.fetch("POST", "/api/changeset", body)


def pattern_of(path: str) -> str:
    """What targets of a described path look like."""
    return re.sub(r"/?\{path\}", "(/.*)?", path).replace("{revision}", "[^/]+").replace(
        "{bookmark}", "[^/]+"
    ).replace("{draft}", "[^/]+")


def sets(path: str, data: bytes, **members: str) -> dict:
    """A set of an upload."""
    return {"path": path, "change": "set", "base64": base64.b64encode(data).decode(), **members}


class Gateway(GatewayCase):
    """Reads and changes."""

    def test_the_file_describes_the_routes(self):
        described = {(m.upper(), path) for path, one in DOCUMENT["paths"].items() for m in one}
        routes = {(route.method, route.path) for route in READS + WRITES}
        self.assertEqual(described, routes | {("GET", "/health"), ("GET", "/openapi.json")})
        self.assertEqual(self.got("/openapi.json"), DOCUMENT)

    def test_upload_and_read_back(self):
        changes = [sets("dir/ä", b"one\ntwo\n"), sets("run", b"\xff\0", kind="executable")]
        changes += [{"path": "link", "change": "set", "kind": "symlink", "text": "dir"}]
        words = {"message": "First", "seconds": 5, "offset": 3_600, "land": self.name}
        status, made = self.upload(*changes, parent=self.name, **words)
        self.assertEqual((status, made["changes"], made["seconds"]), (200, 3, 5))
        self.assertEqual(made["landed"]["head"], self.ask("bookmark", self.name)["head"])
        self.assertEqual(self.ok("cat", self.name, "dir/ä").out, "one\ntwo\n")
        head = made["landed"]["head"]
        self.assertEqual(self.got(f"/api/log/{self.name}")["changesets"][0]["id"], head)
        self.assertEqual(self.got(f"/api/changeset/{self.name}")["bookmarks"], [self.name])
        kinds = {one["name"]: one["kind"] for one in self.got(f"/api/tree/{head}")["entries"]}
        self.assertEqual(kinds, {"dir": "directory", "link": "symlink", "run": "executable"})
        self.assertEqual(self.got(f"/api/file/{head}/dir/ä")["text"], "one\ntwo\n")
        self.assertIsNone(self.got(f"/api/file/{head}/run")["text"])
        names = [one["name"] for one in self.got("/api/bookmarks")["bookmarks"]]
        self.assertIn(self.name, names)

    def test_large_files(self):
        self.needs_wholes()
        data = random.Random(1).randbytes(1_500_000)
        on = {"parent": self.name, "land": self.name}
        status, made = self.upload(sets("big", data), **on)
        self.assertEqual((status, made["changes"]), (200, 1))
        told = self.got(f"/api/file/{self.name}/big")
        self.assertEqual((told["size"], told["text"]), (len(data), None))
        ran = jarrah("cat", self.name, "big", server=self.server, binary=True)
        self.assertEqual(ran.data, data)

    def test_copied_files(self):
        self.needs_copies()
        _, made = self.upload(sets("p", b"abc"), parent=self.name)
        changes = {"q": File(ABC, 3), "r": File(ABC, 3)}
        changeset = Changeset((made["id"],), "A", 0, 0, "", changes, {"q": CopySource(0, "p")})
        Server(self.server).put_changeset(changeset)
        found = self.got(f"/api/changeset/{changeset.id}")["changes"]
        self.assertEqual([one.get("copied") for one in found], [{"parent": 0, "path": "p"}, None])

    def test_diffs(self):
        self.upload(sets("a", b"1\n2\n3\n"), sets("b", b"x"), parent=self.name, land=self.name)
        gone = {"path": "b", "change": "delete"}
        changes = [sets("a", b"1\nnew\n3\n"), gone, sets("c", b"\0"), sets("d", b"l\n" * 131_073)]
        self.upload(*changes, parent=self.name, land=self.name)
        found = {one["path"]: one for one in self.got(f"/api/diff/{self.name}")["files"]}
        told = {path: (one["change"], one["why"]) for path, one in found.items()}
        wanted = {"a": ("edited", None), "b": ("deleted", None)}
        wanted |= {"c": ("added", "binary"), "d": ("added", "large")}
        self.assertEqual(told, wanted)
        hunk = {"old": [1, 3], "new": [1, 3], "lines": [" 1", "-2", "+new", " 3"]}
        self.assertEqual(found["a"]["hunks"], [hunk])
        self.assertEqual((found["a"]["added"], found["a"]["deleted"]), (1, 1))
        lines = [line for hunk in found["b"]["hunks"] for line in hunk["lines"]]
        self.assertEqual(lines, ["-x", "\\No newline at end of file"])
        one = self.got(f"/api/diff/{self.name}/a")["files"]
        self.assertEqual(one, [found["a"]])
        self.assertEqual(self.fetch("GET", f"/api/diff/{self.name}/none")[0], 400)

    def test_many_files_come_later(self):
        changes = [sets(f"f{number:02}", b"%d\n" % number) for number in range(45)]
        self.upload(*changes, parent=self.name, land=self.name)
        found = self.got(f"/api/diff/{self.name}")["files"]
        self.assertEqual([one["why"] for one in found], [None] * 40 + ["later"] * 5)
        self.assertEqual(self.got(f"/api/diff/{self.name}/f44")["files"][0]["added"], 1)

    def test_search(self):
        on = {"parent": self.name, "land": self.name}
        self.upload(sets("src/Main.rs", b""), sets("src/lib.rs", b""), message="Begin here", **on)
        self.upload(sets("docs/main.md", b""), message="Document", **on)
        found = self.got(f"/api/search/{self.name}?path=MAIN")
        self.assertEqual([one["name"] for one in found["files"]], ["docs/main.md", "src/Main.rs"])
        found = self.got(f"/api/search/{self.name}?message=here")
        self.assertEqual([one["message"] for one in found["changesets"]], ["Begin here"])
        self.assertEqual((found["looked_at"], found["next"]), (3, None))
        self.assertEqual(self.fetch("GET", f"/api/search/{self.name}")[0], 400)

    def test_any_place_of_a_line(self):
        for number in range(12):
            on = {"parent": self.name, "land": self.name}
            self.upload(sets("n", b"%d" % number), message=str(number), **on)
        for skip, count, wanted, total in (
            (0, 5, ["11", "10", "9", "8", "7"], None),
            (7, 3, ["4", "3", "2"], None),
            (10, 9, ["1", "0", ""], 13),
            (99, 4, ["2", "1", "0", ""], 13),
        ):
            found = self.got(f"/api/log/{self.name}?skip={skip}&count={count}")
            self.assertEqual([one["message"] for one in found["changesets"]], wanted)
            self.assertEqual(found["total"], total)

    def test_uploads_that_are_refused(self):
        one = sets("a", b"x")
        for body, status, words in (
            (b"{", 400, "no JSON"),
            (b"[]", 400, "no object"),
            ({"author": "A", "changes": [], "more": 1}, 400, "'more'"),
            ({"changes": [one]}, 400, "'author'"),
            ({"author": "A", "changes": [{**one, "base64": "?"}]}, 400, "base64"),
            ({"author": "A", "changes": [one, one]}, 400, "again"),
            ({"author": "A", "changes": [{**one, "kind": "pipe"}]}, 400, "kind"),
            ({"author": "A", "changes": [{"path": "a", "change": "move"}]}, 400, "neither"),
            ({"author": "\ud800", "changes": []}, 400, "surrogate"),
            ({"author": "A", "changes": [one, sets("a/b", b"x")]}, 422, "lies under"),
            ({"author": "A", "changes": [sets("a/../b", b"x")]}, 422, "refused"),
            ({"author": "A", "changes": [{"path": "a", "change": "delete"}]}, 422, "nothing at a"),
            ({"author": "A", "changes": [], "parent": "absent"}, 422, "no bookmark"),
            ({"author": "A", "changes": [], "parent": "0" * 64}, 422, "the parent"),
        ):
            found, answer = self.fetch("POST", "/api/changeset", body)
            self.assertEqual((found, words in answer["error"]), (status, True), (body, answer))

    def test_no_landing_without_a_message_or_an_author(self):
        change = sets("a", b"x")
        for members in ({"message": ""}, {"message": None}, {"author": " "}):
            status, answer = self.upload(change, parent=self.name, land=self.name, **members)
            self.assertEqual((status, "is empty" in answer["error"]), (422, True), answer)
        _, draft = self.upload(change, parent=self.name, message="")
        target = f"/api/land/{self.name}/{draft['id']}"
        status, answer = self.fetch("POST", target)
        self.assertEqual((status, "the message is empty" in answer["error"]), (422, True))
        self.assertEqual(self.ask("bookmark", self.name)["head"], ROOT.id)
        self.assertEqual(self.fetch("POST", f"{target}?allow_empty_message=1")[0], 200)
        allowed = {"message": "", "allow_empty_message": True, "land": self.name}
        self.assertEqual(self.upload(sets("b", b"x"), parent=self.name, **allowed)[0], 200)

    def test_a_clash_names_its_draft(self):
        _, ours = self.upload(sets("a", b"ours"), parent=self.name)
        self.upload(sets("a", b"theirs"), parent=self.name, land=self.name)
        status, answer = self.fetch("POST", f"/api/land/{self.name}/{ours['id']}")
        self.assertEqual((status, answer["code"], answer["left"]), (409, "clash", "a"))
        self.assertEqual(answer["draft"], ours["id"])
        _, other = self.upload(sets("b", b"b"), parent=self.name)
        status, answer = self.fetch("POST", f"/api/land/{self.name}/{other['id'][:12]}")
        self.assertEqual((status, answer["bookmark"]), (200, self.name))

    def test_health(self):
        self.assertEqual(self.got("/health")["server"], self.server)

    def test_hosts_and_origins(self):
        proxy = {"Host": "proxy.example.org"}
        self.assertEqual(self.got("/api/server", **proxy)["url"], self.server)
        self.got("/api/server", Host="proxy.example.org:8443")
        self.assertEqual(self.fetch("GET", "/api/server", Host="example.org")[0], 403)
        body = {"author": "A", "changes": []}
        for status, headers in (
            (403, {"Origin": "https://example.org"}),
            (403, {"Origin": "null"}),
            (403, {"Content_Type": "text/plain"}),
            (200, {"Origin": "https://proxy.example.org", **proxy}),
            (200, {}),
        ):
            found = self.fetch("POST", "/api/changeset", body, **headers)
            self.assertEqual(found[0], status, (headers, found))
        self.assertEqual(self.fetch("GET", f"/api/land/{self.name}/x")[0], 405)
        self.assertEqual(self.fetch("POST", "/api/bookmarks")[0], 405)

    def test_images_are_shown_and_run_nothing(self):
        self.upload(sets("a.svg", b"<svg/>"), sets("b", b""), parent=self.name, land=self.name)
        for path, kind in (("a.svg", "image/svg+xml"), ("b", "application/octet-stream")):
            connection = http.client.HTTPConnection(self.url.hostname, self.url.port, timeout=20)
            connection.request("GET", f"/raw/{self.name}/{path}")
            response = connection.getresponse()
            self.assertEqual(response.headers["Content-Type"], kind)
            self.assertIn("sandbox", response.headers["Content-Security-Policy"])
            connection.close()


class Lines(GatewayCase, Annotating):
    """Who brought each line of a file."""

    def brought(self, answer: dict[str, Any]) -> str:
        """Each line of an answer with the name of who brought it."""
        names = [self.names[one["id"]] for one in answer["changesets"]]
        places = [run["changeset"] for run in answer["lines"]]
        self.assertEqual([*dict.fromkeys(places)], [*range(len(set(names)))])
        self.assertTrue(all(one != other for one, other in pairwise(places)), answer)
        runs = ((names[run["changeset"]], run["texts"]) for run in answer["lines"])
        return " ".join(f"{name}:{text}" for name, texts in runs for text in texts)

    def test_lines(self):
        id = self.line(b"a\nb\nc\n", b"a\nB\nc\nd\n\n\te\r\n")
        found = self.got(f"/api/annotate/{id}/f")
        texts = ((0, ["a"]), (1, ["B"]), (0, ["c"]), (1, ["d", "", "\te\r"]))
        wanted = [{"changeset": place, "texts": run} for place, run in texts]
        self.assertEqual((found["id"], found["path"], found["lines"]), (id, "f", wanted))
        self.assertEqual(found["changesets"], self.got(f"/api/log/{id}")["changesets"][::-1])
        self.ok("bookmark", self.name, "--to", id)
        for name in (self.name, id[:12], id.upper()):
            self.assertEqual(self.got(f"/api/annotate/{name}/f"), found)

    def test_names_and_an_empty_file(self):
        id = self.put("one", **{"dir/ä b": "ö".encode(), "empty": b""})
        self.assertEqual(self.brought(self.got(f"/api/annotate/{id}/dir/ä b")), "one:ö")
        found = self.got(f"/api/annotate/{id}/empty")
        self.assertEqual(found, {"id": id, "path": "empty", "changesets": [], "lines": []})

    def test_a_rename(self):
        self.needs_copies()
        first = self.line(b"a\nb\n")
        id = self.put("moved", first, copies={"g": (0, "f")}, f=None, g=b"a\nB\n")
        for query, wanted in (
            ("", "v0:a moved:B"),
            ("?follow=1", "v0:a moved:B"),
            ("?follow=0", "moved:a moved:B"),
        ):
            self.assertEqual(self.brought(self.got(f"/api/annotate/{id}/g{query}")), wanted)
        status, answer = self.fetch("GET", f"/api/annotate/{id}/g?follow=no")
        self.assertEqual((status, answer["error"]), (400, "follow is 'no', and no number"))

    def test_a_merge(self):
        self.server = self.merging()
        self.connect()
        base = self.put("base", f=b"a\nb\n")
        left = self.put("left", base, f=b"left\na\nb\n")
        right = self.put("right", base, f=b"a\nb\nright\n")
        merge = self.put("merge", left, right, f=b"left\na\nmerge\nb\nright\n")
        wanted = "left:left base:a merge:merge base:b right:right"
        for fold in (False, True):
            with Library(Server(self.server), fold).connected() as visit:
                self.assertEqual(self.brought(annotate(visit, Question(merge, "f"))), wanted)

    def test_what_is_kept_is_not_read_again(self):
        self.needs_manifests()
        id = self.line(b"a\n", b"a\nb\n", b"a\nb\nc\n")
        library = Library(Server(self.server), fold=False)
        refuses = {"side_effect": AssertionError("it is kept")}
        with library.connected() as visit:
            found = annotate(visit, Question(id, "f"))
        with (
            mock.patch.object(Server, "changeset", **refuses),
            mock.patch.object(Server, "fsnode", **refuses),
            library.connected() as visit,
        ):
            self.assertEqual(annotate(visit, Question(id, "f")), found)
        self.assertEqual(self.brought(found), "v0:a v1:b v2:c")

    def test_what_is_no_file_is_refused_as_by_file(self):
        id = self.put("one", **{"d/f": b"a\n"})
        for path in ("d", "x", "d/x", "d/f/x", "", "..", "d//f"):
            said = self.fetch("GET", f"/api/annotate/{id}/{path}")
            self.assertEqual(said, self.fetch("GET", f"/api/file/{id}/{path}"))
            self.assertGreaterEqual(said[0], 400)
        for name, words in (("absent", "no bookmark"), ("0" * 64, "no changeset")):
            status, answer = self.fetch("GET", f"/api/annotate/{name}/f")
            self.assertEqual((status, words in answer["error"]), (404, True), answer)

    def test_what_is_no_text_or_too_large_is_refused(self):
        for path, data in (("zero", b"a\0\n"), ("wrong", b"a\n\xff\n")):
            said = self.fetch("GET", f"/api/annotate/{self.put(path, **{path: data})}/{path}")
            self.assertEqual(said, (404, {"error": f"{path}: it is no text, and so has no lines"}))
        self.needs_wholes()
        self.upload(sets("big", b"a\n" * 524_289), parent=self.name, land=self.name)
        words = "big: it has 1,048,578 bytes, over 1,048,576, and so no lines"
        said = self.fetch("GET", f"/api/annotate/{self.name}/big")
        self.assertEqual(said, (404, {"error": words}))


class Backouts(GatewayCase, BackoutCase):
    """What is backed out, by the trees of other changesets."""

    def setUp(self) -> None:
        BackoutCase.setUp(self)

    def ask_backout(
        self, id: str, query: str = "", body: Any = {"author": "A"}, **headers: str
    ) -> tuple[int, Any]:
        """What a backout is answered by."""
        return self.fetch("POST", f"/api/backout/{self.name}/{id}{query}", body, **headers)

    def backed_out(self, *words: Any) -> Any:
        """The document of a backout that is made."""
        status, answer = self.ask_backout(*words)
        self.assertEqual(status, 200, answer)
        return answer

    def not_made(self, status: int, *words: Any, **headers: str) -> str:
        """What a refusal says, at which nothing is stored."""
        before = self.got("/health")["entries"]
        found, answer = self.ask_backout(*words, **headers)
        self.assertEqual((found, [*answer]), (status, ["error"]), answer)
        self.assertEqual(self.got("/health")["entries"], before)
        return answer["error"]

    def test_one_that_lands(self):
        changes = {"text": plain(b"other"), "lib/a": None, "run/in": plain(b"x")}
        target = self.land(changes, "T\n\nb")
        later = self.land({"new": plain(b"new")})
        told = self.backed_out(target[:20])
        head = self.to.head(self.name)
        wanted = {"bookmark": self.name, "head": head, "ids": [head], "old": later}
        self.assertEqual(told, wanted | {"backed_out": target, "merged": []})
        self.assertEqual(self.tree(self.name), FIRST | {"new": plain(b"new")})
        made = self.to.changeset(head)
        message = f'Back out "T"\n\nThis backs out changeset {target}.'
        self.assertEqual((made.parents, made.message), ((later,), message))

    def test_later_lines_stay(self):
        theirs = with_line(2, b"theirs")
        target = self.land({"text": plain(theirs)})
        self.land({"text": plain(theirs.replace(b"line 15\n", b"later\n"))})
        self.assertEqual(self.backed_out(target)["merged"], ["text"])
        wanted = FIRST | {"text": plain(with_line(15, b"later"))}
        self.assertEqual(self.tree(self.name), wanted)

    def test_a_draft(self):
        target = self.land({"text": plain(b"other"), "lib/b": None})
        told = self.backed_out(target, "?draft=1")
        self.assertEqual((told["parents"], told["backed_out"]), ([target], target))
        self.assertEqual([one["path"] for one in told["changes"]], ["lib/b", "text"])
        self.assertEqual((self.to.head(self.name), self.tree(told["id"])), (target, FIRST))
        self.assertEqual(self.fetch("POST", f"/api/land/{self.name}/{told['id']}")[0], 200)
        again = self.backed_out(told["id"], "?draft=0")
        self.assertEqual(self.to.head(self.name), again["head"])
        self.assertEqual(self.tree(self.name), self.tree(target))

    def test_who_and_why(self):
        target = self.land({"text": plain(b"other")})
        body = {"author": "Ann <a@b>", "message": "Mine", "seconds": 5, "offset": 3_600}
        told = self.backed_out(target, "?draft=1", body)
        self.assertEqual({name: told[name] for name in body}, body)
        for words, offset in (({"seconds": 7}, 0), ({"seconds": 7, "offset": -60}, -60)):
            told = self.backed_out(target, "?draft=1", {"author": "A", **words})
            self.assertEqual((told["seconds"], told["offset"]), (7, offset))
        said = self.upload(parent=self.name)[1]
        told = self.backed_out(target, "?draft=1", {"author": "A", "message": None})
        self.assertLess(abs(told["seconds"] - said["seconds"]), 60)
        self.assertEqual(told["offset"], said["offset"])
        self.assertIn(target, told["message"])

    def test_bodies_and_questions_that_break_a_rule(self):
        target = self.land({"text": plain(b"other")})
        for query, body, words in (
            ("", b"", "no JSON"),
            ("", b"[]", "no object"),
            ("", b"{}", "'author'"),
            ("", {"message": "Mine"}, "'author'"),
            ("", {"author": 1}, "'author'"),
            ("", {"author": "A", "land": self.name}, "'land'"),
            ("?parent=2", {"author": "A"}, "parent is '2'"),
            ("?parent=", {"author": "A"}, "parent is ''"),
            ("?draft=yes", {"author": "A"}, "draft is 'yes'"),
        ):
            self.assertIn(words, self.not_made(400, target, query, body))
        for body in ({"author": " "}, {"author": "A", "message": ""}):
            self.assertIn("is empty", self.not_made(422, target, "", body))
        self.assertEqual(self.to.head(self.name), target)

    def test_what_is_refused(self):
        target = self.land({"text": plain(with_line(2, b"theirs")), "lib/a": plain(b"A")})
        self.assertIn("one parent alone", self.not_made(422, target, "?parent=1"))
        other = fresh("other")
        self.to.move_bookmark(other, None, self.first)
        foreign = self.land({"text": plain(b"other")}, "there", other)
        self.assertEqual(self.not_made(422, foreign), f"{foreign} isn't on {self.name}")
        self.assertIn("no bookmark", self.not_made(422, f"{target}/more"))
        head = self.land({"text": plain(with_line(2, b"later")), "lib/a": plain(b"later")})
        for query in ("", "?draft=1"):
            self.assertEqual(self.not_made(422, target, query), self.later_at("lib/a, text"))
        self.assertEqual(self.to.head(self.name), head)
        status, answer = self.ask_backout("1" * 64)
        self.assertEqual((status, answer["code"]), (404, "no-changeset"))
        self.assertEqual(self.fetch("GET", f"/api/backout/{self.name}/{target}")[0], 405)

    def test_each_request_reads_a_log_of_its_own_on(self):
        library = Library(Server(self.server), fold=False)
        with library.connected() as visit:
            own = visit.own_log()
            self.assertEqual(own.changesets, library.log.changesets)
            head = self.land({}, fresh("message"))
            own.read_on()
            self.assertEqual((own.bookmarks[self.name], own.parents[head]), (head, self.first))
            self.assertEqual(library.log.bookmarks[self.name], self.first)
            self.assertNotIn(head, library.log.parents)
            self.assertNotIn(head, library.log.changesets)

    def test_pages_from_elsewhere(self):
        target = self.land({"text": plain(b"other")})
        self.not_made(403, target, Origin="https://example.org")
        self.not_made(403, target, Origin="null")
        self.not_made(403, target, Content_Type="text/plain")
        self.not_made(403, target, Host="example.org")
        self.assertEqual(self.to.head(self.name), target)
        own = {"Origin": "https://proxy.example.org", "Host": "proxy.example.org"}
        self.assertEqual(self.ask_backout(target, **own)[0], 200)
        self.assertEqual(self.tree(self.name), FIRST)


class BackoutsOfMerges(Merging):
    """Of a merge it has to be said back to which parent."""

    def ask_backout(self, merge: str, name: str, **query: str) -> dict[str, Any]:
        """What a backout is answered by."""
        with Library(Server(self.server), fold=False).connected() as visit:
            return backout(visit, Question(name, merge, query), b'{"author": "A"}')

    def test_which_parent(self):
        x, y = (self.put(self.base, changes={path: b"abc"}).id for path in "xy")
        merge = self.put(x, y, changes={"z": b"other"}).id
        for place, parent in (("0", x), ("1", y)):
            name = fresh()
            self.to.move_bookmark(name, None, merge)
            before = self.to.log(0).total
            with self.assertRaisesRegex(Trouble, f"{merge} is a merge"):
                self.ask_backout(merge, name)
            self.assertEqual(self.to.log(0).total, before)
            told = self.ask_backout(merge, name, parent=place)
            self.assertEqual(told["head"], self.to.head(name))
            self.assertEqual(self.tree(told["head"]), self.tree(parent))


class Reads(GatewayCase):
    """`browse` takes no changes."""

    words = ("browse",)

    def test_no_change(self):
        status, answer = self.upload(sets("a", b""), parent=self.name)
        self.assertEqual((status, "only reads" in answer["error"]), (403, True))
        target = f"/api/backout/{self.name}/{self.name}"
        status, answer = self.fetch("POST", target, {"author": "A"})
        self.assertEqual((status, "only reads" in answer["error"]), (403, True))


class AtOnce(GatewayCase):
    """One slow read stops no other."""

    @classmethod
    def setUpClass(cls) -> None:
        super().setUpClass()
        cls.waits = threading.Event()
        if cls.stand_in:
            cls.addClassCleanup(cls.waits.set)
            cls.stand_in.service.turn = nullcontext()
            read = cls.stand_in.service.content
            cls.stand_in.service.content = lambda id: cls.waits.wait(20) and read(id)

    def test_a_slow_read(self):
        if not self.stand_in:
            self.skipTest("a server that waits")
        self.upload(sets("a", b"slow"), parent=self.name, land=self.name)
        slow = threading.Thread(target=self.fetch, args=("GET", f"/api/file/{self.name}/a"))
        slow.start()
        time.sleep(0.3)
        begun = time.monotonic()
        self.got(f"/api/log/{self.name}")
        self.assertTrue(slow.is_alive())
        self.assertLess(time.monotonic() - begun, 10)
        self.waits.set()
        slow.join(20)
        self.assertFalse(slow.is_alive())


class Down(GatewayCase):
    """A server that is gone."""

    def test_health(self):
        if not self.stand_in:
            self.skipTest("a server that ends")
        self.stand_in.shutdown()
        self.stand_in.server_close()
        status, answer = self.fetch("GET", "/health")
        self.assertEqual((status, answer["status"]), (503, "down"))

    def setUp(self) -> None:
        Case.setUp(self)
