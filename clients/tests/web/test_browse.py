"""Each page of `browse`, fetched from the running program."""

from __future__ import annotations

import http.client
import json
import re
import shutil
import subprocess
import sys
from html.parser import HTMLParser
from urllib.parse import quote, urlsplit

from jarrah_client.net.server import Server
from jarrah_client.web.annotations import annotate
from jarrah_client.web.library import Library, Question
from jarrah_client.web.routes import READS

from ..formats.test_encoding import ABC
from ..harness import ENVIRONMENT, PROGRAM, Case, fresh, jarrah


class Tags(HTMLParser):
    """Finds what a page would load from elsewhere, and whether its tags match."""

    EMPTY = {"meta", "link"}

    def __init__(self) -> None:
        super().__init__()
        self.open: list[str] = []
        self.loads: list[str] = []

    def handle_starttag(self, tag: str, attributes: list) -> None:
        if tag not in self.EMPTY:
            self.open.append(tag)
        self.loads += [value for name, value in attributes if name in ("src", "href")]

    def handle_endtag(self, tag: str) -> None:
        assert self.open.pop() == tag


class Browse(Case):
    """The program's own server, with a repository behind it."""

    @classmethod
    def setUpClass(cls) -> None:
        super().setUpClass()
        cls.process = subprocess.Popen(
            [sys.executable, str(PROGRAM), "--server", cls.server, "--json", "browse"],
            stdout=subprocess.PIPE,
            env=ENVIRONMENT,
        )
        cls.addClassCleanup(cls.process.communicate)
        cls.addClassCleanup(cls.process.kill)
        cls.url = urlsplit(json.loads(cls.process.stdout.readline())["url"])

    def setUp(self) -> None:
        super().setUp()
        self.name = fresh()
        self.ok("init", self.name)
        abc, binary = self.write("abc"), self.write("binary", b"\xff\0")
        words = (
            "--set",
            f"dir/ä b.txt={abc}",
            "--set",
            f"dir/raw={binary}",
            "--symlink",
            "link=dir",
        )
        self.first = self.ask("commit", self.name, *words, "-m", "First")["head"]
        self.head = self.ask("commit", self.name, "--exec", f"run={abc}", "-m", "Second\n\nbody")[
            "head"
        ]

    def fetch(self, target: str, **headers: str) -> tuple[int, str, bytes]:
        connection = http.client.HTTPConnection(self.url.hostname, self.url.port, timeout=20)
        connection.request("GET", quote(target), headers=headers)
        response = connection.getresponse()
        data = response.read()
        connection.close()
        return response.status, response.headers["Content-Type"], data

    def api(self, question: str):
        status, kind, data = self.fetch(f"/api/{question}")
        self.assertEqual((status, kind), (200, "application/json"), data)
        return json.loads(data)

    def test_the_page(self):
        status, kind, data = self.fetch("/")
        self.assertEqual((status, kind), (200, "text/html; charset=utf-8"))
        page = Tags()
        page.feed(data.decode())
        self.assertEqual(page.open, [])
        self.assertEqual(self.api("server")["url"], self.server)
        loads = [target for target in page.loads if not target.startswith(("#", "data:"))]
        self.assertEqual(loads, [])
        for absolute in (b'"/api', b"`/api", b'"/raw', b"`/raw"):
            self.assertNotIn(absolute, data)

    def test_its_script_can_be_read(self):
        node = shutil.which("node")
        if not node:
            self.skipTest("node reads scripts")
        script = self.fetch("/")[2].decode().partition("<script>")[2].partition("</script>")[0]
        place = self.write("page.js", script.encode())
        subprocess.run([node, "--check", place], check=True, capture_output=True)

    def test_its_links_have_views_and_its_questions_routes(self):
        script = self.fetch("/")[2].decode()
        views = re.findall(r"\w+", re.search(r"const views = \{(.*)\};", script)[1])
        kinds = set(re.findall(r'place\("(\w+)"', script))
        self.assertIn("annotate", kinds)
        for kind in kinds:
            self.assertIn(kind, views)
            self.assertIn(f"async function {kind}(", script)
        asked = set(re.findall(r'\bask\(["`](\w+)', script))
        self.assertIn("annotate", asked)
        self.assertLessEqual(asked, {route.path.split("/")[2] for route in READS})

    def test_bookmarks(self):
        found = {one["name"]: one["head"] for one in self.api("bookmarks")["bookmarks"]}
        self.assertEqual((found[self.name]["id"], found[self.name]["changes"]), (self.head, 1))
        self.ok("bookmark", self.name, "--to", self.first)
        found = {one["name"]: one["head"] for one in self.api("bookmarks")["bookmarks"]}
        self.assertEqual(found[self.name]["id"], self.first)

    def test_a_chain(self):
        found = self.api(f"log/{self.name}")
        titles = [one["message"] for one in found["changesets"]]
        self.assertEqual((titles, found["next"]), (["Second\n\nbody", "First", ""], None))
        for number in range(30):
            jarrah("commit", self.name, "-m", str(number), server=self.server)
        found = self.api(f"log/{self.name}")
        self.assertEqual((len(found["changesets"]), found["next"]), (30, self.head))

    def test_a_changeset(self):
        found = self.api(f"changeset/{self.head}")
        self.assertEqual(found["parents"], [self.first])
        self.assertEqual([one["path"] for one in found["changes"]], ["run"])
        self.assertEqual(found["bookmarks"], [self.name])

    def test_trees(self):
        found = self.api(f"tree/{self.head}/")["entries"]
        kinds = {one["name"]: one["kind"] for one in found}
        self.assertEqual(kinds, {"dir": "directory", "link": "symlink", "run": "executable"})
        found = self.api(f"tree/{self.first}/dir")["entries"]
        self.assertEqual([one["name"] for one in found], ["raw", "ä b.txt"])
        self.assertEqual(self.api(f"tree/{self.first}")["path"], "")

    def test_who_touched_what_last(self):
        self.needs_manifests()
        found = self.api(f"last/{self.head}/")["last"]
        ids = {name: one["id"] for name, one in found.items()}
        self.assertEqual(ids, {"dir": self.first, "link": self.first, "run": self.head})
        found = self.api(f"last/{self.head}/dir")["last"]
        self.assertEqual(set(found), {"raw", "ä b.txt"})

    def test_files(self):
        found = self.api(f"file/{self.head}/dir/ä b.txt")
        self.assertEqual((found["text"], found["content"], found["kind"]), ("abc", ABC, "regular"))
        self.assertEqual([one["id"] for one in found["history"]], [self.first])
        self.assertIsNone(self.api(f"file/{self.head}/dir/raw")["text"])
        raw = self.fetch(f"/raw/{self.head}/dir/raw")
        self.assertEqual(raw, (200, "application/octet-stream", b"\xff\0"))

    def test_who_brought_lines(self):
        new = self.write("new", b"new\n\nabc")
        head = self.ask("commit", self.name, "-m", "c", "--set", f"dir/ä b.txt={new}")["head"]
        found = self.api(f"annotate/{self.name}/dir/ä b.txt")
        self.assertEqual([one["id"] for one in found["changesets"]], [head, self.first])
        runs = [(run["changeset"], run["texts"]) for run in found["lines"]]
        self.assertEqual(runs, [(0, ["new", ""]), (1, ["abc"])])
        before = self.api(f"annotate/{self.head}/dir/ä b.txt")
        self.assertEqual(before["lines"], [{"changeset": 0, "texts": ["abc"]}])
        self.assertEqual(before["changesets"], found["changesets"][1:])

    def test_what_is_not_there(self):
        for target, status, words in (
            ("/nothing", 404, "no such page"),
            ("/api/nothing/x", 404, "no such page"),
            (f"/api/file/{self.head}/none", 404, "none: there is nothing at this path"),
            (f"/api/annotate/{self.head}/none", 404, "none: there is nothing at this path"),
            (f"/api/annotate/{self.head}/dir", 404, "dir: the path is a directory"),
            (f"/api/annotate/{self.head}/dir/raw", 404, "dir/raw: it is no text"),
            (f"/raw/{self.head}/none", 404, "there is nothing"),
            (f"/api/tree/{self.head}/run", 404, "run: the path is a file"),
            ("/api/log/absent", 404, "no bookmark"),
            (f"/api/changeset/{'0' * 64}", 404, "no changeset"),
        ):
            found, _, data = self.fetch(target)
            self.assertEqual(found, status, target)
            self.assertIn(words, json.loads(data)["error"])

    def test_a_server_without_manifests(self):
        early = self.special_stand_in(has_manifests=False)
        jarrah("init", "main", server=early.url)
        words = ("commit", "main", "-m", "c", "--set", f"a/b={self.write('abc')}")
        head = jarrah("--json", *words, server=early.url)
        id = head.document["head"]
        with Library(Server(early.url), fold=False).connected() as visit:
            listed = visit.directory(Question(id, "a"))["entries"]
            self.assertEqual([one["name"] for one in listed], ["b"])
            self.assertEqual(visit.last(Question(id, "a")), {"last": {}})
            self.assertEqual(visit.file(Question(id, "a/b"))["text"], "abc")
            found = annotate(visit, Question(id, "a/b"))
            self.assertEqual([one["id"] for one in found["changesets"]], [id])
            self.assertEqual(found["lines"], [{"changeset": 0, "texts": ["abc"]}])

    def test_this_machine_alone(self):
        self.assertEqual(self.url.hostname, "127.0.0.1")
        self.assertEqual(self.fetch("/", Host="example.org")[0], 403)
        self.assertEqual(self.fetch("/", Host=f"localhost:{self.url.port}")[0], 200)

    def test_a_port_that_is_taken(self):
        words = self.refused("browse", "--port", self.url.port)
        self.assertIn("can't be had", words)

    def test_a_server_that_is_gone(self):
        self.assertIn("no answer from", jarrah("browse", server="http://127.0.0.1:1").err)
