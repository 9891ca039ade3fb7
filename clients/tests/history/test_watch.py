"""Landings as they come: `watch`, and the gateway's server-sent events."""

from __future__ import annotations

import http.client
import json
import threading
import time
from typing import Any
from unittest import mock

from jarrah_client.commands import watch
from jarrah_client.history.watching import Event, Wanted
from jarrah_client.net.server import Server
from jarrah_client.refusals import Fault
from jarrah_client.web import events
from jarrah_client.web.events import Listener, TooMany
from jarrah_client.web.library import Library

from ..harness import Case, enter, fresh, jarrah
from ..web.test_gateway import DOCUMENT, GatewayCase, fault_of


class Landing(Case):
    """A bookmark on which things land."""

    def setUp(self) -> None:
        super().setUp()
        self.name = fresh()
        self.ok("init", self.name)
        self.abc = self.write("abc")

    def land(self, *paths: str, name: str = "", author: str = "Ann <ann@example.org>") -> str:
        """Lands a changeset, and gives its id."""
        sets = [word for path in paths for word in ("--set", f"{path}={self.abc}")]
        words = ("-m", f"Sets {len(paths)}\n\nand more", "--author", author)
        base = name or self.name
        return self.ask("commit", base, *sets, *words, "--base", base)["head"]

    def total(self) -> int:
        server = Server(self.server)
        try:
            return server.log(0).total
        finally:
            server.close()


class Watching(Landing):
    """The command."""

    def setUp(self) -> None:
        super().setUp()
        self.memory = self.folder / "memory"
        self.start = self.total()

    def told(self, *words: object) -> list[dict[str, Any]]:
        """What is told of what is there."""
        ran = self.ok("--json", "watch", *words, "--once")
        return ran.documents

    def test_what_is_told(self):
        ids = [self.land("lib/a", "b"), self.land("c")]
        found = self.told(self.name, "--from", self.start)
        self.assertEqual([one["id"] for one in found], ids)
        first = found[0]
        self.assertEqual((first["paths"], first["ids"]), (["b", "lib/a"], [ids[0]]))
        self.assertEqual((first["author"], first["bookmark"]), ("Ann <ann@example.org>", self.name))
        self.assertEqual(first["message"], "Sets 2\n\nand more")
        self.assertEqual(found[1]["old"], ids[0])
        self.assertIsNone(fault_of(first, DOCUMENT["components"]["schemas"]["Landing"]))
        lines = self.ok("watch", self.name, "--from", self.start, "--once").out.splitlines()
        self.assertRegex(lines[0], f"^{ids[0]}  .*  {self.name}  Ann .*  Sets 2$")

    def test_filters(self):
        other = fresh()
        self.ok("init", other)
        ids = [self.land("lib/a"), self.land("lib.b"), self.land("lib", name=other)]
        begun = ("--from", self.start)
        self.assertEqual([one["id"] for one in self.told(self.name, *begun)], ids[:2])
        by_path = self.told(*begun, "--path", "lib")
        self.assertLessEqual({ids[0], ids[2]}, {one["id"] for one in by_path})
        self.assertNotIn(ids[1], [one["id"] for one in by_path])
        self.assertEqual(self.told(self.name, *begun, "--path", "/"), self.told(self.name, *begun))
        both = self.told(self.name, *begun, "--path", "lib/a/x", "--path", "/lib.b/")
        self.assertEqual([one["id"] for one in both], ids[:2])

    def test_a_stack_is_one_landing(self):
        draft = self.draft(self.name, "--set", f"a={self.abc}", "-m", "First")
        draft = self.draft(draft, "--set", f"b={self.abc}", "-m", "Second")
        landed = self.ask("land", self.name, draft)
        (one,) = self.told(self.name, "--from", self.start)
        self.assertEqual((one["ids"], one["id"]), (landed["ids"], landed["head"]))
        self.assertEqual((one["paths"], one["message"]), (["a", "b"], "Second"))

    def test_a_command(self):
        id = self.land("lib/a", "b")
        out = self.folder / "out"
        command = f'cat > {out}.json; env | grep "^LANDED_" | sort > {out}; echo "$JARRAH_SERVER"'
        found = self.told(self.name, "--from", self.start, "--exec", command)
        self.assertEqual(found[0]["status"], 0)
        lines = out.read_text().splitlines()
        for said in (
            f"LANDED_ID={id}",
            f"LANDED_IDS={id}",
            f"LANDED_BOOKMARK={self.name}",
            "LANDED_AUTHOR=Ann <ann@example.org>",
            "LANDED_PATHS=b",
            "LANDED_PATH_COUNT=2",
            "LANDED_TITLE=Sets 2",
        ):
            self.assertIn(said, lines)
        given = json.loads((self.folder / "out.json").read_text())
        self.assertEqual(given, {name: found[0][name] for name in given})
        self.assertEqual(given["paths"], ["b", "lib/a"])

    def test_more_paths_than_a_variable_holds(self):
        paths = tuple(f"{'long/' * 40}{number}" for number in range(4_000))
        one = Event(1, "b", "0" * 64, ("0" * 64,), "0" * 64, None, None, "A", "m\0x", paths)
        told = watch.variables(one)
        self.assertLess(len(told["LANDED_PATHS"]), watch.MOST_PATHS_BYTES)
        lines = told["LANDED_PATHS"].split("\n")
        self.assertEqual((lines, told["LANDED_PATH_COUNT"]), (list(paths[: len(lines)]), "4000"))
        self.assertEqual(watch.run("true", one, "http://127.0.0.1:1", mock.Mock(as_json=False)), 0)

    def test_what_is_remembered(self):
        words = (self.name, "--remember", self.memory)
        self.assertEqual(self.told(*words), [])
        ids = [self.land("a"), self.land("b")]
        self.assertEqual([one["id"] for one in self.told(*words)], ids)
        self.assertEqual(self.told(*words), [])
        ids.append(self.land("c"))
        self.assertEqual([one["id"] for one in self.told(*words)], ids[2:])
        self.assertEqual(json.loads(self.memory.read_text())["last"]["id"], ids[2])

    def test_a_command_that_fails(self):
        words = (self.name, "--remember", self.memory)
        self.told(*words)
        ids = [self.land("a"), self.land("b")]
        failing = ("--exec", f"echo $LANDED_ID >> {self.folder}/ran; exit 3", "--once")
        ran = jarrah("watch", *words, *failing, "--stop", server=self.server)
        self.assertEqual((ran.status, ran.complaint.count("ended with status 3")), (1, 2))
        ran = jarrah("watch", *words, *failing, server=self.server)
        self.assertEqual((ran.status, ran.complaint.count("ended with status 3")), (0, 2))
        self.assertEqual((self.folder / "ran").read_text().split(), [ids[0], *ids])
        self.assertEqual(self.told(*words), [])

    def test_memories_of_other_things(self):
        words = ("watch", self.name, "--once", "--remember", self.memory)
        for text in (
            "",
            "x\n",
            "[]\n",
            '{"next": -1, "last": null}\n',
            '{"next": 1, "last": {}}\n',
        ):
            self.memory.write_text(text)
            self.assertIn("isn't a file that `jarrah watch` wrote", self.refused(*words))
        last = {"entry": 0, "id": "a" * 64}
        self.memory.write_text(json.dumps({"next": 1, "last": last}) + "\n")
        self.assertIn("another repository's landing", self.refused(*words))
        self.memory.write_text(json.dumps({"next": 10**9, "last": None}) + "\n")
        self.assertIn("it serves another repository now", self.refused(*words))

    def test_goes_on_when_the_server_is_back(self):
        served = self.special_stand_in()
        self.server = served.url
        self.ok("init", self.name)
        id = self.land("a")
        log, polls = Server.log, []

        def read(one: Server, start: int) -> Any:
            if len(polls) == 1:
                raise watch.NotReached("nobody is there")
            return log(one, start)

        def sleep(_: float) -> None:
            polls.append(0)
            if len(polls) == 3:
                raise KeyboardInterrupt

        enter(self, mock.patch.object(Server, "log", read))
        enter(self, mock.patch.object(watch.time, "sleep", sleep))
        ran = jarrah("--json", "watch", "--from", "0", server=served.url)
        self.assertEqual([one["id"] for one in ran.documents], [id])
        self.assertEqual((ran.status, ran.complaint.count("waiting for it")), (130, 1))


class Ear:
    """Where a listener's events go, until it has enough."""

    def __init__(self, most: int):
        self.most = most
        self.text = b""
        self.is_full = threading.Event()

    def write(self, data: bytes) -> None:
        self.text += data
        if self.text.count(b"event: landing") == self.most:
            self.is_full.set()
            raise ConnectionResetError

    @property
    def documents(self) -> list[dict[str, Any]]:
        lines = self.text.decode().split("\n")
        return [json.loads(line.removeprefix("data: ")) for line in lines if "data: " in line]


class Polling(Landing):
    """One poll for all who listen."""

    def setUp(self) -> None:
        super().setUp()
        served = self.special_stand_in()
        self.server, self.served = served.url, served
        self.ok("init", self.name)
        enter(self, mock.patch.object(events, "POLL_SECONDS", 0.02))
        self.library = Library(Server(self.server), False)
        self.ended: list[object] = []

    def listen(self, most: int, wanted: Wanted = Wanted(), start: int | None = None) -> Ear:
        """Begins to listen in a thread of its own."""
        ear = Ear(most)

        def run() -> None:
            try:
                with self.library.connected() as visit:
                    Listener(visit, wanted, start, ear).listen()
            except (Fault, ConnectionError) as fault:
                self.ended.append(fault)

        thread = threading.Thread(target=run, daemon=True)
        thread.start()
        self.addCleanup(thread.join, 10)
        while b"retry" not in ear.text:
            time.sleep(0.005)
        return ear

    def test_many_listen(self):
        ears = [self.listen(2) for _ in range(5)]
        narrow = self.listen(1, Wanted(self.name, ("b",)))
        threads = [one for one in threading.enumerate() if one is self.library.poll.thread]
        self.assertEqual(len(threads), 1)
        ids = [self.land("a"), self.land("b")]
        for ear in [*ears, narrow]:
            self.assertTrue(ear.is_full.wait(10))
        self.assertEqual([[one["id"] for one in ear.documents] for ear in ears], [ids] * 5)
        self.assertEqual([one["id"] for one in narrow.documents], ids[1:])
        self.library.poll.thread.join(10)
        self.assertFalse(self.library.poll.thread.is_alive())
        self.assertEqual(self.library.poll.listeners, 0)

    def test_from_an_entry_on(self):
        enter(self, mock.patch.object(events, "KEPT_EVENTS", 3))
        begun = self.total()
        ids = [self.land(f"f{number}") for number in range(6)]
        behind = self.listen(8, start=begun)
        ids += [self.land(f"g{number}") for number in range(2)]
        self.assertTrue(behind.is_full.wait(10))
        self.assertEqual([one["id"] for one in behind.documents], ids)
        entry = behind.documents[4]["entry"]
        again = self.listen(3, start=entry + 1)
        self.assertTrue(again.is_full.wait(10))
        self.assertEqual([one["id"] for one in again.documents], ids[5:])

    def test_another_repository(self):
        ear = self.listen(1)
        self.served.service.repository = type(self.served.service.repository)()
        for _ in range(1_000):
            if self.ended:
                break
            time.sleep(0.01)
        self.assertIn("another repository", str(self.ended[0]))
        self.assertEqual(ear.documents, [])

    def test_too_many(self):
        enter(self, mock.patch.object(events, "MOST_LISTENERS", 1))
        ear = self.listen(1)
        with self.assertRaises(TooMany):
            self.library.poll.need_room()
        self.land("a")
        self.assertTrue(ear.is_full.wait(10))


class OfTheGateway(GatewayCase, Landing):
    """The gateway's events."""

    def opened(self, query: str, **headers: str) -> http.client.HTTPResponse:
        link = http.client.HTTPConnection(self.url.hostname, self.url.port, timeout=60)
        self.addCleanup(link.close)
        said = {name.replace("_", "-"): value for name, value in headers.items()}
        link.request("GET", f"/api/events?{query}", headers=said)
        response = link.getresponse()
        self.addCleanup(response.close)
        return response

    def event(self, response: http.client.HTTPResponse) -> dict[str, str]:
        """The next event's lines."""
        found: dict[str, str] = {}
        while line := response.readline().decode():
            name, _, value = line.rstrip("\n").partition(": ")
            if name in ("id", "event", "data"):
                found[name] = value
            if line == "\n" and found:
                break
        return found

    def test_events(self):
        response = self.opened(f"bookmark={self.name}&path=lib&path=x")
        kind = response.getheader("Content-Type")
        self.assertEqual((response.status, kind), (200, "text/event-stream; charset=utf-8"))
        self.assertEqual(response.readline(), b"retry: 2000\n")
        ids = [self.land("lib/a"), self.land("b"), self.land("x")]
        found = [self.event(response) for _ in range(2)]
        self.assertEqual([json.loads(one["data"])["id"] for one in found], [ids[0], ids[2]])
        self.assertEqual({one["event"] for one in found}, {"landing"})
        again = self.opened(f"bookmark={self.name}", Last_Event_ID=found[0]["id"])
        self.assertEqual(json.loads(self.event(again)["data"])["id"], ids[1])

    def test_what_is_refused(self):
        self.assertEqual(self.opened("from=x").status, 400)
        self.assertEqual(self.opened("from=999999999").status, 404)
