"""Connections that end, servers that are slow or restart, and what is told meanwhile."""

from __future__ import annotations

import io
import json
import socket
import subprocess
import sys
import threading
import time
import unittest
from contextlib import nullcontext, redirect_stderr
from unittest import mock
from unittest.mock import Mock

from jarrah_client import VERSION
from jarrah_client.commands import reading
from jarrah_client.formats.changesets import Changeset
from jarrah_client.formats.fields import digest
from jarrah_client.net import server
from jarrah_client.net.pool import Pool
from jarrah_client.net.server import (
    IDLE_SECONDS,
    SESSION_BYTES,
    BadAnswer,
    NoAnswer,
    NotReached,
    Server,
    Trouble,
)
from jarrah_client.refusals import Refused
from jarrah_client.terminal import progress
from jarrah_client.terminal.progress import Progress

from ..canned import Canned
from ..formats.test_encoding import ABC, EMPTY, B
from ..harness import ENVIRONMENT, PROGRAM, Case, enter, jarrah, jarrah_process
from ..stand_in.http import StandIn

SERVER_IDLE_SECONDS = 60
"""After so many seconds without a byte the server ends a connection."""


class Cutting:
    """A socket that breaks off its first connections, and counts the requests it read.

    It breaks off before its answer, or behind some bytes of the answer's body.
    """

    def __init__(self, cuts: int, answer: bytes, behind: int | None = None):
        self.listener = socket.create_server(("127.0.0.1", 0))
        self.url = f"http://127.0.0.1:{self.listener.getsockname()[1]}"
        self.left = cuts
        self.answer = answer
        self.behind = behind
        self.requests: list[bytes] = []
        self.thread = threading.Thread(target=self.serve, daemon=True)
        self.thread.start()

    def serve(self) -> None:
        while True:
            try:
                link, _ = self.listener.accept()
            except OSError:
                return
            with link:
                self.requests.append(link.recv(65_536))
                is_cut = self.left > 0
                self.left -= is_cut
                if is_cut and self.behind is None:
                    continue
                head = f"HTTP/1.1 200 OK\r\nContent-Length: {len(self.answer)}\r\n\r\n"
                link.sendall(head.encode() + self.answer[: self.behind if is_cut else None])

    def close(self) -> None:
        """Ends the thread first: one that still accepts would take another server's connection."""
        self.listener.shutdown(socket.SHUT_RDWR)
        self.thread.join()
        self.listener.close()


class Again(unittest.TestCase):
    """Requests that only read are tried again, changes never."""

    def setUp(self) -> None:
        enter(self, mock.patch.object(server, "AGAIN_SECONDS", (0.0, 0.0, 0.0)))

    def cutting(self, cuts: int, answer: object = b"abc", behind: int | None = None) -> Cutting:
        data = answer if isinstance(answer, bytes) else json.dumps(answer).encode()
        found = Cutting(cuts, data, behind)
        self.addCleanup(found.close)
        return found

    def test_reads(self):
        for cuts in range(5):
            one = self.cutting(cuts)
            if cuts < 4:
                self.assertEqual(Server(one.url).content(ABC), b"abc")
            else:
                with self.assertRaises(NotReached):
                    Server(one.url).content(ABC)
            self.assertEqual(len(one.requests), min(cuts + 1, 4))

    def test_reads_into_a_file(self):
        data = bytes(range(256)) * 4_000
        for behind in (None, 0, 1, 600_000):
            one = self.cutting(2, data, behind)
            with self.subTest(behind=behind), io.BytesIO() as out:
                Server(one.url).content_to(digest(data), out)
                self.assertEqual((out.tell(), out.getvalue()), (0, data))
                self.assertEqual(len(one.requests), 3)
        one = self.cutting(9, data, 600_000)
        with self.assertRaises(NotReached), io.BytesIO() as out:
            Server(one.url).content_to(digest(data), out)

    def test_files_that_take_no_more(self):
        link = Server(self.cutting(0).url)
        full = Mock(write=Mock(side_effect=OSError(28, "No space left on device")))
        with self.assertRaises(Trouble) as caught:
            link.content_to(ABC, full)
        self.assertIn("No space left", str(caught.exception))
        self.assertNotIsInstance(caught.exception, NotReached)
        self.assertIsNone(link.connection.sock)

    def test_uploads(self):
        for code, id, act in (
            ("content", ABC, lambda one: one.put_content(ABC, b"abc")),
            ("whole", ABC, lambda one: one.put_whole(ABC, [ABC])),
            ("changeset", EMPTY.id, lambda one: one.put_changeset(EMPTY)),
        ):
            for cuts in (2, 4):
                cutting = self.cutting(cuts, {"code": code, "id": id})
                with self.assertRaises(NotReached) if cuts == 4 else nullcontext():
                    act(Server(cutting.url))
                self.assertEqual(len(cutting.requests), min(cuts + 1, 4))

    def test_calls_of_a_pool(self):
        canned = Canned()
        enter(self, canned)
        canned.say(200, {"code": "log", "entries": [], "total": 0})
        with Pool(Server(canned.url), 1) as pool:
            for once, wanted in ((False, 4), (True, 1)):
                asked: list[int] = []

                def call(_: Server) -> None:
                    asked.append(0)
                    raise NotReached("broke")

                with self.assertRaises(NotReached):
                    pool.ask(call, once=once).result(30)
                self.assertEqual(len(asked), wanted)

    def test_how_long_a_merge_is_waited_for(self):
        merge = Changeset((ABC, B), "Ann", 0, 0, "both")
        for changeset, seconds in ((EMPTY, 90), (merge, 600)):
            cutting = self.cutting(0, {"code": "changeset", "id": changeset.id})
            one = Server(cutting.url)
            one.put_changeset(changeset)
            self.assertEqual(one.connection.timeout, seconds)

    def test_changes(self):
        for act in (
            lambda one: one.move_bookmark("main", None, B),
            lambda one: one.land("main", B),
        ):
            cutting = self.cutting(1)
            with self.assertRaises(NotReached) as caught:
                act(Server(cutting.url))
            self.assertTrue(caught.exception.was_sent)
            self.assertEqual(len(cutting.requests), 1)

    def test_what_was_never_sent(self):
        with socket.create_server(("127.0.0.1", 0)) as gone:
            url = f"http://127.0.0.1:{gone.getsockname()[1]}"
        with self.assertRaises(NotReached) as caught:
            Server(url).land("main", B)
        self.assertFalse(caught.exception.was_sent)

    def test_what_a_proxy_answers(self):
        with Canned() as canned:
            asked = []
            answer = canned.RequestHandlerClass.answer
            canned.RequestHandlerClass.answer = lambda self: asked.append(0) or answer(self)
            self.addCleanup(setattr, canned.RequestHandlerClass, "answer", answer)
            for method in ("do_GET", "do_POST"):
                before = getattr(canned.RequestHandlerClass, method)
                again = canned.RequestHandlerClass.answer
                setattr(canned.RequestHandlerClass, method, again)
                self.addCleanup(setattr, canned.RequestHandlerClass, method, before)
            for status, body, tries in (
                (503, {"code": "memory"}, 4),
                (502, b"<html>", 4),
                (504, b"", 4),
                (500, {"code": "read-fault"}, 1),
                (403, b"<html>", 1),
            ):
                canned.say(status, body)
                one = Server(canned.url)
                for act, count in ((lambda: one.log(0), tries), (lambda: one.land("a", B), 1)):
                    asked.clear()
                    with self.assertRaises((Refused, BadAnswer)):
                        act()
                    self.assertEqual(len(asked), count, status)

    def test_no_other_try_where_none_helps(self):
        with socket.create_server(("127.0.0.1", 0)) as silent:
            url = f"http://127.0.0.1:{silent.getsockname()[1]}"
            begun = time.monotonic()
            with self.assertRaisesRegex(NoAnswer, "longer than 0.3 seconds"):
                Server(url, 0.3).log(0)
            self.assertLess(time.monotonic() - begun, 5)
        with self.assertRaises(NoAnswer):
            Server("http://no.such.host.invalid").log(0)


class Waiting(Case):
    """A connection that the server would end is made anew before a request goes out."""

    def test_before_the_server_ends_it(self):
        self.assertLess(IDLE_SECONDS, SERVER_IDLE_SECONDS)
        one = Server(self.server)
        self.addCleanup(one.close)
        one.log(0)
        first = one.connection.sock
        one.last_used = time.monotonic() - IDLE_SECONDS + 1
        one.log(0)
        self.assertIs(one.connection.sock, first)
        one.last_used = time.monotonic() - IDLE_SECONDS - 0.1
        one.log(0)
        self.assertIsNot(one.connection.sock, first)
        second, one.sent = one.connection.sock, SESSION_BYTES + 1
        one.log(0)
        self.assertIsNot(one.connection.sock, second)

    def test_a_change_after_the_server_ended_it(self):
        ending = self.special_stand_in(idle_seconds=0.2)
        one = Server(ending.url)
        self.addCleanup(one.close)
        one.put_content(ABC, b"abc")
        time.sleep(0.6)
        one.put_changeset(EMPTY)
        self.assertIn(B, ending.repository.changesets)

    def test_a_pool_that_was_idle(self):
        ending = self.special_stand_in(idle_seconds=0.2, lanes=1)
        with Pool(Server(ending.url), 3) as pool:
            for _ in range(3):
                found = [pool.ask(lambda server: server.log(0).total) for _ in range(6)]
                self.assertEqual([one.result(20) for one in found], [0] * 6)
                time.sleep(0.5)


class Ending(Case):
    """A pool ends while its connections are at work. Nothing is told of that."""

    def setUp(self) -> None:
        super().setUp()
        self.faults: list[object] = []
        enter(self, mock.patch.object(threading, "excepthook", self.faults.append))

    def assert_ended(self, pool: Pool) -> None:
        for thread in pool.threads:
            thread.join(10)
            self.assertFalse(thread.is_alive())
        self.assertEqual(self.faults, [])
        self.assertEqual([one.connection.sock for one in pool.servers], [None] * len(pool.servers))

    def test_while_a_connection_is_looked_at(self):
        looks, ended = threading.Event(), threading.Event()
        has_ended = server.has_ended

        def look(link: socket.socket | None) -> bool:
            looks.set()
            ended.wait(10)
            return has_ended(link)

        with Pool(Server(self.server), 1) as pool, mock.patch.object(server, "has_ended", look):
            pool.ask(lambda one: one.log(0))
            self.assertTrue(looks.wait(10))
        with mock.patch.object(server, "has_ended", look):
            ended.set()
            self.assert_ended(pool)

    def test_while_connections_wait_for_a_lane(self):
        """The lane is free at once, and not when the thread that had it comes to its end."""
        narrow = self.special(lanes=1)
        ended, working = threading.Event(), []

        def call(_: Server) -> None:
            working.append(threading.current_thread())
            ended.wait(20)

        with Pool(Server(narrow.url), 3) as pool:
            pool.ask(call)
            while not working:
                time.sleep(0.01)
        for thread in pool.threads:
            if thread not in working:
                thread.join(10)
                self.assertFalse(thread.is_alive())
        ended.set()
        self.assert_ended(pool)
        self.assertEqual(Server(narrow.url).log(0).total, 0)


class Told(Case):
    """What is told while something takes long."""

    def slow(self) -> StandIn:
        """A stand-in whose manifests take a moment."""
        slow = self.special_stand_in()
        slow.service.turn = nullcontext()
        fsnode = slow.service.fsnode
        slow.service.fsnode = lambda *words: time.sleep(0.5) or fsnode(*words)
        jarrah("init", "main", server=slow.url)
        return slow

    def test_deriving(self):
        slow = self.slow()
        enter(self, mock.patch.object(server, "TOLD_AFTER_SECONDS", 0.1))
        ran = jarrah("ls", "main", server=slow.url)
        self.assertEqual((ran.status, ran.out), (0, ""))
        self.assertRegex(ran.err, r"\A(jarrah: deriving, \d+ s\n)+\Z")
        self.assertEqual(jarrah("log", "main", server=slow.url).err, "")

    def test_a_timeout(self):
        slow = self.slow()
        ran = jarrah("--timeout", "0.2", "ls", "main", server=slow.url)
        self.assertEqual(ran.status, 1)
        self.assertIn("it took longer than 0.2 seconds", ran.complaint)
        for words in ("0", "x", "-1"):
            self.assertEqual(jarrah("--timeout", words, "log", "x", server=slow.url).status, 2)

    def test_one_line_for_many_connections(self):
        out = io.StringIO()
        with redirect_stderr(out):
            told = progress.Waiting()
            for _ in range(4):
                told.tell("deriving", 1.0)
        self.assertEqual(out.getvalue(), "jarrah: deriving, 1 s\n")

    def test_progress_off_a_terminal(self):
        out = io.StringIO()
        with Progress("files", 4, out) as bar:
            bar.step()
            self.assertEqual(out.getvalue(), "")
            bar.written -= 5
            bar.step()
            bar.step()
        self.assertRegex(out.getvalue(), r"\A2/4 files  [\d,]+/s  \d:\d\d left\n\Z")

    def test_a_part_of_a_step(self):
        out = io.StringIO()
        out.isatty = lambda: True
        bar = Progress("commits", 2, out)
        bar.step()
        begun = bar.line()
        bar.part = 0.5
        moved = bar.line()
        self.assertEqual((begun.count("#"), moved.count("#")), (14, 21))
        self.assertIn("1/2 commits", moved)
        bar.step()
        self.assertEqual((bar.part, bar.line().count("#")), (0.0, 28))

    def test_the_version(self):
        ran = jarrah_process("--version")
        self.assertEqual((ran.status, ran.out), (0, f"jarrah {VERSION}\n"))


class Follow(Case):
    """`entries --follow` over restarts."""

    def follow(self, url: str, *words: str) -> subprocess.Popen:
        """The command, with quick polls, in a process of its own."""
        code = "import sys; from jarrah_client.commands import reading;"
        code += "from jarrah_client.cli import main; reading.FOLLOW_SECONDS = 0.1;"
        code += "sys.exit(main(sys.argv[1:]))"
        process = subprocess.Popen(
            [sys.executable, "-c", code, "--server", url, "entries", "--follow", *words],
            stdout=subprocess.PIPE,
            stderr=subprocess.PIPE,
            env=ENVIRONMENT | {"PYTHONPATH": str(PROGRAM.parent)},
        )
        self.addCleanup(process.communicate)
        self.addCleanup(process.kill)
        return process

    def test_a_restart(self):
        first = self.special_stand_in()
        process = self.follow(first.url)
        jarrah("init", "main", server=first.url)
        lines = [process.stdout.readline() for _ in range(2)]
        self.assertIn(b"  changeset  ", lines[0])
        port = first.server_address[1]
        first.shutdown()
        first.server_close()
        self.assertIn(b"waiting for it", process.stderr.readline())
        second = StandIn(port)
        second.repository, second.service.repository = first.repository, first.repository
        with second:
            jarrah("init", "other", server=second.url)
            self.assertIn(b"  other  none -> ", process.stdout.readline())
        self.assertIsNone(process.poll())

    def test_another_repository(self):
        first = self.special_stand_in()
        jarrah("init", "main", server=first.url)
        process = self.follow(first.url)
        process.stdout.readline(), process.stdout.readline()
        first.service.repository = type(first.repository)()
        self.assertIn(b"another repository", process.stderr.readline())
        self.assertEqual(process.wait(20), 1)

    def test_no_connection_between_polls(self):
        served = self.special_stand_in()
        made, held = [], []
        begin = Server.__init__

        def make(one: Server, *words: object) -> None:
            made.append(one)
            begin(one, *words)

        def sleep(_: float) -> None:
            held.append([one.connection.sock for one in made])
            raise KeyboardInterrupt

        with (
            mock.patch.object(Server, "__init__", make),
            mock.patch.object(reading.time, "sleep", sleep),
        ):
            ran = jarrah("entries", "--follow", server=served.url)
        self.assertEqual((ran.status, held), (130, [[None]]))
