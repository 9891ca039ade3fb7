"""Many reads on their way over one connection."""

from __future__ import annotations

import socket
import threading
import unittest
from collections.abc import Callable, Iterator
from unittest import mock

from jarrah_client.formats.changesets import File
from jarrah_client.formats.fields import digest
from jarrah_client.net import pipeline, server
from jarrah_client.net.pipeline import MORE_AT, answers, contents, fsnodes
from jarrah_client.net.server import BadAnswer, NotReached, Server
from jarrah_client.refusals import Refused

from ..harness import Case, enter

CONTENTS = [b"content %d\n" % number * (number % 50) for number in range(300)]
IDS = [digest(data) for data in CONTENTS]
FILES = [File(id, len(data)) for id, data in zip(IDS, CONTENTS)]
KNOWN = dict(zip(IDS, CONTENTS))

Serve = Callable[["Scripted", socket.socket, Iterator[str]], None]


class Scripted:
    """A server that does with each connection what it is told, and counts them."""

    def __init__(self, serve: Serve):
        self.listener = socket.create_server(("127.0.0.1", 0))
        self.url = f"http://127.0.0.1:{self.listener.getsockname()[1]}"
        self.serve = serve
        self.connections = 0
        self.asked: list[str] = []
        self.thread = threading.Thread(target=self.accept, daemon=True)
        self.thread.start()

    def accept(self) -> None:
        while True:
            try:
                link, _ = self.listener.accept()
            except OSError:
                return
            self.connections += 1
            with link, link.makefile("rb") as stream:
                try:
                    self.serve(self, link, self.targets(stream))
                except OSError:
                    pass

    def targets(self, stream) -> Iterator[str]:
        """What is asked for."""
        while line := stream.readline():
            while stream.readline() not in (b"\r\n", b""):
                pass
            self.asked.append(line.split()[1].decode())
            yield self.asked[-1]

    def close(self) -> None:
        self.listener.shutdown(socket.SHUT_RDWR)
        self.thread.join()
        self.listener.close()


def answer(target: str, *headers: str) -> bytes:
    """The answer that has a content."""
    data = KNOWN[target.rpartition("/")[2]]
    lines = ["HTTP/1.1 200 OK", f"Content-Length: {len(data)}", *headers, "", ""]
    return "\r\n".join(lines).encode() + data


class Broken(unittest.TestCase):
    """Connections that end, and what stands between."""

    def setUp(self) -> None:
        enter(self, mock.patch.object(server, "AGAIN_SECONDS", (0.0, 0.0, 0.0)))
        enter(self, mock.patch.object(pipeline, "AGAIN_SECONDS", (0.0, 0.0, 0.0)))

    def scripted(self, serve: Serve) -> Scripted:
        found = Scripted(serve)
        self.addCleanup(found.close)
        return found

    def read(self, scripted: Scripted) -> list[bytes]:
        one = Server(scripted.url, 10)
        self.addCleanup(one.close)
        return list(contents(one, FILES))

    def test_none_waits_for_the_answer_before(self):
        def serve(_: Scripted, link: socket.socket, targets: Iterator[str]) -> None:
            first = [next(targets) for _ in range(MORE_AT)]
            for target in first:
                link.sendall(answer(target))
            for target in targets:
                link.sendall(answer(target))

        scripted = self.scripted(serve)
        self.assertEqual(self.read(scripted), CONTENTS)
        self.assertEqual((scripted.connections, len(scripted.asked)), (1, len(CONTENTS)))

    def test_a_connection_that_breaks(self):
        cuts = iter((0, 1, 60, 61, 170, 200))

        def serve(_: Scripted, link: socket.socket, targets: Iterator[str]) -> None:
            left = next(cuts, 1_000)
            for target in targets:
                data = answer(target)
                if left == 0:
                    link.sendall(data[: len(data) // 2])
                    return
                link.sendall(data)
                left -= 1

        scripted = self.scripted(serve)
        self.assertEqual(self.read(scripted), CONTENTS)
        self.assertGreater(scripted.connections, 4)

    def test_one_that_breaks_each_time(self):
        scripted = self.scripted(lambda _, link, targets: next(targets) and None)
        with self.assertRaisesRegex(NotReached, "broke off|no answer"):
            self.read(scripted)
        self.assertEqual(scripted.connections, 4)

    def test_one_that_is_ended_after_each_answer(self):
        def serve(_: Scripted, link: socket.socket, targets: Iterator[str]) -> None:
            link.sendall(answer(next(targets), "Connection: close"))
            link.shutdown(socket.SHUT_WR)
            for _ in targets:
                pass

        scripted = self.scripted(serve)
        self.assertEqual(self.read(scripted), CONTENTS)
        self.assertEqual(scripted.connections, len(CONTENTS))

    def test_one_that_is_ended_after_a_hundred(self):
        def serve(_: Scripted, link: socket.socket, targets: Iterator[str]) -> None:
            for number, target in zip(range(100), targets):
                link.sendall(answer(target, *["Connection: close"] * (number == 99)))
            link.shutdown(socket.SHUT_WR)
            for _ in targets:
                pass

        scripted = self.scripted(serve)
        self.assertEqual(self.read(scripted), CONTENTS)
        self.assertEqual(scripted.connections, 3)

    def test_answers_without_a_length(self):
        def serve(_: Scripted, link: socket.socket, targets: Iterator[str]) -> None:
            for target in targets:
                data = KNOWN[target.rpartition("/")[2]]
                chunk = b"%x\r\n%b\r\n" % (len(data), data) if data else b""
                head = b"HTTP/1.1 200 OK\r\nTransfer-Encoding: chunked\r\n\r\n"
                link.sendall(head + chunk + b"0\r\n\r\n")

        scripted = self.scripted(serve)
        self.assertEqual(self.read(scripted), CONTENTS)
        self.assertEqual(scripted.connections, 2)

    def test_other_bytes(self):
        def serve(_: Scripted, link: socket.socket, targets: Iterator[str]) -> None:
            for target in targets:
                link.sendall(answer(target).replace(b"content 7\n", b"content 8\n"))

        with self.assertRaisesRegex(BadAnswer, f"other bytes than those of the content {IDS[7]}"):
            self.read(self.scripted(serve))

    def test_what_is_no_answer(self):
        for said in (b"SMTP ready\r\n\r\n", b"HTTP/1.1 OK\r\n\r\n"):
            scripted = self.scripted(lambda _, link, targets: link.sendall(said))
            with self.assertRaises((BadAnswer, NotReached)):
                self.read(scripted)


class OfServer(Case):
    """What a server answers."""

    def setUp(self) -> None:
        super().setUp()
        self.to = Server(self.server)
        self.addCleanup(self.to.close)

    def test_contents(self):
        for id, data in KNOWN.items():
            self.to.put_content(id, data)
        self.assertEqual(list(contents(self.to, FILES)), CONTENTS)
        link = self.to.connection.sock
        self.assertEqual(list(contents(self.to, FILES[:3])), CONTENTS[:3])
        self.assertEqual(self.to.content(IDS[5]), CONTENTS[5])
        self.assertIs(self.to.connection.sock, link)

    def test_a_refusal(self):
        self.to.put_content(IDS[1], CONTENTS[1])
        absent = File(digest(b"nobody has this"), 15)
        found = contents(self.to, [FILES[1], absent, FILES[1]])
        self.assertEqual(next(found), CONTENTS[1])
        with self.assertRaises(Refused) as caught:
            next(found)
        self.assertEqual(caught.exception.code, "no-content")
        self.assertEqual(list(contents(self.to, [FILES[1]] * 2)), [CONTENTS[1]] * 2)

    def test_long_targets(self):
        self.needs_manifests()
        self.ok("init", "long")
        path = "/".join(["é" * 120] * 8)
        self.ok("commit", "long", "-m", "Long", "--set", f"{path}={self.write('abc')}")
        head = self.ask("bookmark", "long")["head"]
        directory = path.rpartition("/")[0]
        found = list(fsnodes(self.to, head, [directory] * 40 + [""]))
        self.assertEqual([len(one.entries) for one in found], [1] * 41)
        with self.assertRaises(Refused):
            list(answers(self.to, ["/no/such/route", f"/fsnode/{head}"]))
