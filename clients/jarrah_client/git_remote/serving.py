"""The HTTP server of the remote: git's requests, and whether all is well."""

from __future__ import annotations

import json
import re
import socket
import sys
import threading
from collections.abc import Callable, Iterator
from contextlib import contextmanager
from http.server import BaseHTTPRequestHandler, ThreadingHTTPServer
from io import BufferedReader
from pathlib import Path
from typing import Any, cast
from urllib.parse import parse_qs, urlsplit

from ..formats.paths import is_bookmark_name
from ..net.server import Server
from ..refusals import Fault
from .backend import Answer, Backend, NoBackend
from .bodies import BadBody, Body, SizedBody, body_of
from .keeper import Keeper, tell
from .landing import Command, Lander, Rules
from .push_folder import PushFolders

HOST = "127.0.0.1"
IDLE_SECONDS = 120
PUSHES_AT_ONCE = 8
"""So many pushes are turned into drafts at a time; each holds some of the server's lanes."""
ENDING_SECONDS = 20.0
"""How long the end waits for pushes that are under way."""
UPLOAD, RECEIVE = "git-upload-pack", "git-receive-pack"
SERVICES = (UPLOAD, RECEIVE)
VERSION = re.compile(r"version=\d+")


class Unanswered(Fault):
    """A request that git isn't asked for, with the status that tells it."""

    def __init__(self, status: int, words: str):
        super().__init__(words)
        self.status = status


class Handler(BaseHTTPRequestHandler):
    """Answers one connection's requests."""

    protocol_version = "HTTP/1.1"
    timeout = IDLE_SECONDS
    server: Remote
    body: Body

    def do_GET(self) -> None:
        self.reply_by(self.get)

    def do_POST(self) -> None:
        self.reply_by(self.post)

    def reply_by(self, answer: Callable[[str], None]) -> None:
        """Answers a request, or tells why not."""
        self.has_begun = False
        self.body = SizedBody(cast(BufferedReader, self.rfile), 0)
        try:
            lengths: list[str] = self.headers.get_all("Content-Length", [])
            self.body = body_of(self.headers, lengths, cast(BufferedReader, self.rfile))
            self.need_own_name()
            answer(urlsplit(self.path).path)
        except Unanswered as fault:
            self.fail(fault.status, fault)
        except BadBody as fault:
            self.close_connection = True
            self.fail(400, fault)
        except (ConnectionError, TimeoutError):
            self.close_connection = True
        except ValueError as fault:
            self.fail(400, fault)
        except (Fault, OSError) as fault:
            self.fail(503, fault)
        if not self.body.is_over:
            self.close_connection = True

    def need_own_name(self) -> None:
        """Refuses other hosts' names, so that no page of another host reaches this."""
        if not self.server.is_own(self.headers.get("Host", "")):
            raise Unanswered(403, "another host: `--host NAME` allows a proxy's")

    def caller(self) -> str | None:
        """Who asks, as a proxy says; else who this was started for."""
        names: list[str] = self.headers.get_all("Caller", [])
        if len(names) > 1 or not all(map(is_bookmark_name, names)):
            raise Unanswered(400, "no caller's name: it is 1 to 128 of A-Z a-z 0-9 _ . -")
        return names[0] if names else self.server.keeper.server.caller

    def get(self, path: str) -> None:
        """Answers what a fetch or a push asks first, and whether all is well."""
        if path == "/health":
            self.tell_health()
            return
        self.need(path, "info/refs")
        asked = parse_qs(urlsplit(self.path).query).get("service", [])
        if len(asked) != 1 or asked[0] not in SERVICES:
            raise Unanswered(403, "only git's smart protocol is spoken here")
        self.caller()
        self.server.keeper.need_mirror()
        self.run(self.server.keeper.directory, "info/refs")

    def post(self, path: str) -> None:
        """Answers a fetch, or takes a push."""
        service = path.rpartition("/")[2]
        self.need(path, service if service in SERVICES else "info/refs")
        if service == UPLOAD:
            self.server.keeper.need_mirror()
            self.run(self.server.keeper.directory, service)
        elif service == RECEIVE:
            self.receive()
        else:
            raise Unanswered(405, "this is read by GET")

    def need(self, path: str, what: str) -> None:
        """Refuses what isn't of the repository."""
        if path != f"/{self.server.name}.git/{what}":
            raise Unanswered(404, f"there is /{self.server.name}.git here and nothing else")

    def receive(self) -> None:
        """Takes a push in a repository of its own, whose hook asks what becomes of it."""
        caller = self.caller()
        look = self.server.keeper.look()
        with self.server.receiving(look.refs) as folder:
            server = another_server(self.server.keeper.server, caller)
            lander = Lander(self.server.keeper, self.server.rules, server, folder, look)
            ours, theirs = socket.socketpair()
            asked = threading.Thread(target=self.answer_hook, args=(ours, lander), daemon=True)
            asked.start()
            try:
                with theirs:
                    self.run(folder, RECEIVE, theirs)
            finally:
                asked.join()
                server.close()

    def answer_hook(self, link: socket.socket, lander: Lander) -> None:
        """Answers the hook of one push, which ends without a question where git refuses it."""
        with link, link.makefile("rw", encoding="utf-8", newline="\n") as stream:
            try:
                line = stream.readline()
                if not line:
                    return
                report: list[str] = []
                for words in json.loads(line)["commands"]:
                    with self.server.places:
                        outcome = lander.outcome(Command(*words))
                    report += outcome.report
                    stream.write(json.dumps({"say": outcome.said}) + "\n")
                    stream.flush()
                stream.write(json.dumps({"report": report}) + "\n")
                stream.flush()
            except OSError:
                tell("push: nobody waits for its answer any more")

    def run(self, directory: Path, action: str, link: socket.socket | None = None) -> None:
        """Has git answer, and hands its answer on."""
        kept = (link.fileno(),) if link else ()
        backend = Backend(self.variables(directory, action, kept), self.body, kept)
        if link:
            link.close()
        try:
            self.copy(backend)
        except BaseException:
            backend.stop()
            raise
        finally:
            backend.end()
            # A push may bring what is broken itself, so only the mirror's own runs tell on it.
            if not link and backend.suspects_damage:
                tell(f"git: {backend.says()}")
                self.server.keeper.doubt()
            backend.close()

    def variables(self, directory: Path, action: str, kept: tuple[int, ...]) -> dict[str, str]:
        """What the gateway interface of git's program wants to know."""
        version = self.headers.get("Git-Protocol", "")
        return {
            "GIT_PROJECT_ROOT": str(directory.parent),
            "GIT_HTTP_EXPORT_ALL": "1",
            "PATH_INFO": f"/{directory.name}/{action}",
            "QUERY_STRING": urlsplit(self.path).query,
            "REQUEST_METHOD": self.command,
            "CONTENT_TYPE": self.headers.get("Content-Type", ""),
            "HTTP_CONTENT_ENCODING": self.headers.get("Content-Encoding", ""),
            "REMOTE_ADDR": self.client_address[0],
            "GIT_PROTOCOL": version if VERSION.fullmatch(version) else "",
            "JARRAH_PUSH": "".join(map(str, kept)),
        }

    def copy(self, backend: Backend) -> None:
        """Hands on what git answers, in chunks where the client knows them."""
        try:
            answer = backend.head()
        except NoBackend as fault:
            raise Unanswered(500, str(fault)) from None
        is_chunked = self.request_version != "HTTP/1.0"
        self.begin(answer, is_chunked)
        write = self.write_chunk if is_chunked else self.wfile.write
        backend.copy(write)
        if is_chunked:
            self.wfile.write(b"0\r\n\r\n")

    def begin(self, answer: Answer, is_chunked: bool) -> None:
        """Writes the head of git's answer."""
        self.has_begun = True
        self.send_response(answer.status)
        for name, value in answer.headers:
            if name.lower() not in ("content-length", "transfer-encoding", "connection"):
                self.send_header(name, value)
        if is_chunked:
            self.send_header("Transfer-Encoding", "chunked")
        else:
            self.close_connection = True
        self.end_headers()

    def write_chunk(self, data: bytes) -> None:
        """Writes a chunk."""
        self.wfile.write(b"%x\r\n%b\r\n" % (len(data), data))

    def tell_health(self) -> None:
        """Whether the server behind answers, and the mirror isn't behind."""
        keeper = self.server.keeper
        entries: dict[str, Any] = {"entries": keeper.log.next, "mirrored": keeper.mirrored}
        if keeper.is_well():
            self.reply(200, "application/json", json.dumps({"status": "ok", **entries}))
        else:
            told = {"status": "behind", "error": keeper.fault, **entries}
            self.reply(503, "application/json", json.dumps(told))

    def fail(self, status: int, fault: Exception) -> None:
        """Tells why there is no answer; where one has begun, the connection ends."""
        if self.has_begun:
            self.close_connection = True
            return
        self.reply(status, "text/plain; charset=utf-8", f"{fault}\n")

    def reply(self, status: int, kind: str, text: str) -> None:
        """Writes a response of its own."""
        data = text.encode()
        self.has_begun = True
        self.send_response(status)
        self.send_header("Content-Type", kind)
        self.send_header("Content-Length", str(len(data)))
        self.send_header("Cache-Control", "no-store")
        self.end_headers()
        self.wfile.write(data)

    def log_message(self, format: str, *words: Any) -> None:
        """Keeps quiet."""


class Remote(ThreadingHTTPServer):
    """The remote of one repository; other names than this machine's own are a proxy's."""

    daemon_threads = True
    request_queue_size = 128

    def __init__(self, keeper: Keeper, rules: Rules, name: str, port: int, names: list[str]):
        super().__init__((HOST, port), Handler)
        self.keeper = keeper
        self.rules = rules
        self.name = name
        self.folders = PushFolders(keeper.folder, keeper.trunk)
        self.places = threading.BoundedSemaphore(PUSHES_AT_ONCE)
        self.changed = threading.Condition()
        self.pushes = 0
        port = self.server_address[1]
        self.own = {f"{HOST}:{port}", f"localhost:{port}"}
        self.names = {name.lower() for name in names}
        self.url = f"http://{HOST}:{port}/{name}.git"

    def is_own(self, host: str) -> bool:
        """Whether a host's name, with or without a port, is this program's or its proxy's."""
        return host.lower() in self.own or host.lower().partition(":")[0] in self.names

    @contextmanager
    def receiving(self, refs: dict[str, str]) -> Iterator[Path]:
        """The repository of a push, which is counted until it is over."""
        with self.changed:
            self.pushes += 1
        try:
            with self.folders.made(refs) as folder:
                yield folder
        finally:
            with self.changed:
                self.pushes -= 1
                self.changed.notify_all()

    def finish(self) -> None:
        """Takes no more requests, and waits a while for the pushes that are under way."""
        self.shutdown()
        with self.changed:
            self.changed.wait_for(lambda: not self.pushes, ENDING_SECONDS)

    def handle_error(self, request: Any, client_address: Any) -> None:
        """Keeps quiet of a client that went away."""
        if not isinstance(sys.exc_info()[1], (ConnectionError, TimeoutError)):
            super().handle_error(request, client_address)


def another_server(server: Server, caller: str | None) -> Server:
    """A connection of its own for a caller."""
    made = server.another()
    made.caller = caller
    return made
