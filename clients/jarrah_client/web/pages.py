"""The local server of the page and of the JSON routes."""

from __future__ import annotations

import json
import sys
from collections.abc import Sequence
from dataclasses import replace
from http.server import BaseHTTPRequestHandler, ThreadingHTTPServer
from pathlib import Path
from typing import Any
from urllib.parse import urlsplit

from ..formats.changesets import CannotSpell, SelfConflict
from ..formats.fields import BadEncoding
from ..net.server import BadAnswer, NotReached, Server, Trouble
from ..refusals import Fault, Refused
from ..terminal.output import Output, clean
from .archives import TAR
from .events import TooMany
from .library import BadQuestion, Library
from .routes import JSON, OCTETS, OPENAPI, answered, found, health
from .streams import Chunked, Streamed

HOST = "127.0.0.1"
FOLDER = Path(__file__).parent
SCRIPTS = (
    "make.js",
    "lists.js",
    "diff.js",
    "sides.js",
    "files.js",
    "views.js",
    "review.js",
    "keys.js",
    "show.js",
)
IDLE_SECONDS = 60
MOST_BODY_BYTES = 128 << 20
POLICY = (
    "default-src 'none'; script-src 'unsafe-inline'; style-src 'unsafe-inline';"
    " connect-src 'self'; img-src 'self' data:; base-uri 'none'; form-action 'none';"
    " frame-ancestors 'none'"
)
BARE_POLICY = "default-src 'none'; style-src 'unsafe-inline'; sandbox"
"""For files of a tree: what is in them isn't the page's, also where a browser shows it."""


class Forbidden(Fault):
    """A request that this program doesn't take from where it comes."""


class Handler(BaseHTTPRequestHandler):
    """Serves the page and the answers to its own names alone."""

    protocol_version = "HTTP/1.1"
    timeout = IDLE_SECONDS
    server: Pages

    def do_GET(self) -> None:
        self.reply_to("GET", b"")

    do_HEAD = do_GET

    def do_POST(self) -> None:
        length = self.headers.get("Content-Length", "")
        if not length.isdigit() or int(length) > MOST_BODY_BYTES:
            self.close_connection = True
            self.fail(413 if length.isdigit() else 411, "the body has no length, or is too long")
            return
        self.reply_to("POST", self.rfile.read(int(length)))

    def reply_to(self, method: str, body: bytes) -> None:
        """Answers a request, or tells why not."""
        try:
            self.need_own_name(method)
            self.route(method, body)
        except Forbidden as fault:
            self.fail(403, str(fault))
        except BadQuestion as fault:
            self.fail(400, str(fault))
        except TooMany as fault:
            self.fail(503, str(fault))
        except Refused as refusal:
            members: dict[str, object] = {"code": refusal.code, **refusal.members}
            self.fail(refusal.status, str(refusal), members)
        except (CannotSpell, SelfConflict) as fault:
            self.fail(422, str(fault))
        except (NotReached, BadAnswer, BadEncoding) as fault:
            self.fail(502, str(fault))
        except Trouble as fault:
            self.fail(404 if method == "GET" else 422, str(fault))

    def need_own_name(self, method: str) -> None:
        """Refuses other hosts' names, and changes that a page of another host asks for."""
        if not self.server.is_own(self.headers.get("Host", "")):
            raise Forbidden("another host: `--host NAME` allows a proxy's")
        if method != "POST":
            return
        if not self.server.writes:
            raise Forbidden("this program only reads: `jarrah gateway` takes changes too")
        origin = self.headers.get("Origin")
        if origin and not self.server.is_own(urlsplit(origin).netloc):
            raise Forbidden("a page of another host asks for a change")
        if self.headers.get_content_type() != JSON and int(self.headers["Content-Length"]):
            raise Forbidden(f"the body has to be {JSON}")

    def route(self, method: str, body: bytes) -> None:
        """Answers by the routes."""
        path = urlsplit(self.path).path
        if method == "GET" and path == "/":
            self.reply(200, "text/html; charset=utf-8", page())
        elif method == "GET" and path == "/health":
            self.tell_health()
        elif method == "GET" and path == "/openapi.json":
            self.reply(200, JSON, OPENAPI.read_bytes())
        elif known := found(method, self.path):
            asked, question = known
            question = replace(question, last_event=self.last_event())
            with self.server.library.connected() as visit:
                self.give(answered(visit, asked, question, body))
        else:
            other = found("POST" if method == "GET" else "GET", self.path)
            self.fail(405 if other else 404, "no such page")

    def last_event(self) -> int | None:
        """The number that a listener says who comes again."""
        text = self.headers.get("Last-Event-ID", "")
        return int(text) if text.isascii() and text.isdigit() and len(text) < 20 else None

    def give(self, answer: Any) -> None:
        """Writes an answer: what is streamed, bytes with their type, or a document."""
        if isinstance(answer, Streamed):
            self.stream(answer)
        elif isinstance(answer, tuple):
            self.reply(200, answer[1], answer[0])
        else:
            self.reply_json(200, answer)

    def stream(self, answer: Streamed) -> None:
        """Writes an answer as it comes. Behind its head a fault cuts it off."""
        in_chunks = self.request_version != "HTTP/1.0"
        self.close_connection = self.close_connection or not in_chunks
        headers = {"Transfer-Encoding": "chunked"} if in_chunks else {"Connection": "close"}
        self.begin(200, answer.kind, headers)
        if self.command == "HEAD":
            return
        out = Chunked(self.wfile, in_chunks)
        try:
            answer.write(out)
            out.end()
        except (Fault, SelfConflict, BadEncoding) as fault:
            self.close_connection = True
            print(f"jarrah: {clean(str(fault))}: {self.path} was cut off", file=sys.stderr)

    def tell_health(self) -> None:
        """Whether the server behind answers."""
        try:
            self.reply_json(200, health(self.server.library))
        except Fault as fault:
            self.reply_json(503, {"status": "down", "error": str(fault)})

    def fail(self, status: int, words: str, members: dict[str, Any] | None = None) -> None:
        """Tells why there is no answer."""
        self.reply_json(status, {"error": words, **(members or {})})

    def reply_json(self, status: int, document: Any) -> None:
        data = json.dumps(document, ensure_ascii=False).encode()
        self.reply(status, JSON, data)

    def reply(self, status: int, kind: str, data: bytes) -> None:
        """Writes a response."""
        self.begin(status, kind, {"Content-Length": str(len(data))})
        if self.command != "HEAD":
            self.wfile.write(data)

    def begin(self, status: int, kind: str, headers: dict[str, str]) -> None:
        """Writes the head of a response."""
        is_file = kind.startswith("image/") or kind in (OCTETS, TAR)
        self.send_response(status)
        self.send_header("Content-Type", kind)
        for name, value in headers.items():
            self.send_header(name, value)
        self.send_header("Content-Security-Policy", BARE_POLICY if is_file else POLICY)
        self.send_header("X-Content-Type-Options", "nosniff")
        self.send_header("Referrer-Policy", "same-origin")
        self.send_header("Cache-Control", "no-store")
        self.end_headers()

    def log_message(self, format: str, *words: Any) -> None:
        """Keeps quiet."""


class Pages(ThreadingHTTPServer):
    """The local server; other names than this machine's own are a proxy's."""

    daemon_threads = True

    def __init__(self, library: Library, port: int, names: list[str], writes: bool):
        super().__init__((HOST, port), Handler)
        self.library = library
        self.writes = writes
        self.port = self.server_address[1]
        self.own = {f"{HOST}:{self.port}", f"localhost:{self.port}"}
        self.names = {name.lower() for name in names}
        self.url = f"http://{HOST}:{self.port}/"

    def is_own(self, host: str) -> bool:
        """Whether a host's name, with or without a port, is this program's or its proxy's."""
        return host.lower() in self.own or host.lower().partition(":")[0] in self.names

    def handle_error(self, request: Any, client_address: Any) -> None:
        """Keeps quiet of a browser that went away."""
        if not isinstance(sys.exc_info()[1], (ConnectionError, TimeoutError)):
            super().handle_error(request, client_address)


def page() -> bytes:
    """The page: one file of HTML, with its style and its script in it."""
    style = (FOLDER / "style.css").read_text(encoding="utf-8")
    script = "\n".join((FOLDER / name).read_text(encoding="utf-8") for name in SCRIPTS)
    text = (FOLDER / "page.html").read_text(encoding="utf-8")
    return text.replace("/* style */", style).replace("/* script */", script).encode()


def serve(
    server: Server,
    port: int,
    fold: bool,
    names: list[str],
    writes: bool,
    out: Output,
    folders: Sequence[Path] = (),
) -> None:
    """Serves until it is interrupted; the drafts of some working copies are told too."""
    server.log(0)
    server.close()
    try:
        pages = Pages(Library(server, fold, folders), port, names, writes)
    except OSError as fault:
        raise Trouble(f"port {port} of {HOST} can't be had: {fault.strerror}") from None
    out.tell({"url": pages.url}, f"look at {pages.url}  (Ctrl-C ends it)")
    with pages:
        pages.serve_forever()
