"""The stand-in on a socket: requests cut, routed and answered by the documents' rules."""

from __future__ import annotations

import json
import re
import socket
import socketserver
import threading
from collections.abc import Callable
from contextlib import nullcontext
from dataclasses import dataclass
from http.server import ThreadingHTTPServer
from urllib.parse import unquote_to_bytes

from .policy import NOBODY
from .repository import Repository
from .spelling import MOST, Refusal, is_name, listed, name_place, path_place

MOST_HEAD = 16_384
MOST_HEADERS = 64
REASONS = {
    200: "OK",
    400: "Bad Request",
    403: "Forbidden",
    404: "Not Found",
    405: "Method Not Allowed",
    409: "Conflict",
    411: "Length Required",
    413: "Content Too Large",
    422: "Unprocessable Content",
    431: "Request Header Fields Too Large",
    501: "Not Implemented",
    503: "Service Unavailable",
    507: "Insufficient Storage",
}
REQUEST_LINE = re.compile(rb"([!#$%&'*+.^_`|~0-9A-Za-z-]+) ([!-~\x80-\xff]+) HTTP/1\.([01])")
HEAD_END = re.compile(rb"(\r?\n){1,2}\Z")
HEADER = re.compile(rb"([!#$%&'*+.^_`|~0-9A-Za-z-]+):[ \t]*([\t -~\x80-\xff]*?)[ \t]*")
ROUTES = [
    (r"/content", "PUT", "put_content"),
    (r"/content/([^/]+)", "GET", "content"),
    (r"/changeset", "PUT", "put_changeset"),
    (r"/changeset/([^/]+)", "GET", "changeset"),
    (r"/changesets", "PUT", "put_changesets"),
    (r"/copies/([^/]+)", "GET", "copies"),
    (r"/bookmark/([^/]+)/([^/]+)/([^/]+)", "PUT", "set_bookmark"),
    (r"/bookmark/([^/]+)", "GET", "head"),
    (r"/land/([^/]+)/([^/]+)", "POST", "land"),
    (r"/stack/([^/]+)", "POST", "land_stack"),
    (r"/log/([^/]+)", "GET", "log"),
    (r"/fsnode/([^/]+)(?:/(.+))?", "GET", "fsnode"),
    (r"/unode/([^/]+)(?:/(.+))?", "GET", "unode"),
    (r"/history/([^/]+)/(.+)", "GET", "history"),
    (r"/deleted/([^/]+)(?:/(.+))?", "GET", "deleted"),
    (r"/pathlog/([^/]+)/(.+)", "GET", "path_log"),
    (r"/policy/([^/]+)", "GET", "policy"),
    (r"/policy", "GET", "policy"),
    (r"/policy", "PUT", "set_policy"),
    (r"/whole", "PUT", "put_whole"),
]
LATER_ROUTES = ("fsnode", "unode", "history", "deleted", "path_log")
"""The routes of manifests."""

LIST_ROUTES = ("put_changesets", "land_stack")
"""The routes that take a list of changesets, which an older server doesn't have."""
SIZED = ("put_content", "put_changeset", "put_whole", "set_policy")
BODIES = (*SIZED, *LIST_ROUTES)
STORES = tuple(pattern for pattern, method, call in ROUTES if call in SIZED)
"""The targets of which a body's length has to be told."""
BY_CALLERS = ("land", "land_stack", "set_bookmark", "set_policy")
BYTES = ("content", "changeset", "fsnode", "unode", "deleted", "policy")
JSON, OCTETS = "application/json", "application/octet-stream"


@dataclass(frozen=True)
class Answer:
    """What a response says: its status and body, the body's type, and the route's methods."""

    status: int
    body: bytes
    kind: str = JSON
    allow: str = ""


def text_of(data: bytes) -> str:
    try:
        return data.decode()
    except UnicodeDecodeError:
        raise Refusal(400, "bad-head") from None


class Head:
    """A request's head: its method, target, version and what its headers ask for."""

    def __init__(self, data: bytes):
        lines = re.split(rb"\r?\n", HEAD_END.sub(b"", data))
        request = REQUEST_LINE.fullmatch(lines[0])
        headers = [HEADER.fullmatch(line) for line in lines[1:]]
        if request is None or None in headers:
            raise Refusal(400, "bad-head")
        if len(headers) > MOST_HEADERS:
            raise Refusal(431, "too-many-headers")
        self.method = request[1].decode()
        self.target = text_of(request[2]).partition("?")[0]
        self.headers = [(h[1].lower(), h[2]) for h in headers]
        self.closes = request[3] == b"0" or b"close" in self.elements(b"connection")
        self.length = self.read_length()

    def elements(self, name: bytes) -> list[bytes]:
        values = b",".join(value for known, value in self.headers if known == name)
        return [element.strip(b" \t").lower() for element in values.split(b",")]

    def read_length(self) -> int:
        if any(name == b"transfer-encoding" for name, _ in self.headers):
            raise Refusal(501, "transfer-encoding")
        lengths = [value for name, value in self.headers if name == b"content-length"]
        if len(lengths) > 1 or (lengths and not lengths[0].isdigit()):
            raise Refusal(400, "bad-length")
        if not lengths and self.method == "PUT" and self.target in STORES:
            raise Refusal(411, "no-length")
        length = int(lengths[0]) if lengths else 0
        if length > MOST:
            raise Refusal(413, "body-too-large")
        return length

    def caller(self) -> str:
        """Who asks, by the one `Caller` header."""
        names = [value for name, value in self.headers if name == b"caller"]
        if len(names) > 1 or (names and not is_name(names[0])):
            raise Refusal(400, "bad-caller")
        return names[0].decode() if names else NOBODY


def id_of(data: bytes) -> str:
    fault = next(
        (at for at, byte in enumerate(data[:64]) if byte not in b"0123456789abcdefABCDEF"), None
    )
    if fault is None and len(data) != 64:
        fault = min(len(data), 64)
    if fault is not None:
        raise Refusal(400, "bad-id", place=fault)
    return data.decode().lower()


def name_of(data: bytes) -> str:
    fault = name_place(data)
    if fault is not None:
        raise Refusal(400, "bad-name", place=fault)
    return data.decode()


def optional_id(data: bytes) -> str | None:
    return None if data == b"none" else id_of(data)


def number_of(data: bytes) -> int:
    if not re.fullmatch(rb"[0-9]{1,19}", data):
        raise Refusal(400, "bad-number")
    return int(data)


def path_of(data: bytes) -> str:
    place = path_place(data)
    if place is not None:
        raise Refusal(400, "bad-path", place=place)
    return data.decode()


PARAMETERS: dict[str, list[tuple[str, Callable]]] = {
    "content": [("bad-id", id_of)],
    "changeset": [("bad-id", id_of)],
    "copies": [("bad-id", id_of)],
    "set_bookmark": [("bad-name", name_of), ("bad-id", optional_id), ("bad-id", optional_id)],
    "head": [("bad-name", name_of)],
    "land": [("bad-name", name_of), ("bad-id", id_of)],
    "land_stack": [("bad-name", name_of)],
    "log": [("bad-number", number_of)],
    "fsnode": [("bad-id", id_of), ("bad-path", path_of)],
    "unode": [("bad-id", id_of), ("bad-path", path_of)],
    "history": [("bad-id", id_of), ("bad-path", path_of)],
    "deleted": [("bad-id", id_of), ("bad-path", path_of)],
    "path_log": [("bad-id", id_of), ("bad-path", path_of)],
    "policy": [("bad-number", number_of)],
}


def parameters(call: str, texts: list[str]) -> list:
    """A route's parameters, decoded and read from left to right."""
    found = []
    for text, (code, read) in zip(texts, PARAMETERS.get(call, [])):
        data = unquote_to_bytes(text)
        try:
            data.decode()
        except UnicodeDecodeError:
            members = {} if code == "bad-number" else {"place": 0}
            raise Refusal(400, code, **members) from None
        found.append(read(data))
    return found


def body(code: str, members: dict) -> bytes:
    """A JSON body: its code, then the other members by rising names."""
    document = {"code": code, **{name: members[name] for name in sorted(members)}}
    for entry in document.get("entries", []):
        assert list(entry) == sorted(entry)
    return json.dumps(document, separators=(",", ":"), ensure_ascii=False).encode()


def told(refusal: Refusal) -> bytes:
    """A refusal's body; its place in a list comes behind the other members."""
    plain = body(refusal.code, refusal.members)
    return plain if refusal.at is None else plain[:-1] + b',"at":%d}' % refusal.at


class Service:
    """Answers requests of one repository, one at a time."""

    def __init__(self, repository: Repository, lacks: tuple[str, ...] = ()):
        self.repository = repository
        self.turn = threading.Lock()
        self.routes = [
            (re.compile(pattern, re.DOTALL), method, call)
            for pattern, method, call in ROUTES
            if call not in lacks
        ]

    def answer(self, head: Head, data: bytes) -> Answer:
        """The answer to a request."""
        try:
            return self.routed(head, data)
        except Refusal as refusal:
            allow = refusal.members.pop("allow", "")
            return Answer(refusal.status, told(refusal), allow=allow)

    def routed(self, head: Head, data: bytes) -> Answer:
        if not head.target.startswith("/"):
            raise Refusal(400, "bad-target")
        found = {
            method: (call, match)
            for pattern, method, call in reversed(self.routes)
            if (match := pattern.fullmatch(head.target))
        }
        if not found:
            raise Refusal(404, "no-route")
        if head.method not in found:
            raise Refusal(405, "method", allow=", ".join(sorted(found)))
        call, match = found[head.method]
        words = parameters(call, [text for text in match.groups() if text is not None])
        if call in BY_CALLERS:
            words.insert(0, head.caller())
        if call in BODIES:
            words.append(data)
        with self.turn:
            return Answer(200, getattr(self, call)(*words), OCTETS if call in BYTES else JSON)

    def put_content(self, data: bytes) -> bytes:
        return body("content", {"id": self.repository.put_content(data), "size": len(data)})

    def content(self, id: str) -> bytes:
        return self.repository.content(id)

    def put_changeset(self, data: bytes) -> bytes:
        return body("changeset", {"id": self.repository.put_changeset(data)})

    def put_changesets(self, data: bytes) -> bytes:
        ids = self.repository.put_changesets(listed(data))
        return body("changeset", {"id": ids[-1]})

    def changeset(self, id: str) -> bytes:
        return self.repository.changeset(id).data

    def copies(self, id: str) -> bytes:
        return body("copies", {"copies": self.repository.copies(id)})

    def put_whole(self, data: bytes) -> bytes:
        id = self.repository.put_whole(data)
        return body("whole", {"id": id, "size": len(self.repository.content(id))})

    def set_policy(self, caller: str, text: bytes) -> bytes:
        return body("policy", {"number": self.repository.set_policy(caller, text)})

    def policy(self, number: int | None = None) -> bytes:
        return self.repository.policy(number)

    def set_bookmark(self, caller: str, name: str, old: str | None, new: str | None) -> bytes:
        head = self.repository.set_bookmark(name, old, new, caller)
        return body("bookmark", {"head": head, "name": name})

    def head(self, name: str) -> bytes:
        return body("bookmark", {"head": self.repository.head(name), "name": name})

    def land(self, caller: str, name: str, id: str) -> bytes:
        return body("landed", self.repository.land(name, id, caller))

    def land_stack(self, caller: str, name: str, data: bytes) -> bytes:
        return body("landed", self.repository.land_stack(name, listed(data), caller))

    def log(self, start: int) -> bytes:
        page = self.repository.log(start)
        page["entries"] = [dict(sorted(entry.items())) for entry in page["entries"]]
        return body("log", page)

    def fsnode(self, id: str, path: str = "") -> bytes:
        return self.repository.manifests.fsnode(id, path)

    def unode(self, id: str, path: str = "") -> bytes:
        return self.repository.manifests.unode(id, path)

    def history(self, id: str, path: str) -> bytes:
        return body("history", {"ids": self.repository.manifests.history(id, path)})

    def deleted(self, id: str, path: str = "") -> bytes:
        return self.repository.manifests.deleted(id, path)

    def path_log(self, id: str, path: str) -> bytes:
        return body("path-log", {"ids": self.repository.manifests.path_log(id, path)})


class Session(socketserver.StreamRequestHandler):
    """One connection: requests one after another until it ends."""

    disable_nagle_algorithm = True
    server: StandIn

    def setup(self) -> None:
        self.timeout = self.server.idle_seconds
        super().setup()

    def handle(self) -> None:
        with self.server.lanes:
            try:
                while self.serve_one():
                    pass
            except (ConnectionError, TimeoutError):
                return

    def serve_one(self) -> bool:
        """Answers one request, and tells whether the session goes on."""
        try:
            data = self.read_head()
            if data is None:
                return False
            head = Head(data)
        except Refusal as refusal:
            closing = Answer(refusal.status, body(refusal.code, {}))
            self.respond(closing, closes=True, head_only=False)
            return False
        sent = self.rfile.read(head.length)
        if len(sent) < head.length:
            return False
        answer = self.server.service.answer(head, sent)
        self.respond(answer, closes=head.closes, head_only=head.method == "HEAD")
        return not head.closes

    def read_head(self) -> bytes | None:
        """The bytes of the next head, or None at the end of the input."""
        data = b""
        while True:
            line = self.rfile.readline(MOST_HEAD + 1)
            if not line:
                return None
            if line in (b"\n", b"\r\n"):
                if data:
                    return data
                continue
            data += line
            if len(data) > MOST_HEAD - 1:
                raise Refusal(431, "head-too-large")

    def respond(self, answer: Answer, *, closes: bool, head_only: bool) -> None:
        lines = [
            f"HTTP/1.1 {answer.status} {REASONS[answer.status]}",
            f"Content-Type: {answer.kind}",
            f"Content-Length: {len(answer.body)}",
            *([f"Allow: {answer.allow}"] if answer.allow else []),
            *(["Connection: close"] if closes else []),
        ]
        head = "\r\n".join(lines) + "\r\n\r\n"
        self.wfile.write(head.encode() + (b"" if head_only else answer.body))


class StandIn(ThreadingHTTPServer):
    """The stand-in's socket, on this machine alone. At most `lanes` connections are served.

    A connection that is silent for `idle_seconds` is ended.
    """

    request_queue_size = 64
    daemon_threads = True
    block_on_close = False

    def __init__(
        self,
        port: int = 0,
        *,
        capacity: int = 34_359_738_368,
        lanes: int | None = None,
        has_manifests: bool = True,
        has_lists: bool = True,
        idle_seconds: float | None = None,
        version: int = 2,
        merges: bool = False,
    ):
        super().__init__(("127.0.0.1", port), Session)
        self.idle_seconds = idle_seconds
        self.repository = Repository(capacity, version, merges)
        lacks = (() if has_manifests else LATER_ROUTES) + (() if has_lists else LIST_ROUTES)
        self.service = Service(self.repository, lacks)
        self.lanes = threading.Semaphore(lanes) if lanes else nullcontext()
        self.url = f"http://127.0.0.1:{self.server_address[1]}"

    def __enter__(self) -> StandIn:
        threading.Thread(target=self.serve_forever, args=(0.05,), daemon=True).start()
        return self

    def __exit__(self, *_: object) -> None:
        self.shutdown()
        self.server_close()

    def handle_error(self, request: socket.socket, client_address: object) -> None:
        """Lets a test see what went wrong."""
        raise
