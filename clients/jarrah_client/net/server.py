"""A connection to a server, and its routes as calls."""

from __future__ import annotations

import http.client
import json
import select
import socket
import ssl
import time
from collections.abc import Callable, Iterator, Sequence
from contextlib import contextmanager, suppress
from dataclasses import dataclass
from typing import IO, Any, TypeVar, cast
from urllib.parse import SplitResult, quote, urlsplit

from ..formats.changesets import Changeset, CopySource, decode
from ..formats.fields import READ_BYTES, BadEncoding, digest, digest_of
from ..formats.lists import batches, encode_list, fits
from ..formats.nodes import Fsnode, Unode, decode_fsnode, decode_unode
from ..formats.policies import rule_text
from ..refusals import Fault, RefusalMembers, Refused
from ..terminal.progress import tell_waiting
from . import answers
from .answers import Entry, Shape
from .trust import NO_TRUST, Trust, Untrusted, tls_words

Members = TypeVar("Members")
Node = TypeVar("Node", Fsnode, Unode)

ANSWER_SECONDS = 90.0
MANIFEST_SECONDS = 600.0
"""An answer may take so long without a `--timeout`; a manifest may have to be derived first."""
TOLD_AFTER_SECONDS = 1.0
TOLD_AGAIN_SECONDS = 5.0
"""How long a manifest is waited for before that is told, and told again."""
IDLE_SECONDS = 8.0
"""A connection that was silent for so long is made anew: the server ends silent ones."""
AGAIN_SECONDS = (0.1, 0.4, 1.5)
"""What is waited before each further try of a request that only reads."""
PASSING = (502, 503, 504)
"""Statuses of a server, or of a proxy before it, after which a read is tried again."""
SESSION_BYTES = 1_000_000_000
"""After so many sent bytes a connection is made anew, before the server's bound ends it."""
STORES = ("/content", "/whole", "/changeset", "/changesets")
"""The targets of uploads that change nothing where they are sent a second time."""
NO_BOOKMARK = "none"
NO_ID = "0" * 64
"""An id of nothing that is known."""


class Trouble(Fault):
    """A fault that is no refusal of the server."""


class NotReached(Trouble):
    """The connection couldn't be made, or broke."""

    was_sent = False
    """Whether the request may have been read, and so what it asks for be done."""


class NoAnswer(NotReached):
    """What another try doesn't help: a host that isn't known, or an answer that takes too long."""


class BadAnswer(Trouble):
    """The server's answer isn't one that its documents have."""

    status = 200
    """The answer's status, which may be a proxy's."""


@dataclass(frozen=True)
class Landed:
    """What a landing answered: the new head, the new changesets in order, and the old head."""

    head: str
    ids: list[str]
    old: str


@dataclass
class Known:
    """What was found out about a server, for all connections to it."""

    takes_lists: bool = True
    """Whether it takes several changesets in one request; an older one says that it doesn't."""


@dataclass(frozen=True)
class Page:
    """Entries of the update log, and how many there are in all."""

    entries: list[Entry]
    total: int


class Server:
    """One connection, kept alive. What can be asked twice is tried again: reads, and uploads of
    what has its id by its bytes. Other changes never are."""

    def __init__(
        self,
        url: str,
        timeout: float | None = None,
        caller: str | None = None,
        trust: Trust = NO_TRUST,
    ):
        parts = parts_of(url)
        self.url = whole_url(url)
        self.timeout = timeout
        self.caller = caller
        self.trust = trust
        self.known = Known()
        self.unsent: dict[str, Changeset] = {}
        """Changesets that are made and are still to be stored, parents first."""
        try:
            self.connection = self.connected(parts.scheme, parts.hostname or "", parts.port)
        except ValueError as fault:
            raise Trouble(f"{url} is no URL of a server: {fault}") from None
        self.last_used = 0.0
        self.sent = 0
        self.is_cut = False
        """Whether it was ended by another thread than the one that asks."""
        self.is_sending = False
        """Whether a request may be on its way."""
        self.is_pooled = False
        """Whether a pool has what failed tried again, by whichever connection is answered."""

    def connected(self, scheme: str, host: str, port: int | None) -> http.client.HTTPConnection:
        """What connects to a host when something is asked."""
        if scheme == "http":
            return http.client.HTTPConnection(host, port)
        try:
            return http.client.HTTPSConnection(host, port, context=self.trust.context)
        except Untrusted as fault:
            raise Trouble(str(fault)) from None

    def another(self, timeout: float | None = None) -> Server:
        """A connection of its own to the same server."""
        made = Server(self.url, timeout or self.timeout, self.caller, self.trust)
        made.known = self.known
        return made

    def close(self) -> None:
        """Ends the connection; the next request makes a new one."""
        self.connection.close()
        self.sent = 0

    def cut(self) -> None:
        """Ends it for the thread that asks: what is asked now, and later, ends with NotReached.

        The socket is that thread's to close, which may be looking at it.
        """
        self.is_cut = True
        link = self.connection.sock
        if link:
            with suppress(OSError):
                socket.socket.shutdown(link, socket.SHUT_RDWR)

    def ask(
        self,
        method: str,
        target: str,
        body: bytes | None = None,
        *,
        derives: bool = False,
        out: IO[bytes] | None = None,
    ) -> bytes:
        """The body of a 200, or Refused, NotReached or BadAnswer. With `out` it goes there."""
        is_same_again = method == "GET" or target in STORES
        for seconds in AGAIN_SECONDS if is_same_again and not self.is_pooled else ():
            try:
                return self.ask_once(method, target, body, derives, out)
            except Fault as fault:
                if self.is_cut or not is_passing(fault):
                    raise
            time.sleep(seconds)
        return self.ask_once(method, target, body, derives, out)

    def ask_once(
        self, method: str, target: str, body: bytes | None, derives: bool, out: IO[bytes] | None
    ) -> bytes:
        """The same, without a second try."""
        self.refresh(len(body or b""))
        seconds = self.timeout or (MANIFEST_SECONDS if derives else ANSWER_SECONDS)
        self.is_sending = False
        try:
            response = self.exchange(method, target, body, seconds, derives)
            is_taken = out is not None and response.status == 200
            answer = take_body(response, out) if out and is_taken else response.read()
        except http.client.HTTPException as fault:
            raise self.lost(
                NotReached(f"{self.url} broke off its answer ({type(fault).__name__})")
            ) from None
        except OSError as fault:
            if is_refused(fault):
                self.is_sending = False
            is_final = isinstance(fault, (TimeoutError, socket.gaierror)) or is_refused(fault)
            kind = NoAnswer if is_final else NotReached
            words = f"no answer from {self.url}: {reason(fault, seconds)}"
            raise self.lost(kind(words)) from None
        except Trouble:
            self.close()
            raise
        self.last_used = time.monotonic()
        if response.status != 200:
            raise refused(response.status, answer)
        return answer

    def exchange(
        self, method: str, target: str, body: bytes | None, seconds: float, derives: bool
    ) -> http.client.HTTPResponse:
        """Sends a request, and reads the head of what answers it."""
        self.connection.timeout = seconds
        if self.connection.sock:
            self.connection.sock.settimeout(seconds)
        else:
            self.connection.connect()
        named = {"Caller": self.caller} if self.caller and method != "GET" else {}
        self.need_whole()
        self.is_sending = True
        self.connection.request(method, target, body=body, headers={"Accept": "*/*", **named})
        self.need_whole()
        if derives:
            wait_for_answer(self.connection.sock, "deriving", seconds)
        return self.connection.getresponse()

    def linked(self, seconds: float) -> socket.socket:
        """The connection, made where there is none, for one who sends and reads by himself."""
        self.refresh(0)
        self.need_whole()
        self.connection.timeout = seconds
        if self.connection.sock is None:
            self.connection.connect()
            self.need_whole()
        link = self.connection.sock
        assert link
        link.settimeout(seconds)
        return link

    def lost(self, fault: NotReached) -> NotReached:
        """Ends the connection after a fault, which is to tell whether something was sent."""
        self.close()
        fault.was_sent = self.is_sending
        return fault

    def need_whole(self) -> None:
        """Refuses to go on where it was cut, also while it was being made."""
        if self.is_cut:
            raise NotReached(f"the connection to {self.url} was ended")

    def refresh(self, length: int) -> None:
        """Ends a connection that the server would end, or has, before a request is on its way."""
        if self.is_stale() or self.sent + length > SESSION_BYTES:
            self.close()
        self.sent += length + 1_000

    def is_stale(self) -> bool:
        """Whether the server would end the connection soon, or has."""
        idle = time.monotonic() - self.last_used > IDLE_SECONDS
        return idle or has_ended(self.connection.sock)

    def ask_json(
        self,
        method: str,
        target: str,
        shape: Shape[Members],
        body: bytes | None = None,
        *,
        derives: bool = False,
    ) -> Members:
        """The members of a 200's JSON body, which has this shape."""
        answer = shape.of(parsed(self.ask(method, target, body, derives=derives)) or {})
        if answer is None:
            raise BadAnswer(f"{self.url} answered {method} {target} with something unknown")
        return answer

    # Contents and changesets

    def put_content(self, id: str, data: bytes) -> None:
        """Stores a content of at most 1,048,576 bytes under its id."""
        self.store(answers.CONTENT, id, data)

    def put_whole(self, id: str, pieces: Sequence[str]) -> str | None:
        """Joins stored contents to the one of this id, or gives the first that isn't stored."""
        try:
            data = bytes.fromhex("".join(pieces))
            found = self.ask_json("PUT", "/whole", answers.WHOLE, data)["id"]
        except Refused as refusal:
            if refusal.code == "no-piece" and "id" in refusal.members:
                return refusal.members["id"]
            if refusal.code == "no-route":
                refusal.advice = "an older server takes no file over 1,048,576 bytes"
            raise
        if found != id:
            raise BadAnswer(f"{self.url} joined the content {id} under another id, {found}")
        return None

    def joins(self) -> bool:
        """Whether the server joins contents: not in a repository of version 1."""
        try:
            return self.put_whole(NO_ID, [NO_ID]) is not None
        except Refused as refusal:
            if refusal.code not in ("old-format", "no-route"):
                raise
            return False

    def takes_merges(self) -> bool:
        """Whether the server stores changesets of two parents; it is asked with two of no one's."""
        asked = Changeset((NO_ID, "1" * 64), "jarrah", 0, 0, "")
        try:
            self.put_changeset(asked)
        except Refused as refusal:
            if refusal.code not in ("merge", "no-parent"):
                raise
            return refusal.code == "no-parent"
        return True

    def put_changeset(self, changeset: Changeset) -> None:
        """Stores a changeset whose parents and contents are stored.

        For one of two parents the server may have to derive the manifests of both first.
        """
        self.store(answers.CHANGESET, changeset.id, changeset.encoded, derives=changeset.is_merge)

    def put_changesets(self, changesets: Sequence[Changeset]) -> None:
        """Stores changesets, parents first, in as few requests as hold them.

        A refusal tells the place (`at`) of the one that is refused; those before it are stored.
        """
        start = 0
        for batch in batches(changesets):
            with moved_on(start):
                self.put_batch(batch)
            start += len(batch)

    def put_batch(self, batch: Sequence[Changeset]) -> None:
        """Stores what one request holds; an older server is sent one after another."""
        if len(batch) > 1 and self.known.takes_lists:
            try:
                self.put_list(batch)
                return
            except Refused as refusal:
                self.go_on_without_lists(refusal)
        for at, changeset in enumerate(batch):
            with placed(at):
                self.put_changeset(changeset)

    def put_unsent(self) -> None:
        """Stores the changesets that were kept back; what is refused is named."""
        made = list(self.unsent.values())
        try:
            self.put_changesets(made)
        except Refused as refusal:
            if "at" in refusal.members:
                refusal.about = f"changeset {made[refusal.members['at']].id}"
            raise
        self.unsent.clear()

    def put_list(self, batch: Sequence[Changeset]) -> None:
        """Stores changesets by one request, and compares the id that the server found for the
        last."""
        derives, data = any(one.is_merge for one in batch), encode_list(batch)
        shape, last = answers.CHANGESET, batch[-1].id
        found = self.ask_json("PUT", "/changesets", shape, data, derives=derives)["id"]
        if found != last:
            raise BadAnswer(f"{self.url} stored the changeset {last} under another id, {found}")

    def go_on_without_lists(self, refusal: Refused) -> None:
        """Keeps that the server takes no lists, if it said so; else it is a refusal like others."""
        if refusal.code != "no-route":
            raise refusal
        self.known.takes_lists = False

    def store(
        self, shape: Shape[answers.Stored], id: str, data: bytes, *, derives: bool = False
    ) -> None:
        """Stores bytes, and compares the id that the server found."""
        what = shape.code
        found = self.ask_json("PUT", f"/{what}", shape, data, derives=derives)["id"]
        if found != id:
            raise BadAnswer(f"{self.url} stored the {what} {id} under another id, {found}")

    def content(self, id: str) -> bytes:
        """A stored content; its bytes are compared with its id."""
        data = self.ask("GET", f"/content/{id}")
        if digest(data) != id:
            raise BadAnswer(f"{self.url} sent other bytes than those of the content {id}")
        return data

    def content_to(self, id: str, out: IO[bytes]) -> None:
        """The same into a file, piece by piece, which is at its beginning then."""
        self.ask("GET", f"/content/{id}", out=out)
        out.seek(0)
        if digest_of(out) != id:
            raise BadAnswer(f"{self.url} sent other bytes than those of the content {id}")
        out.seek(0)

    def changeset(self, id: str) -> Changeset:
        """A changeset that is stored, or still to be; its bytes are compared with its id."""
        if id in self.unsent:
            return self.unsent[id]
        data = self.ask("GET", f"/changeset/{id}")
        if digest(data) != id:
            raise BadAnswer(f"{self.url} sent other bytes than those of the changeset {id}")
        return decode(data)

    def copies(self, id: str) -> dict[str, CopySource]:
        """What files that a changeset sets were copied from, by their rising paths."""
        rows = self.ask_json("GET", f"/copies/{id}", answers.COPIES)["copies"]
        return {row["to"]: CopySource(row["parent"], row["from"]) for row in rows}

    # Bookmarks, landings and the log

    def move_bookmark(self, name: str, old: str | None, new: str | None) -> str | None:
        """Makes, moves or deletes a bookmark whose head is `old`, and gives its head."""
        target = f"/bookmark/{part(name)}/{old or NO_BOOKMARK}/{new or NO_BOOKMARK}"
        return self.ask_allowed("PUT", target, answers.BOOKMARK)["head"]

    def head(self, name: str) -> str | None:
        """A bookmark's head, or None where there is none."""
        try:
            return self.ask_json("GET", f"/bookmark/{part(name)}", answers.BOOKMARK)["head"]
        except Refused as refusal:
            if refusal.code == "no-bookmark":
                return None
            raise

    def land(self, name: str, draft: str) -> Landed:
        """Lands a draft on a bookmark."""
        return self.landed(f"/land/{part(name)}/{draft}")

    def land_stack(self, name: str, changesets: Sequence[Changeset]) -> Landed:
        """Stores changesets, parents first, and lands the last on a bookmark, by one request where
        that holds them. A refusal tells the place (`at`) of what is refused, the landing behind
        them; what stands before it is stored."""
        *earlier, last = batches(changesets)
        start = sum(map(len, earlier))
        self.put_changesets(changesets[:start])
        with moved_on(start):
            return self.land_batch(name, last)

    def land_batch(self, name: str, batch: Sequence[Changeset]) -> Landed:
        """Stores and lands what one request holds; an older server is asked one after another."""
        if self.known.takes_lists and fits(batch):
            try:
                return self.landed(f"/stack/{part(name)}", encode_list(batch))
            except Refused as refusal:
                self.go_on_without_lists(refusal)
        self.put_batch(batch)
        with placed(len(batch)):
            return self.land(name, batch[-1].id)

    def landed(self, target: str, body: bytes | None = None) -> Landed:
        """What a landing answers."""
        answer = self.ask_allowed("POST", target, answers.LANDED, body)
        return Landed(answer["head"], answer["ids"], answer["old"])

    def ask_allowed(
        self, method: str, target: str, shape: Shape[Members], body: bytes | None = None
    ) -> Members:
        """A change that a policy may deny. Where it does, the rule's words are told too."""
        try:
            return self.ask_json(method, target, shape, body)
        except Refused as refusal:
            if refusal.code == "denied":
                refusal.advice = self.ruling(refusal.members.get("rule"))
            raise

    def ruling(self, rule: int | None) -> str:
        """What decided, in words, by the policy that is held now."""
        if rule is None:
            return "no rule of it speaks of this path"
        try:
            text = rule_text(self.policy() or b"", rule)
        except Fault:
            text = None
        return f"rule {rule}" + (f" decides: `{text}`" if text else " decides")

    # The policy

    def set_policy(self, text: bytes) -> int:
        """Sets the policy, and gives the number of its entry."""
        return self.ask_allowed("PUT", "/policy", answers.POLICY, text)["number"]

    def policy(self, number: int | None = None) -> bytes | None:
        """The text of the policy that is held, or that an entry set; None where there is none."""
        try:
            return self.ask("GET", "/policy" if number is None else f"/policy/{number}")
        except Refused as refusal:
            if refusal.code == "no-policy":
                return None
            raise

    def log(self, start: int) -> Page:
        """At most 100 entries of the update log, from a number on."""
        answer = self.ask_json("GET", f"/log/{start}", answers.LOG)
        return Page(answer["entries"], answer["total"])

    # Manifests

    def fsnode(self, id: str, directory: str = "") -> Fsnode:
        """The manifest of a directory at a changeset; the root is the empty text."""
        return self.node("fsnode", id, directory, decode_fsnode)

    def unode(self, id: str, path: str = "") -> Unode:
        """The manifest with its past of a file or directory at a changeset."""
        return self.node("unode", id, path, decode_unode)

    def node(self, route: str, id: str, path: str, decoder: Callable[[bytes], Node]) -> Node:
        """A node of either kind."""
        target = f"/{route}/{id}" + (f"/{long_part(path)}" if path else "")
        try:
            return decoder(self.ask("GET", target, derives=True))
        except BadEncoding as fault:
            raise BadAnswer(f"{self.url} sent no {route} for {target}: {fault}") from None

    def history(self, id: str, path: str) -> list[str]:
        """The changesets that set a file, newest first."""
        target = f"/history/{id}/{long_part(path)}"
        return self.ask_json("GET", target, answers.HISTORY, derives=True)["ids"]

    def path_log(self, id: str, path: str) -> list[str]:
        """A changeset and its ancestors that set a path or took it away, newest first."""
        target = f"/pathlog/{id}/{long_part(path)}"
        return self.ask_json("GET", target, answers.PATH_LOG, derives=True)["ids"]


@contextmanager
def placed(at: int) -> Iterator[None]:
    """Has a refusal tell its place in a list, as it does where that went by one request."""
    try:
        yield
    except Refused as refusal:
        refusal.members.setdefault("at", at)
        raise


@contextmanager
def moved_on(start: int) -> Iterator[None]:
    """Has a refusal tell its place in a longer list, of which so many went before."""
    try:
        yield
    except Refused as refusal:
        if "at" in refusal.members:
            refusal.members["at"] += start
        raise


def parts_of(url: str) -> SplitResult:
    """The parts of a server's URL, which may be said without its scheme."""
    parts = urlsplit(url if "//" in url else "http://" + url)
    elsewhere = parts.path not in ("", "/") or parts.query or parts.fragment
    if parts.scheme not in ("http", "https") or not parts.hostname or elsewhere:
        raise Trouble(f"{url} is no URL of a server; one is like http://127.0.0.1:8080")
    return parts


def whole_url(url: str) -> str:
    """A server's URL as it is kept and told."""
    parts = parts_of(url)
    return f"{parts.scheme}://{parts.netloc}"


def part(text: str) -> str:
    """A parameter of a route, percent-encoded."""
    return quote(text, safe="")


def long_part(path: str) -> str:
    """A path as the last parameter of a route."""
    return quote(path, safe="/")


def take_body(response: http.client.HTTPResponse, out: IO[bytes]) -> bytes:
    """Writes a body to a file, in place of what an earlier try has left there."""
    with writing():
        out.seek(0)
        out.truncate()
    while data := response.read(READ_BYTES):
        with writing():
            out.write(data)
    if response.length:
        raise http.client.IncompleteRead(b"", response.length)
    with writing():
        out.flush()
    return b""


@contextmanager
def writing() -> Iterator[None]:
    """Tells what goes wrong with a file apart from what goes wrong with a connection."""
    try:
        yield
    except OSError as fault:
        raise Trouble(f"a file of what the server sent: {fault.strerror}") from None


def parsed(body: bytes) -> dict[str, Any] | None:
    """The members of a JSON body, or None where it is no JSON object."""
    try:
        members = json.loads(body)
    except ValueError:
        return None
    return members if isinstance(members, dict) else None


def refused(status: int, body: bytes) -> Exception:
    """The refusal that a response with another status than 200 tells."""
    members = parsed(body)
    if members is None or not isinstance(members.get("code"), str):
        bad = BadAnswer(f"the server answered with status {status} and a body that is no refusal")
        bad.status = status
        return bad
    code = members.pop("code")
    return Refused(status, code, cast(RefusalMembers, members))


def reason(fault: OSError, seconds: float) -> str:
    """Why a connection failed, in words."""
    if isinstance(fault, socket.gaierror):
        return "there is no host of this name"
    if isinstance(fault, TimeoutError):
        return f"it took longer than {seconds:g} seconds"
    if isinstance(fault, ssl.SSLError):
        return tls_words(fault)
    return fault.strerror or str(fault) or type(fault).__name__


def is_refused(fault: OSError) -> bool:
    """Whether one side didn't take the other's certificate, or its TLS."""
    is_cut = isinstance(fault, (ssl.SSLEOFError, ssl.SSLZeroReturnError))
    return isinstance(fault, ssl.SSLError) and not is_cut


def is_passing(fault: Exception) -> bool:
    """Whether another try may go better."""
    if isinstance(fault, (Refused, BadAnswer)):
        return fault.status in PASSING
    return isinstance(fault, NotReached) and not isinstance(fault, NoAnswer)


def has_ended(link: socket.socket | None) -> bool:
    """Whether a connection on which nothing is asked has ended: there is something to read."""
    if link is None or hasattr(link, "pending"):
        return False
    return bool(select.select([link], [], [], 0)[0])


def wait_for_answer(link: socket.socket, what: str, seconds: float) -> None:
    """Waits for the first byte of an answer, and tells what for where that takes long."""
    begun = time.monotonic()
    pause = min(TOLD_AFTER_SECONDS, seconds)
    while not select.select([link], [], [], pause)[0]:
        spent = time.monotonic() - begun
        if spent >= seconds:
            raise TimeoutError
        tell_waiting(what, spent)
        pause = min(TOLD_AGAIN_SECONDS, seconds - spent)
