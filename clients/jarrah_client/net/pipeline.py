"""Many reads on their way over one connection: none waits for the answer to the one before."""

from __future__ import annotations

import http.client
import socket
import time
from collections.abc import Generator, Iterable, Iterator, Sequence
from contextlib import closing
from io import BufferedReader
from itertools import groupby
from typing import cast
from urllib.parse import urlsplit

from ..formats.changesets import File
from ..formats.fields import BadEncoding, digest
from ..formats.nodes import Fsnode, decode_fsnode
from ..refusals import Fault
from .contents import PIECE_BYTES, Data, fetched
from .server import (
    AGAIN_SECONDS,
    ANSWER_SECONDS,
    MANIFEST_SECONDS,
    BadAnswer,
    NoAnswer,
    NotReached,
    Server,
    is_passing,
    long_part,
    reason,
    refused,
)

MOST_ON_THEIR_WAY = 128
"""So many requests are on their way at most; they have room in the buffers between, so that no
sending waits for a server that waits for its answers to be read."""
MORE_AT = 64
"""Further ones are sent, together, where no more than so many are on their way."""
MOST_SENT_BYTES = 16_384
"""And no more bytes than these: long paths are sent a few at a time."""
FEW = 8
"""Where a connection is ended after fewer answers, the others are asked for one at a time."""
READ_AHEAD_BYTES = 1 << 18
MOST_LINE_BYTES = 65_536


class Unfit(Exception):
    """What stands between doesn't keep the connection, or gives an answer without its length."""


def contents(server: Server, files: Iterable[File]) -> Generator[Data, None, None]:
    """The contents of files, in order. Large ones are in files of their own, one at a time."""
    for is_large, run in groupby(files, lambda file: file.size > PIECE_BYTES):
        if is_large:
            yield from (fetched(server, file) for file in run)
        else:
            yield from small_contents(server, [file.content for file in run])


def small_contents(server: Server, ids: Sequence[str]) -> Iterator[bytes]:
    """Contents of at most a piece each. Their bytes are compared with their ids."""
    for data, id in zip(answers(server, [f"/content/{id}" for id in ids]), ids):
        if digest(data) != id:
            raise BadAnswer(f"{server.url} sent other bytes than those of the content {id}")
        yield data


def fsnodes(server: Server, id: str, directories: Sequence[str]) -> Iterator[Fsnode]:
    """The manifests of directories of a changeset, in order."""
    targets = [f"/fsnode/{id}" + (f"/{long_part(one)}" if one else "") for one in directories]
    for data, target in zip(answers(server, targets, MANIFEST_SECONDS), targets):
        try:
            yield decode_fsnode(data)
        except BadEncoding as fault:
            raise BadAnswer(f"{server.url} sent no fsnode for {target}: {fault}") from None


def answers(
    server: Server, targets: Sequence[str], patience: float = ANSWER_SECONDS
) -> Iterator[bytes]:
    """The bodies of what is at some targets, in order; a broken connection is made again."""
    done = tries = 0
    while done < len(targets):
        begun = done
        try:
            for body in over_one(server, targets[done:], server.timeout or patience):
                done, tries = done + 1, 0
                yield body
        except Unfit:
            if done - begun < FEW:
                yield from (server.ask("GET", target) for target in targets[done:])
                return
        except Fault as fault:
            if server.is_cut or not is_passing(fault) or tries == len(AGAIN_SECONDS):
                raise
            time.sleep(AGAIN_SECONDS[tries])
            tries += 1


def over_one(server: Server, targets: Sequence[str], seconds: float) -> Iterator[bytes]:
    """The bodies as far as one connection gives them. It is ended where answers are left in it."""
    answered, is_last = 0, False
    try:
        link = server.linked(seconds)
        sender = Sender(server, link, targets)
        buffered = cast(BufferedReader, link.makefile("rb", READ_AHEAD_BYTES))
        with closing(buffered) as stream:
            while answered < len(targets):
                sender.send(answered)
                body, is_last = read_answer(server, stream)
                answered += 1
                yield body
                if is_last and answered < len(targets):
                    raise Unfit
    except http.client.HTTPException as fault:
        raise NotReached(f"{server.url} broke off its answer ({type(fault).__name__})") from None
    except OSError as fault:
        kind = NoAnswer if isinstance(fault, (TimeoutError, socket.gaierror)) else NotReached
        raise kind(f"no answer from {server.url}: {reason(fault, seconds)}") from None
    finally:
        server.last_used = time.monotonic()
        if is_last or answered < len(targets):
            server.close()


class Sender:
    """Sends requests ahead of their answers, some together."""

    def __init__(self, server: Server, link: socket.socket, targets: Sequence[str]):
        self.server = server
        self.link = link
        self.host = urlsplit(server.url).netloc
        self.targets = targets
        self.sent = 0

    def send(self, answered: int) -> None:
        """Sends further ones, unless there are enough on their way."""
        if self.sent - answered > MORE_AT or self.sent == len(self.targets):
            return
        data = b"".join(self.requests(self.targets[self.sent : answered + MOST_ON_THEIR_WAY]))
        self.server.sent += len(data)
        self.link.sendall(data)

    def requests(self, targets: Sequence[str]) -> Iterator[bytes]:
        """The bytes of as many requests as may be sent together, and of one at least."""
        room = MOST_SENT_BYTES
        rest = f" HTTP/1.1\r\nHost: {self.host}\r\nAccept: */*\r\n\r\n"
        for target in targets:
            one = f"GET {target}{rest}".encode("ascii")
            if room < MOST_SENT_BYTES and room < len(one):
                return
            room -= len(one)
            self.sent += 1
            yield one


def read_answer(server: Server, stream: BufferedReader) -> tuple[bytes, bool]:
    """The body of the next answer, which has to be a 200, and whether the connection ends."""
    status, length, is_last = read_head(server, stream)
    body = stream.read(length)
    if len(body) < length:
        raise http.client.IncompleteRead(body, length - len(body))
    if status != 200:
        raise refused(status, body)
    return body, is_last


def read_head(server: Server, stream: BufferedReader) -> tuple[int, int, bool]:
    """An answer's status, the length of its body, and whether the connection ends with it."""
    first = stream.readline(MOST_LINE_BYTES)
    if not first:
        raise http.client.RemoteDisconnected("the end, in place of a line")
    words = first.split(None, 2)
    if len(words) < 2 or not words[0].startswith(b"HTTP/1.") or not words[1].isdigit():
        raise BadAnswer(f"{server.url} answered with something unknown")
    length, is_last = None, words[0] == b"HTTP/1.0"
    while (line := stream.readline(MOST_LINE_BYTES)) not in (b"\r\n", b"\n"):
        if not line:
            raise http.client.RemoteDisconnected("the end, in place of a line")
        name, _, value = line.partition(b":")
        name, value = name.lower(), value.strip()
        if name == b"content-length" and value.isdigit():
            length = int(value)
        elif name == b"connection":
            is_last = is_last or b"close" in value.lower()
    if length is None:
        raise Unfit
    return int(words[1]), length, is_last
