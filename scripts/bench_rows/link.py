"""A connection that is kept, with as little work a request as Python allows."""

from __future__ import annotations

import json
import re
import socket

WAIT_SECONDS = 600
"""The first read of a tree derives its whole chain."""
BATCH = 16
"""So many requests are on their way at once."""


class Failed(Exception):
    """The server answered otherwise than with a 200."""


def request(method: str, target: str, body: bytes = b"") -> bytes:
    head = f"{method} {target} HTTP/1.1\r\nHost: bench\r\nContent-Length: {len(body)}\r\n\r\n"
    return head.encode() + body


class Link:
    """A client's end."""

    def __init__(self, address: tuple[str, int]):
        self.socket = socket.create_connection(address, timeout=WAIT_SECONDS)
        self.socket.setsockopt(socket.IPPROTO_TCP, socket.TCP_NODELAY, 1)
        self.room = bytearray(1_048_576)

    def response(self, data: bytes) -> tuple[bytes, bytes]:
        """The head and the body that answer the bytes of a request."""
        self.socket.sendall(data)
        answer = b""
        while b"\r\n\r\n" not in answer:
            answer += self.more()
        head, _, rest = answer.partition(b"\r\n\r\n")
        length = int(re.search(rb"(?i)content-length: *(\d+)", head)[1])
        parts, missing = [rest], length - len(rest)
        while missing > 0:
            parts.append(self.more())
            missing -= len(parts[-1])
        return head + b"\r\n\r\n", b"".join(parts)

    def read(self, method: str, target: str, body: bytes = b"") -> bytes:
        """A 200's body."""
        head, answer = self.response(request(method, target, body))
        if not head.startswith(b"HTTP/1.1 200 "):
            raise Failed(f"{method} {target} was answered by {answer.decode()}")
        return answer

    def ask(self, method: str, target: str, body: bytes = b"") -> dict:
        """The members of a 200's body."""
        return json.loads(self.read(method, target, body))

    def exchange(self, requests: bytes, length: int) -> None:
        """Sends requests at once, and takes answers of so many bytes in all."""
        self.socket.sendall(requests)
        while length > 0:
            count = self.socket.recv_into(self.room, min(length, len(self.room)))
            if not count:
                raise Failed("the server ended the connection")
            length -= count

    def more(self) -> bytes:
        data = self.socket.recv(1_048_576)
        if not data:
            raise Failed("the server ended the connection")
        return data

    def close(self) -> None:
        self.socket.close()


def opened(address: tuple[str, int]) -> Link:
    """A link to a server that has opened its file, which it does after it began to listen."""
    link = Link(address)
    link.ask("GET", "/log/0")
    return link


class Batch:
    """Equal reads that are sent at once on one connection."""

    def __init__(self, link: Link, target: str, count: int = BATCH):
        self.link, self.count = link, count
        head, body = link.response(request("GET", target))
        if not head.startswith(b"HTTP/1.1 200 "):
            raise Failed(f"GET {target} was answered by {body.decode()}")
        self.answer, self.body = head + body, body
        self.requests = count * request("GET", target)
        self.length = count * len(self.answer)

    def send(self) -> None:
        self.link.exchange(self.requests, self.length)
