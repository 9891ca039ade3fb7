"""Requests that the tests spell byte by byte, and the whole bodies that answer them."""

from __future__ import annotations

import socket
from urllib.parse import urlsplit

from jarrah_client.formats.changesets import Changeset

from .harness import Case


class Wire(Case):
    """One connection at a time, with raw bytes."""

    def session(self, sent: bytes, *, piece: int | None = None) -> bytes:
        """All that the server writes to these bytes and their end."""
        url = urlsplit(self.server)
        with socket.create_connection((url.hostname, url.port), timeout=20) as link:
            link.setsockopt(socket.IPPROTO_TCP, socket.TCP_NODELAY, 1)
            for at in range(0, len(sent), piece or len(sent)):
                link.sendall(sent[at : at + (piece or len(sent))])
            link.shutdown(socket.SHUT_WR)
            found = b""
            while data := link.recv(65_536):
                found += data
        return found

    def one(self, method: str, target: str, body: bytes | None = None) -> tuple[int, bytes]:
        """The status and the body of one response."""
        length = f"Content-Length: {len(body)}\r\n" if body is not None else ""
        head = f"{method} {target} HTTP/1.1\r\n{length}\r\n".encode()
        found = self.session(head + (body or b""))
        first, _, rest = found.partition(b"\r\n\r\n")
        return int(first.split()[1]), rest

    def answers(self, method: str, target: str, body: bytes | None, status: int, text: str) -> None:
        """Asserts a response's status and whole body."""
        self.assertEqual(self.one(method, target, body), (status, text.encode()), target)

    def store(self, changeset: Changeset) -> str:
        """Stores a changeset by its spelling."""
        text = f'{{"code":"changeset","id":"{changeset.id}"}}'
        self.answers("PUT", "/changeset", changeset.encoded, 200, text)
        return changeset.id


def landed(ids: list[str], old: str) -> str:
    """The body of a landing."""
    listed = ",".join(f'"{id}"' for id in ids)
    return f'{{"code":"landed","head":"{ids[-1]}","ids":[{listed}],"old":"{old}"}}'
