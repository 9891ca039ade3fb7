"""Connections to a server, directly or through the proxy."""

from __future__ import annotations

import http.client
import json
import ssl
from dataclasses import dataclass
from pathlib import Path

TIMEOUT_SECONDS = 20


@dataclass(frozen=True)
class Place:
    """Where a server is reached: a port of the loopback address, and whom to trust where TLS is spoken there."""

    port: int
    trusted: Path | None = None
    person: str | None = None
    """Whose certificate is shown."""
    seconds: float = TIMEOUT_SECONDS
    """How long an answer may take."""

    def connection(self) -> http.client.HTTPConnection:
        if not self.trusted:
            return http.client.HTTPConnection("127.0.0.1", self.port, timeout=self.seconds)
        return http.client.HTTPSConnection(
            "localhost", self.port, timeout=self.seconds, context=self.context()
        )

    def context(self) -> ssl.SSLContext:
        made = ssl.create_default_context(cafile=self.trusted / "server.crt")
        if self.person:
            names = (self.trusted / f"{self.person}.{it}" for it in ("crt", "key"))
            made.load_cert_chain(*names)
        return made


@dataclass(frozen=True)
class Answer:
    """What a request was answered with."""

    status: int
    kind: str | None
    """The media type of the body."""
    body: bytes


class NoAnswer(Exception):
    """The connection failed, or the proxy has no server: what was asked for may have been done."""


class Link:
    """A connection that is kept, and made anew after a failure."""

    def __init__(self, place: Place):
        self.connection = place.connection()

    def ask(self, method: str, target: str, body: bytes | None = None, **headers: str) -> tuple[int, bytes]:
        """The status and the body of the answer."""
        told = self.answer(method, target, body, **headers)
        return told.status, told.body

    def answer(self, method: str, target: str, body: bytes | None = None, **headers: str) -> Answer:
        """The answer."""
        try:
            self.connection.request(method, target, body=body, headers=headers)
            response = self.connection.getresponse()
            return Answer(response.status, response.getheader("Content-Type"), response.read())
        except (OSError, http.client.HTTPException) as fault:
            self.connection.close()
            raise NoAnswer(str(fault) or type(fault).__name__) from None

    def done(self, method: str, target: str, body: bytes | None = None) -> dict:
        """The members of a 200's body."""
        status, answer = self.ask(method, target, body)
        if status != 200:
            raise NoAnswer(f"{method} {target}: {status} {answer[:200]!r}")
        return json.loads(answer)


def is_well(place: Place) -> bool:
    """Whether the proxy at the place has a server."""
    try:
        return Link(place).ask("GET", "/health")[0] == 200
    except NoAnswer:
        return False
