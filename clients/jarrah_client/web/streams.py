"""Answers of the local program whose bytes come while they are being sent."""

from __future__ import annotations

from collections.abc import Callable
from dataclasses import dataclass
from typing import IO, Protocol


class Out(Protocol):
    """Takes the bytes of an answer."""

    def write(self, data: bytes, /) -> object:
        """Sends some bytes."""


@dataclass(frozen=True)
class Streamed:
    """An answer: its type, and what writes it. Behind its beginning a fault can only cut it off."""

    kind: str
    write: Callable[[Out], object]


class Chunked:
    """Sends what is written in chunks (RFC 9112), or as it is to one who knows only HTTP/1.0."""

    def __init__(self, out: IO[bytes], in_chunks: bool):
        self.out = out
        self.in_chunks = in_chunks

    def write(self, data: bytes) -> None:
        if data:
            self.out.write(b"%x\r\n%b\r\n" % (len(data), data) if self.in_chunks else data)

    def end(self) -> None:
        """Says that the answer is whole."""
        if self.in_chunks:
            self.out.write(b"0\r\n\r\n")
