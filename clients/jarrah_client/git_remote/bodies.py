"""The body of a request, read piece by piece."""

from __future__ import annotations

from email.message import Message
from typing import Protocol

from ..refusals import Fault

PIECE_BYTES = 1 << 16
MOST_LINE_BYTES = 1_024
MOST_TRAILERS = 64
HEX = frozenset(b"0123456789abcdefABCDEF")


class Stream(Protocol):
    """What bytes are read from, as they come."""

    def read1(self, size: int, /) -> bytes:
        """As many bytes as are there, and one at least, but for the end."""

    def readline(self, size: int, /) -> bytes:
        """A line with its end, or the first bytes of one that is longer."""


class BadBody(Fault):
    """The bytes on the connection are no body."""


class SizedBody:
    """A body whose length was said."""

    def __init__(self, stream: Stream, size: int):
        self.stream = stream
        self.size = size
        self.left = size

    def read(self) -> bytes:
        """The next bytes; none at the end."""
        data = self.stream.read1(min(PIECE_BYTES, self.left)) if self.left else b""
        if self.left and not data:
            raise BadBody("the body ended early")
        self.left -= len(data)
        return data

    @property
    def is_over(self) -> bool:
        """Whether all of it was read."""
        return not self.left


class ChunkedBody:
    """A body in chunks, each with its length before it."""

    size = None

    def __init__(self, stream: Stream):
        self.stream = stream
        self.left = 0
        self.is_over = False

    def read(self) -> bytes:
        """The next bytes; none at the end."""
        if not self.left and not self.is_over:
            self.begin_chunk()
        if self.is_over:
            return b""
        data = self.stream.read1(min(PIECE_BYTES, self.left))
        if not data:
            raise BadBody("the body ended early")
        self.left -= len(data)
        if not self.left and self.line():
            raise BadBody("a chunk is longer than its length")
        return data

    def begin_chunk(self) -> None:
        """Reads a chunk's length; that of the last is 0, and lines may follow it."""
        length = self.line().partition(b";")[0].strip()
        if not length or len(length) > 15 or set(length) - HEX:
            raise BadBody("a chunk has no length")
        self.left = int(length, 16)
        if self.left:
            return
        for _ in range(MOST_TRAILERS):
            if not self.line():
                self.is_over = True
                return
        raise BadBody("too many lines follow the last chunk")

    def line(self) -> bytes:
        """A line without its end."""
        line = self.stream.readline(MOST_LINE_BYTES)
        if not line.endswith(b"\n"):
            raise BadBody("the body ended early, or a line of it is too long")
        return line.rstrip(b"\r\n")


Body = SizedBody | ChunkedBody


def body_of(headers: Message, lengths: list[str], stream: Stream) -> Body:
    """The body that a request's headers announce; without a word of one it is empty."""
    coding = headers.get("Transfer-Encoding")
    if coding is not None:
        if coding.strip().lower() != "chunked" or lengths:
            raise BadBody("the body's length is told in a way that isn't known here")
        return ChunkedBody(stream)
    if len(lengths) > 1 or any(not (it.isascii() and it.isdigit()) for it in lengths):
        raise BadBody("the body's length is no number")
    return SizedBody(stream, int(lengths[0]) if lengths else 0)
