"""Runs `git http-backend` for one request: body and answer go through it piece by piece."""

from __future__ import annotations

import re
import subprocess
import tempfile
import threading
from collections.abc import Callable
from contextlib import suppress
from dataclasses import dataclass, field
from typing import IO

from ..refusals import Fault
from .bodies import PIECE_BYTES, Body
from .git import environment

MOST_HEAD_BYTES = 65_536
MOST_DRAINED_BYTES = 64 << 20
"""So much of a body is read over that git doesn't want, so that its answer arrives."""
DAMAGE = re.compile(
    r"corrupt|missing|bad object|unable to read|inflate|not a git repository|loose object"
    r"|packed object|packfile|index file|unable to find|could not parse|valid object|broken ref"
)
"""What git says where its repository may be damaged."""


class NoBackend(Fault):
    """Git gave no answer to a request."""


@dataclass
class Answer:
    """The head of an answer: its status and its headers."""

    status: int = 200
    headers: list[tuple[str, str]] = field(default_factory=list)


class Backend:
    """One run of git for one request."""

    def __init__(self, variables: dict[str, str], body: Body, kept: tuple[int, ...] = ()):
        sized = {} if body.size is None else {"CONTENT_LENGTH": str(body.size)}
        self.body = body
        self.complaint = tempfile.TemporaryFile()
        self.process = subprocess.Popen(
            ["git", "http-backend"],
            stdin=subprocess.PIPE,
            stdout=subprocess.PIPE,
            stderr=self.complaint,
            env=environment(**variables, **sized),
            pass_fds=kept,
        )
        self.feeder = threading.Thread(target=self.feed, daemon=True)
        self.feeder.start()

    def feed(self) -> None:
        """Hands the body to git; what git doesn't take is read over."""
        assert self.process.stdin
        drained = 0
        with suppress(OSError, ValueError, Fault):
            while (data := self.body.read()) and drained < MOST_DRAINED_BYTES:
                if drained or not written(self.process.stdin, data):
                    drained += len(data)
        with suppress(OSError):
            self.process.stdin.close()

    def head(self) -> Answer:
        """The head of git's answer."""
        assert self.process.stdout
        answer, size = Answer(), 0
        while line := self.process.stdout.readline(MOST_HEAD_BYTES):
            size += len(line)
            name, colon, value = line.decode("latin-1").strip().partition(":")
            if not name:
                return answer
            if not colon or size > MOST_HEAD_BYTES:
                break
            if name.lower() == "status":
                answer.status = int(value.split()[0])
            else:
                answer.headers.append((name, value.strip()))
        raise NoBackend(self.says() or "git gave no answer")

    def copy(self, write: Callable[[bytes], object]) -> None:
        """Writes the rest of git's answer."""
        assert self.process.stdout
        out: IO[bytes] = self.process.stdout
        while data := out.read1(PIECE_BYTES):  # type: ignore[attr-defined]
            write(data)

    def end(self) -> None:
        """Waits until git is done; it is ended where nobody listens any more."""
        self.process.wait()
        self.feeder.join()

    def stop(self) -> None:
        """Ends git."""
        self.process.terminate()

    def complaints(self) -> str:
        """What git complains of."""
        self.complaint.seek(0)
        return self.complaint.read(PIECE_BYTES).decode(errors="replace").strip()

    def says(self) -> str:
        """The first line of that."""
        return self.complaints().partition("\n")[0]

    def close(self) -> None:
        """Gives back what a run takes."""
        for stream in (self.process.stdout, self.process.stdin, self.complaint):
            if stream:
                with suppress(OSError, ValueError):
                    stream.close()

    @property
    def suspects_damage(self) -> bool:
        """Whether git complains of its repository, also where it passes over what it can't read."""
        return DAMAGE.search(self.complaints()) is not None


def written(out: IO[bytes], data: bytes) -> bool:
    """Whether git took some bytes."""
    try:
        out.write(data)
        out.flush()
    except (OSError, ValueError):
        return False
    return True
