"""The program that is measured: its commands, and a server of it."""

from __future__ import annotations

import os
import re
import subprocess
import time
from collections.abc import Iterator
from contextlib import contextmanager
from dataclasses import dataclass
from pathlib import Path

from .process import Cost

ENVIRONMENT = {
    "ASAN_OPTIONS": "quarantine_size_mb=0:thread_local_quarantine_size_kb=0",
    **os.environ,
}
"""An unproved program checks its memory accesses, and would keep back what it frees."""
MANY = 1_000_000


@dataclass(frozen=True)
class Served:
    """A running server."""

    process: subprocess.Popen
    address: tuple[str, int]

    @property
    def pid(self) -> int:
        return self.process.pid


@dataclass(frozen=True)
class Program:
    """The program in a file."""

    path: Path

    def init(self, file: Path, capacity: int) -> None:
        subprocess.run(
            [self.path, "init", file, str(capacity)],
            stdout=subprocess.DEVNULL,
            env=ENVIRONMENT,
            check=True,
        )

    def opening(self, file: Path) -> Cost:
        """What it costs to open a file and count what it holds."""
        return cost_of([self.path, "fsck", file])

    def migrate(self, old: Path, new: Path) -> Cost:
        """What it costs to make a file of version 2 of another."""
        return cost_of([self.path, "migrate", old, new])

    def follow(self, file: Path, address: tuple[str, int], entries: int) -> Cost:
        """What it costs to bring a file to the entries of a server, which are so many."""
        host, port = address
        return cost_of([self.path, "follow", file, f"{host}:{port}"], f"followed {entries}\n")

    @contextmanager
    def serve(
        self, file: Path, lanes: int = 1, connections: int = MANY, before: tuple = ()
    ) -> Iterator[Served]:
        """A server of a file, which is stopped at the end. The words `before` start it."""
        counts = [str(lanes), "0", str(connections)]
        words = [*before, self.path, "serve", file, "127.0.0.1:0", *counts]
        pipe = subprocess.PIPE
        served = subprocess.Popen(words, stdout=pipe, stderr=pipe, text=True, env=ENVIRONMENT)
        try:
            for line in served.stderr:
                said = re.fullmatch(r"listening at (\S+):(\d+)\n", line)
                if said:
                    yield Served(served, (said[1], int(said[2])))
                    return
            raise SystemExit(f"scripts/bench: the server doesn't listen: {served.stdout.read()}")
        finally:
            served.kill()
            served.wait()


def cost_of(words: list, wanted: str | None = None) -> Cost:
    """What a command costs, from its start to its end. It has to say what is wanted."""
    begun = time.monotonic()
    ran = subprocess.Popen(words, stdout=subprocess.PIPE, text=True, env=ENVIRONMENT)
    said = ran.stdout.read()
    _, status, used = os.wait4(ran.pid, 0)
    ran.returncode = os.waitstatus_to_exitcode(status)
    if ran.returncode or wanted not in (None, said):
        raise SystemExit(f"scripts/bench: {words[0]} said {said!r}")
    return Cost(1, time.monotonic() - begun, used.ru_utime + used.ru_stime)
