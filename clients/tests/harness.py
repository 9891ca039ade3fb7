"""What the tests share: a server, the client's program, and folders to compare."""

from __future__ import annotations

import atexit
import contextlib
import functools
import io
import itertools
import json
import os
import re
import shutil
import signal
import subprocess
import sys
import tempfile
import unittest
import uuid
from collections.abc import Callable
from dataclasses import dataclass
from pathlib import Path
from typing import Any
from unittest import mock

from jarrah_client.cli import main
from jarrah_client.net.server import Server
from jarrah_client.refusals import Refused

from .stand_in.http import StandIn

TOP = Path(__file__).resolve().parents[2]
PROGRAM = TOP / "clients" / "jarrah"
GIVEN = os.environ.get("JARRAH_SERVER")
"""A running server that the tests are to use, in place of the stand-in."""
SERVES = os.environ.get("JARRAH_PROGRAM", "").split()
"""The first words of the server's commands, where the tests are to start it for the stand-in."""
PATIENCE = re.compile(r"jarrah: deriving, |[\d,]+(/[\d,]+)? [a-z ]+  [\d,]+/s")
"""Lines that a command writes from time to time while it goes on."""
RUN = uuid.uuid4().hex[:8]
COUNT = itertools.count()
OWN = re.compile("JARRAH_|VISUAL$|EDITOR$")
"""Variables that say what a command isn't told."""
ENVIRONMENT = {name: value for name, value in os.environ.items() if not OWN.match(name)}
ENVIRONMENT |= {"JARRAH_PAGER": "cat"}
ENVIRONMENT |= {"JARRAH_AUTHOR": "A Tester <tester@example.org>", "LC_ALL": "C.UTF-8", "TZ": "UTC"}
CACHE = tempfile.TemporaryDirectory(prefix="jarrah-cache-")
ENVIRONMENT["XDG_CACHE_HOME"] = CACHE.name
os.environ["XDG_CACHE_HOME"] = CACHE.name
ENVIRONMENT["XDG_CONFIG_HOME"] = CACHE.name


@dataclass(frozen=True)
class Ran:
    """What a run of the program wrote, and its status."""

    status: int
    out: str
    err: str
    data: bytes = b""

    @property
    def document(self) -> Any:
        """The one JSON document that was written."""
        return json.loads(self.out)

    @property
    def complaint(self) -> str:
        """What was written as an error, but for what is told where something takes long."""
        lines = self.err.splitlines(keepends=True)
        return "".join(line for line in lines if not PATIENCE.match(line))

    @property
    def documents(self) -> list[Any]:
        return [json.loads(line) for line in self.out.splitlines()]


def jarrah_process(
    *words: object, server: str | None = None, data: bytes = b"", folder: Path | None = None
) -> Ran:
    """Runs the program in a process of its own, as people do."""
    command = [sys.executable, str(PROGRAM), *(["--server", server] if server else [])]
    done = subprocess.run(
        [*command, *map(str, words)],
        input=data,
        capture_output=True,
        env=ENVIRONMENT,
        timeout=100,
        cwd=folder,
    )
    return Ran(done.returncode, done.stdout.decode(), done.stderr.decode())


def on_terminal(
    *words: object, server: str | None = None, folder: Path | None = None, **variables: str
) -> Ran:
    """Runs the program on a terminal of its own; what it writes comes as one text."""
    ours, theirs = os.openpty()
    command = [sys.executable, str(PROGRAM), *(["--server", server] if server else [])]
    streams = dict.fromkeys(("stdin", "stdout", "stderr"), theirs)
    process = subprocess.Popen(
        [*command, *map(str, words)], env=ENVIRONMENT | variables, cwd=folder, **streams
    )
    os.close(theirs)
    written = b""
    with contextlib.suppress(OSError):
        while data := os.read(ours, 65_536):
            written += data
    os.close(ours)
    return Ran(process.wait(100), written.decode().replace("\r\n", "\n"), "")


def jarrah(*words: object, server: str, data: bytes = b"", binary: bool = False) -> Ran:
    """Runs the program in this process, which is faster; binary output isn't read as text."""
    out, err = (io.TextIOWrapper(io.BytesIO(), "utf-8", newline="\n") for _ in range(2))
    given = io.TextIOWrapper(io.BytesIO(data))
    with (
        contextlib.redirect_stdout(out),
        contextlib.redirect_stderr(err),
        mock.patch.object(sys, "stdin", given),
        mock.patch.dict(os.environ, ENVIRONMENT),
    ):
        try:
            status = main(["--server", server, *map(str, words)])
        except SystemExit as end:
            status = int(end.code or 0)
    if binary:
        out.flush()
        return Ran(status, "", written(err), out.buffer.getvalue())
    return Ran(status, written(out), written(err))


def written(stream: io.TextIOWrapper) -> str:
    """What was written to a stream in memory."""
    stream.flush()
    return stream.buffer.getvalue().decode()


def fresh(name: str = "b") -> str:
    """A bookmark's name that no other test has, also on a server that is used again."""
    return f"{name}-{RUN}-{next(COUNT)}"


class Program:
    """The server's program, on a new file. When it is stopped the file has to open again."""

    def __init__(self, *, capacity: int = 1 << 32, lanes: int = 16):
        self.folder = tempfile.mkdtemp(prefix="jarrah-served-")
        self.file = Path(self.folder) / "repository"
        self.run("init", str(self.file), str(capacity))
        words = ["serve", str(self.file), "127.0.0.1:0", str(lanes), "0", "1000000"]
        pipe = subprocess.PIPE
        self.process = subprocess.Popen([*SERVES, *words], stderr=pipe, stdout=pipe, text=True)
        atexit.register(self.process.kill)
        said = next((line for line in self.process.stderr if line.startswith("listening")), "")
        assert said, "the server doesn't listen"
        self.url = f"http://{said.removeprefix('listening at ').rstrip()}"

    def run(self, *words: str) -> str:
        return subprocess.run([*SERVES, *words], check=True, capture_output=True, text=True).stdout

    def __enter__(self) -> Program:
        return self

    def __exit__(self, *_: object) -> None:
        self.process.send_signal(signal.SIGTERM)
        self.process.communicate(timeout=20)
        self.run("fsck", str(self.file))
        shutil.rmtree(self.folder)


def enter(test: unittest.TestCase, context: contextlib.AbstractContextManager) -> None:
    """Enters a context until a test is over."""
    context.__enter__()
    test.addCleanup(context.__exit__, None, None, None)


@functools.cache
def has_manifests(url: str) -> bool:
    """Whether a server has the routes of manifests."""
    return has_route(url, Server.fsnode)


@functools.cache
def has_copies(url: str) -> bool:
    """Whether a server has the route of copies, as each has that knows version 2."""
    return has_route(url, Server.copies)


@functools.cache
def has_lists(url: str) -> bool:
    """Whether a server takes several changesets in one request."""
    server = Server(url)
    try:
        server.ask("PUT", "/changesets", b"")
    except Refused as refusal:
        return refusal.code != "no-route"
    finally:
        server.close()
    return True


@functools.cache
def has_wholes(url: str) -> bool:
    """Whether a server joins contents, as each does whose file has version 2."""
    server = Server(url)
    try:
        return server.joins()
    finally:
        server.close()


@functools.cache
def has_merges(url: str) -> bool:
    """Whether a server stores changesets of two parents."""
    server = Server(url)
    try:
        return server.takes_merges()
    finally:
        server.close()


def has_route(url: str, read: Callable[[Server, str], Any]) -> bool:
    """Whether a server has the route by which something of a changeset is read."""
    server = Server(url)
    try:
        read(server, "0" * 64)
    except Refused as refusal:
        return refusal.code != "no-route"
    finally:
        server.close()
    return True


class Case(unittest.TestCase):
    """A test with a folder and a server: the one that is given, the program's, or a stand-in."""

    stand_in: StandIn | None = None
    server: str

    @classmethod
    def setUpClass(cls) -> None:
        if GIVEN:
            cls.server = GIVEN
            return
        started = cls.started()
        cls.server = started.url
        cls.stand_in = started if isinstance(started, StandIn) else None

    @classmethod
    def started(cls, **words: Any) -> StandIn | Program:
        """A server of its own, which runs until the class's tests are over."""
        started = (Program if SERVES else StandIn)(**words).__enter__()
        cls.addClassCleanup(started.__exit__)
        return started

    def special(self, **words: Any) -> StandIn | Program:
        """A server of its own that is as the words say, which no server that is given is."""
        if GIVEN:
            self.skipTest("a server of its own")
        return self.started(**words)

    def special_stand_in(self, **words: Any) -> StandIn:
        """A stand-in with a look inside, or as no program is."""
        if GIVEN or SERVES:
            self.skipTest("a stand-in of its own")
        return self.started(**words)

    def needs_manifests(self) -> None:
        if not has_manifests(self.server):
            self.skipTest("a server with manifests")

    def needs_copies(self) -> None:
        if not has_copies(self.server):
            self.skipTest("a server with copies")

    def needs_lists(self) -> None:
        if not has_lists(self.server):
            self.skipTest("a server with lists of changesets")

    def needs_wholes(self) -> None:
        if not has_wholes(self.server):
            self.skipTest("a server that joins contents")

    def merging(self) -> str:
        """A server that takes merges: the one that is given, the program's, or a stand-in."""
        if not GIVEN and not SERVES:
            return self.started(merges=True).url
        if not has_merges(self.server):
            self.skipTest("a server that takes merges")
        return self.server

    def setUp(self) -> None:
        self.folder = Path(tempfile.mkdtemp(prefix="jarrah-test-"))
        self.addCleanup(shutil.rmtree, self.folder)

    def ok(self, *words: object, data: bytes = b"") -> Ran:
        """Runs the program, which has to end well and quietly."""
        ran = jarrah(*words, server=self.server, data=data)
        self.assertEqual((ran.status, ran.complaint), (0, ""), words)
        return ran

    def ask(self, *words: object) -> Any:
        """What the program tells scripts."""
        return self.ok("--json", *words).document

    def refused(self, *words: object, data: bytes = b"") -> str:
        """Runs the program, which has to be refused: one line, and nothing else."""
        ran = jarrah(*words, server=self.server, data=data)
        said = ran.complaint
        self.assertEqual((ran.status, ran.out, said.count("\n")), (1, "", 1), (words, ran))
        self.assertTrue(said.startswith("jarrah: "))
        return said.removeprefix("jarrah: ").rstrip("\n")

    def draft(self, parent: str, *words: object, data: bytes = b"") -> str:
        """Uploads a draft and gives its id."""
        said = ("-m", "a draft", *words)
        return self.ok("draft", "--parent", parent, *said, data=data).out.strip()

    def sparse(self, place: Path, size: int) -> Path:
        """Makes a file of so many bytes that takes no room."""
        place.touch()
        os.truncate(place, size)
        return place

    def write(self, name: str, data: bytes = b"abc") -> Path:
        """Writes a file of the test's folder."""
        place = self.folder / name
        place.parent.mkdir(parents=True, exist_ok=True)
        place.write_bytes(data)
        return place


def folder_files(folder: Path) -> dict[str, tuple[str, bytes]]:
    """All files under a folder but a working copy's own, each with what it is and its bytes."""
    found: dict[str, tuple[str, bytes]] = {}
    for place in sorted(folder.rglob("*")):
        if ".jarrah" in place.relative_to(folder).parts:
            continue
        name = os.fsencode(place.relative_to(folder)).decode(errors="surrogateescape")
        if place.is_symlink():
            found[name] = ("symlink", os.fsencode(os.readlink(place)))
        elif place.is_file():
            kind = "executable" if os.access(place, os.X_OK) else "regular"
            found[name] = (kind, place.read_bytes())
    return found
