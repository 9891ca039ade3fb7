"""A remote for tests, and clones of it that push with the git of this machine."""

from __future__ import annotations

import os
import shutil
import signal
import subprocess
import sys
import time
import unittest
from collections.abc import Callable
from dataclasses import dataclass
from pathlib import Path
from typing import Any

from .harness import ENVIRONMENT, PROGRAM, Case, fresh

GIT = {name: value for name, value in ENVIRONMENT.items() if not name.startswith("GIT_")}
GIT |= {"GIT_CONFIG_GLOBAL": os.devnull, "GIT_CONFIG_NOSYSTEM": "1", "GIT_TERMINAL_PROMPT": "0"}
PATIENCE_SECONDS = 100


@dataclass(frozen=True)
class Said:
    """What a run of git said, and its status."""

    status: int
    out: str
    err: str


def git(
    folder: Path, *words: object, status: int | None = 0, data: bytes = b"", **more: str
) -> Said:
    """Runs git in a folder, which has to end with a status."""
    done = subprocess.run(
        ["git", *map(str, words)],
        cwd=folder,
        input=data,
        capture_output=True,
        env=GIT | more,
        timeout=PATIENCE_SECONDS,
    )
    said = Said(done.returncode, done.stdout.decode().strip(), done.stderr.decode())
    assert status in (None, said.status), (words, said)
    return said


class Remote:
    """`jarrah serve-git` in a process of its own, which can be killed and started again."""

    def __init__(self, server: str, folder: Path, *words: object):
        self.server = server
        self.folder = folder
        self.words = [str(word) for word in words]
        self.log = folder.with_name(f"{folder.name}.log")
        self.process: subprocess.Popen | None = None
        self.port = "0"
        self.start()

    def start(self) -> None:
        """Starts it, at the port that it had before."""
        command = [sys.executable, str(PROGRAM), "--server", self.server, "serve-git"]
        words = [str(self.folder), "--port", self.port, "--every", "0.2", *self.words]
        with self.log.open("ab") as log:
            self.process = subprocess.Popen(
                [*command, *words], stdout=subprocess.PIPE, stderr=log, env=GIT, text=True
            )
        assert self.process.stdout
        said = self.process.stdout.readline()
        assert said.startswith("git clone "), (said, self.log.read_text())
        self.url = said.split()[2]
        self.port = self.url.split(":")[2].partition("/")[0]

    def end(self, number: int = signal.SIGTERM) -> int:
        """Ends it by a signal."""
        assert self.process and self.process.stdout
        self.process.send_signal(number)
        status = self.process.wait(PATIENCE_SECONDS)
        self.process.stdout.close()
        return status

    @property
    def mirror(self) -> Path:
        return self.folder / "mirror.git"


class Clone:
    """Somebody's clone."""

    def __init__(self, url: str, folder: Path, trunk: str, *words: object):
        self.folder = folder
        self.trunk = trunk
        git(folder.parent, "clone", "-q", *words, url, folder.name)
        self.name = folder.name

    def git(self, *words: object, status: int | None = 0, **more: str) -> Said:
        return git(self.folder, *words, status=status, **more)

    def commit(self, path: str, data: bytes | str, message: str = "", **more: str) -> str:
        """Commits a file, and gives the commit."""
        place = self.folder / path
        place.parent.mkdir(parents=True, exist_ok=True)
        place.write_bytes(data if isinstance(data, bytes) else data.encode())
        self.git("add", "-A")
        return self.record(message or f"{self.name} sets {path}", **more)

    def record(self, message: str, **more: str) -> str:
        """Commits what is added."""
        who = {"NAME": self.name, "EMAIL": f"{self.name}@example.org"}
        named = {
            f"GIT_{role}_{key}": it for role in ("AUTHOR", "COMMITTER") for key, it in who.items()
        }
        self.git("commit", "-q", "--allow-empty", "-m", message, **(named | more))
        return self.at("HEAD")

    def silent(self, path: str) -> str:
        """Commits a file without a word of why, and gives the commit."""
        self.commit(path, "1", "said")
        who = {f"GIT_COMMITTER_{key}": self.name for key in ("NAME", "EMAIL")}
        self.git("commit", "-q", "--amend", "--allow-empty-message", "-m", "", **who)
        return self.at("HEAD")

    def at(self, name: str) -> str:
        """The commit of a name."""
        return self.git("rev-parse", name).out

    def push(self, *words: object, status: int = 0) -> str:
        """Pushes, and gives what git says."""
        return self.git("push", *(words or ("origin", self.trunk)), status=status).err

    def land(self, status: int = 0) -> str:
        """Pushes to be landed on the trunk, wherever that is."""
        return self.push("origin", f"HEAD:refs/for/{self.trunk}", status=status)

    def pull(self) -> None:
        self.git("pull", "-q", "--rebase")

    def is_even(self) -> bool:
        """Whether git says that it has what the remote has, and no more."""
        return "[" not in self.git("status", "-sb").out.partition("\n")[0]


class RemoteCase(Case):
    """A test with a bookmark of its own as trunk, and remotes before the server."""

    @classmethod
    def setUpClass(cls) -> None:
        if not shutil.which("git"):
            raise unittest.SkipTest("git")
        super().setUpClass()

    def setUp(self) -> None:
        super().setUp()
        self.trunk = fresh("main")
        self.ok("init", self.trunk)
        self.write("base")
        self.ok("commit", self.trunk, "-m", "base", "--set", f"base={self.folder / 'base'}")

    def remote(self, *words: object, name: str = "remote") -> Remote:
        """A remote until the test is over."""
        remote = Remote(self.server, self.folder / name, "--trunk", self.trunk, *words)
        self.addCleanup(remote.end)
        return remote

    def clone(self, remote: Remote, name: str, *words: object) -> Clone:
        return Clone(remote.url, self.folder / name, self.trunk, *words)

    def landings(self) -> list[dict[str, Any]]:
        """The landings on the trunk."""
        entries = self.ok("--json", "entries").documents
        return [it for it in entries if it["kind"] == "landing" and it["name"] == self.trunk]

    def head(self) -> str:
        """Where the trunk is."""
        return self.ask("bookmark", self.trunk)["head"]

    def until(self, holds: Callable[[], object], what: str) -> None:
        """Waits until it holds."""
        begun = time.monotonic()
        while not holds():
            self.assertLess(time.monotonic() - begun, 30, what)
            time.sleep(0.05)
