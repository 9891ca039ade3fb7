"""Programs that a trial starts and ends."""

from __future__ import annotations

import grp
import os
import pwd
import re
import signal
import socket
import subprocess
import time
from collections.abc import Callable
from pathlib import Path

TOP = Path(__file__).resolve().parents[2]
SERVE = TOP / "scripts" / "serve"
HAPROXY = TOP / "deploy" / "haproxy.cfg"
PATIENCE = 60.0
"""Seconds after which something that is waited for has failed."""
LANES = 1_024
"""Of a server behind the proxy, as the unit has it."""


class Failed(Exception):
    """Something isn't as it has to be."""


def wants(holds: bool, what: str) -> None:
    """Fails where it doesn't hold."""
    if not holds:
        raise Failed(what)


def until(holds: Callable[[], object], what: str, seconds: float = PATIENCE) -> float:
    """Waits until it holds, and tells how many seconds that took."""
    begun = time.monotonic()
    while not holds():
        wants(time.monotonic() - begun < seconds, f"{what}: not within {seconds:.0f} s")
        time.sleep(0.02)
    return time.monotonic() - begun


def free_port() -> int:
    """A port of the loopback address that nothing listens at."""
    with socket.socket() as it:
        it.bind(("127.0.0.1", 0))
        return it.getsockname()[1]


def free_address() -> str:
    return f"127.0.0.1:{free_port()}"


def listens(port: int) -> bool:
    try:
        socket.create_connection(("127.0.0.1", port), timeout=1).close()
    except OSError:
        return False
    return True


class Program:
    """A program with its output in a file."""

    def __init__(self, log: Path, *words: object, **environment: object):
        self.log = log
        variables = {**os.environ, **{key: str(it) for key, it in environment.items()}}
        with open(log, "wb") as output:
            self.process = subprocess.Popen(
                [str(it) for it in words],
                stdin=subprocess.DEVNULL,
                stdout=output,
                stderr=subprocess.STDOUT,
                env=variables,
            )

    def said(self) -> str:
        return self.log.read_text(errors="replace")

    def runs(self) -> bool:
        return self.process.poll() is None

    def end(self, number: int = signal.SIGTERM) -> int:
        """Sends the signal, and gives the status."""
        if self.runs():
            self.process.send_signal(number)
        try:
            return self.process.wait(PATIENCE)
        except subprocess.TimeoutExpired:
            self.process.kill()
            raise Failed(f"{self.process.args} didn't end by signal {number}") from None


class Service(Program):
    """`scripts/serve` with a repository, behind the words that put it elsewhere."""

    def __init__(self, log: Path, file: Path, address: str, *words: object, behind: tuple = ()):
        self.file, self.address = file, address
        super().__init__(log, *behind, SERVE, file, "--address", address, *words)

    def starts(self) -> int:
        """How often the program was started."""
        return len(re.findall(r" start \d+: ", self.said()))

    def program(self) -> int:
        """The process of the program that it runs."""
        children = Path(f"/proc/{self.process.pid}/task/{self.process.pid}/children").read_text()
        found = [int(it) for it in children.split() if is_program(int(it))]
        wants(len(found) == 1, "scripts/serve runs one program")
        return found[0]

    def kill_program(self) -> None:
        os.kill(self.program(), signal.SIGKILL)

    def kill(self) -> None:
        """Kills it and its program at once, so that nothing starts the program again."""
        program = self.program()
        self.process.kill()
        os.kill(program, signal.SIGKILL)
        self.process.wait(PATIENCE)


def is_program(process: int) -> bool:
    try:
        return Path(f"/proc/{process}/exe").resolve().name.startswith("hg_cli")
    except OSError:
        return False


class Proxy(Program):
    """haproxy with the file of this folder, before the servers at these addresses."""

    def __init__(self, folder: Path, first: str, second: str, *, file: Path = HAPROXY, **more: object):
        self.port, self.metrics_port = free_port(), free_port()
        super().__init__(
            folder / f"haproxy-{self.port}.log",
            *("haproxy", "-db", "-f", file),
            JARRAH_LISTEN=f"127.0.0.1:{self.port}",
            JARRAH_CERTIFICATE=folder / "server.pem",
            JARRAH_PEOPLE=folder / "people.crt",
            JARRAH_USER=pwd.getpwuid(os.geteuid()).pw_name,
            JARRAH_GROUP=grp.getgrgid(os.getegid()).gr_name,
            JARRAH_METRICS=f"127.0.0.1:{self.metrics_port}",
            JARRAH_FIRST=first,
            JARRAH_SECOND=second,
            **more,
        )


def certificates(folder: Path) -> None:
    """A server's certificate, an authority of people with one of alice, and one of mallory that nobody signed."""
    key = ["-newkey", "ec", "-pkeyopt", "ec_paramgen_curve:P-256", "-nodes", "-days", "2"]
    names = ["-addext", "subjectAltName=DNS:localhost,IP:127.0.0.1"]
    own = ["req", "-x509", *key]
    openssl(folder, *own, "-subj", "/CN=localhost", *names, "-keyout", "server.key", "-out", "server.crt")
    openssl(folder, *own, "-subj", "/CN=people", "-keyout", "people.key", "-out", "people.crt")
    openssl(folder, *own, "-subj", "/CN=mallory", "-keyout", "mallory.key", "-out", "mallory.crt")
    openssl(folder, "req", *key[:5], "-subj", "/CN=alice", "-keyout", "alice.key", "-out", "alice.csr")
    signed = ["-CA", "people.crt", "-CAkey", "people.key", "-CAcreateserial", "-days", "2"]
    openssl(folder, "x509", "-req", "-in", "alice.csr", *signed, "-out", "alice.crt")
    pair = (folder / "server.crt").read_text() + (folder / "server.key").read_text()
    (folder / "server.pem").write_text(pair)


def openssl(folder: Path, *words: str) -> None:
    subprocess.run(["openssl", *words], cwd=folder, check=True, capture_output=True)
