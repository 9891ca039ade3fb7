"""What the program is measured beside: hashes of the same bytes, and servers of the same answer.

A peer that needs a program which isn't installed is None."""

from __future__ import annotations

import hashlib
import multiprocessing
import shutil
import socket
import subprocess
import time
from collections.abc import Iterator
from contextlib import contextmanager
from dataclasses import dataclass
from pathlib import Path

from .process import Cost
from .program import cost_of

FORK = multiprocessing.get_context("fork")
HELLO = Path(__file__).with_name("hello.c")
END = b"\r\n\r\n"


@dataclass(frozen=True)
class Peer:
    """A running server that isn't the program."""

    pid: int
    address: tuple[str, int]


def hashed(pieces: list[bytes], times: int = 1) -> Cost:
    """The SHA-256 of each of these bytes, by Python's library (OpenSSL), in this process."""
    begun, used = time.monotonic(), time.process_time()
    for _ in range(times):
        for piece in pieces:
            hashlib.sha256(piece).digest()
    return Cost(times, time.monotonic() - begun, time.process_time() - used)


def openssl_hash(file: Path) -> Cost | None:
    """The SHA-256 of a file by `openssl dgst`."""
    found = shutil.which("openssl")
    return cost_of([found, "dgst", "-sha256", str(file)]) if found else None


@contextmanager
def hello_in_c(folder: Path, answer: bytes) -> Iterator[Peer | None]:
    """A server in C that answers each request so."""
    compiler = shutil.which("gcc") or shutil.which("cc")
    if not compiler:
        yield None
        return
    program, file = folder / "hello", folder / "answer"
    file.write_bytes(answer)
    subprocess.run([compiler, "-O2", "-D_GNU_SOURCE", "-o", program, HELLO], check=True)
    ran = subprocess.Popen([program, file], stdout=subprocess.PIPE, text=True)
    try:
        yield Peer(ran.pid, ("127.0.0.1", int(ran.stdout.readline())))
    finally:
        ran.kill()
        ran.wait()


@contextmanager
def hello_in_python(answer: bytes) -> Iterator[Peer]:
    """A server in Python that does the same."""
    listener = socket.create_server(("127.0.0.1", 0))
    ran = FORK.Process(target=serve_hello, args=(listener, answer), daemon=True)
    ran.start()
    try:
        yield Peer(ran.pid, listener.getsockname())
    finally:
        ran.kill()
        ran.join()
        listener.close()


def serve_hello(listener: socket.socket, answer: bytes) -> None:
    """One connection at a time: one write for what lies in the buffer."""
    while True:
        link, _ = listener.accept()
        link.setsockopt(socket.IPPROTO_TCP, socket.TCP_NODELAY, 1)
        held = b""
        while data := link.recv(65_536):
            held += data
            heads = held.count(END)
            held = held[held.rfind(END) + len(END) :] if heads else held
            link.sendall(heads * answer)


@contextmanager
def nginx(folder: Path, body: bytes) -> Iterator[Peer | None]:
    """nginx, as one process in the foreground, with a file of these bytes at /page."""
    found = shutil.which("nginx")
    if not found:
        yield None
        return
    with socket.create_server(("127.0.0.1", 0)) as free:
        port = free.getsockname()[1]
    (folder / "page").write_bytes(body)
    (folder / "nginx.conf").write_text(
        "daemon off; master_process off; pid nginx.pid; error_log stderr crit;\n"
        "events {}\n"
        "http { access_log off; keepalive_requests 1000000000; client_body_temp_path body;\n"
        "proxy_temp_path proxy; fastcgi_temp_path fastcgi; uwsgi_temp_path uwsgi;\n"
        "scgi_temp_path scgi; default_type application/json; open_file_cache max=8;\n"
        f"server {{ listen 127.0.0.1:{port}; root {folder}; }} }}\n"
    )
    ran = subprocess.Popen([found, "-p", str(folder), "-c", str(folder / "nginx.conf")])
    try:
        wait_for_port(port)
        yield Peer(ran.pid, ("127.0.0.1", port))
    finally:
        ran.kill()
        ran.wait()


def wait_for_port(port: int) -> None:
    """Until something listens there."""
    for _ in range(100):
        try:
            socket.create_connection(("127.0.0.1", port), timeout=1).close()
            return
        except OSError:
            time.sleep(0.1)
    raise SystemExit("scripts/bench: nginx doesn't listen")
