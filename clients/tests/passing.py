"""A server that passes requests on to another, as a proxy does: by TLS, or losing answers."""

from __future__ import annotations

import http.client
import ssl
import subprocess
import threading
from http.server import BaseHTTPRequestHandler, ThreadingHTTPServer
from pathlib import Path


LISTS = ("/changesets", "/stack/")
"""What an older server has no routes for."""


class Handler(BaseHTTPRequestHandler):
    """One connection."""

    protocol_version = "HTTP/1.1"
    server: Passing

    def answer(self) -> None:
        body = self.rfile.read(int(self.headers.get("Content-Length", 0)))
        self.server.asked.append(f"{self.command} {self.path}")
        is_lost = self.path.startswith(("/land/", "/stack/")) and self.server.loses
        if is_lost == "before":
            self.close_connection = True
            return
        status, data = self.passed(body)
        if is_lost:
            self.close_connection = True
            return
        self.send_response(status)
        self.send_header("Content-Length", str(len(data)))
        self.end_headers()
        self.wfile.write(data)

    do_GET = do_PUT = do_POST = answer

    def passed(self, body: bytes) -> tuple[int, bytes]:
        """What the server behind answers; the caller is the name in the certificate."""
        if self.server.is_older and self.path.startswith(LISTS):
            return 404, b'{"code":"no-route"}'
        behind = http.client.HTTPConnection(self.server.behind)
        behind.request(self.command, self.path, body, headers=self.caller())
        response = behind.getresponse()
        data = response.read()
        behind.close()
        return response.status, data

    def caller(self) -> dict[str, str]:
        shown = self.connection.getpeercert() if self.server.is_tls else None
        names = dict(one[0] for one in shown["subject"]) if shown else {}
        return {"Caller": names["commonName"]} if names else {}

    def log_message(self, format: str, *words: object) -> None:
        """Keeps quiet."""


class Passing(ThreadingHTTPServer):
    """The server. `loses` the answers of landings: `before` they are passed on, or `after`. One
    that `is_older` has no lists of changesets."""

    daemon_threads = True

    def __init__(
        self,
        url: str,
        loses: str = "",
        certificates: Path | None = None,
        is_older: bool = False,
    ):
        super().__init__(("127.0.0.1", 0), Handler)
        self.is_older = is_older
        self.asked: list[str] = []
        """Each request's method and target."""
        self.behind = url.removeprefix("http://")
        self.loses = loses
        self.is_tls = certificates is not None
        if certificates:
            context = ssl.SSLContext(ssl.PROTOCOL_TLS_SERVER)
            context.load_cert_chain(certificates / "server.pem")
            context.load_verify_locations(certificates / "people.crt")
            context.verify_mode = ssl.CERT_OPTIONAL
            self.context = context
            self.socket = context.wrap_socket(
                self.socket, server_side=True, do_handshake_on_connect=False
            )
        port = self.server_address[1]
        self.url = f"https://localhost:{port}" if self.is_tls else f"http://127.0.0.1:{port}"

    def __enter__(self) -> Passing:
        threading.Thread(target=self.serve_forever, args=(0.05,), daemon=True).start()
        return self

    def __exit__(self, *_: object) -> None:
        self.shutdown()
        self.server_close()

    def handle_error(self, request: object, client_address: object) -> None:
        """Keeps quiet of handshakes that fail."""


def certificates(folder: Path) -> None:
    """A server's certificate, an authority of people with alice's, and one of mallory's own."""
    key = ("-newkey", "ec", "-pkeyopt", "ec_paramgen_curve:P-256", "-nodes")
    for name in ("localhost", "people", "mallory"):
        own = ("req", "-x509", *key, "-subj", f"/CN={name}", "-keyout", f"{name}.key")
        more = ("-addext", "subjectAltName=DNS:localhost") if name == "localhost" else ()
        openssl(folder, *own, "-out", f"{name}.crt", *more)
    openssl(folder, "req", *key, "-subj", "/CN=alice", "-keyout", "alice.key", "-out", "alice.csr")
    signed = ("-CA", "people.crt", "-CAkey", "people.key", "-CAcreateserial")
    openssl(folder, "x509", "-req", "-in", "alice.csr", *signed, "-out", "alice.crt")
    for name, place in (("localhost", "server.pem"), ("alice", "alice.pem")):
        pair = ((folder / f"{name}.{end}").read_text() for end in ("crt", "key"))
        (folder / place).write_text("".join(pair))


def openssl(folder: Path, *words: str) -> None:
    subprocess.run(["openssl", *words], cwd=folder, check=True, capture_output=True)
