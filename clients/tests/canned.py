"""A server that gives one answer to every request, for refusals that can't be provoked."""

from __future__ import annotations

import json
import threading
from http.server import BaseHTTPRequestHandler, ThreadingHTTPServer


class Handler(BaseHTTPRequestHandler):
    """Answers all methods alike."""

    protocol_version = "HTTP/1.1"
    server: Canned

    def answer(self) -> None:
        self.rfile.read(int(self.headers.get("Content-Length", 0)))
        data = self.server.data
        self.send_response(self.server.status)
        self.send_header("Content-Length", str(len(data)))
        self.end_headers()
        self.wfile.write(data)

    do_GET = do_PUT = do_POST = answer

    def log_message(self, format: str, *words: object) -> None:
        """Keeps quiet."""


class Canned(ThreadingHTTPServer):
    """The server; `say` sets its answer."""

    daemon_threads = True

    def __init__(self) -> None:
        super().__init__(("127.0.0.1", 0), Handler)
        self.url = f"http://127.0.0.1:{self.server_address[1]}"
        self.say(200, b"")

    def say(self, status: int, answer: bytes | dict) -> None:
        self.status = status
        self.data = answer if isinstance(answer, bytes) else json.dumps(answer).encode()

    def __enter__(self) -> Canned:
        threading.Thread(target=self.serve_forever, args=(0.05,), daemon=True).start()
        return self

    def __exit__(self, *_: object) -> None:
        self.shutdown()
        self.server_close()
