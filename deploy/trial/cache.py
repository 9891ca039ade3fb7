"""nginx with the file of this folder: a rack's cache of reads by id."""

from __future__ import annotations

import os
import re
from pathlib import Path

from .programs import Program, free_port, listens, until, wants

CACHE = Path(__file__).resolve().parents[1] / "nginx-by-id.conf"
WHOLE = """
daemon off;
{user}
worker_processes 1;
pid {folder}/pid;
error_log {folder}/errors.log;
events {{ worker_connections 512; }}
http {{
    client_body_temp_path {folder}/bodies;
    proxy_temp_path {folder}/answers;
    fastcgi_temp_path {folder}/fastcgi;
    uwsgi_temp_path {folder}/uwsgi;
    scgi_temp_path {folder}/scgi;
    include {folder}/by-id.conf;
}}
"""
"""What stands around a file of /etc/nginx/conf.d, in a folder of its own."""


class Cache(Program):
    """nginx before copies and a proxy, with the lines edited that are to be."""

    def __init__(self, folder: Path, copies: list[str], proxy: int, trusted: Path):
        self.port, self.folder = free_port(), folder
        folder.mkdir()
        edits = {
            "127.0.0.1:8083;": f"{copies[0]};",
            "127.0.0.1:8084;": f"{copies[1]};",
            "127.0.0.1:443;": f"127.0.0.1:{proxy};",
            "listen 8085;": f"listen 127.0.0.1:{self.port};",
            "/etc/ssl/certs/ca-certificates.crt": str(trusted),
            "/var/lib/nginx/jarrahchess": str(folder / "cache"),
            "/var/log/nginx/jarrahchess.log": str(folder / "reads.log"),
        }
        text = CACHE.read_text()
        for old, new in edits.items():
            wants(text.count(old) == 1, f"{CACHE.name} has {old} once")
            text = text.replace(old, new)
        (folder / "by-id.conf").write_text(text)
        user = "user root;" if os.geteuid() == 0 else ""
        (folder / "nginx.conf").write_text(WHOLE.format(folder=folder, user=user))
        super().__init__(folder / "said.log", "nginx", "-p", folder, "-c", folder / "nginx.conf")
        until(lambda: listens(self.port), "nginx listens")

    def statuses(self, target: str) -> list[str]:
        """What the cache was for the reads of a target, in order: MISS, HIT; `-` where it isn't asked."""
        line = rf'"GET {re.escape(target)} HTTP/1\.1" \d+ \d+ cache=(\S+)'
        return re.findall(line, (self.folder / "reads.log").read_text())

    def counts(self) -> dict[str, int]:
        """How many reads had each status of the cache."""
        told: dict[str, int] = {}
        for it in re.findall(r" cache=(\S+)", (self.folder / "reads.log").read_text()):
            told[it] = told.get(it, 0) + 1
        return told
