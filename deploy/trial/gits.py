"""Git's own client, behind the proxy: whose push it is, and packs that are longer than any other body."""

from __future__ import annotations

import os
import subprocess
from pathlib import Path

from .ledger import BOOKMARK
from .programs import HAPROXY, TOP, Program, Proxy, free_address, listens, until, wants

JARRAH = TOP / "clients" / "jarrah"
LARGE = 1_200_000
"""Bytes of a file whose push has a longer body than the proxy takes of other clients."""
ENVIRONMENT = {name: it for name, it in os.environ.items() if not name.startswith("GIT_")}
ENVIRONMENT |= {
    "GIT_CONFIG_GLOBAL": os.devnull,
    "GIT_TERMINAL_PROMPT": "0",
    **{f"GIT_{role}_NAME": "A Trial" for role in ("AUTHOR", "COMMITTER")},
    **{f"GIT_{role}_EMAIL": "trial@example.org" for role in ("AUTHOR", "COMMITTER")},
}


class Clone:
    """A clone, which shows some person's certificate, or none."""

    def __init__(self, folder: Path, name: str, url: str, person: str | None = None):
        self.folder = folder / name
        self.settings = [f"http.sslCAInfo={folder / 'server.crt'}", "http.extraHeader=Caller: root"]
        if person:
            self.settings += [f"http.sslCert={folder / person}.crt", f"http.sslKey={folder / person}.key"]
        wants(self.git("clone", "-q", url, self.folder, at=folder)[0] == 0, f"{name} clones")

    def git(self, *words: object, at: Path | None = None) -> tuple[int, str]:
        """The status of a run of git, and what it said."""
        settings = [word for it in self.settings for word in ("-c", it)]
        done = subprocess.run(
            ["git", *settings, *map(str, words)],
            cwd=at or self.folder,
            env=ENVIRONMENT,
            capture_output=True,
            timeout=60,
        )
        return done.returncode, done.stdout.decode() + done.stderr.decode()

    def push(self, name: str, data: bytes = b"1") -> tuple[int, str]:
        """Commits a file and has it landed."""
        (self.folder / name).parent.mkdir(exist_ok=True)
        (self.folder / name).write_bytes(data)
        for words in (("add", "-A"), ("commit", "-q", "-m", name)):
            wants(self.git(*words)[0] == 0, f"{name} is committed")
        return self.git("push", "origin", f"HEAD:refs/for/{BOOKMARK}")


def pushes(folder: Path, server: str) -> str:
    """Tries it, with a remote and a proxy of its own before a server."""
    address, config = free_address(), folder / "haproxy-people.cfg"
    config.write_text(HAPROXY.read_text().replace("userlist people\n", "userlist people\n    user bob insecure-password secret\n"))
    words = (JARRAH, "--server", f"http://{server}", "serve-git", folder / "remote", "--port", address.split(":")[1])
    remote = Program(folder / "remote.log", *words)
    named = {"JARRAH_GIT": address, "JARRAH_PUSHERS": "named"}
    proxy = Proxy(folder, server, free_address(), file=config, **named)
    try:
        until(lambda: "git clone" in remote.said(), "the remote listens")
        until(lambda: listens(proxy.port), "the proxy listens")
        place = f"localhost:{proxy.port}/repository.git"
        until(lambda: answers(folder, f"https://{place}"), "the proxy has a remote")
        return named_pushes(folder, place, remote)
    finally:
        proxy.end()
        status = remote.end()
        wants(status == 0, f"SIGTERM ends the remote with status 0, and not {status}")


def answers(folder: Path, url: str) -> bool:
    words = ["git", "-c", f"http.sslCAInfo={folder / 'server.crt'}", "ls-remote", url]
    return subprocess.run(words, env=ENVIRONMENT, capture_output=True).returncode == 0


def named_pushes(folder: Path, place: str, remote: Program) -> str:
    """Pushes by a certificate, by a password, and by neither."""
    alice = Clone(folder, "alice-clone", f"https://{place}", "alice")
    for buffer in (LARGE * 2, 65_536):
        alice.git("config", "http.postBuffer", buffer)
        told = alice.push(".jarrah/large", os.urandom(LARGE))
        wants("the element `.jarrah`" in told[1], f"a push of {LARGE} bytes arrives: {told}")
        alice.git("reset", "-q", "--hard", "HEAD~1")
    told = alice.push("a")
    wants(told[0] == 0 and "landed 1 commit" in told[1], f"a push lands: {told}")
    wants("push by alice " in remote.said(), "the certificate's name is the caller, and a forged one isn't")
    bob = Clone(folder, "bob-clone", f"https://bob:secret@{place}")
    told = bob.push("b")
    wants(told[0] == 0 and "push by bob " in remote.said(), f"a password's name is the caller: {told}")
    before = remote.said().count("push by")
    for name, who in (("stranger", ""), ("wrong", "bob:wrong@")):
        clone = Clone(folder, name, f"https://{place}")
        clone.git("remote", "set-url", "origin", f"https://{who}{place}")
        told = clone.push(name)
        wants(told[0] != 0, f"a push of {name} is refused: {told}")
    wants(remote.said().count("push by") == before, "a push without a name doesn't reach the remote")
    wants("root" not in remote.said(), "a forged Caller is removed")
    return (
        "git clones over TLS; pushes by a certificate and by a password are landed by those names, pushes without a name"
        f" or with a wrong password are refused by the proxy, and packs of over {LARGE} bytes pass it"
    )
