"""The client behind the proxy, as somebody and as nobody."""

from __future__ import annotations

import json
import os
import subprocess
import sys
from pathlib import Path

from .programs import TOP, wants

MOST_SECONDS = 60
POLICY = "allow alice /\n"
BOOKMARK = "people"


class Person:
    """Runs of the client by who has a certificate, or by nobody."""

    def __init__(self, folder: Path, url: str, name: str | None):
        self.folder = folder
        files = {"CA": "server.crt"} | ({"CERT": f"{name}.crt", "KEY": f"{name}.key"} if name else {})
        own = {f"JARRAH_{key}": str(folder / file) for key, file in files.items()}
        kept = {key: it for key, it in os.environ.items() if not key.startswith("JARRAH_")}
        own |= {"JARRAH_SERVER": url, "JARRAH_AUTHOR": name or "nobody"}
        self.environment = kept | own | {"XDG_CACHE_HOME": str(folder), "XDG_CONFIG_HOME": str(folder)}

    def run(self, *words: object) -> subprocess.CompletedProcess:
        command = [sys.executable, TOP / "clients" / "jarrah", "--json", *words]
        return subprocess.run(
            [str(it) for it in command],
            cwd=self.folder,
            env=self.environment,
            stdin=subprocess.DEVNULL,
            capture_output=True,
            timeout=MOST_SECONDS,
            text=True,
            check=False,
        )

    def done(self, *words: object) -> list[dict]:
        """What a run tells, which has to end well."""
        ran = self.run(*words)
        wants(ran.returncode == 0, f"jarrah {' '.join(map(str, words))}: {ran.stderr}")
        return [json.loads(line) for line in ran.stdout.splitlines()]

    def denied(self, *words: object) -> None:
        """A run that the policy has to deny."""
        ran = self.run(*words)
        found = json.loads(ran.stderr or "{}").get("code")
        wants(ran.returncode == 1 and found == "denied", f"nobody is denied: {ran.stderr}")


def lands_as(folder: Path, port: int) -> str:
    """Alice lands by the client and her certificate, the log names her, and nobody else lands."""
    alice, nobody = (Person(folder, f"https://localhost:{port}", name) for name in ("alice", None))
    alice.done("init", BOOKMARK)
    (folder / "policy").write_text(POLICY)
    alice.done("policy", "--set", "policy")
    commit = ("commit", BOOKMARK, "-m", "by name", "--set", "a=policy")
    landed = alice.done(*commit)[0]
    entry = [it for it in alice.done("entries") if it["kind"] == "landing"][-1]
    wants(entry.get("caller") == "alice", f"the landing's entry names alice: {entry}")
    wants(entry["ids"] == landed["ids"], "the entry is that of the landing")
    nobody.denied(*commit)
    in_a_copy(alice, folder / "copy")
    return "jarrah landed as alice by her certificate, from outside and in a working copy; without one it was denied"


def in_a_copy(alice: Person, top: Path) -> None:
    """A draft of a working copy is landed too."""
    alice.done("checkout", BOOKMARK, top)
    (top / "b").write_text("b\n")
    there = Person(alice.folder, alice.environment["JARRAH_SERVER"], "alice")
    there.folder = top
    made = there.done("commit", "-m", "in a working copy")[0]
    landed = there.done("land")[0]
    wants(landed["ids"] == [made["id"]], "the draft landed")
