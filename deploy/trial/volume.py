"""A replicated volume of glusterfs on one machine, in namespaces of its own."""

from __future__ import annotations

import hashlib
import os
import shutil
import signal
import subprocess
from pathlib import Path

from .programs import Failed, until, wants

VOLUME = "repository"
HERE, THERE = "10.77.0.1", "10.77.0.2"
"""The address of the machine that has the bricks and the standby, and that of the other machine."""
INSIDE = ("nsenter", "--net=/run/netns/other")
"""Puts a command on the other machine: the same files, and a network of its own."""
BRICKS = 3
OPTIONS = {
    "group": "db-workload",
    "performance.open-behind": "off",
    "cluster.quorum-type": "auto",
    "client.strict-locks": "on",
    "network.ping-timeout": "5",
    "server.tcp-user-timeout": "10",
    "server.keepalive-time": "5",
    "server.keepalive-interval": "1",
    "server.keepalive-count": "5",
}
"""What docs/OPERATIONS.md has for such a volume, and why."""
MOUNTED = "direct-io-mode=enable,attribute-timeout=0,entry-timeout=0"


def run(*words: object) -> str:
    """The output of a command that has to end well."""
    done = subprocess.run([str(it) for it in words], capture_output=True, text=True, timeout=120, check=False)
    if done.returncode:
        raise Failed(f"{' '.join(map(str, words))}: {done.stdout}{done.stderr}".strip())
    return done.stdout


def gluster(*words: object) -> str:
    return run("gluster", "--mode=script", "volume", *words)


def isolate() -> None:
    """Folders and networks of its own, in the namespaces that this program was started in."""
    groups = Path("/var/lib/glusterd/groups")
    kept = {it.name: it.read_text() for it in groups.iterdir()} if groups.is_dir() else {}
    for folder in ("/run", "/var/log", "/var/lib/glusterd"):
        run("mount", "-t", "tmpfs", "tmpfs", folder)
    for folder in ("/run/gluster", "/var/log/glusterfs", groups):
        os.makedirs(folder)
    for name, text in kept.items():
        (groups / name).write_text(text)
    run("ip", "link", "set", "lo", "up")
    run("ip", "netns", "add", "other")
    run("ip", "link", "add", "here", "type", "veth", "peer", "name", "there", "netns", "other")
    run("ip", "address", "add", f"{HERE}/24", "dev", "here")
    run("ip", "link", "set", "here", "up")
    run("ip", "-n", "other", "address", "add", f"{THERE}/24", "dev", "there")
    for device in ("there", "lo"):
        run("ip", "-n", "other", "link", "set", device, "up")


class Volume:
    """Three bricks, and a mount on each of two machines."""

    def __init__(self, folder: Path):
        self.bricks = [folder / f"brick-{it}" for it in range(BRICKS)]
        self.here, self.there = folder / "here", folder / "there"
        for it in (*self.bricks, self.here, self.there):
            it.mkdir()
        run("glusterd", "--log-level=WARNING")
        until(lambda: answers("gluster", "volume", "list"), "glusterd answers")
        gluster("create", VOLUME, "replica", BRICKS, *(f"{HERE}:{it}" for it in self.bricks), "force")
        for name, value in OPTIONS.items():
            gluster("set", VOLUME, name, value)
        gluster("start", VOLUME)
        run("mount", "-t", "glusterfs", "-o", MOUNTED, f"{HERE}:/{VOLUME}", self.here)
        run(*INSIDE, "mount", "-t", "glusterfs", "-o", MOUNTED, f"{HERE}:/{VOLUME}", self.there)

    def kill_brick(self, number: int) -> None:
        """Kills the process that serves a brick. It is waited for, as the first process of these namespaces has to."""
        name = str(self.bricks[number]).strip("/").replace("/", "-")
        file = Path(f"/run/gluster/vols/{VOLUME}/{HERE}-{name}.pid")
        process = int(file.read_text())
        os.kill(process, signal.SIGKILL)
        os.waitpid(process, 0)

    def start_bricks(self) -> None:
        """Starts the bricks that were killed."""
        gluster("start", VOLUME, "force")

    def heal(self) -> float:
        """Has all healed, and waits until no file is left to heal; how many seconds that took."""
        said = ""
        until(lambda: answers("gluster", "--mode=script", "volume", "heal", VOLUME), "the healing is begun")

        def is_whole() -> bool:
            nonlocal said
            said = gluster("heal", VOLUME, "info")
            return said.count("Number of entries: 0\n") == BRICKS and said.count("Status: Connected") == BRICKS

        try:
            return until(is_whole, "all bricks are connected and healed", 120)
        except Failed as fault:
            raise Failed(f"{fault}\n{said}") from None

    def check_copies(self, name: str) -> None:
        """Fails where the bricks' copies of a file differ."""
        sums = {hashlib.sha256((it / name).read_bytes()).hexdigest() for it in self.bricks}
        wants(len(sums) == 1, "the bricks have the same bytes")

    def end(self) -> None:
        for it in (self.here, self.there):
            subprocess.run(["umount", "-l", it], check=False, capture_output=True)
        subprocess.run(["gluster", "--mode=script", "volume", "stop", VOLUME, "force"], check=False, capture_output=True)
        for it in self.bricks:
            shutil.rmtree(it, ignore_errors=True)


def cut(is_cut: bool) -> None:
    """Cuts the other machine's network, or mends it."""
    run("ip", "link", "set", "here", "down" if is_cut else "up")


def answers(*words: str) -> bool:
    return subprocess.run(words, capture_output=True, check=False).returncode == 0
