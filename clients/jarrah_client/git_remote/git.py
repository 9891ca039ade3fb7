"""Commands of git on the remote's own repositories, apart from what else is set on the machine."""

from __future__ import annotations

import os
import subprocess
from pathlib import Path

from ..net.server import Trouble

SEPARATE = {
    "GIT_CONFIG_GLOBAL": os.devnull,
    "GIT_CONFIG_NOSYSTEM": "1",
    "GIT_TERMINAL_PROMPT": "0",
    "LC_ALL": "C",
}
NOTHING = "0" * 40
"""What git calls the commit of a branch that isn't there."""


class GitFault(Trouble):
    """A command of git failed on a repository of the remote."""


def environment(**more: str) -> dict[str, str]:
    """What git's programs get: nothing that another repository or a user has set."""
    kept = {name: value for name, value in os.environ.items() if not name.startswith("GIT_")}
    return kept | SEPARATE | more


def separate() -> None:
    """The same for all that this process starts."""
    for name in [name for name in os.environ if name.startswith("GIT_")]:
        del os.environ[name]
    os.environ.update(SEPARATE)


def git(directory: Path, *words: str, data: bytes = b"") -> str:
    """What a command of git says of a repository."""
    try:
        done = subprocess.run(
            ["git", f"--git-dir={directory}", *words],
            input=data,
            capture_output=True,
            env=environment(),
        )
    except OSError as fault:
        raise GitFault(f"git can't be run: {fault.strerror}") from None
    if done.returncode:
        said = done.stderr.decode(errors="replace").strip().partition("\n")[0]
        raise GitFault(said or f"git {words[0]} failed")
    return done.stdout.decode(errors="surrogateescape").strip()


def is_git_fine(directory: Path, *words: str, data: bytes = b"") -> bool:
    """Whether a command of git ends well."""
    try:
        git(directory, *words, data=data)
    except GitFault:
        return False
    return True
