"""Texts that a person writes in an editor."""

from __future__ import annotations

import os
import subprocess
import sys
import tempfile
from collections.abc import Iterable
from pathlib import Path

from ..net.server import Trouble
from ..settings import setting

PREFIX = "JARRAH:"
"""Lines that begin so tell the person something, and aren't taken."""


def edited(text: str, told: Iterable[str], place: Path | None = None) -> str:
    """What a person makes of a text, under which some lines are told.

    It is written to a place, or to a file that is removed. Without a terminal or an editor it is
    refused.
    """
    command = need_editor()
    shown = "".join(f"{PREFIX} {line}".rstrip() + "\n" for line in told)
    with tempfile.TemporaryDirectory(prefix="jarrah-") as folder:
        file = place or Path(folder) / "message"
        try:
            file.write_text(f"{text}\n{shown}", encoding="utf-8")
            run(command, file)
            lines = file.read_text(encoding="utf-8").splitlines()
        except UnicodeDecodeError:
            raise Trouble(f"{file} isn't UTF-8") from None
        except OSError as fault:
            raise Trouble(f"{file}: {fault.strerror}") from None
    return "\n".join(line.rstrip() for line in lines if not line.startswith(PREFIX)).strip()


def need_editor() -> str:
    """The editor's command, where there is a terminal that it can be shown on."""
    if not (sys.stdin.isatty() and sys.stdout.isatty()):
        raise Trouble("there is no terminal for an editor")
    command = setting("editor") or os.environ.get("VISUAL") or os.environ.get("EDITOR")
    if not command:
        raise Trouble("there is no editor: EDITOR names one")
    return command


def run(command: str, file: Path) -> None:
    """Runs an editor, which may have words of its own, on a file."""
    done = subprocess.run(["sh", "-c", f'{command} "$@"', command, str(file)], check=False)
    if done.returncode:
        raise Trouble(f"the editor ended with status {done.returncode}: nothing is done")
