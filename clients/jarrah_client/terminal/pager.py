"""A program that shows what is told page by page, on a terminal alone."""

from __future__ import annotations

import io
import os
import shutil
import subprocess
import sys
from contextlib import suppress
from typing import IO, TextIO, cast

from ..net.server import Trouble
from ..settings import setting
from .progress import CLEAR, Progress

USUAL = "less"
NONE = ("", "cat")
"""What names no pager."""
ASKED = {"LESS": "FRX", "LV": "-c"}
"""What pagers are asked for where their users say nothing: colours, and one page without a stop."""
CANNOT_RUN = (126, 127)
"""What a shell ends with that can't run a command."""


class Screen(io.TextIOWrapper):
    """What leads to a pager on a terminal, so that lines are as on the terminal itself."""

    def isatty(self) -> bool:
        return True


class Pager:
    """A command of the shell, begun with the first line that is told."""

    def __init__(self, command: str):
        self.command = command
        self.process: subprocess.Popen[bytes] | None = None
        self.before: TextIO = sys.stdout

    def begin(self) -> None:
        """Has what is written from now on be shown by the pager, and nothing beside it."""
        if self.process:
            return
        if Progress.is_drawn:
            sys.stderr.write(CLEAR)
        Progress.is_hidden = True
        sys.stdout.flush()
        words = ["sh", "-c", self.command]
        self.process = subprocess.Popen(words, stdin=subprocess.PIPE, env=ASKED | os.environ)
        self.before = sys.stdout
        sys.stdout = Screen(cast("IO[bytes]", self.process.stdin), "utf-8", newline="\n")

    def end(self) -> None:
        """Waits until the person has seen enough; an interrupt is the pager's to take."""
        if not self.process:
            return
        with suppress(BrokenPipeError, KeyboardInterrupt):
            sys.stdout.close()
        sys.stdout = self.before
        status = None
        while status is None:
            with suppress(KeyboardInterrupt):
                status = self.process.wait()
        self.process = None
        Progress.is_hidden = False
        if status in CANNOT_RUN:
            why = "JARRAH_PAGER names another, and `--no-pager` asks for none"
            raise Trouble(f"the pager {self.command!r} can't be run: {why}")


def pager() -> Pager | None:
    """The pager of JARRAH_PAGER, the configuration file, PAGER or this machine, if any."""
    if not sys.stdout.isatty() or os.environ.get("TERM") == "dumb":
        return None
    command = os.environ.get("JARRAH_PAGER")
    if command is None:
        command = setting("pager") or os.environ.get("PAGER")
    if command is None:
        command = USUAL if shutil.which(USUAL) else ""
    return None if command.strip() in NONE else Pager(command)
