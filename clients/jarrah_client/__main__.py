"""Runs the client: `python3 -m jarrah_client`, and `jarrah` where it is installed."""

from __future__ import annotations

import io
import sys

from .cli import main


def run() -> int:
    """Runs the words of the command line, and writes text as UTF-8 wherever it goes."""
    for stream in (sys.stdout, sys.stderr):
        if isinstance(stream, io.TextIOWrapper):
            stream.reconfigure(encoding="utf-8")
    return main(sys.argv[1:])


if __name__ == "__main__":
    sys.exit(run())
