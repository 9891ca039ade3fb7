"""The program that scripts try, built by `scripts/run` where its sources are newer."""

from __future__ import annotations

import os
import subprocess
from pathlib import Path

TOP = Path(__file__).resolve().parents[2]


def built(unproved: bool) -> Path:
    """The program, proved or not. With JARRAH_UNPROVED=1 it isn't proved either way."""
    unproved = unproved or os.environ.get("JARRAH_UNPROVED") == "1"
    kind = ["--unproved"] if unproved else []
    subprocess.run(
        [TOP / "scripts" / "run", *kind, "fsck", TOP / "crates" / "hg_cli" / "data" / "repository"],
        check=True,
        stdout=subprocess.DEVNULL,
    )
    return TOP / ("out/unproved/hg_cli" if unproved else "crates/hg_cli/out/hg_cli")
