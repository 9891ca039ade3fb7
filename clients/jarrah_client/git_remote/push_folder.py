"""The repository of one push: what git has of it lies there alone, and goes with it.

It borrows the mirror's objects and shows the mirror's branches. So pushes don't meet one another,
only the export writes to the mirror, and nothing of a push that is refused stays.
"""

from __future__ import annotations

import os
import shlex
import shutil
import sys
import tempfile
from collections.abc import Iterator
from contextlib import contextmanager
from pathlib import Path

from .mirror import make_bare, prepare

HOOK = Path(__file__).with_name("hook.py")
MIRROR_OBJECTS = "../../../../mirror.git/objects\n"
"""Where a push's objects find the mirror's."""
PACKED = "# pack-refs with: peeled fully-peeled sorted \n"


class PushFolders:
    """Makes the repositories of pushes from a pattern."""

    def __init__(self, folder: Path, trunk: str):
        self.folder = folder / "pushes"
        self.pattern = folder / "pattern.git"
        for place in (self.folder, self.pattern):
            shutil.rmtree(place, ignore_errors=True)
        self.folder.mkdir(parents=True)
        make_bare(self.pattern)
        prepare(self.pattern, trunk)
        (self.pattern / "objects" / "info").mkdir(exist_ok=True)
        (self.pattern / "objects" / "info" / "alternates").write_text(MIRROR_OBJECTS)
        self.write_hook()

    def write_hook(self) -> None:
        """Has git run the hook by the Python that runs this."""
        hook = self.pattern / "hooks" / "proc-receive"
        hook.parent.mkdir(exist_ok=True)
        hook.write_text(f"#!/bin/sh\nexec {shlex.join([sys.executable, '-I', '-S', str(HOOK)])}\n")
        hook.chmod(0o755)

    @contextmanager
    def made(self, refs: dict[str, str]) -> Iterator[Path]:
        """The repository of a push onto these branches, until it is over."""
        above = Path(tempfile.mkdtemp(dir=self.folder))
        directory = above / "push.git"
        try:
            shutil.copytree(self.pattern, directory)
            rows = (f"{refs[ref]} {ref}\n" for ref in sorted(refs, key=os.fsencode))
            (directory / "packed-refs").write_text(PACKED + "".join(rows))
            yield directory
        finally:
            shutil.rmtree(above, ignore_errors=True)
