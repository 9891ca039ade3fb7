"""Writing and deleting files of a working copy, each whole or not at all."""

from __future__ import annotations

import os
import shutil
import stat
import threading
from contextlib import closing, suppress
from pathlib import Path

from ..formats.changesets import File
from ..net.contents import Data
from ..net.pipeline import contents
from ..net.server import Server, Trouble
from ..trees.checkout import Files, Times, cannot, write
from .state import FOLDER, Stamp

COMING = "coming"
"""Begins the names of what is written before it is put in its place."""


class Putter:
    """Puts files at paths of a folder, one after another; each thread and process has its own.

    A folder above a path is looked at once, so none is taken away meanwhile.
    """

    def __init__(self, top: Path):
        self.top = top
        self.coming = f"{top}/{FOLDER}/{COMING}-{os.getpid()}-{threading.get_ident()}"
        self.known: set[str] = set()

    def put(self, path: str, file: File, data: Data) -> Times:
        """Puts a file at a path, in place of one that is there, and gives its times."""
        place, above = f"{self.top}/{path}", path.rpartition("/")[0]
        try:
            if above not in self.known:
                need_folders(self.top, path)
                self.known.add(above)
            times = write(self.coming, file, data)
            try:
                os.replace(self.coming, place)
            except IsADirectoryError:
                os.rmdir(place)
                os.replace(self.coming, place)
            return times[0], times[1], os.lstat(place).st_ctime_ns
        except (OSError, ValueError) as fault:
            raise cannot(place, fault) from None


def put(top: Path, path: str, file: File, data: Data) -> Stamp:
    """Puts a file at a path, in place of one that is there, and gives its stamp."""
    clear_coming(top)
    return Stamp(*Putter(top).put(path, file, data))


def put_chunk(server: Server, chunk: Files, top: Path) -> list[Times]:
    """Reads and puts some files, and gives their times."""
    putter = Putter(top)
    with closing(contents(server, [file for _, file in chunk])) as coming:
        return [putter.put(path, file, data) for (path, file), data in zip(chunk, coming)]


def clear_coming(top: Path) -> None:
    """Takes away what a run that was killed was writing."""
    for place in (top / FOLDER).glob(f"{COMING}*"):
        place.unlink(missing_ok=True)


def need_folders(top: Path, path: str) -> None:
    """Makes the folders above a path, and refuses to go through a link."""
    folder = top
    for element in path.split("/")[:-1]:
        folder = folder / element
        if folder.is_symlink():
            raise Trouble(f"{folder} is a link, and nothing is written through it")
        folder.mkdir(exist_ok=True)


class Ways:
    """The ways to paths of a folder. Each folder above them is looked at once: what is put and
    removed meanwhile lies under folders, and not in their place."""

    def __init__(self, top: Path):
        self.top = os.fspath(top)
        self.known: dict[str, str | None] = {"": None}

    def end(self, folder: str) -> str | None:
        """The file or link at or above the path of a folder, at which the way there ends."""
        if folder not in self.known:
            found = self.end(folder.rpartition("/")[0])
            if found is None:
                mode = self.mode(folder)
                found = folder if mode and not stat.S_ISDIR(mode) else None
            self.known[folder] = found
        return self.known[folder]

    def mode(self, path: str) -> int:
        """What is at a path, links being themselves, or 0 where nothing is."""
        try:
            return os.lstat(f"{self.top}/{path}").st_mode
        except (FileNotFoundError, NotADirectoryError):
            return 0

    def is_file(self, path: str) -> bool:
        """Whether a file or a link of the folder's own is at a path."""
        if self.end(path.rpartition("/")[0]):
            return False
        mode = self.mode(path)
        return stat.S_ISREG(mode) or stat.S_ISLNK(mode)

    def blocked_by(self, path: str) -> str | None:
        """What stands where a file is to be put: a file above it, or a folder with something in
        it, which has a slash behind it."""
        end = self.end(path.rpartition("/")[0])
        if end:
            return end
        if not stat.S_ISDIR(self.mode(path)):
            return None
        with os.scandir(f"{self.top}/{path}") as found:
            return f"{path}/" if any(found) else None

    def remove(self, path: str) -> None:
        """Deletes a file where there is one, and the folders that it leaves empty."""
        above, place = path.rpartition("/")[0], f"{self.top}/{path}"
        if self.end(above):
            return
        try:
            os.unlink(place)
        except (FileNotFoundError, NotADirectoryError, IsADirectoryError):
            return
        except OSError as fault:
            raise cannot(place, fault) from None
        with suppress(OSError):
            while above:
                os.rmdir(f"{self.top}/{above}")
                above = above.rpartition("/")[0]


def remove(top: Path, path: str) -> None:
    """Deletes a file where there is one, and the folders that it leaves empty."""
    Ways(top).remove(path)


def clear(top: Path, path: str) -> None:
    """Takes away what stands where a file is to be put, with all that is in it."""
    what = blocked_by(top, path)
    if what is None:
        return
    place = top / what
    try:
        if what.endswith("/"):
            shutil.rmtree(place)
        else:
            place.unlink()
    except OSError as fault:
        raise Trouble(f"{place}: {fault.strerror}") from None


def blocked_by(top: Path, path: str) -> str | None:
    """What stands where a file is to be put: a file above it, or a folder with something in it."""
    return Ways(top).blocked_by(path)
