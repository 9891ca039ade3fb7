"""Makes the git repository that the test of imports uses."""

from __future__ import annotations

import os
import random
import shutil
import subprocess
from pathlib import Path

from .harness import ENVIRONMENT

NAMES = [
    "a",
    "b.txt",
    "ä",
    "日本",
    "with space",
    "lib",
    "lib.rs",
    "x-y",
    "🦘",
    "Z",
    'quote"d',
    "tab\there",
]
ZONES = ["+0000", "+0530", "-0800", "+1245"]


class Maker:
    """A work tree that commits are made in."""

    def __init__(self, folder: Path):
        self.folder = folder
        self.random = random.Random(20_240_229)
        self.count = 0
        folder.mkdir()
        self.git("init", "-q", "-b", "main")
        self.git("config", "core.quotePath", "false")
        self.git("config", "core.fsync", "none")

    def git(self, *words: str, data: bytes | None = None, **further: str) -> str:
        """Runs git in the work tree."""
        done = subprocess.run(
            ["git", *words],
            cwd=self.folder,
            input=data,
            capture_output=True,
            check=True,
            env=ENVIRONMENT | {"GIT_CONFIG_GLOBAL": os.devnull} | further,
        )
        return done.stdout.decode(errors="surrogateescape").strip()

    def commit(self, message: str) -> str:
        """Commits all there is, also nothing, and gives the commit."""
        self.git("add", "-A")
        self.git("commit", "-q", "--allow-empty", "-m", message, **self.date())
        return self.git("rev-parse", "HEAD")

    def date(self) -> dict[str, str]:
        """Who and when, other for each commit."""
        self.count += 1
        moment = f"{1_000_000_000 + 86_399 * self.count} {ZONES[self.count % len(ZONES)]}"
        return {
            "GIT_AUTHOR_NAME": ["Ann", "Bø", "C. D."][self.count % 3],
            "GIT_AUTHOR_EMAIL": "author@example.org",
            "GIT_AUTHOR_DATE": moment,
            "GIT_COMMITTER_NAME": "Committer",
            "GIT_COMMITTER_EMAIL": "committer@example.org",
            "GIT_COMMITTER_DATE": moment,
        }

    def files(self) -> list[Path]:
        """The files of the work tree."""
        found: list[Path] = []
        for folder, folders, names in os.walk(self.folder):
            folders[:] = [name for name in folders if name != ".git"]
            links = [name for name in folders if os.path.islink(os.path.join(folder, name))]
            found += [Path(folder, name) for name in names + links]
        return sorted(found)

    def place(self) -> Path:
        """A path for a new file, under no file."""
        while True:
            elements = self.random.choices(NAMES, k=self.random.randint(1, 3))
            place = self.folder.joinpath(*elements)
            above = [p for p in place.parents if self.folder in p.parents]
            if not any(p.is_file() or p.is_symlink() for p in above) and not is_folder(place):
                return place

    def write(self, place: Path) -> None:
        """Writes a file with bytes of some kind."""
        place.parent.mkdir(parents=True, exist_ok=True)
        place.unlink(missing_ok=True)
        size = self.random.choice([0, 1, 30, 30, 400, 5_000])
        place.write_bytes(self.random.randbytes(size))

    def step(self, number: int) -> str:
        """One commit of a random kind."""
        kinds = [self.add, self.add, self.change, self.delete, self.rename, self.mode, self.link]
        kinds += [self.to_folder, self.to_file, self.empty, self.merge]
        act = kinds[number % len(kinds)] if number < 60 else self.random.choice(kinds)
        return act(number)

    def add(self, number: int) -> str:
        for _ in range(self.random.randint(1, 4)):
            self.write(self.place())
        return self.commit(f"Add {number}\n\nwith a body — and more")

    def change(self, number: int) -> str:
        self.write(self.random.choice(self.files()))
        return self.commit(f"Change {number}")

    def delete(self, number: int) -> str:
        for place in self.random.sample(self.files(), min(2, len(self.files()))):
            place.unlink()
        self.write(self.place())
        return self.commit(f"Delete {number}")

    def rename(self, number: int) -> str:
        old, new = self.random.choice(self.files()), self.place()
        if new != old and old not in new.parents:
            new.parent.mkdir(parents=True, exist_ok=True)
            os.replace(old, new)
        return self.commit(f"Rename {number}")

    def mode(self, number: int) -> str:
        place = self.random.choice([p for p in self.files() if not p.is_symlink()])
        place.chmod(place.stat().st_mode ^ 0o111)
        return self.commit(f"Mode {number}")

    def link(self, number: int) -> str:
        place = self.place()
        place.parent.mkdir(parents=True, exist_ok=True)
        place.unlink(missing_ok=True)
        place.symlink_to(self.random.choice(["a", "../ä", "no where", "日本/🦘"]))
        return self.commit(f"Link {number}")

    def to_folder(self, number: int) -> str:
        """A file becomes a folder of the same name."""
        place = self.random.choice(self.files())
        place.unlink()
        self.write(place / "inside" / "it")
        self.write(place / "beside")
        return self.commit(f"File to folder {number}")

    def to_file(self, number: int) -> str:
        """A folder becomes a file of the same name."""
        folders = sorted({p.parent for p in self.files() if p.parent != self.folder})
        if folders:
            place = self.random.choice(folders)
            shutil.rmtree(place)
            self.write(place)
        return self.commit(f"Folder to file {number}")

    def empty(self, number: int) -> str:
        return self.commit(f"Empty {number}")

    def merge(self, number: int) -> str:
        """A branch of one commit, merged: the line goes by first parents."""
        self.git("checkout", "-q", "-b", f"side-{number}")
        self.write(self.folder / f"side-{number}")
        self.commit(f"Beside {number}")
        self.git("checkout", "-q", "main")
        self.git("merge", "-q", "--no-ff", "-m", f"Merge {number}", f"side-{number}", **self.date())
        return self.git("rev-parse", "HEAD")

    def line(self) -> list[str]:
        """The first-parent line, the oldest first."""
        return self.git("rev-list", "--first-parent", "--reverse", "main").split()

    def check_out(self, commit: str, folder: Path) -> None:
        """Git's own checkout of a commit."""
        folder.mkdir()
        index = {"GIT_INDEX_FILE": str(folder) + ".index"}
        self.git("read-tree", commit, **index)
        self.git("checkout-index", "-a", f"--prefix={folder}/", **index)


def is_folder(place: Path) -> bool:
    return place.is_dir() and not place.is_symlink()
