"""Checkouts and updates of many files, by threads and by processes."""

from __future__ import annotations

import os
import subprocess
import sys
from pathlib import Path

from jarrah_client.formats.fields import digest
from jarrah_client.net.server import Server
from jarrah_client.trees.tree import tree_of

from ..harness import ENVIRONMENT, PROGRAM, Case, Ran, folder_files, fresh

COUNT = 90
RUN = """
import sys
from jarrah_client.net import crew
from jarrah_client.trees import checkout
from jarrah_client.cli import main
checkout.CHUNK_FILES, checkout.MANY_FILES = 7, 20
begun, begin = [], crew.begin
crew.begin = lambda *words: begun.append(1) or begin(*words)
status = main(sys.argv[1:])
print(len(begun), "processes", file=sys.stderr)
sys.exit(status)
"""
"""The program, which takes few files for many."""


def tree(turn: int) -> dict[str, tuple[str, bytes]]:
    """Files of all kinds, others at each turn."""
    found: dict[str, tuple[str, bytes]] = {}
    for number in range(COUNT):
        if (number + turn) % 9:
            data = b"%d\n" % (number if number % 4 else number * turn)
            kind = ("regular", "executable", "regular", "symlink")[number % 4]
            found[f"d{number % 5}/e{number % 3}/f{number}"] = (kind, data.strip(b"\n"))
    found["ä/empty"] = ("regular", b"")
    return found


class Many(Case):
    """A tree of some ninety files, and a second one."""

    def setUp(self) -> None:
        super().setUp()
        self.name = fresh()
        self.put(self.server)

    def put(self, server: str) -> None:
        """Has a server's bookmark be at the second tree, on the first."""
        self.ids = []
        here, self.server = self.server, server
        self.ok("init", self.name)
        before: dict[str, tuple[str, bytes]] = {}
        for turn in (1, 2):
            files = tree(turn)
            words = [word for path, one in files.items() for word in self.words(path, *one)]
            words += [word for path in before.keys() - files.keys() for word in ("--delete", path)]
            self.ids.append(self.ask("commit", self.name, "-m", "A tree", *words)["head"])
            before = files
        self.server = here

    def words(self, path: str, kind: str, data: bytes) -> tuple[str, str]:
        """The words that set a file."""
        if kind == "symlink":
            return "--symlink", f"{path}={data.decode()}"
        option = "--exec" if kind == "executable" else "--set"
        return option, f"{path}={self.write(f'contents/{digest(data)}', data)}"

    def run_many(self, *words: object, folder: Path | None = None, server: str = "") -> Ran:
        """Runs the program by processes; the last line on standard error tells how many."""
        command = [sys.executable, "-c", RUN, "--server", server or self.server]
        done = subprocess.run(
            [*command, *map(str, words)],
            capture_output=True,
            env=ENVIRONMENT | {"PYTHONPATH": str(PROGRAM.parent)},
            timeout=100,
            cwd=folder,
        )
        return Ran(done.returncode, done.stdout.decode(), done.stderr.decode())

    def assert_folder(self, top: Path, turn: int) -> None:
        self.assertEqual(folder_files(top), tree(turn))

    def test_by_processes(self):
        top = self.folder / "copy"
        ran = self.run_many("checkout", self.ids[0], top, "--connections", "3")
        self.assertEqual((ran.status, ran.complaint), (0, "3 processes\n"))
        self.assert_folder(top, 1)
        self.assertEqual(self.run_many("--json", "status", folder=top).document["changes"], [])
        ran = self.run_many("--json", "update", self.ids[1], "--connections", "2", folder=top)
        self.assertEqual((ran.status, ran.complaint), (0, "2 processes\n"))
        self.assertGreater(ran.document["written"], 20)
        self.assert_folder(top, 2)
        self.assertEqual(self.run_many("--json", "status", folder=top).document["changes"], [])
        self.assertEqual([one.name for one in (top / ".jarrah").glob("coming*")], [])

    def test_by_threads(self):
        top = self.folder / "copy"
        self.ok("checkout", self.ids[0], top, "--connections", "3")
        self.assert_folder(top, 1)
        self.ok("checkout", self.name, self.folder / "plain", "--plain", "--fold")
        self.assert_folder(self.folder / "plain", 2)

    def test_by_processes_with_one_lane(self):
        narrow = self.special(lanes=1)
        self.put(narrow.url)
        top = self.folder / "copy"
        words = ("--timeout", "50", "checkout", self.name, top)
        ran = self.run_many(*words, server=narrow.url)
        self.assertEqual(ran.status, 0, ran.err)
        self.assert_folder(top, 2)

    def test_a_content_that_is_gone(self):
        served = self.special_stand_in()
        self.put(served.url)
        lost = digest(tree(2)["d1/e1/f1"][1])
        kept = served.repository.content

        def content(id: str) -> bytes:
            return kept(digest(b"nobody has this") if id == lost else id)

        served.repository.content = content
        top = self.folder / "copy"
        for words in (("checkout", self.name, top), ("--json", "checkout", self.name, top / "c")):
            ran = self.run_many(*words, server=served.url)
            self.assertEqual(ran.status, 1)
            self.assertIn("no content", ran.complaint)
            self.assertFalse((top / ".jarrah").exists())

    def test_a_process_that_is_ended(self):
        code = RUN.replace("status = main", KILLED + "status = main")
        words = ("--server", self.server, "checkout", self.name, self.folder / "copy")
        done = subprocess.run(
            [sys.executable, "-c", code, *map(str, words)],
            capture_output=True,
            env=ENVIRONMENT | {"PYTHONPATH": str(PROGRAM.parent)},
            timeout=100,
        )
        self.assertEqual(done.returncode, 1)
        self.assertIn(b"a process that this command had begun was ended\n", done.stderr)

    def test_places_that_cannot_be_written(self):
        if os.geteuid() == 0:
            self.skipTest("nobody is refused a place")
        top = self.folder / "closed"
        top.mkdir(mode=0o500)
        self.assertIn("Permission denied", self.refused("checkout", self.name, top))

    def test_reads_of_directories_are_together(self):
        self.needs_manifests()
        to = Server(self.server)
        self.addCleanup(to.close)
        found = tree_of(to, self.ids[1])
        asked: list[list[str]] = []
        read = found.read
        found.read = lambda level: asked.append(level) or read(level)
        rising = sorted(tree(2), key=lambda path: path.encode().split(b"/"))
        self.assertEqual([path for path, _ in found.files()], rising)
        self.assertEqual([len(level) for level in asked], [1, 6, 15])


KILLED = """
import os, signal
write_chunk = checkout.write_chunk
def write_some(server, chunk, top):
    times = write_chunk(server, chunk, top)
    os.kill(os.getpid(), signal.SIGKILL)
checkout.write_chunk = write_some
"""
