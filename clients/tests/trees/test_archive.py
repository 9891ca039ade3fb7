"""Trees as tar archives, by the command and by the gateway."""

from __future__ import annotations

import http.client
import io
import socket
import tarfile
import threading
from contextlib import redirect_stderr

from jarrah_client.formats.fields import digest
from jarrah_client.net.server import Server
from jarrah_client.web.library import Library
from jarrah_client.web.pages import Pages

from ..harness import folder_files, fresh, jarrah
from ..web.test_gateway import GatewayCase
from ..working.test_working import InFolders

LARGE = bytes(range(256)) * 5_000
"""A content of several pieces."""


class Trees(InFolders):
    """A tree with files of all kinds."""

    def filled(self) -> str:
        name = fresh()
        self.ok("init", name)
        words = ["--set", f"dir/ä={self.write('a', b'one')}"]
        words += ["--set", f"empty={self.write('e', b'')}"]
        words += ["--exec", f"dir/run={self.write('r', b'#!')}", "--symlink", "dir/link=../empty"]
        words += ["--set", f"{'long/' * 40}name={self.write('n', b'n')}"]
        words += ["--date", "@1000000000 +0000"]
        return self.ask("commit", name, "-m", "A tree", *words)["head"]

    def extracted(self, data: bytes) -> dict[str, tuple[str, bytes]]:
        """What an archive has, put into a folder."""
        place = self.folder / f"out-{len(list(self.folder.iterdir()))}"
        with tarfile.open(fileobj=io.BytesIO(data)) as archive:
            self.assertLessEqual({one.uid for one in archive}, {0})
            archive.extractall(place)
        return folder_files(place)

    def checked_out(self, revision: str) -> dict[str, tuple[str, bytes]]:
        place = self.folder / f"copy-{len(list(self.folder.iterdir()))}"
        self.ok("checkout", revision, place, "--plain")
        return folder_files(place)


class Archives(Trees):
    """The command."""

    def archive(self, *words: object) -> bytes:
        ran = jarrah("archive", *words, server=self.server, binary=True)
        self.assertEqual((ran.status, ran.complaint), (0, ""))
        return ran.data

    def test_the_whole_tree(self):
        id = self.filled()
        data = self.archive(id)
        self.assertEqual(self.extracted(data), self.checked_out(id))
        self.assertEqual(self.archive(id, "--fold"), data)
        with tarfile.open(fileobj=io.BytesIO(data)) as archive:
            found = {one.name: (one.mode, one.mtime) for one in archive}
        moment = int(jarrah("--json", "log", id, "-n", "1", server=self.server).document["seconds"])
        self.assertEqual(found["dir/run"], (0o755, moment))
        self.assertEqual(found["empty"], (0o644, moment))

    def test_the_base_of_a_working_copy(self):
        id = self.filled()
        top, place = self.folder / "copy", self.folder / "base.tar"
        self.ok("checkout", id, top)
        self.done(top, "archive", ".", "-o", place)
        self.assertEqual(place.read_bytes(), self.archive(id))

    def test_a_part(self):
        id = self.filled()
        whole = self.checked_out(id)
        below = {path: one for path, one in whole.items() if path.startswith("dir/")}
        self.assertEqual(self.extracted(self.archive(id, "dir/")), below)
        self.assertEqual(self.extracted(self.archive(id, "empty")), {"empty": whole["empty"]})
        named = {f"v1/{path}": one for path, one in below.items()}
        self.assertEqual(self.extracted(self.archive(id, "dir", "--prefix", "v1/")), named)
        for path in ("no", "empty/no"):
            self.assertIn("nothing at this path", self.refused("archive", id, path))
        self.assertIn("is refused", self.refused("archive", id, "--prefix", "../x/"))

    def test_into_a_file(self):
        id = self.filled()
        place = self.folder / "it.tar"
        told = self.ask("archive", id, "-o", place)
        self.assertEqual((told["id"], told["files"], told["left_out"]), (id, 5, []))
        self.assertEqual(self.extracted(place.read_bytes()), self.checked_out(id))
        self.assertIn("No such file", self.refused("archive", id, "-o", self.folder / "no" / "it"))

    def test_large_files(self):
        self.needs_wholes()
        name = fresh()
        self.ok("init", name)
        words = ("--set", f"a={self.write('l', LARGE)}", "--set", f"b={self.write('s')}")
        self.ok("commit", name, "-m", "Large", *words)
        found = self.extracted(self.archive(name))
        self.assertEqual(found, {"a": ("regular", LARGE), "b": ("regular", b"abc")})

    def test_names_that_are_left_out(self):
        name = fresh()
        self.ok("init", name)
        abc = self.write("abc")
        words = ("--set", f".git/config={abc}", "--set", f"a={abc}")
        self.ok("commit", name, "-m", "Names", *words)
        ran = jarrah("archive", name, server=self.server, binary=True)
        self.assertEqual((ran.status, ran.complaint.count("left out: ")), (3, 1))
        self.assertEqual(set(self.extracted(ran.data)), {"a"})

    def test_one_that_breaks_off(self):
        served = self.special_stand_in()
        self.server = served.url
        id, lost, kept = self.filled(), digest(b"one"), served.repository.content
        served.repository.content = lambda one: kept("0" * 64 if one == lost else one)
        place = self.folder / "it.tar"
        self.assertIn("no content", self.refused("archive", id, "-o", place))
        self.assertEqual([one.name for one in self.folder.iterdir() if "tar" in one.name], [])


class CutOff(Trees):
    """An archive of the local program that a fault ends."""

    def test_it_has_no_end(self):
        served = self.special_stand_in()
        self.server = served.url
        id, lost, kept = self.filled(), digest(b"one"), served.repository.content
        pages = Pages(Library(Server(self.server), False), 0, [], False)
        threading.Thread(target=pages.serve_forever, args=(0.05,), daemon=True).start()
        self.addCleanup(pages.server_close)
        self.addCleanup(pages.shutdown)
        link = http.client.HTTPConnection("127.0.0.1", pages.port, timeout=60)
        self.addCleanup(link.close)
        link.request("GET", f"/api/archive/{id}.tar")
        self.assertEqual(len(self.extracted(link.getresponse().read())), 5)
        served.repository.content = lambda one: kept("0" * 64 if one == lost else one)
        with redirect_stderr(io.StringIO()) as said:
            link.request("GET", f"/api/archive/{id}.tar")
            response = link.getresponse()
            with self.assertRaises(http.client.IncompleteRead):
                response.read()
        self.assertEqual(response.status, 200)
        self.assertIn("was cut off", said.getvalue())

    def test_an_old_reader(self):
        id = self.filled()
        pages = Pages(Library(Server(self.server), False), 0, [], False)
        threading.Thread(target=pages.serve_forever, args=(0.05,), daemon=True).start()
        self.addCleanup(pages.server_close)
        self.addCleanup(pages.shutdown)
        with socket.create_connection(("127.0.0.1", pages.port), 60) as link:
            host = f"Host: 127.0.0.1:{pages.port}"
            link.sendall(f"GET /api/archive/{id}.tar HTTP/1.0\r\n{host}\r\n\r\n".encode())
            with link.makefile("rb") as stream:
                head, _, data = stream.read().partition(b"\r\n\r\n")
        self.assertNotIn(b"chunked", head)
        self.assertEqual(self.extracted(data), self.checked_out(id))


class OfTheGateway(GatewayCase, Trees):
    """The gateway's archives and whole listings."""

    def got_bytes(self, target: str) -> http.client.HTTPResponse:
        link = http.client.HTTPConnection(self.url.hostname, self.url.port, timeout=100)
        self.addCleanup(link.close)
        link.request("GET", target)
        return link.getresponse()

    def test_archives(self):
        id = self.filled()
        for target in (f"{id}.tar", f"{id}/.tar"):
            response = self.got_bytes(f"/api/archive/{target}")
            kind = response.getheader("Content-Type")
            self.assertEqual((response.status, kind), (200, "application/x-tar"))
            self.assertEqual(self.extracted(response.read()), self.checked_out(id))
        below = self.extracted(self.got_bytes(f"/api/archive/{id}/dir.tar").read())
        self.assertEqual(set(below), {"dir/ä", "dir/run", "dir/link"})
        for target, status in ((id, 400), (f"{id}/no.tar", 404), ("no-such.tar", 404)):
            self.assertEqual(self.fetch("GET", f"/api/archive/{target}")[0], status)

    def test_a_whole_listing(self):
        id = self.filled()
        listed = self.got(f"/api/tree/{id}/?recursive=1")["entries"]
        wanted = self.ask("ls", "-r", id)["entries"]
        self.assertEqual(listed, wanted)
        below = self.got(f"/api/tree/{id}/dir?recursive=1")["entries"]
        self.assertEqual([one["name"] for one in below], ["dir/link", "dir/run", "dir/ä"])
        self.assertEqual(len(self.got(f"/api/tree/{id}/?recursive=0")["entries"]), 3)
        self.assertEqual(self.fetch("GET", f"/api/tree/{id}/?recursive=x")[0], 400)
        self.assertEqual(self.fetch("GET", f"/api/tree/{id}/empty?recursive=1")[0], 404)
