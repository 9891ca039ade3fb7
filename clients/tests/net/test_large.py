"""Contents of over 1,048,576 bytes: stored in pieces, joined, and read back."""

from __future__ import annotations

import io
import json
import os
import subprocess
import threading
import unittest
from random import Random
from typing import Any
from unittest import mock

from jarrah_client.formats.changesets import File, digest
from jarrah_client.net import answers
from jarrah_client.net.contents import fetched, in_file, in_memory, in_stream, store_all
from jarrah_client.net.server import BadAnswer, Server
from jarrah_client.refusals import Fault, Refused

from ..canned import Canned
from ..formats.test_encoding import ABC, NIL
from ..fuzzed import expected_report, record, spelled_whole
from ..git.test_export import git
from ..git_maker import Maker
from ..harness import SERVES, Case, Ran, folder_files, fresh, jarrah, jarrah_process
from ..stand_in.http import StandIn
from ..working.test_working import CopyCase

PIECE = 1_048_576
MOST = 67_108_864
NOTHING = "0" * 64
ABCABC = "bbb59da3af939f7af5f360f2ceb80a496e3bae1cd87dde426db0ae40677e1c2c"


def large(seed: int, size: int = 2 * PIECE + 5) -> bytes:
    """Bytes of which no two pieces are equal."""
    return Random(seed).randbytes(size)


class Sources(unittest.TestCase):
    """Where bytes come from, and the ids of their pieces."""

    def test_the_same_pieces_from_everywhere(self):
        for size in (0, 1, PIECE - 1, PIECE, PIECE + 1, 2 * PIECE, 2 * PIECE + 1):
            data = large(1, size)
            cuts = [data[at : at + PIECE] for at in range(0, max(size, 1), PIECE)]
            for source in (in_memory("it", data), in_stream("it", io.BytesIO(data))):
                with self.subTest(size=size, held=type(source.held)):
                    self.assertEqual((source.id, source.size), (digest(data), size))
                    self.assertEqual(list(source.pieces), [digest(cut) for cut in cuts])
                    pieces = [source.piece(number) for number in range(len(cuts))]
                    self.assertEqual((pieces, source.read()), (cuts, data))
                    self.assertEqual(source.is_large, size > PIECE)

    def test_the_bound(self):
        with mock.patch("jarrah_client.net.contents.MOST_SIZE_BYTES", 2 * PIECE):
            self.assertEqual(in_stream("it", io.BytesIO(bytes(2 * PIECE))).size, 2 * PIECE)
            for take in (in_memory, lambda name, data: in_stream(name, io.BytesIO(data))):
                with self.assertRaises(Fault) as caught:
                    take("some/path", bytes(2 * PIECE + 1))
                self.assertIn("some/path has ", str(caught.exception))
                self.assertIn(" 2,097,152", str(caught.exception))


class Joins(Case):
    """Requests that join, by calls."""

    def setUp(self) -> None:
        super().setUp()
        self.needs_wholes()
        self.link = Server(self.server)
        self.addCleanup(self.link.close)

    def fails(self, body: bytes, status: int, code: str, **members: object) -> None:
        with self.assertRaises(Refused) as caught:
            self.link.ask("PUT", "/whole", body)
        found = caught.exception
        self.assertEqual((found.status, found.code, found.members), (status, code, members))

    def joined(self, *ids: str) -> dict[str, Any]:
        return self.link.ask_json("PUT", "/whole", answers.WHOLE, bytes.fromhex("".join(ids)))

    def test_answers(self):
        for data in (b"abc", b""):
            self.link.put_content(digest(data), data)
        self.assertEqual(self.joined(ABC, ABC), {"code": "whole", "id": ABCABC, "size": 6})
        self.assertEqual(self.joined(ABC, NIL), {"code": "whole", "id": ABC, "size": 3})
        self.assertEqual(self.joined(NIL), {"code": "whole", "id": NIL, "size": 0})
        self.assertEqual(self.link.content(ABCABC), b"abcabc")
        before = self.link.log(0).total
        self.link.put_content(ABCABC, b"abcabc")
        self.assertEqual(self.joined(ABC, ABC)["id"], ABCABC)
        self.assertEqual(self.joined(*[NIL] * 62, ABC, ABC)["id"], ABCABC)
        self.assertEqual(self.link.log(0).total, before)

    def test_refusals(self):
        for data in (b"abc", b""):
            self.link.put_content(digest(data), data)
        self.joined(ABC, ABC)
        for length in (0, 31, 33, 2_080):
            self.fails(bytes(length), 400, "bad-parts", length=length)
        self.fails(bytes(2_048), 422, "no-piece", id=NOTHING)
        self.fails(bytes.fromhex(ABC + NOTHING + ABCABC), 422, "no-piece", id=NOTHING)
        self.fails(bytes.fromhex(ABC + ABCABC + NIL), 422, "not-a-piece", id=ABCABC)
        self.fails(bytes.fromhex(ABCABC + NOTHING), 422, "no-piece", id=NOTHING)

    def test_the_log(self):
        for data in (b"one", b"two"):
            self.link.put_content(digest(data), data)
        name = fresh().encode()
        self.link.put_content(digest(name), name)
        pieces, joined = [digest(b"one"), digest(name), digest(b"two")], b"one" + name + b"two"
        self.joined(*pieces)
        number = self.link.log(0).total - 1
        wanted = {"id": digest(joined), "kind": "whole", "number": number, "parts": pieces}
        self.assertEqual(self.link.log(number).entries, [wanted | {"size": len(joined)}])
        said = self.ok("entries", "--from", number).out
        self.assertIn(f"whole      {digest(joined)}  {len(joined)} bytes of 3 contents\n", said)

    def test_sizes_of_files(self):
        self.link.put_content(ABC, b"abc")
        self.joined(ABC, ABC)
        right = self.spelled(6)
        id = self.link.ask_json("PUT", "/changeset", answers.CHANGESET, right)["id"]
        self.assertEqual(self.ok("cat", id, "p").out, "abcabc")
        with self.assertRaises(Refused) as caught:
            self.link.ask("PUT", "/changeset", self.spelled(7))
        members = {"found": 6, "path": "p", "wanted": 7}
        self.assertEqual((caught.exception.code, caught.exception.members), ("wrong-size", members))

    def spelled(self, size: int) -> bytes:
        """The changeset that sets `p` to the whole, as docs/FORMATS.md has it."""
        head = b"\x43\x01\x00\x00\x01a" + bytes(12) + bytes(4) + b"\x00\x00\x00\x01"
        return head + b"\x00\x01p\x01\x00" + size.to_bytes(8, "big") + bytes.fromhex(ABCABC)


class Files(Case):
    """Files with a whole, by the stand-in's reading and by the program's, where it is there."""

    def counted(self, whole: bytes, version: int = 2) -> bytes:
        """What is said of a file with `abc`, a whole, and nothing else."""
        data = b"BONSAI\x00" + bytes([version]) + (65_536).to_bytes(8, "big")
        data += record(b"\x42abc") + record(whole) + b"\x00"
        found = expected_report(data)
        if SERVES:
            place = self.write("repository", data)
            ran = subprocess.run([*SERVES, "fsck", place], capture_output=True, check=False)
            self.assertEqual((ran.returncode, ran.stdout), found)
        return found.output

    def test_what_stands(self):
        twice = bytes.fromhex(ABC + ABC)
        whole = spelled_whole(b"abcabc", twice)
        self.assertEqual(len(whole), 107)
        wanted = b"entries 2 contents 2 changesets 0 bookmarks 0 size 138\n"
        self.assertEqual(self.counted(whole), wanted)

    def test_damage(self):
        ids = bytes.fromhex(ABC + ABC)
        whole = spelled_whole(b"abcabc", ids)
        for damaged in (
            spelled_whole(b"abcabd", ids),
            spelled_whole(b"abc", ids[:32]),
            spelled_whole(b"abcabc", ids + bytes.fromhex(NIL)),
            spelled_whole(b"abc" * 65, ids[:32] * 65),
            spelled_whole(b"", b""),
            whole[:40] + b"\x07" + whole[41:],
            whole[:42] + b"\x01" + whole[43:],
            whole[:-1],
            whole + b"\x00",
        ):
            with self.subTest(damaged=damaged.hex()):
                self.assertEqual(self.counted(damaged), b"damaged at 25\n")
        self.assertEqual(self.counted(whole, version=1), b"damaged at 25\n")


class Counted:
    """Counts what a stand-in is asked to store."""

    def __init__(self, stand_in: StandIn):
        self.service = stand_in.service
        self.counts = {"put_content": 0, "put_whole": 0}
        for call in self.counts:
            setattr(self.service, call, self.counting(call, getattr(self.service, call)))

    def counting(self, call: str, real: Any) -> Any:
        def counted(data: bytes) -> bytes:
            self.counts[call] += 1
            return real(data)

        return counted

    def taken(self) -> tuple[int, int]:
        """How many contents and wholes since the last time."""
        found = self.counts["put_content"], self.counts["put_whole"]
        self.counts.update(put_content=0, put_whole=0)
        return found


class Uploads(Case):
    """Which pieces go over the wire."""

    def setUp(self) -> None:
        super().setUp()
        stand_in = self.special_stand_in()
        self.counted = Counted(stand_in)
        self.link = Server(stand_in.url)
        self.addCleanup(self.link.close)
        self.repository = stand_in.repository

    def store(self, *data: bytes) -> tuple[int, int]:
        """How many contents and wholes it takes to store some bytes."""
        store_all(self.link, [in_memory("it", one) for one in data], quietly=True)
        for one in data:
            self.assertEqual(self.repository.content(digest(one)), one)
        return self.counted.taken()

    def test_what_is_there_is_not_sent_again(self):
        data = large(2, 5 * PIECE + 7)
        self.assertEqual(self.store(data), (6, 4))
        self.assertEqual(self.store(data), (0, 1))
        self.assertEqual(self.store(data[:-1]), (1, 2))
        self.assertEqual(self.store(data + b"more"), (1, 2))
        self.assertEqual(self.store(b"x" * PIECE + data[PIECE:]), (1, 2))
        self.assertEqual(self.store(bytes(4 * PIECE)), (1, 2))
        self.assertEqual(self.store(b"small", data), (1, 1))

    def test_a_server_that_forgets(self):
        whole = self.link.put_whole
        for lacking in (NOTHING, digest(bytes(PIECE))):
            with mock.patch.object(self.link, "put_whole", return_value=lacking):
                with self.assertRaises(BadAnswer) as caught:
                    store_all(self.link, [in_memory("it", bytes(PIECE + 1))], quietly=True)
                said = f"it: {self.link.url} doesn't have the piece {lacking}, which it should"
                self.assertIn(said, str(caught.exception))
        self.assertEqual(whole(digest(bytes(PIECE)), [digest(bytes(PIECE))]), None)

    def test_files_that_change_meanwhile(self):
        place = self.write("it", large(3))
        source = in_file("it", place)
        place.write_bytes(large(4))
        with self.assertRaises(Fault) as caught:
            store_all(self.link, [source], quietly=True)
        self.assertIn("it was changed while it was read", str(caught.exception))
        place.unlink()
        with self.assertRaises(Fault) as caught:
            source.piece(0)
        self.assertIn("No such file", str(caught.exception))


class Answers(unittest.TestCase):
    """Answers that a server shouldn't give."""

    @classmethod
    def setUpClass(cls) -> None:
        cls.canned = Canned().__enter__()
        cls.addClassCleanup(cls.canned.__exit__)

    def setUp(self) -> None:
        self.link = Server(self.canned.url)
        self.addCleanup(self.link.close)

    def test_another_id(self):
        self.canned.say(200, {"code": "whole", "id": NOTHING, "size": 6})
        with self.assertRaises(BadAnswer) as caught:
            self.link.put_whole(ABCABC, [ABC, ABC])
        self.assertIn("joined", str(caught.exception))

    def test_other_bytes(self):
        data = large(5)
        self.canned.say(200, data)
        self.assertEqual(fetched(self.link, File(digest(data), len(data))).read(), data)
        with self.assertRaises(BadAnswer) as caught:
            fetched(self.link, File(NOTHING, len(data)))
        self.assertIn("other bytes", str(caught.exception))
        self.canned.say(404, {"code": "no-content", "id": NOTHING})
        with self.assertRaises(Refused):
            fetched(self.link, File(NOTHING, len(data)))


class Commands(Case):
    """Files of over a piece in commands."""

    def setUp(self) -> None:
        super().setUp()
        self.needs_wholes()
        self.name = fresh()
        self.ok("init", self.name)

    def commit(self, *words: object, data: bytes = b"") -> None:
        self.ok("commit", self.name, "-m", "c", *words, data=data)

    def cat(self, path: str) -> bytes:
        ran = jarrah("cat", self.name, path, server=self.server, binary=True)
        self.assertEqual(ran.status, 0, ran)
        return ran.data

    def test_there_and_back(self):
        data = large(6)
        place = self.write("in", data)
        self.commit("--set", f"d/big={place}", "--exec", f"run={place}")
        self.assertEqual(self.cat("d/big"), data)
        listed = self.ask("ls", self.name, "d")["entries"]
        self.assertEqual((listed[0]["size"], listed[0]["content"]), (len(data), digest(data)))
        out = self.folder / "out"
        self.ok("checkout", self.name, out, "--plain")
        files = {"d/big": ("regular", data), "run": ("executable", data)}
        self.assertEqual(folder_files(out), files)
        said = self.ok("diff", "--patch", self.name).out
        self.assertIn(f"+++ b/d/big\nthe bytes differ: 0 before, {len(data):,} after\n", said)

    def test_by_the_standard_input_and_by_pipes(self):
        data = large(7)
        self.commit("--set", "a=-", data=data)
        self.assertEqual(self.cat("a"), data)
        pipe = self.folder / "pipe"
        os.mkfifo(pipe)
        threading.Thread(target=pipe.write_bytes, args=(data[1:],), daemon=True).start()
        self.commit("--set", f"a={pipe}")
        self.assertEqual(self.cat("a"), data[1:])

    def test_what_is_too_large(self):
        before = self.ok("--json", "entries").documents
        place = self.sparse(self.folder / "large", MOST + 1)
        small = self.write("small")
        words = ("commit", self.name, "-m", "c", "--set", f"a={small}", "--set", f"d/b={place}")
        said = "d/b has 67,108,865 bytes, over 67,108,864"
        self.assertEqual(self.refused(*words), said)
        ran = jarrah("--json", *words, server=self.server)
        self.assertEqual((ran.status, json.loads(ran.err)), (1, {"error": said}))
        self.assertEqual(self.ok("--json", "entries").documents, before)

    def test_in_a_process_of_its_own(self):
        data = large(8)
        place = self.write("in", data)
        words = ("commit", self.name, "-m", "c", "--set", f"a={place}")
        ran = jarrah_process(*words, server=self.server)
        self.assertEqual((ran.status, ran.complaint), (0, ""))
        self.assertEqual(self.cat("a"), data)


class WorkingCopies(CopyCase):
    """Files of over a piece in a working copy."""

    def setUp(self) -> None:
        super().setUp()
        self.needs_wholes()

    def test_commit_update_and_revert(self):
        data = large(9)
        (self.ours / "big").write_bytes(data)
        self.done(self.ours, "commit", "--land", "-m", "Large")
        self.done(self.theirs, "update")
        self.assertEqual((self.theirs / "big").read_bytes(), data)
        self.assertEqual(self.changes(self.theirs), {})
        (self.theirs / "big").write_bytes(data + b"more")
        self.assertEqual(self.changes(self.theirs), {"big": "changed"})
        said = self.done(self.theirs, "diff").out
        self.assertIn(f"the bytes differ: {len(data):,} before, {len(data) + 4:,} after\n", said)
        self.done(self.theirs, "revert", "big")
        self.assertEqual((self.theirs / "big").read_bytes(), data)

    def test_what_both_sides_changed(self):
        data = large(10)
        (self.ours / "big").write_bytes(data)
        self.done(self.ours, "commit", "--land", "-m", "Large")
        self.done(self.theirs, "update")
        (self.ours / "big").write_bytes(data + b"ours")
        self.done(self.ours, "commit", "--land", "-m", "Ours")
        (self.theirs / "big").write_bytes(b"theirs" + data)
        told = self.within(self.theirs, "--json", "update")
        self.assertEqual(told.status, 1)
        self.assertIn("too large to be merged", told.document["conflicts"]["big"])
        self.assertEqual((self.theirs / "big").read_bytes(), b"theirs" + data)

    def test_what_is_too_large(self):
        self.sparse(self.ours / "big", MOST + 1)
        faults = self.done(self.ours, "--json", "status").document["faults"]
        self.assertEqual(faults, {"big": "it has 67,108,865 bytes, over 67,108,864"})
        said = self.fails(self.ours, "commit", "--land", "-m", "Large")
        self.assertIn("big can't be committed: it has 67,108,865 bytes, over 67,108,864", said)
        (self.theirs / "big").write_bytes(b"theirs")
        self.done(self.theirs, "commit", "--land", "-m", "Small")
        told = self.within(self.ours, "--json", "update")
        self.assertEqual((told.status, set(told.document["conflicts"])), (1, {"big"}))
        self.assertEqual((self.ours / "big").stat().st_size, MOST + 1)


class Histories(Case):
    """Files of over a piece in git."""

    def test_there_and_back(self):
        self.needs_wholes()
        maker = Maker(self.folder / "repository")
        big, data = maker.folder / "big", large(11)
        for number, more in enumerate((b"", b"more", b"")):
            big.write_bytes(data + more)
            (maker.folder / "small").write_bytes(b"%d" % number)
            maker.commit(f"Commit {number}")
        name = fresh("import")
        words = ("import-git", maker.folder, name, "--marks", self.folder / "marks")
        told = self.ask(*words)
        self.assertEqual((told["left_out"], told["contents"]), ([], 5))
        self.assertEqual(told["content_bytes"], 2 * len(data) + 4 + 3)
        out = self.folder / "out"
        self.ask("export-git", name, out)
        tree = git(maker.folder, "rev-parse", "HEAD^{tree}")
        self.assertEqual(git(out, "rev-parse", f"{name}^{{tree}}"), tree)
        git(out, "fsck", "--strict")


class OldFiles(Case):
    """A server whose file has version 1."""

    def setUp(self) -> None:
        super().setUp()
        self.old = self.special_stand_in(version=1)
        self.server = self.old.url
        self.ok("init", "main")
        self.before = len(self.old.repository.entries)

    def test_large_files_are_refused_before_anything_is_sent(self):
        small, big = self.write("small"), self.write("big", large(12))
        words = ("commit", "main", "-m", "c", "--set", f"a={small}", "--set", f"d/b={big}")
        said = self.refused(*words)
        self.assertTrue(said.startswith("d/b: the server's file has version 1"), said)
        self.assertIn("`hg_cli migrate OLD NEW`", said)
        ran = jarrah("--json", *words, server=self.server)
        document = json.loads(ran.err)
        self.assertEqual((ran.status, document["code"], document["status"]), (1, "old-format", 409))
        self.assertEqual(len(self.old.repository.entries), self.before)
        self.ok("commit", "main", "-m", "c", "--set", f"a={small}")

    def test_imports_leave_them_out(self):
        maker = Maker(self.folder / "repository")
        (maker.folder / "big").write_bytes(large(13))
        (maker.folder / "small").write_bytes(b"abc")
        maker.commit("First")
        words = ("--json", "import-git", maker.folder, "project")
        ran: Ran = jarrah(*words, "--marks", self.folder / "marks", server=self.server)
        self.assertEqual(ran.status, 3)
        self.assertEqual([one["path"] for one in ran.document["left_out"]], ["big"])
        self.assertIn("`hg_cli migrate OLD NEW`", ran.document["left_out"][0]["why"])
        self.assertEqual([one["name"] for one in self.ask("ls", "project")["entries"]], ["small"])
