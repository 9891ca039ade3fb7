"""Requests and responses byte for byte, as docs/API.md has them.

Against the stand-in this shows that it is the server of the documents; it runs against a real
server too.
"""

from __future__ import annotations

import json
import random
import time
import unittest
from dataclasses import replace

from jarrah_client.formats.changesets import CopySource, File, digest

from ..formats.test_encoding import ABC, COPIES_P, EMPTY, NIL, SETS_P, B, C, laid_out
from ..harness import fresh
from ..stand_in.repository import Repository
from ..stand_in.spelling import Refusal
from ..wire import Wire, landed

NOTHING = "0" * 64
CLOCKS_DIFFER = 60
"""Seconds by which a server's clock may differ from the test's."""


class Exchange(Wire):
    """Each route, and what else is answered."""

    def test_a_content(self):
        sent = b"PUT /content HTTP/1.1\r\nContent-Length: 3\r\n\r\nabc"
        wanted = (
            b"HTTP/1.1 200 OK\r\nContent-Type: application/json\r\nContent-Length: 99\r\n\r\n"
            b'{"code":"content","id":"' + ABC.encode() + b'","size":3}'
        )
        self.assertEqual(self.session(sent), wanted)
        self.assertEqual(self.session(sent + b"\r\n\n" + sent, piece=7), wanted + wanted)
        self.assertEqual(self.session(sent + b"GET /boo"), wanted)
        self.answers("PUT", "/content", b"", 200, f'{{"code":"content","id":"{NIL}","size":0}}')
        self.answers("GET", f"/content/{ABC}", None, 200, "abc")
        self.answers("GET", f"/content/{ABC.upper()}", None, 200, "abc")
        text = f'{{"code":"no-content","id":"{NOTHING}"}}'
        self.answers("GET", f"/content/{NOTHING}", None, 404, text)

    def test_long_bodies_one_behind_another(self):
        """Bodies below, of and over 65,536 bytes, from which on the program doesn't copy them."""
        source = random.Random(fresh())
        sizes = [12, 65_535, 65_536, 65_537, 1_048_576, 0, 300_000, 65_536, 5]
        bodies = [source.randbytes(size) for size in sizes]
        sent, wanted = b"", b""
        for body in bodies:
            sent += f"PUT /content HTTP/1.1\r\nContent-Length: {len(body)}\r\n\r\n".encode() + body
            text = f'{{"code":"content","id":"{digest(body)}","size":{len(body)}}}'
            head = f"Content-Type: application/json\r\nContent-Length: {len(text)}\r\n\r\n"
            wanted += f"HTTP/1.1 200 OK\r\n{head}{text}".encode()
        for piece in (None, 100_003):
            self.assertEqual(self.session(sent, piece=piece), wanted)
        for body in bodies:
            self.assertEqual(self.one("GET", f"/content/{digest(body)}"), (200, body))

    def test_changesets(self):
        self.one("PUT", "/content", b"abc")
        self.assertEqual(self.store(EMPTY), B)
        self.assertEqual(self.store(replace(SETS_P, parents=(B,))), C)
        self.assertEqual(self.one("GET", f"/changeset/{B}"), (200, EMPTY.encoded))
        deletes = EMPTY.encoded[:-4] + bytes.fromhex("000000020001620000016100")
        self.assertEqual(len(deletes), 34)
        self.answers("PUT", "/changeset", deletes, 422, '{"code":"bad-encoding","place":32}')
        part = bytes.fromhex("0100" + "00" * 7 + "03" + ABC)
        both = bytes.fromhex("00000002000161") + part + bytes.fromhex("0003612f62") + part
        text = '{"code":"self-conflict","long":"a/b","short":"a"}'
        self.answers("PUT", "/changeset", EMPTY.encoded[:-4] + both, 422, text)
        text = f'{{"code":"no-changeset","id":"{NOTHING}"}}'
        self.answers("GET", f"/changeset/{NOTHING}", None, 404, text)

    def test_bookmarks(self):
        name, absent = fresh(), fresh("absent")
        b, c = self.store(EMPTY), self.draft(self.store(EMPTY), "--symlink", "x=y", "-m", name)
        at_b = f'{{"code":"bookmark","head":"{b}","name":"{name}"}}'
        self.answers("PUT", f"/bookmark/{name}/none/{b}", None, 200, at_b)
        self.answers("PUT", f"/bookmark/{name}/{b}/{b}", None, 200, at_b)
        self.answers("GET", f"/bookmark/{name}", None, 200, at_b)
        moved = f'{{"code":"moved","found":"{b}"}}'
        self.assertEqual(len(moved), 91)
        self.answers("PUT", f"/bookmark/{name}/none/{c}", None, 409, moved)
        self.answers("GET", f"/bookmark/{absent}", None, 404, '{"code":"no-bookmark"}')
        moved = '{"code":"moved","found":null}'
        self.answers("PUT", f"/bookmark/{absent}/{b}/{c}", None, 409, moved)
        text = f'{{"code":"no-changeset","id":"{NOTHING}"}}'
        self.answers("PUT", f"/bookmark/{absent}/{b}/{NOTHING}", None, 404, text)
        gone = f'{{"code":"bookmark","head":null,"name":"{name}"}}'
        self.answers("PUT", f"/bookmark/{name}/{b}/none", None, 200, gone)

    def test_landings(self):
        name = fresh()
        self.one("PUT", "/content", b"abc")
        self.one("PUT", "/content", b"")
        base = replace(EMPTY, message=name)
        x = replace(base, parents=(base.id,), changes={"x": File(ABC, 3)})
        s = replace(base, parents=(base.id,), changes={"y": File(NIL, 0)})
        empty = replace(base, parents=(base.id,))
        for changeset in (base, x, s, empty):
            self.store(changeset)
        self.one("PUT", f"/bookmark/{name}/none/{base.id}")
        self.answers("POST", f"/land/{name}/{x.id}", None, 200, landed([x.id], base.id))
        self.answers("POST", f"/land/{name}/{x.id}", None, 409, '{"code":"already-in"}')
        on_x = replace(s, parents=(x.id,))
        self.answers("POST", f"/land/{name}/{s.id}", None, 200, landed([on_x.id], x.id))
        clash = '{"code":"clash","left":"y","right":"y"}'
        self.answers("POST", f"/land/{name}/{s.id}", None, 409, clash)
        first = replace(empty, parents=(on_x.id,))
        second = replace(empty, parents=(first.id,))
        self.answers("POST", f"/land/{name}/{empty.id}", None, 200, landed([first.id], on_x.id))
        self.answers("POST", f"/land/{name}/{empty.id}", None, 200, landed([second.id], first.id))
        status, page = self.one("GET", "/log/" + "9" * 19)
        self.assertEqual((status, json.loads(page)["entries"]), (200, []))
        last = json.loads(page)["total"] - 1
        entry = f'{{"draft":"{empty.id}","ids":["{second.id}"],"kind":"landing","name":"{name}"'
        entry += f',"number":{last},"old":"{first.id}"}}'
        text = f'{{"code":"log","entries":[{entry}],"total":{last + 1}}}'
        self.answers("GET", f"/log/{last}", None, 200, text)

    def test_copies(self):
        self.needs_copies()
        self.one("PUT", "/content", b"abc")
        self.store(EMPTY)
        data, id = laid_out(COPIES_P, 2), self.store(COPIES_P)
        self.assertEqual((len(data), digest(data)), (108, id))
        self.assertEqual(self.one("GET", f"/changeset/{id}"), (200, data))
        text = '{"code":"copies","copies":[{"from":"p","parent":0,"to":"q"}]}'
        self.answers("GET", f"/copies/{id}", None, 200, text)
        self.answers("GET", f"/copies/{id.upper()}", None, 200, text)
        sources = {"a.b": CopySource(0, "\u00e4/\""), "a/b": CopySource(0, "p")}
        changes = {"a/b": File(ABC, 3), "a.b": File(ABC, 3), "c": File(ABC, 3), "p": None}
        several = self.store(replace(COPIES_P, changes=changes, copies=sources))
        text = '{"code":"copies","copies":[{"from":"p","parent":0,"to":"a/b"},'
        text += '{"from":"\u00e4/\\"","parent":0,"to":"a.b"}]}'
        self.answers("GET", f"/copies/{several}", None, 200, text)
        none = self.store(replace(EMPTY, asked_version=2))
        for plain in (B, none):
            self.answers("GET", f"/copies/{plain}", None, 200, '{"code":"copies","copies":[]}')
        text = f'{{"code":"no-changeset","id":"{NOTHING}"}}'
        self.answers("GET", f"/copies/{NOTHING}", None, 404, text)
        self.answers("GET", "/copies/abcx", None, 400, '{"code":"bad-id","place":3}')
        self.answers("GET", "/copies/", None, 404, '{"code":"no-route"}')
        self.answers("PUT", f"/copies/{id}", b"", 405, '{"code":"method"}')
        for place, byte in ((1, b"\3"), (103, b"\2"), (104, b"\1")):
            spoiled = data[:place] + byte + data[place + 1 :]
            text = f'{{"code":"bad-encoding","place":{place}}}'
            self.answers("PUT", "/changeset", spoiled, 422, text)

    def test_landings_with_a_moment(self):
        self.needs_copies()
        name = fresh()
        self.one("PUT", "/content", b"abc")
        base = replace(EMPTY, message=name)
        plain = replace(base, parents=(base.id,), seconds=-5, offset=60, asked_version=1)
        copying = replace(COPIES_P, parents=(plain.id,), seconds=-5, offset=60)
        for changeset in (base, plain, copying):
            self.store(changeset)
        self.one("PUT", f"/bookmark/{name}/none/{base.id}")
        begun = time.time()
        status, answer = self.one("POST", f"/land/{name}/{copying.id}")
        last = json.loads(self.one("GET", "/log/" + "9" * 19)[1])["total"] - 1
        moment = json.loads(self.one("GET", f"/log/{last}")[1])["entries"][0]["moment"]
        self.assertGreater(moment, begun - CLOCKS_DIFFER)
        self.assertLess(moment, time.time() + CLOCKS_DIFFER)
        dated = laid_out(replace(copying, seconds=moment, offset=0), 2)
        ids = [plain.id, digest(dated)]
        self.assertEqual((status, answer), (200, landed(ids, base.id).encode()))
        self.assertEqual(self.one("GET", f"/changeset/{ids[1]}"), (200, dated))
        text = '{"code":"copies","copies":[{"from":"p","parent":0,"to":"q"}]}'
        self.answers("GET", f"/copies/{ids[1]}", None, 200, text)
        entry = f'{{"draft":"{copying.id}","ids":["{ids[0]}","{ids[1]}"],"kind":"landing"'
        entry += f',"moment":{moment},"name":"{name}","number":{last},"old":"{base.id}"}}'
        text = f'{{"code":"log","entries":[{entry}],"total":{last + 1}}}'
        self.answers("GET", f"/log/{last}", None, 200, text)
        clash = '{"code":"clash","left":"q","right":"q"}'
        self.answers("POST", f"/land/{name}/{copying.id}", None, 409, clash)

    def test_room_for_a_moment(self):
        self.needs_copies()
        self.server = self.special(capacity=4_096).url
        self.one("PUT", "/content", b"abc")
        for changeset in (EMPTY, COPIES_P):
            self.store(changeset)
        self.one("PUT", f"/bookmark/main/none/{B}")
        self.one("PUT", "/content", b"x" * 3_679)
        full = '{"code":"full","length":192,"size":3900}'
        self.answers("POST", f"/land/main/{COPIES_P.id}", None, 507, full)

    def test_moments_of_a_clock(self):
        served = self.special_stand_in()
        self.server = served.url
        self.one("PUT", "/content", b"abc")
        for changeset in (EMPTY, COPIES_P):
            self.store(changeset)
        for name, moment, seconds in (("main", 1_000, 1_000), ("late", 2**64 - 1, 2**63 - 1)):
            self.one("PUT", f"/bookmark/{name}/none/{B}")
            served.repository.clock = lambda moment=moment: moment
            before = served.repository.size
            wanted = laid_out(replace(COPIES_P, seconds=seconds), 2)
            text = landed([digest(wanted)], B)
            self.answers("POST", f"/land/{name}/{COPIES_P.id}", None, 200, text)
            self.assertEqual(served.repository.size - before, 197)
            self.assertEqual(served.repository.entries[-1]["moment"], moment)

    def test_manifests(self):
        self.needs_manifests()
        name = fresh()
        self.one("PUT", "/content", b"abc")
        self.one("PUT", "/content", b"")
        changes = {"a/x": File(ABC, 3), "b": File(NIL, 0)}
        id = self.store(replace(EMPTY, message=name, changes=changes))
        for path, length in (("", 165), ("/a", 90)):
            status, node = self.one("GET", f"/fsnode/{id}{path}")
            self.assertEqual((status, len(node)), (200, length))
        self.answers("GET", f"/fsnode/{id}/b", None, 404, '{"code":"not-a-dir"}')
        self.answers("GET", f"/fsnode/{id}/c", None, 404, '{"code":"no-path"}')
        self.answers("GET", f"/history/{id}/a", None, 404, '{"code":"not-a-file"}')
        self.answers("GET", f"/fsnode/{id}/a//x", None, 400, '{"code":"bad-path","place":2}')
        self.answers("GET", f"/fsnode/{id}/", None, 404, '{"code":"no-route"}')
        line = []
        for number, file in enumerate((File(ABC, 3), None, File(ABC, 3))):
            parents = (line[-1],) if line else ()
            one = replace(EMPTY, parents=parents, message=f"{name} {number}", changes={"p": file})
            line.append(self.store(one))
        status, node = self.one("GET", f"/unode/{line[-1]}/p")
        self.assertEqual((status, len(node)), (200, 100))
        text = f'{{"code":"history","ids":["{line[-1]}"]}}'
        self.answers("GET", f"/history/{line[-1]}/p", None, 200, text)
        status, node = self.one("GET", f"/fsnode/{self.store(EMPTY)}")
        self.assertEqual((status, len(node)), (200, 46))

    def test_other_requests(self):
        for method, target, status, text in (
            ("GET", "x", 400, '{"code":"bad-target"}'),
            ("GET", "/", 404, '{"code":"no-route"}'),
            ("GET", "/bookmark/", 404, '{"code":"no-route"}'),
            ("GET", "/bookmark/a%20", 400, '{"code":"bad-name","place":1}'),
            ("GET", "/bookmark/" + "a" * 129, 400, '{"code":"bad-name","place":128}'),
            ("GET", "/bookmark/%ff", 400, '{"code":"bad-name","place":0}'),
            ("GET", "/bookmark/a%2", 400, '{"code":"bad-name","place":1}'),
            ("GET", "/changeset/abcx", 400, '{"code":"bad-id","place":3}'),
            ("GET", "/changeset/abc", 400, '{"code":"bad-id","place":3}'),
            ("GET", "/changeset/" + "a" * 65, 400, '{"code":"bad-id","place":64}'),
            ("GET", "/log/" + "1" * 20, 400, '{"code":"bad-number"}'),
            ("GET", "/log/-1", 400, '{"code":"bad-number"}'),
            ("PUT", "/bookmark/a%20/x/y", 400, '{"code":"bad-name","place":1}'),
            ("PUT", "/bookmark/a/none/y", 400, '{"code":"bad-id","place":0}'),
        ):
            self.answers(method, target, None, status, text)
        found = self.session(b"DELETE /content HTTP/1.1\r\n\r\nHEAD /log/0 HTTP/1.1\r\n\r\n")
        head = b"HTTP/1.1 405 Method Not Allowed\r\nContent-Type: application/json\r\n"
        head += b"Content-Length: 17\r\nAllow: %s\r\n\r\n"
        self.assertEqual(found, head % b"PUT" + b'{"code":"method"}' + head % b"GET")

    def test_ends_of_sessions(self):
        after = b"GET /bookmark/%20 HTTP/1.1\r\n\r\n"
        for sent, status, code in (
            (b"x" * 16_384, 431, "head-too-large"),
            (b"GET /\r\n\r\n", 400, "bad-head"),
            (b"GET /log/\xff HTTP/1.1\r\n\r\n", 400, "bad-head"),
            (b"GET / HTTP/1.1\r\n" + b"a: b\r\n" * 65 + b"\r\n", 431, "too-many-headers"),
            (b"GET / HTTP/1.1\r\nTransfer-Encoding: chunked\r\n\r\n", 501, "transfer-encoding"),
            (b"GET / HTTP/1.1\r\nContent-Length: -1\r\n\r\n", 400, "bad-length"),
            (b"GET / HTTP/1.1\r\n" + b"Content-Length: 0\r\n" * 2 + b"\r\n", 400, "bad-length"),
            (b"PUT /content HTTP/1.1\r\n\r\n", 411, "no-length"),
            (b"PUT /content HTTP/1.1\nContent-Length: 1048577\n\n", 413, "body-too-large"),
        ):
            found = self.session(sent + after)
            first, _, body = found.partition(b"\r\n\r\n")
            self.assertTrue(first.startswith(f"HTTP/1.1 {status} ".encode()), (code, found))
            self.assertTrue(first.endswith(b"\r\nConnection: close"), code)
            self.assertEqual(body, f'{{"code":"{code}"}}'.encode())
        for sent in (
            b"GET /bookmark/%20 HTTP/1.0\r\n\r\n",
            b"GET /bookmark/%20 HTTP/1.1\r\nConnection: x, Close\r\n\r\n",
        ):
            self.assertEqual(self.session(sent + after).count(b"HTTP/1.1 400"), 1)


class Limits(unittest.TestCase):
    """The stand-in's limits on ranges and stacks."""

    def repository(self, length: int, stack: int) -> tuple[Repository, str]:
        """A bookmark so far past the root, and a stack of so many on the root."""
        repository = Repository()
        root = repository.put_changeset(EMPTY.encoded)
        tips = []
        for count, word in ((length, "head"), (stack, "stack")):
            tip = root
            for number in range(count):
                one = replace(EMPTY, parents=(tip,), message=f"{word} {number}")
                tip = repository.put_changeset(one.encoded)
            tips.append(tip)
        repository.set_bookmark("main", None, tips[0])
        return repository, tips[1]

    def test_ranges(self):
        repository, draft = self.repository(10_000, 1)
        self.assertEqual(len(repository.land("main", draft)["ids"]), 1)
        with self.assertRaises(Refusal) as caught:
            repository.land("main", draft)
        self.assertEqual(
            (caught.exception.code, caught.exception.members),
            ("too-far-behind", {"distance": 10_001}),
        )

    def test_stacks(self):
        repository, draft = self.repository(0, 100)
        self.assertEqual(len(repository.land("main", draft)["ids"]), 100)
        repository, draft = self.repository(0, 101)
        with self.assertRaises(Refusal) as caught:
            repository.land("main", draft)
        self.assertEqual(
            (caught.exception.code, caught.exception.members), ("stack-too-long", {"count": 101})
        )
