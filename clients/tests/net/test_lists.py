"""Lists of changesets in one request, byte for byte, as docs/API.md has them."""

from __future__ import annotations

import json
from dataclasses import replace

from jarrah_client.formats.changesets import Changeset, File

from ..formats.test_encoding import ABC, EMPTY, NIL
from ..harness import fresh
from ..wire import Wire, landed

NOTHING = "0" * 64


def listed(*spellings: bytes) -> bytes:
    """A list: each spelling behind its length."""
    return b"".join(len(it).to_bytes(4, "big") + it for it in spellings)


def spelled(*changesets: Changeset) -> bytes:
    return listed(*(it.encoded for it in changesets))


class Lists(Wire):
    """A bookmark of its own, at a base that no other test has."""

    def setUp(self) -> None:
        super().setUp()
        self.needs_lists()
        self.name = fresh()
        self.one("PUT", "/content", b"abc")
        self.base = replace(EMPTY, message=self.name)
        self.store(self.base)
        self.one("PUT", f"/bookmark/{self.name}/none/{self.base.id}")
        self.first = self.on(self.base, "a", File(ABC, 3))
        self.second = self.on(self.first, "b", File(ABC, 3))

    def on(self, parent: Changeset, path: str, file: File | None) -> Changeset:
        return replace(self.base, parents=(parent.id,), changes={path: file})

    def called(self, caller: str, method: str, target: str, body: bytes = b"") -> tuple[int, str]:
        """What is answered to a caller."""
        head = f"{method} {target} HTTP/1.1\r\n{caller}Content-Length: {len(body)}\r\n\r\n"
        first, _, rest = self.session(head.encode() + body).partition(b"\r\n\r\n")
        return int(first.split()[1]), rest.decode()

    def entries(self) -> int:
        return json.loads(self.one("GET", "/log/" + "9" * 19)[1])["total"]

    def is_known(self, *changesets: Changeset) -> list[bool]:
        return [self.one("GET", f"/changeset/{it.id}")[0] == 200 for it in changesets]


class Granted(Lists):
    """What is stored, and landed."""

    def test_a_list(self):
        begun, body = self.entries(), spelled(self.first, self.second)
        text = f'{{"code":"changeset","id":"{self.second.id}"}}'
        for _ in range(2):
            self.answers("PUT", "/changesets", body, 200, text)
        self.assertEqual(self.entries(), begun + 2)
        self.assertEqual(self.is_known(self.first, self.second), [True, True])

    def test_a_stack(self):
        begun, ids = self.entries(), [self.first.id, self.second.id]
        text, body = landed(ids, self.base.id), spelled(self.first, self.second)
        self.answers("POST", f"/stack/{self.name}", body, 200, text)
        self.assertEqual(self.entries(), begun + 3)
        text = '{"code":"already-in","at":2}'
        self.answers("POST", f"/stack/{self.name}", body, 409, text)
        self.assertEqual(self.entries(), begun + 3)

    def test_a_stack_on_what_is_known(self):
        self.store(self.first)
        text = landed([self.first.id, self.second.id], self.base.id)
        self.answers("POST", f"/stack/{self.name}", spelled(self.second), 200, text)

    def test_a_hundred(self):
        line = [self.base]
        while len(line) < 102:
            line.append(self.on(line[-1], f"f{len(line)}", None))
        begun, at = self.entries(), len(spelled(*line[1:101]))
        text = f'{{"code":"bad-encoding","place":{at}}}'
        for method, target in (("PUT", "/changesets"), ("POST", f"/stack/{self.name}")):
            self.answers(method, target, spelled(*line[1:]), 422, text)
        self.assertEqual(self.entries(), begun)
        text = landed([it.id for it in line[1:101]], self.base.id)
        self.answers("POST", f"/stack/{self.name}", spelled(*line[1:101]), 200, text)

    def test_a_body_as_long_as_one_may_be(self):
        room = 1_048_576 - len(spelled(self.base))
        longest = replace(self.base, message=self.name + "." * room)
        text = f'{{"code":"changeset","id":"{longest.id}"}}'
        self.answers("PUT", "/changesets", spelled(longest), 200, text)
        over = b"PUT /changesets HTTP/1.1\r\nContent-Length: 1048577\r\n\r\n"
        self.assertTrue(self.session(over).endswith(b'{"code":"body-too-large"}'))


class Refused(Lists):
    """The first that isn't granted ends it, and tells its place behind its other members."""

    def test_a_changeset(self):
        lacking = self.on(self.first, "b", File(NOTHING, 1))
        wrong = self.on(self.first, "b", File(ABC, 4))
        text = f'{{"code":"missing-content","id":"{NOTHING}","path":"b","at":1}}'
        self.answers("POST", f"/stack/{self.name}", spelled(self.first, lacking), 422, text)
        self.assertEqual(self.is_known(self.first, lacking), [True, False])
        text = '{"code":"wrong-size","found":3,"path":"b","wanted":4,"at":1}'
        self.answers("PUT", "/changesets", spelled(self.first, wrong, self.second), 422, text)
        self.assertEqual(self.is_known(self.second), [False])
        text = f'{{"code":"no-parent","id":"{wrong.id}","at":0}}'
        self.answers("PUT", "/changesets", spelled(self.on(wrong, "c", None)), 422, text)
        text = '{"code":"bad-encoding","place":0,"at":1}'
        for spoiled in (b"", b"x", self.second.encoded[1:]):
            body = listed(self.first.encoded, spoiled)
            self.answers("PUT", "/changesets", body, 422, text)
        at = len(self.second.encoded)
        text = f'{{"code":"bad-encoding","place":{at},"at":0}}'
        self.answers("PUT", "/changesets", listed(self.second.encoded + b"."), 422, text)

    def test_a_landing(self):
        theirs = self.on(self.base, "b/c", None)
        self.answers(
            "POST", f"/stack/{self.name}", spelled(theirs), 200, landed([theirs.id], self.base.id)
        )
        begun, body = self.entries(), spelled(self.first, self.second)
        text = '{"code":"clash","left":"b","right":"b/c","at":2}'
        for _ in range(2):
            self.answers("POST", f"/stack/{self.name}", body, 409, text)
        self.assertEqual(self.entries(), begun + 2)
        absent = fresh("absent")
        text = '{"code":"no-bookmark","at":1}'
        self.answers("POST", f"/stack/{absent}", spelled(self.second), 404, text)
        apart = replace(self.base, message=f"{self.name} apart")
        text = '{"code":"no-root","at":1}'
        self.answers("POST", f"/stack/{self.name}", spelled(apart), 409, text)

    def test_a_landing_that_a_policy_denies(self):
        self.server = self.special().url
        self.needs_lists()
        self.one("PUT", "/content", b"abc")
        self.store(self.base)
        self.one("PUT", f"/bookmark/main/none/{self.base.id}")
        self.one("PUT", "/policy", b"deny bob b\nallow * /\n")
        body, target = spelled(self.first, self.second), "/stack/main"
        denied = '{"code":"denied","path":"b","rule":0,"at":2}'
        self.assertEqual(self.called("Caller: bob\r\n", "POST", target, body), (403, denied))
        self.assertEqual(self.is_known(self.first, self.second), [True, True])
        text = landed([self.first.id, self.second.id], self.base.id)
        self.assertEqual(self.called("Caller: ann\r\n", "POST", target, body), (200, text))

    def test_no_room(self):
        room = 17 + 5 + len(self.base.encoded) + 5 + 34 + len("main") + 5 + 4
        room += 5 + len(self.first.encoded)
        self.server = self.special(capacity=4_096).url
        self.needs_lists()
        # all but the room of these and 100 bytes
        self.one("PUT", "/content", b"x" * (4_096 - room - 100 - 6))
        self.one("PUT", "/content", b"abc")
        self.store(self.base)
        self.one("PUT", f"/bookmark/main/none/{self.base.id}")
        status, answer = self.one("POST", "/stack/main", spelled(self.first, self.second))
        members = json.loads(answer)
        self.assertEqual((status, members["code"], members["at"]), (507, "full", 1))
        self.assertTrue(answer.endswith(b',"at":1}'))
        self.assertEqual(self.is_known(self.first, self.second), [True, False])


class Malformed(Lists):
    """What is no list is refused before anything is stored, and has no place in one."""

    def test_cut_short(self):
        one, begun = len(self.first.encoded), self.entries()
        for body, place in (
            (b"", 0),
            (b"\0\0\0", 0),
            (b"\0\0\0\1", 4),
            (b"\xff\xff\xff\xffabc", 4),
            (spelled(self.first)[:-1], 4),
            (spelled(self.first) + b"\0", 4 + one),
            (spelled(self.first) + b"\0\0\0\2a", 8 + one),
        ):
            text = f'{{"code":"bad-encoding","place":{place}}}'
            for method, target in (("PUT", "/changesets"), ("POST", f"/stack/{self.name}")):
                self.answers(method, target, body, 422, text)
        self.assertEqual((self.entries(), self.is_known(self.first)), (begun, [False]))

    def test_no_length(self):
        text = '{"code":"bad-encoding","place":0}'
        for method, target in (("PUT", "/changesets"), ("POST", f"/stack/{self.name}")):
            self.answers(method, target, None, 422, text)

    def test_names_come_first(self):
        bad_name = (400, '{"code":"bad-name","place":1}')
        bad_caller = (400, '{"code":"bad-caller"}')
        twice = "Caller: ann\r\nCaller: ann\r\n"
        body = spelled(self.first)
        for sent in (body, b"", body[:-1]):
            self.assertEqual(self.called(twice, "POST", "/stack/a%20", sent), bad_name)
            for caller in (twice, "Caller: a b\r\n", "Caller:\r\n"):
                found = self.called(caller, "POST", f"/stack/{self.name}", sent)
                self.assertEqual(found, bad_caller)
        text = f'{{"code":"changeset","id":"{self.first.id}"}}'
        self.assertEqual(self.called(twice, "PUT", "/changesets", body), (200, text))

    def test_routes(self):
        for method, target, allow in (
            ("GET", f"/stack/{self.name}", b"POST"),
            ("PUT", f"/stack/{self.name}", b"POST"),
            ("POST", "/changesets", b"PUT"),
            ("GET", "/changesets", b"PUT"),
        ):
            found = self.session(f"{method} {target} HTTP/1.1\r\n\r\n".encode())
            head, _, rest = found.partition(b"\r\n\r\n")
            self.assertTrue(head.startswith(b"HTTP/1.1 405 "), found)
            self.assertIn(b"\r\nAllow: " + allow, head)
            self.assertEqual(rest, b'{"code":"method"}')
        stack = f"/stack/{self.name}/x"
        for target in ("/stack", "/stack/", stack, "/changesets/", "/changesets/x"):
            self.answers("POST", target, b"", 404, '{"code":"no-route"}')

    def test_a_content_that_is_empty(self):
        self.one("PUT", "/content", b"")
        empty = self.on(self.base, "y", File(NIL, 0))
        text = landed([empty.id], self.base.id)
        self.answers("POST", f"/stack/{self.name}", spelled(empty), 200, text)
