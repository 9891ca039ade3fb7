"""Spellings and ids, against the worked bytes of docs/FORMATS.md and the stand-in's code."""

import re
import struct
import unittest
from dataclasses import replace

from jarrah_client.formats.changesets import (
    CannotSpell,
    Changeset,
    CopySource,
    File,
    Kind,
    SelfConflict,
    decode,
    digest,
    encode,
)
from jarrah_client.formats.fields import BadEncoding
from jarrah_client.formats.nodes import (
    Directory,
    Fsnode,
    Summary,
    decode_fsnode,
    decode_unode,
    encode_fsnode,
)
from jarrah_client.formats.paths import path_fault, path_key

from ..harness import TOP
from ..stand_in.manifests import fsnodes, past_after
from ..stand_in.spelling import Refusal, Set, path_place, read_changeset

FORMATS = (TOP / "docs" / "FORMATS.md").read_text()
ABC = "ba7816bf8f01cfea414140de5dae2223b00361a396177a9cb410ff61f20015ad"
NIL = "e3b0c44298fc1c149afbf4c8996fb92427ae41e4649b934ca495991b7852b855"
B = "ffb74880ae0d3038b6e6e402ea0840634c79efb3c927e280d44f36567ece7169"
ROOT_OF_P = "f23b8d897f505570be94c99c43b00ffd480458890be71bb81128c34b1c087a4f"
C = "e8795b6f358309976a85a48b88590a7b77ffcdc1ce55d29a761853d4ff0669f0"
EMPTY = Changeset((), "a", 0, 0, "")
SETS_P = Changeset((), "a", 0, 0, "", {"p": File(ABC, 3)})
RICH = Changeset(
    (B,),
    "Ä <a@b>",
    -1,
    -3_600,
    "one\ntwo",
    {
        "a": None,
        "a/b": File(ABC, 3, Kind.EXECUTABLE),
        "a.b": File(NIL, 0, Kind.SYMLINK),
        "ü/x": File(ABC, 3),
    },
)
COPIES_P = replace(
    EMPTY, parents=(B,), changes={"q": File(ABC, 3)}, copies={"q": CopySource(0, "p")}
)
"""The changeset of version 2 on `B` that sets `q`, copied from `p`."""
COPYING = replace(
    RICH,
    parents=(B, C),
    copies={"a/b": CopySource(0, "a"), "ü/x": CopySource(1, "ü/from")},
)


def block_after(text: str) -> bytes:
    """The hex bytes of the first code block after a text of FORMATS.md, its words left out."""
    block = FORMATS.split(text, 1)[1].split("```", 2)[1]
    found = []
    for line in block.strip().splitlines():
        digits = re.match(r"(?:[0-9a-f]{2}(?:[0-9a-f]{6})?(?: +|$))+", line, re.I)
        found.append(digits[0] if digits else "")
    return bytes.fromhex("".join(found))


def laid_out(changeset: Changeset, version: int) -> bytes:
    """A changeset's bytes field by field, as docs/FORMATS.md has them."""
    author, message = changeset.author.encode(), changeset.message.encode()
    laid = struct.pack(">BBB", 0x43, version, len(changeset.parents))
    laid += b"".join(map(bytes.fromhex, changeset.parents))
    laid += struct.pack(">H", len(author)) + author
    laid += struct.pack(">qi", changeset.seconds, changeset.offset)
    laid += struct.pack(">I", len(message)) + message + struct.pack(">I", len(changeset.changes))
    for path, file in changeset.changes.items():
        laid += struct.pack(">H", len(path.encode())) + path.encode()
        if file is None:
            laid += b"\x00"
            continue
        laid += struct.pack(">BBQ", 1, file.kind, file.size) + bytes.fromhex(file.content)
        source = changeset.copies.get(path)
        if source:
            laid += struct.pack(">BBH", 1, source.parent, len(source.path.encode()))
            laid += source.path.encode()
        elif version == 2:
            laid += b"\x00"
    return laid


class WorkedBytes(unittest.TestCase):
    """The examples of docs/FORMATS.md."""

    def test_contents(self):
        self.assertIn(ABC, FORMATS)
        self.assertEqual((digest(b"abc"), digest(b"")), (ABC, NIL))

    def test_the_empty_changeset(self):
        data = block_after("has 26 bytes.")
        self.assertEqual(len(data), 26)
        self.assertEqual((EMPTY.encoded, EMPTY.id), (data, B))
        self.assertEqual(decode(data), EMPTY)
        self.assertIn(B, FORMATS)

    def test_the_changeset_that_sets_p(self):
        change = block_after("The change is")
        self.assertEqual(SETS_P.encoded, EMPTY.encoded[:-4] + b"\0\0\0\1" + change)
        self.assertEqual((len(SETS_P.encoded), SETS_P.id), (71, ROOT_OF_P))
        self.assertEqual(decode(SETS_P.encoded), SETS_P)
        onto = replace(SETS_P, parents=(B,))
        self.assertEqual((len(onto.encoded), onto.id), (103, C))
        self.assertEqual(decode(onto.encoded), onto)

    def test_the_changeset_that_copies_p(self):
        data = bytes.fromhex("430201") + bytes.fromhex(B) + bytes.fromhex("000161")
        data += bytes(8 + 4 + 4) + bytes.fromhex("00000001")
        data += bytes.fromhex("000171" "01" "00" "0000000000000003") + bytes.fromhex(ABC)
        data += bytes.fromhex("01" "00" "000170")
        self.assertEqual((len(data), block_after("has 108 bytes:")), (108, data))
        self.assertEqual((COPIES_P.encoded, COPIES_P.version), (data, 2))
        self.assertEqual(COPIES_P.id, digest(data))
        self.assertIn(f"above, with the id `{COPIES_P.id}`", FORMATS)
        self.assertEqual(decode(data), COPIES_P)
        self.assert_place(data[:103] + b"\2" + data[104:], 103)
        self.assert_place(data[:104] + b"\1" + data[105:], 104)
        self.assert_place(data[:105] + b"\0\0" + data[107:], 105)
        self.assert_place(data[:107] + b"/", 107)
        self.assert_place(data[:103] + b"\0\0", 104)
        self.assert_place(data[:1] + b"\3" + data[2:], 1)
        self.assert_place(data[:1] + b"\1" + data[2:], 103)

    def test_the_landing_that_has_a_moment(self):
        moment = bytes.fromhex("00000000000003e8")
        dated = COPIES_P.encoded[:38] + moment + COPIES_P.encoded[46:]
        self.assertEqual(decode(dated), replace(COPIES_P, seconds=1_000))
        ids = bytes.fromhex(B) + bytes.fromhex(COPIES_P.id)
        payload = bytes.fromhex("4e046d61696e") + ids + moment
        payload += bytes.fromhex("0001" "0000006c") + dated
        self.assertEqual(len(payload), 192)
        self.assertIn("at the moment 1,000, has 192 bytes: `4E 04 6D 61 69 6E`", FORMATS)
        self.assertIn(f"These have the id `{digest(dated)}`. So the file grows by 197.", FORMATS)

    def test_places_of_faults(self):
        data = EMPTY.encoded
        self.assert_place(data[:3] + b"\0\0" + data[6:], 3)
        self.assert_place(data[:13], 6)
        self.assert_place(data + b"\0", 26)

    def assert_place(self, data: bytes, place: int) -> None:
        with self.assertRaises(BadEncoding) as caught:
            decode(data)
        self.assertEqual(caught.exception.place, place)

    def test_fsnodes(self):
        below = Fsnode(Summary(1, 3, 0, 1, 3), {"x": File(ABC, 3)})
        data = encode_fsnode(below)
        self.assertEqual(len(data), 90)
        self.assertEqual(
            digest(data), "4cdf19e1193d6da6b9a08425aae39f6ab6eed18c679a6d66b2e258bb666d994a"
        )
        entries = {"a": Directory(digest(data), below.summary), "b": File(NIL, 0)}
        root = Fsnode(Summary(1, 0, 1, 2, 3), entries)
        whole = encode_fsnode(root)
        self.assertEqual(len(whole), 165)
        self.assertEqual(
            digest(whole), "a241299a88a94c9a2f533801924b96f09c53332879cd53c9624f21631dd6b74a"
        )
        self.assertEqual((decode_fsnode(data), decode_fsnode(whole)), (below, root))
        tree = {"a/x": Set(ABC, 3, 0), "b": Set(NIL, 0, 0)}
        self.assertEqual(fsnodes(tree), {"a": data, "": whole})
        self.assertEqual(encode_fsnode(Fsnode(Summary(), {})), b"F\x01" + bytes(44))

    def test_faulty_fsnodes(self):
        data = encode_fsnode(Fsnode(Summary(1, 3, 0, 1, 3), {"x": File(ABC, 3)}))
        places = {0: (0, b"G"), 46: (46, b"\0"), 47: (47, b"/"), 48: (48, b"\2"), 49: (49, b"\3")}
        for at, (place, byte) in places.items():
            with self.subTest(at=at), self.assertRaises(BadEncoding) as caught:
                decode_fsnode(data[:at] + byte + data[at + 1 :])
            self.assertEqual(caught.exception.place, place)
        with self.assertRaises(BadEncoding) as caught:
            decode_fsnode(data[:-1])
        self.assertEqual(caught.exception.place, 58)
        with self.assertRaises(BadEncoding) as caught:
            decode_fsnode(data[:45] + b"\2" + data[46:] + data[46:])
        self.assertEqual(caught.exception.place, 91)

    def test_unodes(self):
        first = past_after([], read_changeset(SETS_P.encoded))
        again = replace(SETS_P, parents=(SETS_P.id,))
        second = past_after([first], read_changeset(again.encoded))
        old, new = first.nodes["p"], second.nodes["p"]
        self.assertEqual((len(old[1]), len(new[1])), (100, 132))
        self.assertEqual(decode_unode(old[1]).parents, ())
        self.assertEqual(decode_unode(new[1]).parents, (old[0],))
        root = decode_unode(second.nodes[""][1])
        self.assertEqual((root.linknode, root.entries), (again.id, {"p": new[0]}))


class BothReaders(unittest.TestCase):
    """The client's reader and the stand-in's, which share no code, on the same bytes."""

    def outcome(self, data: bytes):
        try:
            return decode(data).id
        except BadEncoding as fault:
            return "bad-encoding", fault.place
        except SelfConflict as fault:
            return "self-conflict", fault.long, fault.short

    def other_outcome(self, data: bytes):
        try:
            return read_changeset(data).id
        except Refusal as refusal:
            return refusal.code, *refusal.members.values()

    def test_every_front(self):
        for whole in (RICH.encoded, COPYING.encoded):
            for length in range(len(whole)):
                data = whole[:length]
                self.assertEqual(self.outcome(data)[0], "bad-encoding")
                self.assertEqual(self.outcome(data), self.other_outcome(data), length)

    def test_every_byte_changed(self):
        for whole in (RICH.encoded, COPYING.encoded):
            for at, byte in enumerate(whole):
                for other in {0, 1, 2, 10, 46, 47, 128, 255, byte ^ 1, byte ^ 32} - {byte}:
                    data = whole[:at] + bytes((other,)) + whole[at + 1 :]
                    self.assertEqual(self.outcome(data), self.other_outcome(data), (at, other))

    def test_what_is_read_is_spelled_so(self):
        for changeset in (EMPTY, SETS_P, RICH, COPIES_P, COPYING):
            self.assertEqual(decode(changeset.encoded), changeset)
            self.assertEqual(encode(decode(changeset.encoded)), changeset.encoded)

    def test_versions(self):
        for plain in (EMPTY, SETS_P, RICH):
            asked = replace(plain, asked_version=2)
            self.assertEqual((plain.version, asked.version), (1, 2))
            self.assertEqual(plain.encoded, laid_out(plain, 1))
            self.assertEqual(asked.encoded, laid_out(plain, 2))
            self.assertEqual(decode(asked.encoded), asked)
            self.assertEqual(self.outcome(asked.encoded), self.other_outcome(asked.encoded))
            self.assertEqual(replace(plain, asked_version=1).id, plain.id)
        for copying in (COPIES_P, COPYING):
            self.assertEqual((copying.version, copying.encoded), (2, laid_out(copying, 2)))
            told = dict(read_changeset(copying.encoded).changes)
            told = {path: file.copied for path, file in told.items() if file and file.copied}
            ours = {path: (one.parent, one.path) for path, one in copying.copies.items()}
            self.assertEqual(told, ours)

    def test_other_changes(self):
        changes = {"a/b": None, "new": File(NIL, 0), "ü/x": File(NIL, 0)}
        other = COPYING.changing(changes, message="other")
        self.assertEqual((other.changes, other.message), (changes, "other"))
        self.assertEqual(other.copies, {"ü/x": CopySource(1, "ü/from")})
        self.assertEqual(COPIES_P.changing({"q": None}).version, 1)

    def test_self_conflicts(self):
        file = File(ABC, 3)
        for paths, long, short in (
            (("a", "a/b"), "a/b", "a"),
            (("a", "a/b", "a/b/c"), "a/b", "a"),
            (("a.b", "a/b/c", "a/b"), "a/b/c", "a/b"),
        ):
            with self.assertRaises(SelfConflict) as caught:
                encode(replace(EMPTY, changes={path: file for path in paths}))
            self.assertEqual((caught.exception.long, caught.exception.short), (long, short))
        beside = replace(EMPTY, changes={"a": None, "a/b": file})
        self.assertEqual(decode(beside.encoded), beside)

    def test_order_of_paths(self):
        rising = ["a", "a/b", "a/b/c", "a.b", "a0", "b", "é", "\U00010000"]
        self.assertEqual(sorted(reversed(rising), key=path_key), rising)

    def test_rules_of_paths(self):
        good = [b"a", "ä/ö".encode(), b"...", b" ", b"x" * 255, b"/".join([b"y" * 255] * 16)]
        bad = [
            b"",
            b"/a",
            b"a/",
            b"a//b",
            b".",
            b"a/..",
            b"a\nb",
            b"a\0",
            b"\xff",
            b"x" * 256,
            b"a/" * 2_048 + b"a",
        ]
        for path in good + bad:
            self.assertEqual(path_fault(path) is None, path in good, path[:20])
            self.assertEqual(path_place(path) is None, path in good, path[:20])

    def test_what_has_no_spelling(self):
        file = File(ABC, 3)
        for words, changeset in (
            ("author", replace(EMPTY, author="")),
            ("author", replace(EMPTY, author="x" * 1_025)),
            ("author", replace(EMPTY, author="a\nb")),
            ("4,097 paths", replace(EMPTY, changes={str(n): None for n in range(4_097)})),
            ("refused", replace(EMPTY, changes={"a//b": file})),
            ("67,108,865 bytes", replace(EMPTY, changes={"a": File(ABC, 67_108_865)})),
            ("over 1,048,576", replace(EMPTY, message="x" * 1_048_576)),
            ("date", replace(EMPTY, seconds=2**63)),
            ("no version 3", replace(EMPTY, asked_version=3)),
            ("no copy sources", replace(COPIES_P, asked_version=1)),
            ("isn't set", replace(COPIES_P, changes={"q": None})),
            ("isn't set", replace(COPIES_P, copies={"r": CopySource(0, "p")})),
            ("isn't there", replace(COPIES_P, copies={"q": CopySource(1, "p")})),
            ("isn't there", replace(COPIES_P, parents=())),
            ("refused", replace(COPIES_P, copies={"q": CopySource(0, "p/")})),
        ):
            with self.subTest(words=words), self.assertRaisesRegex(CannotSpell, words):
                encode(changeset)
