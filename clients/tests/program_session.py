"""One session of the program: what it reads, and what the stand-in answers to that.

`scripts/session-script` writes both beside the program, whose run the merge gate compares with
them. The stand-in shares no code with the program.
"""

from __future__ import annotations

import io
from contextlib import nullcontext
from types import SimpleNamespace

from .harness import TOP
from .program_misses import MISSES
from .stand_in.http import Service, Session
from .stand_in.policy import NOBODY
from .stand_in.repository import Repository
from .stand_in.spelling import digest

PROGRAM = TOP / "crates" / "hg_cli"
ABC = "ba7816bf8f01cfea414140de5dae2223b00361a396177a9cb410ff61f20015ad"
"""The content that the program's file has at first (FIPS 180-4)."""

HEADS = [
    b"PUT /content HTTP/1.1\r\nCONTENT-LENGTH: 3 \t\r\n\r\nabc",
    b"\r\n\n\r\nGET /nowhere HTTP/1.1\n\n\n\r\nHEAD /content?x HTTP/1.1\nhost: x\r\n\n\r\n",
    b"GET /nowhere HTTP/1.1\n\nGET content HTTP/1.1\r\n\r\n",
    b"GET / HTTP/1.1\r\nConnection: closed\r\n\r\n",
    b"GET / HTTP/1.1\r\nConnection: x close\r\n\r\n",
    b"GET / HTTP/1.1\r\nConnections: close\r\n\r\n",
    b"GET / HTTP/1.1\r\nConnection:\r\n\r\n",
    b"GET / HTTP/1.1\r\nA:" + b" " * 16_364 + b"\n\n",
    b"GET / HTTP/1.1\n" + b"A:\n" * 64 + b"\n",
    b"\r\n" * 20_000,
]
"""Heads that are taken, and line ends before them."""

LAST = (
    b"GET /log/0 HTTP/1.1\r\nconnection: keep-alive , \t Close\t\r\n\r\n"
    b"PUT /content HTTP/1.1\r\nContent-Length: 3\r\n\r\nabc"
)
"""A request that ends the session, and one that isn't read."""


def request(line: str, body: bytes = b"", callers: tuple[str, ...] = ()) -> bytes:
    named = "".join(f"Caller: {caller}\r\n" for caller in callers)
    return f"{line} HTTP/1.1\r\n{named}Content-Length: {len(body)}\r\n\r\n".encode() + body


def spelled(
    *edits: bytes,
    parents: tuple[str, ...] = (),
    author: bytes = b"a",
    message: bytes = b"",
    version: int = 1,
) -> bytes:
    """The changeset at second 0 that docs/FORMATS.md lays out so."""
    return b"".join(
        [
            bytes([0x43, version, len(parents)]),
            *map(bytes.fromhex, parents),
            len(author).to_bytes(2, "big") + author,
            bytes(12),
            len(message).to_bytes(4, "big") + message,
            len(edits).to_bytes(4, "big"),
            *edits,
        ]
    )


def path_field(path: str) -> bytes:
    return len(path).to_bytes(2, "big") + path.encode()


def sets(path: str, content: bytes = b"abc", size: int | None = None) -> bytes:
    length = len(content) if size is None else size
    return path_field(path) + b"\x01\x00" + length.to_bytes(8, "big") + digested(content)


def copies(path: str, source: str, content: bytes = b"abc", parent: int = 0) -> bytes:
    """A set of version 2, with the path that it was copied from."""
    return sets(path, content) + bytes([1, parent]) + path_field(source)


def deletes(path: str) -> bytes:
    return path_field(path) + b"\x00"


def digested(content: bytes) -> bytes:
    return bytes.fromhex(digest(content))


class Script:
    """The requests so far, their responses, and the repository after them."""

    def __init__(self) -> None:
        file = (PROGRAM / "data" / "repository").read_bytes()
        self.repository = Repository(int.from_bytes(file[8:16], "big"), merges=True)
        self.repository.put_content(b"abc")
        assert self.repository.size == len(file) and digest(b"abc") == ABC
        assert file[7] == self.repository.version
        self.service = Service(self.repository)
        self.read = b""
        self.written = b""

    def say(self, data: bytes) -> None:
        """Reads some whole requests, and answers them."""
        session = Session.__new__(Session)
        session.rfile, session.wfile = io.BytesIO(data), io.BytesIO()
        session.server = SimpleNamespace(lanes=nullcontext(), service=self.service)
        session.handle()
        self.read += data
        self.written += session.wfile.getvalue()

    def ask(self, *lines: str) -> None:
        for line in lines:
            self.say(request(line))

    def put(self, data: bytes) -> str:
        """Stores a content, and gives its id."""
        self.say(request("PUT /content", data))
        return digest(data)

    def commit(self, data: bytes) -> str:
        """Stores a changeset, and gives its id."""
        self.say(request("PUT /changeset", data))
        return digest(data)

    def join(self, *parts: bytes) -> bytes:
        """Joins contents, and gives their joined bytes."""
        self.say(request("PUT /whole", b"".join(map(digested, parts))))
        return b"".join(parts)

    def by(self, *callers: str, line: str, body: bytes = b"") -> None:
        """Asks by these callers, of whom there should be one."""
        self.say(request(line, body, callers))

    def leave(self, room: int) -> None:
        """Stores a content after which so many bytes of the capacity are left."""
        self.put(b"x" * (self.repository.capacity - self.repository.size - room - 6))
        assert self.repository.capacity - self.repository.size == room


def misses(script: Script) -> None:
    for line in MISSES.split("\n")[1:-1]:
        # the ids stand in braces, so that each line is seen as it is sent
        for mark, text in [
            ("{abc}", ABC),
            ("{ABC}", ABC.upper()),
            ("{abc[1:]}", ABC[1:]),
            ("{abc[:63]}", ABC[:63]),
        ]:
            line = line.replace(mark, text)
        script.ask(line)


def contents(script: Script) -> None:
    script.put(b"abc")
    script.ask("GET /log/0", "GET /log/1", f"GET /content/{ABC}", f"GET /content/{digest(b'')}")
    script.join(b"abc", b"")


def changesets(script: Script) -> tuple[str, str]:
    """Uploads, known ones and refused ones: the ids of one that sets `p`, and of an empty one."""
    alone = script.commit(spelled(sets("p")))
    script.ask(f"PUT /bookmark/main/none/{alone}", "GET /bookmark/ma%69n")
    script.put(b"")
    root = script.commit(spelled())
    script.commit(spelled())
    for refused in [
        spelled(author=b""),
        spelled(deletes("b"), deletes("a")),
        spelled(sets("a"), sets("a/b")),
        spelled(sets("x"), parents=(digest(spelled(sets("x"), parents=(root,))),)),
        spelled(parents=(root, alone)),
        spelled(sets("p", b"xyz")),
        spelled(sets("p", size=4)),
    ]:
        script.commit(refused)
    script.ask(
        "GET /bookmark/a%2Fb",
        "GET /changeset/ba78",
        f"GET /changeset/{root.upper()}",
        f"GET /changeset/{ABC}",
        f"GET /changeset/{alone}",
    )
    return alone, root


def landings(script: Script, alone: str, root: str) -> None:
    """Drafts on the head, beside it and apart from it."""
    script.ask(
        f"PUT /bookmark/main/none/{root}",
        f"PUT /bookmark/main/{alone}/{root}",
        f"PUT /bookmark/main/{root}/{root}",
        "GET /bookmark/dev",
        f"PUT /bookmark/dev/none/{ABC}",
    )
    child = script.commit(spelled(sets("p"), parents=(root,)))
    script.commit(spelled(sets("p"), parents=(root,)))
    left = script.commit(spelled(sets("x"), parents=(root,)))
    right = script.commit(spelled(sets("y", b""), parents=(root,)))
    empty = script.commit(spelled(parents=(root,)))
    script.ask(
        f"GET /changeset/{child}",
        f"POST /land/dev/{child}",
        f"POST /land/dev/{'07' * 32}",
        f"POST /land/main/{'07' * 32}",
        f"POST /land/main/{alone}",
        f"POST /land/main/{root}",
        f"POST /land/main/{child}",
        f"POST /land/main/{child}",
        f"PUT /bookmark/main/{child}/{left}",
        f"POST /land/main/{right}",
        f"POST /land/main/{right}",
        f"POST /land/main/{empty}",
        f"POST /land/main/{empty}",
    )
    script.ask(f"PUT /bookmark/main/{script.repository.head('main')}/none")
    script.ask("GET /log/0", "GET /log/16", "GET /log/17", "GET /log/x")


def moves(script: Script, root: str) -> None:
    """A bookmark from where it is said to be, and where it stands then."""
    child = digest(spelled(sets("p"), parents=(root,)))
    for old, new in [
        ("none", ABC),
        (root, "none"),
        ("none", root),
        ("none", child),
        (root, root),
        (root, child),
        (child, "none"),
        ("none", "none"),
        ("none", child),
    ]:
        script.ask(f"PUT /bookmark/moves/{old}/{new}", "GET /bookmark/moves", "GET /log/999")


def clashes(script: Script, root: str) -> None:
    """A file and a directory at one path, and files side by side."""
    lib = script.commit(spelled(sets("lib"), parents=(root,)))
    head = script.commit(spelled(deletes("lib"), parents=(lib,)))
    under = script.commit(spelled(sets("lib/x"), parents=(lib,)))
    script.ask(
        f"PUT /bookmark/trunk/none/{head}",
        "GET /log/0",
        f"POST /land/trunk/{under}",
        "GET /log/0",
        f"PUT /bookmark/trunk/{head}/none",
    )
    file = script.commit(spelled(sets("a"), parents=(root,)))
    head = script.commit(spelled(sets("a/c"), parents=(file,)))
    beside = script.commit(spelled(sets("a/b"), parents=(file,)))
    script.ask(f"PUT /bookmark/trunk/none/{head}", f"POST /land/trunk/{beside}")
    apart = script.commit(spelled(message=b"x"))
    script.ask(f"POST /land/trunk/{apart}")
    replaced = script.commit(spelled(deletes("a"), sets("a/b"), parents=(root,)))
    script.ask(f"GET /changeset/{replaced}")


def copied_files(script: Script, root: str) -> None:
    """Changesets of version 2. None lands, since its new id would have the landing's moment."""
    on_root = {"parents": (root,), "version": 2}
    told = script.commit(spelled(copies("q", "p"), **on_root))
    script.commit(spelled(copies("q", "p"), **on_root))
    plain = script.commit(spelled(sets("q") + b"\x00", deletes("r"), **on_root))
    several = script.commit(spelled(copies("a/b", "no/where"), copies("a.b", 'a"b'), **on_root))
    script.commit(spelled(version=2))
    for refused in [
        spelled(copies("q", "p", parent=1), **on_root),
        spelled(copies("q", "p"), version=2),
        spelled(sets("q") + b"\x02", **on_root),
        spelled(sets("q"), **on_root),
        spelled(copies("q", "p/"), **on_root),
        spelled(copies("q", "p"), parents=(root,)),
        spelled(parents=(root,), version=3),
    ]:
        script.commit(refused)
    script.ask(
        f"GET /changeset/{told}",
        f"GET /copies/{told}",
        f"GET /copies/{several}",
        f"GET /copies/{plain}",
        f"GET /copies/{root}",
        f"GET /copies/{ABC}",
        "GET /copies/ba78",
        "GET /copies/",
        "GET /copies",
        f"GET /copies/{told}/q",
        f"PUT /copies/{told}",
        f"PUT /bookmark/copies/none/{plain}",
        f"POST /land/copies/{told}",
        f"PUT /bookmark/copies/{plain}/none",
    )


TREE_READS = """
fsnode/{tree}
fsnode/{tree}/a
fsnode/{tree}/a/x
fsnode/{tree}/b
fsnode/{tree}/c
fsnode/{tree}/a%2Fx
fsnode/{tree}/%61
fsnode/{tree}/
fsnode/{tree}//a
fsnode/{tree}/a/
fsnode/{tree}/..
fsnode/{tree}?x=/a
fsnode/{root}
fsnode/{root}/a
fsnode/{lines}
fsnode/{tree}0/a
fsnode/{tree}0/..
unode/{tree}
unode/{tree}/a
unode/{tree}/a/x
unode/{tree}/b
unode/{tree}/c
unode/{tree}/%FF
unode/{tree}/b/x
unode/{lines}
unode/{lines}/p
history/{lines}/p
history/{tree}/a/x
history/{tree}/a
history/{tree}/c
history/{tree}
history/{lines}/p/
history
deleted/{tree}
deleted/{tree}/a
deleted/{gone}
deleted/{gone}/p
deleted/{gone}/q
deleted/{lines}
deleted/{lines}/p
deleted/{over}
deleted/{over}/a
deleted/{over}/a/x
deleted/{over}/a/x/y
deleted/{over}/a/y
deleted/{over}/a/%FF
deleted/
pathlog/{lines}/p
pathlog/{gone}/p
pathlog/{root}/p
pathlog/{tree}/a/x
pathlog/{tree}/a
pathlog/{tree}
pathlog/{over}/a
pathlog/{over}/a/x
pathlog/{over}/a/x/y
pathlog/{over}/a/y/z
pathlog/{over}/b
pathlog/{over}/c
pathlog/{over}/..
"""
"""Manifests of `a/x` and `b`, of no file, and of a file that was set, deleted and set again; and
of a directory that became a file and a directory again."""


def manifests(script: Script, root: str) -> None:
    """Reads of manifests, of ends of two chains and of the root that they have in common."""
    tree = script.commit(spelled(sets("a/x"), sets("b", b""), parents=(root,)))
    before = digest(spelled(sets("p"), parents=(root,)))
    gone = script.commit(spelled(deletes("p"), parents=(before,)))
    lines = script.commit(spelled(sets("p"), parents=(gone,)))
    file = script.commit(spelled(sets("a"), parents=(tree,)))
    deep = script.commit(spelled(sets("a/x/y"), sets("a/y"), parents=(file,)))
    over = script.commit(spelled(sets("a/x"), deletes("a/y"), parents=(deep,)))
    marks = {"tree": tree, "root": root, "lines": lines, "gone": gone, "over": over}
    for line in TREE_READS.split("\n")[1:-1]:
        for mark, text in marks.items():
            line = line.replace(f"{{{mark}}}", text)
        script.ask(f"GET /{line}")
    script.ask(f"GET /fsnode/{ABC}", f"GET /unode/{ABC}/a", f"GET /history/{ABC}/a")
    script.ask(f"GET /deleted/{ABC}", f"GET /pathlog/{ABC}/a", f"HEAD /deleted/{gone}")
    script.ask(f"PUT /fsnode/{tree}", f"POST /unode/{tree}/a", f"DELETE /history/{tree}/a")
    script.ask(f"PUT /deleted/{tree}", f"POST /pathlog/{tree}/a")


MERGE_READS = """
fsnode/{merge}
unode/{merge}
unode/{merge}/x
history/{merge}/x
history/{merge}/y
pathlog/{merge}/x
pathlog/{merge}/y
deleted/{merge}
changeset/{merge}
fsnode/{crossed}
unode/{crossed}
unode/{crossed}/x
history/{crossed}/x
unode/{settled}
unode/{settled}/x
history/{settled}/x
pathlog/{settled}/x
fsnode/{dropped}
unode/{dropped}
deleted/{dropped}
deleted/{dropped}/x
pathlog/{dropped}/x
fsnode/{deep}
unode/{deep}/x/y
history/{deep}/x/y
deleted/{deep}/x
pathlog/{deep}/x
pathlog/{deep}/x/y
fsnode/{all}
unode/{all}
history/{all}/z
history/{all}/x
pathlog/{all}/z
"""
"""Manifests of merges: of two files, of these two ways, of a file that both set, and of a merge."""


def merges(script: Script, root: str) -> None:
    """Changesets with two parents, those that are refused, and landings with them and over them."""
    on_root = {"parents": (root,)}
    x, other = script.commit(spelled(sets("x"), **on_root)), script.commit(
        spelled(sets("x", b""), **on_root)
    )
    y, z = script.commit(spelled(sets("y", b""), **on_root)), script.commit(
        spelled(sets("z"), **on_root)
    )
    under = script.commit(spelled(sets("x/y"), **on_root))
    merge, back = script.commit(spelled(parents=(x, y))), script.commit(spelled(parents=(y, x)))
    marks = {
        "merge": merge,
        "crossed": script.commit(spelled(parents=(merge, back))),
        "settled": script.commit(spelled(sets("x"), parents=(x, other))),
        "dropped": script.commit(spelled(deletes("x"), parents=(x, other))),
        "deep": script.commit(spelled(deletes("x"), parents=(x, under))),
        "all": script.commit(spelled(parents=(z, merge))),
    }
    for parents, edits in [
        ((x, other), ()),
        ((x, other), (sets("x/a"),)),
        ((x, other), (deletes("y"),)),
        ((x, under), ()),
        ((under, x), ()),
        ((under, x), (deletes("x/y"),)),
        ((under, x), (sets("x"),)),
        ((x, under), (sets("x/y"),)),
        ((merge, marks["settled"]), ()),
        ((x, x), ()),
        ((x, ABC), ()),
        ((ABC, x), ()),
        ((digest(b""), ABC), (sets("x"),)),
    ]:
        script.commit(spelled(*edits, parents=parents))
    merged_lines(script, root, x, merge)
    for line in MERGE_READS.split("\n")[1:-1]:
        for mark, text in marks.items():
            line = line.replace(f"{{{mark}}}", text)
        script.ask(f"GET /{line}")


def merged_lines(script: Script, root: str, x: str, merge: str) -> None:
    """Drafts beside a merge that a bookmark is at, on it, and with it."""
    beside = script.commit(spelled(sets("q"), parents=(x,)))
    above = script.commit(spelled(sets("q"), parents=(merge,)))
    script.ask(
        f"PUT /bookmark/merged/none/{merge}",
        f"POST /land/merged/{beside}",
        f"POST /land/merged/{above}",
        f"POST /land/merged/{above}",
        f"PUT /bookmark/plain/none/{root}",
        f"POST /land/plain/{above}",
        f"POST /land/plain/{merge}",
        f"POST /land/plain/{beside}",
    )


LIB = b"allow ann lib\ndeny * lib\nallow * /\n"
BAD_POLICIES = (
    b"",
    b"allow ann",
    b"allow ann /",
    b"allow ann lib\nallow * /\n\n",
    b"allow * lib/\n",
    b"deny a/b /\n",
    b"allow  /\n",
    b"allow * \xff\n",
    b"Deny * /\n",
    b"allow * /\n" * 1_001,
    b"allow * /\n" * 6_554,
)
"""Texts that break the grammar of policies, or are too long."""


def policies(script: Script, root: str) -> None:
    """Policies, what they allow whom, and in the end one that allows all."""
    script.ask("GET /policy", "GET /policy/0", "GET /policy/x", "POST /policy", "HEAD /policy")
    for text in BAD_POLICIES:
        script.say(request("PUT /policy", text))
    script.by("a b", line="PUT /policy", body=b"")
    script.ask(f"PUT /bookmark/held/none/{root}")
    number = len(script.repository.entries)
    script.by("ann", line="PUT /policy", body=LIB)
    script.ask("GET /policy", f"GET /policy/{number}", f"GET /policy/{number - 1}")
    lib = script.commit(spelled(sets("a"), sets("lib/x"), parents=(root,)))
    beside = script.commit(spelled(sets("lib.x"), sets("libx"), parents=(root,)))
    clash = script.commit(spelled(deletes("lib"), parents=(root,)))
    for callers in (("bob",), ("ann", "bob"), ("",), ("a/b",), ("x" * 129,), ("ann",), ()):
        script.by(*callers, line=f"POST /land/held/{lib}")
    script.by("b.o_b-", line=f"POST /land/held/{beside}")
    script.by("bob", line=f"POST /land/held/{clash}")
    script.by("ann", line=f"POST /land/held/{clash}")
    script.by("a b", line="POST /land/held/x")
    script.by("a b", line=f"POST /land/a%20b/{lib}")
    script.by("a b", line="GET /policy")
    script.by("a b", line="PUT /content", body=b"by nobody")
    head = script.repository.head("held")
    only_ann(script, head)
    script.ask(f"GET /log/{number}", f"PUT /bookmark/held/{head}/{head}")


def only_ann(script: Script, head: str) -> None:
    """A policy that allows one caller all, and then again one for everybody."""
    script.by("bob", line="PUT /policy", body=b"allow ann /\n")
    for line in (
        f"PUT /bookmark/held/{head}/none",
        f"PUT /bookmark/held/{head}/{head}",
        f"PUT /bookmark/held/none/{head}",
        f"PUT /bookmark/../none/{head}",
        f"POST /land/held/{script.commit(spelled(sets('z'), parents=(head,)))}",
        f"POST /land/held/{script.commit(spelled(parents=(head,)))}",
    ):
        script.by("bob", line=line)
    script.by("bob", line="PUT /policy", body=b"allow * /\n")
    script.by("bob", line="PUT /policy", body=b"allow\n")
    script.by("ann", line="PUT /policy", body=b"deny * a b\nallow * /\n")


def wholes(script: Script, root: str) -> None:
    """Contents that are joined, what of that is refused, and files with them."""
    for length in (0, 31, 32, 64, 2_048, 2_080):
        script.say(request("PUT /whole", bytes(length)))
    script.ask("GET /whole", "PUT /whole/")
    size, number = script.repository.size, len(script.repository.entries)
    twice = script.join(b"abc", b"abc")
    assert script.repository.size == size + 112
    script.join(b"abc", b"abc")
    assert script.join(b"abc", b"") == script.join(b"abc") == b"abc"
    script.join(b"")
    script.put(twice)
    assert len(script.repository.entries) == number + 1
    script.ask(f"GET /content/{digest(twice)}", f"HEAD /content/{digest(twice)}")
    for parts in [(b"abc", twice, b""), (twice, b"none"), (b"none", twice), (twice,)]:
        script.join(*parts)
    script.put(b"xyz")
    ends = [script.join(b"abc", b"xyz"), script.join(b"xyz", b"abc")]
    most = script.join(*[b"xyz"] * 63, b"")
    script.ask(*(f"GET /content/{digest(whole)}" for whole in [*ends, most]))
    first = script.commit(spelled(sets("w", twice), sets("x", ends[0]), parents=(root,)))
    script.commit(spelled(sets("w", twice, size=7), parents=(root,)))
    script.commit(spelled(sets("w", twice), sets("x", b"none"), parents=(root,)))
    script.ask(f"GET /fsnode/{first}", f"GET /unode/{first}/w", f"GET /log/{number}")


def listed(*spellings: bytes) -> bytes:
    """A list of changesets: each behind its length."""
    return b"".join(len(one).to_bytes(4, "big") + one for one in spellings)


def lists(script: Script, root: str) -> None:
    """Lists of changesets that are stored, and landed, and those that are refused at some place."""
    one = spelled(sets("l/1"), parents=(root,))
    two = spelled(sets("l/2"), parents=(digest(one),))
    lacking = spelled(sets("l/3", b"none"), parents=(digest(two),))
    clash = spelled(sets("l"), parents=(root,))
    script.ask(f"PUT /bookmark/listed/none/{root}", "GET /changesets", "PUT /stack/listed")
    stack, cut = listed(one, two), listed(one, two)[:-1]
    for body in (listed(one), stack, listed(one, lacking, two), listed(b""), listed(one, b"C")):
        script.say(request("PUT /changesets", body))
    for body in (stack, stack, listed(clash), listed(lacking), cut, b"", b"\0\0\0", listed(two)):
        script.say(request("POST /stack/listed", body))
    script.say(b"PUT /changesets HTTP/1.1\r\n\r\nPOST /stack/listed HTTP/1.1\r\n\r\n")
    hundred = [spelled(message=b"%d" % number, parents=(root,)) for number in range(100)]
    script.say(request("POST /stack/listed", listed(*hundred, one)))
    script.say(request("POST /stack/none", listed(one)))
    script.by("ann", line="POST /stack/a%20b", body=cut)
    script.by("a b", line="POST /stack/listed", body=cut)
    script.by("ann", "ann", line="POST /stack/listed", body=stack)


def pages(script: Script) -> None:
    """The log as it passes a hundred entries."""
    while len(script.repository.entries) < 101:
        script.put(b"y" * (len(script.repository.entries) - 1))
    script.ask(*(f"GET /log/{start}" for start in (0, 1, 2, 100, 101, 9_999_999_999_999_999_999)))


def little_room(script: Script, root: str) -> None:
    """Landings where a byte too few is left, with a moment and without, and a join; then uploads
    where 34 bytes are left, and then none.
    """
    wrapper = 2 + len(NOBODY)
    draft = script.commit(spelled(sets("p"), parents=(root,)))
    dated = script.commit(spelled(copies("q", "p"), parents=(root,), version=2))
    script.ask(f"PUT /bookmark/full/none/{root}")
    script.leave(196 + wrapper)
    script.ask(f"POST /land/full/{dated}")
    script.leave(183 + wrapper)
    script.ask(f"POST /land/full/{draft}", "GET /bookmark/full")
    script.leave(111)
    script.join(b"xyz", b"xyz")
    script.leave(34)
    other = digest(b"other")
    for refused in [
        spelled(parents=(other, root)),
        spelled(sets("p", b"other"), parents=(other,)),
        spelled(sets("p", b"other")),
        spelled(sets("a"), sets("a/b")),
        spelled(message=b"xxxx"),
        spelled(author=b"\x00"),
    ]:
        script.commit(refused)
    fits = script.commit(spelled(message=b"xxx"))
    assert script.repository.size == script.repository.capacity
    script.put(b"q")
    script.commit(spelled(author=b"q"))
    script.ask(f"PUT /bookmark/last/none/{fits}")
    # what is known makes no entry
    script.put(b"abc")
    script.commit(spelled(message=b"xxx"))
    script.join(b"abc", b"abc")
    script.join(b"xyz", b"q")
    script.ask(f"PUT /bookmark/full/{root}/{root}", f"GET /content/{digest(b'q')}")


def made() -> Script:
    """The whole session."""
    script = Script()
    misses(script)
    contents(script)
    alone, root = changesets(script)
    landings(script, alone, root)
    moves(script, root)
    clashes(script, root)
    copied_files(script, root)
    manifests(script, root)
    merges(script, root)
    lists(script, root)
    policies(script, root)
    wholes(script, root)
    for head in HEADS:
        script.say(head)
    pages(script)
    little_room(script, root)
    script.say(LAST)
    return script
