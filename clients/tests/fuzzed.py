"""Mutated input for the program, and what the stand-in makes of it. `scripts/fuzz` compares both.

Valid sessions and files are made by docs/FORMATS.md and docs/API.md, and then spoiled. What they
come to is read here byte for byte from the documents, by code that the program has no part in.
"""

from __future__ import annotations

import io
import re
from collections.abc import Iterator
from random import Random
from typing import NamedTuple

from .program_session import copies, deletes, digested, request, sets, spelled
from .stand_in.http import MOST_HEAD, Answer, Head, Service, Session, body
from .stand_in.policy import NOBODY
from .stand_in.repository import Repository, rebased
from .stand_in.spelling import Refusal, digest

LEAST_CAPACITY, MOST_CAPACITY = 4_096, 34_359_738_368
MOST_PAYLOAD = 16_777_216
MARKS = [b"BONSAI\x00\x01", b"BONSAI\x00\x02"]
FINE, DAMAGED, STARVED, CUT, REFUSED = 0, 3, 4, 7, 8
NO_MEMORY = Answer(503, b'{"code":"memory"}')
CALLERS = ["ann", "bob", NOBODY]
POLICIES = [
    b"allow ann /\n",
    b"allow ann a\ndeny * a\nallow * /\n",
    b"deny bob lib/x\nallow * /\n",
    b"allow * /\ndeny * /\n",
    b"allow ann .policy\nallow * b\n",
]
PATHS = ["a", "a/b", "a.b", "b", "lib/x", "lib/x/y", "\u00e9/z", "z" * 255]


class Outcome(NamedTuple):
    """A run's status and what it wrote."""

    status: int
    output: bytes


# ---- sessions


def answered(data: bytes, repository: Repository, starved: int | None = None) -> Outcome:
    """What a session that reads this writes, and the status that it ends with.

    For one request, by its place, there is no memory: it is answered so and leaves all as it was.
    """
    service = Service(repository)
    session = Session.__new__(Session)
    session.wfile = io.BytesIO()
    status = FINE
    try:
        for place, (head, sent) in enumerate(requests_in(data)):
            answer = NO_MEMORY if place == starved else service.answer(head, sent)
            session.respond(answer, closes=head.closes, head_only=head.method == "HEAD")
            if head.closes:
                break
    except Refusal as refusal:
        closing = Answer(refusal.status, body(refusal.code, {}))
        session.respond(closing, closes=True, head_only=False)
        status = REFUSED
    except EOFError:
        status = CUT
    return Outcome(status, session.wfile.getvalue())


def requests_in(data: bytes) -> Iterator[tuple[Head, bytes]]:
    """The requests one after another; EOFError where the input ends inside one."""
    at = 0
    while True:
        while line_end := re.compile(rb"\r?\n").match(data, at):
            at = line_end.end()
        if at == len(data):
            return
        end = re.compile(rb"\n\r?\n").search(data[at : at + MOST_HEAD])
        if end is None:
            if len(data) - at >= MOST_HEAD:
                raise Refusal(431, "head-too-large")
            raise EOFError
        head = Head(data[at : at + end.end()])
        at += end.end()
        if len(data) - at < head.length:
            raise EOFError
        yield head, data[at : at + head.length]
        at += head.length


def valid_requests(source: Random) -> list[bytes]:
    """Some requests of every route, on things that are there and on things that aren't."""
    contents = [b"abc", b"", bytes(source.randbytes(source.randrange(300)))]
    base = spelled()
    ids = [digest(base)]
    said = [request("PUT /content", content) for content in contents]
    said += [request("PUT /changeset", base), request(f"PUT /bookmark/main/none/{ids[0]}")]
    said += joins(source, contents)
    for _ in range(source.randrange(1, 6)):
        commit = draft(source, contents, source.choice(ids))
        ids.append(digest(commit))
        said.append(request("PUT /changeset", commit))
        said.append(source.choice(reads(source, ids, contents)))
        said.append(request(f"POST /land/main/{ids[-1]}", callers=some_callers(source)))
        if source.random() < 0.2:
            text = source.choice(POLICIES)
            said.append(request("PUT /policy", text, some_callers(source)))
    # it isn't landed: a landing of version 2 has a moment, which is the program's alone
    copying = draft(source, contents, source.choice(ids), version=2)
    said += [request("PUT /changeset", copying), request(f"GET /copies/{digest(copying)}")]
    said += source.sample(reads(source, ids, contents), 3)
    return said


def joins(source: Random, contents: list[bytes]) -> list[bytes]:
    """Some joins of contents, and reads and uploads of what comes of them. It may be a part of a
    further one, as may what isn't stored."""
    said = []
    plain = list(contents)
    for _ in range(source.randrange(4)):
        is_plain = source.random() < 0.7
        parts = some_parts(source, plain if is_plain else [*contents, b"not stored"])
        whole = b"".join(parts)
        said.append(request("PUT /whole", b"".join(map(digested, parts))))
        said.append(request(f"GET /content/{digest(whole)}"))
        if source.random() < 0.3:
            said.append(request("PUT /content", whole))
        contents.append(whole)
    return said


def some_parts(source: Random, contents: list[bytes]) -> list[bytes]:
    """A few of some contents, or as many as are joined at most, or one more."""
    return source.choices(contents, k=source.choice([1, 2, 2, 2, 3, 5, 64, 65]))


def some_callers(source: Random) -> tuple[str, ...]:
    """Nobody, or one of a few, or what names nobody."""
    chance = source.random()
    if chance < 0.3:
        return ()
    return ("a b",) if chance < 0.35 else (source.choice(CALLERS),)


def draft(source: Random, contents: list[bytes], parent: str, version: int = 1) -> bytes:
    """A changeset on a parent, with a few edits."""
    edits = [
        edit(source, path, source.choice(contents), version)
        for path in sorted(source.sample(PATHS[:6], source.randrange(4)), key=elements)
        if path.isascii()
    ]
    message = source.choice([b"", "m\u00e9".encode()])
    return spelled(*edits, parents=(parent,), message=message, version=version)


def edit(source: Random, path: str, content: bytes, version: int) -> bytes:
    """A set of some kind, or a delete."""
    if source.random() >= 0.8:
        return deletes(path)
    if version == 1:
        return sets(path, content)
    plain = sets(path, content) + b"\x00"
    return source.choice([plain, copies(path, source.choice(PATHS[:6]), content)])


def elements(path: str) -> list[bytes]:
    return path.encode().split(b"/")


def reads(source: Random, ids: list[str], contents: list[bytes]) -> list[bytes]:
    known, path = source.choice(ids), source.choice(PATHS)
    lines = [
        f"GET /content/{digest(source.choice(contents))}",
        f"GET /changeset/{known}",
        f"GET /copies/{known}",
        "GET /bookmark/main",
        f"GET /log/{source.randrange(12)}",
        f"PUT /bookmark/dev/none/{known}",
        f"PUT /bookmark/main/{known}/{source.choice(ids)}",
        f"GET /fsnode/{known}",
        f"GET /unode/{known}/{path if path.isascii() else 'a'}",
        f"GET /history/{known}/{path if path.isascii() else 'b'}",
        f"GET /deleted/{known}",
        f"GET /deleted/{known}/{path if path.isascii() else 'a'}",
        f"GET /pathlog/{known}/{path if path.isascii() else 'b'}",
        "GET /policy",
        f"GET /policy/{source.randrange(12)}",
    ]
    return [request(line) for line in lines]


def mutated(source: Random, data: bytes, most: int) -> bytes:
    """The bytes with up to so many mutations."""
    for _ in range(source.randrange(most + 1)):
        at = source.randrange(len(data) + 1)
        end = min(len(data), at + source.choice([1, 1, 1, 2, 4, 8, 40]))
        piece = source.choice([
            b"",
            bytes(source.randbytes(end - at)),
            data[at:end] * 2,
            bytes([source.choice(b"\x00\x01\x02\x0a\x0d\x20%/?.:0aZ\x7f\x80\xff")]),
        ])
        data = data[:at] + piece + data[end:]
    return data


def mutated_session(source: Random) -> bytes:
    """A session with spoiled requests, spoiled bodies of the right length, and whole ones."""
    said = []
    for whole in valid_requests(source):
        chance = source.random()
        if chance < 0.1:
            said.append(mutated(source, whole, 3))
        elif chance < 0.35:
            head, _, sent = whole.partition(b"\r\n\r\n")
            line = head.split(b" HTTP/1.1", 1)[0].decode("latin-1")
            said.append(request(line, mutated(source, sent, 2)))
        elif chance < 0.4:
            said.append(whole * 2)
        else:
            said.append(whole)
    if source.random() < 0.2:
        source.shuffle(said)
    data = b"".join(said)
    return data[: source.randrange(len(data) + 1)] if source.random() < 0.2 else data


# ---- files


def record(payload: bytes, gate: bytes = b"\x01") -> bytes:
    return gate + len(payload).to_bytes(4, "big") + payload


def valid_payloads(source: Random) -> list[bytes]:
    """The payloads of a legal history."""
    repository = Repository()
    contents = [b"abc", b"", bytes(source.randbytes(source.randrange(60)))]
    payloads = [b"\x42" + content for content in dict.fromkeys(contents)]
    for content in contents:
        repository.put_content(content)
    for _ in range(source.randrange(4)):
        parts = some_parts(source, contents if source.random() < 0.2 else contents[:3])
        payloads += whole_payload(repository, parts)
        contents.append(b"".join(parts))
    base = spelled()
    head = repository.put_changeset(base)
    repository.set_bookmark("main", None, head)
    payloads += [base, move_payload("main", None, head)]
    ids = [head]
    for _ in range(source.randrange(5)):
        commit = draft(source, contents, source.choice(ids), source.choice([1, 1, 2]))
        try:
            known = digest(commit) in repository.changesets
            ids.append(repository.put_changeset(commit))
        except Refusal:
            continue
        if not known:
            payloads.append(commit)
        moment = source.choice([0, 1_000, 2**63, 2**64 - 1])
        if source.random() < 0.2:
            payloads += policy_payload(repository, source.choice(POLICIES))
        payloads += landing_payload(repository, ids[-1], moment, source.choice(CALLERS))
    return payloads


def whole_payload(repository: Repository, parts: list[bytes]) -> list[bytes]:
    """The payload of contents that are joined, if that makes an entry."""
    before, ids = len(repository.entries), b"".join(map(digested, parts))
    try:
        repository.put_whole(ids)
    except Refusal:
        return []
    is_new = len(repository.entries) > before
    return [spelled_whole(b"".join(parts), ids)] if is_new else []


def spelled_whole(whole: bytes, ids: bytes) -> bytes:
    count = (len(ids) // 32).to_bytes(2, "big")
    return b"\x57" + digested(whole) + len(whole).to_bytes(8, "big") + count + ids


def wrapped(caller: str, payload: bytes) -> bytes:
    """A payload that tells its caller."""
    return b"\x41" + bytes([len(caller)]) + caller.encode() + payload


def policy_payload(repository: Repository, text: bytes) -> list[bytes]:
    """The payload of a policy that `ann` sets, if she may."""
    try:
        repository.set_policy("ann", text)
    except Refusal:
        return []
    return [wrapped("ann", b"\x52" + text)]


def move_payload(name: str, old: str | None, new: str | None) -> bytes:
    sides = [b"\x01" + bytes.fromhex(side) if side else b"\x00" for side in (old, new)]
    return b"\x4d" + bytes([len(name)]) + name.encode() + b"".join(sides)


def landing_payload(
    repository: Repository, made: str, moment: int, caller: str
) -> list[bytes]:
    """The payload of a draft's landing on `main` at a moment, if it lands."""
    repository.clock = lambda: moment
    is_told = repository.rules is not None
    try:
        old = repository.head("main")
        stack, _ = repository.fork(made, old)
        new = rebased(stack, old, moment)
        repository.land("main", made, caller)
    except Refusal:
        return []
    dated = any(one.is_dated for one in new)
    fields = [b"\x4e" if dated else b"\x4c", b"\x04main", bytes.fromhex(old), bytes.fromhex(made)]
    fields += [moment.to_bytes(8, "big")] if dated else []
    fields += [len(new).to_bytes(2, "big")]
    fields += [len(one.data).to_bytes(4, "big") + one.data for one in new]
    payload = b"".join(fields)
    return [wrapped(caller, payload) if is_told else payload]


def damaged_files(source: Random) -> bytes:
    """A repository's file, spoiled."""
    payloads = valid_payloads(source)
    if source.random() < 0.2:
        source.shuffle(payloads)
    if source.random() < 0.2:
        payloads.insert(source.randrange(len(payloads) + 1), source.choice(payloads))
    if source.random() < 0.4:
        place = source.randrange(len(payloads))
        payloads[place] = mutated(source, payloads[place], 2)
    capacity = source.choice([LEAST_CAPACITY, 65_536, MOST_CAPACITY])
    data = source.choice([*MARKS, MARKS[1]]) + capacity.to_bytes(8, "big")
    data += b"".join(map(record, payloads))
    data += source.choice([b"\x00", b"\x00", b"\x02", b"\xff\x00\x00", b""])
    if source.random() < 0.5:
        data = mutated(source, data, 2)
    return data[: source.randrange(len(data) + 1)] if source.random() < 0.2 else data


def expected_report(data: bytes) -> Outcome:
    """The status and the line of `fsck`, by a reading of the file as docs/FORMATS.md has it."""
    if len(data) < 17 or data[:8] not in MARKS:
        return Outcome(DAMAGED, b"not a repository\n")
    capacity = int.from_bytes(data[8:16], "big")
    if not LEAST_CAPACITY <= capacity <= MOST_CAPACITY:
        return Outcome(DAMAGED, b"damaged at 8\n")
    repository = Repository(capacity, data[7])
    at = 16
    while data[at : at + 1] == b"\x01":
        length = int.from_bytes(data[at + 1 : at + 5], "big")
        payload = data[at + 5 : at + 5 + length]
        if len(data) < at + 5 or len(payload) < length or not enters(repository, payload):
            return Outcome(DAMAGED, f"damaged at {at}\n".encode())
        at += 5 + length
    if at >= len(data):
        return Outcome(DAMAGED, f"damaged at {at}\n".encode())
    counts = (
        f"entries {len(repository.entries)} contents {len(repository.contents)} "
        f"changesets {len(repository.changesets)} bookmarks {len(repository.bookmarks)} "
        f"size {repository.size}\n"
    )
    return Outcome(FINE, counts.encode())


def enters(repository: Repository, payload: bytes) -> bool:
    """Whether the payload is that of an entry which comes next; it is made then."""
    before = len(repository.entries)
    if not 1 <= len(payload) <= MOST_PAYLOAD:
        return False
    try:
        made = entered(repository, payload)
    except (Refusal, ValueError, UnicodeDecodeError, IndexError):
        return False
    return made and len(repository.entries) == before + 1


def entered(repository: Repository, payload: bytes) -> bool:
    if payload[0] == 0x42:
        repository.put_content(payload[1:])
        return True
    if payload[0] == 0x43:
        repository.put_changeset(payload)
        return True
    if payload[0] == 0x57:
        ids = payload[43:]
        whole = repository.content(repository.put_whole(ids))
        return payload == spelled_whole(whole, ids)
    if payload[0] != 0x41:
        return repository.rules is None and decided(repository, NOBODY, payload)
    caller, inner = named(payload[1:])
    if inner[:1] == b"\x52":
        repository.set_policy(caller, inner[1:])
        return True
    return repository.rules is not None and decided(repository, caller, inner)


def named(data: bytes) -> tuple[str, bytes]:
    """A name behind its length, and what follows; ValueError where there is none."""
    name, rest = data[1 : 1 + data[0]], data[1 + data[0] :]
    if not 1 <= data[0] <= 128 or not re.fullmatch(rb"[A-Za-z0-9_.-]{%d}" % data[0], name):
        raise ValueError
    return name.decode(), rest


def decided(repository: Repository, caller: str, payload: bytes) -> bool:
    """A move or a landing."""
    if payload[0] not in b"\x4d\x4c\x4e":
        return False
    name, rest = named(payload[1:])
    if payload[0] == 0x4D:
        return moved(repository, caller, name, rest)
    if payload[0] == 0x4C:
        return landed(repository, caller, name, rest[:64], rest[64:])
    moment = rest[64:72]
    return len(moment) == 8 and landed(repository, caller, name, rest[:64], rest[72:], moment)


def moved(repository: Repository, caller: str, name: str, rest: bytes) -> bool:
    sides: list[str | None] = []
    for _ in range(2):
        if rest[:1] == b"\x00":
            sides.append(None)
            rest = rest[1:]
        elif rest[:1] == b"\x01" and len(rest) >= 33:
            sides.append(rest[1:33].hex())
            rest = rest[33:]
        else:
            return False
    if rest:
        return False
    old, new = sides
    repository.set_bookmark(name, old, new, caller)
    return True


def landed(
    repository: Repository, caller: str, name: str, ids: bytes, rest: bytes, moment: bytes = b""
) -> bool:
    if len(rest) < 2:
        return False
    old, draft_id = ids[:32].hex(), ids[32:].hex()
    count, rest = int.from_bytes(rest[:2], "big"), rest[2:]
    sent = []
    for _ in range(count):
        length = int.from_bytes(rest[:4], "big")
        if len(rest) < 4 + length:
            return False
        sent.append(rest[4 : 4 + length])
        rest = rest[4 + length :]
    if rest or repository.head(name) != old:
        return False
    stack, _ = repository.fork(draft_id, old)
    at = int.from_bytes(moment, "big")
    if [one.data for one in rebased(stack, old, at)] != sent:
        return False
    if any(one.is_dated for one in stack) != bool(moment):
        return False
    repository.clock = lambda: at
    repository.land(name, draft_id, caller)
    return True
