"""The repository of one thread: each call answers the first refusal that applies, or is done."""

from __future__ import annotations

import time
from collections.abc import Iterator, Sequence
from contextlib import contextmanager

from .manifests import Manifests
from .policy import NOBODY, Rule, read_policy, refuse_denied
from .spelling import MOST, Record, Refusal, comparable, digest, key, read_changeset, with_parent
from .trees import unresolved

MOST_RANGE = 10_000
MOST_STACK = 100
MOST_PAYLOAD = 16_777_216
MOST_PARTS = 64
ID_BYTES = 32
PAGE = 100


class Repository:
    """Contents, changesets, bookmarks and the log, in memory."""

    def __init__(self, capacity: int = 34_359_738_368, version: int = 2, merges: bool = False):
        self.capacity = capacity
        self.version = version
        self.takes_merges = merges
        """Whether changesets of two parents are stored."""
        self.size = 17
        self.contents: dict[str, bytes] = {}
        """All contents, those among them that are wholes, and so made of others."""
        self.wholes: dict[str, list[str]] = {}
        """The parts of those that are."""
        self.changesets: dict[str, Record] = {}
        self.bookmarks: dict[str, str] = {}
        self.entries: list[dict] = []
        self.policies: dict[int, bytes] = {}
        """The texts of policies by the numbers of their entries, the last of which is held."""
        self.rules: list[Rule] | None = None
        self.clock = lambda: int(time.time())
        self.manifests = Manifests(self.chain, self.ancestors, self.changeset)

    def append(self, payload: int, entry: dict) -> None:
        """Makes an entry whose record has a payload of so many bytes."""
        if self.size + 5 + payload > self.capacity:
            raise Refusal(507, "full", length=payload, size=self.size)
        self.size += 5 + payload
        self.entries.append({"number": len(self.entries), **entry})

    def chain(self, id: str) -> list[Record]:
        """A changeset and its ancestors by first parents, the oldest first."""
        record = self.changeset(id)
        line = [record]
        while record.parents:
            record = self.changesets[record.parents[0]]
            line.append(record)
        return line[::-1]

    def ancestors(self, id: str) -> list[Record]:
        """A changeset and all that it reaches through parents, as they came to be known."""
        reached, waiting = {id}, [self.changeset(id)]
        while waiting:
            new = [parent for parent in waiting.pop().parents if parent not in reached]
            reached.update(new)
            waiting += [self.changesets[parent] for parent in new]
        return [record for record in self.changesets.values() if record.id in reached]

    def append_by(self, caller: str, payload: int, entry: dict) -> None:
        """Makes an entry that tells its caller, if a policy is held."""
        told = {} if self.rules is None else {"caller": caller}
        self.append(payload + (2 + len(caller) if told else 0), told | entry)

    def put_content(self, data: bytes) -> str:
        if len(data) > MOST:
            raise Refusal(413, "too-long", length=len(data))
        id = digest(data)
        if id not in self.contents:
            self.append(1 + len(data), {"kind": "content", "id": id, "size": len(data)})
            self.contents[id] = data
        return id

    def content(self, id: str) -> bytes:
        if id not in self.contents:
            raise Refusal(404, "no-content", id=id)
        return self.contents[id]

    def put_changeset(self, data: bytes) -> str:
        record = read_changeset(data)
        if len(record.parents) == 2 and not self.takes_merges:
            raise Refusal(422, "merge")
        for parent in record.parents:
            if parent not in self.changesets:
                raise Refusal(422, "no-parent", id=parent)
        for path, file in record.changes:
            if file and file.content not in self.contents:
                raise Refusal(422, "missing-content", id=file.content, path=path)
            if file and len(self.contents[file.content]) != file.size:
                found = len(self.contents[file.content])
                raise Refusal(422, "wrong-size", found=found, path=path, wanted=file.size)
        self.refuse_unresolved(record)
        if record.id not in self.changesets:
            self.append(len(data), {"kind": "changeset", "id": record.id})
            self.changesets[record.id] = record
        return record.id

    def put_changesets(self, spellings: Sequence[bytes]) -> list[str]:
        """Stores changesets one after another, up to the first that is refused."""
        ids: list[str] = []
        for at, data in enumerate(spellings):
            with placed(at):
                ids.append(self.put_changeset(data))
        return ids

    def land_stack(self, name: str, spellings: Sequence[bytes], caller: str = NOBODY) -> dict:
        """The same, and lands the last."""
        ids = self.put_changesets(spellings)
        with placed(len(ids)):
            return self.land(name, ids[-1], caller)

    def refuse_unresolved(self, record: Record) -> None:
        """Refuses a merge that leaves its parents' trees against one another."""
        if len(record.parents) < 2:
            return
        path = unresolved(record, *map(self.manifests.tree_at, record.parents))
        if path is not None:
            raise Refusal(422, "unresolved", path=path)

    def changeset(self, id: str) -> Record:
        if id not in self.changesets:
            raise Refusal(404, "no-changeset", id=id)
        return self.changesets[id]

    def copies(self, id: str) -> list[dict]:
        sets = [(path, file.copied) for path, file in self.changeset(id).changes if file]
        return [
            {"from": copied[1], "parent": copied[0], "to": path} for path, copied in sets if copied
        ]

    def head(self, name: str) -> str:
        if name not in self.bookmarks:
            raise Refusal(404, "no-bookmark")
        return self.bookmarks[name]

    def put_whole(self, data: bytes) -> str:
        """Joins contents, whose ids stand one behind another."""
        if len(data) % ID_BYTES or not 1 <= len(data) // ID_BYTES <= MOST_PARTS:
            raise Refusal(400, "bad-parts", length=len(data))
        if self.version == 1:
            raise Refusal(409, "old-format")
        parts = [data[at : at + ID_BYTES].hex() for at in range(0, len(data), ID_BYTES)]
        for part in parts:
            if part not in self.contents:
                raise Refusal(422, "no-piece", id=part)
        for part in parts:
            if part in self.wholes:
                raise Refusal(422, "not-a-piece", id=part)
        joined = b"".join(self.contents[part] for part in parts)
        id = digest(joined)
        if id not in self.contents:
            entry = {"kind": "whole", "id": id, "size": len(joined), "parts": parts}
            self.append(1 + ID_BYTES + 8 + 2 + len(data), entry)
            self.contents[id], self.wholes[id] = joined, parts
        return id

    def set_policy(self, caller: str, text: bytes) -> int:
        if self.version == 1:
            raise Refusal(409, "old-format")
        rules = read_policy(text)
        refuse_denied(self.rules, caller, [".policy"])
        number = len(self.entries)
        entry = {"kind": "policy", "caller": caller, "rules": len(rules)}
        self.append(2 + len(caller) + 1 + len(text), entry)
        self.policies[number], self.rules = text, rules
        return number

    def policy(self, number: int | None) -> bytes:
        """The text of the policy that is held, or of an entry."""
        if number is None:
            number = max(self.policies, default=None)
        if number not in self.policies:
            raise Refusal(404, "no-policy")
        return self.policies[number]

    def set_bookmark(
        self, name: str, old: str | None, new: str | None, caller: str = NOBODY
    ) -> str | None:
        if new is not None:
            self.changeset(new)
        found = self.bookmarks.get(name)
        if found != old:
            raise Refusal(409, "moved", found=found)
        refuse_denied(self.rules, caller, [f".bookmarks/{name}"])
        if old != new:
            payload = 2 + len(name) + (33 if old else 1) + (33 if new else 1)
            entry = {"kind": "bookmark", "name": name, "from": old, "to": new}
            self.append_by(caller, payload, entry)
        self.bookmarks.pop(name, None)
        if new is not None:
            self.bookmarks[name] = new
        return new

    def land(self, name: str, draft: str, caller: str = NOBODY) -> dict:
        moment = self.clock()
        old = self.head(name)
        self.changeset(draft)
        stack, behind = self.fork(draft, old)
        if len(behind) > MOST_RANGE:
            raise Refusal(413, "too-far-behind", distance=len(behind))
        if not stack:
            raise Refusal(409, "already-in")
        if len(stack) > MOST_STACK:
            raise Refusal(413, "stack-too-long", count=len(stack))
        refuse_merge("merge-in-stack", stack)
        refuse_merge("merge-in-range", behind)
        refuse_denied(self.rules, caller, touched(stack))
        refuse_clash(touched(stack), touched(behind))
        records = rebased(stack, old, moment)
        dated = {"moment": moment} if any(r.is_dated for r in records) else {}
        payload = 2 + len(name) + 32 + 32 + 2 + sum(4 + len(r.data) for r in records)
        payload += 8 if dated else 0
        wrapped = payload + (0 if self.rules is None else 2 + len(caller))
        if wrapped > MOST_PAYLOAD:
            raise Refusal(413, "too-large", length=wrapped)
        ids = [record.id for record in records]
        entry = {"kind": "landing", "name": name, "old": old, "draft": draft, "ids": ids}
        self.append_by(caller, payload, entry | dated)
        for record in records:
            self.changesets.setdefault(record.id, record)
        self.bookmarks[name] = ids[-1]
        return {"head": ids[-1], "ids": ids, "old": old}

    def fork(self, draft: str, head: str) -> tuple[list[Record], list[Record]]:
        """What follows the last shared changeset in the chains of a draft and a head."""
        left, right = self.chain(draft), self.chain(head)
        there = {record.id: place for place, record in enumerate(right)}
        shared = [place for place, record in enumerate(left) if record.id in there]
        if not shared:
            raise Refusal(409, "no-root")
        root = shared[-1]
        return left[root + 1 :], right[there[left[root].id] + 1 :]

    def log(self, start: int) -> dict:
        return {"entries": self.entries[start : start + PAGE], "total": len(self.entries)}


@contextmanager
def placed(at: int) -> Iterator[None]:
    """Has a refusal tell its place in a list."""
    try:
        yield
    except Refusal as refusal:
        refusal.at = at
        raise


def touched(records: list[Record]) -> list[str]:
    return sorted({path for record in records for path in record.touched}, key=key)


def refuse_merge(code: str, records: list[Record]) -> None:
    """Refuses the first of these that has two parents."""
    for record in records:
        if len(record.parents) == 2:
            raise Refusal(409, code, id=record.id)


def refuse_clash(left: list[str], right: list[str]) -> None:
    for ours in left:
        for theirs in right:
            if comparable(ours, theirs):
                raise Refusal(409, "clash", left=ours, right=theirs)


def rebased(stack: list[Record], head: str, moment: int) -> list[Record]:
    records: list[Record] = []
    for record in stack:
        records.append(with_parent(record, records[-1].id if records else head, moment))
    return records
