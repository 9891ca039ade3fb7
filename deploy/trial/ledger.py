"""Clients that land stacks, and whether the log has all that was acknowledged to them."""

from __future__ import annotations

import itertools
import sys
import threading
import time
from dataclasses import dataclass, field

from .links import Link, NoAnswer, Place
from .programs import PATIENCE, TOP, Failed, wants

sys.path.insert(0, str(TOP / "clients"))

from jarrah_client.formats.changesets import Changeset, File  # noqa: E402
from jarrah_client.formats.fields import digest  # noqa: E402

BOOKMARK = "main"
PAUSE_SECONDS = 0.05
"""Between a request without an answer and the next."""
AUTHOR = "a trial"
LOADS = itertools.count()
"""Numbers of loads: each has contents and paths of its own."""


@dataclass(frozen=True)
class Landing:
    """A landing that was acknowledged, and when it was sent and answered."""

    draft: str
    ids: list[str]
    paths: list[str]
    """What each of them sets."""
    old: str
    sent: float
    answered: float


@dataclass
class Ledger:
    """What one client was told."""

    contents: list[str] = field(default_factory=list)
    changesets: list[str] = field(default_factory=list)
    landings: list[Landing] = field(default_factory=list)
    answers: list[float] = field(default_factory=list)
    unanswered: list[str] = field(default_factory=list)


def begun(place: Place) -> str:
    """The root and the bookmark, in a new repository."""
    link, root = Link(place), Changeset((), AUTHOR, 0, 0, "")
    link.done("PUT", "/changeset", root.encoded)
    link.done("PUT", f"/bookmark/{BOOKMARK}/none/{root.id}")
    return root.id


class Landers:
    """Clients at once, each with a connection, which land stacks, and pause between two, until they are told to end."""

    def __init__(self, place: Place, count: int, root: str, pause: float = 0.0):
        self.place, self.root, self.pause, self.name = place, root, pause, next(LOADS)
        self.ledgers = [Ledger() for _ in range(count)]
        self.ends = threading.Event()
        self.threads = [
            threading.Thread(target=self.lands, args=it, daemon=True) for it in enumerate(self.ledgers)
        ]
        for it in self.threads:
            it.start()

    def lands(self, number: int, ledger: Ledger) -> None:
        """Lands one stack after another, each on the last head that was told."""
        link, head, stack = Link(self.place), self.root, 0
        while not self.ends.is_set():
            try:
                head = land(link, ledger, f"{self.name}-{number}", stack, head)
            except NoAnswer as fault:
                ledger.unanswered.append(str(fault))
                time.sleep(PAUSE_SECONDS)
            stack += 1
            self.ends.wait(self.pause)

    def landed(self) -> int:
        return sum(len(it.landings) for it in self.ledgers)

    def end(self) -> list[Ledger]:
        self.ends.set()
        for it in self.threads:
            it.join()
        return self.ledgers


def land(link: Link, ledger: Ledger, client: str, stack: int, head: str) -> str:
    """Lands a stack of two changesets, each with a content and a path of its own, and gives the new head."""
    parent, paths = head, []
    for part in range(2):
        content = f"client {client} stack {stack} part {part}\n".encode()
        path = f"client-{client}/stack-{stack:05}/part-{part}"
        told(ledger.contents, ledger, link.done("PUT", "/content", content)["id"])
        files = {path: File(digest(content), len(content))}
        draft = Changeset((parent,), AUTHOR, 0, 0, f"stack {stack} part {part}", files)
        told(ledger.changesets, ledger, link.done("PUT", "/changeset", draft.encoded)["id"])
        parent = draft.id
        paths.append(path)
    sent = time.monotonic()
    answer = link.done("POST", f"/land/{BOOKMARK}/{parent}")
    landing = Landing(parent, answer["ids"], paths, answer["old"], sent, time.monotonic())
    told(ledger.landings, ledger, landing)
    return answer["head"]


def told(items: list, ledger: Ledger, item: object) -> None:
    items.append(item)
    ledger.answers.append(time.monotonic())


def longest_silence(ledgers: list[Ledger]) -> float:
    """The most seconds in which no client had an answer."""
    times = sorted(it for ledger in ledgers for it in ledger.answers)
    return max((after - before for before, after in zip(times, times[1:])), default=0.0)


def log_of(place: Place) -> list[dict]:
    """All stored entries, whose numbers rise from 0 by 1."""
    link, entries, total = Link(place), [], 1
    while len(entries) < total:
        page = patient_read(link, f"/log/{len(entries)}")
        entries, total = [*entries, *page["entries"]], page["total"]
    wants([it["number"] for it in entries] == list(range(total)), "the log's numbers rise by 1")
    return entries


def patient_read(link: Link, target: str) -> dict:
    """A read, which is asked again while there is no answer."""
    begun = time.monotonic()
    while True:
        try:
            return link.done("GET", target)
        except NoAnswer:
            if time.monotonic() - begun > PATIENCE:
                raise
            time.sleep(PAUSE_SECONDS)


def check(ledgers: list[Ledger], entries: list[dict]) -> None:
    """Fails where something acknowledged isn't in the log once, or not in the order in which it was acknowledged."""
    for kind in ("content", "changeset"):
        stored = [it["id"] for it in entries if it["kind"] == kind]
        wants(len(stored) == len(set(stored)), f"each {kind} is stored once")
        lacking = {it for ledger in ledgers for it in getattr(ledger, f"{kind}s")} - set(stored)
        wants(not lacking, f"each acknowledged {kind} is in the log; {len(lacking)} aren't")
    landings = [it for it in entries if it["kind"] == "landing"]
    check_trunk(landings)
    check_order([it for ledger in ledgers for it in ledger.landings], landings)


def check_trunk(landings: list[dict]) -> None:
    """Each landing is onto the head that the one before left."""
    for before, after in zip(landings, landings[1:]):
        wants(after["old"] == before["ids"][-1], f"entry {after['number']} is onto the head before it")


def check_order(acknowledged: list[Landing], landings: list[dict]) -> None:
    """Each acknowledged landing stands once in the log, and before each that was sent after its answer."""
    places: dict[str, int] = {}
    for it in landings:
        wants(it["draft"] not in places, f"the draft {it['draft']} landed once")
        places[it["draft"]] = it["number"]
    by_number = {it["number"]: it for it in landings}
    for it in acknowledged:
        found = by_number.get(places.get(it.draft, -1))
        if not found or found["ids"] != it.ids or found["old"] != it.old:
            raise Failed(f"the acknowledged landing of {it.draft} isn't in the log as it was told")
    in_log = sorted(acknowledged, key=lambda it: places[it.draft])
    soonest = float("inf")
    for it in reversed(in_log):
        soonest = min(soonest, it.answered)
        wants(it.sent <= soonest, f"{it.draft} was sent after one was answered that stands behind it in the log")
