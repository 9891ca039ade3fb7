"""Copies of a served repository, and what is read by id through the proxy before them."""

from __future__ import annotations

import itertools
import os
import random
import re
import signal
import threading
from dataclasses import dataclass, field
from pathlib import Path

from .ledger import AUTHOR, BOOKMARK, Changeset, Landing, Ledger
from .links import Answer, Link, NoAnswer, Place
from .programs import TOP, Failed, Program, Proxy, is_program, until, wants

SERVE_COPY = TOP / "scripts" / "serve-copy"
NEVER = 10_080
"""Minutes between two copies, where a trial says when one is made."""
MOST_TARGETS = 400
OPENING_SECONDS = 300
MARKS = itertools.count()


class Copies(Program):
    """`scripts/serve-copy` of a file."""

    def __init__(self, log: Path, source: Path, folder: Path, addresses: list[str], *words: object, behind: tuple = ()):
        self.addresses, self.folder = addresses, folder
        told = [word for it in addresses for word in ("--address", it)]
        super().__init__(log, *behind, SERVE_COPY, source, folder, *told, "--every", NEVER, *words)

    def entries(self) -> list[int]:
        """How many entries each copy had that was served, in order."""
        return [int(it) for it in re.findall(r" serves a copy of .* with (\d+) entries\n", self.said())]

    def renew(self) -> None:
        """Has the oldest made anew, and waits until it is served."""
        before = self.starts()
        self.process.send_signal(signal.SIGUSR1)
        until(lambda: self.starts() > before, "a new copy is served", OPENING_SECONDS)

    def starts(self) -> int:
        return len(re.findall(r"^listening at ", self.said(), re.M))

    def program_at(self, address: str) -> int:
        """The process that serves a copy."""
        under = [it for serve in children(self.process.pid) for it in children(serve)]
        found = [it for it in under if is_program(it) and address.encode() in words_of(it)]
        wants(len(found) == 1, f"one program serves the copy at {address}")
        return found[0]


def children(process: int) -> list[int]:
    try:
        return [int(it) for it in Path(f"/proc/{process}/task/{process}/children").read_text().split()]
    except OSError:
        return []


def words_of(process: int) -> list[bytes]:
    try:
        return Path(f"/proc/{process}/cmdline").read_bytes().split(b"\0")
    except OSError:
        return []


def by_id(leader: Link, ledgers: list[Ledger]) -> dict[str, Answer]:
    """Some reads by id of what was acknowledged, and the leader's own answers."""
    targets = [f"/content/{it}" for ledger in ledgers for it in ledger.contents]
    targets += [target for ledger in ledgers for it in ledger.landings for target in of_landing(it)]
    chosen = random.sample(targets, min(len(targets), MOST_TARGETS))
    return {it: leader.answer("GET", it) for it in chosen}


def of_landing(landing: Landing) -> list[str]:
    """All that can be read of its changesets by id, at their paths, at the folders above and at the top."""
    return [it for pair in zip(landing.ids, landing.paths) for it in of_changeset(*pair)]


def of_changeset(changeset: str, path: str) -> list[str]:
    folder = path.partition("/")[0]
    tops = [f"/{kind}/{changeset}" for kind in ("changeset", "copies", "fsnode", "unode", "deleted")]
    below = [f"/{kind}/{changeset}/{folder}" for kind in ("fsnode", "unode", "deleted", "pathlog")]
    return tops + below + [f"/{kind}/{changeset}/{path}" for kind in ("unode", "deleted", "history", "pathlog")]


def deletion(link: Link, landing: Landing) -> list[str]:
    """Lands a changeset that deletes what another has set, and gives what is read of it by id."""
    head, path = link.done("GET", f"/bookmark/{BOOKMARK}")["head"], landing.paths[0]
    draft = Changeset((head,), AUTHOR, 0, 0, "without it", {path: None})
    link.done("PUT", "/changeset", draft.encoded)
    return of_changeset(link.done("POST", f"/land/{BOOKMARK}/{draft.id}")["ids"][0], path)


@dataclass
class Told:
    """What readers were told."""

    reads: int = 0
    wrong: list[str] = field(default_factory=list)
    """Other answers than the leader's."""
    broken: list[str] = field(default_factory=list)
    """Connections that broke, and what a proxy answers that has no server."""


class Readers:
    """Clients at once, each with a connection, that compare what they read by id with the leader's answers."""

    def __init__(self, place: Place, count: int, expected: dict[str, Answer], most: int | None = None):
        self.place, self.expected, self.most = place, list(expected.items()), most
        self.told = [Told() for _ in range(count)]
        self.ends = threading.Event()
        self.threads = [threading.Thread(target=self.read, args=(it,), daemon=True) for it in self.told]
        for it in self.threads:
            it.start()

    def read(self, told: Told) -> None:
        """Reads one after another, in an order of its own."""
        link = Link(self.place)
        while not self.ends.is_set() and (self.most is None or told.reads < self.most):
            target, expected = random.choice(self.expected)
            told.reads += 1
            try:
                found = link.answer("GET", target)
            except NoAnswer as fault:
                told.broken.append(f"{target}: {fault}")
                continue
            if found != expected:
                kind = told.broken if found.status in (502, 503, 504) else told.wrong
                kind.append(f"{target}: {found.status} {found.body[:60]!r}")

    def reads(self) -> int:
        return sum(it.reads for it in self.told)

    def end(self, *, at_once: bool = True) -> tuple[int, list[str]]:
        """Ends them, or waits for their last read, and tells how many were made and which broke off.

        None was told something else than by the leader.
        """
        if at_once:
            self.ends.set()
        for it in self.threads:
            it.join()
        wrong = [line for it in self.told for line in it.wrong]
        wants(not wrong, f"no read is answered otherwise than by the leader: {len(wrong)}, {wrong[:3]}")
        return self.reads(), [line for it in self.told for line in it.broken]


def server_of(proxy: Proxy, place: Place, method: str, target: str, body: bytes | None = None, **headers: str) -> str:
    """The server that a request goes to at last, as the access log tells: `first-copy/copy`, say."""
    for _ in range(5):
        mark = f"{target}?{next(MARKS)}"
        Link(place).ask(method, mark, body, **headers)
        line = re.compile(rf' clients~ (\S+) .*"{method} {re.escape(mark)} HTTP/1\.1"')
        try:
            until(lambda: line.search(proxy.said()), "the access log has the line", 5)
        except Failed:
            continue  # the proxy drops a line rather than wait
        return line.search(proxy.said())[1]
    raise Failed(f"the access log has no line of {method} {target}")


def reached(proxy: Proxy) -> dict[str, set[str]]:
    """The methods of the requests that each server was sent at last, as the access log has them."""
    methods: dict[str, set[str]] = {}
    for server, method in re.findall(r' clients~ (\S+) .*"([A-Z]+) \S+ HTTP/1\.1"', proxy.said()):
        methods.setdefault(server, set()).add(method)
    return methods


def stop(process: int) -> None:
    os.kill(process, signal.SIGSTOP)


def wake(process: int) -> None:
    os.kill(process, signal.SIGCONT)
