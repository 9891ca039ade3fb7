"""What an entry and a connection keep in memory."""

from __future__ import annotations

from collections.abc import Callable, Iterator

from .journal import ROOT, Journal, drafted
from .link import opened
from .process import memory, ratio
from .row import Bench, Figure

CONNECTIONS = 15
"""Beside the first, which has the file opened."""
ENTRY_BYTES = 32
HEAD_BYTES = 16_384
KIB = 1_024


def contents(journal: Journal, count: int) -> None:
    for number in range(count):
        journal.record(b"\x42%012d" % number)


def changesets(journal: Journal, count: int) -> None:
    """Each on ROOT, of one path."""
    file = journal.content(b"a file")
    for number in range(count):
        changes = {f"d{number % 100}/f{number:06}": file}
        journal.changeset(drafted(ROOT.id, "a draft", changes))


def landings(journal: Journal, count: int) -> None:
    """The same changesets, each landed on a head that another one made."""
    file, head = journal.content(b"a file"), ROOT.id
    journal.bookmark("main", head)
    before = head
    for number in range(count):
        changes = {f"d{number % 100}/f{number:06}": file}
        draft = journal.changeset(drafted(before, "a draft", changes))
        before, head = head, journal.landing("main", head, draft).id


def kept(bench: Bench, fill: Callable[[Journal, int], None], count: int) -> int:
    """The bytes in memory of a server of a file that was filled so."""
    file = bench.folder / fill.__name__
    with Journal(file) as journal:
        fill(journal, count)
    with bench.program.serve(file) as served:
        opened(served.address)
        bytes_kept = memory(served.pid)
    file.unlink()
    return bytes_kept


def entries(bench: Bench) -> Iterator[Figure]:
    """What twice as many keep more: it leaves out what any server keeps, and compares tables that
    are equally full."""
    count, fewer = bench.choose(65_536, 8_192), bench.choose(16_384, 2_048)
    counts = {contents: count, changesets: count, landings: fewer}
    content, changeset, landing = (
        (kept(bench, fill, 2 * it) - kept(bench, fill, it)) / it for fill, it in counts.items()
    )
    share = content / ENTRY_BYTES
    yield Figure(f"a content, beside {ENTRY_BYTES} bytes", content, "bytes", share)
    yield Figure("a changeset of one path", changeset, "bytes", 1.0)
    yield Figure("a draft and its landing", landing, "bytes", ratio(landing, changeset))


def connections(bench: Bench) -> Iterator[Figure]:
    with Journal(file := bench.folder / "repository"):
        pass
    with bench.program.serve(file, lanes=CONNECTIONS + 1) as served:
        links = [opened(served.address)]
        before = memory(served.pid)
        links += [opened(served.address) for _ in range(CONNECTIONS)]
        each = (memory(served.pid) - before) / CONNECTIONS
    what = f"an idle connection, beside {HEAD_BYTES // KIB} KiB"
    yield Figure(what, each / KIB, "KiB", each / HEAD_BYTES)


def rows(bench: Bench) -> Iterator[Figure]:
    yield from entries(bench)
    yield from connections(bench)
