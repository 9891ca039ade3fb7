"""Small reads and log pages, 16 at once on one connection, beside servers of the same answer; and
reads on connections of their own."""

from __future__ import annotations

from collections.abc import Iterator
from contextlib import ExitStack
from pathlib import Path

from .journal import ROOT, Journal, drafted
from .link import BATCH, Batch, Link, opened
from .names import take_turn
from .peers import Peer, hello_in_c, hello_in_python, nginx
from .process import Cost, ratio
from .row import Bench, Figure

PAGE = 100


def small(bench: Bench) -> Iterator[Figure | str]:
    with Journal(file := bench.folder / "repository") as journal:
        journal.bookmark("main", ROOT.id)
    yield from beside(bench, file, "/bookmark/main", "reads of a bookmark", {"C": "at least 0.50"})


def page(bench: Bench) -> Iterator[Figure | str]:
    """A page of contents, changesets and landings in turn."""
    with Journal(file := bench.folder / "repository") as journal:
        journal.bookmark("main", ROOT.id)
        head = ROOT.id
        for number in range(PAGE):
            content = journal.content(b"content %d" % number)
            draft = journal.changeset(drafted(head, "a stack", {f"f{number}": content}))
            head = journal.landing("main", head, draft).id
    wanted = {"nginx": "at least 0.45"}
    yield from beside(bench, file, "/log/2", f"log pages of {PAGE}", wanted)


def connects(bench: Bench) -> Iterator[Figure]:
    """A connection for each read, beside reads one after another on one that is kept."""
    with Journal(file := bench.folder / "repository") as journal:
        journal.bookmark("main", ROOT.id)
    new, kept = Cost(), Cost()
    with bench.program.serve(file, lanes=2) as served:
        link, count = opened(served.address), bench.choose(2_000, 500)
        for _ in range(bench.choose(6, 3)):
            with kept.measure(served.pid, count):
                for _ in range(count):
                    link.read("GET", "/bookmark/main")
            with new.measure(served.pid, count):
                for _ in range(count):
                    once = Link(served.address)
                    once.read("GET", "/bookmark/main")
                    once.close()
    yield Figure("a read on a connection that is kept", kept.milliseconds, "ms of processor", 1.0)
    share = ratio(new.milliseconds, kept.milliseconds)
    yield Figure("a read on one of its own", new.milliseconds, "ms of processor", share)


def beside(
    bench: Bench, file: Path, target: str, what: str, wanted: dict[str, str]
) -> Iterator[Figure | str]:
    """The program's answers to the target beside the peers' that answer by the same bytes."""
    with ExitStack() as stack:
        served = stack.enter_context(bench.program.serve(file))
        link = Link(served.address)
        batch = Batch(link, target, bench.choose(BATCH, BATCH))
        peers: dict[str, Peer | None] = {
            "C": stack.enter_context(hello_in_c(bench.folder, batch.answer)),
            "Python": stack.enter_context(hello_in_python(batch.answer)),
            "nginx": stack.enter_context(nginx(bench.folder, batch.body)),
        }
        batches = {"program": (served.pid, batch), "one": (served.pid, Batch(link, target, 1))}
        for name, peer in peers.items():
            if peer is None:
                yield f"no {name} here, so nothing is measured beside it"
            else:
                peer_target = "/page" if name == "nginx" else target
                batches[name] = (peer.pid, Batch(Link(peer.address), peer_target, batch.count))
        costs = {name: Cost() for name in batches}
        for _ in range(bench.choose(12, 4)):
            for name, (pid, it) in batches.items():
                take_turn(pid, it, costs[name])
    yield f"{what}, {batch.count} at once, of {len(batch.answer)} bytes"
    yield from compared(costs, wanted)


def compared(costs: dict[str, Cost], wanted: dict[str, str]) -> Iterator[Figure]:
    """Each peer, and the program's rate beside it."""
    program, one = costs.pop("program"), costs.pop("one")
    yield Figure("the program", program.a_processor_second, "a processor second")
    yield Figure("the program by the clock", program.a_second, "a second")
    share = ratio(program.a_processor_second, one.a_processor_second)
    what = "one at a time, and the program beside it"
    yield Figure(what, one.a_processor_second, "a processor second", share)
    for name, cost in costs.items():
        share = ratio(program.a_processor_second, cost.a_processor_second)
        yield Figure(
            f"{name}, and the program beside it",
            cost.a_processor_second,
            "a processor second",
            share,
            wanted.get(name, ""),
        )
        share = ratio(program.a_second, cost.a_second)
        yield Figure("the same by the clock", cost.a_second, "a second", share)
