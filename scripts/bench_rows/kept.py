"""Many connections that are kept, and many that ask nothing."""

from __future__ import annotations

import resource
import socket
from collections.abc import Iterator

from .journal import Journal
from .link import Link, opened, request
from .process import Cost, memory, ratio
from .row import Bench, Figure

FEW = 16
TURNS = 20
KIB = 1_024
READ = request("GET", "/log/0")


def raise_files() -> None:
    """As many files as may be open: each connection is one at either end."""
    most = resource.getrlimit(resource.RLIMIT_NOFILE)[1]
    resource.setrlimit(resource.RLIMIT_NOFILE, (most, most))


def ask_all(links: list[Link]) -> None:
    """A read over each of them at once."""
    for link in links:
        link.socket.sendall(READ)
    for link in links:
        link.more()


def reads_over(links: list[Link], pid: int, count: int) -> Cost:
    """So many reads, one after another over each connection and at once over all."""
    cost = Cost()
    with cost.measure(pid, count):
        for _ in range(count // len(links)):
            ask_all(links)
    return cost


def rows(bench: Bench) -> Iterator[Figure]:
    raise_files()
    many, silent = bench.choose(1_000, 250), bench.choose(2_000, 500)
    with Journal(file := bench.folder / "repository"):
        pass
    with bench.program.serve(file, lanes=many) as served:
        links = [opened(served.address)]
        before = memory(served.pid)
        links += [opened(served.address) for _ in range(many - 1)]
        each = (memory(served.pid) - before) / (many - 1)
        yield Figure(f"a kept connection, of {many}", each / KIB, "KiB")
        few = reads_over(links[:FEW], served.pid, TURNS * many)
        all_of_them = reads_over(links, served.pid, TURNS * many)
        yield Figure(f"reads over {FEW} connections", few.a_second, "a second", 1.0)
        yield Figure(f"reads over {many}", all_of_them.a_second, "a second", ratio(all_of_them.a_second, few.a_second))
        yield Figure(f"a read of {many}", all_of_them.milliseconds, "ms of processor", ratio(all_of_them.milliseconds, few.milliseconds))
    with bench.program.serve(file, lanes=FEW) as served:
        links = [opened(served.address) for _ in range(FEW)]
        alone, before = reads_over(links, served.pid, TURNS * many), memory(served.pid)
        waiting = [socket.create_connection(served.address, timeout=60) for _ in range(silent)]
        beside = reads_over(links, served.pid, TURNS * many)
        each = (memory(served.pid) - before) / silent
        yield Figure(f"a silent connection, of {silent}", each / KIB, "KiB")
        yield Figure(f"reads over {FEW} beside these", beside.a_second, "a second", ratio(beside.a_second, alone.a_second))
        for one in waiting:
            one.close()
