"""Work that is cut in chunks and shared out: among processes where there is much, else threads.

Threads of Python stand in each other's way where a chunk is many small files. A process takes part
as a connection of a pool does: once the server has answered it, and then chunk by chunk, so that a
server with fewer lanes slows the work and doesn't stop it.
"""

from __future__ import annotations

import multiprocessing
import signal
import sys
import threading
from collections.abc import Callable, Generator, Iterator, Sequence
from concurrent.futures import as_completed
from contextlib import closing, suppress
from functools import partial
from multiprocessing.connection import Connection, wait
from typing import Any, TypeVar, cast

from ..refusals import Fault
from .pool import Pool
from .server import Server, Trouble

Chunk = TypeVar("Chunk")
Done = TypeVar("Done")
Work = Callable[[Server, Chunk], Done]
"""What is done with a chunk over a connection. A process sends what comes of it to this one."""

CHUNKS_AHEAD = 2
"""So many chunks wait in each process, so that none waits for this one."""


def shared_out(
    server: Server,
    connections: int,
    work: Work[Chunk, Done],
    chunks: Sequence[Chunk],
    *,
    is_much: bool,
) -> Generator[tuple[Chunk, Done], None, None]:
    """What comes of each chunk, in no order. Much is done by processes where that can be."""
    if is_much and connections > 1 and can_fork():
        return by_processes(server, connections, work, chunks)
    return by_threads(server, connections, work, chunks)


def can_fork() -> bool:
    """Whether processes are begun as copies of this one, which has no other thread then."""
    return sys.platform == "linux" and threading.active_count() == 1


def by_threads(
    server: Server, connections: int, work: Work[Chunk, Done], chunks: Sequence[Chunk]
) -> Generator[tuple[Chunk, Done], None, None]:
    """The same by the connections of a pool. No chunk is being worked on when it ends."""
    pool = Pool(server, min(connections, len(chunks)) or 1)
    try:
        with pool:
            coming = {pool.ask(partial(work, chunk=chunk)): chunk for chunk in chunks}
            for future in as_completed(coming):
                yield coming[future], future.result()
    finally:
        pool.join()


def by_processes(
    server: Server, connections: int, work: Work[Chunk, Done], chunks: Sequence[Chunk]
) -> Generator[tuple[Chunk, Done], None, None]:
    """The same by processes that are copies of this one."""
    server.close()
    count = min(connections, len(chunks))
    crew: dict[Connection, multiprocessing.Process] = {}
    try:
        for _ in range(count):
            link, process = begin(server.another(), work, chunks, list(crew))
            crew[link] = process
        yield from chunks_done(crew, chunks)
    finally:
        for link, process in crew.items():
            link.close()
            process.terminate()
            process.join()


def begin(
    server: Server, work: Work[Chunk, Done], chunks: Sequence[Chunk], others: list[Connection]
) -> tuple[Connection, Any]:
    """Begins a process, and gives the link to it."""
    context = multiprocessing.get_context("fork")
    here, there = context.Pipe()
    words = (server, work, chunks, there, [*others, here])
    process = context.Process(target=take_part, args=words, daemon=True)
    process.start()
    there.close()
    return here, process


def take_part(
    server: Server,
    work: Work[Chunk, Done],
    chunks: Sequence[Chunk],
    link: Connection,
    others: list[Connection],
) -> None:
    """What a process does: chunk by chunk, until nobody is at the other end of its link.

    It inherits the ends of other links, which would hide that somebody has gone.
    """
    signal.signal(signal.SIGINT, signal.SIG_IGN)
    for other in others:
        other.close()
    with closing(server), suppress(EOFError, OSError):
        try:
            server.log(0)
            link.send(None)
            while True:
                number = link.recv()
                link.send((number, work(server, chunks[number])))
        except Fault as fault:
            link.send(fault)
        except (EOFError, OSError):
            raise
        except Exception as fault:
            link.send(Trouble(f"{type(fault).__name__}: {fault}"))


def chunks_done(
    crew: dict[Connection, Any], chunks: Sequence[Chunk]
) -> Generator[tuple[Chunk, Done], None, None]:
    """What comes of all chunks, each given to a process that the server has answered."""
    numbers = iter(range(len(chunks)))
    waiting, greeted = list(crew), set[Connection]()
    left = len(chunks)
    while left:
        for link in cast("list[Connection]", wait(waiting)):
            said = heard(link)
            if isinstance(said, Exception):
                waiting.remove(link)
                if link in greeted or not waiting:
                    raise said
                continue
            if said is not None:
                number, done = said
                left -= 1
                yield chunks[number], done
            for _ in range(1 if link in greeted else CHUNKS_AHEAD):
                give(link, numbers)
            greeted.add(link)


def heard(link: Connection) -> Any:
    """What a process says: None once greeted, what came of a chunk by its number, a fault."""
    try:
        return link.recv()
    except (EOFError, OSError):
        return Trouble("a process that this command had begun was ended")


def give(link: Connection, numbers: Iterator[int]) -> None:
    """Gives a process the next chunk, if there is one. One that has gone is heard of."""
    number = next(numbers, None)
    if number is not None:
        with suppress(OSError):
            link.send(number)
