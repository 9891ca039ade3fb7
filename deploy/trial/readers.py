"""Many clients at once, each with a connection that it keeps."""

from __future__ import annotations

import asyncio
import multiprocessing
import re
import time
from dataclasses import dataclass

from .links import Place

PROCESSES = 2
READ_SECONDS = 60


@dataclass(frozen=True)
class Reads:
    """What the clients were answered, by status, and how long they all took together."""

    statuses: dict[int, int]
    seconds: float

    @property
    def rate(self) -> float:
        return sum(self.statuses.values()) / self.seconds


async def read(reader: asyncio.StreamReader, writer: asyncio.StreamWriter, target: str) -> int:
    """The status of one read; 0 where the connection broke."""
    writer.write(f"GET {target} HTTP/1.1\r\nHost: localhost\r\n\r\n".encode())
    try:
        head = await reader.readuntil(b"\r\n\r\n")
        length = int(re.search(rb"(?i)content-length: *(\d+)", head)[1])
        await reader.readexactly(length)
    except (OSError, EOFError, TypeError):
        return 0
    return int(head.split(b" ", 2)[1])


async def client(place: Place, context, all_are_in, target: str, count: int) -> list[int]:
    """Connects, waits until every client has, and reads again and again."""
    reader, writer = await asyncio.open_connection("127.0.0.1", place.port, ssl=context, server_hostname="localhost")
    await all_are_in()
    statuses: list[int] = []
    while len(statuses) < count and 0 not in statuses:
        statuses.append(await read(reader, writer, target))
    writer.close()
    return statuses


async def clients(place: Place, number: int, target: str, count: int, gate) -> list[int]:
    """So many clients in this process. The first that is in last waits for those of the other processes."""
    loop, arrived, begins = asyncio.get_running_loop(), 0, asyncio.Event()

    async def all_are_in() -> None:
        nonlocal arrived
        arrived += 1
        if arrived == number:
            await loop.run_in_executor(None, gate.wait, READ_SECONDS)
            begins.set()
        await begins.wait()

    context = place.context()
    told = [client(place, context, all_are_in, target, count) for _ in range(number)]
    return [it for statuses in await asyncio.gather(*told) for it in statuses]


def in_process(place: Place, number: int, target: str, count: int, gate, results) -> None:
    try:
        results.put(asyncio.run(clients(place, number, target, count, gate)))
    except BaseException as fault:
        gate.abort()
        results.put(fault)
        raise


def reads(place: Place, number: int, target: str, count: int) -> Reads:
    """So many clients connect; once all are connected, each reads so often."""
    fork = multiprocessing.get_context("fork")
    gate, results = fork.Barrier(PROCESSES + 1), fork.Queue()
    words = (place, number // PROCESSES, target, count, gate, results)
    processes = [fork.Process(target=in_process, args=words, daemon=True) for _ in range(PROCESSES)]
    for it in processes:
        it.start()
    gate.wait(READ_SECONDS)
    begun, statuses = time.monotonic(), {}
    for _ in processes:
        told = results.get(timeout=READ_SECONDS)
        if isinstance(told, BaseException):
            raise told
        for it in told:
            statuses[it] = statuses.get(it, 0) + 1
    return Reads(statuses, time.monotonic() - begun)
