"""Several connections that share one queue of requests."""

from __future__ import annotations

import itertools
import queue
import threading
import time
from collections.abc import Callable
from concurrent.futures import Future
from contextlib import closing, suppress
from typing import Any, TypeVar

from ..refusals import Fault
from .server import AGAIN_SECONDS, Server, is_passing

Answer = TypeVar("Answer")
Task = tuple[Callable[[Server], Any], "Future[Any]", int]
"""A call, what takes its answer, and how often it was tried."""

ENDING_SECONDS = 10.0
"""So long at most a call is waited for whose connection was ended."""
STOP, FIRST, LATER = 0, 1, 2
"""Ranks in the queue: the end of all work, requests that others wait for, and all else."""


class Pool:
    """Connections that take requests from one queue, the urgent ones first.

    A connection takes part once the server has answered its first question, and again after it
    was made anew. A server serves as many connections at a time as it has lanes; the others wait,
    and no request waits with them. The connection that it is made from is ended, since that would
    hold a lane. A call that failed in passing is tried again by whichever is free, unless it may be
    made but once.
    """

    def __init__(self, server: Server, connections: int):
        server.close()
        self.waiting: queue.PriorityQueue[tuple[int, int, Task | None]] = queue.PriorityQueue()
        self.order = itertools.count()
        self.greeted: queue.Queue[Exception | None] = queue.Queue()
        self.servers = [server.another() for _ in range(connections)]
        self.threads = [
            threading.Thread(target=self.work, args=(server,), daemon=True)
            for server in self.servers
        ]

    def __enter__(self) -> Pool:
        for thread in self.threads:
            thread.start()
        for left in reversed(range(len(self.threads))):
            trouble = self.greeted.get()
            if trouble is None:
                break
            if not left:
                raise trouble
        return self

    def __exit__(self, *fault: object) -> None:
        for _ in self.threads:
            self.waiting.put((STOP, next(self.order), None))
        for server in self.servers:
            server.cut()

    def join(self) -> None:
        """Waits, once it has ended, until no call is being made any more."""
        for thread in self.threads:
            thread.join(ENDING_SECONDS)

    def ask(
        self, call: Callable[[Server], Answer], *, urgent: bool = False, once: bool = False
    ) -> Future[Answer]:
        """Has a connection make a call, which isn't tried again where it may be made but once."""
        future: Future[Answer] = Future()
        rank = FIRST if urgent else LATER
        tries = len(AGAIN_SECONDS) if once else 0
        self.waiting.put((rank, next(self.order), (call, future, tries)))
        return future

    def work(self, server: Server) -> None:
        """What the thread of one connection does."""
        with closing(server):
            try:
                server.log(0)
            except Exception as fault:
                self.greeted.put(fault)
                return
            self.greeted.put(None)
            server.is_pooled = True
            while task := self.next_task(server):
                call, future, tries = task
                try:
                    future.set_result(call(server))
                except Exception as fault:
                    if server.is_cut or tries == len(AGAIN_SECONDS) or not is_passing(fault):
                        future.set_exception(fault)
                        continue
                    time.sleep(AGAIN_SECONDS[tries])
                    self.waiting.put((FIRST, next(self.order), (call, future, tries + 1)))

    def next_task(self, server: Server) -> Task | None:
        """The next task; one that would wait for a new connection is left to the others first."""
        place = self.waiting.get()
        if place[2] and (server.is_stale() or server.connection.sock is None):
            self.waiting.put(place)
            with suppress(Fault):
                server.log(0)
            place = self.waiting.get()
        return place[2]
