"""Landings as server-sent events: one poll of the log for all who listen."""

from __future__ import annotations

import json
import threading
import time
from collections import deque
from collections.abc import Callable, Iterator
from contextlib import contextmanager
from typing import TYPE_CHECKING

from ..history.watching import LANDING, Event, Wanted, entries_from, event_of, need_same
from ..net.answers import Entry
from ..net.server import NotReached, Server, Trouble, is_passing
from ..refusals import Fault
from .streams import Out, Streamed

if TYPE_CHECKING:
    from .library import Question, Visit

POLL_SECONDS = 1.0
STILL_SECONDS = 15.0
"""Where nothing lands, a line says so often that the connection is there still."""
MOST_LISTENERS = 256
KEPT_EVENTS = 1_000
"""One who listens and is further behind reads the log by himself until he isn't."""
KIND = "text/event-stream; charset=utf-8"


class TooMany(Fault):
    """More listen than this program has room for."""


class Poll:
    """Reads the log on while somebody listens, with one connection that is ended between."""

    def __init__(self, connect: Callable[[], Server]):
        self.connect = connect
        self.turn = threading.Condition()
        self.listeners = 0
        self.events: deque[Event] = deque()
        self.start = 0
        """From this entry on all events are kept."""
        self.next = 0
        """The entries before have been read."""
        self.fault: Fault | None = None
        """Why it has ended."""

    def need_room(self) -> None:
        """Refuses one more where too many listen."""
        if self.listeners >= MOST_LISTENERS:
            raise TooMany(f"{MOST_LISTENERS} listen already")

    @contextmanager
    def listened(self) -> Iterator[None]:
        """Has it read while one more listens."""
        with self.turn:
            self.need_room()
            self.listeners += 1
            if self.listeners == 1:
                self.begin()
        try:
            yield
        finally:
            with self.turn:
                self.listeners -= 1
                self.turn.notify_all()

    def begin(self) -> None:
        """Begins to read at the log's end."""
        server = self.connect()
        try:
            self.next = self.start = server.log(0).total
        except BaseException:
            self.listeners -= 1
            raise
        finally:
            server.close()
        self.events.clear()
        self.fault = None
        self.thread = threading.Thread(target=self.read, args=(server,), daemon=True)
        self.thread.start()

    def read(self, server: Server) -> None:
        """Reads what is new, until nobody listens."""
        while self.goes_on():
            try:
                for entry in entries_from(server, self.next):
                    self.take(event_of(server, entry) if entry["kind"] == LANDING else None, entry)
            except Fault as fault:
                if not (is_passing(fault) or isinstance(fault, NotReached)):
                    self.end(fault)
                    return
            except Exception as fault:
                self.end(Trouble(f"the log can't be read: {fault!r}"))
                raise
            finally:
                server.close()
            with self.turn:
                self.turn.wait_for(lambda: not self.goes_on(), POLL_SECONDS)

    def goes_on(self) -> bool:
        """Whether it is this thread still that reads, for somebody."""
        return self.listeners > 0 and self.thread is threading.current_thread()

    def take(self, event: Event | None, entry: Entry) -> None:
        """Keeps an event, and how far the log was read."""
        with self.turn:
            self.next = entry["number"] + 1
            if event:
                self.events.append(event)
                if len(self.events) > KEPT_EVENTS:
                    self.start = self.events.popleft().entry + 1
                self.turn.notify_all()

    def end(self, fault: Fault) -> None:
        """Tells those who listen why nothing more comes."""
        with self.turn:
            self.fault = fault
            self.turn.notify_all()

    def after(self, number: int, seconds: float) -> tuple[list[Event], int] | None:
        """The events from an entry on, waited for as long, and the number of the next entry; None
        where that entry isn't kept any more."""
        with self.turn:
            self.turn.wait_for(lambda: self.fault or self.next > number, seconds)
            if self.fault:
                raise self.fault
            if number < self.start:
                return None
            found = [event for event in self.events if event.entry >= number]
            return found, max(number, self.next)


class Listener:
    """One who listens: what is told to him, and from where on."""

    def __init__(self, visit: Visit, wanted: Wanted, start: int | None, out: Out):
        self.visit = visit
        self.poll = visit.library.poll
        self.wanted = wanted
        self.start = start
        self.out = out

    def listen(self) -> None:
        """Sends events until the other end has gone, or a fault ends it."""
        with self.poll.listened():
            number = self.poll.next if self.start is None else self.start
            self.out.write(b"retry: 2000\n\n")
            said = time.monotonic()
            while True:
                told = self.poll.after(number, STILL_SECONDS)
                events, following = told if told else self.catch_up(number)
                taken = [event for event in events if self.wanted.takes(event)]
                for event in taken:
                    self.send(event)
                if not taken and time.monotonic() - said >= STILL_SECONDS:
                    self.out.write(b": nothing landed\n\n")
                    said = time.monotonic()
                number = following

    def catch_up(self, number: int) -> tuple[list[Event], int]:
        """A page of what isn't kept any more, read by himself."""
        server = self.visit.server
        page = server.log(number)
        need_same(server, page.total, number + 1)
        found = [event_of(server, one) for one in page.entries if one["kind"] == LANDING]
        server.close()
        return found, number + len(page.entries)

    def send(self, event: Event) -> None:
        """Sends one event."""
        data = json.dumps(event.document(), ensure_ascii=False)
        text = f"id: {event.entry}\nevent: {LANDING}\ndata: {data}\n\n"
        self.out.write(text.encode(errors="backslashreplace"))


def events(visit: Visit, question: Question) -> Streamed:
    """Landings from now on, or from an entry on; of a bookmark, and of some paths."""
    wanted = Wanted.of(question.query.get("bookmark"), question.values("path"))
    start = start_of(question)
    visit.library.poll.need_room()
    need_same(visit.server, visit.server.log(0).total, start or 0)
    visit.server.close()
    return Streamed(KIND, lambda out: Listener(visit, wanted, start, out).listen())


def start_of(question: Question) -> int | None:
    """The entry from which on landings are told: what is asked for, or the one after the last that
    was told over a connection that broke."""
    if question.last_event is not None:
        return question.last_event + 1
    return question.number("from", 0) if "from" in question.query else None
