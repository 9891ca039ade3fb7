"""What the tests of the review share: drafts that are uploaded, and answers of the routes."""

from __future__ import annotations

import itertools
import uuid
from typing import Any
from urllib.parse import quote, urlencode

from jarrah_client.formats.changesets import Changeset, CopySource, File, Kind
from jarrah_client.drafting.drafts import ROOT
from jarrah_client.formats.fields import digest
from jarrah_client.formats.paths import path_key
from jarrah_client.net.server import Server

from .test_gateway import GatewayCase


class Reviewing(GatewayCase):
    """Uploads by an author whom no other test has; a bookmark at the empty root."""

    words = ("browse",)

    def setUp(self) -> None:
        super().setUp()
        self.to = Server(self.server)
        self.addCleanup(self.to.close)
        self.author = f"Tester {uuid.uuid4().hex}"
        self.seconds = itertools.count(1_000)

    def put(
        self,
        title: str,
        parent: str,
        changes: dict[str, bytes | None] = {},
        *,
        like: str | None = None,
        kind: Kind = Kind.REGULAR,
        copies: dict[str, CopySource] = {},
        author: str | None = None,
    ) -> str:
        """Uploads a draft; `like` another one it has its date, as where that was amended."""
        files: dict[str, File | None] = {}
        for path in sorted(changes, key=path_key):
            data = changes[path]
            files[path] = None if data is None else File(digest(data), len(data), kind)
            if data is not None:
                self.to.put_content(digest(data), data)
        seconds = self.to.changeset(like).seconds if like else next(self.seconds)
        parents = (parent,) if parent else ()
        words = (author or self.author, seconds, 0, title)
        one = Changeset(parents, *words, files, dict(copies))
        self.to.put_changeset(one)
        return one.id

    def line(self, title: str, *texts: bytes, at: str = ROOT.id) -> list[str]:
        """Drafts one on another, each with the next text of the file `f`."""
        made: list[str] = []
        for number, text in enumerate(texts):
            made.append(self.put(f"{title} {number}", made[-1] if made else at, {"f": text}))
        return made

    def land(self, draft: str, caller: str | None = None) -> str:
        """Lands a draft on the test's bookmark, and gives the new head."""
        server = Server(self.server, caller=caller)
        try:
            return server.land(self.name, draft).head
        finally:
            server.close()

    def drafts(self, **query: Any) -> dict[str, Any]:
        """What is told of the test's own drafts."""
        words = urlencode({"author": self.author, **query}, quote_via=quote)
        return self.got(f"/api/drafts?{words}")

    def ids(self, **query: Any) -> list[str]:
        """Their ids, the newest first."""
        return [one["id"] for one in self.drafts(**query)["drafts"]]

    def refused_by(self, status: int, target: str) -> str:
        """The words of a refusal."""
        found, answer = self.fetch("GET", target)
        self.assertEqual(found, status, (target, answer))
        return answer["error"]
