"""The routes of the local program; `openapi.json` beside this file describes them."""

from __future__ import annotations

from collections.abc import Callable
from dataclasses import dataclass
from pathlib import Path
from typing import Any
from urllib.parse import parse_qsl, unquote, urlsplit

from .annotations import annotate
from .archives import archive
from .backouts import backout
from .diffs import diff
from .events import events
from .library import Library, Question, Visit
from .review.comparing import compare
from .review.drafts import drafts, stack
from .review.folders import folders
from .review.grep import grep
from .review.interdiffs import interdiff
from .search import search
from .uploads import land, upload

OPENAPI = Path(__file__).with_name("openapi.json")
HEALTH_SECONDS = 5.0
IMAGES = {
    "png": "image/png",
    "jpg": "image/jpeg",
    "jpeg": "image/jpeg",
    "gif": "image/gif",
    "webp": "image/webp",
    "bmp": "image/bmp",
    "ico": "image/x-icon",
    "svg": "image/svg+xml",
}
OCTETS, JSON = "application/octet-stream", "application/json"


@dataclass(frozen=True)
class Route:
    """A route: its method, its path up to its words, and what answers it."""

    method: str
    path: str
    answer: Callable[..., Any]

    @property
    def root(self) -> str:
        """The path before its first word."""
        return self.path.partition("{")[0]

    def question(self, path: str, pairs: tuple[tuple[str, str], ...]) -> Question | None:
        """The question of a path that this route takes."""
        query = dict(pairs)
        if "{" not in self.path:
            return Question(query=query, pairs=pairs) if path == self.path else None
        if not path.startswith(self.root):
            return None
        name, slash, rest = path.removeprefix(self.root).partition("/")
        takes_path = self.path.count("{") == 2
        if not name or (slash and rest and not takes_path):
            return None
        return Question(name, rest.rstrip("/"), query, pairs)


def raw(visit: Visit, question: Question) -> tuple[bytes, str]:
    """A file's bytes, and their type where it is an image's."""
    extension = question.path.rpartition(".")[2].lower()
    return visit.raw(question), IMAGES.get(extension, OCTETS)


READS = (
    Route("GET", "/api/server", Visit.which),
    Route("GET", "/api/bookmarks", Visit.bookmarks),
    Route("GET", "/api/log/{revision}", Visit.log),
    Route("GET", "/api/changeset/{revision}", Visit.one_changeset),
    Route("GET", "/api/tree/{revision}/{path}", Visit.directory),
    Route("GET", "/api/last/{revision}/{path}", Visit.last),
    Route("GET", "/api/file/{revision}/{path}", Visit.file),
    Route("GET", "/api/past/{revision}/{path}", Visit.past),
    Route("GET", "/api/annotate/{revision}/{path}", annotate),
    Route("GET", "/api/diff/{revision}/{path}", diff),
    Route("GET", "/api/search/{revision}", search),
    Route("GET", "/api/drafts", drafts),
    Route("GET", "/api/folders", folders),
    Route("GET", "/api/stack/{revision}", stack),
    Route("GET", "/api/compare/{revision}/{path}", compare),
    Route("GET", "/api/interdiff/{revision}/{path}", interdiff),
    Route("GET", "/api/grep/{revision}/{path}", grep),
    Route("GET", "/api/archive/{revision}/{path}", archive),
    Route("GET", "/api/events", events),
    Route("GET", "/raw/{revision}/{path}", raw),
)
WRITES = (
    Route("POST", "/api/changeset", upload),
    Route("POST", "/api/land/{bookmark}/{draft}", land),
    Route("POST", "/api/backout/{bookmark}/{revision}", backout),
)


def found(method: str, target: str) -> tuple[Route, Question] | None:
    """The route of a target, and its question."""
    parts = urlsplit(target)
    path, pairs = unquote(parts.path), tuple(parse_qsl(parts.query, keep_blank_values=True))
    for route in READS + WRITES:
        question = route.question(path, pairs)
        if question and route.method == method:
            return route, question
    return None


def answered(visit: Visit, route: Route, question: Question, body: bytes) -> Any:
    """What answers a question; of a change it has the body too. What is streamed comes later, over
    the same connection."""
    bodies = (body,) if route.method == "POST" else ()
    return route.answer(visit, question, *bodies)


def health(library: Library) -> dict[str, Any]:
    """Whether the server answers, and how many entries it has."""
    server = library.server.another(HEALTH_SECONDS)
    try:
        total = server.log(0).total
    finally:
        server.close()
    return {"status": "ok", "server": server.url, "entries": total}
