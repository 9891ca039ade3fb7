"""Trees as tar archives."""

from __future__ import annotations

from ..formats.paths import own_name
from ..net.pipeline import contents
from ..refusals import about
from ..trees.archive import archived, write_archive
from .library import BadQuestion, Question, Visit
from .streams import Out, Streamed

TAR = "application/x-tar"
ENDING = ".tar"


def archive(visit: Visit, question: Question) -> Streamed:
    """The files at and under a path, but for what git or this client keep for themselves."""
    name, path = question.name, question.path
    target = path or name
    if not target.endswith(ENDING):
        raise BadQuestion(f"an archive's name ends in {ENDING}")
    target = target.removesuffix(ENDING)
    id = visit.resolve(name if path else target)
    inside = target if path else ""
    with about(inside or "the root"):
        found = archived(visit.tree(id), inside)
    files = [(path, file) for path, file in found if not own_name(path)]
    seconds = visit.changeset(id).seconds

    def write(out: Out) -> None:
        data = contents(visit.server, [file for _, file in files])
        write_archive(out, ((*one, bytes) for one, bytes in zip(files, data)), seconds)

    return Streamed(TAR, write)
