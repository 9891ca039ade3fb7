"""The drafts of working copies of this machine that whoever started the program named."""

from __future__ import annotations

from collections.abc import Iterable
from pathlib import Path
from typing import Any

from ...refusals import Fault
from ...net.server import Trouble
from ...working.state import FOLDER, State, WorkingCopy, load
from ..library import Question, Visit
from .asking import need_known
from .drafts import row_of

MOST_SHOWN = 100
"""So many drafts of a working copy are told, the last."""


def working_copies(places: Iterable[Path]) -> list[Path]:
    """The tops of the working copies in which some places lie, each once."""
    tops: dict[Path, None] = {}
    for place in places:
        copy = WorkingCopy.find(place.absolute())
        if copy is None:
            raise Trouble(f"{place} is no working copy: `jarrah checkout BOOKMARK FOLDER` makes one")
        tops[copy.top] = None
    return list(tops)


def folders(visit: Visit, question: Question) -> dict[str, Any]:
    """Each working copy with its bookmark and its drafts, or why they can't be told."""
    need_known(question)
    return {"folders": [folder_row(visit, top) for top in visit.library.folders]}


def folder_row(visit: Visit, top: Path) -> dict[str, Any]:
    """A working copy; its folder is told by its name alone."""
    row: dict[str, Any] = {"name": top.name, "bookmark": None, "root": None, "drafts": []}
    try:
        state = load(top / FOLDER / "state")
        if state.server != visit.server.url:
            return row | {"error": f"it is a working copy of {state.server}"}
        return row | told(visit, state)
    except Fault as fault:
        return row | {"error": str(fault)}


def told(visit: Visit, state: State) -> dict[str, Any]:
    """What a working copy's state says, its last draft first."""
    window = visit.uploads()
    ids = state.drafts[::-1][:MOST_SHOWN]
    rows = [row_of(visit, window, id) for id in ids]
    return {"bookmark": state.bookmark, "root": state.root, "drafts": rows, "error": None}
