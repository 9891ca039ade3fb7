"""Who brought each line of a file, as JSON."""

from __future__ import annotations

from io import StringIO
from itertools import groupby
from typing import Any

from ..refusals import about
from ..text.annotate import FoldedVersions, NodeVersions, Versions, annotated
from ..trees.tree import FsnodeTree, whole_past
from .library import Question, Visit, brief


def annotate(visit: Visit, question: Question) -> dict[str, Any]:
    """The lines of a file, those that one changeset brought together, and these changesets."""
    id, path = visit.place(question)
    follows = question.number("follow", 1) > 0
    with about(path):
        versions = kept_versions(visit, id)
        found = annotated(visit.server, versions, id, path, follows=follows, out=StringIO())
    makers = {line.changeset.id: line.changeset for line in found}
    places = {maker: place for place, maker in enumerate(makers)}
    runs = [
        {"changeset": places[maker], "texts": [line.text for line in run]}
        for maker, run in groupby(found, lambda line: line.changeset.id)
    ]
    changesets = [brief(maker) for maker in makers.values()]
    return {"id": id, "path": path, "changesets": changesets, "lines": runs}


def kept_versions(visit: Visit, id: str) -> Versions:
    """The versions of a changeset's files, by the tree and the changesets that are kept."""
    tree = visit.tree(id)
    if isinstance(tree, FsnodeTree):
        return NodeVersions(visit.server, tree, visit.changeset)
    return FoldedVersions(whole_past(visit.server, id), tree)
