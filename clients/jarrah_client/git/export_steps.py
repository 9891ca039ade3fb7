"""What each changeset of an export takes away from its first parent's tree, and puts there.

An export from the beginning folds the trees, for which changesets are enough. One that goes on asks
the server's manifests for what changesets don't tell, or folds from the tree that it goes on from,
whichever takes fewer questions.
"""

from __future__ import annotations

from collections.abc import Iterable
from dataclasses import dataclass

from ..formats.changesets import Changeset, File
from ..formats.paths import own_name
from ..net.server import Server
from ..refusals import Refused
from ..terminal.progress import Progress
from ..trees.differences import differences
from ..trees.folded import Fold, FoldedTree, differing
from ..trees.tree import tree_of

ABSENT = ("no-path", "not-a-dir", "not-a-file")
"""What the server answers where there is no file at a path."""


@dataclass(frozen=True)
class Step:
    """A changeset, the files that it takes away from its first parent, and those that it puts."""

    changeset: Changeset
    gone: list[str]
    put: dict[str, File]


def steps_of(server: Server, line: list[Changeset]) -> list[Step]:
    """The steps of changesets, parents first; those below them have been exported."""
    ours = {changeset.id for changeset in line}
    below = dict.fromkeys(it for changeset in line for it in changeset.parents if it not in ours)
    if below:
        try:
            if is_less(server, line, list(below)):
                return by_manifests(server, line)
        except Refused as refusal:
            if refusal.code != "no-route":
                raise
    fold = Fold(line)
    begin(server, fold, list(below))
    return [by_fold(fold, changeset) for changeset in line]


def sets_of(changeset: Changeset) -> dict[str, File]:
    """The files that a changeset sets, but for git's and this client's own."""
    return {path: file for path, file in changeset.changes.items() if file and not own_name(path)}


def deletes_of(changeset: Changeset) -> list[str]:
    """The paths that it deletes, but for those; there may be no file there, or a directory."""
    gone = (path for path, file in changeset.changes.items() if not file)
    return [path for path in gone if not own_name(path)]


# By manifests


def is_less(server: Server, line: list[Changeset], below: list[str]) -> bool:
    """Whether manifests are asked fewer questions than there are files to fold from."""
    asked = sum(len(by_directory(deletes_of(changeset))) for changeset in line)
    asked += sum(changeset.is_merge for changeset in line)
    return asked == 0 or asked <= server.fsnode(below[0]).summary.descendant_files


def by_manifests(server: Server, line: list[Changeset]) -> list[Step]:
    """The steps of changesets, each by its own manifests and its parents'."""
    steps = []
    with Progress("changesets compared", len(line)) as progress:
        for changeset in line:
            steps.append(step_by_manifests(server, changeset))
            progress.step()
    return steps


def step_by_manifests(server: Server, changeset: Changeset) -> Step:
    """A merge's step is what its tree and its first parent's differ in. Of any other changeset only
    the deletes are asked for: git would take one of a directory."""
    if changeset.is_merge:
        before, there = (tree_of(server, id) for id in (changeset.parents[0], changeset.id))
        found = [one for one in differences(before, there) if not own_name(one[0])]
        gone = [path for path, _, after in found if not after]
        return Step(changeset, gone, {path: after for path, _, after in found if after})
    deletes = deletes_of(changeset) if changeset.parent else []
    known = files_among(server, changeset.parent, deletes) if changeset.parent else set()
    return Step(changeset, [path for path in deletes if path in known], sets_of(changeset))


def by_directory(paths: Iterable[str]) -> dict[str, list[str]]:
    """Names by their directories."""
    found: dict[str, list[str]] = {}
    for path in paths:
        directory, _, name = path.rpartition("/")
        found.setdefault(directory, []).append(name)
    return found


def files_among(server: Server, id: str, paths: list[str]) -> set[str]:
    """Those of some paths that are files of a changeset's tree.

    One path of a directory is asked for by its unode, which is small; several by the fsnode of the
    directory.
    """
    found: set[str] = set()
    for directory, names in by_directory(paths).items():
        above = f"{directory}/" if directory else ""
        try:
            if len(names) == 1:
                is_file = server.unode(id, above + names[0]).entries is None
                found |= {above + names[0]} if is_file else set()
            else:
                entries = server.fsnode(id, directory).entries
                found |= {above + name for name in names if isinstance(entries.get(name), File)}
        except Refused as refusal:
            if refusal.code not in ABSENT:
                raise
    return found


# By a fold


def begin(server: Server, fold: Fold, ids: list[str]) -> None:
    """Begins a fold with the trees of some changesets, each after the first by what differs."""
    trees = {id: tree_of(server, id) for id in ids}
    base = FoldedTree()
    for first in list(trees.values())[:1]:
        base.apply_all(dict(first.files()))
        for id, tree in trees.items():
            fold.trees[id] = base.copy()
            fold.trees[id].apply_all({path: new for path, _, new in differences(first, tree)})


def by_fold(fold: Fold, changeset: Changeset) -> Step:
    """A changeset's step by the trees so far, to which its own is added."""
    before = fold.before(changeset)
    gone = [path for path in deletes_of(changeset) if isinstance(before.at(path), File)]
    put = sets_of(changeset)
    tree = fold.add(changeset)
    if changeset.is_merge:
        brought = differing(tree.root, before.root)
        put |= {path: file for path, file in brought if not own_name(path)}
    return Step(changeset, gone, put)
