"""Subcommands of a working copy."""

from __future__ import annotations

import sys
from collections.abc import Iterable, Iterator
from contextlib import closing
from dataclasses import dataclass
from pathlib import Path
from typing import Any

from ..formats.paths import is_bookmark_name, own_name
from ..history.reads import ALL, remember
from ..net.server import Server, Trouble
from ..refusals import Fault
from ..terminal.colours import BLUE, GREEN, MAGENTA, RED, YELLOW, Line, painted
from ..terminal.output import Output, counted, title, told_id
from ..trees.checkout import check_out, prepare
from ..trees.tree import tree_of
from ..working import rebase as rebasing
from ..working import renamed, sides, stack
from ..working.moves import Moved, move
from ..working.scan import Scan, is_in, scan
from ..working.sparse import absent, files_of, profile_named
from ..working.state import Kept, Stamp, State, WorkingCopy
from .given import Command, ConnectionsOptions, CopyOptions, FoldOptions, PathsOptions
from .options import LEFT_OUT, REVISION, Add, add_connections, add_fold, id_of

LETTERS = {"changed": "M", "added": "A", "deleted": "D", "conflict": "C"}
STATUS = {"changed": BLUE, "added": GREEN, "deleted": RED, "conflict": MAGENTA}


@dataclass(frozen=True)
class CheckoutOptions(FoldOptions, ConnectionsOptions):
    """What `checkout` is told."""

    revision: str
    folder: str
    plain: bool
    sparse: str | None


@dataclass(frozen=True)
class UpdateOptions(ConnectionsOptions):
    """What `update` is told."""

    revision: str | None


@dataclass(frozen=True)
class RebaseOptions(CopyOptions):
    """What `rebase` is told."""

    proceed: bool
    abort: bool


@dataclass(frozen=True)
class MoveOptions(CopyOptions):
    """What `mv` and `cp` are told."""

    olds: list[str]
    new: str
    after: bool


@dataclass(frozen=True)
class ResolveOptions(PathsOptions):
    """What `resolve` is told."""

    ours: bool
    theirs: bool


def add(add: Add) -> None:
    """Adds the subcommands."""
    how = Command(CheckoutOptions, checkout)
    one = add("checkout", how, "write a changeset's tree into a folder, to work in it")
    one.add_argument("revision", metavar="id", help=REVISION)
    one.add_argument("folder", help="new or empty")
    one.add_argument("--plain", action="store_true", help="the tree alone, without `.jarrah/`")
    one.add_argument(
        "--sparse",
        metavar="FILE",
        help="only the directories that FILE names, one a line (`-`: the standard input),"
        " and the files directly above them",
    )
    add_connections(one)
    add_fold(one)
    looks = Command(PathsOptions, status)
    one = add("status", looks, "tell what is changed, added and deleted in the working copy")
    one.add_argument("paths", nargs="*", metavar="PATH", help="files or folders; default: all")
    moves = Command(UpdateOptions, update)
    one = add("update", moves, "bring the working copy to the bookmark's head, changes kept")
    one.add_argument("revision", nargs="?", metavar="id", help=f"{REVISION}; default: the head")
    add_connections(one)
    add_rebase(add)
    one = add("revert", Command(PathsOptions, revert), "put files back as the base has them")
    one.add_argument("paths", nargs="+", metavar="PATH", help="files or folders")
    add_renames(add)


def add_rebase(add: Add) -> None:
    """Adds the subcommand that rebases."""
    how = Command(RebaseOptions, rebase)
    one = add("rebase", how, "put the working copy's drafts onto the bookmark's head")
    way = one.add_mutually_exclusive_group()
    way.add_argument(
        "--continue", dest="proceed", action="store_true", help="go on after a conflict"
    )
    way.add_argument("--abort", action="store_true", help="go back to where it began")


def add_renames(add: Add) -> None:
    """Adds those that move and copy, and settle conflicts."""
    for name, run, what in (("mv", mv, "move"), ("cp", cp, "copy")):
        how = Command(MoveOptions, run)
        one = add(name, how, f"{what} files or folders, and keep that for the next commit")
        one.add_argument("olds", nargs="+", metavar="OLD", help="files or folders")
        one.add_argument("new", metavar="NEW", help="a path that isn't there, or a folder")
        one.add_argument("--after", action="store_true", help="only keep it: it is done already")
    settles = Command(ResolveOptions, resolve_conflicts)
    one = add("resolve", settles, "say that conflicts are settled")
    one.add_argument("paths", nargs="+", metavar="PATH", help="files or folders")
    way = one.add_mutually_exclusive_group()
    way.add_argument("--ours", action="store_true", help="by what was here, or in the draft")
    way.add_argument("--theirs", action="store_true", help="by what the base has, as by `revert`")


def checkout(options: CheckoutOptions, server: Server, out: Output) -> int:
    """Writes a changeset's tree into a new or empty folder, and makes it a working copy."""
    id = id_of(options, server, options.revision)
    name = options.revision if is_bookmark_name(options.revision) else None
    bookmark = name if name and id != name and server.head(name) else None
    profile = profile_named(options.sparse) if options.sparse else None
    tree = tree_of(server, id, fold=options.fold)
    files = list(files_of(tree, profile))
    left_out = [path for path, _ in files if own_name(path)]
    files = [(path, file) for path, file in files if not own_name(path)]
    top = Path(options.folder)
    prepare(top)
    with closing(check_out(server, files, top, options.connections)) as written:
        kept = {path: Kept(file, Stamp(*times)) for path, file, times in written}
    if not options.plain:
        kept = {path: kept[path] for path, _ in files}
        sparse = list(profile.directories) if profile else None
        WorkingCopy(top, State(server.url, bookmark, id, files=kept, sparse=sparse)).save()
    elif bookmark and not profile:
        remember(server, bookmark, ALL, id)
    tell_absent(absent(tree, profile) if profile else [], id)
    document = {"id": id, "folder": options.folder, "files": len(files), "source": tree.source}
    document |= {"bookmark": bookmark, "left_out": left_out}
    out.tell(document, f"wrote {counted(len(files), 'file')} of {told_id(id)} to {options.folder}")
    return tell_left_out(left_out)


def tell_absent(directories: list[str], id: str) -> None:
    """Names directories of a profile that a tree doesn't have."""
    for one in directories:
        print(f"jarrah: {one} of the profile is no directory of {id[:12]}", file=sys.stderr)


def tell_left_out(paths: list[str]) -> int:
    """Names paths that aren't written, and gives the status."""
    for path in paths:
        why = f"it has the element `{own_name(path)}`"
        print(f"left out: {path!r}: {why}", file=sys.stderr)
    return LEFT_OUT if paths else 0


def need_copy(options: CopyOptions) -> WorkingCopy:
    """The working copy that the command was given in."""
    if options.copy is None:
        raise Trouble("this is no working copy: `jarrah checkout BOOKMARK FOLDER` makes one")
    return options.copy


def named(copy: WorkingCopy, places: list[str]) -> list[str] | None:
    """The paths that places on the command line mean; none for the whole folder."""
    return [copy.path_of(Path(place)) for place in places] or None


def status(options: PathsOptions, server: Server, out: Output) -> None:
    """Tells what differs from the base."""
    copy = need_copy(options)
    with copy.alone():
        found = scanned(copy, named(copy, options.paths))
    state = copy.state
    paths = dict.fromkeys([*found.changes, *state.conflicts])
    rows = [(found.word(copy, path), path) for path in paths]
    document: dict[str, Any] = {"bookmark": state.bookmark, "base": state.base}
    titles = {id: title_of(copy, server, id) for id in state.drafts}
    document |= {"drafts": state.drafts, "titles": titles, "faults": found.faults}
    document |= {"rebase": state.rebase.draft if state.rebase else None}
    document["changes"] = [change_row(state, word, path) for word, path in rows]
    out.tell(document, status_lines(copy, found, rows, titles))


def change_row(state: State, word: str, path: str) -> dict[str, str]:
    """A path of a status for scripts."""
    at = copied_from(state, path)
    return {"path": path, "change": word} | ({"copied": at} if at else {})


def copied_from(state: State, path: str) -> str | None:
    """Where a person said that a new file was moved or copied from."""
    return None if path in state.files else state.copied.get(path)


def title_of(copy: WorkingCopy, server: Server, id: str) -> str:
    """A draft's title, which the server is asked for where it isn't kept."""
    return copy.state.titles.get(id) or title(server.changeset(id).message)


def scanned(copy: WorkingCopy, under: list[str] | None) -> Scan:
    """What differs; what was found to be as it was isn't looked into again."""
    found = scan(copy, under)
    if found.has_new_stamps:
        copy.save()
    return found


def status_lines(
    copy: WorkingCopy, found: Scan, rows: list[tuple[str, str]], titles: dict[str, str]
) -> Iterator[Line]:
    """The same for people; the last draft comes first, as in a log."""
    state = copy.state
    on = f" of {state.bookmark}" if state.bookmark else ""
    count = f", {counted(len(state.drafts), 'draft')} on it" if state.drafts else ""
    yield f"on {told_id(state.root)}{on}{count}"
    for id in reversed(state.drafts):
        yield painted(YELLOW, f"draft {told_id(id)}") + f"  {titles[id]}"
    if state.rebase:
        at = told_id(state.rebase.draft)
        yield f"a rebase stopped at {at}: `jarrah rebase --continue` or `--abort`"
    for word, path in rows:
        origin = copied_from(state, path)
        at_path = painted(STATUS[word], f"{LETTERS[word]} {path}")
        yield at_path + (f"  (from {origin})" if origin else "")
    for path, why in found.faults.items():
        yield painted(RED, f"! {path}") + f": {why}"


def update(options: UpdateOptions, server: Server, out: Output) -> int:
    """Brings the folder to the head, or to a changeset."""
    copy = need_copy(options)
    with copy.alone():
        state = copy.state
        stack.need_settled(copy)
        stack.need_no_drafts(copy)
        name = options.revision or stack.need_bookmark(copy)
        target = id_of(options, server, name)
        moved = move(copy, server, target, options.connections)
        state.root = target
        if is_bookmark_name(name) and server.head(name) == target:
            state.bookmark = name
        state.conflicts += moved.conflicts
        copy.save()
    document = {"id": target, "bookmark": state.bookmark} | moved_document(moved)
    out.tell(document, [*moved_lines(moved), f"at {told_id(target)}"])
    tell_left_out(moved.left_out)
    return conflict_status(moved.conflicts, moved.left_out)


def conflict_status(conflicts: dict[str, str], left_out: Iterable[str] = ()) -> int:
    """The status where something has to be settled first, or was left out."""
    return 1 if conflicts else LEFT_OUT if left_out else 0


def moved_document(moved: Moved) -> dict[str, Any]:
    """What a move did, for scripts."""
    return vars(moved)


def moved_lines(moved: Moved) -> Iterator[str]:
    """What a move did, for people."""
    if moved.written or moved.deleted:
        yield f"wrote {counted(moved.written, 'file')}, deleted {moved.deleted:,}"
    for path in moved.merged:
        if path not in moved.conflicts:
            yield f"merged {path}"
    for path, why in moved.conflicts.items():
        yield f"conflict {path}: {why}"


def rebase(options: RebaseOptions, server: Server, out: Output) -> int:
    """Puts the drafts onto the head, or goes on, or back."""
    copy = need_copy(options)
    with copy.alone():
        if options.abort:
            rebasing.abort(copy, server)
            out.tell({"base": copy.state.base}, f"back at {told_id(copy.state.base)}")
            return 0
        act = rebasing.proceed if options.proceed else rebasing.rebase
        done = act(copy, server)
    out.tell(vars(done), rebased_lines(done))
    return conflict_status(done.conflicts)


def rebased_lines(done: rebasing.Rebased) -> Iterator[str]:
    """What a rebase did, for people."""
    for id in done.dropped:
        yield f"the head has the draft {told_id(id)} already"
    yield f"{counted(len(done.drafts), 'draft')} on {told_id(done.head)}"
    for path, why in done.conflicts.items():
        yield f"conflict {path}: {why}"
    if done.stopped and not done.conflicts:
        yield f"stopped at {told_id(done.drafts[-1])}: `jarrah amend` changes it,"
        yield "    and `jarrah rebase --continue` goes on, or `--abort` back"
    elif done.stopped:
        yield f"stopped at the draft {told_id(done.stopped)}: settle it, `jarrah resolve PATH`,"
        yield "    and `jarrah rebase --continue`, or `--abort`"


def revert(options: PathsOptions, server: Server, out: Output) -> None:
    """Puts files back as the base has them; what the base doesn't have stays."""
    copy = need_copy(options)
    with copy.alone():
        under = named(copy, options.paths) or []
        found = scan(copy, under)
        state = copy.state
        differ = dict.fromkeys([*found.changes, *found.faults, *state.conflicts])
        known = state.files.keys() | set(state.conflicts)
        paths = [path for path in differ if is_in(path, under) and path in known]
        for top in under:
            if not any(is_in(path, [top]) for path in paths):
                raise Fault(why_not(copy, top))
        rebasing.restore(copy, server, paths)
        state.conflicts = [path for path in state.conflicts if not is_in(path, under)]
        state.copied = {new: old for new, old in state.copied.items() if new not in paths}
        sides.forget(copy)
        copy.save()
    out.tell({"reverted": paths}, [f"reverted {path}" for path in paths])


def why_not(copy: WorkingCopy, top: str) -> str:
    """Why nothing is reverted at and under a path."""
    if any(is_in(path, [top]) for path in copy.state.files):
        return f"{top or 'the folder'} is as the base has it"
    return f"the base has no {top}, so there is nothing to put back"


def mv(options: MoveOptions, server: Server, out: Output) -> None:
    """Moves files, and keeps that."""
    tell_moved(options, out, copies=False)


def cp(options: MoveOptions, server: Server, out: Output) -> None:
    """Copies files, and keeps that."""
    tell_moved(options, out, copies=True)


def tell_moved(options: MoveOptions, out: Output, *, copies: bool) -> None:
    """Moves or copies files, and tells which."""
    copy = need_copy(options)
    olds, new = [Path(one) for one in options.olds], Path(options.new)
    with copy.alone():
        pairs = renamed.say(copy, olds, new, copies=copies, after=options.after)
    rows = [{"from": old, "to": path} for path, old in pairs.items()]
    done = "copied" if copies else "moved"
    out.tell({done: rows}, [f"{done} {old} to {path}" for path, old in pairs.items()])


def resolve_conflicts(options: ResolveOptions, server: Server, out: Output) -> None:
    """Takes paths off the list of conflicts."""
    copy = need_copy(options)
    with copy.alone():
        under = named(copy, options.paths) or []
        settled = [path for path in copy.state.conflicts if is_in(path, under)]
        for top in under:
            if not any(is_in(path, [top]) for path in settled):
                raise Trouble(f"{top or 'the folder'} is no conflict")
        if options.theirs:
            rebasing.restore(copy, server, settled)
        if options.ours:
            for path in settled:
                sides.put_back(copy, server, path)
        copy.state.conflicts = [p for p in copy.state.conflicts if p not in settled]
        sides.forget(copy)
        copy.save()
    out.tell({"resolved": settled}, [f"resolved {path}" for path in settled])
