"""The subcommands that move histories from git and to it."""

from __future__ import annotations

import sys
from collections.abc import Iterator
from dataclasses import dataclass
from pathlib import Path

from ..drafting.drafts import need_name
from ..formats.paths import is_bookmark_name
from ..git.exporting import Report as ExportReport
from ..git.exporting import Target, export_git, export_stream
from ..git.importing import Report, Wanted, import_git
from ..net.server import Server
from ..terminal.output import Output, counted
from .given import Command, ConnectionsOptions
from .options import LEFT_OUT, REVISION, Add, add_connections, id_of


@dataclass(frozen=True)
class ImportOptions(ConnectionsOptions):
    """What `import-git` is told."""

    repository: str
    bookmark: str
    branch: str
    marks: str | None
    copies: bool
    copies_harder: bool
    first_parent: bool


@dataclass(frozen=True)
class ExportOptions(ConnectionsOptions):
    """What `export-git` is told."""

    revision: str
    repository: str
    branch: str | None
    marks: str | None


def add(add: Add) -> None:
    """Adds the subcommands."""
    add_import(add)
    add_export(add)


def add_import(add: Add) -> None:
    """Adds the subcommand that imports."""
    how = Command(ImportOptions, import_from_git)
    one = add("import-git", how, "import the history of a git branch")
    one.add_argument("repository", help="a git repository, with or without a work tree")
    one.add_argument("bookmark", help="made, or moved on to the branch")
    one.add_argument("--branch", default="HEAD", help="a branch or a commit; default: HEAD")
    one.add_argument(
        "--marks",
        metavar="FILE",
        help="what was imported; default: jarrah/BOOKMARK.marks in git's folder",
    )
    copies = one.add_mutually_exclusive_group()
    copies.add_argument(
        "--no-copies",
        dest="copies",
        action="store_false",
        help="don't ask git for renames and copies, and tell none",
    )
    copies.add_argument(
        "--copies-harder",
        action="store_true",
        help="look for copies of all files, and not of those alone that the same commit changes;"
        " slow where there are many files",
    )
    one.add_argument(
        "--first-parent",
        action="store_true",
        help="the first-parent line alone, each merge as its difference from its first parent,"
        " as where the server takes no merges",
    )
    add_connections(one)


def add_export(add: Add) -> None:
    """Adds the subcommand that exports."""
    how = Command(ExportOptions, export_to_git)
    one = add("export-git", how, "write a changeset and its ancestors as git commits")
    one.add_argument("revision", metavar="id", help=REVISION)
    one.add_argument(
        "repository", help="a git repository, made if need be; `-`: a stream for `git fast-import`"
    )
    one.add_argument("--branch", help="default: the bookmark's name, else main")
    one.add_argument(
        "--marks",
        metavar="FILE",
        help="what was exported; default: jarrah/BRANCH.exported in git's folder",
    )
    add_connections(one)


def import_from_git(options: ImportOptions, server: Server, out: Output) -> int:
    """Imports the history of a git branch."""
    need_name(options.bookmark)
    repository, marks = Path(options.repository), options.marks
    copies = (options.copies, options.first_parent, options.copies_harder)
    wanted = Wanted(repository, options.branch, *copies)
    place = Path(marks) if marks else None
    report = import_git(server, wanted, options.bookmark, place, options.connections)
    out.tell(vars(report), import_lines(report))
    return LEFT_OUT if report.left_out else 0


def import_lines(report: Report) -> Iterator[str]:
    """What an import did, for people."""
    if report.known:
        yield f"{counted(report.known, 'commit')} imported before"
    if report.commits:
        rate = report.commits / report.seconds
        yield (
            f"imported {counted(report.commits, 'commit')}"
            f" as {counted(report.changesets, 'changeset')}"
            f" with {counted(report.contents, 'content')}"
            f" of {counted(report.content_bytes, 'byte')}"
            f" in {report.seconds:.1f} s ({rate:,.0f} commits/s)"
        )
    else:
        yield "there is nothing new to import"
    if report.copies:
        yield f"told where {counted(report.copies, 'file')} came from by renames and copies"
    yield from merge_lines(report)
    if report.left_out:
        yield f"left out {counted(len(report.left_out), 'change')}, each named above"
    if report.altered:
        yield f"altered the words of {counted(len(report.altered), 'commit')}, each named above"
    yield f"{report.bookmark} is at {report.head}"


def merge_lines(report: Report) -> Iterator[str]:
    """What became of merges, for people."""
    if report.merges:
        cut = f", {report.octopuses:,} of them with the first two parents alone"
        cut += f", by which {counted(report.lost, 'commit')} of the others' history is lost"
        yield f"kept {counted(report.merges, 'merge')}{cut if report.octopuses else ''}"
    if report.flattened:
        why = "" if report.takes_merges else "; this server takes no merges"
        yield f"made {counted(report.flattened, 'merge')} the difference from the first parent{why}"


def export_to_git(options: ExportOptions, server: Server, out: Output) -> int:
    """Exports a changeset and its ancestors to a branch of a git repository."""
    name = options.revision
    head = id_of(options, server, name)
    is_name = is_bookmark_name(name) and name not in (head, ".")
    branch = options.branch or (name if is_name else "main")
    branch = branch if branch.startswith("refs/") else f"refs/heads/{branch}"
    if options.repository == "-":
        report = export_stream(server, head, branch, sys.stdout.buffer, options.connections)
        sys.stdout.buffer.flush()
    else:
        marks = Path(options.marks) if options.marks else None
        target = Target(Path(options.repository), branch, marks)
        report = export_git(server, head, target, options.connections)
    for one in report.left_out:
        told = f"{one['path']!r} of changeset {one['changeset'][:12]}: {one['why']}"
        print(f"left out: {told}", file=sys.stderr)
    for id in report.altered:
        print(f"altered: changeset {id[:12]}: git can't have all of its words", file=sys.stderr)
    if options.repository != "-":
        out.tell(vars(report), export_lines(report))
    return LEFT_OUT if report.left_out else 0


def export_lines(report: ExportReport) -> Iterator[str]:
    """What an export did, for people."""
    if report.changesets:
        rate = report.changesets / report.seconds
        yield (
            f"exported {counted(report.changesets, 'changeset')}"
            f" with {counted(report.contents, 'content')}"
            f" of {counted(report.content_bytes, 'byte')}"
            f" in {report.seconds:.1f} s ({rate:,.0f} commits/s)"
        )
    else:
        yield "there is nothing new to export"
    yield f"{report.branch} is at {report.commit}"
