"""The subcommands that serve a page and JSON routes on this machine."""

from __future__ import annotations

from argparse import ArgumentParser
from dataclasses import dataclass
from pathlib import Path

from ..net.server import Server
from ..terminal.output import Output
from ..web.pages import serve
from ..web.review.folders import working_copies
from .given import Command, FoldOptions
from .options import Add, add_fold, natural


@dataclass(frozen=True)
class ServeOptions(FoldOptions):
    """What `browse` and `gateway` are told."""

    port: int
    host: list[str]
    folders: list[str]


def add(add: Add) -> None:
    """Adds the subcommands."""
    how = Command(ServeOptions, browse)
    one = add("browse", how, "serve a page to look round in, on this machine alone")
    add_serving(one)
    how = Command(ServeOptions, gateway)
    one = add("gateway", how, "serve JSON routes for other tools, and the page")
    add_serving(one)


def add_serving(one: ArgumentParser) -> None:
    """Options of what serves on this machine."""
    one.add_argument("--port", type=natural, default=0, help="default: any that is free")
    one.add_argument(
        "--host",
        metavar="NAME",
        action="append",
        default=[],
        help="answer to this name too, which a proxy passes on; can be repeated",
    )
    one.add_argument(
        "--working-copy",
        dest="folders",
        metavar="FOLDER",
        action="append",
        default=[],
        help="tell the drafts of this working copy too; can be repeated",
    )
    add_fold(one)


def browse(options: ServeOptions, server: Server, out: Output) -> None:
    """Serves a page to look round in, on this machine alone; in a working copy with its drafts."""
    here = [options.copy.top] if options.copy else []
    tops = working_copies([*here, *map(Path, options.folders)])
    serve(server, options.port, options.fold, options.host, False, out, tops)


def gateway(options: ServeOptions, server: Server, out: Output) -> None:
    """Serves JSON routes for other tools, which take changes too."""
    tops = working_copies(map(Path, options.folders))
    serve(server, options.port, options.fold, options.host, True, out, tops)
