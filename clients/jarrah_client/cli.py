"""The command line."""

from __future__ import annotations

import argparse
import os
import re
import sys
from collections.abc import Sequence
from difflib import get_close_matches
from pathlib import Path
from typing import Any, NoReturn

from . import VERSION
from .commands import (
    annotate,
    archive,
    backout,
    bisect,
    committing,
    diffs,
    exchange,
    manual,
    pages,
    policies,
    reading,
    serve_git,
    sparse,
    stacks,
    watch,
    working_copy,
    writing,
)
from .commands.given import Common, Subcommand, Telling, common_of
from .commands.options import span
from .formats.changesets import CannotSpell, SelfConflict
from .formats.fields import BadEncoding
from .formats.paths import is_bookmark_name
from .net.server import ANSWER_SECONDS, MANIFEST_SECONDS, Server, Trouble, whole_url
from .net.trust import Trust
from .refusals import Fault, Refused, WrongWords
from .settings import setting
from .terminal.colours import AUTO, WHEN
from .terminal.output import Output, as_json, clean
from .terminal.pager import pager
from .working.state import WorkingCopy

MODULES = (
    writing,
    backout,
    working_copy,
    committing,
    stacks,
    sparse,
    bisect,
    reading,
    diffs,
    annotate,
    archive,
    watch,
    policies,
    exchange,
    pages,
    serve_git,
    manual,
)
"""The subcommands, in the order in which help lists them."""
ABOUT = "Work with a running Jarrahchess server: commit, land, look, and import a git history."
THE_SERVER = "the server; default: the working copy's, else $JARRAH_SERVER"
THE_CALLER = "who asks, by whom a policy decides; default: $JARRAH_CALLER, else nobody is named"
FILES = (
    ("--cert", "a certificate (PEM) that is shown to a server at https; default: $JARRAH_CERT"),
    ("--key", "its key, where that isn't in the same file; default: $JARRAH_KEY"),
    ("--ca", "who signs the server's one; default: $JARRAH_CA, else whom this machine trusts"),
)
COLOURS = "when lines have colours; default: on a terminal, unless $NO_COLOR is set"
PAGES = "write to the terminal itself, and not by $JARRAH_PAGER, $PAGER or less"
FOR_SCRIPTS = "write one JSON document a line, for scripts"
PATIENCE = (
    f"wait so long for an answer; default: {ANSWER_SECONDS:.0f},"
    f" and {MANIFEST_SECONDS:.0f} for a manifest, which the server may have to derive first"
)
NO_COMMAND = re.compile(r"argument COMMAND: invalid choice: '(.*?)' \(")
EXAMPLES = """examples:
  jarrah init main
  jarrah commit main -m 'a first file' --set README.md=README.md
  jarrah checkout main folder
  cd folder; jarrah status; jarrah diff; jarrah commit -m 'what I changed'; jarrah land
  cd folder; jarrah bisect --good 4f0c2a -- make test
  jarrah log main
  jarrah backout 4f0c2a main
  jarrah import-git ~/src/project project
  jarrah browse

The server is `--server URL` or the variable JARRAH_SERVER, such as http://127.0.0.1:8080. It, the
caller, the author, an editor and certificates may stand in ~/.config/jarrah/config too.
`jarrah COMMAND --help` tells about one command. The status is 0, 1 at a refusal or a fault
(told in one line on standard error) or where a conflict is left to settle, 2 where the words
are wrong, and 3 where something was left out."""


class Parser(argparse.ArgumentParser):
    """A parser that tells which command a person may have meant."""

    def error(self, message: str) -> NoReturn:
        found = NO_COMMAND.match(message)
        if found:
            near = get_close_matches(found[1], self.get_default("commands"), 1)
            hint = f"did you mean `{near[0]}`?" if near else "`jarrah help` tells them"
            message = f"there is no command {found[1]}: {hint}"
        super().error(message)


def parser() -> argparse.ArgumentParser:
    """The parser of all subcommands."""
    top = Parser(
        "jarrah",
        description=ABOUT,
        epilog=EXAMPLES,
        formatter_class=argparse.RawDescriptionHelpFormatter,
    )
    top.add_argument("--version", action="version", version=f"jarrah {VERSION}")
    common = argparse.ArgumentParser(add_help=False)
    add_common(top, None)
    add_common(common, argparse.SUPPRESS)
    below = top.add_subparsers(
        dest="command", metavar="COMMAND", required=True, parser_class=argparse.ArgumentParser
    )

    def add(name: str, how: Subcommand, about: str) -> argparse.ArgumentParser:
        one = below.add_parser(
            name, parents=[common], help=about, description=f"{about[0].upper()}{about[1:]}."
        )
        one.set_defaults(subcommand=how)
        return one

    for module in MODULES:
        module.add(add)
    top.set_defaults(commands=below.choices)
    return top


def add_common(one: argparse.ArgumentParser, default: str | None) -> None:
    """Options that stand before a command, and behind it too."""
    one.add_argument("--server", metavar="URL", default=default, help=THE_SERVER)
    one.add_argument("--caller", metavar="NAME", default=default, help=THE_CALLER)
    for option, about in FILES:
        one.add_argument(option, metavar="FILE", default=default, help=about)
    one.add_argument("--timeout", metavar="SECONDS", type=span, default=default, help=PATIENCE)
    one.add_argument("--json", action="store_true", default=default or False, help=FOR_SCRIPTS)
    one.add_argument("--color", choices=WHEN, default=default or AUTO, help=COLOURS)
    one.add_argument("--no-pager", action="store_true", default=default or False, help=PAGES)


def main(words: Sequence[str]) -> int:
    """Runs a command, and gives the status."""
    top = parser()
    if not all(is_utf8(word) for word in words):
        top.error("a word isn't UTF-8")
    named = top.parse_args(words)
    common = common_of(named)
    try:
        return run(top, common, named)
    except WrongWords as fault:
        complain(fault, common.json)
        return 2
    except (Fault, CannotSpell, SelfConflict, BadEncoding) as fault:
        complain(fault, common.json)
        return 1
    except BrokenPipeError:
        os.dup2(os.open(os.devnull, os.O_WRONLY), sys.stdout.fileno())
        return 1
    except KeyboardInterrupt:
        print("jarrah: interrupted", file=sys.stderr)
        return 130


def run(top: argparse.ArgumentParser, common: Common, named: argparse.Namespace) -> int:
    """Runs a command on its server, or one that needs none."""
    subcommand: Subcommand = named.subcommand
    if isinstance(subcommand, Telling):
        return subcommand.call(top, named)
    copy = WorkingCopy.find(Path.cwd())
    kept = copy.state.server if copy else None
    url = common.server or kept or setting("server")
    if not url:
        top.error("no server is named: give --server URL or set JARRAH_SERVER")
    server = server_of(top, common, url)
    is_paged = subcommand.pages and not common.no_pager
    out = Output(common.json, common.color, pager() if is_paged else None)
    status = 0
    try:
        with out.shown():
            status = subcommand.call(named, copy, server, out)
    finally:
        server.close()
    return status


def server_of(top: argparse.ArgumentParser, options: Common, url: str) -> Server:
    """The server at a URL, asked as whom the options and settings name."""
    at = whole_url(url)
    caller = options.caller or setting("caller", at)
    if caller and not is_bookmark_name(caller):
        top.error(f"{caller!r} is no caller's name: 1 to 128 of A-Z a-z 0-9 _ . - are allowed")
    named = (options.cert, options.key, options.ca)
    if any(named) and not at.startswith("https:"):
        raise Trouble(f"`--cert`, `--key` and `--ca` are for a server at https, and not {at}")
    files = [one or setting(name, at) for one, name in zip(named, ("cert", "key", "ca"))]
    return Server(url, options.timeout, caller, Trust(*files))


def is_utf8(word: str) -> bool:
    """Whether a word of the command line was UTF-8."""
    return word == word.encode(errors="replace").decode()


def complain(fault: Exception, is_json: bool) -> None:
    """One line on standard error."""
    if not is_json:
        print(f"jarrah: {clean(str(fault))}", file=sys.stderr)
        return
    document: dict[str, Any] = {"error": str(fault)}
    if isinstance(fault, Refused):
        document |= {"status": fault.status, "code": fault.code, **fault.members}
        if fault.code == "denied":
            document["ruling"] = fault.advice
    print(as_json(document), file=sys.stderr)
