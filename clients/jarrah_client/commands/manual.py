"""The subcommands that tell of the client itself, by what `--help` says. They need no server."""

from __future__ import annotations

from argparse import ArgumentParser
from collections.abc import Iterator, Mapping
from dataclasses import dataclass

from .. import VERSION
from ..terminal.completion import SHELLS, bash_script, zsh_script
from .given import Options, Telling
from .options import Add


@dataclass(frozen=True)
class HelpOptions(Options):
    """What `help` is told."""

    topic: str | None
    man: bool


@dataclass(frozen=True)
class CompletionOptions(Options):
    """What `completion` is told."""

    shell: str


def add(add: Add) -> None:
    """Adds the subcommands."""
    one = add("help", Telling(HelpOptions, tell_help), "tell what there is, or about one command")
    one.add_argument("topic", metavar="COMMAND", nargs="?", help="default: all")
    one.add_argument("--man", action="store_true", help="write all as a page for man(1)")
    how = Telling(CompletionOptions, tell_completion)
    one = add("completion", how, "write a script by which a shell completes words")
    one.add_argument("shell", choices=SHELLS, help="the shell that reads it")


def tell_help(top: ArgumentParser, options: HelpOptions) -> int:
    """Tells about one command, or all."""
    if options.man:
        print("\n".join(page(top, commands_of(top))))
    elif options.topic is None:
        top.print_help()
    else:
        top.parse_args([options.topic, "--help"])
    return 0


def tell_completion(top: ArgumentParser, options: CompletionOptions) -> int:
    """Writes the script of a shell."""
    script = bash_script if options.shell == "bash" else zsh_script
    print(script(top, commands_of(top)), end="")
    return 0


def commands_of(top: ArgumentParser) -> Mapping[str, ArgumentParser]:
    """The parsers of all subcommands, by their names."""
    commands: Mapping[str, ArgumentParser] = top.get_default("commands")
    return commands


def page(top: ArgumentParser, commands: Mapping[str, ArgumentParser]) -> Iterator[str]:
    """The lines of the manual page: the help text of each command under its name."""
    yield f'.TH JARRAH 1 "" "jarrah {VERSION}"'
    yield from (".SH NAME", f"jarrah \\- {roff(top.description or '')}")
    yield from (".SH DESCRIPTION", *verbatim(top.format_help()))
    yield ".SH COMMANDS"
    for name, command in commands.items():
        yield from (f".SS {roff(name)}", *verbatim(command.format_help()))


def verbatim(text: str) -> Iterator[str]:
    """Lines that stand as they are."""
    yield ".nf"
    yield from (roff(line) for line in text.splitlines())
    yield ".fi"


def roff(line: str) -> str:
    """A line in which nothing is a command of roff."""
    escaped = line.replace("\\", "\\e").replace("-", "\\-")
    return f"\\&{escaped}" if escaped.startswith((".", "'")) else escaped
