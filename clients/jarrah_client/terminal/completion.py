"""Scripts by which bash and zsh complete the command line, made of what `--help` says."""

from __future__ import annotations

import re
from argparse import ArgumentParser
from collections.abc import Mapping

OPTION = re.compile(r"^  (-\S.*?)(?:  .*)?$", re.M)
"""A line of a help text that begins with options; what they do stands behind two spaces."""
NAME = re.compile(r"(?<!\S)--?[A-Za-z][\w-]*")
VALUE = re.compile(r"[ =](?:[A-Z]|\{)")
"""What follows an option that takes a value."""
WALK = """\
    local command= at
    for ((at = {first}; at < {current}; at++)); do
        case ${words}[at]{close} in
        {valued}) ((at++)) ;;
        -*) ;;
        *) command=${words}[at]{close}; break ;;
        esac
    done
"""
"""Finds the command among the words before the present one."""
BASH = """\
# Completes the words of jarrah in bash: made by `jarrah completion bash`.
_jarrah() {{
{walk}    local present=${{COMP_WORDS[COMP_CWORD]}} words=
    case $command in
{cases}
    esac
    COMPREPLY=()
    if [[ -z $command || $present == -* || $command == help || $command == completion ]]; then
        COMPREPLY=($(compgen -W "$words" -- "$present"))
    fi
}}
complete -o bashdefault -o default -F _jarrah jarrah
"""
ZSH = """\
#compdef jarrah
# Completes the words of jarrah in zsh: made by `jarrah completion zsh`.
_jarrah() {{
    local -a commands options
{walk}    commands=(
{commands}
    )
    case $command in
{cases}
    esac
    if [[ $PREFIX == -* || $command == help || $command == completion ]]; then
        compadd -a options
    elif [[ -z $command ]]; then
        _describe command commands
    else
        _files
    fi
}}
if [[ $funcstack[1] == _jarrah ]]; then
    _jarrah "$@"
else
    compdef _jarrah jarrah
fi
"""
SHELLS = ("bash", "zsh")


def options_of(parser: ArgumentParser) -> dict[str, bool]:
    """The options in a help text, and whether each takes a value."""
    columns = [found.group(1) for found in OPTION.finditer(parser.format_help())]
    return {name: bool(VALUE.search(column)) for column in columns for name in NAME.findall(column)}


def choices(top: ArgumentParser, commands: Mapping[str, ArgumentParser]) -> dict[str, list[str]]:
    """What may stand behind each command; behind none, the commands and the options of all."""
    said = {name: list(options_of(command)) for name, command in commands.items()}
    said["help"] += list(commands)
    said["completion"] += SHELLS
    return {"": [*commands, *options_of(top)], **said}


def walk(top: ArgumentParser, is_zsh: bool) -> str:
    """The lines that find the command."""
    valued = "|".join(name for name, has_value in options_of(top).items() if has_value)
    if is_zsh:
        return WALK.format(first=2, current="CURRENT", words="words", close="", valued=valued)
    return WALK.format(first=1, current="COMP_CWORD", words="{COMP_WORDS", close="}", valued=valued)


def bash_script(top: ArgumentParser, commands: Mapping[str, ArgumentParser]) -> str:
    """The script for bash."""
    said = choices(top, commands)
    cases = [f'    "{name}") words="{" ".join(some)}" ;;' for name, some in said.items()]
    return BASH.format(walk=walk(top, False), cases="\n".join(cases))


def zsh_script(top: ArgumentParser, commands: Mapping[str, ArgumentParser]) -> str:
    """The script for zsh, which tells what each command does."""
    said = choices(top, commands)
    said[""] = list(options_of(top))
    cases = [f'    "{name}") options=({" ".join(some)}) ;;' for name, some in said.items()]
    told = [f"        {quoted(f'{name}:{one.description}')}" for name, one in commands.items()]
    return ZSH.format(walk=walk(top, True), commands="\n".join(told), cases="\n".join(cases))


def quoted(text: str) -> str:
    """A word of a shell that stands for this text."""
    return "'" + text.replace("'", "'\\''") + "'"
