"""The subcommand for a server's policy."""

from __future__ import annotations

import sys
from dataclasses import dataclass
from pathlib import Path
from typing import Any

from ..formats.policies import Rule, Warned, read_rules, warnings
from ..net.server import Server, Trouble
from ..terminal.output import Output, clean, counted
from .given import Command, CopyOptions
from .options import Add, natural


@dataclass(frozen=True)
class PolicyOptions(CopyOptions):
    """What `policy` is told."""

    set: str | None
    check: str | None
    entry: int | None


def add(add: Add) -> None:
    """Adds the subcommand."""
    how = Command(PolicyOptions, policy)
    one = add("policy", how, "tell, check or set who may land what, and move which bookmark")
    what = one.add_mutually_exclusive_group()
    what.add_argument(
        "--set", metavar="FILE", help="hold the rules of FILE (`-`: the standard input)"
    )
    what.add_argument(
        "--check",
        metavar="FILE",
        help="say whether FILE is a policy, and warn of what it leaves open; set nothing",
    )
    what.add_argument(
        "--entry", metavar="N", type=natural, help="tell the policy that this entry set"
    )


def policy(options: PolicyOptions, server: Server, out: Output) -> None:
    """Tells, checks or sets the policy."""
    if options.check is not None:
        check_policy(options.check, out)
        return
    if options.set is not None:
        set_policy(options.set, server, out)
        return
    tell_policy(server.policy(options.entry), options.entry, out)


def check_policy(name: str, out: Output) -> None:
    """Checks the rules of a file, and warns of what everybody may do by them, and nobody."""
    rules = read_rules(read(name))
    found = warnings(rules)
    document = {"rules": rows(rules), "warnings": [warning(one) for one in found]}
    out.tell(document, f"{name} has {counted(len(rules), 'rule')}")
    for one in [] if out.as_json else found:
        print(f"warning: {clean(one.text)}", file=sys.stderr)


def set_policy(name: str, server: Server, out: Output) -> None:
    """Checks the rules of a file, and has the server hold them."""
    text = read(name)
    rules = read_rules(text)
    number = server.set_policy(text)
    line = f"{counted(len(rules), 'rule')} held from entry {number:,} on"
    out.tell({"number": number, "rules": rows(rules)}, line)


def tell_policy(text: bytes | None, entry: int | None, out: Output) -> None:
    """Tells a policy's rules with their numbers, or that there is none."""
    if text is None:
        if entry is not None:
            raise Trouble(f"entry {entry:,} is no policy")
        out.tell({"rules": None}, "there is no policy: all is allowed")
        return
    rules = read_rules(text)
    lines = [f"{number:>4}  {rule.text}" for number, rule in enumerate(rules)]
    out.tell({"rules": rows(rules)}, lines)


def rows(rules: list[Rule]) -> list[dict[str, Any]]:
    """Rules for scripts."""
    return [{"word": rule.word, "name": rule.name, "path": rule.path} for rule in rules]


def warning(one: Warned) -> dict[str, Any]:
    """A warning for scripts."""
    return {"place": one.place, "rule": one.rule, "warning": one.text}


def read(name: str) -> bytes:
    """The bytes of a file, or of the standard input."""
    if name == "-":
        return sys.stdin.buffer.read()
    try:
        return Path(name).read_bytes()
    except OSError as fault:
        raise Trouble(f"{name} can't be read: {fault.strerror}") from None
