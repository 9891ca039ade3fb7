"""Policies: who may change what."""

from __future__ import annotations

from dataclasses import dataclass

from .spelling import Refusal, above, is_name, path_place

MOST_POLICY = 65_536
MOST_RULES = 1_000
NOBODY = "anonymous"


@dataclass(frozen=True)
class Rule:
    """Whether a rule allows, whom it speaks of (None: everybody), and under which path."""

    allows: bool
    name: str | None
    path: str

    def matches(self, caller: str, path: str) -> bool:
        speaks = self.name is None or self.name == caller
        return speaks and (not self.path or self.path == path or above(self.path, path))


def read_rule(line: bytes) -> Rule | None:
    """The rule that a line spells."""
    words = line.split(b" ", 2)
    if len(words) != 3 or words[0] not in (b"allow", b"deny"):
        return None
    name, path = words[1:]
    if name != b"*" and not is_name(name):
        return None
    if path != b"/" and path_place(path) is not None:
        return None
    who = None if name == b"*" else name.decode()
    return Rule(words[0] == b"allow", who, "" if path == b"/" else path.decode())


def read_policy(text: bytes) -> list[Rule]:
    """The rules of a policy's text, or the refusal of its first bad line."""
    if not text or len(text) > MOST_POLICY:
        raise Refusal(422, "bad-policy", line=0)
    lines = text.split(b"\n")
    rules: list[Rule] = []
    for number, line in enumerate(lines[:-1]):
        rule = None if number == MOST_RULES else read_rule(line)
        if rule is None:
            raise Refusal(422, "bad-policy", line=number)
        rules.append(rule)
    if lines[-1]:
        raise Refusal(422, "bad-policy", line=len(lines) - 1)
    return rules


def refuse_denied(rules: list[Rule] | None, caller: str, paths: list[str]) -> None:
    """Refuses the first of rising paths that the rules don't allow the caller."""
    if rules is None:
        return
    for path in paths:
        found = next((at for at, rule in enumerate(rules) if rule.matches(caller, path)), None)
        if found is None or not rules[found].allows:
            raise Refusal(403, "denied", path=path, rule=found)
