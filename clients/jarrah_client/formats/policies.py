"""A server's policy: who may change what."""

from __future__ import annotations

from dataclasses import dataclass

from ..refusals import Fault
from .paths import is_bookmark_name, path_fault

POLICY_PLACE = ".policy"
"""What a new policy is decided on."""
BOOKMARKS_PLACE = ".bookmarks"
"""The move of a bookmark is decided on its name under this."""
NO_CALLER = "anonymous"
"""Who asks where no caller is named."""
UNNAMED = "\0"
"""Stands for a bookmark that no rule names: no path has this byte."""
MOST_BYTES = 65_536
MOST_RULES = 1_000
WORDS = ("allow", "deny")


class BadPolicy(Fault):
    """A text that is no policy."""


@dataclass(frozen=True)
class Rule:
    """A line of a policy: `allow` or `deny`, a name or `*`, and a path or `/`."""

    word: str
    name: str
    path: str

    @property
    def text(self) -> str:
        return f"{self.word} {self.name} {self.path}"

    def speaks_of(self, caller: str | None, place: str) -> bool:
        """Whether it is of this caller, or of one whom no rule names (None), and of this place."""
        is_here = self.path in ("/", place) or place.startswith(f"{self.path}/")
        return self.name in ("*", caller) and is_here


@dataclass(frozen=True)
class Warned:
    """What a policy leaves open: where, and the number of the rule that decides, if one does."""

    place: str
    rule: int | None
    text: str


def read_rules(data: bytes) -> list[Rule]:
    """The rules of a policy's text, or BadPolicy with the first line that is wrong."""
    if not data:
        raise BadPolicy("the policy is empty; it has to have a rule")
    if len(data) > MOST_BYTES:
        raise BadPolicy(f"the policy has {len(data):,} bytes, over {MOST_BYTES:,}")
    *lines, rest = data.split(b"\n")
    rules = [read_rule(number, line) for number, line in enumerate(lines)]
    if rest:
        raise bad(len(lines), rest, "it doesn't end in a line feed")
    return rules


def read_rule(number: int, line: bytes) -> Rule:
    """The rule of a line with this number, from 0."""
    if number == MOST_RULES:
        raise bad(number, line, f"a policy has at most {MOST_RULES:,} rules")
    try:
        text = line.decode()
    except UnicodeDecodeError:
        raise bad(number, line, "it isn't UTF-8") from None
    words = text.split(" ", 2)
    if len(words) != 3:
        raise bad(number, line, "it isn't a word, a name and a path with one space between")
    word, name, path = words
    if word not in WORDS:
        raise bad(number, line, "it doesn't begin with `allow` or `deny`")
    if name != "*" and not is_bookmark_name(name):
        raise bad(number, line, "its name isn't `*`, nor 1 to 128 of A-Z a-z 0-9 _ . -")
    fault = None if path == "/" else path_fault(path.encode())
    if fault:
        raise bad(number, line, f"its path isn't `/`, and breaks a rule: {fault}")
    return Rule(word, name, path)


def bad(number: int, line: bytes, why: str) -> BadPolicy:
    """What is wrong with a line, which people count from 1."""
    return BadPolicy(f"line {number + 1} of the policy, `{shown(line)}`: {why}")


def shown(line: bytes) -> str:
    """A line as a person reads it."""
    return line.decode(errors="backslashreplace")


def rule_text(data: bytes, number: int) -> str | None:
    """The line of a rule in a policy's text, if it has so many."""
    lines = data.split(b"\n")[:-1]
    return shown(lines[number]) if number < len(lines) else None


def deciding(rules: list[Rule], caller: str | None, place: str) -> int | None:
    """The number of the rule that decides: the first one that speaks of a caller and of a place."""
    return next((at for at, rule in enumerate(rules) if rule.speaks_of(caller, place)), None)


def is_allowed(rules: list[Rule], caller: str | None, place: str) -> bool:
    """Whether a caller is allowed something. Where no rule speaks of it, nobody is."""
    number = deciding(rules, caller, place)
    return number is not None and rules[number].word == "allow"


def warnings(rules: list[Rule]) -> list[Warned]:
    """What a policy leaves open of who sets the next one, and of who moves bookmarks."""
    found = opened(rules, POLICY_PLACE, "set another policy") + locked(rules)
    rest = opened(rules, f"{BOOKMARKS_PLACE}/{UNNAMED}", "move bookmarks to any draft")
    if rest:
        return found + rest
    places = dict.fromkeys(rule.path for rule in rules if is_bookmark(rule.path))
    return found + [
        one for place in places for one in opened(rules, place, "move this bookmark to any draft")
    ]


def opened(rules: list[Rule], place: str, what: str) -> list[Warned]:
    """A warning where a caller whom no rule names may do something, or one who gives no name."""
    for caller, who in ((None, "any caller whom no rule names"), (NO_CALLER, "who gives no name")):
        number = deciding(rules, caller, place)
        if number is not None and rules[number].word == "allow":
            at = place.removesuffix(f"/{UNNAMED}")
            by = f"at {at} rule {number} decides: `{rules[number].text}`"
            return [Warned(at, number, f"{who} may {what}; {by}")]
    return []


def locked(rules: list[Rule]) -> list[Warned]:
    """A warning where no caller may set another policy."""
    callers = {None, *(rule.name for rule in rules if rule.name != "*")}
    if any(is_allowed(rules, caller, POLICY_PLACE) for caller in callers):
        return []
    text = "nobody may set another policy, so this one stays for good"
    return [Warned(POLICY_PLACE, deciding(rules, None, POLICY_PLACE), text)]


def is_bookmark(place: str) -> bool:
    """Whether a place is that of a bookmark."""
    above, _, name = place.partition("/")
    return above == BOOKMARKS_PLACE and is_bookmark_name(name)
