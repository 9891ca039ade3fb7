"""The options of each subcommand: those of its parser, each of its type, and no other."""

from __future__ import annotations

import argparse
import unittest
from argparse import Namespace
from collections.abc import Iterator
from dataclasses import dataclass, fields
from typing import Any, get_type_hints

from jarrah_client.cli import parser
from jarrah_client.commands.given import COMMON, PASSED, Common, Options, common_of, filled

TOP = parser()
COMMANDS = TOP.get_default("commands")


def actions(one: argparse.ArgumentParser) -> Iterator[argparse.Action]:
    """What a parser's own words are kept by."""
    return (it for it in one._actions if it.dest not in ("help", "version", "command"))


def type_of(action: argparse.Action) -> Any:
    """The type of what is found for an option."""
    if isinstance(action.default, bool):
        return bool
    one = action.type or str
    found = one if isinstance(one, type) else get_type_hints(one)["return"]
    if action.nargs in ("*", "+") or isinstance(action, argparse._AppendAction):
        found = list[found]
    is_there = action.required or action.default is not None or action.nargs == "*"
    return found if is_there else found | None


@dataclass(frozen=True)
class Some(Options):
    """Options of a test."""

    path: str
    fold: bool


class Given(unittest.TestCase):
    """What the parsers find, and what the subcommands take."""

    def test_each_option_and_no_other(self):
        for name, one in COMMANDS.items():
            with self.subTest(command=name):
                said = {it.dest for it in actions(one)}
                self.assertLessEqual(set(COMMON), said)
                kind = one.get_default("subcommand").kind
                known = {it.name for it in fields(kind)} - {"copy"}
                self.assertEqual(said - set(COMMON), known)
                self.assertFalse(known & PASSED)
        self.assertEqual({it.dest for it in actions(TOP)}, set(COMMON))

    def test_types(self):
        for name, one in COMMANDS.items():
            wanted = get_type_hints(one.get_default("subcommand").kind)
            for it in actions(one):
                if it.dest not in COMMON:
                    with self.subTest(command=name, option=it.dest):
                        self.assertEqual(wanted[it.dest], type_of(it))
        wanted = get_type_hints(Common)
        for it in actions(TOP):
            with self.subTest(option=it.dest):
                self.assertEqual(wanted[it.dest], type_of(it))

    def test_what_lacks_or_is_too_much(self):
        common = {name: None for name in COMMON}
        rest = common | {"command": "c", "commands": {}, "subcommand": None}
        self.assertEqual(filled(Some, Namespace(path="p", fold=True, **rest)), Some("p", True))
        for said in ({"path": "p"}, {"path": "p", "fold": True, "further": 1}):
            with self.assertRaises(TypeError):
                filled(Some, Namespace(**said, **rest))

    def test_common_ones_before_and_behind(self):
        for words in (["--server", "u", "log", "--json"], ["--json", "log", "--server", "u"]):
            found = common_of(TOP.parse_args(words))
            self.assertEqual((found.server, found.json, found.color), ("u", True, "auto"))
