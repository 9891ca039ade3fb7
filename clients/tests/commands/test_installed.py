"""What the client says of itself, the words that a shell completes, and its package by pip."""

from __future__ import annotations

import os
import shutil
import subprocess
import sys
import tempfile
import unittest
from pathlib import Path

from jarrah_client import VERSION
from jarrah_client.cli import parser
from jarrah_client.terminal.completion import options_of

from ..harness import ENVIRONMENT, TOP, jarrah_process

COMMANDS = parser().get_default("commands")
PYTHONS = (sys.executable, "/usr/bin/python3")
HAS_ALL = """
from importlib.util import find_spec
raise SystemExit(not all(map(find_spec, ("pip", "setuptools", "wheel"))))
"""
MACROS = (".TH ", ".SH ", ".SS ", ".nf", ".fi")
BASH = """
eval "$1"; shift
COMP_WORDS=("$@") COMP_CWORD=$(($# - 1))
_jarrah
printf '%s\\n' "${COMPREPLY[@]}"
"""
"""Completes the last of some words."""
ZSH = """
compdef() { }
compadd() { print -l -- ${(P)2} }
_describe() { print -l -- ${${(P)2}%%:*} }
_files() { print files }
eval "$1"; shift
words=("$@") CURRENT=$# PREFIX=$words[-1]
_jarrah
"""
"""The same, with what zsh would choose from."""


class Said(unittest.TestCase):
    """What the client says of itself, with no server."""

    def test_help(self):
        for words, same in ((["help"], ["--help"]), (["help", "policy"], ["policy", "--help"])):
            with self.subTest(words=words):
                ran, wanted = jarrah_process(*words), jarrah_process(*same)
                self.assertEqual((ran.status, ran.out), (0, wanted.out))
                self.assertIn("usage: jarrah", ran.out)
        ran = jarrah_process("help", "nothing")
        self.assertEqual(ran.status, 2)
        self.assertIn("there is no command nothing: `jarrah help` tells them", ran.err)

    def test_page(self):
        ran = jarrah_process("help", "--man")
        self.assertEqual(ran.status, 0)
        lines = ran.out.splitlines()
        self.assertEqual(lines[0], f'.TH JARRAH 1 "" "jarrah {VERSION}"')
        for line in lines:
            self.assertTrue(not line.startswith((".", "'")) or line.startswith(MACROS), line)
        heads = [line.replace("\\-", "-") for line in lines if line.startswith(".SS ")]
        self.assertEqual(heads, [f".SS {name}" for name in COMMANDS])

    @unittest.skipUnless(shutil.which("groff"), "groff isn't there")
    def test_page_is_shown(self):
        page = jarrah_process("help", "--man").out.encode()
        words = ["groff", "-man", "-Tutf8", "-ww"]
        done = subprocess.run(words, input=page, capture_output=True, timeout=100)
        self.assertEqual((done.returncode, done.stderr), (0, b""))
        self.assertIn(b"import-git", done.stdout)


class Completion(unittest.TestCase):
    """Words that a shell completes."""

    def completed(self, shell: str, runs: str, *words: str) -> list[str]:
        ran = jarrah_process("completion", shell)
        self.assertEqual(ran.status, 0, ran.err)
        command = [shell, "-c", runs, shell, ran.out, "jarrah", *words]
        done = subprocess.run(command, capture_output=True, text=True, timeout=100)
        self.assertEqual(done.stderr, "")
        return done.stdout.split()

    def test_options_are_the_parsers(self):
        for name, command in COMMANDS.items():
            with self.subTest(command=name):
                self.assertEqual(set(options_of(command)), set(command._option_string_actions))
                for option, has_value in options_of(command).items():
                    action = command._option_string_actions[option]
                    self.assertEqual(has_value, action.nargs != 0, option)

    @unittest.skipUnless(shutil.which("bash"), "bash isn't there")
    def test_bash(self):
        for words, wanted in (
            (["rev"], ["revert"]),
            (["--server", "commit", "rev"], ["revert"]),
            (["--serv"], ["--server"]),
            (["commit", "main", "--se"], ["--server", "--set"]),
            (["help", "import"], ["import-git"]),
            (["completion", "z"], ["zsh"]),
            (["ls", "re"], []),
        ):
            with self.subTest(words=words):
                self.assertEqual(sorted(self.completed("bash", BASH, *words)), wanted)

    @unittest.skipUnless(shutil.which("zsh"), "zsh isn't there")
    def test_zsh(self):
        self.assertEqual(self.completed("zsh", ZSH, "rev"), list(COMMANDS))
        options = list(options_of(COMMANDS["commit"]))
        self.assertEqual(self.completed("zsh", ZSH, "commit", "--se"), options)
        self.assertEqual(self.completed("zsh", ZSH, "ls", "re"), ["files"])
        self.assertIn("import-git", self.completed("zsh", ZSH, "help", "imp"))


def packing_python() -> str | None:
    """A Python that makes packages with what it has."""
    for python in PYTHONS:
        words = [python, "-c", HAS_ALL]
        if shutil.which(python) and not subprocess.run(words, capture_output=True).returncode:
            return python
    return None


class Package(unittest.TestCase):
    """`pip install` without a network."""

    def test_install(self):
        python = packing_python()
        if not python:
            self.skipTest("no Python here has pip, setuptools and wheel")
        folder = Path(tempfile.mkdtemp(prefix="jarrah-package-"))
        self.addCleanup(shutil.rmtree, folder)
        ignored = shutil.ignore_patterns("__pycache__", "tests", "build", "*.egg-info")
        shutil.copytree(TOP / "clients", folder / "clients", ignore=ignored)
        words = ["--no-build-isolation", "--no-index", "--no-compile", "--target", folder / "site"]
        subprocess.run(
            [python, "-m", "pip", "install", "-q", *words, folder / "clients"],
            check=True,
            capture_output=True,
            timeout=600,
        )
        source, site = folder / "clients" / "jarrah_client", folder / "site" / "jarrah_client"
        self.assertEqual(files_in(site), files_in(source))
        self.assertIn(Path("py.typed"), files_in(site))
        self.said_by(folder / "site", [python, folder / "site" / "bin" / "jarrah"])
        self.said_by(folder / "site", [python, "-m", "jarrah_client"])

    def said_by(self, site: Path, command: list[str | Path]) -> None:
        """The installed program says its version."""
        environment = {**ENVIRONMENT, "PYTHONPATH": str(site), "PATH": os.environ["PATH"]}
        words = [*command, "--version"]
        done = subprocess.run(words, capture_output=True, text=True, env=environment, cwd=site)
        self.assertEqual((done.returncode, done.stdout), (0, f"jarrah {VERSION}\n"), done.stderr)


def files_in(folder: Path) -> dict[Path, bytes]:
    """The files of a folder by their paths."""
    found = (path for path in folder.rglob("*") if path.is_file())
    return {
        path.relative_to(folder): path.read_bytes()
        for path in found
        if "__pycache__" not in path.parts
    }
