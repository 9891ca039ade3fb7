"""Differences of two texts, line by line, and the merge of three."""

from __future__ import annotations

import subprocess
import tempfile
from collections.abc import Iterator
from dataclasses import dataclass
from pathlib import Path

from ..formats.paths import is_text
from ..terminal.colours import BOLD, CYAN, GREEN, RED, Painted, painted
from .matching import MOST_STEPS, Matcher, places

CONTEXT = 3
COLOURS = {"-": RED, "+": GREEN, "@": CYAN}
MARKS = (b"<<<<<<< ", b"=======", b">>>>>>> ")
NO_END = "\\ No newline at end of file"


@dataclass(frozen=True)
class Hunk:
    """Lines that differ, with some around them. Line numbers count from 1."""

    old_start: int
    old_count: int
    new_start: int
    new_count: int
    lines: list[tuple[str, str]]
    """Each with ` `, `-` or `+`, and without its line end."""


def text_of(data: bytes) -> str | None:
    """The text of some bytes, or None where they are none."""
    return data.decode() if b"\x00" not in data and is_text(data) else None


def lines_of(text: str) -> list[str]:
    """The lines of a text with their ends; a line ends in LF alone."""
    pieces = text.split("\n")
    return [f"{piece}\n" for piece in pieces[:-1]] + ([pieces[-1]] if pieces[-1] else [])


def hunks(old: str, new: str, most_steps: int = MOST_STEPS) -> Iterator[Hunk]:
    """The hunks of two texts, which never take long: by difflib where it takes few steps."""
    left, right = lines_of(old), lines_of(new)
    for group in Matcher(left, right, most_steps).get_grouped_opcodes(CONTEXT):
        first, last = group[0], group[-1]
        lines: list[tuple[str, str]] = []
        for tag, i, j, k, m in group:
            if tag == "equal":
                lines += told(" ", left[i:j])
                continue
            lines += told("-", left[i:j])
            lines += told("+", right[k:m])
        yield Hunk(
            begin(first[1], last[2]),
            last[2] - first[1],
            begin(first[3], last[4]),
            last[4] - first[3],
            lines,
        )


def begin(start: int, end: int) -> int:
    """The number of a stretch's first line; of an empty one that of the line before it."""
    return start + 1 if end > start else start


def told(tag: str, lines: list[str]) -> Iterator[tuple[str, str]]:
    """Lines with their tag; a last one without an end is followed by the words that say so."""
    for line in lines:
        yield tag, line.removesuffix("\n")
        if not line.endswith("\n"):
            yield "\\", NO_END[2:]


def counts(found: list[Hunk]) -> tuple[int, int]:
    """How many lines were added and deleted."""
    tags = [tag for hunk in found for tag, _ in hunk.lines]
    return tags.count("+"), tags.count("-")


def unified(path: str, old: bytes | None, new: bytes | None) -> Iterator[Painted]:
    """Two states of a file as a unified diff, its lines one by one."""
    left, right = text_of(old or b""), text_of(new or b"")
    if left is None or right is None:
        sizes = [None if data is None else len(data) for data in (old, new)]
        yield from sizes_alone(path, sizes[0], sizes[1])
        return
    yield from heads(path, old is not None, new is not None)
    for hunk in hunks(left, right):
        places = (span(hunk.old_start, hunk.old_count), span(hunk.new_start, hunk.new_count))
        yield painted(COLOURS["@"], f"@@ -{places[0]} +{places[1]} @@")
        for tag, line in hunk.lines:
            yield painted(COLOURS.get(tag, ""), NO_END if tag == "\\" else tag + line)


def sizes_alone(path: str, old: int | None, new: int | None) -> Iterator[Painted]:
    """The same of a file that has no lines, or is too large to have them compared."""
    yield from heads(path, old is not None, new is not None)
    yield painted("", f"the bytes differ: {old or 0:,} before, {new or 0:,} after")


def heads(path: str, was_there: bool, is_there: bool) -> Iterator[Painted]:
    """The lines that name a file on both sides."""
    yield painted(BOLD, f"--- {'a/' + path if was_there else '/dev/null'}")
    yield painted(BOLD, f"+++ {'b/' + path if is_there else '/dev/null'}")


def span(start: int, count: int) -> str:
    """A stretch of lines in a hunk's head; the count of one line is left out."""
    return str(start) if count == 1 else f"{start},{count}"


def merged(base: bytes, ours: bytes, theirs: bytes, names: tuple[str, str]) -> tuple[bytes, bool]:
    """The merge of two texts that began as one, and whether it is clean.

    Where it isn't, both are in it between marks. Bytes that are no text aren't merged: ours stay.
    """
    if any(text_of(data) is None for data in (base, ours, theirs)):
        return ours, False
    return by_git(base, ours, theirs, names) or by_lines(base, ours, theirs, names)


def by_git(
    base: bytes, ours: bytes, theirs: bytes, names: tuple[str, str]
) -> tuple[bytes, bool] | None:
    """The same by `git merge-file`, or None where there is no git."""
    with tempfile.TemporaryDirectory(prefix="jarrah-merge-") as folder:
        places = [str(Path(folder) / name) for name in ("ours", "base", "theirs")]
        for place, data in zip(places, (ours, base, theirs)):
            Path(place).write_bytes(data)
        labels = [word for name in (names[0], "base", names[1]) for word in ("-L", name)]
        words = ["git", "merge-file", "-p", *labels, *places]
        try:
            done = subprocess.run(words, capture_output=True, cwd=folder)
        except OSError:
            return None
    return (done.stdout, done.returncode == 0) if 0 <= done.returncode < 128 else None


def by_lines(
    base: bytes, ours: bytes, theirs: bytes, names: tuple[str, str]
) -> tuple[bytes, bool]:
    """The same by difflib: stretches of the base that one side alone changed are that side's."""
    lines = [lines_of(data.decode()) for data in (base, ours, theirs)]
    found: list[str] = []
    clean = True
    for before, left, right in stretches(*lines):
        if left == right or right == before:
            found += left
        elif left == before:
            found += right
        else:
            clean = False
            found += [f"<<<<<<< {names[0]}\n", *ended(left), "=======\n", *ended(right)]
            found += [f">>>>>>> {names[1]}\n"]
    return "".join(found).encode(), clean


def stretches(
    base: list[str], ours: list[str], theirs: list[str]
) -> Iterator[tuple[list[str], list[str], list[str]]]:
    """The three texts cut where a line of the base is in both others."""
    left, right = places(base, ours), places(base, theirs)
    at = (0, 0, 0)
    for number in range(len(base) + 1):
        whole = number == len(base)
        if not whole and (number not in left or number not in right):
            continue
        here = (number, len(ours), len(theirs)) if whole else (number, left[number], right[number])
        if here != at:
            yield base[at[0] : here[0]], ours[at[1] : here[1]], theirs[at[2] : here[2]]
        if not whole:
            yield [base[number]], [base[number]], [base[number]]
        at = (here[0] + 1, here[1] + 1, here[2] + 1)


def ended(lines: list[str]) -> list[str]:
    """Lines of which the last has its end too."""
    return [line if line.endswith("\n") else f"{line}\n" for line in lines]


def has_marks(data: bytes) -> bool:
    """Whether the marks of a conflict are in some bytes."""
    lines = data.split(b"\n")
    return all(any(line.startswith(mark) for line in lines) for mark in MARKS)
