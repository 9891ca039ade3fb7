"""The commits of a git branch, and which of them stand on which."""

from __future__ import annotations

from collections.abc import Container
from dataclasses import dataclass


@dataclass(frozen=True)
class GitGraph:
    """The commits that one reaches, each with its parents, which come before it."""

    tip: str
    parents: dict[str, tuple[str, ...]]

    def line(self) -> list[str]:
        """The first-parent line, the oldest first."""
        found = [self.tip]
        while self.parents[found[-1]]:
            found.append(self.parents[found[-1]][0])
        return found[::-1]

    def of_first_parents(self) -> GitGraph:
        """That line alone."""
        return GitGraph(self.tip, {oid: self.parents[oid][:1] for oid in self.line()})

    def to_come(self, known: Container[str]) -> list[str]:
        """What the tip reaches through first and second parents, but what known ones do."""
        found, waiting = set(), [self.tip]
        while waiting:
            oid = waiting.pop()
            if oid not in known and oid not in found:
                found.add(oid)
                waiting += self.parents[oid][:2]
        return [oid for oid in self.parents if oid in found]


class LostCommits:
    """What merges of more than two parents (octopuses) lead to by the others alone.

    Through first and second parents no commit is reached there, so none of it is imported.
    """

    def __init__(self, graph: GitGraph):
        self.graph = graph
        self.kept = set(graph.to_come(()))
        self.found: set[str] = set()
        """All that was lost so far; two octopuses may lead to the same commits."""

    def by(self, octopus: str) -> set[str]:
        """The commits that are lost by one of them."""
        lost: set[str] = set()
        waiting = list(self.graph.parents[octopus][2:])
        while waiting:
            oid = waiting.pop()
            if oid not in self.kept and oid not in lost:
                lost.add(oid)
                waiting += self.graph.parents[oid]
        self.found |= lost
        return lost
