"""Lines that a log draws to parents."""

from __future__ import annotations

from jarrah_client.history.graph import Graph

from ..git_dag import Dag
from ..harness import Case, fresh, jarrah


class Node:
    """What is drawn of a changeset: its name and its parents'."""

    def __init__(self, id: str, *parents: str):
        self.id, self.parents = id, parents


def drawn(*rows: tuple[str, ...]) -> list[str]:
    graph = Graph()
    return [line for row in rows for line in graph.drawn(Node(*row), [row[0]])]


class Graphs(Case):
    """Lines that lead from changesets to their parents."""

    def test_a_line(self):
        self.assertEqual(drawn(("b", "a"), ("a",)), ["* b", "* a"])

    def test_a_merge(self):
        found = drawn(("m", "x", "y"), ("y", "b"), ("x", "b"), ("b",))
        self.assertEqual(found, ["* m", "|\\", "| * y", "* | x", "|/", "* b"])

    def test_criss_cross(self):
        tops = (("t", "n", "m"), ("n", "y", "x"), ("m", "x", "y"))
        found = drawn(*tops, ("y", "b"), ("x", "b"), ("b",))
        aside = ["* t", "|\\", "* | n", "|\\|", "| |\\", "| * | m", "| |/", "|/|"]
        self.assertEqual(found, [*aside, "* | y", "| * x", "|/", "* b"])

    def test_roots_and_several_lines(self):
        graph = Graph()
        lines = list(graph.drawn(Node("b", "a"), ["b", "more", "", "end"]))
        lines += graph.drawn(Node("o"), ["o", "more"])
        wanted = ["* b", "| more", "|", "| end", "| * o", "|   more"]
        self.assertEqual(lines, wanted)

    def test_lanes_wait_for_what_is_to_come(self):
        for seed in range(30):
            commits = Dag(seed, 60).commits
            graph, waited = Graph(), set()
            for number in range(len(commits) - 1, -1, -1):
                parents = [str(it) for it in commits[number].parents]
                lines = list(graph.drawn(Node(str(number), *parents), [str(number)]))
                self.assertEqual(["*" in line for line in lines].count(True), 1)
                waited = (waited - {str(number)}) | set(parents)
                lanes = [lane for lane in graph.lanes if lane is not None]
                self.assertEqual((len(lanes), set(lanes)), (len(waited), waited))
            self.assertEqual(graph.lanes, [])

    def test_a_log(self):
        self.server = self.merging()
        name = fresh()
        dag = Dag(10, 12)
        dag.make(self.folder / "repository")
        self.ok("import-git", self.folder / "repository", name, "--marks", self.folder / "marks")
        merges = sum(len(commit.parents) == 2 for commit in dag.commits)
        lines = self.ok("log", name, "--graph", "--oneline").out.splitlines()
        self.assertEqual(sum("*" in line for line in lines), len(dag.commits))
        whole = self.ok("log", name, "--graph").out
        self.assertEqual(whole.count("parents   "), merges)
        self.assertEqual(self.ok("log", name, "--graph", "-n", "3", "--oneline").out.count("*"), 3)
        told = {one["id"] for one in self.ok("--json", "log", name, "--graph").documents}
        plain = {one["id"] for one in self.ok("--json", "log", name).documents}
        self.assertTrue(plain < told)
        self.assertEqual(len(told), len(dag.commits))
        ran = jarrah("log", name, "--graph", "--path", "a", server=self.server)
        self.assertEqual((ran.status, ran.err.count("\n")), (2, 1))
