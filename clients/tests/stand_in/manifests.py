"""Manifests from scratch: fsnodes, unodes, deleted nodes and the history of files."""

from __future__ import annotations

import struct
from dataclasses import dataclass, field
from functools import lru_cache

from .spelling import Record, Refusal, Set, digest, summary_bytes
from .trees import Tree, fronts, tree_after


@dataclass
class Node:
    """A node of a tree: a directory with its names, or a file."""

    file: Set | None = None
    names: dict[str, Node] = field(default_factory=dict)


@dataclass
class Past:
    """The unodes of one changeset by path: id, bytes, and whether it is a file."""

    nodes: dict[str, tuple[str, bytes, bool]]
    tree: Tree
    gone: dict[str, str]
    """Of each path that was a file and isn't now, the changeset that took it away last."""


def nested(tree: dict[str, Set]) -> Node:
    root = Node()
    for path, file in tree.items():
        at = root
        for element in path.split("/"):
            at = at.names.setdefault(element, Node())
        at.file = file
    return root


def rising(node: Node) -> list[tuple[str, Node]]:
    return sorted(node.names.items(), key=lambda entry: entry[0].encode())


def name_bytes(name: str) -> bytes:
    data = name.encode()
    return bytes((len(data),)) + data


def fsnodes(tree: dict[str, Set]) -> dict[str, bytes]:
    """The fsnode of each directory of a tree, by path; the root is the empty text."""
    found: dict[str, bytes] = {}

    def visit(node: Node, path: str) -> tuple[str, tuple[int, ...]]:
        files = [below.file for below in node.names.values() if below.file]
        entries, below_files, below_size = [], len(files), sum(f.size for f in files)
        for name, below in rising(node):
            if below.file:
                file = below.file
                rest = struct.pack(">BBQ", 0, file.kind, file.size) + bytes.fromhex(file.content)
            else:
                id, inner = visit(below, f"{path}/{name}" if path else name)
                below_files += inner[3]
                below_size += inner[4]
                rest = b"\x01" + bytes.fromhex(id) + summary_bytes(inner)
            entries.append(name_bytes(name) + rest)
        directories = len(entries) - len(files)
        own = (len(files), sum(f.size for f in files), directories, below_files, below_size)
        head = b"\x46\x01" + summary_bytes(own) + struct.pack(">I", len(entries))
        found[path] = head + b"".join(entries)
        return digest(found[path]), own

    visit(nested(tree), "")
    return found


def past_after(parents: list[Past], record: Record) -> Past:
    """The unodes of a changeset: new where it touches or its parents differ, else theirs."""
    tree = tree_after([parent.tree for parent in parents], record)
    link = bytes.fromhex(record.id)
    above_touched = {front for path in record.touched for front in fronts(path)}
    nodes: dict[str, tuple[str, bytes, bool]] = {}

    def before(path: str, is_file: bool) -> dict[str, tuple[str, bytes, bool]]:
        """The nodes of the path at the parents, each once, by their ids."""
        there = [parent.nodes[path] for parent in parents if path in parent.nodes]
        return {node[0]: node for node in there if node[2] == is_file}

    def visit(node: Node, path: str) -> None:
        for name, below in node.names.items():
            visit(below, f"{path}/{name}" if path else name)
        is_file = node.file is not None
        old = before(path, is_file)
        if is_file:
            is_new = record.set_at(path) is not None
        else:
            is_new = not path or path in above_touched
        if not is_new and len(old) == 1:
            nodes[path] = next(iter(old.values()))
            return
        parent_ids = bytes((len(old),)) + b"".join(map(bytes.fromhex, old))
        if node.file:
            data = b"\x56\x01" + parent_ids + bytes.fromhex(node.file.content)
            data += bytes((node.file.kind,)) + bytes.fromhex(digest(path.encode())) + link
        else:
            data = b"\x55\x01" + parent_ids + link + struct.pack(">I", len(node.names))
            for name, below in rising(node):
                id, _, below_is_file = nodes[f"{path}/{name}" if path else name]
                data += (
                    name_bytes(name) + (b"\x00" if below_is_file else b"\x01") + bytes.fromhex(id)
                )
        nodes[path] = (digest(data), data, is_file)

    visit(nested(tree), "")
    return Past(nodes, tree, gone_after(parents, record.id, tree))


def gone_after(parents: list[Past], id: str, tree: Tree) -> dict[str, str]:
    """What is taken away at a changeset with this tree, by its first parent's past."""
    if not parents:
        return {}
    gone = parents[0].gone | dict.fromkeys(parents[0].tree, id)
    return {path: link for path, link in gone.items() if path not in tree}


def deleted_nodes(gone: dict[str, str]) -> dict[str, bytes]:
    """The deleted node of each path that has one, by path; the root is the empty text."""
    below: dict[str, set[str]] = {"": set()}
    for path in gone:
        for front, longer in zip(["", *fronts(path)], [*fronts(path), path]):
            below.setdefault(front, set()).add(longer)
    found: dict[str, bytes] = {}
    for path in sorted({*below, *gone}, key=lambda path: -len(path)):
        link = b"\x01" + bytes.fromhex(gone[path]) if path in gone else b"\x00"
        entries = sorted(below.get(path, ()), key=lambda one: one.rpartition("/")[2].encode())
        rest = [name_bytes(p.rpartition("/")[2]) + bytes.fromhex(digest(found[p])) for p in entries]
        found[path] = b"\x44\x01" + link + struct.pack(">I", len(rest)) + b"".join(rest)
    return found


class Manifests:
    """Manifests of changesets. `chain(id)` gives a changeset and its first parents, and
    `ancestors(id)` it and all that it reaches through parents, the oldest first."""

    def __init__(self, chain, ancestors, changeset):
        self.chain = chain
        self.ancestors = ancestors
        self.changeset = changeset
        self.tree = lru_cache(None)(self.fold)
        self.past = lru_cache(None)(self.derive)
        self.fsnodes = lru_cache(64)(lambda id: fsnodes(self.past(id).tree))

    def fold(self, id: str) -> Tree:
        """The tree of a changeset, its parents' being there."""
        record = self.changeset(id)
        return tree_after([self.tree(parent) for parent in record.parents], record)

    def tree_at(self, id: str) -> Tree:
        """The tree of a changeset, those of all ancestors first."""
        for record in self.ancestors(id):
            self.tree(record.id)
        return self.tree(id)

    def derive(self, id: str) -> Past:
        """The manifests of a changeset, its parents' being there."""
        record = self.changeset(id)
        return past_after([self.past(parent) for parent in record.parents], record)

    def prepare(self, id: str) -> None:
        """Derives all ancestors first, so that no derivation goes deep."""
        for record in self.ancestors(id):
            self.past(record.id)

    def fsnode(self, id: str, directory: str) -> bytes:
        self.prepare(id)
        found = self.fsnodes(id).get(directory)
        if found is None:
            known = directory in self.past(id).tree
            raise Refusal(404, "not-a-dir" if known else "no-path")
        return found

    def unode(self, id: str, path: str) -> bytes:
        self.prepare(id)
        found = self.past(id).nodes.get(path)
        if found is None:
            raise Refusal(404, "no-path")
        return found[1]

    def deleted(self, id: str, path: str) -> bytes:
        self.prepare(id)
        found = deleted_nodes(self.past(id).gone).get(path)
        if found is None:
            raise Refusal(404, "no-path")
        return found

    def path_log(self, id: str, path: str) -> list[str]:
        """The changesets of the chain that set a path or took it away, newest first."""
        self.prepare(id)
        found = [record.id for record in self.chain(id) if self.is_logged(record, path)]
        if not found:
            raise Refusal(404, "no-path")
        return found[::-1]

    def is_logged(self, record: Record, path: str) -> bool:
        before = self.past(record.parents[0]).tree if record.parents else {}
        after = self.past(record.id).tree
        return record.set_at(path) is not None or before.get(path) != after.get(path)

    def history(self, id: str, path: str) -> list[str]:
        """The changesets that made the file's unode and those it reaches, the last known first."""
        self.prepare(id)
        found = self.past(id).nodes.get(path)
        if found is None:
            raise Refusal(404, "no-path")
        if not found[2]:
            raise Refusal(404, "not-a-file")
        reached: set[str] = set()
        waiting = [linknode(found[1])]
        while waiting:
            link = waiting.pop()
            if link not in reached:
                reached.add(link)
                pasts = [self.past(parent) for parent in self.changeset(link).parents]
                waiting += [linknode(past.nodes[path][1]) for past in pasts if path in past.tree]
        return [record.id for record in self.ancestors(id)[::-1] if record.id in reached]


def linknode(file_unode: bytes) -> str:
    """The changeset that made the unode of a file."""
    return file_unode[-32:].hex()
