"""Opening a file beside openssl's SHA-256 of it."""

from __future__ import annotations

import random
import statistics
from collections.abc import Iterator
from pathlib import Path

from .journal import ROOT, Journal, drafted
from .link import opened
from .peers import openssl_hash
from .process import ratio
from .row import Bench, Figure
from .upload import known

KIB = 1_024
TINY_BYTES = 12
GATE_BYTES = 6
"""Of a record beside its payload and that of a content beside its bytes: a gate, 4, a mark."""
OWN_KIB = 100
MIXED_BYTES = (100, 1_000, 10_000, 100_000)
PATHS = 10


def tiny_file(file: Path, size: int) -> Path:
    """A file of about so many bytes, of contents of 12 bytes."""
    with Journal(file) as journal:
        for number in range(size // (TINY_BYTES + GATE_BYTES)):
            journal.record(b"\x42%012d" % number)
    return file


def mixed_file(file: Path, size: int) -> Path:
    """Contents of 100 bytes to 100 KB, and for every four two drafts on one head with their
    landings, of which the first stays as it is."""
    source = random.Random(1)
    block = source.randbytes(max(MIXED_BYTES))
    with Journal(file) as journal:
        journal.bookmark("main", ROOT.id)
        head, number = ROOT.id, 0
        while journal.out.tell() < size:
            sizes = enumerate(MIXED_BYTES)
            marked = [b"%8d%4d" % (number, at) + block[12:it] for at, it in sizes]
            set_to = [journal.content(it) for it in marked]
            changes = {f"d{number:05}/f{at}": set_to[at % len(set_to)] for at in range(PATHS)}
            draft = journal.changeset(drafted(head, "a draft", changes))
            other = journal.changeset(drafted(head, "other", {f"e{number:05}": set_to[0]}))
            head = journal.landing("main", head, draft).id
            head = journal.landing("main", head, other).id
            number += 1
    return file


def own_hash(bench: Bench) -> float:
    """The processor seconds a KiB in which the program takes a known content."""
    with Journal(file := bench.folder / "own"):
        pass
    data = random.Random(2).randbytes(OWN_KIB * KIB)
    with bench.program.serve(file) as served:
        times = max(2, bench.choose(2_000, 500))
        cost = known(opened(served.address), served.pid, [data], times)
    return cost.processor / cost.count / OWN_KIB


def opening(bench: Bench) -> Iterator[Figure | str]:
    sizes = {"tiny": bench.choose(102_400, 10_240), "mixed": bench.choose(1_048_576, 102_400)}
    makers = {"tiny": tiny_file, "mixed": mixed_file}
    named = {"tiny": "of 12-byte contents", "mixed": "mixed"}
    own = own_hash(bench)
    wanted = {"tiny": "at most 4", "mixed": "at most 1.2"}
    for kind, size in sizes.items():
        file = makers[kind](bench.folder / kind, size * KIB)
        openings, hashes = [], []
        for _ in range(bench.choose(5, 3)):
            hashes.append(openssl_hash(file))
            openings.append(bench.program.opening(file).processor)
        taken = file.stat().st_size / KIB
        file.unlink()
        took = statistics.median(openings)
        if hashes[0] is None:
            yield "openssl isn't installed, so this has no ratio"
            hashed = 0.0
        else:
            hashed = statistics.median(it.processor for it in hashes)
            yield Figure(f"openssl's SHA-256 of {size:,} KiB", hashed, "s of processor", 1.0)
        what = f"opening {size:,} KiB {named[kind]}"
        yield Figure(what, took, "s of processor", ratio(took, hashed), wanted[kind])
        known_bytes = own * taken
        yield Figure("as many bytes uploaded as known contents", known_bytes, "s of processor", 1.0)
        yield Figure(what, took, "s of processor", ratio(took, known_bytes))
