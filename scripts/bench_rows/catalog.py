"""The rows, by their names."""

from __future__ import annotations

from . import (
    answers,
    beside,
    calls,
    following,
    kept,
    landings,
    large,
    memory,
    merging,
    migrating,
    names,
    opening,
    paths,
    policies,
    pushing,
    ranges,
    seals,
    upload,
)
from .row import Row

LISTED = (
    Row("landings", "stacks a second, beside the raw log of the same appends", landings.stacks),
    Row("seals", "landings of drafts that lie ready, and their syncs", seals.landings, 2),
    Row("reads-beside", "reads while others land, at syncs of several lengths", beside.reads),
    Row("range", "landing over 9,990 changesets, beside one over 1", ranges.landing),
    Row("range-opening", "opening such landings, beside those over 1", ranges.opening),
    Row("names", "reads of one name in wide directories, beside the root", names.reads),
    Row("commit", "a commit in a directory of 10,000, beside hashing its nodes", names.commit),
    Row("policy", "landing 4,096 paths under 1,000 rules, beside no rule", policies.landings),
    Row("pathlog", "a log of a path over 10,000 commits, beside history", paths.logs),
    Row("opening", "opening 100 MiB and 1 GiB, beside openssl's SHA-256", opening.opening),
    Row("contents", "upload of 1 MiB, new and known, beside hashing it", upload.contents),
    Row("large", "64 MiB in pieces, joined and read, beside hashing it", large.contents),
    Row("merges", "uploads of merges of 100,000 files that differ in ten", merging.uploads),
    Row("migrate", "migrate of 1 GiB, beside one read and one write of it", migrating.migration),
    Row("follow", "following a server of 100,000 entries, beside opening them", following.follows),
    Row("changesets", "uploads of changesets, and landings, beside contents", upload.changesets),
    Row("reads", "small reads, 16 at once, beside hello-world servers", answers.small),
    Row("connects", "small reads, each on a connection of its own", answers.connects),
    Row("calls", "calls of the system a small read, beside those it needs", calls.calls),
    Row("log", "log pages of 100, beside servers of the same bytes", answers.page),
    Row("memory", "bytes of an entry and of an idle connection", memory.rows),
    Row("push", "20 contents and 5 changesets landed, by one request and by many", pushing.pushes),
    Row("import", "import of 3,000 commits, beside git's own and Mercurial's", pushing.imports),
    Row("kept", "1,000 kept connections, and 2,000 silent ones", kept.rows),
)
ROWS = {row.name: row for row in LISTED}
