"""The drafts of a working copy as a stack: taken apart, put together, and in another order."""

from __future__ import annotations

from collections.abc import Iterable

from ..drafting import landing
from ..formats.changesets import Changeset
from ..net.contents import store_all
from ..net.server import Landed, Server, Trouble
from ..refusals import Refused
from ..trees.differences import differences
from ..trees.tree import tree_of
from .moves import keep, move
from .onto import Onto, hold, put_onto
from .rebase import Rebased, go_on, need_clean, placed, step_of, take_in
from .scan import is_in
from .stack import amended, need_bookmark, need_settled, take
from .state import EDIT, FOLD, PICK, REWORD, WorkingCopy

DROP = "drop"
WORDS = (PICK, REWORD, FOLD, DROP, EDIT)
LEAST_DIGITS = 6


def need_drafts(copy: WorkingCopy) -> list[str]:
    """The drafts, of which there has to be one."""
    need_settled(copy)
    if not copy.state.drafts:
        raise Trouble("there are no drafts: what has landed stays, and `jarrah backout` undoes it")
    return list(copy.state.drafts)


def draft_named(copy: WorkingCopy, name: str) -> str:
    """The one draft whose id begins so, or whose title is this."""
    found = [id for id in copy.state.drafts if id.startswith(name.lower())]
    if len(name) < LEAST_DIGITS or not found:
        found = [id for id in copy.state.drafts if copy.state.titles.get(id) == name]
    if len(found) != 1:
        count = f"{len(found):,} drafts" if found else "no draft"
        raise Trouble(f"{count} of this working copy {'have' if found else 'has'} the name {name}")
    return found[0]


def stay(copy: WorkingCopy, server: Server, target: str) -> None:
    """Has the base be another changeset, while the folder's files stay as they are."""
    there = tree_of(server, target)
    for path, _, after in differences(tree_of(server, copy.state.base), there):
        keep(copy, path, after)


def uncommit(copy: WorkingCopy, server: Server) -> str:
    """Takes the last draft back into the folder, and gives its id."""
    drafts = need_drafts(copy)
    last = server.changeset(drafts[-1])
    stay(copy, server, drafts[-2] if len(drafts) > 1 else copy.state.root)
    copy.state.drafts = drafts[:-1]
    copy.state.copied |= {path: one.path for path, one in last.copies.items()}
    copy.save()
    return last.id


def drop_all(copy: WorkingCopy, server: Server, keeps: bool) -> list[str]:
    """Lets all drafts go, and gives them; their files stay in the folder, or go too."""
    drafts = need_drafts(copy)
    if keeps:
        stay(copy, server, copy.state.root)
    else:
        need_clean(copy)
        move(copy, server, copy.state.root)
    copy.state.drafts = []
    copy.save()
    return drafts


def drop(copy: WorkingCopy, server: Server, gone: list[str], keeps: bool) -> Rebased:
    """Lets drafts go; those above are put onto what is below them."""
    rest = [one for one in need_drafts(copy) if one not in gone]
    if not keeps:
        need_clean(copy)
        return go_on(copy, server, Rebased(copy.state.root, [], []), rest)
    done = replayed(server, Rebased(copy.state.root, [], []), rest)
    server.put_unsent()
    stay(copy, server, done.drafts[-1] if done.drafts else done.head)
    copy.state.drafts = list(done.drafts)
    copy.state.titles |= done.titles
    copy.save()
    return done


def replayed(server: Server, done: Rebased, drafts: Iterable[str]) -> Rebased:
    """Puts drafts onto what is done, and is refused where one meets a conflict."""
    for id in drafts:
        onto = placed(server, done, server.changeset(id), PICK)
        for path, why in onto.conflicts.items():
            raise Trouble(f"the draft {id} can't be put there: {path}: {why}")
    return done


def split(
    copy: WorkingCopy, server: Server, id: str, under: list[str], message: str
) -> tuple[Changeset, Changeset]:
    """Makes two drafts of one: its changes at and under some paths, and on it the others."""
    drafts = need_drafts(copy)
    old = server.changeset(id)
    first = {path: file for path, file in old.changes.items() if is_in(path, under)}
    second = {path: file for path, file in old.changes.items() if path not in first}
    for top in under:
        if not any(is_in(path, [top]) for path in first):
            raise Trouble(f"the draft {id} doesn't change {top or 'the folder'}")
    if not second:
        raise Trouble(f"the draft {id} changes nothing else, so there is nothing to split")
    gone = {path for path, file in first.items() if file is None}
    below = old.changing(first, message=message)
    copies = {path: one for path, one in old.copies.items() if one.path not in gone}
    above = old.changing(second, copies, parents=(below.id,))
    hold(server, below, Onto())
    hold(server, above, Onto())
    at = drafts.index(id)
    done = Rebased(copy.state.root, drafts[:at], [])
    take_in(done, below)
    take_in(done, above)
    replayed(server, done, drafts[at + 1 :])
    server.put_unsent()
    stay(copy, server, done.drafts[-1])
    copy.state.drafts = list(done.drafts)
    copy.state.titles |= done.titles
    copy.save()
    return below, above


def amend_below(
    copy: WorkingCopy,
    server: Server,
    id: str,
    words: dict[str, object],
    under: list[str] | None,
) -> Changeset:
    """Puts what is changed into a draft below the last, and those above onto it.

    All of it is refused where a conflict comes of it, so that the folder stays as it is.
    """
    drafts = need_drafts(copy)
    found, old = take(copy, server, under), server.changeset(id)
    store_all(server, found.contents.values())
    there = tree_of(server, id)
    onto = put_onto(server, found.changes, tree_of(server, copy.state.base), there)
    for path, why in onto.conflicts.items():
        raise Trouble(f"it can't be put into the draft {id}: {path}: {why}")
    new = amended(server, old, onto.changes, found.copies, **words)
    if new == old:
        raise Trouble("nothing is changed")
    hold(server, new, onto)
    at = drafts.index(id)
    done = Rebased(copy.state.root, drafts[:at], [])
    take_in(done, new)
    replayed(server, done, drafts[at + 1 :])
    server.put_unsent()
    stay(copy, server, done.drafts[-1])
    copy.state.drafts = list(done.drafts)
    copy.state.titles |= done.titles
    copy.save()
    return new


def plan_lines(copy: WorkingCopy) -> list[str]:
    """The drafts from the lowest on, each with a word that lets it be."""
    titles = copy.state.titles
    return [f"{PICK} {id[:12]} {titles.get(id, '')}".rstrip() for id in copy.state.drafts]


def read_plan(copy: WorkingCopy, text: str) -> list[str]:
    """What a plan says of each draft, from the lowest on; each is named once."""
    steps: list[str] = []
    named: set[str] = set()
    for line in filter(None, (one.strip() for one in text.splitlines())):
        word, _, rest = line.partition(" ")
        if word not in WORDS:
            raise Trouble(f"{word!r} is none of {', '.join(WORDS)}: nothing is done")
        id = draft_named(copy, rest.split(" ")[0])
        if id in named:
            raise Trouble(f"the draft {id} is named twice: nothing is done")
        named.add(id)
        if word == FOLD and not steps:
            raise Trouble(f"there is nothing below {id} to fold it into: nothing is done")
        if word != DROP:
            steps.append(f"{word} {id}")
    left_out = [id for id in copy.state.drafts if id not in named]
    if left_out:
        raise Trouble(f"the plan lacks {left_out[0]}: say `{DROP}` to let it go; nothing is done")
    return steps


def reworded(steps: list[str]) -> list[str]:
    """The drafts that a plan gives other messages."""
    return [id for word, id in map(step_of, steps) if word == REWORD]


def carry_out(
    copy: WorkingCopy, server: Server, steps: list[str], messages: dict[str, str]
) -> Rebased:
    """Does what a plan says; drafts that it rewords get their messages."""
    need_drafts(copy)
    need_clean(copy)
    return go_on(copy, server, Rebased(copy.state.root, [], []), steps, messages)


def land_up_to(
    copy: WorkingCopy, server: Server, id: str, allows_empty: bool
) -> tuple[Landed, Rebased]:
    """Lands the drafts up to one, and puts those above it onto the new head."""
    drafts, name = need_drafts(copy), need_bookmark(copy)
    at = drafts.index(id)
    rest = drafts[at + 1 :]
    if rest:
        need_clean(copy)
    try:
        on = copy.state.root
        landed = landing.land(server, name, id, allows_empty=allows_empty, on=on)
    except Refused as refusal:
        if refusal.code == "clash":
            refusal.advice = "`jarrah rebase` puts it onto the head"
        raise
    copy.state.root, copy.state.drafts = id, rest
    copy.save()
    return landed, go_on(copy, server, Rebased(landed.head, [], []), rest)
