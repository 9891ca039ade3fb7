"""Drafts as the log tells them: which there are, their stacks and versions, and the bounds."""

from __future__ import annotations

from unittest import mock

from jarrah_client.drafting.drafts import ROOT
from jarrah_client.net.server import Server
from jarrah_client.web.library import Library, Question
from jarrah_client.web.review import drafts as drafts_module
from jarrah_client.web.review import index as index_module
from jarrah_client.web.review.drafts import UnknownStack, drafts, stack

from ..harness import fresh
from .reviewing import Reviewing


class Drafts(Reviewing):
    """What is a draft, and what became of it."""

    def test_what_no_bookmark_has(self):
        first, second = self.line("d", b"1", b"2")
        other = self.put("other", ROOT.id, {"g": b"g"})
        self.assertEqual(self.ids(), [other, second, first])
        rows = {one["id"]: one for one in self.drafts()["drafts"]}
        told = {id: (one["below"], one["above"], one["state"]) for id, one in rows.items()}
        wanted = {first: (0, 1, "open"), second: (1, 0, "open"), other: (0, 0, "open")}
        self.assertEqual(told, wanted)
        one = rows[second]
        self.assertEqual((one["title"], one["changes"], one["parents"]), ("d 1", 1, [first]))
        self.assertEqual(self.ids(tops=1), [other, second])
        entries = {one["id"]: one["number"] for one in self.entries() if "id" in one}
        wanted = [entries[first], entries[second]]
        self.assertEqual([rows[id]["entry"] for id in (first, second)], wanted)

    def entries(self) -> list[dict]:
        """The last entries of the log."""
        total = self.to.log(0).total
        return self.to.log(max(0, total - 100)).entries

    def test_what_landed_as_it_is_is_no_draft(self):
        draft = self.put("d", ROOT.id, {"f": b"1"})
        self.assertEqual(self.land(draft), draft)
        self.assertEqual(self.ids(state="all"), [])
        self.assertEqual(self.got(f"/api/stack/{draft}")["state"], "on a bookmark")

    def test_what_landed_as_others(self):
        first, second = self.line("d", b"1", b"2")
        self.land(self.put("theirs", ROOT.id, {"g": b"g"}))
        head = self.land(second)
        middle = self.to.changeset(head).parents[0]
        self.assertEqual(self.ids(), [])
        found = {one["id"]: one["landed"] for one in self.drafts(state="landed")["drafts"]}
        entry = self.entries()[-1]
        self.assertEqual((entry["kind"], entry["draft"]), ("landing", second))
        where = {"bookmark": self.name, "entry": entry["number"], "moment": None}
        for draft, id in ((first, middle), (second, head)):
            told = [{name: one[name] for name in ("id", *where)} for one in found[draft]]
            self.assertEqual(told, [{"id": id} | where])
        self.assertEqual(set(found), {first, second})

    def test_a_bookmark_makes_no_draft_of_what_it_reaches(self):
        ids = self.line("d", b"1", b"2", b"3")
        name = fresh("moved")
        self.to.move_bookmark(name, None, ids[1])
        self.assertEqual(self.ids(), [ids[2]])
        self.to.move_bookmark(name, ids[1], ids[2])
        self.assertEqual(self.ids(), [])
        self.to.move_bookmark(name, ids[2], None)
        self.assertEqual(self.ids(), ids[::-1])

    def test_what_a_landing_stands_on_is_no_draft(self):
        ids = self.line("d", b"1", b"2")
        self.to.move_bookmark(self.name, ROOT.id, ids[1])
        other = self.put("other", ROOT.id, {"g": b"g"})
        head = self.land(other)
        self.assertNotEqual(head, other)
        self.assertEqual(self.ids(), [])
        self.assertEqual(self.got(f"/api/stack/{ids[0]}")["state"], "on a bookmark")

    def test_later_versions(self):
        first, second = self.line("d", b"1", b"2")
        again = self.put("d 0", ROOT.id, {"f": b"1!"}, like=first)
        top = self.put("d 1", again, {"f": b"2!"}, like=second)
        renamed = self.put("another title", again, {"f": b"2?"}, like=second)
        self.assertEqual(self.ids(), [renamed, top, again])
        self.assertEqual(self.ids(state="superseded"), [second, first])
        later = {one["id"]: one["later"] for one in self.drafts(state="all")["drafts"]}
        self.assertEqual(later, {first: again, second: top, again: None, top: None, renamed: None})
        told = self.got(f"/api/stack/{second}")
        self.assertEqual([one["id"] for one in told["versions"]], [top, second])
        self.assertEqual([one["id"] for one in told["drafts"]], [first, second])

    def test_a_stack_of_one_second_is_no_version_of_itself(self):
        low = self.put("d", ROOT.id, {"f": b"1"})
        high = self.put("d", low, {"f": b"2"}, like=low)
        self.assertEqual(self.ids(), [high, low])
        self.assertEqual([one["id"] for one in self.got(f"/api/stack/{high}")["versions"]], [high])
        self.assertEqual([one["id"] for one in self.got(f"/api/stack/{low}")["versions"]], [low])

    def test_too_many_alike_are_no_versions(self):
        low = self.put("d", ROOT.id, {"f": b"0"})
        many = [self.put("d", ROOT.id, {"f": b"%d" % n}, like=low) for n in range(1, 51)]
        self.assertEqual(len(self.ids(count=200)), 51)
        self.assertEqual(self.drafts()["drafts"][0]["id"], many[-1])

    def test_authors(self):
        draft = self.put("d", ROOT.id, {"f": b"1"}, author=f"ÄNN {self.author}")
        for text in (f"änn {self.author}", self.author.upper(), f"Änn {self.author[:20]}"):
            self.assertIn(draft, self.ids(author=text))
        self.assertEqual(self.ids(author=f"bob {self.author}"), [])

    def test_stretches(self):
        ids = [self.put(f"d{n}", ROOT.id, {"f": b"%d" % n}) for n in range(5)][::-1]
        found, before = [], {}
        for wanted in (2, 2, 1):
            told = self.drafts(count=2, **before)
            self.assertEqual(len(told["drafts"]), wanted)
            found += [one["id"] for one in told["drafts"]]
            before = {"before": told["next"]}
        self.assertEqual(found, ids)
        self.assertIsNone(told["next"])
        self.assertTrue(told["is_whole"])

    def test_questions_that_break_a_rule(self):
        for query, words in (
            ("count=0", "count is 0"),
            ("count=201", "count is 201"),
            ("count=-1", "no number"),
            ("count=" + "9" * 5_000, "no number"),
            ("before=x", "no number"),
            ("before=99999999999999999999", "before is"),
            ("state=new", "state is 'new'"),
            ("state=open&caller=ann", "no caller is known"),
            ("tops=2", "tops is 2"),
            ("auther=a", "'auther' is no word"),
            ("author=a&author=b", "'author' is there twice"),
        ):
            self.assertIn(words, self.refused_by(400, f"/api/drafts?{query}"), query)
        self.assertIn("'x' is no word", self.refused_by(400, f"/api/stack/{ROOT.id}?x=1"))
        self.assertIn("no changeset", self.refused_by(404, f"/api/stack/{'0' * 64}"))
        self.assertIn("no bookmark", self.refused_by(404, "/api/stack/absent"))


class Callers(Reviewing):
    """Who landed a draft, where the log tells it."""

    def test_by_caller(self):
        if not self.stand_in:
            self.skipTest("a policy that holds for a server of its own")
        self.land(self.put("theirs", ROOT.id, {"g": b"g"}))
        before = self.put("before", ROOT.id, {"a": b"1"})
        self.land(before)
        self.to.set_policy(b"allow * /\n")
        drafts = {}
        for caller in ("ann", "bob"):
            drafts[caller] = self.put(caller, ROOT.id, {caller: b"1"})
            self.land(drafts[caller], caller)
        nobody = self.put("nobody", ROOT.id, {"n": b"1"})
        self.land(nobody)
        for caller, draft in (*drafts.items(), ("anonymous", nobody)):
            self.assertEqual(self.ids(caller=caller), [draft])
        self.assertEqual(self.ids(caller="cid"), [])
        found = self.drafts(state="landed")["drafts"]
        told = {one["id"]: one["landed"][0]["caller"] for one in found}
        wanted = {before: None, nobody: "anonymous"}
        self.assertEqual(told, wanted | {id: name for name, id in drafts.items()})


class Stacks(Reviewing):
    """From where a stack begins, and what is refused."""

    def test_a_base(self):
        self.land(self.put("theirs", ROOT.id, {"g": b"g"}))
        head = self.land(self.put("more", ROOT.id, {"h": b"h"}))
        ids = self.line("d", b"1", b"2", b"3", at=head)
        told = self.got(f"/api/stack/{ids[1]}")
        found = (told["base"], [one["id"] for one in told["drafts"]], told["state"])
        self.assertEqual(found, (head, ids[:2], "open"))
        self.assertEqual(told["drafts"][0]["above"], 1)
        under = self.got(f"/api/stack/{ids[2]}?base={ids[0]}")
        self.assertEqual((under["base"], [one["id"] for one in under["drafts"]]), (ids[0], ids[1:]))
        words = self.refused_by(400, f"/api/stack/{ids[0]}?base={ids[2]}")
        self.assertIn("isn't on the line", words)

    def test_what_stands_on_nothing(self):
        root = self.put("root", "", {"f": b"1"})
        told = self.got(f"/api/stack/{root}")
        self.assertEqual((told["base"], [one["id"] for one in told["drafts"]]), (None, [root]))

    def test_a_stack_that_is_too_long_to_land(self):
        ids = self.line("d", *(b"%d" % n for n in range(101)))
        self.assertEqual(len(self.got(f"/api/stack/{ids[99]}")["drafts"]), 100)
        self.assertIn("over 100 changesets", self.refused_by(404, f"/api/stack/{ids[100]}"))
        told = self.got(f"/api/stack/{ids[100]}?base={ids[0]}")
        self.assertEqual(len(told["drafts"]), 100)


class Bounds(Reviewing):
    """How far the log is looked at, and that it is told."""

    def setUp(self) -> None:
        super().setUp()
        self.library = Library(Server(self.server), fold=False)
        self.made = [self.put(f"d{n}", ROOT.id, {"f": b"%d" % n}) for n in range(7)]
        self.uploads = sum(one["kind"] == "changeset" for one in self.all_entries())

    def all_entries(self) -> list[dict]:
        """All of the log."""
        found: list[dict] = []
        while page := self.to.log(len(found)).entries:
            found += page
        return found

    def told(self, **query: str) -> dict:
        """What one request is answered by."""
        with self.library.connected() as visit:
            return drafts(visit, Question(query=query))

    def test_some_at_a_time(self):
        with (
            mock.patch.object(drafts_module, "MOST_LOOKED_AT", 3),
            mock.patch.object(drafts_module, "STEP", 2),
            mock.patch.object(index_module, "CHUNK", 1),
        ):
            told = self.told(author=self.author, count="10")
            self.assertEqual(told["looked_at"], 3)
            self.assertEqual([one["id"] for one in told["drafts"]], self.made[:-4:-1])
            self.assertEqual(told["next"], told["drafts"][-1]["entry"])
            self.assertEqual((told["from_entry"], told["is_whole"]), (told["next"], False))
            told = self.told(author=self.author, count="10", before=str(told["next"]))
            self.assertEqual([one["id"] for one in told["drafts"]], self.made[3:0:-1])
            for _ in range(self.uploads):
                told = self.told(author=self.author)
            self.assertEqual((told["looked_at"], told["is_whole"]), (self.uploads, True))
            self.assertEqual([one["id"] for one in told["drafts"]], self.made[::-1])

    def test_seconds(self):
        with (
            mock.patch.object(drafts_module, "LOOKING_SECONDS", 0.0),
            mock.patch.object(index_module, "CHUNK", 2),
        ):
            self.assertEqual(self.told(author=self.author)["looked_at"], 2)
            self.assertEqual(self.told(author=self.author)["looked_at"], 4)

    def test_only_the_newest_are_looked_at(self):
        with mock.patch.object(index_module, "MOST_KEPT", 4):
            told = self.told(author=self.author)
            self.assertEqual((told["looked_at"], told["is_whole"], told["next"]), (4, False, None))
            self.assertEqual([one["id"] for one in told["drafts"]], self.made[:2:-1])
            new = self.put("new", ROOT.id, {"f": b"new"})
            told = self.told(author=self.author)
            self.assertEqual([one["id"] for one in told["drafts"]], [new, *self.made[:3:-1]])
            self.assertEqual(len(self.library.uploads.known), 4)

    def test_a_stack_whose_begin_is_not_known(self):
        tip = self.put("tip", self.made[0], {"g": b"g"})
        with (
            mock.patch.object(index_module, "MOST_KEPT", 4),
            self.library.connected() as visit,
        ):
            with self.assertRaisesRegex(UnknownStack, "say what the stack stands on"):
                stack(visit, Question(tip))
            told = stack(visit, Question(tip, query={"base": self.made[0]}))
            self.assertEqual([one["id"] for one in told["drafts"]], [tip])
            self.assertEqual(told["base"], self.made[0])

    def test_what_is_known_is_not_read_again(self):
        self.told(author=self.author)
        with (
            mock.patch.object(index_module, "answers", side_effect=AssertionError("it is kept")),
            mock.patch.object(Server, "changeset", side_effect=AssertionError("it is kept")),
        ):
            self.assertEqual(len(self.told(author=self.author)["drafts"]), 7)
