"""What may land, and what is told of a landing whose answer was lost."""

from __future__ import annotations

import os
from unittest import mock

from jarrah_client.drafting import landing
from jarrah_client.formats.changesets import Changeset
from jarrah_client.net.server import Server

from ..harness import ENVIRONMENT, Case, Ran, enter, fresh, jarrah
from ..passing import Passing


class LandCase(Case):
    """A bookmark with a file."""

    def setUp(self) -> None:
        super().setUp()
        self.name = fresh()
        self.ok("init", self.name)
        self.abc = self.write("abc")
        self.first = self.ask("commit", self.name, "-m", "First", "--set", f"a={self.abc}")["head"]

    def head(self) -> str:
        return self.ask("bookmark", self.name)["head"]


class Said(LandCase):
    """No landing without a message or an author."""

    def test_no_message(self):
        for words in ((), ("-m", ""), ("-m", " \n")):
            said = self.refused("commit", self.name, *words, "--set", f"b={self.abc}")
            self.assertIn("`-m` says" if not words else "is empty", said)
        self.assertEqual(self.head(), self.first)
        words = ("--allow-empty-message", "--set", f"b={self.abc}")
        self.assertNotEqual(self.ask("commit", self.name, *words)["head"], self.first)

    def test_no_author(self):
        words = ("commit", self.name, "-m", "c", "--set", f"b={self.abc}")
        for author in ("", "  "):
            self.assertIn("the author is empty", self.refused(*words, "--author", author))
        nobody = dict.fromkeys(("GIT_CONFIG_GLOBAL", "GIT_CONFIG_SYSTEM", "GIT_DIR"), os.devnull)
        with mock.patch.dict(ENVIRONMENT, nobody | {"JARRAH_AUTHOR": ""}):
            self.assertIn("nobody is the author", self.refused(*words))
        self.assertEqual(self.head(), self.first)

    def test_a_draft_of_a_stack_that_says_nothing(self):
        silent = self.ok("draft", "--parent", self.name, "--set", f"b={self.abc}").out.strip()
        above = self.draft(silent, "--set", f"c={self.abc}")
        said = self.refused("land", self.name, above)
        self.assertIn(f"changeset {silent}", said)
        self.assertIn("the message is empty", said)
        self.assertEqual(self.head(), self.first)
        self.assertEqual(len(self.ask("land", self.name, above, "--allow-empty-message")["ids"]), 2)

    def test_what_has_landed_may_have_said_nothing(self):
        words = ("--allow-empty-message", "--set", f"b={self.abc}")
        silent = self.ask("commit", self.name, *words)["head"]
        for number in range(6):
            self.ok("commit", self.name, "-m", "c", "--set", f"n{number}={self.abc}")
        draft = self.draft(silent, "--set", f"c={self.abc}")
        for number in range(5):
            draft = self.draft(draft, "--set", f"d{number}={self.abc}")
        self.assertEqual(len(self.ask("land", self.name, draft)["ids"]), 6)

    def test_what_a_draft_stands_on_may_have_said_nothing(self):
        words = ("--allow-empty-message", "--set", f"b={self.abc}")
        silent = self.ask("commit", self.name, *words)["head"]
        self.ok("commit", self.name, "-m", "c", "--set", f"c={self.abc}")
        draft = self.draft(silent, "--set", f"d={self.abc}")
        self.assertEqual(len(self.ask("land", self.name, draft)["ids"]), 1)
        other = fresh("imported")
        unsaid = self.ok("draft", "--parent", self.name, "--set", f"e={self.abc}").out.strip()
        self.ok("bookmark", other, "--to", unsaid)
        self.ok("commit", other, "-m", "c", "--set", f"f={self.abc}")
        draft = self.draft(unsaid, "--set", f"g={self.abc}")
        self.assertEqual(len(self.ask("land", other, draft)["ids"]), 1)

    def test_an_author_of_spaces(self):
        draft = Changeset((self.first,), " ", 0, 0, "m")
        Server(self.server).put_changeset(draft)
        self.assertIn("the author is empty", self.refused("land", self.name, draft.id))


class Lost(LandCase):
    """The answer of a landing is lost."""

    def setUp(self) -> None:
        super().setUp()
        waits = mock.patch.object(landing, "LOOK_SECONDS", (0.0, 0.05))
        enter(self, waits)

    def through(self, loses: str, *words: object) -> Ran:
        """Runs the program on a server that loses answers of landings."""
        losing = Passing(self.server, loses)
        enter(self, losing)
        return jarrah(*words, server=losing.url)

    def test_what_landed_is_told(self):
        ran = self.through("after", "commit", self.name, "-m", "c", "--set", f"b={self.abc}")
        self.assertEqual(ran.status, 0, ran)
        said = r"^jarrah: the answer was lost; by the log it landed, as entry \d"
        self.assertRegex(ran.complaint, said)
        self.assertIn(f"{self.name} is at {self.head()}", ran.out)
        self.assertNotEqual(self.head(), self.first)

    def test_what_did_not_land_is_told(self):
        draft = self.draft(self.name, "--set", f"b={self.abc}")
        ran = self.through("before", "land", self.name, draft)
        self.assertEqual((ran.status, ran.out), (1, ""))
        self.assertIn("it hasn't landed by entry", ran.complaint)
        self.assertEqual(self.head(), self.first)

    def test_a_backout(self):
        ran = self.through("after", "--json", "backout", self.first, self.name)
        self.assertEqual((ran.status, ran.document["head"]), (0, self.head()))

    def test_another_bookmark_and_an_older_landing(self):
        other = fresh("other")
        self.ok("bookmark", other, "--to", self.first)
        draft = self.draft(self.name, "--set", f"b={self.abc}")
        one = Server(self.server)
        self.addCleanup(one.close)
        self.ok("land", other, draft)
        self.assertIsNone(landing.landing_entry(one, self.name, draft)[1])
        for number in range(60):
            self.draft(self.name, "--set", f"n={self.abc}", "-m", number)
        found = landing.landing_entry(one, other, draft)[1]
        self.assertEqual((found["draft"], found["ids"]), (draft, [draft]))
