"""Certificates, and what a configuration file says."""

from __future__ import annotations

import json
import shutil
import subprocess
import sys
import unittest
import urllib.request
from unittest import mock

from jarrah_client.drafting.drafts import ROOT

from ..harness import ENVIRONMENT, PROGRAM, Case, Ran, enter, fresh, jarrah
from ..passing import Passing, certificates


@unittest.skipUnless(shutil.which("openssl"), "openssl")
class Named(Case):
    """A server behind a proxy that takes the caller from a certificate."""

    def setUp(self) -> None:
        super().setUp()
        certificates(self.folder)
        self.proxy = Passing(self.special().url, certificates=self.folder)
        enter(self, self.proxy)
        self.name = fresh()
        self.abc = self.write("abc")
        self.alice = ("--cert", self.at("alice.crt"), "--key", self.at("alice.key"))
        self.alice += ("--ca", self.at("localhost.crt"))

    def at(self, name: str) -> str:
        return str(self.folder / name)

    def by(self, *words: object) -> Ran:
        """Runs the program on the server behind the proxy."""
        return jarrah(*words, server=self.proxy.url)

    def held(self) -> None:
        """Has alice alone land, by a policy that she sets."""
        self.write("policy", b"allow alice /\n")
        for words in (("init", self.name), ("policy", "--set", self.at("policy"))):
            ran = self.by(*self.alice, *words)
            self.assertEqual((ran.status, ran.complaint), (0, ""), ran)

    def commit(self, *words: object) -> Ran:
        return self.by("--json", *words, "commit", self.name, "-m", "c", "--set", f"a={self.abc}")

    def test_who_lands_by_a_certificate(self):
        self.held()
        head = self.commit(*self.alice).document["head"]
        entries = self.by(*self.alice, "--json", "entries").documents
        landed = [one for one in entries if one["kind"] == "landing"]
        self.assertEqual([(one["caller"], one["ids"]) for one in landed], [("alice", [head])])
        nobody = self.commit("--ca", self.at("localhost.crt"))
        self.assertEqual((nobody.status, '"denied"' in nobody.err), (1, True), nobody)
        both = self.commit("--cert", self.at("alice.pem"), "--ca", self.at("localhost.crt"))
        self.assertEqual(both.document["old"], head)

    def test_by_variables_and_by_a_file(self):
        self.held()
        names = {"cert": "alice.crt", "key": "alice.key", "ca": "localhost.crt"}
        variables = {f"JARRAH_{name.upper()}": self.at(file) for name, file in names.items()}
        with mock.patch.dict(ENVIRONMENT, variables):
            self.assertEqual(self.commit().status, 0)
        lines = [f"{name} = {file}\n" for name, file in names.items()]
        text = "".join(["[default]\nauthor = Bo\n", f"[{self.proxy.url}]\n", *lines])
        config = self.write("config", text.encode())
        with mock.patch.dict(ENVIRONMENT, {"JARRAH_CONFIG": str(config), "JARRAH_AUTHOR": ""}):
            head = self.commit().document["head"]
            log = self.by("--json", "log", head, "-n", 1).document
            self.assertEqual(log["author"], "Bo")
            self.assertEqual(jarrah("entries", server=self.server).status, 0)

    def test_the_gateway(self):
        self.held()
        words = [sys.executable, str(PROGRAM), "--server", self.proxy.url, "--json"]
        process = subprocess.Popen(
            [*words, *self.alice, "gateway"], stdout=subprocess.PIPE, env=ENVIRONMENT
        )
        self.addCleanup(process.communicate)
        self.addCleanup(process.kill)
        url = json.loads(process.stdout.readline())["url"]
        with urllib.request.urlopen(f"{url}health", timeout=100) as answer:
            self.assertEqual(json.load(answer)["status"], "ok")
        body = {"author": "A", "message": "c", "changes": [], "land": self.name}
        data = json.dumps(body | {"parent": self.name}).encode()
        kind = {"Content-Type": "application/json"}
        asked = urllib.request.Request(f"{url}api/changeset", data, kind)
        with urllib.request.urlopen(asked, timeout=100) as answer:
            self.assertEqual(json.load(answer)["landed"]["old"], ROOT.id)

    def test_what_is_refused(self):
        ca = ("--ca", self.at("localhost.crt"))
        key = ("--key", self.at("alice.key"))
        for words, said in (
            ((), "its certificate isn't trusted"),
            ((*ca, "--cert", self.at("absent")), "No such file"),
            ((*ca, *key), "wants `--cert FILE`"),
            ((*ca, "--cert", self.at("abc"), *key), "has no certificate"),
            ((*ca, "--cert", self.at("mallory.crt"), *key), "isn't that of the certificate"),
            (("--ca", self.at("abc")), "has no certificate"),
        ):
            ran = self.by("entries", *words)
            self.assertEqual((ran.status, ran.out), (1, ""), words)
            self.assertIn(said, ran.complaint)
            self.assertEqual(ran.complaint.count("\n"), 1)
        stranger = ("--cert", self.at("mallory.crt"), "--key", self.at("mallory.key"))
        ran = self.by("entries", *ca, *stranger)
        self.assertIn("doesn't take the certificate", ran.complaint)
        ran = jarrah("entries", *self.alice, server=self.server)
        self.assertIn("are for a server at https", ran.complaint)


class Configured(Case):
    """A configuration file."""

    def said(self, text: bytes, name: str = "config") -> Ran:
        place = self.write("config", text)
        with mock.patch.dict(ENVIRONMENT, {"JARRAH_CONFIG": str(place.with_name(name))}):
            return jarrah("entries", "--from", "9" * 18, server=self.server)

    def test_files_that_are_none(self):
        self.assertEqual(self.said(b"# nothing\n").status, 0)
        for text, words in (
            (b"server\n", "no configuration"),
            (b"[default]\ncolour = red\n", "'colour', which isn't one of"),
            (b"[http://x]\ncerts = x\n", "'certs', which isn't one of"),
            (b"\xff", "no configuration"),
            (b"[default]\ncaller = a b\n", "no caller's name"),
        ):
            ran = self.said(text)
            self.assertNotEqual(ran.status, 0, text)
            self.assertIn(words, ran.complaint)
        self.assertIn("No such file", self.said(b"", "absent").complaint)

    def test_where_it_lies(self):
        place = self.write("jarrah/config", f"[default]\nserver = {self.server}\n".encode())
        with mock.patch.dict(ENVIRONMENT, {"XDG_CONFIG_HOME": str(place.parents[1])}):
            words = [sys.executable, str(PROGRAM), "entries", "--from", "9" * 18]
            done = subprocess.run(words, env=ENVIRONMENT, capture_output=True, cwd=self.folder)
        self.assertEqual((done.returncode, done.stderr), (0, b""))
