"""`wozgirt log`: who held which lock, by the journal and the record of grants; its statuses, and what it refuses."""

import json
import os
import re
import shutil
import subprocess
import tempfile
import unittest

from harness import COMMAND, ENGINE, FOLDER, IS_DOUBLE, PATIENCE, Server, needs_programs, say, takes_any_name


@needs_programs
class WhoHeld(unittest.TestCase):
    def setUp(self):
        self.folder = tempfile.mkdtemp(prefix="wozgirt-held-", dir=FOLDER)
        self.addCleanup(shutil.rmtree, self.folder, ignore_errors=True)
        self.grants, self.journal = os.path.join(self.folder, "journal.grants"), os.path.join(self.folder, "journal")

    def log(self, *words, engine=ENGINE, status=0):
        words = [COMMAND, "log", "--journal", self.journal, "--engine", engine, *words]
        done = subprocess.run(words, capture_output=True, text=True, timeout=PATIENCE, check=False)
        self.assertEqual(done.returncode, status, done.stdout + done.stderr)
        return done.stderr if status else done.stdout

    def objects(self, *words):
        return [json.loads(line) for line in self.log("--json", *words).splitlines()]

    def change(self, pattern, text):
        with open(self.grants, encoding="ascii") as file:
            before = file.read()
        after = re.sub(pattern, text, before)
        self.assertNotEqual(after, before)
        with open(self.grants, "w", encoding="ascii") as file:
            file.write(after)

    def test_each_hold_beside_a_server_that_runs(self):
        with Server("--grants", self.grants, locks="a,b", folder=self.folder) as server, server.raw() as one, server.raw() as two:
            for line in ("acquire a 7", "release a 1", "ping", "acquire a 8"):
                say(one, line + "\n")
            say(two, "acquire b 9\n")
            holds = self.objects()
            self.assertEqual([(it["lock"], it["token"], it["label"], it["end"], it["journal"]) for it in holds],
                             [("a", 1, 7, "released", "released"), ("a", 2, 8, None, "open"), ("b", 1, 9, None, "open")])
            self.assertTrue(all(it["process"] == os.getpid() and it["from"] and it["address"] is None for it in holds))
            self.assertEqual([it["token"] for it in self.objects("a")], [1, 2])
            self.assertEqual((self.objects("c"), self.objects("--until", "1h")), ([], []))
            self.assertEqual([it["token"] for it in self.objects("a", "--since", holds[1]["from"])], [2])
            # a line that could not be written, and one that is being written
            self.change(r"\S+ granted a 1 .*\n", "")
            with open(self.grants, "a", encoding="ascii") as file:
                file.write(f"{holds[0]['to']} gap 1 {holds[0]['from']}\n{holds[0]['to']} end")
            shown = self.log()
            self.assertRegex(shown, r"(?m)^a +1 +7 +no line +\d{4}-\S+ +- +- +released$")
            self.assertIn("no line: 1 of these 3 have none of their grant, 0 none of their end\n", shown)
            self.assertIn(f"gap: 1 lines could not be written from {holds[0]['from']} to {holds[0]['to']}\n", shown)

    def test_what_contradicts_the_journal_is_refused(self):
        with Server("--grants", self.grants, locks="a", folder=self.folder) as server, server.raw() as sock:
            say(sock, "acquire a 7\nrelease a 1\nacquire a 8\n", 3)
        with open(self.grants, encoding="ascii") as file:
            whole = file.read()
        for pattern, text, why in ((r"granted a 2", "granted a 3", "the journal has no hold of a with token 3"),
                                   (r"label=8", "label=9", "in the journal the hold of a with token 2 has the label 8"),
                                   (r"ended a 1 ", "ended a 2 ", "in the journal the hold of a with token 2 was not released: "),
                                   (r"granted a 2", "Granted a 2", "it is not a line of a record of grants"),
                                   (r"^wozgirt-grants 1", "wozgirt-grants 9", "it does not begin with `wozgirt-grants 1`")):
            with self.subTest(why):
                self.change(pattern, text)
                self.assertIn(why, self.log(status=65))
                with open(self.grants, "w", encoding="ascii") as file:
                    file.write(whole)
        self.assertIn("a     2      8 ", self.log())

    def test_what_cannot_be_read(self):
        with Server("--grants", self.grants, locks="a", folder=self.folder):
            pass
        self.assertIn("cannot run none", self.log(engine="none", status=69))
        self.assertIn("bad moment `soon`", self.log("--since", "soon", status=64))
        self.assertIn("(a server writes it with --grants)", self.log("--grants", self.grants + ".none", status=66))
        self.journal += ".none"
        self.assertIn("No such file or directory", self.log("--grants", self.grants, status=66))

    def test_a_journal_that_is_damaged(self):
        with Server("--grants", self.grants, locks="a", folder=self.folder) as server, server.raw() as sock:
            say(sock, "acquire a 7\n")
        name = os.path.join(self.journal, "0000000001.ring")
        with open(name, "a", encoding="ascii") as file:
            file.write("0 p x\n0 p x\n")
        self.assertIn("the journal is refused: ", self.log(status=65))

    @unittest.skipUnless(takes_any_name(), "the engine takes a list alone")
    def test_any_name(self):
        with Server("--grants", self.grants, locks="a,*", folder=self.folder) as server, server.raw() as sock:
            say(sock, "acquire x/1 7\nacquire a 8\nrelease x/1 1\nacquire x/2 9\n", 4)
            self.assertEqual(sorted((it["lock"], it["label"], it["journal"]) for it in self.objects()),
                             [("a", 8, "open"), ("x/1", 7, "released"), ("x/2", 9, "open")])

    @unittest.skipIf(IS_DOUBLE, "the engine's double counts grants over all segments by itself")
    def test_segments_that_are_removed(self):
        with Server("--grants", self.grants, "--segment", "4", locks="a", folder=self.folder) as server, server.raw() as sock:
            for token in range(1, 10):
                say(sock, f"acquire a {token}\nrelease a {token}\n", 2)
        segments = sorted(name for name in os.listdir(self.journal) if name.endswith(".ring"))
        os.remove(os.path.join(self.journal, segments[0]))
        holds = self.objects()
        self.assertEqual([it["token"] for it in holds], list(range(1, 10)))
        self.assertEqual((holds[0]["journal"], holds[0]["end"], holds[8]["journal"]), (None, "released", "released"))
        self.change("granted a 9 label=9", "granted a 10 label=9")
        self.assertIn("the journal has no hold of a with token 10", self.log(status=65))


if __name__ == "__main__":
    unittest.main()
