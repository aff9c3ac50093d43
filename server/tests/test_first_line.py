"""The first line of the log: what is served, where it is kept, where clients come in, and whether the engine says that it was proved."""

import os
import re
import shutil
import tempfile
import unittest

from harness import ENGINE, FOLDER, IS_DOUBLE, Server, needs_programs


@needs_programs
class FirstLine(unittest.TestCase):
    def setUp(self):
        self.folder = tempfile.mkdtemp(prefix="wozgirt-", dir=FOLDER)
        self.addCleanup(shutil.rmtree, self.folder, ignore_errors=True)

    def first_line(self, engine=ENGINE, locks="a,b"):
        with Server(folder=self.folder, engine=engine, locks=locks) as server:
            first = server.text_of_log().splitlines()[0]
            os.remove(server.log)
        shutil.rmtree(os.path.join(self.folder, "journal"))
        return re.sub(r"^\S+ started wozgirt-server [\d.]+, ", "", first)

    def engine_that_says(self, text):
        path = os.path.join(self.folder, "engine")
        with open(path, "w", encoding="ascii") as file:
            file.write(f"#!/bin/sh\nif [ \"$1\" = --version ]; then {text}; exit; fi\nexec {ENGINE} \"$@\"\n")
        os.chmod(path, 0o700)
        return path

    def test_it_says_where_and_what(self):
        places = f"journal {self.folder}/journal, socket {self.folder}/lock.sock"
        for locks, served in (("a,b", "2 locks"), ("a,*", "1 locks, and those of any other name"), ("*", "locks of any name")):
            self.assertTrue(self.first_line(locks=locks).startswith(f"{served}; {places}; engine "), locks)

    def test_it_says_whether_the_engine_was_proved(self):
        nothing = ", of which NOTHING WAS PROVED"
        for text, told in (("printf 'ring_tool 0.1.0\\nrattle logic dac8208d650f15bf\\n'", "ring_tool 0.1.0, proved"),
                           ("printf 'ring_tool 0.1.0\\nnothing was proved\\n'", "ring_tool 0.1.0" + nothing), ("exit 1", "engine" + nothing),
                           ("sleep 100", "engine" + nothing)):
            self.assertTrue(self.first_line(self.engine_that_says(text)).endswith("; engine " + told), text)

    @unittest.skipUnless(IS_DOUBLE, "the engine is not the double")
    def test_the_double_is_not_proved(self):
        self.assertTrue(self.first_line().endswith("; engine engine-double, of which NOTHING WAS PROVED"))


if __name__ == "__main__":
    unittest.main()
