"""What the server says before it serves: why it does not, in one line that names what to change; and what its engine says, in its log."""

import os
import re
import shutil
import stat
import subprocess
import tempfile
import unittest

from harness import ENGINE, FOLDER, IS_DOUBLE, PATIENCE, SERVER, TOP, Server, needs_programs, say

#: a line of the log: its time, a key, a text
LINE = re.compile(r"\d{4}-\d\d-\d\dT\d\d:\d\d:\d\dZ [a-z]+(-[a-z]+)* \S.*")
#: EX_CONFIG of sysexits.h
BAD_SETTINGS = 78


def unit():
    with open(os.path.join(TOP, "server", "wozgirt-server.service"), encoding="utf-8") as file:
        return file.read()


@needs_programs
class Refusals(unittest.TestCase):
    def setUp(self):
        self.folder = tempfile.mkdtemp(prefix="wozgirt-", dir=FOLDER)
        self.addCleanup(shutil.rmtree, self.folder, ignore_errors=True)
        self.path = os.path.join(self.folder, "lock.sock")

    def journal(self, name="journal"):
        return os.path.join(self.folder, name)

    def run_server(self, *words, engine=ENGINE):
        return subprocess.run([SERVER, "--engine", engine, "--socket", self.path, *words], capture_output=True, text=True, timeout=PATIENCE,
                              check=False)

    def program(self, text):
        path = os.path.join(self.folder, "program")
        with open(path, "w", encoding="ascii") as file:
            file.write(f"#!/bin/sh\n{text}\n")
        os.chmod(path, 0o700)
        return path

    def test_a_list_that_does_not_continue_the_journals(self):
        with Server(folder=self.folder, locks="deploy,gpu/0:3") as server:
            server.stop()
        for locks in ("db,cache", "deploy", "gpu/0:3,deploy", "deploy,gpu/0", "*"):
            it = self.run_server("--journal", self.journal(), "--locks", locks)
            self.assertEqual((it.returncode, it.stdout, it.stderr.count("\n")), (BAD_SETTINGS, "", 1), it.stderr)
            self.assertIn(f"--locks names {locks}, but this journal has deploy,gpu/0:3 ({self.journal()}/locks)", it.stderr)
            self.assertIn("can be added at the end of its list; none can be removed, renamed, reordered or resized.", it.stderr)
            self.assertFalse(os.path.exists(self.path))  # nobody was let in
        with Server(folder=self.folder, locks="deploy,gpu/0:3,db") as server, server.raw() as sock:
            self.assertEqual(say(sock, "try db 1\n"), ["granted db 1"])

    def test_a_list_that_ends_with_any_name(self):
        with Server(folder=self.folder, locks="deploy,*") as server:
            server.stop()
        it = self.run_server("--journal", self.journal(), "--locks", "deploy,db,*")
        self.assertEqual((it.returncode, it.stderr.count("\n")), (BAD_SETTINGS, 1), it.stderr)
        self.assertIn("lock 2 there is another one. Its list ends with `*`, so it stays as it is.", it.stderr)

    def test_settings_that_have_to_be_changed_first(self):
        with open(self.journal("rules"), "w", encoding="ascii") as file:
            file.write("look\n")
        for words, why in ((["--locks", "a,a"], "two locks are named a"), ([], "--locks is missing"),
                           (["--locks", "a", "--rules", self.journal("rules")], "line 1: "),
                           (["--locks", "a", "--memory", "1"], "at least: raise that")):
            it = self.run_server("--journal", self.journal(), *words)
            self.assertEqual((it.returncode, it.stderr.count("\n")), (BAD_SETTINGS, 1), it.stderr)
            self.assertIn(why, it.stderr)

    def test_the_unit_does_not_start_it_again(self):
        statuses = re.search(r"^RestartPreventExitStatus=(.*)$", unit(), re.M)[1].split()
        self.assertEqual(statuses, ["3", "4", "64", str(BAD_SETTINGS)])

    def test_the_folder_of_the_journal_is_made(self):
        with Server(folder=self.folder) as server:
            server.stop()
            shutil.rmtree(self.journal())
            process = subprocess.Popen(server.words, stderr=subprocess.DEVNULL)
            server.wait_until_it_answers(process)
            self.assertEqual(stat.S_IMODE(os.stat(self.journal()).st_mode), 0o700)
            self.assertEqual(server.operate("ping"), "pong")
            process.terminate()
            self.assertEqual(process.wait(PATIENCE), 0)

    def test_one_that_cannot_be_made_is_named(self):
        it = self.run_server("--journal", self.journal("none/journal"), "--locks", "a")
        self.assertEqual((it.returncode, it.stderr.count("\n")), (1, 1), it.stderr)
        self.assertIn(f"the journal's folder {self.journal('none/journal')} cannot be made: No such file or directory", it.stderr)
        self.assertEqual(os.listdir(self.folder), [])

    def test_the_engines_own_lines_have_a_time_and_a_key(self):
        engine = self.program(f"echo a line of its own >&2\nprintf 'bell \\007 and no end' >&2\nexec {ENGINE} \"$@\"")
        with Server(folder=self.folder, engine=engine) as server:
            server.wait_for_log("engine-said a line of its own")
            server.stop()
            lines = server.text_of_log().splitlines()
        self.assertEqual([line for line in lines if not LINE.fullmatch(line)], [])
        said = [line.split(" ", 2)[2] for line in lines if " engine-said " in line]
        self.assertEqual(said[0], "a line of its own")
        self.assertTrue(said[1].startswith("bell \\u{7} and no end"), said)
        if not IS_DOUBLE:
            self.assertIn("total locks 3 events 0 granted 0", said[-1])
        self.assertIn("engine-ended engine ended: exit status: 0", lines[-2])  # its last words come before

    def test_what_an_engine_said_that_keeps_ending(self):
        it = self.run_server("--journal", self.journal(), "--locks", "a", engine=self.program("echo it has no heart >&2\nexit 3"))
        self.assertEqual(it.returncode, 1)
        self.assertIn("the engine keeps ending before it is ready: exit status: 3; it said: it has no heart\n", it.stderr)

    def test_the_sample_settings_name_no_lock(self):
        """What a journal began with stays: so they begin with any name."""
        with open(os.path.join(TOP, "release", "settings"), encoding="utf-8") as file:
            self.assertEqual(re.findall(r"^WOZGIRT_LOCKS=(.*)$", file.read(), re.M), ["*"])


if __name__ == "__main__":
    unittest.main()
