"""The record of grants on a disk that is full, slow or broken: locks are granted all the same, and it says what is missing."""

import os
import re
import shutil
import signal
import subprocess
import tempfile
import time
import unittest
import unittest.mock
import urllib.request

from harness import FOLDER, PATIENCE, TOP, needs_loopback, needs_programs, read_lines, say, wait_until
import test_grants
from test_grants import short


def trouble():
    """The library that makes trouble for the record's disk, or nothing where no compiler is there."""
    folder = tempfile.mkdtemp(prefix="wozgirt-slow-", dir=FOLDER)
    unittest.addModuleCleanup(shutil.rmtree, folder, ignore_errors=True)
    library, compiler = os.path.join(folder, "slow.so"), shutil.which("cc")
    source = os.path.join(TOP, "server", "tests", "slow_record.c")
    if not compiler or subprocess.run([compiler, "-shared", "-fPIC", "-o", library, source, "-ldl"], check=False).returncode:
        return None
    return library


@needs_programs
class Trouble(test_grants.Trial):
    @classmethod
    def setUpClass(cls):
        cls.library = trouble()
        if cls.library is None:
            raise unittest.SkipTest("no compiler")

    def setUp(self):
        super().setUp()
        env = {"LD_PRELOAD": self.library, "TROUBLE": self.folder, "RECORD": "/grants"}
        patch = unittest.mock.patch.dict(os.environ, env)
        patch.start()
        self.addCleanup(patch.stop)

    def begin(self, what):
        with open(os.path.join(self.folder, what), "w", encoding="ascii"):
            pass

    def end(self, what):
        os.remove(os.path.join(self.folder, what))

    def metrics(self, server):
        with urllib.request.urlopen(f"http://127.0.0.1:{server.port('page')}/metrics", timeout=PATIENCE) as answer:
            text = answer.read().decode()
        return {name: int(value) for name, value in re.findall(r"^wozgirt_grants_(written|lines_total|lines_lost_total) (\d+)$", text, re.M)}

    @needs_loopback
    def test_a_disk_that_is_full(self):
        """Locks are granted; the log and the metrics say so, and later the record how many lines are missing."""
        with self.server("--page", "127.0.0.1:0") as server, server.raw() as sock:
            say(sock, "acquire a 1\n")
            self.begin("full")
            self.assertEqual(say(sock, "acquire b 2\nrelease a 1\n", 2), ["granted b 1", "released a"])
            server.wait_for_log("grants-unwritten the record of grants cannot be written, and locks are granted without it: No space left")
            self.assertEqual(self.metrics(server), {"written": 0, "lines_total": 1, "lines_lost_total": 2})
            self.assertEqual(short(self.lines()), ["granted a 1"])  # nothing of a line that found no room
            self.end("full")

            def is_written():
                token = int(say(sock, "acquire c 3\n")[0].split()[2])
                say(sock, f"release c {token}\n")
                return len(self.lines()) > 1
            wait_until(is_written)
            gap = self.lines()[1]
            self.assertRegex(gap, r"^gap \d+ \d{4}-")
            server.wait_for_log(f"grants-written the record of grants is written again; {gap.split()[1]} lines are missing")
            lost = self.metrics(server)
            self.assertEqual((lost["written"], lost["lines_lost_total"]), (1, int(gap.split()[1])))
            self.assertEqual(server.text_of_log().count("grants-unwritten"), 1)

    def test_an_answer_waits_for_the_lines_before_it_and_others_do_not(self):
        """With syncs: as long as those are not on the disk."""
        with self.server(is_synced=True) as server, server.raw() as sock, server.raw() as other:
            self.begin("held")
            self.assertEqual(say(sock, "acquire a 1\n"), ["granted a 1"])  # none is before it
            sock.sendall(b"acquire b 1\n")
            self.wait_for("granted b 1")
            for _ in range(20):
                self.assertEqual(say(other, "ping\nstats c\n", 2)[0], "pong")
            sock.settimeout(0.3)
            with self.assertRaises(OSError):
                sock.recv(100)
            self.assertNotIn("grants-unwritten", server.text_of_log())
            self.end("held")
            sock.settimeout(PATIENCE)
            self.assertEqual(read_lines(sock, 1), ["granted b 1"])
            self.assertEqual(say(sock, "release a 1\nacquire c 1\n", 2), ["released a", "granted c 1"])

    def test_a_disk_that_hangs_is_not_waited_for(self):
        with self.server(is_synced=True) as server, server.raw() as sock:
            self.begin("held")
            begun = time.monotonic()
            self.assertEqual(say(sock, "acquire a 1\n"), ["granted a 1"])
            self.assertEqual(say(sock, "acquire b 1\n"), ["granted b 1"])
            self.assertGreaterEqual(time.monotonic() - begun, 1.9)
            self.assertEqual(say(sock, "release a 1\n"), ["released a"])
            server.wait_for_log("grants-unwritten", "the disk does not take them in time")
            self.end("held")

            def is_well():
                token = int(say(sock, "acquire c 3\n")[0].split()[2])
                say(sock, f"release c {token}\n")
                return "grants-written" in server.text_of_log()
            wait_until(is_well)
        self.assertEqual(short(self.lines())[:2], ["granted a 1", "granted b 1"])

    def test_syncs_that_fail(self):
        with self.server(is_synced=True) as server, server.raw() as sock:
            say(sock, "acquire a 1\n")
            self.begin("bad")
            self.assertEqual(say(sock, "acquire b 1\n"), ["granted b 1"])
            server.wait_for_log("grants-unwritten", "Input/output error")
            self.end("bad")

            def has_gap():
                token = int(say(sock, "acquire c 3\n")[0].split()[2])
                say(sock, f"release c {token}\n")
                return any(line.startswith("gap ") for line in self.lines())
            wait_until(has_gap)

    def test_what_was_asked_is_answered_at_the_end(self):
        with self.server(is_synced=True) as server, server.raw() as sock:
            self.begin("held")
            say(sock, "acquire a 1\n")
            sock.sendall(b"acquire b 1\n")
            self.wait_for("granted b 1")
            server.process.send_signal(signal.SIGTERM)
            server.wait_for_log("stopping")
            self.end("held")
            self.assertEqual(read_lines(sock, 1), ["granted b 1"])


if __name__ == "__main__":
    unittest.main()
