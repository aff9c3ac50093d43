"""Files with keys of sessions are for their owner alone, whatever the umask."""

import contextlib
import os
import unittest

from harness import needs_programs, say, wait_until
from test_cluster import Trial as OfCluster
from test_cluster import needs_strict
from test_restarts import Trial


@contextlib.contextmanager
def open_umask():
    """What is created meanwhile, others can read."""
    before = os.umask(0o022)
    try:
        yield
    finally:
        os.umask(before)


def modes(folder):
    """What others than the owner may do to a folder, and to the files in it."""
    return {name: os.stat(os.path.join(folder, name)).st_mode & 0o077 for name in [".", *os.listdir(folder)]}


@needs_programs
class Sessions(Trial):
    def start(self):
        with open_umask():
            server = self.server()
        with server.raw() as sock:
            self.assertEqual(say(sock, "session 7\n1 try a 1\n", 2)[0].split()[:2], ["session", "7"])
        self.end(server)

    def test_nobody_else_reads_them(self):
        self.start()
        folder = os.path.join(self.folder, "journal.sessions")
        found = modes(folder)
        self.assertEqual((found["."], found["sessions"]), (0, 0), found)

    def test_what_an_earlier_version_left_open(self):
        folder = os.path.join(self.folder, "journal.sessions")
        os.mkdir(folder)
        os.chmod(folder, 0o755)
        for name in ("sessions", "sessions.part", "holders"):
            with open(os.path.join(folder, name), "w", encoding="ascii"):
                pass
            os.chmod(os.path.join(folder, name), 0o644)
        self.start()
        found = modes(folder)
        self.assertEqual((found["."], found["sessions"]), (0, 0), found)


@needs_programs
@needs_strict
class Several(OfCluster):
    def test_nobody_else_reads_a_checkpoint(self):
        path = os.path.join(self.folder, "a", "journal", "CHECKPOINT")
        with open_umask():
            server = self.server("a", checkpoint=4)
            self.hand_over(server, count=5)
            wait_until(lambda: os.path.exists(path))
        self.assertEqual(os.stat(path).st_mode & 0o777, 0o600)
        self.end(server)
        os.chmod(path, 0o644)  # as an earlier version has left it
        server = self.server("a", checkpoint=4)
        self.assertEqual(os.stat(path).st_mode & 0o777, 0o600)


if __name__ == "__main__":
    unittest.main()
