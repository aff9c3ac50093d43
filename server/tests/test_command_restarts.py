"""`wozgirt lock` beside restarts of its one server: COMMAND runs on, and holds the lock."""

import contextlib
import os
import signal
import subprocess
import time
import unittest

from harness import PATIENCE, COMMAND, a_port, at_least, by_the_clock, needs_loopback, needs_programs, say, wait_until
from test_cluster import granted
from test_restarts import Trial

#: COMMAND: it says its token, and ends by a line.
SCRIPT = "echo up $WOZGIRT_TOKEN; read line; echo down $WOZGIRT_TOKEN"


@needs_programs
class Commands(Trial):
    def start(self, place, *words):
        it = subprocess.Popen([COMMAND, "lock", *words], text=True, stdin=subprocess.PIPE, stdout=subprocess.PIPE, stderr=subprocess.PIPE,
                              env=dict(os.environ, WOZGIRT_SOCKET=place), start_new_session=True)
        self.addCleanup(self.close, it)
        return it

    @staticmethod
    def close(it):
        with contextlib.suppress(ProcessLookupError):
            os.killpg(it.pid, signal.SIGKILL)  # COMMAND too, which has the other end of its output
        it.communicate()

    def back(self, server, name, token):
        """The hold is a client's again."""
        def is_back():
            lines = server.operate("clients", 2).split("\n")
            return any(line.split()[3] == name for line in lines if line.startswith("client "))
        wait_until(is_back)
        self.assertEqual(server.operate(f"stats {name}").split()[6], str(token))

    def restarts(self, server, *words):
        self.restart_engine(server)
        yield server
        for number in (signal.SIGTERM, signal.SIGKILL):
            server = self.again(server, number, *words)
            yield server

    def test_command_runs_on(self):
        for words in ((), ("-o",), ("--lease", "20"), ("--no-wait",)):
            with self.subTest(words=words):
                server = self.server()
                it = self.start(server.path, *words, "a", "--", "sh", "-c", SCRIPT)
                token = int(it.stdout.readline().split()[1])
                for server in self.restarts(server):
                    self.back(server, "a", token)
                    with server.raw() as sock:
                        self.assertEqual(say(sock, "try a 1\n"), ["busy a"])
                self.assertEqual(it.communicate("x\n", timeout=PATIENCE), (f"down {token}\n", ""))
                self.assertEqual(it.returncode, 0)
                with server.raw() as sock:
                    self.assertEqual(say(sock, "try a 1\n"), [f"granted a {token + 1}"])
                self.end(server)

    @needs_loopback
    def test_command_runs_on_over_tcp(self):
        port = a_port(self)
        words = ("--tcp", f"127.0.0.1:{port}")
        server = self.server(*words)
        it = self.start(f"tcp:127.0.0.1:{port}", "a", "--", "sh", "-c", SCRIPT)
        self.assertEqual(it.stdout.readline(), "up 1\n")
        for server in self.restarts(server, *words):
            self.back(server, "a", 1)
        self.assertEqual(it.communicate("x\n", timeout=PATIENCE), ("down 1\n", ""))

    def test_who_waits_keeps_its_place(self):
        server = self.server()
        first = self.start(server.path, "a", "--", "sh", "-c", SCRIPT)
        self.assertEqual(first.stdout.readline(), "up 1\n")
        second = self.start(server.path, "a", "--", "sh", "-c", SCRIPT)
        server.wait_for_waiters("a", 1)
        third = self.start(server.path, "--wait", str(PATIENCE), "a", "--", "sh", "-c", SCRIPT)
        server.wait_for_waiters("a", 2)
        for server in self.restarts(server):
            server.wait_for_waiters("a", 2)
            self.back(server, "a", 1)
        for it, token in ((first, 1), (second, 2), (third, 3)):
            if token > 1:
                self.assertEqual(it.stdout.readline(), f"up {token}\n")
            self.assertEqual(it.communicate("x\n", timeout=PATIENCE), (f"down {token}\n", ""))
            self.assertEqual(it.returncode, 0)

    @by_the_clock
    def test_command_is_ended_if_no_server_comes_back(self, longer):
        """When half of the time is over for which a server would keep the lock, and no server is there."""
        keep = 2 * longer
        server = self.server(lease=str(keep))
        it = self.start(server.path, "a", "--", "sh", "-c", "echo up; exec sleep 1000")
        self.assertEqual(it.stdout.readline(), "up\n")
        begun = time.monotonic()
        server.process.kill()
        self.assertEqual(it.wait(PATIENCE), 75)
        took = time.monotonic() - begun
        at_least(keep / 2, begun)
        self.assertLess(took, keep)
        self.assertIn("the lock is lost", it.stderr.read())
        self.end(server)

    def test_the_lock_is_free_at_once_if_all_who_keep_it_are_killed(self):
        """Also after a restart, when the connection is that of `wozgirt` alone; and not when the server keeps sessions no longer."""
        lease = str(10 * PATIENCE)
        server = self.server(lease=lease)
        for is_restarted in (False, True):
            it = self.start(server.path, "-o", "a", "--", "sh", "-c", "echo $WOZGIRT_TOKEN $$; exec sleep 1000")
            token, command = map(int, it.stdout.readline().split())
            if is_restarted:
                server = self.again(server, signal.SIGTERM, lease=lease)
                self.back(server, "a", token)
            it.kill()
            with server.raw() as sock:
                sock.sendall(b"acquire a 1\n")
                self.assertEqual(granted(sock), f"granted a {token + 1}")
            os.kill(command, signal.SIGKILL)

    @by_the_clock
    def test_a_server_without_sessions(self, _):
        """It ends what its clients hold; COMMAND is ended, as it was before there were sessions."""
        server = self.server("--no-sessions")
        it = self.start(server.path, "a", "--", "sh", "-c", "echo up; exec sleep 1000")
        self.assertEqual(it.stdout.readline(), "up\n")
        server.kill_engine()
        self.assertEqual(it.wait(PATIENCE), 75)
        self.assertIn("the server closed the connection", it.stderr.read())


if __name__ == "__main__":
    unittest.main()
