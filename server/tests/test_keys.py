"""Sessions of several servers: what was done is not done again, wherever a client goes on, and nobody else has them."""

import os
import re
import shutil
import signal
import socket
import subprocess
import sys
import unittest

from harness import PATIENCE, Server, by_the_clock, granted, needs_loopback, needs_programs, read_lines, say, wait_until
from test_cluster import Trial, granted_late, needs_strict

#: What another user tries: the session's key, and then a lock of its own.
OTHER_USER = """
import socket, sys
sock = socket.socket(socket.AF_UNIX)
sock.connect(sys.argv[1])
sock.sendall(b"session 77\\n")
print(sock.recv(100).decode(), end="")
sock.sendall(b"acquire b 9\\n")
print(sock.recv(100).decode(), end="")
"""


@needs_programs
@needs_strict
class Sessions(Trial):
    def test_what_was_done_is_not_done_again(self):
        a, b = self.server("a"), self.server("b")
        one, _ = self.session(a, 77)
        self.assertEqual(say(one, "1 acquire a 5\n"), ["1 granted a 1"])
        two, lines = self.session(b, 77, 1)
        self.assertEqual(lines, ["holds a 1"])
        self.assertEqual(one.recv(10), b"")  # it is there now
        self.assertEqual(say(two, "1 acquire a 5\n"), ["1 granted a 1"])
        self.assertEqual(say(two, "2 release a 1\n2 release a 1\n3 acquire a 5\n", 3), ["2 released a", "2 released a", "3 granted a 2"])
        self.assertEqual(say(two, "2 release a 1\nstats a\n", 2)[0], "2 refused past 3")
        self.assertEqual(say(two, "4 release a 1\n4 release a 1\n", 2), ["4 refused holder a"] * 2)
        self.assertEqual(a.calls(0), b.calls(0))

    def test_who_waits_goes_on_waiting(self):
        a, b = self.server("a"), self.server("b")
        holder, (waiter, _) = self.raw(a), self.session(a, 5)
        self.assertEqual(say(holder, "acquire a 1\n"), ["granted a 1"])
        self.assertEqual(say(waiter, "1 acquire a 2\n"), ["1 waiting a 0"])
        again, lines = self.session(b, 5, 1)
        self.assertEqual(lines, ["waits a"])
        self.assertEqual(say(again, "1 acquire a 2\n"), ["1 waiting a 0"])
        self.assertEqual(say(holder, "release a 1\n"), ["released a"])
        self.assertEqual(read_lines(again, 1), ["granted a 2"])
        self.assertEqual(say(again, "1 acquire a 2\n2 leave\n3 try a 4\n", 3), ["1 waiting a 0", "2 left", "3 granted a 3"])

    def test_what_was_said_just_before_the_end_of_a_connection_is_done(self):
        a, b = (self.server(name, lease="300") for name in "ab")
        one, _ = self.session(a, 77)
        self.assertEqual(say(one, "1 acquire a 5\n"), ["1 granted a 1"])
        a.process.send_signal(signal.SIGSTOP)
        one.sendall(b"2 release a 1\n")
        one.close()
        a.process.send_signal(signal.SIGCONT)
        other = self.raw(b)
        other.sendall(b"acquire a 1\n")
        self.assertEqual(granted(other), "granted a 2")

    def test_who_comes_twice_is_told_once(self):
        a = self.server("a")
        socks = [self.raw(a) for _ in range(5)]
        for i, sock in enumerate(socks):
            sock.sendall(f"session 6\n{i} acquire a 5\n".encode())
        for sock in socks[:4]:
            read_lines(sock, 9)  # to the end
        lines = []
        while not lines or not lines[-1].startswith("4 "):
            lines += read_lines(socks[4], 1)
        self.assertIn(lines, (["session 6 0", "4 granted a 1"], ["session 6 1", "holds a 1", "4 refused holds a"]))

    def test_a_leave_before_anything_else(self):
        a = self.server("a")
        sock, (other, _) = self.raw(a), self.session(a, 6)
        self.assertEqual(say(sock, "leave\nleave\n", 2), ["left", "left"])
        self.assertEqual(say(other, "1 leave\n2 leave\n3 acquire a 1\n3 acquire a 1\n", 4), ["1 left", "2 left", "3 granted a 1", "3 granted a 1"])

    def test_lines_of_a_session(self):
        with self.raw(self.server("a")) as sock:
            self.assertEqual(say(sock, "session 9\nsession 9\nacquire a 1\n3 ping\nping\n01 leave\n", 6), [
                "session 9 0", "refused syntax", "refused syntax", "refused syntax", "pong", "refused syntax"])
            self.assertEqual(say(sock, "1 acquire q 1\n2 stop\n", 2), ["1 refused lock q", "refused syntax"])
        with self.raw(self.server("b")) as sock:
            self.assertEqual(say(sock, "acquire a 1\nsession 9\n", 2), ["granted a 1", "refused syntax"])

    @by_the_clock
    def test_one_who_does_not_come_back(self, longer):
        a, b = (self.server(name, lease=str(0.5 * longer)) for name in "ab")
        (one, _), other = self.session(a, 3), self.raw(b)
        self.assertEqual(say(one, "1 acquire a 5\n"), ["1 granted a 1"])
        one.close()
        other.sendall(b"acquire a 5\n")
        self.assertEqual(granted_late(other), "granted a 2")
        wait_until(lambda: "did not come back; it held a" in a.text_of_log())
        self.session(b, 3)

    @by_the_clock
    def test_each_client_has_a_lease(self, longer):
        """Since a server that stands still tells its clients nothing, and its locks go to others."""
        a, b = (self.server(name, lease=str(longer)) for name in "ab")
        silent, other, told = self.raw(a), self.raw(b), f"lease {1000 * longer}"
        self.assertEqual(say(silent, "lease\nacquire a 1\n", 2), [told, "granted a 1"])
        self.assertEqual(say(other, "lease 100000\nlease\nacquire a 2\n", 3), [told, told, "waiting a 0"])
        self.assertEqual((granted_late(other), silent.recv(10)), ("granted a 2", b""))
        a.wait_for_log(" went (lease): ")
        with Server() as alone, alone.raw() as sock:
            self.assertEqual(say(sock, "lease\nlease 7\nlease\n", 3), ["lease 0", "lease 7", "lease 7"])

    def test_a_session_is_not_another_users(self):
        """Nor another address's: who only knows the key has nothing of it, and the client stays where it is."""
        a, b = (self.server(name, "--tcp", "127.0.0.1:0", "--mode", "666") for name in "ab")
        one, _ = self.session(a, 77)
        self.assertEqual(say(one, "1 acquire a 5\n"), ["1 granted a 1"])
        port = b.port("clients")

        def over_tcp(source):
            sock = socket.create_connection(("127.0.0.1", port), PATIENCE, (source, 0))
            self.addCleanup(sock.close)
            return say(sock, "session 77\nping\n", 2)[:2]
        if os.geteuid() == 0 and shutil.which("setpriv"):
            os.chmod(self.folder, 0o755)
            for server in (a, b):
                it = subprocess.run(["setpriv", "--reuid=65534", "--clear-groups", sys.executable, "-c", OTHER_USER, server.path],
                                    capture_output=True, text=True, timeout=PATIENCE, check=False)
                self.assertEqual(it.stdout.split("\n")[:2], ["refused session", "granted b 1" if server is a else "granted b 2"], it.stderr)
                # by number as long as the system has not said the name
                said = re.compile("refused, the session belongs to another user: (nobody|65534), process ")
                wait_until(lambda server=server, said=said: said.search(server.text_of_log()))
        self.assertEqual(say(one, "ping\n"), ["pong"])
        self.assertEqual(over_tcp("127.0.0.1"), ["session 77 1", "holds a 1"])  # its client may go from the socket to TCP
        self.assertEqual(over_tcp("127.0.0.2"), ["refused session", "pong"])
        self.assertEqual(one.recv(10), b"")
        two, lines = self.session(b, 77, 1)
        self.assertEqual((lines, say(two, "2 release a 1\n")), (["holds a 1"], ["2 released a"]))

    @needs_loopback
    def test_one_that_has_left_and_comes_back_to_a_session_of_somebody_else(self):
        """What it asks would have no answer, so its connection ends; when it says its key again, it hears why."""
        a, b = (self.server(name, "--tcp", "127.0.0.1:0") for name in "ab")

        def over_tcp(server, source):
            sock = socket.create_connection(("127.0.0.1", server.port("clients")), PATIENCE, (source, 0))
            self.addCleanup(sock.close)
            return sock
        one, two = over_tcp(a, "127.0.0.1"), over_tcp(b, "127.0.0.2")
        self.assertEqual(say(one, "session 77\n1 acquire a 5\n2 leave\n", 3), ["session 77 0", "1 granted a 1", "2 left"])
        self.assertEqual(say(two, "session 77\n1 acquire a 5\n", 2), ["session 77 0", "1 granted a 2"])
        self.assertEqual(say(one, "3 acquire b 5\n"), [])
        self.assertEqual(say(over_tcp(a, "127.0.0.1"), "session 77\nping\n", 2), ["refused session", "pong"])
        self.assertEqual(say(two, "2 release a 2\n"), ["2 released a"])

    def test_the_number_is_not_the_key(self):
        a = self.server("a")
        (one, _), (two, _) = self.session(a, 12345), self.session(a, 678)
        self.assertEqual(say(two, "1 acquire a 5\n"), ["1 granted a 1"])
        self.assertIn("lock a held 2 5 1 ", a.operate("status", 4))
        self.assertIn("client 2 30000 a - ", a.operate("clients", 4))
        self.assertEqual(say(two, "2 leave\n3 acquire b 5\n", 2), ["2 left", "3 granted b 1"])
        self.assertIn("lock b held 3 5 1 ", a.operate("status", 4))

    def test_no_session_is_attached(self):
        """The end of a connection says nothing if a client continues with the next server; a single server is not a cluster."""
        self.assertEqual(say(self.raw(self.server("a")), "session 1 attached\nacquire a 1\n", 2), ["refused session", "granted a 1"])
        with Server() as server:
            self.assertEqual(server.operate("cluster"), "refused cluster")


if __name__ == "__main__":
    unittest.main()
