"""A call ends when its time is over, whatever the engine, the server or the network does."""

import asyncio
import functools
import os
import signal
import socket
import sys
import tempfile
import threading
import time
import unittest

sys.path.insert(0, os.path.join(os.path.dirname(os.path.abspath(__file__)), "..", "..", "..", "server", "tests"))

from harness import PATIENCE, Server, by_the_clock, needs_loopback, needs_programs, wait_until  # noqa: E402
from times import or_never, patiently  # noqa: E402
from wozgirt import Client, Lock, LockLost, NotInTime, Session, aio  # noqa: E402
from wozgirt.client import WITHDRAW  # noqa: E402
from wozgirt.wire import connected  # noqa: E402

#: how long a call waits, and how much later it may end; on a machine that is busy that is more, see `by_the_clock`
WAIT, LATE = 0.3, 0.2


def tried_again(test):
    """As `by_the_clock`: calls may end so much later. No other time ends them, see `or_never`."""
    @functools.wraps(test)
    def run(self, longer):
        self.longer = longer
        return test(self)
    return by_the_clock(or_never(run))


class Stopped:
    """A process that stands still inside."""

    def __init__(self, number):
        self.number = number

    def __enter__(self):
        os.kill(self.number, signal.SIGSTOP)

    def __exit__(self, *_):
        os.kill(self.number, signal.SIGCONT)


class Timed(unittest.TestCase):
    longer = 1

    def in_time(self, call, *words, wait=WAIT, error=NotInTime):
        """Calls it, which has to fail when its time is over; the error."""
        begun = time.monotonic()
        with self.assertRaises(error) as caught:
            call(*words)
        took = time.monotonic() - begun
        self.assertGreaterEqual(took, wait - 0.01)
        self.assertLess(took, wait + LATE * self.longer)
        return caught.exception


def silent_door(folder=None):
    """A server that accepts nothing: who connects is in its queue, which takes one. Its place, and what keeps it up."""
    if folder is None:
        door = socket.create_server(("127.0.0.1", 0), backlog=0)
        return door.getsockname(), door
    door = socket.socket(socket.AF_UNIX)
    path = os.path.join(folder, "door")
    door.bind(path)
    door.listen(0)
    return path, door


class Times(unittest.TestCase):
    def test_of_a_withdrawal(self):
        """What a test that is late may not show."""
        self.assertLess(WITHDRAW, LATE)


@needs_programs
class StandingStill(Timed):
    @tried_again
    def test_the_engine(self):
        with Server() as server, Client(server.path) as client, Client(server.path, lease=20) as leased:
            with Stopped(server.engine_number()):
                for it in (client, leased):
                    self.assertIn("connection is closed", str(self.in_time(lambda: it.acquire("a", wait=WAIT))))
                    with self.assertRaises(LockLost):
                        it.check()
                self.in_time(Lock(server.path, "b", wait=WAIT).acquire)
                self.in_time(lambda: Lock(server.path, "b").acquire(timeout=WAIT))
            with Client(server.path) as other:
                for name in "ab":
                    other.acquire(name, wait=PATIENCE)

    @tried_again
    def test_the_engine_while_a_lock_is_waited_for(self):
        with Server() as server, Client(server.path) as one, Client(server.path) as two:
            one.acquire("a")
            timer = threading.Timer(WAIT / 2, os.kill, (server.engine_number(), signal.SIGSTOP))
            timer.start()
            try:
                self.in_time(lambda: two.acquire("a", wait=WAIT))
            finally:
                timer.join()
                os.kill(server.engine_number(), signal.SIGCONT)
            wait_until(lambda: server.waiters("a") == 0)

    @tried_again
    def test_the_server(self):
        with Server() as server, Client(server.path) as client:
            with Stopped(server.process.pid):
                self.in_time(lambda: client.acquire("a", wait=WAIT))
                self.in_time(Lock(server.path, "b", wait=WAIT).acquire)
                self.in_time(Lock(server.path, "b", wait=WAIT, lease=20).acquire)
                for lease in (20, None):
                    self.in_time(lambda: Client(server.path, lease=lease, timeout=WAIT), error=TimeoutError)
                    self.in_time(lambda: asyncio.run(aio.Client.connect(server.path, lease=lease, timeout=WAIT)), error=TimeoutError)

    @tried_again
    @patiently
    def test_what_is_withdrawn_leaves_the_client_as_it_was(self):
        with Server() as server, Client(server.path) as one, Client(server.path) as two:
            token, kept = one.acquire("a"), two.acquire("b")
            for wait in (WAIT, 0):
                self.assertIn("no longer waited for", str(self.in_time(lambda: two.acquire("a", wait=wait), wait=wait)))
                self.assertEqual(server.waiters("a"), 0)
            two.release("b", kept)
            one.release("a", token)
            self.assertEqual(two.acquire("a", wait=0), token + 1)

    @tried_again
    def test_a_client_that_another_thread_uses(self):
        with Server() as server, Client(server.path) as one, Client(server.path) as shared:
            token, got = one.acquire("a"), []
            thread = threading.Thread(target=lambda: got.append(shared.acquire("a")))
            thread.start()
            server.wait_for_waiters("a", 1)
            self.assertIn("nothing was asked", str(self.in_time(lambda: shared.acquire("b", wait=WAIT))))
            one.release("a", token)
            thread.join(PATIENCE)
            self.assertEqual(got, [token + 1])
            shared.release("a", token + 1)

    @tried_again
    def test_several_servers_that_stand_still(self):
        with Server() as one, Server() as two:
            with Stopped(one.process.pid), Stopped(two.process.pid):
                self.in_time(Lock([one.path, two.path], "a", wait=WAIT).acquire)
                self.in_time(lambda: Session([one.path, two.path], timeout=WAIT), error=OSError)


class FullQueue(Timed):
    def fill(self, folder):
        path, door = silent_door(folder)
        self.addCleanup(door.close)
        for _ in range(2):  # one more than the number of listen
            try:
                sock = socket.socket(socket.AF_UNIX)
                self.addCleanup(sock.close)
                sock.setblocking(False)
                sock.connect(path)
            except BlockingIOError:
                pass
        return path, door

    @tried_again
    def test_of_a_unix_socket(self):
        with tempfile.TemporaryDirectory(dir="/tmp") as folder:
            path, _ = self.fill(folder)
            self.in_time(connected, path, WAIT, error=TimeoutError)
            self.in_time(Lock(path, "a", wait=WAIT).acquire)

    def test_that_gets_room(self):
        with tempfile.TemporaryDirectory(dir="/tmp") as folder:
            path, door = self.fill(folder)
            timer = threading.Timer(0.2, lambda: [door.accept()[0].close() for _ in range(2)])
            timer.start()
            connected(path, PATIENCE).close()
            timer.join()


@needs_loopback
class HalfOpen(Timed):
    """A connection whose other end says nothing any more, as after a cut of the network."""

    @tried_again
    def test_a_server_that_says_nothing(self):
        place, door = silent_door()
        with door:
            self.in_time(Lock(place, "a", wait=WAIT).acquire)
            self.in_time(Lock("tcp:%s:%d" % place, "a", wait=WAIT).acquire)
            self.in_time(lambda: Client(place, timeout=WAIT), error=TimeoutError)

    @tried_again
    def test_a_server_that_falls_silent(self):
        place, door = silent_door()
        with door:
            def serve():
                sock, _ = door.accept()
                sock.recv(100)
                sock.sendall(b"lease 30000\n")
                return sock
            socks = []
            thread = threading.Thread(target=lambda: socks.append(serve()))
            thread.start()
            client = Client(place)
            thread.join()
            self.in_time(lambda: client.acquire("a", wait=WAIT))
            socks[0].close()
            client.close()


if __name__ == "__main__":
    unittest.main()
