"""A lease is kept as long as its client is served. leases.py tries it for longer."""

import asyncio
import os
import signal
import sys
import threading
import time
import unittest

sys.path.insert(0, os.path.join(os.path.dirname(os.path.abspath(__file__)), "..", "..", "..", "server", "tests"))

import leases  # noqa: E402
from harness import PATIENCE, Server, by_the_clock, needs_loopback, needs_programs  # noqa: E402
from test_cluster import Trial, needs_strict  # noqa: E402
from test_sessions import Arbiter, Door  # noqa: E402
from wozgirt import Client, Lock, LockLost, Session, aio  # noqa: E402


@needs_programs
class Kept(unittest.TestCase):
    @by_the_clock
    def test_threads_that_wait_in_turns(self, longer):
        turns = leases.run(6 * longer ** 0.5, 1.0 * longer)
        self.assertEqual(turns.faults, [], f"silent {turns.silent}")
        self.assertGreater(turns.calls, 10)

    def test_every_answer_is_life_since_its_question(self):
        with Server() as server, Client(server.path, lease=20) as client, Client(server.path) as other:
            calls = (lambda: client.acquire("a"), lambda: client.try_acquire("b"), client.status, lambda: client.release("b", 1),
                     client.leave)
            for call in calls:
                time.sleep(0.01)
                before = time.monotonic()
                self.assertLess(client._spoken, before)
                call()
                self.assertGreaterEqual(client._spoken, before)
                self.assertLess(client._spoken, time.monotonic())
            other.acquire("a")

    @by_the_clock
    def test_an_answer_that_comes_late_counts_from_its_question(self, longer):
        lease = 0.8 * longer
        with Server(lease=20) as server, Client(server.path, lease=lease) as client:
            os.kill(server.process.pid, signal.SIGSTOP)
            begun = time.monotonic()
            try:
                with self.assertRaises(LockLost):
                    client.acquire("a")
            finally:
                os.kill(server.process.pid, signal.SIGCONT)
            self.assertLess(time.monotonic() - begun, 1.5 * lease)
            with self.assertRaises(LockLost):
                client.check()


def keep_silent(server, lease):
    """Clients that ask for no lease hold a lock each, and say nothing for longer than the server's lease."""
    with Client(server.path) as client, Client(server.path) as other, Lock(server.path, "b", wait=PATIENCE):
        token = client.acquire("a", wait=PATIENCE)
        time.sleep(1.5 * lease)
        client.check()
        found = [other.try_acquire(name) for name in "ab"]
        client.release("a", token)
        return found


async def keep_silent_in_tasks(server, lease):
    """The same for asyncio."""
    client, other = await aio.Client.connect(server.path), await aio.Client.connect(server.path)
    async with client, other, aio.Lock(server.path, "b", wait=PATIENCE):
        token = await client.acquire("a", wait=PATIENCE)
        await asyncio.sleep(1.5 * lease)
        client.check()
        found = [await other.try_acquire(name) for name in "ab"]
        await client.release("a", token)
        return found


class Given(Trial):
    """Who asks for no lease on a Unix socket keeps the one that the server gives, if it gives one."""

    def keep(self, server, lease):
        self.assertEqual(keep_silent(server, lease), [None, None])
        self.assertEqual(asyncio.run(keep_silent_in_tasks(server, lease)), [None, None])
        self.assertNotIn("went (lease)", server.text_of_log())

    @needs_programs
    @needs_strict
    @by_the_clock
    def test_by_a_server_over_a_log(self, longer):
        self.keep(self.server(f"a{longer}", lease=0.8 * longer), 0.8 * longer)

    @needs_programs
    @by_the_clock
    def test_by_a_server_that_gives_one_to_all(self, longer):
        with Server("--lease-for-all", lease=0.8 * longer) as server:
            self.keep(server, 0.8 * longer)

    @needs_programs
    @needs_strict
    @by_the_clock
    def test_a_stopped_server_over_a_log_is_noticed(self, longer):
        lease = 0.8 * longer
        server = self.server(f"a{longer}", lease=lease)
        with Client(server.path) as client:
            client.acquire("a", wait=PATIENCE)
            os.kill(server.process.pid, signal.SIGSTOP)
            begun = time.monotonic()
            try:
                with self.assertRaises(LockLost):
                    is_over = False
                    while not is_over:
                        is_over = time.monotonic() > begun + lease  # then it raises
                        client.check()
                        time.sleep(0.01)
            finally:
                os.kill(server.process.pid, signal.SIGCONT)

    @needs_programs
    def test_by_a_single_server_there_is_none(self):
        async def tasks(path):
            before = asyncio.all_tasks()
            async with await aio.Client.connect(path):
                return len(asyncio.all_tasks() - before)
        before = threading.enumerate()
        with Server() as server:
            with Client(server.path), Lock(server.path, "a"):
                self.assertEqual([it.name for it in threading.enumerate() if it not in before], [])
            self.assertEqual(asyncio.run(tasks(server.path)), 1)  # the one that reads
            with Client(server.path, lease=20), Lock(server.path, "a", lease=20):
                self.assertEqual([it.name for it in threading.enumerate() if it not in before], ["wozgirt-lease"] * 2)


@needs_loopback
class OfSeveralServers(unittest.TestCase):
    def test_every_answer_is_life_since_its_question(self):
        arbiter = Arbiter()
        door = Door(arbiter)
        self.addCleanup(door.close)
        with Session([door.place], lease=20) as client:
            for call in (lambda: client.acquire("a"), client.status, client.leave):
                time.sleep(0.01)
                before = time.monotonic()
                call()
                self.assertGreaterEqual(client._spoken, before)


if __name__ == "__main__":
    unittest.main()
