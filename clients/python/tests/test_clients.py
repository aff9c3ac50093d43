"""The clients with a server and its engine."""

import asyncio
import logging
import os
import sys
import threading
import time
import unittest

sys.path.insert(0, os.path.join(os.path.dirname(os.path.abspath(__file__)), "..", "..", "..", "server", "tests"))

from harness import PATIENCE, Server, by_the_clock, needs_loopback, needs_programs  # noqa: E402
from times import patiently  # noqa: E402
from wozgirt import (Circle, Client, Holds, Lock, LockLost, NoSuchLock, NotHolder, NotInTime, TooMany, Waits,  # noqa: E402
                     aio)

logging.getLogger("asyncio").setLevel(logging.ERROR)  # that a server is started in between takes long


@needs_programs
class Threads(unittest.TestCase):
    def test_exclusion_and_tokens(self):
        with Server() as server:
            inside, most, tokens = [0], [0], []

            def work():
                with Client(server.path) as client:
                    for _ in range(200):
                        with Lock(client, "a", label=7) as token:
                            inside[0] += 1
                            most[0] = max(most[0], inside[0])
                            tokens.append(token)
                            inside[0] -= 1
            threads = [threading.Thread(target=work) for _ in range(6)]
            [t.start() for t in threads]
            [t.join() for t in threads]
            self.assertEqual(most, [1])
            self.assertEqual(tokens, list(range(1, 1201)))

    @patiently
    def test_not_in_time_and_try(self):
        with Server() as server, Client(server.path) as one, Client(server.path) as two:
            token = one.acquire("a")
            self.assertIsNone(two.try_acquire("a"))
            with self.assertRaises(NotInTime):
                two.acquire("a", wait=0.2)
            self.assertEqual(server.waiters("a"), 0)
            one.release("a", token)
            later = two.acquire("a", wait=PATIENCE)
            self.assertGreater(later, token)
            two.release("a", later)

    def test_errors_by_name(self):
        with Server("--waiters", "0") as server, Client(server.path) as one, Client(server.path) as two:
            token = one.acquire("a")
            with self.assertRaises(Holds):
                one.acquire("a")
            with self.assertRaises(NotHolder):
                two.release("a", token)
            with self.assertRaises(NoSuchLock):
                two.acquire("nothing")
            with self.assertRaises(TooMany):
                two.acquire("a")

    def test_as_many_locks_as_one_may_have(self):
        with Server("--most-holds", "1") as server, Client(server.path) as client:
            token = client.acquire("a")
            with self.assertRaises(TooMany) as caught:
                client.acquire("b")
            self.assertEqual((caught.exception.why, caught.exception.lock), ("many", "b"))
            client.release("a", token)
            client.release("b", client.acquire("b"))

    def test_circle(self):
        with Server() as server, Client(server.path) as one, Client(server.path) as two:
            one.acquire("a")
            two.acquire("b")
            got = []
            thread = threading.Thread(target=lambda: got.append(one.acquire("b")))
            thread.start()
            server.wait_for_waiters("b", 1)
            with self.assertRaises(Circle):
                two.acquire("a")
            two.leave()
            thread.join(PATIENCE)
            self.assertEqual(got, [2])

    def test_status(self):
        with Server(locks="a,b") as server, Client(server.path) as client:
            token = client.acquire("b", label=77)
            free, held = client.status()
            self.assertEqual((free.name, free.state, free.token, free.waiting), ("a", "free", None, 0))
            self.assertEqual((held.name, held.state, held.label, held.token, held.grants), ("b", "held", 77, token, 1))

    @by_the_clock
    def test_lease_is_kept_while_nothing_is_said(self, longer):
        lease = 0.8 * longer
        with Server(lease=lease) as server, Client(server.path, lease=lease) as client, Client(server.path) as other:
            client.acquire("a")
            time.sleep(1.5 * lease)
            client.check()
            self.assertIsNone(other.try_acquire("a"))

    @by_the_clock
    def test_lease_is_kept_while_waiting(self, longer):
        lease = 0.8 * longer
        with Server(lease=lease) as server, Client(server.path, lease=lease) as one, Client(server.path, lease=lease) as two:
            token = one.acquire("a")
            got = []
            thread = threading.Thread(target=lambda: got.append(two.acquire("a")))
            thread.start()
            time.sleep(1.5 * lease)
            one.release("a", token)
            thread.join(PATIENCE)
            self.assertEqual(got, [2])

    @by_the_clock
    def test_a_stopped_server_is_noticed_by_the_clock(self, longer):
        lease = 0.8 * longer
        with Server(lease=lease) as server, Client(server.path, lease=lease) as client:
            client.acquire("a")
            client.check()
            begun = time.monotonic()
            server.process.send_signal(19)
            with self.assertRaises(LockLost):
                is_over = False
                while not is_over:
                    is_over = time.monotonic() > begun + lease  # then it raises
                    client.check()
                    time.sleep(0.01)

    @by_the_clock
    def test_a_stopped_server_is_noticed_while_waiting(self, longer):
        lease = 0.8 * longer
        with Server(lease=lease) as server, Client(server.path) as one, Client(server.path, lease=lease) as two:
            one.acquire("a")
            errors, is_stopped = [], threading.Event()

            def work():
                try:
                    two.acquire("a")
                except LockLost as lost:
                    errors.append((lost, is_stopped.is_set()))
            thread = threading.Thread(target=work)
            thread.start()
            server.wait_for_waiters("a", 1)
            is_stopped.set()
            server.process.send_signal(19)
            thread.join(PATIENCE)
            self.assertEqual([was_stopped for _, was_stopped in errors], [True])

    def test_a_lost_lock(self):
        with Server(lease="0.3") as server:
            with self.assertRaises(LockLost):
                with Lock(server.path, "a") as token:
                    server.kill_engine()
            with Lock(server.path, "a", wait=PATIENCE) as later:
                self.assertGreater(later, token)

    def test_the_body_s_error_is_the_one_that_is_raised(self):
        with Server() as server:
            with self.assertRaises(ZeroDivisionError):
                with Lock(server.path, "a"):
                    server.kill_engine()
                    raise ZeroDivisionError

    def test_a_client_that_is_closed_in_the_midst_of_its_calls(self):
        with Server() as server, Client(server.path) as holder:
            holder.acquire("b")
            for i in range(30):
                client, told = Client(server.path, lease=None if i % 2 else 20), []

                def work(name):
                    try:
                        while True:
                            try:
                                client.release(name, client.acquire(name))
                            except (Holds, Waits):
                                pass  # another thread of this client does
                    except LockLost as lost:
                        told.append(str(lost))
                threads = [threading.Thread(target=work, args=("b" if i % 3 == 0 else "a",)) for _ in range(3)]
                [it.start() for it in threads]
                time.sleep(0.003 * (i % 4))
                client.close()
                [it.join(PATIENCE) for it in threads]
                self.assertEqual(told, ["the client is closed"] * 3)
                self.assertEqual(client.fileno(), -1)

    @needs_loopback
    def test_tcp(self):
        with Server("--tcp", "127.0.0.1:0") as server:
            with Lock(("127.0.0.1", server.port("clients")), "a") as token:
                self.assertEqual(token, 1)
                with Client(server.path) as other:
                    self.assertIsNone(other.try_acquire("a"))


@needs_programs
class Tasks(unittest.IsolatedAsyncioTestCase):
    async def test_exclusion(self):
        with Server() as server:
            inside, tokens = 0, []

            async def work():
                nonlocal inside
                async with await aio.Client.connect(server.path) as client:
                    for _ in range(50):
                        async with aio.Lock(client, "a") as token:
                            inside += 1
                            self.assertEqual(inside, 1)
                            tokens.append(token)
                            await asyncio.sleep(0)
                            inside -= 1
            await asyncio.gather(*(work() for _ in range(8)))
            self.assertEqual(tokens, list(range(1, 401)))

    @patiently
    async def test_not_in_time_and_errors(self):
        with Server() as server:
            one, two = await aio.Client.connect(server.path), await aio.Client.connect(server.path)
            token = await one.acquire("a", label=5)
            with self.assertRaises(NotInTime):
                await two.acquire("a", wait=0.1)
            self.assertIsNone(await two.try_acquire("a"))
            with self.assertRaises(NoSuchLock):
                await two.acquire("nothing")
            waits = asyncio.create_task(two.acquire("a"))
            await asyncio.get_running_loop().run_in_executor(None, server.wait_for_waiters, "a", 1)
            with self.assertRaises(Waits):
                await two.acquire("a")
            held = (await one.status())[0]
            self.assertEqual((held.label, held.token, held.waiting), (5, token, 1))
            await one.leave()
            self.assertEqual(await waits, 2)
            await one.close()
            await two.close()

    @patiently
    async def test_cancelled_at_each_moment(self):
        with Server() as server:
            one, two = await aio.Client.connect(server.path), await aio.Client.connect(server.path)
            token = await one.acquire("a")
            for i in range(200):
                task = asyncio.create_task(two.acquire("a"))
                for _ in range(i % 7):
                    await asyncio.sleep(0)
                release = asyncio.create_task(one.release("a", token))
                for _ in range(i // 7 % 9):
                    await asyncio.sleep(0)
                task.cancel()
                try:
                    await two.release("a", await task)
                except asyncio.CancelledError:
                    pass
                await release
                token = await one.acquire("a", wait=PATIENCE)  # so nothing is held that nobody knows of
            self.assertEqual(server.waiters("a"), 0)
            await one.close()
            await two.close()

    async def test_lost(self):
        with Server() as server:
            client = await aio.Client.connect(server.path)
            await client.acquire("a")
            waits = await aio.Client.connect(server.path, lease=20)
            task = asyncio.create_task(waits.acquire("a"))
            await asyncio.get_running_loop().run_in_executor(None, server.wait_for_waiters, "a", 1)
            server.process.kill()
            server.process.wait()
            with self.assertRaises(LockLost):
                await task

            def is_lost():
                try:
                    client.check()
                    return False
                except LockLost:
                    return True
            end = time.monotonic() + PATIENCE
            while not is_lost() and time.monotonic() < end:
                await asyncio.sleep(0.01)
            self.assertTrue(is_lost())
            await client.close()
            await waits.close()


if __name__ == "__main__":
    unittest.main()
