"""The clients for asyncio: deadlines, cancellations, and servers that say what is wrong or nothing."""

import asyncio
import errno
import functools
import logging
import os
import random
import sys
import threading
import time
import unittest
from unittest import mock

sys.path.insert(0, os.path.join(os.path.dirname(os.path.abspath(__file__)), "..", "..", "..", "server", "tests"))

from harness import PATIENCE, Server, by_the_clock, needs_loopback, needs_programs, wait_until  # noqa: E402
from test_deadlines import LATE, WAIT, Stopped, silent_door  # noqa: E402
from test_sessions import Arbiter, Door  # noqa: E402
from times import or_never, patiently  # noqa: E402
from wozgirt import Holds, LockLost, NotInTime, aio  # noqa: E402

logging.getLogger("asyncio").setLevel(logging.ERROR)  # that a server is started in between takes long


def tried_again(test):
    """As that of test_deadlines, for a coroutine."""
    @functools.wraps(test)
    async def run(self, longer):
        self.longer = longer
        return await test(self)
    return by_the_clock(or_never(run))


class Timed(unittest.IsolatedAsyncioTestCase):
    longer = 1

    async def in_time(self, call, wait=WAIT, error=NotInTime):
        """Awaits it, which has to fail when its time is over; the error."""
        begun = time.monotonic()
        with self.assertRaises(error) as caught:
            await call
        took = time.monotonic() - begun
        self.assertGreaterEqual(took, wait - 0.01)
        self.assertLess(took, wait + LATE * self.longer)
        return caught.exception


@needs_programs
class Tasks(Timed):
    @tried_again
    async def test_an_engine_that_stands_still(self):
        with Server() as server:
            one, two = await aio.Client.connect(server.path), await aio.Client.connect(server.path, lease=20)
            with Stopped(server.engine_number()):
                self.assertIn("connection is closed", str(await self.in_time(one.acquire("a", wait=WAIT))))
                with self.assertRaises(LockLost):
                    one.check()
                with mock.patch("wozgirt.aio.INTERRUPTED", 1):
                    await self.in_time(asyncio.wait_for(two.acquire("a"), WAIT), error=asyncio.TimeoutError)
                self.assertIn("nothing was asked", str(await self.in_time(two.acquire("b", wait=WAIT))))
                await asyncio.sleep(1)
                with self.assertRaises(LockLost):
                    two.check()
                await self.in_time(aio.Lock(server.path, "b", wait=WAIT).acquire())
                await self.in_time(aio.Lock(server.path, "b").acquire(timeout=WAIT))
                await self.in_time(asyncio.wait_for(aio.Lock(server.path, "b").acquire(), WAIT), error=asyncio.TimeoutError)
                await one.close()
                await two.close()
            async with aio.Lock(server.path, "a", wait=PATIENCE), aio.Lock(server.path, "b", wait=PATIENCE):
                pass

    @tried_again
    async def test_a_server_that_stands_still(self):
        with Server() as server:
            client = await aio.Client.connect(server.path)
            with Stopped(server.process.pid):
                await self.in_time(asyncio.wait_for(client.acquire("a", wait=WAIT), 2 * WAIT))
                await self.in_time(aio.Lock(server.path, "b", wait=WAIT, lease=20).acquire())
                await self.in_time(aio.Client.connect(server.path, lease=20, timeout=WAIT), error=TimeoutError)
                await client.close()

    @tried_again
    @patiently
    async def test_what_is_withdrawn_leaves_the_client_as_it_was(self):
        with Server() as server:
            async with await aio.Client.connect(server.path) as one, await aio.Client.connect(server.path) as two:
                token, kept = await one.acquire("a"), await two.acquire("b")
                for wait in (WAIT, 0):
                    self.assertIn("no longer waited for", str(await self.in_time(two.acquire("a", wait=wait), wait=wait)))
                await self.in_time(asyncio.wait_for(two.acquire("a"), WAIT), error=asyncio.TimeoutError)
                self.assertEqual(server.waiters("a"), 0)
                await two.release("b", kept)
                await one.release("a", token)
                self.assertEqual(await two.acquire("a", wait=0), token + 1)

    @patiently
    async def test_cancelled_at_any_moment(self):
        chance = random.Random(5)
        with Server() as server:
            async with await aio.Client.connect(server.path) as client, await aio.Client.connect(server.path) as other:
                for label in range(1, 400):
                    other_task = asyncio.create_task(other.acquire("a"))
                    kind = client.try_acquire if label % 3 == 0 else client.acquire
                    task = asyncio.create_task(kind("a", label=label))
                    await asyncio.sleep(chance.random() * 0.0005)
                    task.cancel()
                    await other.release("a", await other_task)
                    try:
                        token = await task
                    except asyncio.CancelledError:
                        token = None
                        if client._undoing:  # the server took longer
                            await asyncio.wait(list(client._undoing))
                    held = (await client.status())[0]
                    if token is not None:
                        self.assertEqual((held.token, held.label), (token, label))
                        await client.release("a", token)
                    else:
                        self.assertNotEqual((held.state, held.label), ("held", label))
                self.assertEqual(server.waiters("a"), 0)

    async def test_status_of_tasks_at_once(self):
        with Server(locks="a,b") as server:
            async with await aio.Client.connect(server.path) as client:
                for told in await asyncio.gather(*(client.status() for _ in range(20))):
                    self.assertEqual([it.name for it in told], ["a", "b"])

    async def test_what_the_system_does_not_send_is_not_waited_for(self):
        class Full:
            """A socket whose other end is there, and that has no room."""

            def send(self, _):
                raise OSError(errno.ENOBUFS, "no room")

        with Server() as server:
            for call in ("acquire", "try_acquire", "release"):
                client = await aio.Client.connect(server.path)
                kept, client._sock = client._sock, Full()
                with self.assertRaisesRegex(LockLost, "no room"):
                    await asyncio.wait_for(getattr(client, call)("a", *[1] * (call == "release")), PATIENCE)
                with self.assertRaises(LockLost):
                    client.check()
                await client.close()
                kept.close()

    async def test_every_answer_is_life(self):
        with Server() as server:
            async with await aio.Client.connect(server.path, lease=20) as client:
                before = client._spoken
                await asyncio.sleep(0.05)
                await client.try_acquire("a")
                self.assertGreater(client._spoken, before + 0.04)


@needs_loopback
class Silent(Timed):
    @tried_again
    async def test_a_server_that_says_nothing(self):
        place, door = silent_door()
        with door:
            await self.in_time(aio.Lock(place, "a", wait=WAIT).acquire())
            await self.in_time(aio.Lock("tcp:%s:%d" % place, "a", wait=WAIT).acquire())
            await self.in_time(asyncio.wait_for(aio.Lock(place, "a").acquire(), WAIT), error=asyncio.TimeoutError)


@needs_loopback
class Several(Timed):
    def setUp(self):
        self.arbiter = Arbiter()
        self.doors = [Door(self.arbiter), Door(self.arbiter)]
        self.text = ",".join("tcp:%s:%d" % it.place for it in self.doors)

    def tearDown(self):
        for door in self.doors:
            door.is_silent = False
            door.close()

    async def test_a_lock_of_several(self):
        async with aio.Lock(self.text, "a", label=7, wait=PATIENCE) as token:
            self.assertEqual(token, 1)
            self.assertEqual(len(self.arbiter.holders), 1)
        self.assertEqual(self.arbiter.holders, {})

    async def test_a_hold_stays_while_servers_change(self):
        lock = aio.Lock([it.place for it in self.doors], "a")
        token = await lock.acquire()
        for door in self.doors:
            door.cut()
        for _ in range(20):
            self.assertTrue(lock.locked)
            await asyncio.sleep(0.01)
        self.assertEqual((await lock.client.status())[0].name, "a")
        self.assertEqual(self.arbiter.holders["a"][1], token)
        await lock.release()
        self.assertEqual(self.arbiter.holders, {})

    async def test_tasks_take_turns_and_are_cancelled(self):
        chance, inside, tokens = random.Random(9), [0], []

        async def work():
            async with await aio.Session.connect([it.place for it in self.doors]) as client:
                for _ in range(25):
                    task = asyncio.create_task(client.acquire("a", wait=PATIENCE))
                    if chance.random() < 0.4:
                        await asyncio.sleep(chance.random() * 0.02)
                        task.cancel()
                    try:
                        token = await task
                    except asyncio.CancelledError:
                        continue
                    inside[0] += 1
                    self.assertEqual(inside, [1])
                    tokens.append(token)
                    await asyncio.sleep(0)
                    inside[0] -= 1
                    await client.release("a", token)
        await asyncio.gather(*(work() for _ in range(4)))
        self.assertEqual(tokens, sorted(set(tokens)))
        wait_until(lambda: self.arbiter.holders == {})

    async def test_a_grant_that_crosses_a_cancellation(self):
        """It is given back before the next call has its turn, which waits for it."""
        async with await aio.Session.connect([it.place for it in self.doors]) as client:
            gate, acquired = threading.Event(), client._client._acquired

            def acquired_late(*words):
                token = acquired(*words)
                gate.wait(PATIENCE)
                return token
            with mock.patch.object(client._client, "_acquired", acquired_late):
                task = asyncio.create_task(client.acquire("a"))
                await asyncio.get_running_loop().run_in_executor(None, wait_until, lambda: self.arbiter.holders)
                task.cancel()
                with self.assertRaises(asyncio.CancelledError):
                    await task
                later = asyncio.create_task(client.acquire("a", wait=PATIENCE))
                await asyncio.sleep(0.1)
                gate.set()
                self.assertEqual(await later, 2)

    @tried_again
    async def test_servers_that_say_nothing(self):
        for door in self.doors:
            door.is_silent = True
        await self.in_time(aio.Lock(self.text, "a", wait=WAIT).acquire())
        for door in self.doors:
            door.is_silent = False

    @tried_again
    async def test_servers_that_fall_silent(self):
        async with await aio.Session.connect([it.place for it in self.doors]) as client:
            for door in self.doors:
                door.is_silent = True
            await self.in_time(client.acquire("a", wait=WAIT))
            await self.in_time(asyncio.wait_for(client.acquire("a"), WAIT), error=asyncio.TimeoutError)
            for door in self.doors:
                door.is_silent = False
            wait_until(client._client._is_quiet)
            self.assertEqual(self.arbiter.holders, {})
            with self.assertRaises(Holds):
                await client.acquire("a")
                await client.acquire("a")


if __name__ == "__main__":
    unittest.main()
