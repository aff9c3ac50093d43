"""Locks for threads, with the library that WOZGIRT_LIBRARY names."""

import copy
import os
import signal
import sys
import threading
import time
import unittest

sys.path.insert(0, os.path.join(os.path.dirname(os.path.abspath(__file__)), "..", "..", "..", "server", "tests"))

from harness import PATIENCE, by_the_clock  # noqa: E402
from wozgirt import NotInTime, local  # noqa: E402
from wozgirt.local import Locks  # noqa: E402

needs_library = unittest.skipUnless(os.environ.get("WOZGIRT_LIBRARY"), "WOZGIRT_LIBRARY names no library of rings")


def waiting(locks, count):
    """Waits until so many threads wait."""
    end = time.monotonic() + PATIENCE
    while len(locks._waiters) != count:
        if time.monotonic() > end:
            raise AssertionError(f"{len(locks._waiters)} threads wait")
        time.sleep(0.001)


class Asker(threading.Thread):
    """A thread that acquires lock 0 and then, when it is told so, releases it."""

    def __init__(self, locks, wait=None):
        super().__init__(daemon=True)
        self.locks, self.wait, self.token, self.error, self.told = locks, wait, None, None, threading.Event()
        self.start()

    def run(self):
        try:
            with self.locks.hold(0, wait=self.wait) as self.token:
                self.told.wait(PATIENCE)
        except Exception as error:  # what it is told
            self.error = error

    def end(self):
        self.told.set()
        self.join(PATIENCE)


class Numbers(unittest.TestCase):
    def test_what_cannot_be(self):
        it = Locks.__new__(Locks)
        for call in (lambda: Locks(-1), lambda: Locks(1, 2 ** 32), lambda: it.acquire(-1), lambda: it.acquire(0, order=2 ** 64),
                     lambda: it.try_acquire(2 ** 32), lambda: it.release(0, -1), lambda: it.release(2 ** 32, 1)):
            with self.assertRaises(ValueError):
                call()
        for call in (lambda: Locks(True), lambda: it.acquire(0.0), lambda: it.release(0, "1")):
            with self.assertRaises(TypeError):
                call()


@needs_library
class LocksOfThreads(unittest.TestCase):
    def test_exclusion_and_tokens(self):
        inside, most, tokens = [0], [0], []
        with Locks(2, 4) as locks:
            def work():
                for _ in range(100):
                    with locks.hold(1) as token:
                        inside[0] += 1
                        most[0] = max(most[0], inside[0])
                        tokens.append(token)
                        inside[0] -= 1

            threads = [threading.Thread(target=work) for _ in range(6)]
            [thread.start() for thread in threads]
            [thread.join() for thread in threads]
        self.assertEqual((most, tokens), ([1], list(range(1, 601))))

    def test_the_order_of_the_asks(self):
        with Locks(1) as locks:
            first = locks.acquire(0)
            askers = []
            for count in range(1, 4):
                askers.append(Asker(locks))
                waiting(locks, count)
            locks.release(0, first)
            for left, asker in enumerate(askers):
                waiting(locks, 2 - left)
                asker.end()
            self.assertEqual([asker.token for asker in askers], [2, 3, 4])

    def test_not_in_time(self):
        with Locks(1) as locks:
            token = locks.acquire(0, wait=0)
            late = Asker(locks, 0.05)
            late.join(PATIENCE)
            self.assertIsInstance(late.error, NotInTime)
            self.assertIsNone(late.token)
            locks.release(0, token)
            self.assertEqual(locks.try_acquire(0), 2)

    @by_the_clock
    def test_a_grant_that_crosses_the_end_of_the_wait(self, longer):
        with Locks(1) as locks:
            token = locks.acquire(0)
            late = Asker(locks, 0.5 * longer)
            waiting(locks, 1)
            with locks._mutex:
                time.sleep(longer)  # the time is over, and the thread cannot say so yet
                locks._ask("release", threading.get_ident(), 0, token)
            waiting(locks, 0)
            late.end()
            self.assertEqual((late.token, late.error), (2, None))
            self.assertEqual(locks.try_acquire(0), 3)

    @unittest.skipUnless(threading.current_thread() is threading.main_thread(), "signals go to the main thread")
    def test_an_interrupt(self):
        def stop(*_):
            raise KeyboardInterrupt

        before = signal.signal(signal.SIGUSR1, stop)
        try:
            with Locks(1) as locks:
                holder = Asker(locks)
                while holder.token is None:
                    time.sleep(0.001)
                threading.Thread(target=lambda: waiting(locks, 1) or os.kill(os.getpid(), signal.SIGUSR1)).start()
                with self.assertRaises(KeyboardInterrupt):
                    locks.acquire(0, wait=PATIENCE)
                self.assertEqual(locks._waiters, {})
                holder.end()
                self.assertEqual(locks.try_acquire(0), 2)
        finally:
            signal.signal(signal.SIGUSR1, before)

    def test_refusals(self):
        with self.assertRaises(local.BadLocks):
            Locks(0)
        with self.assertRaises(local.BadMachines):
            Locks(1, 1)
        with Locks(2) as locks:
            token = locks.acquire(0)
            for call, error in ((lambda: locks.acquire(0), local.Holds), (lambda: locks.try_acquire(0), local.Holds),
                                (lambda: locks.acquire(2), local.NoLock), (lambda: locks.release(0, token + 1), local.NotHeld),
                                (lambda: locks.release(1, token), local.NotHeld)):
                with self.assertRaises(error):
                    call()
            told = []

            def other():
                try:
                    locks.release(0, token)
                except local.NotHeld as error:
                    told.append(str(error))

            thread = threading.Thread(target=other)
            thread.start()
            thread.join()
            self.assertEqual(told, ["the client does not hold the lock with this token"])

    def test_a_circle(self):
        with Locks(2) as locks:
            locks.acquire(1)
            holds, told = threading.Event(), []

            def other():
                locks.acquire(0)
                holds.set()
                told.append(locks.acquire(1))
                locks.leave()

            thread = threading.Thread(target=other)
            thread.start()
            holds.wait(PATIENCE)
            waiting(locks, 1)
            with self.assertRaises(local.Circle):
                locks.acquire(0)
            locks.leave()
            thread.join(PATIENCE)
            self.assertEqual(told, [2])
            self.assertEqual((locks.acquire(0), locks.acquire(1)), (2, 3))

    def test_closing(self):
        locks = Locks(1)
        token = locks.acquire(0)
        asker = Asker(locks)
        waiting(locks, 1)
        with self.assertRaises(RuntimeError):
            locks.close()
        locks.release(0, token)
        asker.end()
        locks.close()
        locks.close()
        self.assertFalse(locks)
        with self.assertRaises(local.Closed):
            locks.acquire(0)
        with self.assertRaises(TypeError):
            copy.copy(locks)


if __name__ == "__main__":
    unittest.main()
