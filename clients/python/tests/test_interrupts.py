"""Calls that a signal handler breaks off. interrupts.py runs the same for longer."""

import functools
import os
import signal
import sys
import threading
import time
import unittest

sys.path.insert(0, os.path.join(os.path.dirname(os.path.abspath(__file__)), "..", "..", "..", "server", "tests"))

import interrupts  # noqa: E402
from harness import PATIENCE, Server, needs_loopback, needs_programs, wait_until  # noqa: E402
from interrupts import Interrupt  # noqa: E402
from test_deadlines import tried_again  # noqa: E402
from test_sessions import Arbiter, Door  # noqa: E402
from wozgirt import Client, Lock, LockLost, Session  # noqa: E402

needs_main_thread = unittest.skipUnless(threading.current_thread() is threading.main_thread(), "signals go to the main thread")


def interrupted_after(case, seconds, call, *words, signals=1, **more):
    """Calls it, and interrupts it after so many seconds, by as many signals; how long it took then."""
    def stop(*_):
        raise Interrupt
    case.addCleanup(signal.signal, signal.SIGUSR1, signal.signal(signal.SIGUSR1, stop))
    begun = []

    def send():
        begun.append(time.monotonic())
        for _ in range(signals):
            os.kill(os.getpid(), signal.SIGUSR1)
            time.sleep(0.02)
    timer = threading.Timer(seconds, send)
    timer.start()
    try:
        with case.assertRaises(Interrupt):
            call(*words, **more)
            time.sleep(seconds + 1)
        return time.monotonic() - begun[0]
    finally:
        try:
            timer.join()
        except Interrupt:
            timer.join()


class Moments:
    """Raises at some moments: the first one so many after it is set, each other one so many after the one before."""

    def __init__(self):
        self.left = []

    def __call__(self):
        if self.left:
            self.left[0] -= 1
            if self.left[0] < 0:
                del self.left[0]
                raise Interrupt

    def of(self, kind, *but):
        """The same class, where these are the moments: before and after each of its own methods, but for some. There handlers run."""
        def broken(method):
            @functools.wraps(method)
            def run(*words, **more):
                self()
                answer = method(*words, **more)
                self()
                return answer
            return run
        names = {name for it in kind.__mro__ for name, what in vars(it).items()
                 if name.startswith("_") and not name.startswith("__") and callable(what) and name not in but}
        return type(kind.__name__, (kind,), {name: broken(getattr(kind, name)) for name in sorted(names)})


@needs_programs
class AtEachMoment(unittest.TestCase):
    """A call is broken off at each moment, and what cleans up then at each of the next ones, and again. Then nothing is held that its
    caller does not know of, as soon as the client has been called again, or has closed itself."""

    LATER = [(), *((it,) for it in range(14)), *((it, more) for it in range(6) for more in range(4))]

    def break_off(self, kind, but, begin, call, undo):
        """`begin` makes ready what is called, and `undo` gives back what a call has that was not broken off."""
        moments, broken_off = Moments(), 0
        kind = moments.of(kind, *but)
        with Server() as server, Client(server.path) as other:
            client = kind(server.path)
            for later in self.LATER:
                is_over, first = False, 0
                while not is_over:
                    what = begin(client, moments)
                    moments.left = [first, *later]
                    try:
                        call(client, what)
                        # no moment came; one may have, and have closed the client on the way
                        is_over = len(moments.left) == 1 + len(later)
                    except (Interrupt, LockLost):
                        pass
                    moments.left = []
                    if is_over:
                        undo(client, what)
                    broken_off += 1
                    if self.is_open(client):
                        token = other.try_acquire("a")
                        self.assertIsNotNone(token, f"it is kept after moments {first}, {later}")
                    else:
                        client.close()
                        client, token = kind(server.path), other.acquire("a", wait=PATIENCE)
                    other.release("a", token)
                    first += 1
            client.close()
        self.assertGreater(broken_off, 10 * len(self.LATER))

    @staticmethod
    def is_open(client):
        try:
            client.check()
            client.status()
            return True
        except LockLost:
            return False

    def test_an_acquire(self):
        self.break_off(Client, (), lambda *_: None, lambda client, _: client.acquire("a"), lambda client, _: client.leave())

    def test_an_acquire_with_a_deadline(self):
        self.break_off(Client, (), lambda *_: None, lambda client, _: client.acquire("a", wait=PATIENCE), lambda client, _: client.leave())

    def test_a_try(self):
        self.break_off(Client, (), lambda *_: None, lambda client, _: client.try_acquire("a"), lambda client, _: client.leave())

    def test_a_release(self):
        self.break_off(Client, ("_release",), lambda client, _: client.acquire("a"), lambda client, token: client.release("a", token),
                       lambda *_: None)

    def test_a_lock_over_a_client_that_is_shared(self):
        self.break_off(Client, (), lambda client, moments: moments.of(Lock)(client, "a"), lambda _, lock: lock.acquire(),
                       lambda _, lock: lock.release())

    def test_a_lock_over_a_client_that_is_shared_is_released(self):
        def begin(client, moments):
            lock = moments.of(Lock, "_let_go")(client, "a")
            lock.acquire()
            return lock
        self.break_off(Client, (), begin, lambda _, lock: lock.release(), lambda *_: None)


@needs_programs
@needs_main_thread
class OfOneServer(unittest.TestCase):
    def test_nothing_is_believed_that_is_not_so(self):
        before, timer = signal.getsignal(signal.SIGALRM), signal.setitimer(signal.ITIMER_REAL, 0)
        try:
            trial = interrupts.run(20_000, seed=3, seconds=8)
        finally:
            signal.signal(signal.SIGALRM, before)
            signal.setitimer(signal.ITIMER_REAL, *timer)  # that of run.py
        self.assertEqual((trial.wrong, trial.another, trial.kept, trial.odd), (0, 0, 0, 0), trial.line())
        self.assertGreater(trial.interrupted, trial.calls / 50, trial.line())

    def test_a_wait_that_is_interrupted_is_withdrawn(self):
        with Server() as server, Client(server.path) as one, Client(server.path) as two:
            token, kept = one.acquire("a"), two.acquire("b")
            interrupted_after(self, 0.1, two.acquire, "a")
            self.assertEqual(server.waiters("a"), 0)
            two.check()
            two.release("b", kept)
            one.release("a", token)
            self.assertEqual(two.acquire("a", wait=PATIENCE), token + 1)

    def test_a_call_to_an_engine_that_stands_still_ends_soon(self):
        with Server() as server, Client(server.path) as client:
            engine = server.engine_number()
            os.kill(engine, signal.SIGSTOP)
            try:
                took = interrupted_after(self, 0.1, client.acquire, "a")
                self.assertLess(took, 5)
                with self.assertRaises(LockLost):
                    client.check()
            finally:
                os.kill(engine, signal.SIGCONT)
            with Client(server.path) as other:
                other.acquire("a", wait=PATIENCE)

    @tried_again
    def test_the_clean_up_is_interrupted_too(self):
        with Server() as server, Client(server.path) as client:
            engine = server.engine_number()
            os.kill(engine, signal.SIGSTOP)
            try:
                took = interrupted_after(self, 0.1, client.acquire, "a", signals=2)
                self.assertLess(took, 0.9)
                with self.assertRaises(LockLost):
                    client.status()
            finally:
                os.kill(engine, signal.SIGCONT)
            with Client(server.path) as other:
                other.acquire("a", wait=PATIENCE)

    def test_an_interrupted_lock_is_free(self):
        with Server() as server, Client(server.path) as other:
            token = other.acquire("a")
            lock = Lock(server.path, "a")
            interrupted_after(self, 0.1, lock.acquire)
            self.assertFalse(lock.locked)
            wait_until(lambda: server.waiters("a") == 0)
            other.release("a", token)
            with lock as later:
                self.assertEqual(later, token + 1)

    def test_a_handler_calls_the_client(self):
        with Server() as server, Client(server.path) as one, Client(server.path) as two:
            one.acquire("a")
            told = []

            def handler(*_):
                two.check()
                try:
                    two.status()
                except RuntimeError as refused:
                    told.append(refused)
                two.close()
            before = signal.signal(signal.SIGUSR1, handler)
            try:
                timer = threading.Timer(0.1, os.kill, (os.getpid(), signal.SIGUSR1))
                timer.start()
                with self.assertRaises(LockLost):
                    two.acquire("a", wait=PATIENCE)
                timer.join()
            finally:
                signal.signal(signal.SIGUSR1, before)
            self.assertEqual(len(told), 1)


@needs_loopback
@needs_main_thread
class OfSeveralServers(unittest.TestCase):
    def setUp(self):
        self.arbiter = Arbiter()
        self.doors = [Door(self.arbiter), Door(self.arbiter)]
        for door in self.doors:
            self.addCleanup(door.close)

    def session(self, **more):
        client = Session([it.place for it in self.doors], **more)
        self.addCleanup(client.close)
        return client

    def silence(self, is_silent):
        for door in self.doors:
            door.is_silent = is_silent

    def test_a_hold_is_not_left_over(self):
        client, other = self.session(), self.session()
        self.silence(True)
        self.addCleanup(self.silence, False)
        interrupted_after(self, 0.1, client.acquire, "a")
        self.silence(False)
        wait_until(lambda: client._is_quiet())  # the thread that keeps the lease withdraws it
        self.assertEqual(self.arbiter.holders, {})
        token = other.acquire("a", wait=PATIENCE)
        other.release("a", token)
        self.assertEqual(client.acquire("a", wait=PATIENCE), token + 1)

    def test_a_wait_is_withdrawn_and_what_is_held_stays(self):
        client, other = self.session(), self.session()
        other.acquire("a")
        kept = client.acquire("b")
        interrupted_after(self, 0.1, client.acquire, "a")
        self.assertEqual(self.arbiter.lines["a"], [])
        client.check()
        client.release("b", kept)

    def test_calls_with_interrupts(self):
        client, other, chance = self.session(), self.session(), interrupts.random.Random(11)
        is_over, wrong = threading.Event(), []

        def compete():
            while not is_over.is_set():
                token = other.acquire("a", wait=PATIENCE)
                other.release("a", token)
        thread = threading.Thread(target=compete)
        thread.start()
        trial = interrupts.Trial(None, 11, client=client)
        try:
            self.addCleanup(signal.signal, signal.SIGALRM, signal.getsignal(signal.SIGALRM))
            timer = signal.setitimer(signal.ITIMER_REAL, 0)
            self.addCleanup(signal.setitimer, signal.ITIMER_REAL, *timer)
            signal.signal(signal.SIGALRM, trial.interrupt)
            begun = time.monotonic()
            while time.monotonic() < begun + 4 or trial.interrupted < 20 and time.monotonic() < begun + PATIENCE:
                if chance.random() < 0.01:
                    self.doors[client._at].cut()
                _, token = trial.call(client.acquire, "a")
                if token is not None:
                    if self.arbiter.holders.get("a") != (client._key, token):
                        wrong.append(token)
                    trial.call(client.release, "a", token)
                    client.status()  # what was broken off twice is put in order
                    if self.arbiter.holders.get("a", (0,))[0] == client._key:
                        client.release("a", token)
        finally:
            is_over.set()
            client.leave()
            thread.join(PATIENCE)
        self.assertEqual((wrong, trial.odd, trial.kept, trial.closed), ([], 0, 0, 0), trial.line())
        self.assertGreater(trial.interrupted, 10)


if __name__ == "__main__":
    unittest.main()
