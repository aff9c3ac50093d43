"""`Lock`, for threads and for asyncio: what it offers, and what a child of a fork may do."""

import asyncio
import gc
import os
import pathlib
import signal
import socket
import sys
import tempfile
import threading
import time
import unittest

sys.path.insert(0, os.path.join(os.path.dirname(os.path.abspath(__file__)), "..", "..", "..", "server", "tests"))

from harness import FOLDER, PATIENCE, Server, needs_loopback, needs_programs, wait_until  # noqa: E402
from test_sessions import Arbiter, Door  # noqa: E402
from wozgirt import Client, Holds, Inherited, Lock, LockError, LockLost, NotInTime, Session, TooMany, aio, lines, wire  # noqa: E402


def in_child(do):
    """What it returns in a child that is forked here, a number below 100; 100 if it fails."""
    sys.stdout.flush()
    child = os.fork()
    if child == 0:
        code = 100
        try:
            code = do()
        except SystemExit as end:
            code = end.code
        finally:
            os._exit(code)
    end = time.monotonic() + PATIENCE
    while time.monotonic() < end:
        found, status = os.waitpid(child, os.WNOHANG)
        if found:
            return os.waitstatus_to_exitcode(status) if hasattr(os, "waitstatus_to_exitcode") else status >> 8
        time.sleep(0.005)
    os.kill(child, signal.SIGKILL)
    os.waitpid(child, 0)
    raise AssertionError("the child hangs")


def raises(error, do, *words):
    """Whether it raises this."""
    try:
        do(*words)
        return False
    except error:
        return True


class NoServer(unittest.TestCase):
    """What is said of a server that is not there, and how long one that may be starting is waited for."""

    def setUp(self):
        folder = tempfile.TemporaryDirectory(dir=FOLDER)
        self.addCleanup(folder.cleanup)
        self.path = os.path.join(folder.name, "door")

    def test_the_fault_names_the_place(self):
        for connect in (wire.connected, lambda path: asyncio.run(aio._connected(path, 0.0, 0.0))):
            for path, hint in ((self.path, ""), ("127.0.0.1:7100", " (a server over TCP is tcp:127.0.0.1:7100)")):
                with self.assertRaises(FileNotFoundError) as raised:
                    connect(path)
                self.assertEqual(str(raised.exception), f"[Errno 2] No such file or directory{hint}: {path!r}")
        with socket.socket(socket.AF_UNIX) as door, self.assertRaises(ConnectionRefusedError) as raised:
            door.bind(self.path)
            wire.connected(self.path)
        self.assertEqual(raised.exception.filename, self.path)

    def test_it_is_waited_for_no_longer_than_asked(self):
        begun = time.monotonic()
        with self.assertRaises(NotInTime):
            Lock(self.path, "a", wait=0.3).acquire()
        self.assertGreater(time.monotonic() - begun, 0.29)
        with self.assertRaises(FileNotFoundError):
            Client(self.path, timeout=0.3)

    @needs_programs
    def test_one_that_starts(self):
        async def taken():
            async with aio.Lock(self.path, "a") as token:
                return token

        for take in (lambda: Lock(self.path, "a").__enter__(), lambda: asyncio.run(taken())):
            with Server() as server:
                timer = threading.Timer(0.3, os.symlink, (server.path, self.path))
                timer.start()
                self.assertEqual(take(), 1)
                timer.join()
            os.remove(self.path)


@needs_programs
class OfThreads(unittest.TestCase):
    def test_acquire_and_release(self):
        with Server() as server:
            lock, other = Lock(server.path, "a", label=5), Lock(server.path, "a")
            self.assertEqual((lock.locked, lock.token), (False, None))
            self.assertEqual(repr(lock), f"<wozgirt.lock.Lock 'a' at {server.path!r}, not held>")
            token = lock.acquire()
            self.assertEqual(repr(lock), f"<wozgirt.lock.Lock 'a' at {server.path!r}, token {token}>")
            self.assertEqual((lock.locked, lock.token, token), (True, 1, 1))
            lock.check()
            got = []
            thread = threading.Thread(target=lambda: got.append(raises(NotInTime, lambda: other.acquire(timeout=0.1))))
            thread.start()
            thread.join(PATIENCE)
            self.assertEqual(got, [True])
            server.wait_for_waiters("a", 0)
            with self.assertRaises(RuntimeError):
                lock.acquire()
            lock.release()
            self.assertEqual((lock.locked, lock.token), (False, None))
            with self.assertRaises(RuntimeError):
                lock.release()
            with self.assertRaises(RuntimeError):
                lock.check()
            self.assertEqual(other.acquire(timeout=None), 2)
            other.release()
            for wrong in (-1, float("nan")):
                with self.assertRaises(ValueError):
                    lock.acquire(timeout=wrong)

    def test_a_release_inside(self):
        with Server() as server, Client(server.path) as client:
            for place in (server.path, client):
                lock = Lock(place, "a")
                with lock:
                    lock.release()
                    self.assertFalse(lock.locked)

    def test_the_timeout_is_that_of_the_object_if_none_is_given(self):
        with Server() as server, Client(server.path) as other:
            token = other.acquire("a")
            lock = Lock(server.path, "a", wait=0.05)
            with self.assertRaises(NotInTime):
                lock.acquire()
            server.wait_for_waiters("a", 0)
            timer = threading.Timer(0.3, other.release, ("a", token))
            timer.start()
            self.assertEqual(lock.acquire(timeout=PATIENCE), token + 1)
            timer.join()
            lock.release()

    def test_a_lost_lock_is_not_locked(self):
        with Server(lease="0.3") as server:
            lock = Lock(server.path, "a")
            lock.acquire()
            server.kill_engine()
            wait_until(lambda: not lock.locked)
            with self.assertRaises(LockLost):
                lock.release()

    def test_a_decorator(self):
        with Server() as server:
            inside, most, runs = [0], [0], []

            @Lock(server.path, "a", wait=PATIENCE)
            def work(number, *, more=0):
                """Does it."""
                inside[0] += 1
                most[0] = max(most[0], inside[0])
                time.sleep(0.002)
                runs.append(number + more)
                inside[0] -= 1
                return number * 2
            self.assertEqual((work.__name__, work.__doc__), ("work", "Does it."))
            threads = [threading.Thread(target=work, args=(i,)) for i in range(5)]
            [it.start() for it in threads]
            [it.join(PATIENCE) for it in threads]
            self.assertEqual((most, sorted(runs)), ([1], [0, 1, 2, 3, 4]))
            self.assertEqual((work(7, more=1), runs[-1]), (14, 8))

            @Lock(server.path, "b")
            def recurses():
                return recurses()
            with self.assertRaises(Holds):
                recurses()

    def test_a_decorator_of_what_runs_later(self):
        async def coroutine():
            pass

        def generator():
            yield
        for later in (coroutine, generator):
            with self.assertRaises(TypeError):
                Lock("nowhere", "a")(later)
        with self.assertRaises(TypeError):
            aio.Lock("nowhere", "a")(print)

    def test_a_path(self):
        with Server() as server:
            path = pathlib.Path(server.path)
            with Lock(path, "a") as token, Client(path) as client:
                self.assertEqual(token, 1)
                self.assertIsNone(client.try_acquire("a"))
            self.assertEqual(lines.places(path), [server.path])
            self.assertEqual(lines.places([path, "tcp:one:7000"]), [server.path, ("one", 7000)])
            with self.assertRaises(TypeError):
                lines.place(7)

    def test_two_of_one_lock_nested(self):
        with Server() as server, Client(server.path) as client:
            here = os.path.relpath(server.path)
            for outer, inner in ((server.path, here), (client, server.path), (server.path, client), (server.path, [here, "/nowhere"])):
                with Lock(outer, "a"), Lock(server.path, "b"):
                    with self.assertRaises(Holds):
                        with Lock(inner, "a"):
                            pass
                with Lock(inner if inner != [here, "/nowhere"] else here, "a"):
                    pass

    def test_another_thread_waits_as_ever(self):
        with Server() as server:
            got, lock = [], Lock(server.path, "a")
            lock.acquire()

            def work():
                with Lock(server.path, "a") as token:
                    got.append(token)
            thread = threading.Thread(target=work)
            thread.start()
            server.wait_for_waiters("a", 1)
            lock.release()
            thread.join(PATIENCE)
            self.assertEqual(got, [2])

    def test_a_hold_that_is_lost_does_not_hinder(self):
        with Server(lease="0.3") as server:
            outer = Lock(server.path, "a")
            with self.assertRaises(LockLost):
                with outer as token:
                    server.kill_engine()
                    wait_until(lambda: not outer.locked)
                    with Lock(server.path, "a", wait=PATIENCE) as later:
                        self.assertGreater(later, token)

    def test_a_client_that_nobody_has_is_gone(self):
        with Server() as server, Client(server.path) as other:
            Lock(server.path, "a", lease=20).acquire()
            gc.collect()
            self.assertEqual(other.acquire("a", wait=PATIENCE), 2)


@needs_programs
class Forks(unittest.TestCase):
    def test_a_child_cannot_use_its_parent_s_client(self):
        with Server() as server, Client(server.path) as client, Client(server.path, lease=20) as leased:
            token, other = client.acquire("a"), leased.acquire("b")

            def child():
                calls = (lambda: client.release("a", token), lambda: client.acquire("c"), client.leave, client.status, client.check,
                         lambda: client.try_acquire("c"), lambda: leased.release("b", other), leased.check)
                failed = [i for i, it in enumerate(calls) if not raises(Inherited, it)]
                client.close()
                with leased:
                    pass
                return failed[0] if failed else 50
            self.assertEqual(in_child(child), 50)
            client.check()
            leased.check()
            self.assertEqual([it.state for it in client.status()], ["held", "held", "free"])
            client.release("a", token)
            leased.release("b", other)

    def test_a_child_that_unwinds_does_not_release(self):
        with Server() as server, Client(server.path) as other, Client(server.path) as shared:
            for place in (server.path, shared):
                with self.subTest(place=place):
                    self.unwind(lambda place=place: Lock(place, "a"), other)
            self.unwind(lambda: Client(server.path), None)

    def unwind(self, made, other):
        """A child ends by sys.exit inside its parent's statement."""
        parent = os.getpid()
        try:
            with made():
                child = os.fork()
                if child == 0:
                    sys.exit(7)
                self.assertEqual(os.waitpid(child, 0)[1] >> 8, 7)
                if other is not None:
                    self.assertIsNone(other.try_acquire("a"))
        except BaseException as end:
            if os.getpid() != parent:
                os._exit(end.code if isinstance(end, SystemExit) else 99)
            raise

    def test_a_child_that_leaves_the_statement_hears_of_it(self):
        with Server() as server, Client(server.path) as other:
            lock = Lock(server.path, "a")
            with lock:
                self.assertEqual(in_child(lambda: 9 if raises(Inherited, lock.__exit__, None, None, None) else 8), 9)
                self.assertEqual(in_child(lambda: 9 if raises(Inherited, lock.release) else 8), 9)
                self.assertIsNone(other.try_acquire("a"))

    def test_a_child_makes_clients_of_its_own(self):
        with Server() as server:
            with Lock(server.path, "a"):
                def child():
                    if not raises(NotInTime, lambda: Lock(server.path, "a", wait=0.05).acquire()):
                        return 1  # it waits for its parent, and not for itself
                    with Lock(server.path, "b") as token:
                        return 10 + token
                self.assertEqual(in_child(child), 11)

    def test_a_parent_that_ends_is_not_kept_alive_by_its_child(self):
        with Server() as server, Client(server.path) as other:
            inner, outer = os.pipe()
            parent = os.fork()
            if parent == 0:
                lock = Lock(server.path, "a")
                lock.acquire()
                if os.fork() == 0:
                    os.close(outer)
                    os.read(inner, 1)  # until the test ends
                os._exit(0)
            os.waitpid(parent, 0)
            self.assertEqual(other.acquire("a", wait=PATIENCE), 2)
            os.close(outer)
            os.close(inner)

    @needs_loopback
    def test_sessions(self):
        arbiter = Arbiter()
        doors = [Door(arbiter), Door(arbiter)]
        try:
            with Session([it.place for it in doors]) as client:
                token = client.acquire("a")

                def child():
                    is_refused = raises(Inherited, lambda: client.release("a", token)) and raises(Inherited, client.check)
                    client.close()
                    return 50 if is_refused else 51
                self.assertEqual(in_child(child), 50)
                client.check()
                client.release("a", token)
        finally:
            for door in doors:
                door.close()


@needs_programs
class OfTasks(unittest.IsolatedAsyncioTestCase):
    async def test_acquire_and_release(self):
        with Server() as server:
            lock, other = aio.Lock(pathlib.Path(server.path), "a"), aio.Lock(server.path, "a", wait=0.05)
            self.assertEqual((lock.locked, lock.token), (False, None))
            self.assertEqual(await lock.acquire(timeout=PATIENCE), 1)
            self.assertEqual((lock.locked, lock.token), (True, 1))
            with self.assertRaises(RuntimeError):
                await lock.acquire()
            with self.assertRaises(NotInTime):
                await asyncio.create_task(other.acquire())
            await asyncio.get_running_loop().run_in_executor(None, server.wait_for_waiters, "a", 0)
            await lock.release()
            with self.assertRaises(RuntimeError):
                await lock.release()
            later = aio.Lock(server.path, "a", wait=PATIENCE)
            async with later as token:
                self.assertEqual((token, later.locked), (2, True))
                await later.release()

    @needs_loopback
    async def test_a_place_as_a_text(self):
        with Server("--tcp", "127.0.0.1:0") as server:
            async with aio.Lock(f"tcp:127.0.0.1:{server.port('clients')}", "a") as token:
                self.assertEqual(token, 1)

    async def test_a_decorator(self):
        with Server() as server:
            inside, runs = [0], []

            @aio.Lock(server.path, "a", wait=PATIENCE)
            async def work(number):
                inside[0] += 1
                self.assertEqual(inside, [1])
                await asyncio.sleep(0.002)
                inside[0] -= 1
                runs.append(number)
                return number * 2
            self.assertEqual(await asyncio.gather(*(work(i) for i in range(5))), [0, 2, 4, 6, 8])
            self.assertEqual(sorted(runs), [0, 1, 2, 3, 4])

    async def test_two_of_one_lock_nested(self):
        with Server() as server:
            async with aio.Lock(server.path, "a"):
                with self.assertRaises(Holds):
                    await aio.Lock(server.path, "a").acquire()
                with self.assertRaises(Holds):
                    Lock(server.path, "a").acquire()
                waits = asyncio.create_task(aio.Lock(server.path, "a").acquire())  # another task, which is waited for below
                await asyncio.get_running_loop().run_in_executor(None, server.wait_for_waiters, "a", 1)
            self.assertEqual(await asyncio.wait_for(waits, PATIENCE), 2)

    async def test_a_child(self):
        with Server() as server:
            async with await aio.Client.connect(server.path) as client:
                token = await client.acquire("a")

                def child():
                    def refused(call):
                        try:
                            call.send(None)
                        except Inherited:
                            return True
                        return False
                    return 50 if refused(client.release("a", token)) and raises(Inherited, client.check) else 51
                self.assertEqual(in_child(child), 50)
                await client.release("a", token)


class Hostile(unittest.IsolatedAsyncioTestCase):
    """A server that answers what was not asked."""

    ANSWERS = (b"granted\n", b"granted a\n", b"granted a x\n", b"granted a -1\n", b"granted a 18446744073709551616\n", b"granted b 1\n",
               b"granted a 1 2\n", b"busy a\n", b"released a\n", b"pong\n", b"\n", b"left\n", b"waiting b 1\n", b"refused holds b\n",
               b"status 1\n", b"\xff\xfe\n", b"cancelled a\n", b"x" * 100_000, b"waiting a 1\ngranted b 2\n", b"waiting a 1\ngranted a\n")

    def door(self, answer, lease=b"refused syntax\n"):
        """The place of a server that answers so: the first line, and the question for the lease."""
        folder = tempfile.mkdtemp(dir="/tmp")
        path = os.path.join(folder, "door")
        door = socket.socket(socket.AF_UNIX)
        door.bind(path)
        door.listen()

        def serve():
            sock, _ = door.accept()
            answers = [answer]
            for line in iter(lambda: sock.recv(1000), b""):
                sock.sendall(lease if line.startswith(b"lease") else answers.pop() if answers else b"")
            sock.close()
        thread = threading.Thread(target=serve, daemon=True)
        thread.start()
        self.addCleanup(os.rmdir, folder)
        self.addCleanup(os.unlink, path)
        self.addCleanup(door.close)
        return path

    def test_threads(self):
        for answer in self.ANSWERS:
            with self.subTest(answer=answer[:40]), Client(self.door(answer)) as client:
                with self.assertRaises(LockLost):
                    client.acquire("a", wait=PATIENCE)
                for call in (client.check, client.status, lambda: client.acquire("a")):
                    with self.assertRaises(LockLost):
                        call()

    def test_a_lease_that_is_none(self):
        for answer in self.ANSWERS + (b"lease\n", b"lease x\n", b"lease -1\n", b"lease 18446744073709551616\n", b"lease 1 2\n"):
            with self.subTest(answer=answer[:40]):
                with self.assertRaises(LockLost):
                    Client(self.door(b"", answer))
                with self.assertRaises(LockLost):
                    asyncio.run(aio.Client.connect(self.door(b"", answer)))

    def test_a_server_that_has_no_place(self):
        with self.assertRaises(TooMany):
            Client(self.door(b"", b"refused connections\n"))
        with self.assertRaises(TooMany):
            asyncio.run(aio.Client.connect(self.door(b"", b"refused connections\n")))

    def test_an_older_server_that_does_not_know_the_question_for_its_lease(self):
        def keepers():
            return {it for it in threading.enumerate() if it.name == "wozgirt-lease"}

        async def task(path):
            async with await aio.Client.connect(path) as client:
                return await client.acquire("a")
        before = keepers()
        with Client(self.door(b"granted a 7\n")) as client:
            self.assertEqual(client.acquire("a"), 7)
            client.check()
            self.assertEqual(keepers() - before, set())
        self.assertEqual(asyncio.run(task(self.door(b"granted a 8\n"))), 8)

    def test_a_status_that_is_none(self):
        for answer in (b"status\n", b"status x\n", b"status 1\nlock a\n", b"status 1\ngranted a 1\n", b"lock a free - - - - 0 0 0 0\n"):
            with self.subTest(answer=answer), Client(self.door(answer)) as client:
                with self.assertRaises(LockLost):
                    client.status()
                with self.assertRaises(LockLost):
                    client.check()

    async def test_tasks(self):
        for answer in self.ANSWERS:
            with self.subTest(answer=answer[:40]):
                async with await aio.Client.connect(self.door(answer)) as client:
                    with self.assertRaises(LockLost):
                        await asyncio.wait_for(client.acquire("a"), PATIENCE)
                    with self.assertRaises(LockLost):
                        client.check()
                    with self.assertRaises(LockError):
                        await client.status()


if __name__ == "__main__":
    unittest.main()
