"""The client of several servers, with servers in this process that fail when they are told to."""

import asyncio
import os
import signal
import socket
import sys
import threading
import time
import unittest

sys.path.insert(0, os.path.join(os.path.dirname(os.path.abspath(__file__)), "..", "..", "..", "server", "tests"))

import test_cluster  # noqa: E402
import test_restarts  # noqa: E402
from harness import PATIENCE, by_the_clock, needs_loopback, needs_programs, wait_until  # noqa: E402
from wozgirt import Client, Holds, Lock, LockLost, NotHolder, NotInTime, NotWaiter, Refused, Session, aio, lines  # noqa: E402


def end(sock):
    """Ends a connection, or shuts a door, if that was not done before."""
    try:
        sock.shutdown(socket.SHUT_RDWR)
    except OSError:
        pass


class Arbiter:
    """One lock of each name, and what was answered last to each session: what all servers have in common."""

    def __init__(self):
        self.mutex, self.doors, self.done = threading.RLock(), [], []
        self.holders, self.lines, self.tokens, self.last, self.hears, self.socks = {}, {}, {}, {}, {}, {}

    def comes(self, session, sock, say):
        """The session is at this connection, which hears its grants; the one where it was before ends."""
        before, self.socks[session] = self.socks.get(session), sock
        if before is not None:
            end(before)
        self.hears[session] = say

    def answer(self, session, number, words):
        """The first answer to an input, which is done once."""
        with self.mutex:
            last, said = self.last.get(session, (0, ""))
            if number > last:
                self.done.append((session, number, *words))
                self.last[session] = number, said = number, self._do(session, *words)
            return said if number >= last else f"refused past {last}"

    def _do(self, session, verb, name="", _=""):
        holder = self.holders.get(name)
        if verb == "leave":
            self.gone(session)
            return "left"
        if verb == "release":
            if holder != (session, int(_)):
                return f"refused holder {name}"
            self._pass(name)
            return f"released {name}"
        line = self.lines.setdefault(name, [])
        if verb == "cancel":
            if session not in line:
                return f"refused waiter {name}"
            line.remove(session)
            return f"cancelled {name}"
        if holder is None:
            return f"granted {name} {self._give(name, session)}"
        if holder[0] == session:
            return f"refused holds {name}"
        if verb == "try":
            return f"busy {name}"
        line.append(session)
        return f"waiting {name} {len(line)}"

    def _give(self, name, session):
        self.tokens[name] = self.tokens.get(name, 0) + 1
        self.holders[name] = session, self.tokens[name]
        return self.tokens[name]

    def _pass(self, name):
        del self.holders[name]
        if self.lines.get(name):
            session = self.lines[name].pop(0)
            self.hears.get(session, lambda _: None)(f"granted {name} {self._give(name, session)}")

    def gone(self, session):
        with self.mutex:
            for line in self.lines.values():
                if session in line:
                    line.remove(session)
            for name in [name for name, it in self.holders.items() if it[0] == session]:
                self._pass(name)

    def state(self, session):
        """As the answer to `session` has it."""
        holds = [f"holds {name} {it[1]}" for name, it in self.holders.items() if it[0] == session]
        return holds + [f"waits {name}" for name, line in self.lines.items() if session in line]


class Door:
    """A server of the arbiter. `fails` says once what it does to an input: `before` and `after` it is done the connection ends,
    without an answer. `told` is called, with the session, behind each line that tells how one is."""

    def __init__(self, arbiter):
        self.arbiter, self.fails, self.is_silent, self.socks = arbiter, None, False, []
        self.told = lambda session: None
        self.door = socket.create_server(("127.0.0.1", 0))
        self.place = self.door.getsockname()
        arbiter.doors.append(self)
        self.opens = threading.Thread(target=self._open, daemon=True)
        self.opens.start()

    def _open(self):
        while True:
            try:
                sock, _ = self.door.accept()
            except OSError:
                return
            self.socks.append(sock)
            threading.Thread(target=self._serve, args=(sock,), daemon=True).start()

    def cut(self):
        """Ends its connections."""
        for sock in list(self.socks):
            end(sock)

    def close(self):
        end(self.door)
        self.opens.join(PATIENCE)  # else it might accept what comes to the next door, at the same number of a file
        self.door.close()
        self.cut()

    def _serve(self, sock):
        session, mutex = 0, self.arbiter.mutex

        def say(*texts):
            try:
                if not self.is_silent:
                    sock.sendall("".join(f"{it}\n" for it in texts).encode())
            except OSError:
                pass  # the other end is gone
        try:
            for line in sock.makefile("r"):
                words = line.split()
                while self.is_silent:
                    time.sleep(0.01)
                if words[0] == "session":
                    session = int(words[1])
                    with mutex:
                        self.arbiter.comes(session, sock, say)
                        told = self.arbiter.state(session)
                        say(f"session {session} {len(told)}", *told)
                        self.told(session)
                elif words[0].isdigit():
                    self._input(sock, say, session, int(words[0]), words[1:])
                else:
                    say(*{"ping": ["pong"], "lease": [line.strip()], "status": ["status 1", "lock a free - - - - 0 0 0 0"]}[words[0]])
        except OSError:
            pass
        finally:
            sock.close()

    def _input(self, sock, say, session, number, words):
        fails, self.fails = self.fails, None
        if fails == "before":
            raise OSError
        with self.arbiter.mutex:
            said = self.arbiter.answer(session, number, words)
            if fails == "after":
                raise OSError
            say(f"{number} {said}")


@needs_loopback
class Sessions(unittest.TestCase):
    def setUp(self):
        self.arbiter = Arbiter()
        self.one, self.two = Door(self.arbiter), Door(self.arbiter)
        self.places = [self.one.place, self.two.place]
        self.addCleanup(self.one.close)
        self.addCleanup(self.two.close)

    def session(self, **more):
        client = Session(self.places, **more)
        self.addCleanup(client.close)
        return client

    def test_places(self):
        self.assertEqual(lines.places("tcp:one:7000,tcp:[::1]:7001"), [("one", 7000), ("::1", 7001)])
        self.assertEqual(lines.places("/run/a,/run/b"), ["/run/a", "/run/b"])
        self.assertEqual(lines.places("tcp:one:7000"), [("one", 7000)])
        self.assertEqual(lines.places("a.sock,tcp:one:7000,./b"), ["a.sock", ("one", 7000), "./b"])
        for one in ("a,b", "/run/a,b", "/run/lock.sock", ("one", 1)):
            self.assertEqual(lines.places(one), [one])
        for wrong in ("tcp:one", "tcp::1", "tcp:one:0", []):
            with self.subTest(place=wrong), self.assertRaises(ValueError):
                lines.places(wrong)

    def test_a_lock_of_several(self):
        text = ",".join("tcp:%s:%d" % it for it in self.places)
        with Lock(text, "a", label=7) as token:
            self.assertEqual(token, 1)
            self.assertEqual(len(self.arbiter.holders), 1)
        self.assertEqual(self.arbiter.holders, {})
        self.assertEqual([it[1:] for it in self.arbiter.done], [(1, "acquire", "a", "7"), (2, "release", "a", "1"), (3, "leave")])
        self.assertNotIsInstance(Client(self.one.place), Session)

    def test_each_input_is_done_once_over_each_cut(self):
        client = self.session()
        for verb in ("acquire", "try", "release", "leave", "cancel"):
            for moment in ("before", "after"):
                with self.subTest(verb=verb, moment=moment):
                    client.leave()
                    if verb == "release":
                        token = client.acquire("a")
                    before = len(self.arbiter.done)
                    for door in self.arbiter.doors:
                        door.fails = None
                    self.arbiter.doors[client._at].fails = moment
                    if verb == "acquire":
                        self.assertEqual(client.acquire("a"), self.arbiter.tokens["a"])
                    elif verb == "try":
                        self.assertEqual(client.try_acquire("a"), self.arbiter.tokens["a"])
                    elif verb == "release":
                        client.release("a", token)
                    elif verb == "leave":
                        client.leave()
                    else:
                        with self.assertRaises(NotWaiter):
                            client._call(lines.cancel("a"))
                    self.assertEqual([it[2] for it in self.arbiter.done[before:]], [verb])

    def test_a_wait_goes_on(self):
        for moment in ("before", "after", "later", "later and granted", "later and granted with the lease"):
            with self.subTest(moment=moment):
                other, client = self.session(), self.session()
                token = other.acquire("a")
                door, got = self.arbiter.doors[client._at], []
                if moment in ("before", "after"):
                    door.fails = moment
                thread = threading.Thread(target=lambda: got.append(client.acquire("a", wait=PATIENCE)))
                thread.start()
                wait_until(lambda: self.arbiter.lines["a"])
                if moment == "later and granted":
                    with self.arbiter.mutex:
                        self.arbiter.hears = {}
                        self.arbiter.answer(0, len(self.arbiter.done) + 10**9, ["release", "a", "0"])
                        self.arbiter._pass("a")
                if moment.endswith("lease"):
                    for it in self.arbiter.doors:
                        it.told = lambda session, at=client: session == at._key and self.arbiter._pass("a")
                if moment.startswith("later"):
                    door.cut()
                if not moment.startswith("later and"):
                    other.release("a", token)
                thread.join(PATIENCE)
                self.assertEqual(got, [token + 1])
                client.release("a", token + 1)
                self.assertEqual(self.arbiter.holders, {})

    def test_a_grant_before_the_answer_that_says_to_wait(self):
        client = self.session()
        answers = [b"granted a 5", b"1 waiting a 1"]
        client._number, client._asked = 1, lines.Question(b"acquire a 0\n", time.monotonic(), 1)
        client._heard(answers[0])
        self.assertEqual((client._waits, client._grant), (None, None))
        client._heard(answers[1])
        self.assertEqual((client._waits, client._grant), (None, ("a", 5)))
        client._grant = None
        for again in (*answers, b"granted a 4"):
            client._heard(again)
            self.assertEqual((client._waits, client._grant, client._held), (None, None, {"a": 5}))

    def test_a_hold_that_is_over_is_lost(self):
        client = self.session()
        with self.assertRaises(LockLost):
            with Lock(client, "a"):
                self.arbiter.gone(client._key)
                self.one.cut()
                self.two.cut()
                wait_until(lambda: not self.is_there(client))
                client.check()
        with self.assertRaises(LockLost):
            client.acquire("a")

    @staticmethod
    def is_there(client):
        try:
            client.check()
            return True
        except LockLost:
            return False

    def test_a_hold_stays_while_servers_change(self):
        client, other = self.session(), self.session()
        with Lock(client, "a") as token:
            for _ in range(5):
                before = len([it for door in self.arbiter.doors for it in door.socks])
                self.one.cut()
                self.two.cut()
                client.check()
                wait_until(lambda: client.check() or len([it for door in self.arbiter.doors for it in door.socks]) > before)
                client.check()
                self.assertIsNone(other.try_acquire("a"))
            self.assertEqual(self.arbiter.holders["a"], (client._key, token))

    def test_errors_are_those_of_one_server(self):
        client, other = self.session(), self.session()
        token = client.acquire("a")
        with self.assertRaises(Holds):
            client.acquire("a")
        with self.assertRaises(NotHolder):
            other.release("a", token)
        with self.assertRaises(NotInTime):
            other.acquire("a", wait=0.05)
        wait_until(lambda: self.arbiter.lines["a"] == [])
        self.assertEqual([it.name for it in client.status()], ["a"])

    @by_the_clock
    def test_a_silent_server_is_left(self, longer):
        lease = 0.8 * longer
        self.setUp()  # with new servers each time
        client = self.session(lease=lease)
        token = client.acquire("a")
        door = self.arbiter.doors[client._at]
        door.is_silent = True
        self.addCleanup(setattr, door, "is_silent", False)
        begun = time.monotonic()
        client.release("a", token)
        self.assertLess(time.monotonic() - begun, lease)
        client.check()

    @by_the_clock
    def test_a_hold_goes_on_where_its_server_is_silent(self, longer):
        lease = 1.6 * longer
        self.setUp()
        client = self.session(lease=lease)
        token = client.acquire("a")
        first = client._at
        self.arbiter.doors[first].is_silent = True
        self.addCleanup(setattr, self.arbiter.doors[first], "is_silent", False)
        end = time.monotonic() + lease
        while time.monotonic() < end:
            client.check()  # others never had it
            time.sleep(lease / 50)
        self.assertNotEqual(client._at, first)
        client.release("a", token)

    @by_the_clock
    def test_without_a_server_it_is_lost_by_the_clock(self, longer):
        lease = 0.8 * longer
        self.setUp()
        client = self.session(lease=lease)
        client.acquire("a")
        begun = time.monotonic()
        for door in self.arbiter.doors:
            door.is_silent = True
            self.addCleanup(setattr, door, "is_silent", False)
        wait_until(lambda: not self.is_there(client))
        self.assertLess(time.monotonic() - begun, lease)
        client.close()

    def test_no_server(self):
        self.one.close()
        self.two.close()
        with self.assertRaises(OSError):
            Session(self.places)

    def test_threads_share_it(self):
        client, other = self.session(), self.session()
        inside, most, tokens, is_over = [0], [0], [], threading.Event()

        def work(it):
            for _ in range(60):
                with Lock(it, "a") as token:
                    inside[0] += 1
                    most[0] = max(most[0], inside[0])
                    tokens.append(token)
                    inside[0] -= 1

        def disturb():
            # not for ever: on a slow machine each connection might be cut before it is of use
            for _ in range(200):
                if is_over.wait(0.02):
                    return
                self.one.cut()
                self.two.cut()
        # one thread of each client holds at a time, since a client waits for one lock at a time
        threads = [threading.Thread(target=work, args=(it,)) for it in (client, other)]
        [it.start() for it in threads]
        trouble = threading.Thread(target=disturb)
        trouble.start()
        [it.join(PATIENCE) for it in threads]
        is_over.set()
        trouble.join()
        self.assertEqual(most, [1])
        self.assertEqual(tokens, list(range(1, 121)))
        numbers = [it[:2] for it in self.arbiter.done]
        self.assertEqual(len(numbers), len(set(numbers)))


@needs_programs
class OfOne(test_restarts.Trial):
    """With one server, and its engine, which are started again."""

    def test_holds_and_waits_stay(self):
        server, got = self.server(), []
        with Session([server.path]) as client, Session([server.path]) as other:
            token = client.acquire("a", label=5)
            waiter = threading.Thread(target=lambda: got.append(other.acquire("a")))
            waiter.start()
            server.wait_for_waiters("a", 1)
            self.restart_engine(server)
            client.check()
            for count, number in enumerate((signal.SIGTERM, signal.SIGKILL), 1):
                server = self.again(server, number)
                self.assertEqual(client.acquire("b"), count)
                client.release("b", count)
                server.wait_for_waiters("a", 1)
            client.release("a", token)
            waiter.join(PATIENCE)
            self.assertEqual(got, [token + 1])
            self.assertRaises(Holds, other.acquire, "a")

    @by_the_clock
    def test_a_hold_whose_client_was_away_is_lost(self, longer):
        server = self.server(lease=str(longer))
        with Session([server.path], lease=longer) as client:
            client.acquire("a")
            server.process.kill()
            server.process.wait()
            wait_until(lambda: self.is_lost(client))

    @staticmethod
    def is_lost(client):
        try:
            client.check()
        except LockLost:
            return True
        return False

    def test_a_server_that_keeps_no_sessions(self):
        server = self.server("--no-sessions")
        for begin in (lambda: Session(server.path), lambda: asyncio.run(aio.Session.connect(server.path))):
            with self.assertRaises(Refused) as it:
                begin()
            self.assertEqual((it.exception.why, it.exception.lock), ("session", None))
        with Client(server.path) as client:
            self.assertEqual(client.acquire("a"), 1)


@needs_programs
@test_cluster.needs_strict
class OfServers(test_cluster.Trial):
    """With servers over a log that is a thread of the test."""

    def test_holds_and_waits_stay_when_a_server_is_killed(self):
        servers = [self.server(name) for name in "abc"]
        paths = [it.path for it in servers]
        with Session(paths) as client, Session(paths[1:]) as other, Session([paths[2], paths[1]]) as third:
            token, got = client.acquire("a", label=5), []
            threads = [threading.Thread(target=lambda it=it: got.append(it.acquire("a"))) for it in (other, third)]
            threads[0].start()
            wait_until(lambda: servers[2].waiters("a") == 1)
            threads[1].start()
            wait_until(lambda: servers[2].waiters("a") == 2)
            self.kill(servers[0])
            client.check()
            self.assertEqual([(it.state, it.label, it.waiting) for it in client.status() if it.name == "a"], [("held", 5, 2)])
            self.kill(servers[1])
            client.release("a", token)
            threads[0].join(PATIENCE)
            self.assertEqual(got, [token + 1])
            other.release("a", token + 1)
            threads[1].join(PATIENCE)
            self.assertEqual(got, [token + 1, token + 2])
            third.leave()
            self.assertEqual(client.try_acquire("a"), token + 3)

    def test_locks_in_turns_while_servers_are_killed(self):
        servers, tokens, inside, most = {name: self.server(name) for name in "abc"}, [], [0], [0]
        paths = [it.path for it in servers.values()]

        def work(i):
            with Session(paths[i % 3:] + paths[:i % 3]) as client:
                for _ in range(30):
                    with Lock(client, "b") as token:
                        inside[0] += 1
                        most[0] = max(most[0], inside[0])
                        tokens.append(token)
                        inside[0] -= 1
        threads = [threading.Thread(target=work, args=(i,)) for i in range(6)]
        [it.start() for it in threads]
        for name, count in (("a", 20), ("b", 60), ("a", 100)):
            wait_until(lambda: len(tokens) > count)
            self.kill(servers[name])
            servers[name] = self.server(name)
        [it.join(PATIENCE) for it in threads]
        self.assertEqual((most, tokens), ([1], list(range(1, 181))))


if __name__ == "__main__":
    unittest.main()
