"""What `clients/c/wozgirt_session.h` promises whatever happens: with servers that say something else or stand still, behind a signal, and
behind fork(). The servers are doors in this process, and real ones."""

import errno
import os
import signal
import socket
import sys
import tempfile
import time
import unittest

import header_clients
from harness import FOLDER, PATIENCE, TOP, at_least, by_the_clock, needs_loopback, needs_programs, unless_late, wait_until
from header_clients import CHILD, DONE, LATE, LOST, NAME, REFUSED, SILENT, Clients, FullDoor, Interrupted, margin, needs_c
from test_cluster import Trial, needs_strict

sys.path.insert(0, os.path.join(TOP, "clients", "python", "tests"))

import test_sessions  # noqa: E402


def asked_late(client, line):
    """What comes of asking for a lock that another holds, where a server says in time that nobody waits for it any more."""
    return unless_late(lambda: client.ask(line).result, lambda it: it == SILENT)


class Door(test_sessions.Door):
    """A server that tells a lie once, in place of an answer, and does not do what was asked."""

    lie = None

    def _input(self, sock, say, session, number, words):
        lie, self.lie = self.lie, None
        if lie is None:
            super()._input(sock, say, session, number, words)
        else:
            say(lie.format(number=number, next=number + 1))


@needs_c
@needs_loopback
class Calls(Clients):
    """A client of two doors."""

    words = ["-DSESSION"]

    def setUp(self):
        self.arbiter = test_sessions.Arbiter()
        self.doors = [Door(self.arbiter), Door(self.arbiter)]
        for door in self.doors:
            self.addCleanup(door.close)
        self.places = ",".join("tcp:%s:%d" % door.place for door in self.doors)

    def session(self, lease=30000):
        return self.client(self.places, lease)

    def silence(self, is_silent=True):
        for door in self.doors:
            door.is_silent = is_silent
        self.addCleanup(lambda: self.silence(False)) if is_silent else None

    def hold(self, name="a", token=5):
        """Somebody else has the lock."""
        self.arbiter.holders[name], self.arbiter.tokens[name] = (9, token), token

    def free(self, name="a"):
        with self.arbiter.mutex:
            self.arbiter._pass(name)

    def verbs(self):
        """What was done."""
        return [words[2] for words in self.arbiter.done]


class Answers(Calls):
    """An answer belongs to its question; a server that gives another one is left, and the next one is asked."""

    def lied_to(self, line, lie, wanted):
        self.arbiter.done.clear()
        client = self.session()
        self.doors[0].lie = lie
        it = client.ask(line)
        self.assertEqual(it.result, wanted)
        self.assertIsNone(self.doors[0].lie)
        self.assertEqual(len(self.arbiter.done), 1)
        return client, it

    def test_an_answer_to_another_question(self):
        for lie in ("granted b 5", "granted a", "granted a 5x", "busy b", "waiting a 0", "released a", "pong", "left",
                    "refused holds b", ""):
            with self.subTest(verb="try", lie=lie):
                client, it = self.lied_to("acquire a 1 0", "{number} " + lie, DONE)
                self.assertEqual(self.arbiter.holders["a"][1], it.token)
                for answer in ("released b", "released", "granted a 1", "cancelled a", "pong", "left", "refused holder b"):
                    self.doors[1].lie = "{number} " + answer
                    self.assertEqual(client.results(f"release a {it.token}", "acquire a 1 0"), [DONE, DONE], answer)
                    it = it._replace(token=it.token + 1)
                client.ask("close")

    def test_an_answer_to_an_acquire(self):
        self.hold()
        for lie in ("busy a", "waiting b 0", "waiting a", "granted b 7", "released a", "cancelled a", "left"):
            with self.subTest(lie=lie):
                client = self.session()
                self.doors[0].lie = "{number} " + lie
                client.tell("acquire a 1 -1")
                wait_until(lambda: self.arbiter.lines.get("a"))
                before = self.arbiter.tokens["a"]
                self.free()
                self.assertEqual(client.hear()[1:3], (DONE, before + 1))
                client.ask("close")
                self.hold(token=before + 1)

    def test_an_answer_of_another_number(self):
        self.lied_to("acquire a 1 0", "{next} granted a 9", DONE)

    def test_a_line_that_nobody_asked_for(self):
        for lie in ("granted b 7", "granted a x", "holds a 7", "pong", "lease 1", "7", "", "refused line"):
            with self.subTest(lie=lie):
                client, it = self.lied_to("acquire a 1 0", lie, DONE)
                self.assertEqual(client.ask(f"release a {it.token}").result, DONE)
                client.ask("close")

    def test_a_lock_whose_tokens_are_smaller(self):
        """The tokens of two locks say nothing about each other."""
        self.arbiter.tokens["a"] = 100
        client = self.session()
        self.assertEqual(client.ask("acquire a 1 0")[1:3], (DONE, 101))
        self.assertEqual(client.ask("release a 101").result, DONE)
        self.hold("b")
        client.tell("acquire b 1 5000")
        wait_until(lambda: self.arbiter.lines.get("b"))
        self.free("b")
        self.assertEqual(client.hear()[1:3], (DONE, 6))

    @by_the_clock
    def test_answers_keep_the_lease(self, longer):
        """A client that is served does not lose its lease, though it never calls `wozgirt_session_check`."""
        client, end = self.session(lease=300 * longer), time.monotonic() + 3 * longer
        while time.monotonic() < end:
            token = self.arbiter.tokens.get("a", 0) + 1
            self.assertEqual(client.results("acquire a 1 0", f"release a {token}"), [DONE, DONE])

    @by_the_clock
    def test_a_session_that_nobody_renews(self, longer):
        client = self.session(lease=400 * longer)
        time.sleep(0.5 * longer)
        self.assertEqual(client.ask("acquire a 1 0")[1:4], (LOST, 0, errno.ETIMEDOUT))
        self.assertEqual(client.ask("acquire a 1 0")[1:4], (LOST, 0, errno.ENOTCONN))

    def test_what_the_session_had_is_gone(self):
        for line, wanted in (("check", (LOST, errno.ESTALE)), ("release a {other}", (LOST, errno.ESTALE)),
                             ("release a {token}", (REFUSED, 0))):
            client = self.session()
            token = client.ask("acquire a 1 0").token
            with self.arbiter.mutex:
                self.arbiter.holders.clear()
                self.doors[0].cut()
            it = client.ask(line.format(token=token, other=token + 1))
            while it[:2] == ("check", DONE):  # it has not yet seen that the connection is cut
                it = client.ask(line)
            self.assertEqual(it[1:4:2], wanted, line)

    def test_what_opens_no_session(self):
        client = self.program_that_runs()
        self.assertEqual(client.results("open " + "/" * 1024 + " 4000", f"open {self.places} 7", "check"), [NAME, NAME, LOST])


class Interrupts(Calls):
    """What a handler leaves is given up by the next call."""

    def test_an_acquire_that_waits(self):
        self.hold()
        for line in ("acquire b 1 0", "acquire b 1 5000", "check", "release b 1"):
            with self.subTest(line=line):
                self.arbiter.done.clear()
                client = self.session()
                client.jump(300, "acquire a 1 -1")
                wait_until(lambda: self.verbs() == ["acquire"])
                self.assertEqual(client.ask(line).result, REFUSED if line.startswith("release") else DONE)
                wait_until(lambda: self.arbiter.lines["a"] == [])
                self.assertEqual(self.verbs()[:2], ["acquire", "leave"])
                client.ask("close")

    def test_an_acquire_that_is_granted(self):
        """Its token was told to nobody."""
        client = self.session()
        self.silence()
        client.jump(300, "acquire a 1 -1")
        self.silence(False)
        wait_until(lambda: self.arbiter.holders)
        self.assertEqual(client.ask("acquire a 1 5000")[1:3], (DONE, 2))
        self.assertEqual(self.verbs(), ["acquire", "leave", "acquire"])

    def test_a_release(self):
        client = self.session()
        self.assertEqual(client.ask("acquire a 1 0").result, DONE)
        self.silence()
        client.jump(300, "release a 1")
        self.silence(False)
        self.assertEqual(client.ask("acquire a 1 0")[1:3], (DONE, 2))

    def test_a_check(self):
        """What is held stays so."""
        client = self.session()
        self.assertEqual(client.ask("acquire a 1 0").result, DONE)
        self.silence()
        self.doors[0].cut()
        client.jump(200, "check")
        self.silence(False)
        self.assertEqual(client.results("check", "release a 1"), [DONE, DONE])
        self.assertEqual(self.verbs(), ["try", "release"])

    def test_handlers_that_return(self):
        client = self.session()
        client.tell("alarms 1")
        for token in range(1, 20):
            self.doors[token % 2].cut()
            self.assertEqual(client.results(f"acquire a 1 {PATIENCE * 1000}", "check", f"release a {token}"), [DONE] * 3)


class Deadlines(Calls):
    """A call ends at its deadline, whoever stands still."""

    def is_in_time(self, it, result, seconds, longer):
        self.assertEqual(it.result, result)
        self.assertLessEqual(it.seconds, seconds + margin(longer))

    @by_the_clock
    def test_an_acquire(self, longer):
        for is_known in (False, True):
            client = self.session()
            self.hold()
            client.tell("acquire a 1 400")
            if is_known:
                wait_until(lambda: self.arbiter.lines.get("a"))
            self.silence()
            self.is_in_time(client.hear(), SILENT, 0.4, longer)
            self.is_in_time(client.ask("acquire a 1 100"), SILENT, 0.1, longer)
            self.is_in_time(client.ask("check"), DONE, 0, longer)
            self.silence(False)
            self.assertEqual(client.ask("acquire b 1 5000").result, DONE)
            self.assertEqual(self.arbiter.lines["a"], [])
            self.assertEqual(self.verbs()[-2:], ["leave", "acquire"])
            client.ask("close")

    @by_the_clock
    def test_it_is_withdrawn_at_the_next_server(self, longer):
        self.hold()
        client = self.session(lease=4000 * longer)
        self.doors[0].is_silent = True
        self.addCleanup(setattr, self.doors[0], "is_silent", False)
        self.is_in_time(client.ask("acquire a 1 100"), SILENT, 0.1, longer)
        wait_until(lambda: client.ask("check").result != DONE or "leave" in self.verbs(), 3 * longer)
        self.assertEqual(asked_late(client, "acquire a 1 100"), LATE)

    @by_the_clock
    def test_a_server_that_says_much(self, longer):
        client = self.session()
        self.doors[0].lie = "granted a 0\n" * 3000000
        self.is_in_time(client.ask("acquire a 1 100"), SILENT, 0.1, longer)
        self.assertEqual(client.results("check", "acquire b 1 20000"), [DONE, DONE])
        door = header_clients.Door(lambda line: line + " 9999999\n" + "waits a\n" * 3000000)
        self.addCleanup(door.close)
        client = self.client("tcp:%s:%d," % self.doors[0].place + door.path, 4000 * longer)
        self.doors[0].close()
        self.is_in_time(client.ask("acquire a 1 100"), SILENT, 0.1, longer)

    @by_the_clock
    def test_a_hold_is_lost_in_time(self, longer):
        """When half of the lease is over, also where a server takes connections and says nothing."""
        for line in ("check", "release a 1"):
            client, lease = self.session(lease=2000 * longer), 2 * longer
            begun = time.monotonic()
            it = client.ask("acquire a 1 0")
            self.assertEqual(it.result, DONE)
            self.silence()
            while it.result == DONE:
                it = client.ask(line.replace(" 1", f" {it.token}"))
            self.assertEqual(it[1:4], (LOST, 0, errno.ETIMEDOUT))
            at_least(lease / 2 - 0.002, begun)
            self.assertLess(time.monotonic() - begun, lease / 2 + margin(longer))
            self.silence(False)
            self.arbiter.holders.clear()

    @by_the_clock
    def test_nobody_is_let_in(self, longer):
        """The other server's queue is full, or the way to it is cut."""
        with tempfile.TemporaryDirectory(dir=FOLDER) as folder:
            for family, address in ((socket.AF_UNIX, os.path.join(folder, "door")), (socket.AF_INET, ("127.0.0.1", 0))):
                full = FullDoor(family, address)
                self.addCleanup(full.close)
                door = Door(self.arbiter)
                place = full.place if family == socket.AF_UNIX else "tcp:%s:%d" % full.place
                client = self.client("tcp:%s:%d" % door.place + "," + place, 4000 * longer)
                door.close()
                self.is_in_time(client.ask("acquire a 1 500"), SILENT, 0.5, longer)
                begun = time.monotonic()
                client.ask("close")
                self.assertLess(time.monotonic() - begun, 1 + margin(longer))

    @by_the_clock
    def test_nobody_is_there(self, longer):
        """At the beginning."""
        with tempfile.TemporaryDirectory(dir=FOLDER) as folder:
            full = FullDoor(socket.AF_UNIX, os.path.join(folder, "door"))
            self.addCleanup(full.close)
            client = self.client("/nonexistent/a", 4000, result=LOST)
            it = client.ask(f"open {full.place} 4000")
            self.assertEqual(it.result, LOST)
            self.assertLess(it.seconds, 10 + margin(longer))


class Forks(Calls):
    """A child neither uses its parent's session, nor ends it."""

    def test_a_child(self):
        client = self.session()
        self.assertEqual(client.ask("acquire a 1 0").result, DONE)
        for line in ("check", "acquire b 1 0", "acquire b 1 50", "release a 1"):
            self.assertEqual(client.ask("child " + line)[1:4], (CHILD, 0, 0), line)
        client.ask("child close")
        self.assertEqual(client.ask("check").result, DONE)
        self.assertEqual(self.verbs(), ["try"])
        self.assertEqual(client.ask(f"child open {self.places} 4000").result, DONE)
        self.assertEqual(client.results("release a 1", "acquire a 1 0"), [DONE, DONE])
        self.assertEqual(len(self.arbiter.socks), 2)  # the child's session was another

    def test_nobody_opened_it(self):
        client = self.program_that_runs()
        self.assertEqual(client.results("close", "check", "acquire a 1 0", "release a 1", "close"), [DONE, CHILD, CHILD, CHILD, DONE])
        self.assertEqual(client.results(f"open {self.places} 4000", "check"), [DONE, DONE])


@needs_c
@needs_programs
@needs_strict
class Servers(Interrupted, Trial):
    """The same with servers that are stopped, and with programs that handlers interrupt."""

    words = ["-DSESSION"]

    def test_nothing_is_believed_that_is_not_so(self):
        """Each hold that was told is in the journal with its label, no session is lost, and nothing stays held."""
        a, b = self.server("a"), self.server("b")
        self.assertEqual(self.interrupted([f"{a.path},{b.path}", f"{b.path},{a.path}"], 1500), 0)
        for server in (a, b):
            wait_until(lambda: [line.split()[2:8:5] for line in server.operate("status", 4).splitlines()[1:]] == [["free", "0"]] * 3)
        self.end(a)
        self.are_in_journal(os.path.join(a.journal, "journal"))

    @by_the_clock
    def test_a_server_that_is_stopped(self, longer):
        a, b = self.server("a"), self.server("b")
        other = self.client(b.path, 30000)
        self.assertEqual(other.ask("acquire a 1 0").result, DONE)
        for wait in (100, 500 * longer):
            client = self.client(f"{a.path},{b.path}", 4000 * longer)
            if wait == 100:
                self.assertEqual(asked_late(client, "acquire a 1 1"), LATE)
            client.tell(f"acquire a 1 {wait}")
            if wait > 100:
                wait_until(lambda: b.waiters("a") == 1, wait / 1000)
            os.kill(a.process.pid, signal.SIGSTOP)
            try:
                it = client.hear()
                self.assertEqual(it.result, SILENT)
                self.assertLessEqual(it.seconds, wait / 1000 + margin(longer))
                it = client.ask("acquire b 1 0")  # the other server answers this one
                self.assertEqual(it.result, DONE)
                self.assertEqual(b.waiters("a"), 0)
                client.ask("close")
            finally:
                os.kill(a.process.pid, signal.SIGCONT)


if __name__ == "__main__":
    unittest.main()
