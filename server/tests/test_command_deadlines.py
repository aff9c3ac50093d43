"""`--wait` ends when it should, whatever the engine, the server or the network does; and answers are those of what was asked."""

import math
import os
import signal
import socket
import subprocess
import time
import unittest

from doubles import Double, Full
from harness import COMMAND, PATIENCE, Server, by_the_clock, needs_loopback, needs_programs, say, soonest, unless_late, wait_until
from test_command import close, run, start
from test_several import Arbiter, Commands, Door

#: what `--wait` is given, and how much later it may end
WAIT, LATE = 0.5, 0.2
NOT_IN_TIME = "wozgirt: not in time: "
ASKED = NOT_IN_TIME + "the server does not answer; the connection is closed, so nothing waits for the lock\n"
NOT_ASKED = NOT_IN_TIME + "the server does not answer; the lock was not asked for\n"


def words(wait=WAIT):
    return "--wait", str(wait), "-E", "9", "a", "--", "true"


def latest(longer, wait=WAIT):
    """After what time it has ended, in a try of `by_the_clock`. All that it waits for else takes longer, or is told otherwise."""
    return wait + LATE * min(longer, 5)


class InTime(unittest.TestCase):
    def once(self, server, message, *more):
        """How long it takes to say this, which is not less than it is given; for ever, if it came less far in its time."""
        begun = time.monotonic()
        it = start(server, "lock", *more, *words())
        try:
            status, told, took = it.wait(PATIENCE), it.stderr.read(), time.monotonic() - begun
        finally:
            it.kill()
            it.wait()
            close(it)
        self.assertGreaterEqual(took, WAIT)
        if told == NOT_ASKED != message:
            return math.inf
        self.assertEqual((status, told), (9, message))
        return took

    def ends_in_time(self, server, message, longer, *more):
        limit = latest(longer)
        self.assertLessEqual(soonest(lambda: self.once(server, message, *more), limit), limit)


@needs_programs
class StandsStill(InTime):
    def stops(self, number):
        os.kill(number, signal.SIGSTOP)
        self.addCleanup(os.kill, number, signal.SIGCONT)

    @by_the_clock
    def test_the_server(self, longer):
        with Server() as server:
            server.process.send_signal(signal.SIGSTOP)
            self.ends_in_time(server, NOT_ASKED, longer)  # a question on the lease comes first
            self.ends_in_time(server, NOT_ASKED, longer, "--lease", "20")
            server.process.send_signal(signal.SIGCONT)
            self.assertEqual(run(server, "try", "a", "--", "true").returncode, 0)  # nothing was left over

    @by_the_clock
    def test_the_engine(self, longer):
        with Server() as server:
            engine = server.engine_number()
            for more in ((), ("--lease", "20")):
                os.kill(engine, signal.SIGSTOP)
                self.ends_in_time(server, ASKED, longer, *more)
                os.kill(engine, signal.SIGCONT)
                self.assertEqual(run(server, "lock", "a", "--", "true").returncode, 0)

    @by_the_clock
    def test_the_server_while_another_holds_the_lock(self, longer):
        with Server() as server, server.raw() as sock:
            say(sock, "acquire a 1\n")
            begun = time.monotonic()
            it = start(server, "lock", *words(WAIT * longer))
            try:
                wait_until(lambda: server.waiters("a") == 1 or it.poll() is not None)
                server.process.send_signal(signal.SIGSTOP)
                self.assertEqual((it.wait(PATIENCE), it.stderr.read()), (9, ASKED))
                self.assertLessEqual(time.monotonic() - begun, latest(longer, WAIT * longer))
            finally:
                it.kill()
                it.wait()
                close(it)
                server.process.send_signal(signal.SIGCONT)
            server.wait_for_waiters("a", 0)

    def test_a_server_that_answers_has_nothing_to_say(self):
        with Server() as server, server.raw() as sock:
            say(sock, "acquire a 1\n")
            done = unless_late(lambda: run(server, "lock", *words()), lambda it: it.stderr.startswith(NOT_IN_TIME))
            self.assertEqual((done.returncode, done.stdout, done.stderr), (9, "", ""))
            server.wait_for_waiters("a", 0)


@needs_programs
class Unreached(InTime):
    @by_the_clock
    def test_no_place_at_the_socket(self, longer):
        with Full() as server:
            self.ends_in_time(server, NOT_ASKED, longer)

    @needs_loopback
    @by_the_clock
    def test_no_place_over_tcp(self, longer):
        with Full(is_tcp=True) as server:
            self.ends_in_time(server, NOT_ASKED, longer)

    @needs_loopback
    @by_the_clock
    def test_the_network_is_cut(self, longer):
        """The other end takes what it is told, and says nothing any more: from the first line on, behind the lease, while it waits."""
        answers = {}
        for more, message in (({}, NOT_ASKED), ({"lease": ["lease 30000"]}, ASKED), ({"acquire": ["waiting a 0"]}, ASKED)):
            answers.update(more)
            with Double(answers, is_tcp=True) as server:
                self.ends_in_time(server, message, longer)

    def test_without_a_deadline_it_is_told_too(self):
        """All at once: that a server does not answer is known after some ten seconds."""
        with Full() as server:
            env = dict(os.environ, WOZGIRT_OPERATORS=server.path)
            each = [start(server, *words) for words in (("lock", "a", "--", "true"), ("try", "a", "--", "true"), ("status",))]
            each += [start(server, "admin", "--operators", env["WOZGIRT_OPERATORS"], "clients")]
            for it in each:
                self.assertEqual((it.wait(PATIENCE), it.stderr.read()), (69, f"wozgirt: {server.path}: the server does not answer\n"))
                close(it)


@needs_programs
@needs_loopback
class Several(Commands):
    def setUp(self):
        self.arbiter = Arbiter()
        self.doors = [Door(self.arbiter), Door(self.arbiter)]
        for door in self.doors:
            self.addCleanup(door.close)
            self.addCleanup(setattr, door, "is_silent", False)
        self.places = ["tcp:%s:%d" % door.place for door in self.doors]

    def timed(self, *words):
        begun = time.monotonic()
        status, _, errors = self.run_it("lock", *words)
        return status, errors, time.monotonic() - begun

    @by_the_clock
    def test_no_server_answers(self, longer):
        for door in self.doors:
            door.is_silent = True

        def once():
            status, errors, took = self.timed(*words())
            self.assertEqual((status, errors), (9, NOT_ASKED))
            self.assertGreaterEqual(took, WAIT)
            return took
        limit = latest(longer)
        self.assertLessEqual(soonest(once, limit), limit)

    @by_the_clock
    def test_none_answers_while_another_holds_the_lock(self, longer):
        self.arbiter.holders["a"], self.arbiter.lines["a"] = (9, 5), []
        for door in self.doors:
            door.is_silent = False
        begun = time.monotonic()
        it = self.start("lock", *words(WAIT * longer))
        wait_until(lambda: self.arbiter.lines["a"] or it.poll() is not None)
        for door in self.doors:
            door.is_silent = True
        errors = self.finish(it, 9, "")
        self.assertLessEqual(time.monotonic() - begun, latest(longer, WAIT * longer))
        self.assertIn("what was asked is withdrawn at the end of the lease, of 30 s", errors)

    @by_the_clock
    def test_one_of_two_answers(self, longer):
        self.doors[0].is_silent = True
        status, errors, took = self.timed("--wait", str(4 * longer), "a", "--", "true")
        self.assertEqual((status, errors), (0, ""))
        self.assertLess(took, 4 * longer)


@needs_programs
class Answers(unittest.TestCase):
    """Each is compared with the verb and the lock that was asked for."""

    def said(self, answers, *more):
        """What it comes to, if this double of a server answered in time, when that was over."""
        def once():
            with Double(answers) as server:
                done = run(server, "lock", *more, "a", "--", "sh", "-c", "echo in $WOZGIRT_TOKEN")
                return done.returncode, done.stdout, done.stderr
        return unless_late(once, lambda it: it[2].startswith(NOT_IN_TIME))

    def test_to_an_acquire(self):
        for line in ("granted b 7", "waiting b 0", "busy a", "released a", "cancelled a", "granted a", "granted a x", "refused holds b"):
            with self.subTest(line=line):
                self.assertEqual(self.said({"acquire": [line]}), (76, "", f"wozgirt: the server said: {line}\n"))
        self.assertEqual(self.said({"acquire": ["refused circle a"]}), (76, "", "wozgirt: refused: circle a\n"))
        self.assertEqual(self.said({"acquire": ["waiting a 0", "granted a 7"], "release": ["released a"]}), (0, "in 7\n", ""))

    def test_to_a_try(self):
        for line in ("busy b", "waiting a 0", "granted b 7"):
            with self.subTest(line=line):
                self.assertEqual(self.said({"try": [line]}, "-n"), (76, "", f"wozgirt: the server said: {line}\n"))
        self.assertEqual(self.said({"try": ["busy a"]}, "-n"), (1, "", ""))

    @by_the_clock
    def test_to_a_cancel(self, longer):
        waits, more = {"acquire": ["waiting a 0"], "release": ["released a"]}, ("-w", str(0.1 * longer))
        for line in ("cancelled b", "released a", "granted b 7", "waiting a 0"):
            self.assertEqual(self.said({**waits, "cancel": [line]}, *more), (76, "", f"wozgirt: the server said: {line}\n"))
        self.assertEqual(self.said({**waits, "cancel": ["cancelled a"]}, *more), (1, "", ""))
        came_first = ["granted a 7", "refused waiter a"]
        self.assertEqual(self.said({**waits, "cancel": came_first}, *more), (0, "in 7\n", ""))

    @by_the_clock
    def test_a_sign_of_life_beside_a_cancel(self, longer):
        """The lease goes on from there."""
        pings = []

        def ping(_):
            pings.append("pong")
            return pings[1:2]  # the first one is answered behind the cancel
        answers = {"lease": [f"lease {1000 * longer}"], "ping": ping, "acquire": ["waiting a 0"], "release": ["released a"],
                   "cancel": ["pong", "granted a 7", "refused waiter a"]}

        def once():
            pings.clear()
            with Double(answers) as server:
                return run(server, "lock", "--lease", str(longer), "-w", str(0.35 * longer), "a", "--", "sleep", str(longer))
        done = unless_late(once, lambda it: it.stderr.startswith(NOT_IN_TIME), 5)
        self.assertEqual((done.returncode, done.stderr), (0, ""))
        self.assertGreater(len(pings), 2)

    def said_in_a_session(self, answers):
        """Both of the servers are one; or there is one, and the session is attached."""
        said = [self.said_in_a_session_of(answers, count) for count in (2, 1)]
        self.assertEqual(said[0], said[1])
        return said[0]

    def said_in_a_session_of(self, answers, count):
        def begun(line):
            return [line.replace(" attached", " 0 0 30000") if count == 1 else line + " 0"]
        begin = {"session": begun, "lease": lambda line: [line], "ping": ["pong"]}
        with Double({**begin, "3": ["3 left"], **answers}) as server:
            env = dict(os.environ, WOZGIRT_SOCKET=",".join([server.path] * count))
            words = [COMMAND, "lock", "a", "--", "sh", "-c", "echo in $WOZGIRT_TOKEN"]
            done = subprocess.run(words, env=env, capture_output=True, text=True, timeout=PATIENCE, check=False)
            return done.returncode, done.stdout, done.stderr

    def test_in_a_session(self):
        for line in ("1 granted b 7", "1 waiting b 0", "1 busy a", "1 released a", "1 refused holds b", "2 granted a 7", "granted b 7"):
            with self.subTest(line=line):
                told = line if line.startswith("2 ") else line.replace("1 ", "")
                self.assertEqual(self.said_in_a_session({"1": [line], "2": ["2 left"]}), (76, "", f"wozgirt: the server said: {told}\n"))
        again = {"1": ["1 waiting a 0", "granted a 7", "granted a 7", "1 granted a 7"], "2": ["2 released a"]}
        self.assertEqual(self.said_in_a_session(again), (0, "in 7\n", ""))
        told = "wozgirt: after COMMAND had ended: the server said: released b\n"
        self.assertEqual(self.said_in_a_session({"1": ["1 granted a 7"], "2": ["2 released b"]}), (0, "in 7\n", told))

    def test_a_grant_that_comes_with_the_first_words_of_a_server(self):
        """In one piece with what that says of a session that waits."""
        begun = []

        def begin(line):
            begun.append(line.split()[1])
            again = ["waits a", "granted a 7"] if len(begun) > 1 else []
            return [f"session {begun[-1]} {len(again) // 2} 0 30000", *again]
        with Double({"session": begin, "1": ["1 waiting a 0"], "2": ["2 released a"]}) as server:
            it = start(server, "lock", "a", "--", "sh", "-c", "echo in $WOZGIRT_TOKEN")
            try:
                wait_until(lambda: any(line.startswith("1 acquire a ") for line in server.heard))
                time.sleep(0.5)  # it has heard that it waits
                server.socks[0].shutdown(socket.SHUT_RDWR)
                self.assertEqual((it.wait(PATIENCE), it.stdout.read(), it.stderr.read()), (0, "in 7\n", ""))
                self.assertEqual(len(begun), 2)
            finally:
                it.kill()
                it.wait()
                close(it)

    def test_to_a_release(self):
        for line in ("released b", "cancelled a", "refused holder b"):
            with self.subTest(line=line):
                told = f"wozgirt: after COMMAND had ended: the server said: {line}\n"
                self.assertEqual(self.said({"acquire": ["granted a 7"], "release": [line]}), (0, "in 7\n", told))


if __name__ == "__main__":
    unittest.main()
