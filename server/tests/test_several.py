"""The command `wozgirt` with several servers that have one log, or with doors in this process that fail when they are told to."""

import contextlib
import os
import signal
import subprocess
import sys
import time
import unittest

from harness import COMMAND, PATIENCE, TOP, Server, by_the_clock, needs_loopback, needs_programs, say, unless_late, wait_until
from test_cluster import Trial, needs_strict

sys.path.insert(0, os.path.join(TOP, "clients", "python", "tests"))

from test_sessions import Arbiter, Door  # noqa: E402

UP = ("--", "sh", "-c", "echo up $WOZGIRT_TOKEN; read line; echo down")
#: what is said where no server withdraws in time what was asked
LATE = "wozgirt: not in time: "


class Commands(unittest.TestCase):
    """Runs the command with the places in `places`."""

    places = ()

    def words(self, *words):
        return [COMMAND, *words], {**os.environ, "WOZGIRT_SOCKET": ",".join(self.places)}

    def run_it(self, *words):
        """Its status, its output and its errors."""
        words, env = self.words(*words)
        it = subprocess.run(words, capture_output=True, text=True, timeout=PATIENCE, env=env, stdin=subprocess.DEVNULL, check=False)
        return it.returncode, it.stdout, it.stderr

    def start(self, *words):
        words, env = self.words(*words)
        it = subprocess.Popen(words, stdin=subprocess.PIPE, stdout=subprocess.PIPE, stderr=subprocess.PIPE, text=True, env=env,
                              start_new_session=True)
        self.addCleanup(self.end_it, it)
        return it

    @staticmethod
    def end_it(it):
        with contextlib.suppress(ProcessLookupError):
            os.killpg(it.pid, signal.SIGKILL)  # COMMAND too, which has the other end of its output
        it.communicate()

    def finish(self, it, status, output):
        """Its input ends: what it ends with."""
        out, errors = it.communicate(timeout=PATIENCE)
        self.assertEqual((it.returncode, out), (status, output), errors)
        return errors


@needs_programs
@needs_strict
class Several(Commands, Trial):
    def pair(self, **more):
        servers = [self.server(name, **more) for name in "ab"]
        self.places = [server.path for server in servers]
        return servers

    def test_statuses(self):
        a, b = self.pair()
        self.assertEqual(self.run_it("lock", "a", "--", "sh", "-c", "echo $WOZGIRT_LOCK $WOZGIRT_TOKEN; exit 7"), (7, "a 1\n", ""))
        self.assertEqual(self.run_it("lock", "nothing", "--", "true"), (76, "", "wozgirt: refused: lock nothing\n"))
        self.assertEqual(self.run_it("lock", "a", "--", "/no/such")[0], 69)
        holder = self.raw(b)
        self.assertEqual(say(holder, "acquire a 1\n"), ["granted a 3"])
        self.assertEqual(self.run_it("try", "a", "--", "true"), (1, "", ""))
        self.assertEqual(say(holder, "release a 3\n"), ["released a"])
        self.assertEqual(self.run_it("lock", "-w", "60", "a", "--", "true")[0], 0)
        self.catch_up(a, b)
        self.assertEqual(b.operate("clients").split()[1], "2")  # nobody of these is left: the holder, and this one

    def test_not_in_time(self):
        _, b = self.pair()
        self.assertEqual(say(self.raw(b), "acquire a 1\n"), ["granted a 1"])
        done = unless_late(lambda: self.run_it("lock", "-w", "0.2", "-E", "9", "a", "--", "true"), lambda it: it[2].startswith(LATE))
        self.assertEqual(done, (9, "", ""))
        b.wait_for_waiters("a", 0)

    def test_a_command_goes_on_when_its_server_is_killed(self):
        a, b = self.pair()
        it = self.start("lock", "--lease", "20", "a", *UP)
        self.assertEqual(it.stdout.readline(), "up 1\n")
        self.kill(a)
        wait_until(lambda: " a - " in b.operate("clients"))
        other = self.raw(b)
        self.assertEqual(say(other, "try a 1\n"), ["busy a"])
        self.assertEqual(self.finish(it, 0, "down\n"), "")
        self.assertEqual(say(other, "try a 1\n"), ["granted a 2"])
        status, table, _ = self.run_it("status")  # the first server is gone
        self.assertEqual((status, table.splitlines()[1].split()[:2]), (0, ["a", "held"]))

    def test_who_waits_goes_on_waiting(self):
        a, b = self.pair()
        holder = self.raw(b)
        self.assertEqual(say(holder, "acquire a 1\n"), ["granted a 1"])
        it = self.start("lock", "--lease", "20", "a", *UP)
        b.wait_for_waiters("a", 1)
        self.kill(a)
        wait_until(lambda: " - a " in b.operate("clients"))
        self.assertEqual(say(holder, "release a 1\n"), ["released a"])
        self.finish(it, 0, "up 2\ndown\n")

    def test_a_signal_ends_the_wait(self):
        a, b = self.pair()
        holder = self.raw(b)
        self.assertEqual(say(holder, "acquire a 1\n"), ["granted a 1"])
        it = self.start("lock", "a", *UP)
        b.wait_for_waiters("a", 1)
        it.send_signal(signal.SIGTERM)
        self.finish(it, 143, "")
        b.wait_for_waiters("a", 0)
        wait_until(lambda: a.operate("clients").split()[1] == "1")

    @by_the_clock
    def test_no_server_for_half_of_the_lease(self, longer):
        a, b = self.pair()
        it = self.start("lock", "--lease", str(longer), "--kill-after", "0", "a", "--", "sh", "-c", "trap '' TERM; echo up; while :; do sleep 0.05; done")
        self.assertEqual(it.stdout.readline(), "up\n")
        self.kill(a)
        self.kill(b)
        self.assertEqual(self.finish(it, 75, ""), "wozgirt: the lock is lost (no server answers); COMMAND is ended\n")

    @by_the_clock
    def test_one_server_of_several_by_its_socket(self, longer):
        """Where the command asks for no lease, it keeps the one that the server gives: while it waits, and while COMMAND runs."""
        a, b = self.pair(lease=str(longer))
        self.places = [a.path]
        holder = self.raw(b)
        self.assertEqual(say(holder, "acquire a 1\n"), ["granted a 1"])
        it = self.start("lock", "a", *UP)
        begun = time.monotonic()
        a.wait_for_waiters("a", 1)
        while time.monotonic() < begun + 1.5 * longer:
            self.assertEqual(say(holder, "ping\n"), ["pong"])
            time.sleep(0.1)
        self.assertEqual(say(holder, "release a 1\n"), ["released a"])
        self.assertEqual(it.stdout.readline(), "up 2\n")
        time.sleep(1.5 * longer)
        self.finish(it, 0, "down\n")

    def test_no_server_and_one_that_is_alone(self):
        self.places = ["/nonexistent/a", "/nonexistent/b"]
        self.assertEqual(self.run_it("lock", "--server-wait", "0", "a", "--", "true"),
                         (69, "", "wozgirt: /nonexistent/b: No such file or directory (os error 2)\n"))
        self.assertEqual(self.run_it("bench")[0], 64)
        with Server() as server:
            self.places = ["/nonexistent/a", server.path]
            self.assertEqual(self.run_it("lock", "--server-wait", "0", "a", "--", "true"),
                             (76, "", f"wozgirt: {server.path}: refused: session\n"))


@needs_programs
@needs_loopback
class Cuts(Commands):
    """Each input is done once, wherever the connection is cut."""

    def setUp(self):
        self.arbiter = Arbiter()
        self.doors = [Door(self.arbiter), Door(self.arbiter)]
        for door in self.doors:
            self.addCleanup(door.close)
        self.places = ["tcp:%s:%d" % door.place for door in self.doors]

    def verbs(self):
        return [it[2] for it in self.arbiter.done]

    def were_done(self, *verbs):
        """These, and no other; the last one may come behind the end of the command, which waits for it for a while only."""
        wait_until(lambda: len(self.arbiter.done) >= len(verbs))
        self.assertEqual(self.verbs(), list(verbs))

    def each_moment(self):
        for moment in ("before", "after"):
            with self.subTest(moment=moment):
                self.arbiter.done.clear()
                self.doors[1].fails = None
                yield moment

    def test_a_grant(self):
        for moment in self.each_moment():
            self.doors[0].fails = moment
            token = self.arbiter.tokens.get("a", 0) + 1
            self.assertEqual(self.run_it("lock", "a", *UP), (0, f"up {token}\ndown\n", ""))
            self.were_done("acquire", "release", "leave")

    def test_a_release(self):
        for moment in self.each_moment():
            it = self.start("lock", "a", *UP)
            it.stdout.readline()
            self.doors[0].fails = moment
            self.finish(it, 0, "down\n")
            self.were_done("acquire", "release", "leave")

    def test_a_try(self):
        self.arbiter.holders["a"] = 9, 5
        for moment in self.each_moment():
            self.doors[0].fails = moment
            self.assertEqual(self.run_it("try", "a", *UP), (1, "", ""))
            self.were_done("try", "leave")

    def cancelled(self, moment):
        """What is told where the connection is cut at the end of the wait."""
        self.arbiter.done.clear()
        self.doors[1].fails = None
        it = self.start("lock", "-w", "0.4", "a", *UP)
        wait_until(lambda: self.arbiter.done or it.poll() is not None)
        self.doors[0].fails = moment
        return self.finish(it, 1, "")

    def test_a_cancel(self):
        """The next server has a moment to do it, and then the command ends."""
        self.arbiter.holders["a"] = 9, 5
        for moment in ("before", "after"):
            told = unless_late(lambda moment=moment: self.cancelled(moment), lambda it: it.startswith(LATE))
            self.assertEqual(told, "")
            self.were_done("acquire", "cancel", "leave")

    def test_a_wait(self):
        """The grant comes before the cut, behind it, or before the answer that says to wait."""
        for moment in ("behind", "before", "at once"):
            with self.subTest(moment=moment):
                self.arbiter.done.clear()
                self.arbiter.holders["a"], self.arbiter.tokens["a"] = (9, 5), 5
                do = Arbiter._do.__get__(self.arbiter)

                def granted_at_once(session, verb, *words):
                    said = do(session, verb, *words)
                    if verb == "acquire":
                        self.arbiter._pass("a")
                    return said
                self.arbiter._do = granted_at_once if moment == "at once" else do
                self.doors[0].fails = "after" if moment == "at once" else None
                it = self.start("lock", "a", *UP)
                wait_until(lambda: self.arbiter.done)
                if moment != "at once":
                    with self.arbiter.mutex:
                        session = self.arbiter.done[0][0]
                        if moment == "before":
                            self.arbiter.hears[session] = lambda _: None  # it does not hear it
                            self.arbiter._pass("a")
                        self.doors[0].cut()
                    if moment == "behind":
                        wait_until(lambda: self.doors[1].socks)
                        with self.arbiter.mutex:
                            self.arbiter._pass("a")
                self.finish(it, 0, "up 6\ndown\n")
                self.were_done("acquire", "release", "leave")
                self.doors[1].socks.clear()

    @by_the_clock
    def test_what_the_session_had_is_gone(self, _):
        it = self.start("lock", "--lease", "30", "a", *UP)
        it.stdout.readline()
        with self.arbiter.mutex:
            self.arbiter.holders.clear()
            self.doors[0].cut()
        it.wait(PATIENCE)
        self.assertIn("the lock is lost (it is held no longer, since its session was over)", self.finish(it, 75, ""))
        self.arbiter.holders["a"] = 9, 5
        it = self.start("lock", "a", *UP)
        wait_until(lambda: self.arbiter.lines.get("a"))
        with self.arbiter.mutex:
            self.arbiter.lines.clear()
            self.doors[0].cut()
        self.assertIn("the place in the queue is gone", self.finish(it, 69, ""))

    @by_the_clock
    def test_a_silent_server_is_left(self, longer):
        it = self.start("lock", "--lease", str(4 * longer), "a", *UP)
        token = it.stdout.readline()
        self.doors[0].is_silent = True
        wait_until(lambda: self.doors[1].socks)
        self.doors[0].is_silent = False
        self.assertTrue(token.startswith("up "))
        self.finish(it, 0, "down\n")


if __name__ == "__main__":
    unittest.main()
