"""The client in C of several servers, `clients/c/wozgirt_session.h`, with servers, and with doors in this process that fail when they are
told to."""

import itertools
import os
import shutil
import signal
import subprocess
import sys
import tempfile
import threading
import unittest

from harness import PATIENCE, TOP, by_the_clock, needs_loopback, needs_programs, say, wait_until
import test_restarts
from test_cluster import Trial, needs_strict
from test_header import compiles, patient_headers
from test_operators import Narrower

sys.path.insert(0, os.path.join(TOP, "clients", "python", "tests"))

from test_sessions import Arbiter, Door  # noqa: E402

SOURCE = os.path.join(TOP, "server", "tests", "session_client.c")
needs_c = unittest.skipUnless(shutil.which("cc"), "no C compiler")


class Clients(unittest.TestCase):
    """Runs the program that does what it is told, by patient headers."""

    @classmethod
    def setUpClass(cls):
        super().setUpClass()
        cls.programs = tempfile.mkdtemp()
        cls.addClassCleanup(shutil.rmtree, cls.programs)
        cls.program = os.path.join(cls.programs, "session_client")
        built = compiles("cc", "-std=c11", "-O1", "-o", cls.program, SOURCE, include=patient_headers(cls.programs))
        if built != (True, ""):
            raise AssertionError(built)

    def client(self, places, lease=30000, opened=0):
        it = subprocess.Popen([self.program, ",".join(places), str(lease)], stdin=subprocess.PIPE, stdout=subprocess.PIPE, text=True)
        self.addCleanup(self.end_it, it)
        self.assertEqual(it.stdout.readline(), f"open {opened}\n")
        return it

    @staticmethod
    def end_it(it):
        it.kill()
        it.communicate()

    def tell(self, it, line):
        it.stdin.write(line + "\n")
        it.stdin.flush()

    def ask(self, it, line):
        """What comes of a line."""
        self.tell(it, line)
        return it.stdout.readline().strip()


@needs_c
@needs_programs
class OfOne(Clients, test_restarts.Trial):
    """One server, and its engine, which are started again."""

    def test_a_hold_goes_on(self):
        server = self.server()
        it = self.client([server.path])
        self.assertEqual(self.ask(it, "acquire a 7 0"), "acquire 0 1")
        self.restart_engine(server)
        self.assertEqual(self.ask(it, "check"), "check 0")
        for number in (signal.SIGTERM, signal.SIGKILL):
            server = self.again(server, number)
            wait_until(lambda: self.ask(it, "check") == "check 0" and " a - " in server.operate("clients", 2))
            self.assertEqual(say(self.raw(server), "try a 1\n"), ["busy a"])
        self.assertEqual([self.ask(it, line) for line in ("release a 1", "acquire a 7 0")], ["release 0", "acquire 0 2"])

    def test_the_rules_forbid_what_is_waited_for(self):
        with Narrower() as of, of.server.raw(True) as holder:
            say(holder, "acquire a 1\n")
            it = self.client([of.server.path])
            self.tell(it, "acquire a 7 -1")
            of.server.wait_for_waiters("a", 1)
            of.narrow()
            self.assertEqual(it.stdout.readline(), "acquire 2 refused permission a\n")
            self.assertEqual([self.ask(it, line) for line in ("check", "acquire b 7 0")], ["check 0", "acquire 2 refused permission b"])


@needs_c
@needs_programs
@needs_strict
class Several(Clients, Trial):
    def test_a_hold_goes_on(self):
        a, b = self.server("a"), self.server("b")
        it, other = self.client([a.path, b.path]), self.raw(b)
        self.assertEqual([self.ask(it, line) for line in ("acquire a 7 0", "check", "acquire b 1 0", "acquire no 1 0", "release a 9", "release b 9")],
                         ["acquire 0 1", "check 0", "acquire 2 refused session", "acquire 2 refused session", "release 2 refused holder a",
                          "release 2 refused holder b"])
        self.kill(a)
        self.assertEqual(self.ask(it, "check"), "check 0")
        wait_until(lambda: self.ask(it, "check") == "check 0" and " a - " in b.operate("clients"))
        self.assertEqual(say(other, "try a 1\n"), ["busy a"])
        self.assertEqual(self.ask(it, "release a 1"), "release 0")
        self.assertEqual(say(other, "acquire a 1\n"), ["granted a 2"])
        self.assertEqual(self.ask(it, "acquire a 1 0"), "acquire 1")
        self.assertEqual(self.ask(it, "acquire a 1 20"), "acquire 1")
        self.assertEqual(self.ask(it, "acquire no 1 20"), "acquire 2 refused lock no")
        self.tell(it, "acquire a 1 -1")
        b.wait_for_waiters("a", 1)
        self.assertEqual(say(other, "release a 2\n"), ["released a"])
        self.assertEqual(it.stdout.readline(), "acquire 0 3\n")
        self.assertEqual(self.ask(it, "close"), "close 4")
        self.assertEqual(say(other, "acquire a 1\n"), ["granted a 4"])  # it has left
        self.assertEqual((self.ask(it, "check"), self.ask(it, "acquire a 1 0")), ("check 3", "acquire 3"))

    def test_nobody_is_there(self):
        self.client(["/nonexistent/a", "tcp:127.0.0.1:1", "tcp:nowhere"], opened=3)
        self.client([""], opened=4)


@needs_c
@needs_loopback
class Cuts(Clients):
    """Each input is done once, wherever the connection is cut."""

    def setUp(self):
        self.arbiter = Arbiter()
        self.doors = [Door(self.arbiter), Door(self.arbiter)]
        for door in self.doors:
            self.addCleanup(door.close)
        self.places = ["tcp:%s:%d" % door.place for door in self.doors]

    def cut(self, it, moment, line, answer):
        """The next input fails so at the one door and at the other, and is done once all the same."""
        before = len(self.arbiter.done)
        for door in self.doors:
            door.fails = moment
        self.assertEqual(self.ask(it, line), answer)
        self.assertEqual([door.fails for door in self.doors], [None, None])
        self.assertEqual([words[2] for words in self.arbiter.done[before:]], [line.split(" ", 1)[0] if not line.endswith(" 0") else "try"])

    def test_each_input(self):
        it = self.client(self.places)
        for token, moment in enumerate(("before", "after"), 1):
            with self.subTest(moment=moment):
                self.cut(it, moment, "acquire a 5 1000", f"acquire 0 {token}")
                self.cut(it, moment, f"release a {token}", "release 0")
                self.arbiter.holders["a"] = 9, 9
                self.cut(it, moment, "acquire a 5 0", "acquire 1")
                del self.arbiter.holders["a"]

    def test_a_cancel(self):
        self.arbiter.holders["a"] = 9, 5
        for moment in ("before", "after"):
            with self.subTest(moment=moment):
                self.arbiter.done.clear()
                it = self.client(self.places)
                self.tell(it, "acquire a 1 100")
                wait_until(lambda: self.arbiter.done)
                self.doors[0].fails = moment
                self.assertEqual(it.stdout.readline(), "acquire 1\n")
                self.assertEqual([words[2] for words in self.arbiter.done], ["acquire", "cancel"])
                self.ask(it, "close")

    def test_a_wait(self):
        """The grant comes before the cut, behind it, in front of the lease that goes on, or before the answer that says to wait, which is
        lost, and the grant with it or not."""
        for moment in ("behind", "before", "with the lease", "at once", "at once and unheard"):
            with self.subTest(moment=moment):
                self.arbiter.done.clear()
                self.arbiter.holders["a"], self.arbiter.tokens["a"] = (9, 5), 5
                it, door, is_at_once = self.client(self.places), Arbiter._do.__get__(self.arbiter), moment.startswith("at once")

                def granted_at_once(session, verb, *words):
                    said = door(session, verb, *words)
                    if verb == "acquire":
                        if moment == "at once and unheard":
                            self.arbiter.hears[session] = lambda _: None
                        self.arbiter._pass("a")
                    return said
                self.arbiter._do = granted_at_once if is_at_once else door
                self.doors[0].fails = "after" if is_at_once else None
                self.tell(it, "acquire a 1 -1")
                wait_until(lambda: self.arbiter.done)
                if not is_at_once:
                    with self.arbiter.mutex:
                        if moment == "before":
                            self.arbiter.hears[self.arbiter.done[0][0]] = lambda _: None  # it does not hear it
                            self.arbiter._pass("a")
                        elif moment == "with the lease":
                            self.doors[1].told = lambda _: self.arbiter._pass("a")
                        self.doors[0].cut()
                    if moment == "behind":
                        wait_until(lambda: self.doors[1].socks)
                        with self.arbiter.mutex:
                            self.arbiter._pass("a")
                self.assertEqual(it.stdout.readline(), "acquire 0 6\n")
                self.assertEqual(self.ask(it, "release a 6"), "release 0")
                self.assertEqual([words[2] for words in self.arbiter.done], ["acquire", "release"])
                self.ask(it, "close")
                self.doors[1].socks.clear()
                self.doors[1].told = lambda _: None

    @by_the_clock
    def test_in_turns_while_connections_are_cut(self, _):
        """Each of three clients gets the lock or is late, and no hold is lost."""
        clients = [self.client(self.places[i % 2:] + self.places[:i % 2]) for i in range(3)]
        answers, is_over = [[] for _ in clients], threading.Event()

        def work(it, heard):
            for wait in (-1, 5, -1, 0) * 10:
                heard.append(self.ask(it, f"acquire a 1 {wait}"))
                if heard[-1].startswith("acquire 0 "):
                    heard.append(self.ask(it, f"release a {heard[-1].split()[2]}"))

        def disturb():
            # not for ever: on a slow machine each connection might be cut before it is of use
            for door, moment in 100 * list(itertools.product(self.doors, ("before", "after", None))):
                if is_over.wait(0.003):
                    return
                door.fails = moment
                if moment is None:
                    door.cut()
        threads = [threading.Thread(target=work, args=pair, daemon=True) for pair in zip(clients, answers)]
        trouble = threading.Thread(target=disturb)
        for thread in (*threads, trouble):
            thread.start()
        for thread in threads:
            thread.join(PATIENCE)
        is_over.set()
        trouble.join()
        grants = [line for heard in answers for line in heard if line.startswith("acquire 0 ")]
        self.assertEqual(sorted(int(line.split()[2]) for line in grants), list(range(1, len(grants) + 1)))
        self.assertLessEqual({line for heard in answers for line in heard} - set(grants), {"acquire 1", "release 0"})
        self.assertGreaterEqual(len(grants), 60)
        self.assertEqual([sum(line.startswith("acquire") for line in heard) for heard in answers], [40] * 3)
        self.assertEqual(self.arbiter.holders, {})

    def test_what_the_session_had_is_gone(self):
        it = self.client(self.places)
        self.assertEqual(self.ask(it, "acquire a 1 0"), "acquire 0 1")
        with self.arbiter.mutex:
            self.arbiter.holders.clear()
            self.doors[0].cut()
        wait_until(lambda: self.ask(it, "check") == "check 3")
        self.assertEqual(self.ask(it, "release a 1"), "release 3")

    def test_a_place_in_the_line_that_is_gone(self):
        self.arbiter.holders["a"] = 9, 5
        it = self.client(self.places)
        self.tell(it, "acquire a 1 -1")
        wait_until(lambda: self.arbiter.lines.get("a"))
        with self.arbiter.mutex:
            self.arbiter.lines.clear()
            self.doors[0].cut()
        self.assertEqual(it.stdout.readline(), "acquire 3\n")

    @by_the_clock
    def test_a_silent_server_is_left(self, longer):
        it = self.client(self.places, lease=4000 * longer)
        self.assertEqual(self.ask(it, "acquire a 1 0")[:9], "acquire 0")
        self.doors[0].is_silent = True
        wait_until(lambda: self.ask(it, "check") != "check 0" or self.doors[1].socks)
        self.doors[0].is_silent = False
        self.assertEqual(self.ask(it, "check"), "check 0")
        self.ask(it, "close")
        self.doors[1].socks.clear()


if __name__ == "__main__":
    unittest.main()
