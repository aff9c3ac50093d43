"""What `clients/c/wozgirt_lock.h` promises whatever happens: with a server that says something else or stands still, behind a signal,
and behind fork()."""

import errno
import os
import re
import signal
import socket
import tempfile
import unittest

from harness import FOLDER, PATIENCE, Server, by_the_clock, needs_programs, say, wait_until
from header_clients import CHILD, DONE, LATE, LOST, MARGIN, NAME, REFUSED, Clients, Door, FullDoor, Interrupted, margin, needs_c
from test_header import INCLUDE

# the answers to a question that are none
WRONG = {
    "acquire a 1 0": ["granted b 1", "granted a", "granted a 1x", "granted a 18446744073709551616", "granted a 1 1", "granted ab 1",
                      "grantedx a 1", "busy b", "waiting a 1", "released a", "cancelled a", "pong", "refused holds b", "refusedx", ""],
    "acquire a 1 5000": ["granted b 1", "busy a", "waiting b 0", "waiting a", "released a", "pong", "waiting a 0\nwaiting a 0",
                         "waiting a 0\ngranted b 1", "waiting a 0\nrefused holds a", "waiting a 0\ncancelled a",
                         "waiting a 0\nrefused permission b"],
    "release a 1": ["released b", "released", "released a 1", "granted a 1", "pong", "refused holder b"],
    "check": ["released a", "granted a 1", "pong pong", "waiting a 1", "refused holder a"],
}


@needs_c
class Answers(Clients):
    """An answer belongs to its question."""

    is_patient = True

    def door(self, *answers):
        it = Door(*answers)
        self.addCleanup(it.close)
        return it

    def test_an_answer_to_another_question(self):
        for line, answers in WRONG.items():
            for answer in answers:
                with self.subTest(line=line, answer=answer):
                    client = self.client(self.door(answer + "\n").path)
                    self.assertEqual(client.ask(line)[1:4], (LOST, 0, errno.EPROTO))
                    self.assertEqual(client.ask("check")[1:4], (LOST, 0, errno.ENOTCONN))

    def test_a_line_that_nobody_asked_for(self):
        client = self.client(self.door("pong\ngranted a 7\n").path)
        self.assertEqual(client.ask("check").result, DONE)
        self.assertEqual(client.ask("acquire a 1 5000")[1:4], (LOST, 0, errno.EPROTO))

    def test_a_line_without_an_end(self):
        for text in ("x" * 300 + "\n", "x" * 2000):
            client = self.client(self.door(text).path)
            self.assertEqual(client.ask("check")[1:4], (LOST, 0, errno.EPROTO))

    def test_a_refusal(self):
        client = self.client(self.door("refused holder a\n", "refused memory\n", "pong\n").path)
        self.assertEqual([client.ask("release a 1")[1::4], client.ask("acquire a 1 0")[1::4], client.ask("check")[1::4]],
                         [(REFUSED, "refused holder a"), (REFUSED, "refused memory"), (DONE, "")])

    def test_the_rules_forbid_what_is_waited_for(self):
        client = self.client(self.door("waiting a 0\nrefused permission a\n", "pong\n").path)
        self.assertEqual(client.ask("acquire a 1 5000")[1::4], (REFUSED, "refused permission a"))
        self.assertEqual(client.ask("check").result, DONE)

    def test_a_deadline_and_an_answer_cross(self):
        """What a withdrawal is answered: the grant came first, or a refusal, or none of both."""
        for first, second, wanted in (("waiting a 0\n", "cancelled a\n", (LATE, 0)),
                                      ("waiting a 0\n", "granted a 9\nrefused waiter a\n", (DONE, 9)),
                                      ("", "waiting a 0\ncancelled a\n", (LATE, 0)),
                                      ("", "granted a 9\nrefused waiter a\n", (DONE, 9)),
                                      ("", "waiting a 0\ngranted a 9\nrefused waiter a\n", (DONE, 9)),
                                      ("waiting a 0\n", "refused permission a\nrefused waiter a\n", (LATE, 0)),
                                      ("", "waiting a 0\nrefused permission a\nrefused waiter a\n", (LATE, 0)),
                                      ("", "refused circle a\nrefused waiter a\n", (LATE, 0))):
            door = self.door(first, second, "pong\n")
            client = self.client(door.path)
            self.assertEqual(client.ask("acquire a 1 50")[1:3], wanted, (first, second))
            self.assertEqual(client.ask("check").result, DONE)
            self.assertEqual(door.heard, ["acquire a 1", "cancel a", "ping"])
        for second in ("cancelled b\n", "cancelled a\n", "granted a 9\ncancelled a\n", "waiting a 0\nrefused waiter a\n",
                       "waiting a 0\nwaiting a 0\ncancelled a\n", "refused circle a\ncancelled a\n"):
            client = self.client(self.door("", second).path)
            self.assertEqual(client.ask("acquire a 1 50")[1:4:2], (LOST, errno.EPROTO), second)

    def test_names(self):
        client = self.client(self.door(lambda line: line.replace("try", "granted") + "\n").path)
        self.assertEqual(client.ask(f"acquire {'x' * 121}/aZ.9_- 7 0")[1:3], (DONE, 7))
        for line in (f"acquire {'x' * 129} 7 0", f"release {'x' * 129} 7", "acquire a\x7f 1 0", "acquire \xe9 1 0", "acquire a* 1 0", "acquire a,b 1 0"):
            self.assertEqual(client.ask(line).result, NAME, line)


@needs_c
class Interrupts(Interrupted):
    """What a handler leaves is not answered to the next call."""

    is_patient = True

    def test_a_call_that_is_left(self):
        door = Door("waiting a 0\n", "granted a 9\n")
        self.addCleanup(door.close)
        client = self.client(door.path)
        client.jump(300, "acquire a 1 -1")
        self.assertEqual(client.ask("acquire b 1 -1")[1:4], (LOST, 0, errno.ECANCELED))
        wait_until(lambda: door.heard)
        self.assertEqual(door.heard, ["acquire a 1"])

    @needs_programs
    def test_a_handler_that_returns(self):
        with Server(locks="a,b") as server, server.raw() as holder:
            self.assertEqual(say(holder, "acquire a 1\n"), ["granted a 1"])
            client = self.client(server.path)
            client.tell("alarms 1")
            self.assertEqual(client.results(*["acquire b 1 0", "check", "acquire a 1 50"] * 5),
                             [DONE, DONE, LATE] + [REFUSED, DONE, LATE] * 4)
            client.tell("acquire a 1 -1")
            server.wait_for_waiters("a", 1)
            say(holder, "release a 1\n")
            self.assertEqual(client.hear()[1:3], (DONE, 2))

    @needs_programs
    def test_nothing_is_believed_that_is_not_so(self):
        """Two programs, of which handlers leave one call in ten: each hold that they tell is in the journal with its label."""
        with Server(locks="a,b,c") as server:
            self.interrupted([server.path] * 2, 10000)
            server.stop()
            self.are_in_journal(server.journal)


@needs_c
@needs_programs
class Deadlines(Clients):
    """A call ends at its deadline, whoever stands still."""

    def is_lost(self, client, line, seconds, longer):
        """The call ends with the connection, at its time."""
        it = client.ask(line)
        self.assertEqual(it[1:4], (LOST, 0, errno.ETIMEDOUT))
        self.assertLessEqual(it.seconds, seconds + margin(longer))
        self.assertGreaterEqual(it.seconds, seconds - 0.002)

    def test_the_time_of_a_withdrawal(self):
        """What a test that is late may not show."""
        with open(os.path.join(INCLUDE, "wozgirt_lock.h"), encoding="ascii") as file:
            milliseconds = int(re.search(r"\bWOZGIRT_LOCK_WITHDRAWAL = (\d+)", file.read())[1])
        self.assertLess(milliseconds / 1000, MARGIN)

    @by_the_clock
    def test_what_stands_still(self, longer):
        for who in ("server", "engine"):
            with Server(locks="a,b") as server, server.raw() as holder:
                say(holder, "acquire b 1\n")
                waiter, *clients = [self.client(server.path, 400 * longer) for _ in range(5)]
                waiter.tell(f"acquire b 1 {700 * longer}")
                server.wait_for_waiters("b", 1)
                process = server.process.pid if who == "server" else server.engine_number()
                os.kill(process, signal.SIGSTOP)
                try:
                    it = waiter.hear()
                    self.assertEqual(it[1:4], (LOST, 0, errno.ETIMEDOUT))
                    self.assertLessEqual(it.seconds, 0.7 * longer + margin(longer))
                    lines = ["acquire a 1 0", "acquire a 1 -1", "release a 1"] + ["check"] * (who == "server")
                    for client, line in zip(clients, lines):
                        self.is_lost(client, line, 0.4 * longer, longer)
                    for wait in (1, 300):
                        it = self.client(server.path, 5000).ask(f"acquire a 1 {wait}")
                        self.assertEqual(it[1:4], (LOST, 0, errno.ETIMEDOUT))
                        self.assertLessEqual(it.seconds, wait / 1000 + margin(longer))
                finally:
                    os.kill(process, signal.SIGCONT)
                # of what was asked nothing is held or waited for
                wait_until(lambda: [line.split()[2:8:5] for line in server.operate("status", 3).splitlines()[1:]] ==
                           [["free", "0"], ["held", "0"]])

    @by_the_clock
    def test_a_full_queue(self, longer):
        with tempfile.TemporaryDirectory(dir=FOLDER) as folder:
            door = FullDoor(socket.AF_UNIX, os.path.join(folder, "door"))
            self.addCleanup(door.close)
            client = self.client(door.place, 300, result=LOST)
            it = client.ask(f"open {door.place} 300")
            self.assertEqual(it[1:4], (LOST, 0, errno.ETIMEDOUT))
            self.assertLessEqual(it.seconds, 0.3 + margin(longer))
            client.tell(f"open {door.place} {PATIENCE * 1000}")
            sock = door.open()
            self.addCleanup(sock.close)
            self.assertEqual(client.hear().result, DONE)


@needs_c
@needs_programs
class Forks(Clients):
    """A child neither uses its parent's client, nor ends it."""

    def test_a_child(self):
        with Server(locks="a,b") as server:
            client = self.client(server.path)
            token = client.ask("acquire a 1 0").token
            for line in ("check", "acquire b 1 0", "acquire b 1 50", f"release a {token}"):
                self.assertEqual(client.ask("child " + line)[1:4], (CHILD, 0, 0), line)
            self.assertEqual(client.ask("child close").result, DONE)
            self.assertEqual(client.results("check", f"release a {token}", "acquire a 1 0"), [DONE] * 3)
            self.assertEqual(client.ask(f"child open {server.path} 1000").result, DONE)
            self.assertEqual(client.ask("check").result, DONE)

    def test_nobody_opened_it(self):
        client = self.program_that_runs()
        self.assertEqual(client.results("close", "check", "acquire a 1 0", "release a 1", "close"), [DONE, CHILD, CHILD, CHILD, DONE])
        with Server(locks="a") as server:
            self.assertEqual(client.results(f"open {server.path} 1000", "check"), [DONE, DONE])

    def test_a_parent_that_closes(self):
        with Server(locks="a") as server, server.raw() as other:
            client = self.client(server.path)
            self.assertEqual(client.ask("acquire a 1 0").result, DONE)
            client.nurse()
            client.ask("close")
            self.assertEqual(say(other, "acquire a 1\n"), ["granted a 2"])  # though a child has the connection, too


if __name__ == "__main__":
    unittest.main()
