"""Each user, and each address over TCP, has a part of what is bounded; operators see those that are away, and end them."""

import contextlib
import socket
import time
import unittest
import urllib.request

from harness import PATIENCE, Server, needs_loopback, needs_programs, read_lines, say, wait_until
from test_any_name import server_of
from test_cluster import Trial as OfCluster
from test_cluster import needs_strict


class Parts(contextlib.ExitStack):
    """A server, to which this process is two guests: at its Unix socket, and over TCP. A context manager, which ends the server."""

    def __init__(self, server):
        super().__init__()
        self.server = self.enter_context(server)

    @contextlib.contextmanager
    def over_tcp(self):
        with socket.create_connection(("127.0.0.1", self.server.port("clients")), PATIENCE) as sock:
            yield sock

    def begin(self, key, *lines, over_tcp=True):
        """A session that is left at once: what it was answered."""
        with self.over_tcp() if over_tcp else self.server.raw() as sock:
            said = say(sock, "".join(f"{line}\n" for line in (f"session {key}", *lines)), 1 + len(lines))
            return said if said[0] == "refused session" else said[1:]

    def metric(self, name):
        with urllib.request.urlopen(f"http://127.0.0.1:{self.server.port('page')}/metrics", timeout=PATIENCE) as page:
            text = page.read().decode()
        return float(text.split(f"\n{name} ")[1].split("\n")[0])


def firsts(lines):
    return [" ".join(line.split()[:2]) for line in lines]


def words(*more):
    return ("--tcp", "127.0.0.1:0", "--page", "127.0.0.1:0", *more)


@needs_programs
@needs_loopback
class OfSessions(unittest.TestCase):
    def test_nobody_takes_those_of_the_others(self):
        with Parts(Server(*words("--connections", "8"))) as it:
            begun = sum(it.begin(key, "1 try a 1", "2 leave" if key == 1 else "2 cancel a")[0] != "refused session" for key in range(1, 90))
            self.assertEqual(begun, 65)  # the first has left
            self.assertEqual(it.begin(100, "1 try b 1", over_tcp=False), ["1 granted b 1"])
            self.assertEqual((it.metric("wozgirt_sessions"), it.metric('wozgirt_part_refusals_total{of="sessions"}')), (65, 24))
            it.server.wait_for_log("part-full refused, one more of sessions: 127.0.0.1:")
            self.assertIn("; 64 of 64 are this user's, or address's\n", it.server.text_of_log())
            self.assertEqual(it.server.text_of_log().count(" part-full "), 1)

    def test_one_that_has_nothing_ends_with_its_connection_when_it_is_old(self):
        with Parts(Server(*words())) as it, it.server.raw() as holder:
            say(holder, "acquire a 1\n")
            with it.server.raw() as old, it.server.raw() as held:
                say(old, "session 7\n1 try a 1\n", 2)
                say(held, "session 8\n1 try b 1\n", 2)
                time.sleep(10.2)
                self.assertEqual(it.begin(9, "1 try a 1", over_tcp=False), ["1 busy a"])
            say(holder, "release a 1\n")
            wait_until(lambda: it.metric("wozgirt_sessions") == 2)
            # the one that is old is over, and what it asks again is a new question; the others have their answers
            self.assertEqual(it.begin(9, "1 try a 1", over_tcp=False), ["1 busy a"])
            self.assertEqual(it.begin(7, "1 try a 1", over_tcp=False), ["1 granted a 2"])
            self.assertIn("\nholds b 1", "\n" + "\n".join(it.begin(8, "2 cancel b", over_tcp=False)))


@needs_programs
@needs_loopback
class OfNames(unittest.TestCase):
    def test_nobody_takes_those_of_the_others(self):
        with Parts(server_of(*words("--most-names", "16"), locks="a,*")) as it, it.over_tcp() as one, it.over_tcp() as two, it.server.raw() as three:
            say(one, "session 7\n", 1)
            said = say(one, "".join(f"{i} try x/{i} 1\n" for i in range(1, 11)), 10)
            said += say(two, "".join(f"{verb} y/{verb}{i} 1\n" for i in range(1, 6) for verb in ("acquire", "try")), 10)
            self.assertEqual([line.count(" refused names ") + line.startswith("refused names ") for line in said], [0] * 14 + [1] * 6)
            self.assertEqual(firsts(say(three, "acquire z/1 1\nacquire z/2 1\ntry a 1\n", 3)),
                             ["granted z/1", "refused names", "granted a"])
            # a lock that is in use brings no name into use
            self.assertEqual(say(three, "acquire x/1 1\n"), ["waiting x/1 0"])
            tokens = {line.split()[2]: line.split()[3] for line in said if " granted " in line}
            self.assertEqual(say(one, f"11 release x/1 {tokens['x/1']}\n12 try x/11 1\n", 2), ["11 released x/1", "12 refused names x/11"])
            self.assertEqual(firsts(read_lines(three, 1)), ["granted x/1"])
            say(one, f"13 release x/2 {tokens['x/2']}\n14 release x/3 {tokens['x/3']}\n", 2)
            self.assertEqual(say(one, "15 try x/11 1\n")[0].split()[:3], ["15", "granted", "x/11"])
            self.assertEqual(it.metric('wozgirt_part_refusals_total{of="names"}'), 8)
            it.server.wait_for_log("part-full refused, one more of names: ")

    def test_what_was_not_granted_takes_none(self):
        with server_of("--most-names", "8", locks="a,*") as server, server.raw() as one, server.raw() as two:
            say(one, "acquire x/1 1\n")
            for _ in range(20):
                self.assertEqual(say(two, "try x/1 1\ntry x/2 1\nrelease x/2 1\n", 3)[0], "busy x/1")
            self.assertEqual(say(two, "".join(f"try y/{i} 1\n" for i in range(7)), 7)[-1], "refused names y/6")


@needs_programs
class OfTheLog(unittest.TestCase):
    def test_a_line_has_some_names(self):
        locks = [f"n{i}" for i in range(1000)]
        with Server(locks=",".join(locks)) as server:
            with server.raw() as sock:
                say(sock, "".join(f"try {name} 1\n" for name in locks), 1000)
            server.wait_for_log("; it held n0,n1,n2,n3,n4,n5,n6,n7 and 992 more\n")

    @needs_loopback
    def test_nobody_takes_all_of_it(self):
        with Parts(Server(*words())) as it:
            for _ in range(300):
                with it.over_tcp() as sock:
                    self.assertEqual(say(sock, "nonsense\n"), ["refused syntax"])
            with it.server.raw() as sock:
                self.assertEqual(say(sock, "nonsense\n"), ["refused syntax"])
            wait_until(lambda: " went (syntax): " in it.server.text_of_log().rsplit("\n", 2)[-2] and "process" in it.server.text_of_log())
            count = it.server.text_of_log().count(" went (syntax): 127.0.0.1:")
            self.assertTrue(100 <= count < 290, count)
            wait_until(lambda: self.says_how_many(it))

    @staticmethod
    def says_how_many(it):
        with it.over_tcp() as sock:
            say(sock, "nonsense\n")
        return " lines-left-out " in it.server.text_of_log()


@needs_programs
class Away(unittest.TestCase):
    def lines(self, server):
        count = int(server.operate("clients").split()[1])
        return server.operate("clients", 1 + count).split("\n")[1:]

    def away(self, server):
        return [line.split(" ", 3)[1:] for line in self.lines(server) if " away, " in line]

    def begin(self, server, key, *lines):
        with server.raw() as sock:
            say(sock, "".join(f"{line}\n" for line in (f"session {key}", *lines)), 1 + len(lines))

    def test_they_are_listed_and_sent_away(self):
        with Server() as server, server.raw() as waiter:
            self.begin(server, 7, "1 try a 1", "2 try b 1")
            wait_until(lambda: len(self.away(server)) == 1)
            (number, left, rest), = self.away(server)
            self.assertRegex(rest, r"^a,b - away, \S+$")
            self.assertTrue(0 < int(left) <= 30000)
            self.assertEqual(say(waiter, "acquire a 1\n"), ["waiting a 0"])
            self.assertEqual(server.operate(f"kick {number}"), f"kicked {number}")
            self.assertEqual(read_lines(waiter, 1), ["granted a 2"])
            self.assertEqual((self.away(server), server.operate(f"kick {number}")), ([], f"refused client {number}"))
            server.wait_for_log(f"session-ended session {number}, whose client is away, ended by an operator (")
            with server.raw() as sock:
                self.assertEqual(say(sock, "session 7\n"), ["session 7 0 alone"])

    def test_their_holds_are_ended(self):
        with Server() as server, server.raw() as waiter:
            self.begin(server, 7, "1 try a 1", "2 try b 1")
            wait_until(lambda: len(self.away(server)) == 1)
            say(waiter, "acquire a 1\n")
            self.assertEqual(server.operate("end a 1"), "ended a")
            self.assertEqual(read_lines(waiter, 1), ["granted a 2"])
            self.assertRegex(self.away(server)[0][2], "^b - away, ")


@needs_programs
@needs_strict
class InALog(OfCluster):
    def test_sessions_and_names(self):
        with Parts(self.server("a", *words("--connections", "8", "--most-names", "16"), locks="a,*")) as it:
            begun = sum(it.begin(key, "1 try a 1")[0] != "refused session" for key in range(1, 90))
            self.assertEqual(begun, 64)
            self.assertRegex(it.begin(100, "1 try x/1 1", over_tcp=False)[0], "^1 granted x/1 ")
            with it.over_tcp() as sock:
                self.assertEqual(say(sock, "try a 1\n"), ["refused session"])
                say(sock, "session 1\n", 2)
                said = say(sock, "".join(f"{i} try y/{i} 1\n" for i in range(2, 20)), 18)
            self.assertEqual([line.split()[1] for line in said], ["granted"] * 13 + ["refused"] * 5)
            with it.server.raw() as sock:
                say(sock, "session 100\n", 2)
                self.assertEqual(say(sock, "2 try z/1 1\n"), ["2 refused names z/1"])

    def test_those_that_are_away(self):
        server = self.server("a")
        with server.raw() as sock:
            say(sock, "session 7\n1 try a 1\n", 2)
        wait_until(lambda: " away, " in server.operate("clients", 3))
        number, _, holds = server.operate("clients", 3).split("\n")[-1].split()[1:4]
        self.assertEqual((holds, server.operate(f"kick {number}")), ("a", f"kicked {number}"))
        with server.raw() as sock:
            self.assertEqual(say(sock, "acquire a 1\n")[-1].split()[:2], ["granted", "a"])


if __name__ == "__main__":
    unittest.main()
