"""Sessions of a single server: what they have outlives the engine and the server, and what was done is not done again."""

import os
import shutil
import signal
import socket
import sys
import tempfile
import time
import unittest
import unittest.mock

import harness
from harness import (FOLDER, PATIENCE, RUNNING, Server, at_least, by_the_clock, granted, needs_loopback, needs_programs, read_lines, say,
                     wait_until)
from test_cluster import granted_late


#: An engine that tells nothing while there is a file.
GATED = """#!{python}
import os, subprocess, sys, threading, time
engine = subprocess.Popen(["{engine}", *sys.argv[1:]], stdin=subprocess.PIPE, stdout=subprocess.PIPE, bufsize=0)
def pass_on():
    for lines in iter(lambda: os.read(0, 65536), b""):
        engine.stdin.write(lines)
    engine.stdin.close()
threading.Thread(target=pass_on, daemon=True).start()
for lines in iter(lambda: os.read(engine.stdout.fileno(), 65536), b""):
    while os.path.exists("{gate}"):
        time.sleep(0.01)
    try:
        os.write(1, lines)
    except OSError:
        pass  # the server is gone
sys.exit(engine.wait())
"""


#: One that hears of nobody's leave while there is a file.
DEAF = """#!{python}
import os, subprocess, sys
engine = subprocess.Popen(["{engine}", *sys.argv[1:]], stdin=subprocess.PIPE, bufsize=0)
for line in sys.stdin.buffer:
    if not (line.endswith((b" leave\\n", b" forget\\n")) and os.path.exists("{gate}")):
        engine.stdin.write(line)
engine.stdin.close()
sys.exit(engine.wait())
"""


class Trial(unittest.TestCase):
    """Servers in one folder, one after the other."""

    def setUp(self):
        self.folder = tempfile.mkdtemp(prefix="wozgirt-", dir=FOLDER)
        self.addCleanup(shutil.rmtree, self.folder, ignore_errors=True)

    def server(self, *words, **more):
        it = Server(*words, folder=self.folder, **more)
        self.addCleanup(self.end, it)
        return it

    def end(self, server):
        if server in RUNNING:
            server.__exit__()

    def again(self, server, number, *words, **more):
        """The server ends by this signal, and another one starts."""
        server.process.send_signal(number)
        server.process.wait(PATIENCE)
        RUNNING.remove(server)
        return self.server(*words, **more)

    def wait_for_clients(self, server, count):
        """Until the server knows that so many are connected, and that the others are gone."""
        def is_so():
            with server.raw(operator=True) as sock:
                lines = say(sock, "clients\n")
                most = int(lines[0].split()[1])
                lines += read_lines(sock, most + 1 - len(lines)) if len(lines) <= most else []
            return sum(line.startswith("client ") and " away, " not in line for line in lines) == count + 1
        wait_until(is_so)

    def raw(self, server):
        sock = server.raw()
        self.addCleanup(sock.close)
        return sock

    def session(self, server, key, count=0):
        """A connection with a session, and what that holds and waits for."""
        sock = self.raw(server)
        lines = say(sock, f"session {key}\n", 1 + count)
        self.assertEqual(lines[0], f"session {key} {count} alone", lines)
        return sock, lines[1:]

    def restart_engine(self, server):
        before = server.engine_number()
        server.kill_engine()
        wait_until(lambda: server.engine_number() not in (None, before))


@needs_programs
class Restarts(Trial):
    def each_restart(self, server):
        """The server, restarted in each way."""
        self.restart_engine(server)
        yield server
        for number in (signal.SIGTERM, signal.SIGKILL):
            server = self.again(server, number)
            yield server

    def test_holds_and_places_outlive_restarts(self):
        server = self.server()
        (one, _), (two, _), (three, _) = (self.session(server, key) for key in (1, 2, 3))
        self.assertEqual(say(one, "1 acquire a 5\n2 acquire b 5\n", 2), ["1 granted a 1", "2 granted b 1"])
        self.assertEqual(say(two, "1 acquire a 6\n"), ["1 waiting a 0"])
        self.assertEqual(say(three, "1 acquire a 7\n"), ["1 waiting a 1"])
        for server in self.each_restart(server):
            for sock in (one, two, three):
                self.assertEqual(sock.recv(10), b"")
            (three, lines), (one, of_one), (two, of_two) = self.session(server, 3, 1), self.session(server, 1, 2), self.session(server, 2, 1)
            self.assertEqual((of_one, of_two, lines), (["holds a 1", "holds b 1"], ["waits a"], ["waits a"]))
            plain = self.raw(server)
            self.assertEqual(say(plain, "try a 1\ntry b 1\n", 2), ["busy a", "busy b"])
        self.assertEqual(say(one, "2 acquire b 5\n1 acquire a 5\n3 release a 1\n", 3), ["2 granted b 1", "1 refused past 2", "3 released a"])
        self.assertEqual(read_lines(two, 1), ["granted a 2"])
        self.assertEqual(say(two, "2 release a 2\n"), ["2 released a"])
        self.assertEqual(read_lines(three, 1), ["granted a 3"])

    def test_an_unanswered_input_is_done_once(self):
        server = self.server()
        one, _ = self.session(server, 1)
        self.assertEqual(say(one, "1 acquire a 5\n"), ["1 granted a 1"])
        for i, server in enumerate(self.each_restart(server)):
            number, token = 2 * i + 2, i + 1
            one, _ = self.session(server, 1, 1)
            for _ in range(2):
                self.assertEqual(say(one, f"{number - 1} acquire a 5\n"), [f"{number - 1} granted a {token}"])
            for _ in range(2):
                self.assertEqual(say(one, f"{number} release a {token}\n"), [f"{number} released a"])
            self.assertEqual(say(one, f"{number + 1} acquire a 5\n"), [f"{number + 1} granted a {token + 1}"])

    @by_the_clock
    def test_who_does_not_come_back(self, longer):
        """Its hold lasts its lease, from when the server is there again, and then the next one is granted the lock."""
        lease = 0.6 * longer
        server = self.server(lease=str(lease))
        (one, _), (two, _) = self.session(server, 2 * longer), self.session(server, 2 * longer + 1)
        token = int(say(one, "1 acquire a 5\n")[0].split()[3])
        self.assertEqual(say(two, "1 acquire a 6\n"), ["1 waiting a 0"])
        begun = time.monotonic()
        server = self.again(server, signal.SIGKILL, lease=str(lease))
        two, lines = self.session(server, 2 * longer + 1, 1)
        self.assertEqual(lines, ["waits a"])
        self.assertEqual(granted_late(two), f"granted a {token + 1}")
        at_least(lease, begun)
        server.wait_for_log("did not come back; it held a")
        self.session(server, 2 * longer)
        self.end(server)

    def test_a_lease_that_was_asked_for_is_the_sessions_at_the_next_start(self):
        """The longest would keep the lock for longer than this test waits."""
        server = self.server(lease=str(3 * PATIENCE))
        one, _ = self.session(server, 1)
        self.assertEqual(say(one, "lease 300\n1 acquire a 5\n", 2), ["lease 300", "1 granted a 1"])
        other = self.raw(self.again(server, signal.SIGKILL, lease=str(3 * PATIENCE)))
        other.sendall(b"acquire a 6\n")
        self.assertEqual(granted(other), "granted a 2")

    @by_the_clock
    def test_plain_clients_are_as_they_were(self, longer):
        """A hold of theirs stays for the grace of the next start, and then it is over; their number is no session's."""
        lease = str(0.5 * longer)
        server = self.server(lease=lease)
        plain, (one, _) = self.raw(server), self.session(server, 1)
        self.assertEqual(say(plain, "acquire a 1\n"), ["granted a 1"])
        self.assertEqual(say(one, "1 acquire b 5\n2 acquire a 6\n", 2), ["1 granted b 1", "2 waiting a 0"])
        server = self.again(server, signal.SIGTERM, lease=lease)
        one, lines = self.session(server, 1, 2)
        self.assertEqual(lines, ["holds b 1", "waits a"])
        self.assertEqual(granted_late(one), "granted a 2")
        other = self.raw(server)
        self.assertEqual(say(other, "try a 1\ntry b 1\n", 2), ["busy a", "busy b"])

    def behind_a_gate(self, lease, text=GATED):
        """A server whose engine tells nothing while there is a file `gate`, or does not hear all."""
        gate, engine = os.path.join(self.folder, "gate"), os.path.join(self.folder, "engine")
        with open(engine, "w", encoding="utf-8") as file:
            file.write(text.format(python=sys.executable, gate=gate, engine=harness.ENGINE))
        os.chmod(engine, 0o700)
        with unittest.mock.patch.object(harness, "ENGINE", engine):
            return self.server(lease=lease)

    def hand_over_unheard(self, server, one, lease, is_of_engine=False):
        """The session releases its lock, the engine does that and notes it, and it or the server is killed before it tells that."""
        gate, count = os.path.join(self.folder, "gate"), len(server.calls())
        with open(gate, "w", encoding="ascii"):
            pass
        one.sendall(b"2 release a 1\n")
        wait_until(lambda: len(server.calls()) > count)
        if is_of_engine:
            self.restart_engine(server)
        else:
            server.process.kill()
            server.process.wait()
            RUNNING.remove(server)
        os.remove(gate)
        return server if is_of_engine else self.server(lease=lease)

    def is_nobodys(self, longer, is_of_engine):
        """A hold that the server never heard of is nobody's until the grace is over, though one session waited for it alone; and the release
        that brought it is not done again."""
        lease = str(2 * longer)
        server = self.behind_a_gate(lease)
        (one, _), (two, _) = self.session(server, 1), self.session(server, 2)
        self.assertEqual(say(one, "1 acquire a 5\n"), ["1 granted a 1"])
        self.assertEqual(say(two, "1 acquire a 6\n"), ["1 waiting a 0"])
        server = self.hand_over_unheard(server, one, lease, is_of_engine)
        (one, none), (two, lines) = self.session(server, 1), self.session(server, 2, 1)
        self.assertEqual((none, lines), ([], ["waits a"]))
        self.assertEqual(say(one, "2 release a 1\n"), ["2 released a"])
        self.assertEqual(granted_late(two), "granted a 3")

    @by_the_clock
    def test_a_hold_that_the_server_never_heard_of_as_the_engine_ended(self, longer):
        self.is_nobodys(longer, True)

    @by_the_clock
    def test_a_hold_that_the_server_never_heard_of_as_it_ended(self, longer):
        self.is_nobodys(longer, False)

    @by_the_clock
    def test_one_that_may_be_that_of_a_client_without_a_session(self, longer):
        """It lasts for the grace, since such a client may have been told of it."""
        lease = str(2 * longer)
        server = self.behind_a_gate(lease)
        (one, _), plain, (two, _) = self.session(server, 1), self.raw(server), self.session(server, 2)
        self.assertEqual(say(one, "1 acquire a 5\n"), ["1 granted a 1"])
        self.assertEqual(say(plain, "acquire a 6\n"), ["waiting a 0"])
        self.assertEqual(say(two, "1 acquire a 6\n"), ["1 waiting a 1"])
        server = self.hand_over_unheard(server, one, lease)
        two, lines = self.session(server, 2, 1)
        self.assertEqual(lines, ["waits a"])
        self.assertEqual(granted_late(two), "granted a 3")

    @by_the_clock
    def test_a_hold_of_one_that_is_gone_is_nobodys(self, longer):
        """It is granted when its session is over, and the server ends before the engine hears of that."""
        lease = str(2 * longer)
        server = self.behind_a_gate(lease, DEAF)
        (one, _), two, (three, _) = self.session(server, 1), self.raw(server), self.session(server, 3)
        self.assertEqual(say(one, "1 acquire a 5\n"), ["1 granted a 1"])
        self.assertEqual(say(two, "session 2 attached\n1 acquire a 6\n", 2)[1], "1 waiting a 0")
        self.assertEqual(say(three, "1 acquire a 7\n"), ["1 waiting a 1"])
        gate = os.path.join(self.folder, "gate")
        with open(gate, "w", encoding="ascii"):
            pass
        two.close()
        self.wait_for_clients(server, 2)
        self.assertEqual(say(one, "2 release a 1\n"), ["2 released a"])
        self.assertEqual(server.operate("stats a").split()[-1], "2")  # the grant was heard
        server = self.again(server, signal.SIGKILL, lease=lease)
        os.remove(gate)
        three, lines = self.session(server, 3, 1)
        self.assertEqual(lines, ["waits a"])
        self.assertEqual(granted_late(three), "granted a 3")

    def test_a_session_that_is_attached(self):
        """It is over as soon as its client closes the connection; not when the server or the engine ends."""
        server = self.server(lease="20")
        one = self.raw(server)
        self.assertEqual(say(one, "session 1 attached\n1 acquire a 5\nlease\n", 3), ["session 1 0 0 20000", "1 granted a 1", "lease 0"])
        for server in self.each_restart(server):
            one = self.raw(server)
            self.assertEqual(say(one, "session 1 attached\n", 2)[1:], ["holds a 1"])
        one.close()
        other = self.raw(server)
        other.sendall(b"acquire a 5\n")
        self.assertEqual(granted(other), "granted a 2")
        two, _ = self.session(server, 2)
        self.assertEqual(say(two, "1 acquire b 6\n"), ["1 granted b 1"])
        self.assertEqual(say(two, "lease\n"), ["lease 30000"])
        two.close()
        self.wait_for_clients(server, 1)
        self.assertEqual(say(other, "try b 6\n"), ["busy b"])

    def test_another_connection_takes_the_session_over(self):
        server = self.server()
        one, _ = self.session(server, 1)
        self.assertEqual(say(one, "1 acquire a 5\n"), ["1 granted a 1"])
        two, lines = self.session(server, 1, 1)
        self.assertEqual((lines, one.recv(10)), (["holds a 1"], b""))
        self.assertEqual(say(two, "1 acquire a 5\n2 leave\n3 acquire a 5\n3 acquire a 5\n", 4), [
            "1 granted a 1", "2 left", "3 granted a 2", "3 granted a 2"])
        server = self.again(server, signal.SIGKILL)
        two, lines = self.session(server, 1, 1)
        self.assertEqual(lines, ["holds a 2"])

    def test_one_that_has_left_takes_over_what_another_connection_has_begun(self):
        server = self.server()
        one, _ = self.session(server, 1)
        self.assertEqual(say(one, "1 acquire a 5\n2 leave\n", 2), ["1 granted a 1", "2 left"])
        two, _ = self.session(server, 1)
        self.assertEqual(say(two, "1 acquire a 5\n"), ["1 granted a 2"])
        self.assertEqual(say(one, "3 acquire b 5\n"), ["3 granted b 1"])
        self.assertEqual(two.recv(10), b"")
        self.assertEqual(say(one, "4 release a 2\n"), ["4 released a"])

    def test_what_was_said_just_before_the_end_of_a_connection_is_done(self):
        """The session goes on, so it counts; however much waits for the engine, and though nobody hears the answers."""
        server = self.server(lease="300")
        other = self.raw(server)
        many = "".join(f"{number} cancel a\n" for number in range(2, 150))
        for whom, lines in ((server.process.pid, "2 release a 1\n"), (server.engine_number(), many + "150 release a 3\n")):
            one, _ = self.session(server, 1)
            last = lines.splitlines()[-1]
            self.assertEqual(say(one, "1 acquire a 5\n"), [f"1 granted a {last.split()[3]}"])
            os.kill(whom, signal.SIGSTOP)
            self.addCleanup(os.kill, whom, signal.SIGCONT)
            one.sendall(lines.encode())
            one.close()
            if whom != server.process.pid:
                self.assertEqual(server.operate("ping"), "pong")  # it knows that the client is gone
            os.kill(whom, signal.SIGCONT)
            other.sendall(b"acquire a 1\n")
            token = int(granted(other).split()[2])
            self.assertEqual(say(other, f"release a {token}\n"), ["released a"])
            one, _ = self.session(server, 1)
            self.assertEqual(say(one, f"{last}\n{int(last.split()[0]) + 1} leave\n", 2), [
                f"{last.split()[0]} released a", f"{int(last.split()[0]) + 1} left"])

    def test_who_comes_twice_is_told_once(self):
        server = self.server()
        socks = [self.raw(server) for _ in range(5)]
        for i, sock in enumerate(socks):
            sock.sendall(f"session 6\n{i} acquire a 5\n".encode())
        for sock in socks[:4]:
            read_lines(sock, 9)  # to the end
        lines = []
        while not lines or not lines[-1].startswith("4 "):
            lines += read_lines(socks[4], 1)
        self.assertIn(lines, (["session 6 0 alone", "4 granted a 1"], ["session 6 1 alone", "holds a 1", "4 refused holds a"]))

    def test_lines_of_a_session(self):
        with self.raw(self.server()) as sock:
            self.assertEqual(say(sock, "session 9\nsession 9\nacquire a 1\n3 ping\nping\n01 leave\n1 acquire q 1\nstats a\n", 8), [
                "session 9 0 alone", "refused syntax", "refused syntax", "refused syntax", "pong", "refused syntax", "1 refused lock q",
                "stats a 8 0 0 0 0"])
            self.assertEqual(say(sock, "status\n3 try a 1\n2 stop\n", 6)[-2:], ["3 granted a 1", "refused syntax"])
        with self.raw(self.server()) as sock:
            self.assertEqual(say(sock, "acquire b 1\nsession 9\n", 2), ["granted b 1", "refused syntax"])

    def over_tcp(self, server, source):
        """A connection from this address of the loopback."""
        sock = socket.create_connection(("127.0.0.1", server.port("clients")), PATIENCE, (source, 0))
        self.addCleanup(sock.close)
        return sock

    @needs_loopback
    def test_a_session_is_not_another_addresss(self):
        server = self.server("--tcp", "127.0.0.1:0")
        one = self.over_tcp(server, "127.0.0.1")
        self.assertEqual(say(one, "session 77\n1 acquire a 5\n", 2), ["session 77 0 alone", "1 granted a 1"])
        self.assertEqual(say(self.over_tcp(server, "127.0.0.2"), "session 77\nping\n", 2), ["refused session", "pong"])
        self.assertEqual(say(one, "ping\n"), ["pong"])
        server = self.again(server, signal.SIGKILL, "--tcp", "127.0.0.1:0")
        self.assertEqual(say(self.over_tcp(server, "127.0.0.2"), "session 77\n"), ["refused session"])
        self.assertEqual(say(self.over_tcp(server, "127.0.0.1"), "session 77\n", 2), ["session 77 1 alone", "holds a 1"])

    @needs_loopback
    def test_an_acquire_of_a_session_that_is_refused_leaves_no_place(self):
        server = self.server("--tcp", "127.0.0.1:0", "--waiters", "2")
        one, two = (self.over_tcp(server, source) for source in ("127.0.0.1", "127.0.0.2"))
        self.assertEqual(say(one, "session 77\n1 leave\n", 2), ["session 77 0 alone", "1 left"])
        self.assertEqual(say(two, "session 77\n1 acquire a 5\n", 2), ["session 77 0 alone", "1 granted a 1"])
        numbers = range(2, 7)
        asked = "".join(f"{number} acquire a 5\n" for number in numbers)
        self.assertEqual(say(one, asked, len(numbers)), [f"{number} refused session" for number in numbers])
        self.assertEqual(say(self.raw(server), "acquire a 5\n"), ["waiting a 0"])

    def test_operators_see_and_end_what_a_session_has(self):
        server = self.server()
        one, _ = self.session(server, 1)
        self.assertEqual(say(one, "1 acquire a 5\n"), ["1 granted a 1"])
        number = server.operate("status", 2).split("\n")[1].split()[3]
        self.assertIn(f"client {number} 30000 a - ", server.operate("clients", 3))
        server = self.again(server, signal.SIGTERM)
        self.assertEqual(server.operate("end a 1"), "ended a")
        one, _ = self.session(server, 1)
        self.assertEqual(say(one, "2 release a 1\n3 acquire a 1\n", 2), ["2 refused holder a", "3 granted a 2"])
        self.assertEqual(server.operate(f"kick {number}"), f"kicked {number}")
        self.assertEqual(one.recv(10), b"")
        self.session(server, 1)
        self.assertEqual(say(self.raw(server), "try a 1\n"), ["granted a 3"])

    def test_an_operator_ends_the_hold_of_a_session_that_is_where_it_began(self):
        server = self.server()
        one, _ = self.session(server, 1)
        self.assertEqual(say(one, "1 acquire a 5\n2 acquire b 5\n", 2), ["1 granted a 1", "2 granted b 1"])
        self.assertEqual(server.operate("end a 1"), "ended a")
        self.assertEqual(say(one, "3 release a 1\n4 release b 1\n", 2), ["3 refused holder a", "4 released b"])
        self.assertEqual(say(self.raw(server), "acquire a 1\n"), ["granted a 2"])

    def test_an_operator_ends_the_hold_of_a_session_that_goes(self):
        """It is answered, whether the connection is closed meanwhile or the client has left just before."""
        server = self.server()
        one, two, operator = self.raw(server), self.raw(server), server.raw(operator=True)
        self.addCleanup(operator.close)
        for key, sock, name in ((1, one, "a"), (2, two, "b")):
            self.assertEqual(say(sock, f"session {key} attached\n1 acquire {name} 5\n", 2)[1], f"1 granted {name} 1")
        engine = server.engine_number()
        os.kill(engine, signal.SIGSTOP)
        self.addCleanup(lambda: os.kill(engine, signal.SIGCONT))
        for say_more in (lambda: two.sendall(b"2 leave\n"), lambda: operator.sendall(b"end a 1\nend b 1\nping\n"), one.close):
            say_more()
            self.assertEqual(server.operate("ping"), "pong")  # it has heard that
        os.kill(engine, signal.SIGCONT)
        self.assertEqual(read_lines(operator, 3), ["ended a", "ended b", "pong"])
        self.assertEqual(say(operator, "acquire a 1\nacquire b 1\n", 2), ["granted a 2", "granted b 2"])

    def test_holds_that_cannot_be_written(self):
        """Then no engine serves, and nothing that is kept goes: as soon as they can, the session has what it had."""
        server = self.server()
        one, _ = self.session(server, 1)
        self.assertEqual(say(one, "1 acquire a 5\n"), ["1 granted a 1"])
        part = os.path.join(self.folder, "journal.sessions", "holders.part")
        os.mkdir(part)
        with self.assertRaisesRegex(RuntimeError, "what is kept of sessions, beside the journal"):
            self.again(server, signal.SIGKILL)
        os.rmdir(part)
        server = self.server()
        self.assertEqual(self.session(server, 1, 1)[1], ["holds a 1"])

    def test_a_file_of_sessions_that_cannot_be_replaced(self):
        """The old one stays, and has all, so each start is made from it; the log says that nothing more is kept."""
        server = self.server()
        one, _ = self.session(server, 1)
        self.assertEqual(say(one, "1 acquire a 5\n"), ["1 granted a 1"])
        part = os.path.join(self.folder, "journal.sessions", "sessions.part")
        for number in (signal.SIGTERM, signal.SIGKILL):
            if number == signal.SIGTERM:
                os.mkdir(part)
            server = self.again(server, number)
            one, lines = self.session(server, 1, 1)
            self.assertEqual((lines, say(one, "1 acquire a 5\n")), (["holds a 1"], ["1 granted a 1"]))
            server.wait_for_log("sessions-unkept")
        os.rmdir(part)
        self.assertEqual(say(one, "2 release a 1\n3 acquire b 6\n", 2), ["2 released a", "3 granted b 1"])
        server = self.again(server, signal.SIGKILL)
        self.assertEqual(self.session(server, 1, 1)[1], ["holds b 1"])

    def test_a_folder_that_cannot_be_written(self):
        """The server says so, and ends; if it is to have no sessions, all else is as it was."""
        with open(os.path.join(self.folder, "journal.sessions"), "w", encoding="ascii"):
            pass
        with self.assertRaisesRegex(RuntimeError, "what is kept of sessions, beside the journal: .*--no-sessions"):
            self.server()
        server = self.server("--no-sessions")
        self.assertEqual(say(self.raw(server), "session 1\nacquire a 1\n", 2), ["refused session", "granted a 1"])

    def test_a_journal_by_the_name_of_the_folder_that_one_is_in(self):
        """What is kept of sessions is beside the folder that `.` is."""
        server = self.server()
        one, _ = self.session(server, 1)
        self.assertEqual(say(one, "1 acquire a 5\n"), ["1 granted a 1"])
        server.process.kill()
        server.process.wait()
        RUNNING.remove(server)
        before = os.getcwd()
        self.addCleanup(os.chdir, before)
        os.chdir(os.path.join(self.folder, "journal"))
        server = self.server("--journal", ".")
        os.chdir(before)
        self.assertEqual(self.session(server, 1, 1)[1], ["holds a 1"])
        self.assertEqual(sorted(os.listdir(self.folder)), ["journal", "journal.sessions", "lock.sock", "log", "operators.sock"])

    def test_no_link_is_written(self):
        """What a link beside the journal leads to stays as it is."""
        other, beside = os.path.join(self.folder, "other"), os.path.join(self.folder, "journal.sessions")
        os.mkdir(beside)
        with open(other, "w", encoding="ascii") as file:
            file.write("as it was")
        for name in ("sessions", "sessions.part", "holders", "holders.part"):
            os.symlink(other, os.path.join(beside, name))
        server = self.server()
        one, _ = self.session(server, 1)
        self.assertEqual(say(one, "1 acquire a 5\n"), ["1 granted a 1"])
        server = self.again(server, signal.SIGKILL)
        self.assertEqual(self.session(server, 1, 1)[1], ["holds a 1"])
        self.end(server)
        with open(other, encoding="ascii") as file:
            self.assertEqual(file.read(), "as it was")
        os.remove(os.path.join(beside, "lock"))
        os.symlink(other, os.path.join(beside, "lock"))
        with self.assertRaisesRegex(RuntimeError, "lock: it is a link"):
            self.server()


if __name__ == "__main__":
    unittest.main()
