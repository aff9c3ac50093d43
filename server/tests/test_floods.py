"""Clients that ask for all they can: the server's memory stays within its bound, leases end on time, and others have their places and
turns."""

import array
import collections
import contextlib
import fcntl
import http.client
import math
import os
import select
import signal
import socket
import statistics
import subprocess
import termios
import threading
import time
import unittest

from flood import Flood
from harness import ENGINE, PATIENCE, Server, by_the_clock, needs_loopback, needs_programs, read_lines, say, soonest, wait_until
from waits import Waits, Watch

MANY = "a,b," + ",".join(f"n{i}" for i in range(998))
MIB = 1 << 20
# so much more than at its start the server may have at any time in these tests: each is far below what --memory permits it
MOST_GROWTH = 24 * MIB
# and so much more where nobody stays who is given memory
LEAST_GROWTH = 4 * MIB


def memory(server):
    """How many bytes of memory the server has."""
    with open(f"/proc/{server.process.pid}/statm", encoding="ascii") as file:
        return int(file.read().split()[1]) * os.sysconf("SC_PAGESIZE")


class Growth:
    """Watches the memory of a server; ends that before it has taken all of the machine's."""

    def __init__(self, server):
        self.server, self.first, self.most = server, memory(server), 0
        self.is_over, self.thread = threading.Event(), threading.Thread(target=self.watch)

    def watch(self):
        while not self.is_over.wait(0.02):
            try:
                self.most = max(self.most, memory(self.server) - self.first)
            except OSError:
                return
            if self.most > 20 * MOST_GROWTH:
                self.server.process.kill()

    def __enter__(self):
        self.thread.start()
        return self

    def __exit__(self, *_):
        self.is_over.set()
        self.thread.join()


class Stopped:
    """An engine that stands still for a while."""

    def __init__(self, server):
        self.engine = server.engine_number()

    def __enter__(self):
        os.kill(self.engine, signal.SIGSTOP)

    def __exit__(self, *_):
        os.kill(self.engine, signal.SIGCONT)


@contextlib.contextmanager
def asked_through(server):
    """The server begins anew, with an engine that writes all that it is asked into a file, which this names."""
    engine, asked = server.folder + "/engine", server.folder + "/asked"
    with open(engine, "w", encoding="ascii") as file:
        file.write(f'#!/bin/sh\ntee {asked} | {ENGINE} "$@"\n')
    os.chmod(engine, 0o755)
    server.stop()
    with open(server.log, "ab") as log:
        server.process = subprocess.Popen([engine if word == ENGINE else word for word in server.words], stderr=log)
    server.wait_until_it_answers(server.process)
    yield asked


def unread(sock):
    """How many bytes have come that nobody has read."""
    count = array.array("i", [0])
    fcntl.ioctl(sock, termios.FIONREAD, count)
    return count[0]


def pour(socks, text, seconds):
    """Says it again and again, whole lines, on all of these connections, and reads nothing."""
    poller, by_number = select.poll(), {}
    for sock in socks:
        sock.setblocking(False)
        by_number[sock.fileno()] = [sock, b""]
        poller.register(sock, select.POLLOUT)
    end = time.monotonic() + seconds
    while time.monotonic() < end:
        for number, _ in poller.poll(50):
            sock, left = by_number[number]
            left = left or text
            try:
                by_number[number][1] = left[sock.send(left):]
            except BlockingIOError:
                pass
            except OSError:
                poller.unregister(number)


@needs_programs
class Memory(unittest.TestCase):
    """The bound holds for whatever is kept for a client, whether the engine runs or not."""

    def check(self, growth, most=MOST_GROWTH):
        self.assertLess(growth.most, most)

    def pour_and_check(self, text, count, stopped, **more):
        with Server(locks=MANY, **more) as server:
            socks = [server.raw() for _ in range(count)]
            with Growth(server) as growth:
                if stopped:
                    with Stopped(server):
                        pour(socks, text, 2)
                else:
                    pour(socks, text, 2)
            [sock.close() for sock in socks]
            self.assertIsNone(server.process.poll())
            self.check(growth)
            self.assertEqual(server.operate("ping"), "pong")

    def test_answers_behind_one_that_the_engine_owes(self):
        self.pour_and_check(b"acquire a 1\n" + b"status\n" * 5000, 1, True)

    def test_short_answers_behind_one_that_the_engine_owes(self):
        self.pour_and_check(b"acquire a 1\n" + b"lease 10000\nping\n" * 5000, 40, True)

    def test_answers_that_nobody_reads(self):
        self.pour_and_check(b"stats a\n" + b"status\n" * 500, 40, False)

    def test_questions_that_wait(self):
        self.pour_and_check(b"try a 18446744073709551615\n" * 500, 100, True)

    def test_half_lines(self):
        self.pour_and_check(b"x" * 255, 500, False)

    def come_and_go(self, server):
        """So many that what is kept of each, though it is gone, would show."""
        for _ in range(20_000):
            with socket.socket(socket.AF_UNIX) as sock:
                sock.setblocking(False)
                try:
                    sock.connect(server.path)
                    sock.send(b"try a 1\n" * 128)
                except OSError:
                    time.sleep(0.001)

    def test_connections_that_come_and_go(self):
        with Server() as server, Growth(server) as growth:
            self.come_and_go(server)
            watch = Watch(Waits(server))
            server.operate("stats b")
            self.assertLess(min(watch.times()), 2)
            self.check(growth, LEAST_GROWTH)

    def test_connections_that_come_and_go_while_the_engine_stands_still(self):
        with Server() as server, Growth(server) as growth:
            with Stopped(server):
                self.come_and_go(server)
            self.check(growth, LEAST_GROWTH)
            with server.raw() as sock:
                self.assertEqual(say(sock, "acquire b 1\n"), ["granted b 1"])

    @needs_loopback
    def test_visitors_who_read_nothing(self):
        locks = ",".join(f"n{i}" for i in range(20000))
        with Server("--page", "127.0.0.1:0", locks=locks) as server, Growth(server) as growth:
            port, socks = server.port("page"), []
            for target in ("/", "/metrics") * 20:
                sock = socket.socket()
                sock.setsockopt(socket.SOL_SOCKET, socket.SO_RCVBUF, 4096)
                sock.connect(("127.0.0.1", port))
                sock.sendall(f"GET {target} HTTP/1.1\r\n\r\n".encode())
                socks.append(sock)
            time.sleep(1)
            [sock.close() for sock in socks]
            self.check(growth)

    @needs_loopback
    def test_visitors_who_read_nothing_keep_nobody_out(self):
        locks = ",".join(f"n{i}" for i in range(20000))
        with Server("--page", "127.0.0.1:0", locks=locks) as server, contextlib.ExitStack() as socks:
            port = server.port("page")
            for count in range(100):
                sock = socks.enter_context(socket.socket())
                sock.setsockopt(socket.SOL_SOCKET, socket.SO_RCVBUF, 4096)
                sock.connect(("127.0.0.1", port))
                sock.sendall(b"GET /metrics HTTP/1.1\r\n\r\n")
                if count % 4 == 3:
                    with socket.create_connection(("127.0.0.1", port), PATIENCE) as sock:
                        sock.sendall(b"GET /none HTTP/1.1\r\n\r\n")
                        self.assertEqual(sock.recv(12), b"HTTP/1.1 404")

    def test_a_log_that_nobody_reads(self):
        locks = ",".join("n" * 60 + str(i) for i in range(300))
        with Server(locks=locks) as server:
            reader, writer = os.pipe()
            words = [word.replace(server.folder, server.folder + "/2") for word in server.words]
            os.makedirs(server.folder + "/2/journal")
            process = subprocess.Popen([*words, "--log-connections"], stderr=writer)
            os.close(writer)
            server.wait_until_it_answers(server.process)
            path = server.folder + "/2/lock.sock"
            wait_until(lambda: os.path.exists(path))
            second = type("Second", (), {"process": process})
            text = "".join(f"acquire {name} 1\n" for name in locks.split(","))
            with Growth(second) as growth:
                for _ in range(250):
                    with socket.socket(socket.AF_UNIX) as sock:
                        sock.connect(path)
                        sock.settimeout(PATIENCE)
                        sender = threading.Thread(target=sock.sendall, args=(text.encode(),))
                        sender.start()
                        read_lines(sock, 290)
                        sender.join()
            process.kill()
            process.wait()
            os.close(reader)
            self.assertLess(growth.most, 3 * MIB)  # what is logged of each names 290 locks or more, in some 18 KB

    def test_all_answers_come_if_they_are_read_late(self):
        with Server(locks=MANY) as server, server.raw() as sock:
            sent = threading.Thread(target=sock.sendall, args=(b"try a 1\nstatus\nping\n" * 60,))
            sent.start()
            time.sleep(0.5)
            got = read_lines(sock, 60 * 1003)
            sent.join()
            self.assertEqual((len(got), got[0], got[1], got[1002]), (60 * 1003, "granted a 1", "status 1000", "pong"))
            self.assertEqual(got.count("status 1000"), 60)
            self.assertEqual(sum(line.startswith("lock ") for line in got), 60000)

    def test_a_grant_does_not_come_between_the_lines_of_a_list(self):
        with Server(locks=MANY) as server, server.raw() as holder, server.raw() as sock:
            say(holder, "acquire a 1\n")
            self.assertEqual(say(sock, "acquire a 1\n"), ["waiting a 0"])
            sock.setsockopt(socket.SOL_SOCKET, socket.SO_RCVBUF, 4096)
            sock.sendall(b"status\n" * 30)
            time.sleep(0.3)
            say(holder, "release a 1\n")
            got = read_lines(sock, 30 * 1001 + 1)
            place = got.index("granted a 2")
            self.assertEqual(place % 1001, 0)
            del got[place]
            self.assertEqual([got[i * 1001] for i in range(30)], ["status 1000"] * 30)

    def test_too_little_memory_is_refused(self):
        with Server() as server:
            it = subprocess.run([*server.words, "--connections", "10000", "--memory", "16"], capture_output=True, text=True,
                                timeout=PATIENCE, check=False)
            self.assertEqual(it.returncode, 78)
            self.assertIn("the connections need --memory ", it.stderr)


@needs_programs
class OnTime(unittest.TestCase):
    """A lease ends within a twentieth of its length, or 50 ms, whatever the others do."""

    def lateness(self, server, lease):
        """How late by the clock the lock of a silent client is free; never too early. For ever, where this thread is too late itself."""
        with server.raw() as silent, server.raw() as other:
            waits = Waits(server)
            self.assertEqual(say(silent, f"lease {int(lease * 1000)}\n"), [f"lease {int(lease * 1000)}"])
            earliest = time.monotonic() + lease
            try:
                token = int(say(silent, "acquire b 1\n")[0].split()[2])
            except (OSError, IndexError):
                return math.inf
            latest = time.monotonic() + lease  # it was heard in between
            if say(other, "acquire b 1\n") != ["waiting b 0"]:
                return math.inf
            time.sleep(max(0, earliest - 0.01 - time.monotonic()))
            watch = Watch(waits)
            is_free = bool(select.select([other], [], [], 0)[0])
            self.assertFalse(is_free and time.monotonic() < earliest, "the lock is free before the lease is over")
            self.assertEqual(read_lines(other, 1), [f"granted b {token + 1}"])
            return watch.times()[0] - max(0, latest - watch.begun)

    def on_time(self, server, *leases):
        """The middle one of three is, in one of eight tries: what is late half of the time is not."""
        for lease in leases:
            limit = max(lease / 20, 0.05)
            found = soonest(lambda lease=lease: statistics.median(self.lateness(server, lease) for _ in range(3)), limit)
            self.assertLess(found, limit)

    def test_short_leases_beside_a_long_one(self):
        with Server(lease="30") as server:
            self.on_time(server, 0.05, 0.1, 0.2, 0.4)

    def test_while_hundreds_of_clients_are_busy(self):
        with Server(locks=MANY) as server, Flood(server, "ping", 600):
            self.on_time(server, 1)

    def test_while_hundreds_of_clients_look_at_all_locks(self):
        with Server(locks=MANY) as server, Flood(server, "status", 400), Flood(server, "status", 400):
            self.on_time(server, 1)

    def test_while_hundreds_of_clients_ask_the_engine(self):
        with Server() as server, Flood(server, "try", 300):
            self.on_time(server, 1)

    def test_while_clients_come_and_go(self):
        with Server(locks=MANY) as server, Flood(server, "asked", 100):
            self.on_time(server, 1)

    @by_the_clock
    def test_a_client_that_reads_slowly_is_not_deaf(self, _):
        with Server("--deaf", "3", locks=MANY) as server, server.raw() as slow:
            slow.sendall(b"status\n" * 60)
            end = time.monotonic() + 5
            while time.monotonic() < end:
                slow.recv(4096)  # some, all the time, but not much
                time.sleep(0.2)
            self.assertNotIn("went (deaf)", server.text_of_log())

    def deafness(self, server):
        """How much later than after a second one goes that reads nothing; at least that time passes."""
        with server.raw() as deaf:
            waits, most, end, look = Waits(server), -1, time.monotonic() + PATIENCE, time.monotonic()
            gone = server.text_of_log().count(self.GONE)
            pour([deaf], b"status\n" * 100, 0.3)
            while server.text_of_log().count(self.GONE) == gone:
                self.assertLess(time.monotonic(), end)
                before, look, told = look, time.monotonic(), unread(deaf)
                if told > most:  # it came between the look before and this one
                    most, earliest, latest, waited = told, before, look, waits()
                elif look < latest + 0.99:
                    waited = waits()
                time.sleep(0.002)
            gone = time.monotonic()
            self.assertGreater(gone - earliest - 1, -0.02)
            return gone - latest - 1 - (waits() - waited)

    # those of the flood, which read, are another process: where that has no processor, they may be deaf too
    GONE = f"process {os.getpid()}\n"

    def test_a_deaf_client_goes_on_time(self):
        with Server("--deaf", "1", locks=MANY) as server, Flood(server, "status", 300):
            self.assertLess(soonest(lambda: self.deafness(server), 0.05), 0.05)


@needs_programs
class Disk(unittest.TestCase):
    """What a client says of its session is kept, however often it says that."""

    LINES = 100_000

    def test_leases_are_not_written_one_by_one(self):
        with Server() as server, server.raw() as sock:
            path = os.path.join(server.journal + ".sessions", "sessions")
            self.assertEqual(say(sock, "session 77\n1 try a 1\n", 2), ["session 77 0 alone", "1 granted a 1"])
            before = os.stat(path)
            sent = threading.Thread(target=sock.sendall, args=(b"lease 7000\nlease 8000\n" * (self.LINES // 2),))
            sent.start()
            self.assertEqual(read_lines(sock, self.LINES)[-1], "lease 8000")
            sent.join()
            after = os.stat(path)
            with open(path, encoding="ascii") as file:
                kept = [line for line in file if line.startswith("session ")]
            self.assertIn(" 77 8000 ", kept[-1])
            self.assertEqual(after.st_ino, before.st_ino)  # no other file has taken its place
            self.assertLess(after.st_size - before.st_size, self.LINES / 10 * len(kept[-1]))


@needs_programs
class Turns(unittest.TestCase):
    """Beside 20 clients that flood, half of the acquires of another one are answered within 20 ms, and nine of ten too where time is not
    counted in which nobody worked; all of them are answered, and who comes new has a turn. A server that lets others come before does so
    each time, and takes as long in each try. A machine that is slow takes longer: so it does for an acquire beside which nobody
    floods, and as much longer it may take here. One that has its processors for a part of the time only, as a virtual one, is late now
    and then by any amount, which says nothing of the server."""

    WITHIN = 0.02
    #: so many times as long as where nobody floods it may take, if that is more
    TIMES = 50

    def acquire(self, sock, waits):
        """Takes the lock and gives it back: how long the first takes, by the clock and in work."""
        watch = Watch(waits)
        token = say(sock, "acquire b 1\n")[0].split()[2]
        times = watch.times()
        self.assertEqual(say(sock, f"release b {token}\n"), ["released b"])
        return times

    def lateness(self, kind, clients):
        """How many times as long as they may take the acquires take: half of them by the clock, or nine of ten in time or work."""
        with Server(locks=MANY) as server, server.raw() as sock:
            waits = Waits(server)
            alone = statistics.median(max(self.acquire(sock, waits)) for _ in range(50))
            with Flood(server, kind, clients):
                time.sleep(0.5)
                times, end = [], time.monotonic() + 3
                while time.monotonic() < end or len(times) < 20:
                    times.append(self.acquire(sock, waits))
                for _ in range(5):
                    with server.raw() as newcomer:
                        self.acquire(newcomer, waits)
            half = statistics.median(by_clock for by_clock, _ in times)
            most = sorted(map(min, times))[len(times) * 9 // 10]
            return max(half, most) / max(self.WITHIN, self.TIMES * alone)

    def check(self, kind, clients=20):
        self.assertLess(soonest(lambda: self.lateness(kind, clients), 1), 1)

    def test_beside_long_answers(self):
        self.check("status")

    def test_beside_long_answers_that_are_not_read(self):
        self.check("untold-deaf")

    def test_beside_short_answers(self):
        self.check("ping")

    def test_beside_questions_for_the_engine(self):
        self.check("try")

    def test_beside_leaves(self):
        self.check("leave")

    def test_beside_leaves_of_many_locks(self):
        self.check("leave-many")

    def test_beside_all_of_that(self):
        self.check("mixed")

    def test_beside_connections_that_come_and_go(self):
        self.check("come")

    def test_beside_connections_that_go_when_they_were_answered(self):
        self.check("asked")

    def test_beside_sessions_that_end_with_their_connections(self):
        """Each `wozgirt lock` has one, and many may end at once."""
        self.check("attached", 200)

    def test_beside_sessions_that_change_their_leases(self):
        """That is kept, so it is written to the disk."""
        self.check("lease")

    def test_each_has_its_turn(self):
        """Twenty clients have all asked much before one asks little, while the server stands still. The order in which the engine is
        asked then says whose turn it was, whatever the clock does."""
        lines = 1000
        with Server(locks=MANY) as server, asked_through(server) as asked, contextlib.ExitStack() as stack:
            socks = [stack.enter_context(server.raw()) for _ in range(21)]
            for sock in socks:
                self.assertEqual(say(sock, "ping\n"), ["pong"])
            os.kill(server.process.pid, signal.SIGSTOP)
            [sock.sendall(b"try a 1\n" * lines) for sock in socks[1:]]
            socks[0].sendall(b"acquire b 1\nrelease b 1\n" * 5)
            os.kill(server.process.pid, signal.SIGCONT)
            self.assertEqual(read_lines(socks[0], 10)[:2], ["granted b 1", "released b"])
            [read_lines(sock, lines) for sock in socks[1:]]
            with open(asked, encoding="ascii") as file:
                order = [words[0] for words in map(str.split, file) if words[1:3] in (["try", "a"], ["acquire", "b"], ["release", "b"])]
        ours, = {client for client, count in collections.Counter(order).items() if count == 10}
        places = [place for place, client in enumerate(order) if client == ours]
        self.assertLess(places[-1], 100 * 20, "who asks little waits for much of what others ask")
        counts = collections.Counter({client: 0 for client in order})
        for client in order:
            counts[client] += 1
            if counts[client] == lines:
                break
        del counts[ours]
        self.assertGreater(min(counts.values()), lines / 10, "one had all its turns before another had a tenth of them")

    def test_who_never_asked_costs_the_engine_nothing(self):
        with Server() as server, asked_through(server) as asked:
            for i in range(50):
                with server.raw() as sock:
                    say(sock, ["ping\n", f"session {i} attached\n", f"session {i}\n"][i % 3])
            with server.raw() as sock:
                say(sock, "try a 1\n")
            with server.raw() as sock:
                say(sock, "try b 1\n")
            server.stop()
            self.assertEqual(server.process.returncode, 0)
            with open(asked, encoding="ascii") as file:
                left = [line for line in file.read().splitlines() if line.endswith(" leave")]
            self.assertIn(len(left), (1, 2))  # the last one may have been closed at the end


@needs_programs
class Places(unittest.TestCase):
    @needs_loopback
    def test_clients_over_tcp_keep_nobody_from_the_unix_socket(self):
        with Server("--connections", "20", "--tcp", "127.0.0.1:0") as server:
            port = server.port("clients")
            socks = [socket.create_connection(("127.0.0.1", port), PATIENCE) for _ in range(40)]
            told = []
            for sock in socks:
                sock.settimeout(PATIENCE)
                try:
                    told.append(say(sock, "ping\n"))
                except OSError:
                    told.append(["refused connections"])
            self.assertEqual(told.count(["pong"]), 20)
            with server.raw() as sock:
                self.assertEqual(say(sock, "acquire a 1\n"), ["granted a 1"])
            [sock.close() for sock in socks]

    @unittest.skipUnless(os.getuid() == 0 and os.access("/usr/bin/python3", os.X_OK), "only root can be another user")
    def test_a_user_keeps_no_other_user_out(self):
        with Server("--connections", "20", "--mode", "666") as server:
            os.chmod(server.folder, 0o755)
            code = ("import socket, sys\nsocks = []\nfor _ in range(40):\n  s = socket.socket(socket.AF_UNIX)\n  s.connect(sys.argv[1])\n"
                    "  try:\n    s.sendall(b'ping\\n')\n  except OSError:\n    pass\n  socks.append(s)\n"
                    "print(sum(s.recv(99) == b'pong\\n' for s in socks), flush=True)\nsys.stdin.read()")
            try:
                process = subprocess.Popen(["/usr/bin/python3", "-c", code, server.path], user=65534, group=65534, extra_groups=[],
                                           stdin=subprocess.PIPE, stdout=subprocess.PIPE, text=True)
            except OSError as fault:
                self.skipTest(f"this root cannot be another user: {fault}")
            self.assertEqual(process.stdout.readline(), "20\n")
            with server.raw() as sock:
                self.assertEqual(say(sock, "acquire a 1\n"), ["granted a 1"])
            process.communicate()

    @needs_loopback
    def test_half_requests_keep_no_visitor_out(self):
        with Server("--page", "127.0.0.1:0") as server:
            port, waits = server.port("page"), Waits(server)
            socks = []
            for _ in range(5):
                for _ in range(40):
                    socks.append(socket.create_connection(("127.0.0.1", port), PATIENCE))
                    socks[-1].sendall(b"GET /metrics HTTP/1.1\r\n")
                watch = Watch(waits)
                connection = http.client.HTTPConnection("127.0.0.1", port, timeout=PATIENCE)
                connection.request("GET", "/metrics")
                self.assertIn(b"wozgirt_engine_up 1", connection.getresponse().read())
                self.assertLess(min(watch.times()), 2)
                connection.close()
            [sock.close() for sock in socks]

    def time_of_half_a_request(self, port, waits):
        """How long it stays; at least three seconds."""
        before, first = time.monotonic(), waits()
        with socket.create_connection(("127.0.0.1", port), PATIENCE) as sock:
            begun = time.monotonic()  # it was let in since `before`, or a round of the server after this
            sock.sendall(b"GET / HTTP/1.1\r\n")
            time.sleep(0.1)
            at_first = waits() - first
            time.sleep(max(0, begun + 2.9 - time.monotonic()))
            waited = waits()
            self.assertEqual(sock.recv(100), b"")
            ended = time.monotonic()
            self.assertGreater(ended - before, 2.95 - at_first)
            return ended - begun - at_first - (waits() - waited)

    @needs_loopback
    def test_half_requests_end_on_time(self):
        with Server("--page", "127.0.0.1:0", locks=MANY) as server, Flood(server, "status", 300):
            port, waits = server.port("page"), Waits(server)
            self.assertLess(soonest(lambda: self.time_of_half_a_request(port, waits), 3.15), 3.15)


if __name__ == "__main__":
    unittest.main()
