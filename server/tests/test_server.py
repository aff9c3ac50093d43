"""The server, spoken to line by line."""

import os
import re
import resource
import signal
import socket
import stat
import subprocess
import sys
import statistics
import tempfile
import threading
import time
import unittest

from harness import (ENGINE, FILES, FOLDER, PATIENCE, SERVER, Server, at_least, by_the_clock, granted, needs_loopback, needs_programs,
                     read_lines, say, wait_until)


def run(*words, **more):
    return subprocess.run([SERVER, *words], capture_output=True, text=True, timeout=PATIENCE, **more)


def a_folder():
    return tempfile.TemporaryDirectory(dir=FOLDER)


@needs_programs
class Lines(unittest.TestCase):
    def test_each_request(self):
        with Server(locks="a,b") as server, server.raw() as one, server.raw() as two, server.raw(True) as operator:
            self.assertEqual(say(one, "acquire a 7\n"), ["granted a 1"])
            self.assertEqual(say(two, "try a 8\n"), ["busy a"])
            self.assertEqual(say(two, "acquire a 8\n"), ["waiting a 0"])
            self.assertEqual(say(two, "cancel a\n"), ["cancelled a"])
            self.assertEqual(say(two, "acquire a 9\n"), ["waiting a 0"])
            self.assertRegex(say(operator, "stats a\n")[0], r"^stats a 8 1 1 \d+ 1$")
            self.assertEqual(say(one, "release a 1\n"), ["released a"])
            self.assertEqual(read_lines(two, 1), ["granted a 2"])
            self.assertEqual(say(two, "release a 1\nrelease a 2\n", 2), ["refused holder a", "released a"])
            self.assertEqual(say(operator, "corrupt a 0 5\n"), ["corrupted a 1"])
            self.assertEqual(say(two, "ping\nlease 1500\nlease 0\nlease 99000\nleave\n", 5),
                             ["pong", "lease 1500", "lease 30000", "lease 30000", "left"])
            clients = say(operator, "clients\n", 4)
            self.assertEqual(clients[0], "clients 3")
            self.assertRegex(clients[2], r"^client \d+ 30000 - - .+, process \d+$")

    def test_answers_come_in_the_order_of_the_lines(self):
        with Server() as server, server.raw() as sock:
            lines = "acquire q 1\nacquire a x\nping\nacquire a 1\nping\nacquire q 1\nacquire b 18446744073709551616\nacquire a 2\nleave\nping\n"
            self.assertEqual(say(sock, lines, 10), [
                "refused lock q", "refused syntax", "pong", "granted a 1", "pong", "refused lock q", "refused number",
                "refused holds a", "left", "pong"])

    def test_many_lines_at_once(self):
        with Server() as server, server.raw() as sock:
            count = 20000
            # each line is sent before one answer is read
            text = b"".join(b"acquire a %d\nrelease a %d\nping\n" % (i, i) for i in range(1, count + 1))
            sender = threading.Thread(target=sock.sendall, args=(text,))
            sender.start()
            got = read_lines(sock, 3 * count)
            sender.join()
            self.assertEqual(got, [w for i in range(1, count + 1) for w in (f"granted a {i}", "released a", "pong")])

    def test_one_byte_at_a_time(self):
        with Server() as server, server.raw() as sock:
            for byte in b"acquire a 1\nrelease a 1\n":
                sock.sendall(bytes([byte]))
            self.assertEqual(read_lines(sock, 2), ["granted a 1", "released a"])

    def test_a_client_that_says_all_and_then_reads(self):
        with Server() as server, server.raw() as sock:
            sock.sendall(b"acquire a 1\nrelease a 1\nping\nacq")
            sock.shutdown(socket.SHUT_WR)
            self.assertEqual(read_lines(sock, 9), ["granted a 1", "released a", "pong"])

    def test_a_client_that_stops_in_the_middle_of_a_line(self):
        with Server() as server, server.raw() as sock, server.raw() as other:
            sock.sendall(b"acquire a 1\nrelease a")
            self.assertEqual(read_lines(sock, 1), ["granted a 1"])
            self.assertEqual(say(other, "acquire a 1\n"), ["waiting a 0"])
            sock.close()
            self.assertEqual(read_lines(other, 1), ["granted a 2"])

    def test_lines_that_are_none_end_the_connection(self):
        with Server() as server:
            for text, answer in ((b"nonsense\n", "refused syntax"), (b"stop\n", "refused syntax"), (b"clients\n", "refused syntax"),
                                 (b"corrupt a 0 1\n", "refused syntax"), (b"x" * 5000, "refused line"), (b"x" * 256, "refused line"),
                                 (b"\xff\xfe\n", "refused syntax"), (b"POST / HTTP/1.1\r\n", "refused syntax")):
                with server.raw() as sock:
                    sock.sendall(text)
                    self.assertEqual(read_lines(sock, 2), [answer])

    def test_a_line_of_the_longest(self):
        with Server() as server, server.raw() as sock:
            self.assertEqual(say(sock, "cancel " + "x" * 248 + "\n"), ["refused lock " + "x" * 248])

    def test_leave_ends_all_and_the_connection_stays(self):
        with Server() as server, server.raw() as one, server.raw() as two:
            self.assertEqual(say(one, "acquire a 1\nacquire b 1\n", 2), ["granted a 1", "granted b 1"])
            self.assertEqual(say(two, "acquire b 1\n"), ["waiting b 0"])
            self.assertEqual(say(one, "leave\nacquire a 1\n", 2), ["left", "granted a 2"])
            self.assertEqual(read_lines(two, 1), ["granted b 2"])

    def test_faults_are_off_unless_asked_for(self):
        with Server(faults=False) as server:
            self.assertEqual(server.operate("corrupt a 0 1"), "refused off a")


@needs_programs
class Others(unittest.TestCase):
    """What one client does stands in no other's way."""

    def hand_overs(self, server):
        """The middle time of a hundred hand-overs, in seconds."""
        with server.raw() as sock:
            times = []
            for _ in range(100):
                begun = time.monotonic()
                token = say(sock, "acquire b 1\n")[0].split()[2]
                self.assertEqual(say(sock, f"release b {token}\n"), ["released b"])
                times.append(time.monotonic() - begun)
            return statistics.median(times)

    def pour(self, sock):
        """How many bytes of lines the server takes from one that reads nothing."""
        sock.setblocking(False)
        sent, line, quiet = 0, b"try a 1\n" * 500, time.monotonic()
        while time.monotonic() - quiet < 0.5 and sent < 64 << 20:
            try:
                sent += sock.send(line)
                quiet = time.monotonic()
            except BlockingIOError:
                time.sleep(0.01)
            except OSError:
                break  # it was closed
        return sent

    def test_a_deaf_client(self):
        with Server("--deaf", "2") as server, server.raw() as deaf:
            self.assertLess(self.pour(deaf), 8 << 20)  # it is no longer read
            self.assertLess(self.hand_overs(server), 0.5)
            wait_until(lambda: "went (deaf)" in server.text_of_log())

    def test_a_slow_client_gets_all_its_answers(self):
        with Server("--deaf", "60") as server, server.raw() as slow:
            whole = self.pour(slow) // 8
            slow.settimeout(PATIENCE)
            got = read_lines(slow, whole)
            self.assertEqual((len(got), got[0], got[1]), (whole, "granted a 1", "refused holds a"))

    def test_a_client_that_reads_late_is_heard_on(self):
        with Server(locks=",".join(f"n{i}" for i in range(300))) as server, server.raw() as sock:
            sock.sendall(b"status\n" * 400)  # the answers are longer than what may be unread
            time.sleep(0.3)
            self.assertEqual(len(read_lines(sock, 400 * 301)), 400 * 301)

    def test_a_flooding_client(self):
        code = ("import socket, sys, threading\nsock = socket.socket(socket.AF_UNIX)\nsock.connect(sys.argv[1])\n"
                "def drink():\n  while sock.recv(1 << 16): pass\n"
                "threading.Thread(target=drink, daemon=True).start()\nprint('up', flush=True)\n"
                "while True: sock.sendall(b'try a 1\\nstats a\\nping\\n' * 200)")
        with Server() as server:
            flood = subprocess.Popen([sys.executable, "-c", code, server.path], stdout=subprocess.PIPE, stderr=subprocess.DEVNULL)
            self.assertEqual(flood.stdout.readline(), b"up\n")
            wait_until(lambda: server.operate("stats a").split()[6] == "1")  # its lines are answered
            self.assertLess(self.hand_overs(server), 0.5)
            self.assertIsNone(flood.poll())
            flood.kill()
            flood.communicate()

    def test_connections_have_a_limit_and_operators_a_place(self):
        with Server("--connections", "3") as server:
            held = [server.raw() for _ in range(3)]
            for sock in held:
                self.assertEqual(say(sock, "ping\n"), ["pong"])
            with server.raw() as sock:
                self.assertEqual(read_lines(sock, 2), ["refused connections"])
            self.assertEqual(server.operate("clients").split("\n")[0], "clients 4")
            held.pop().close()
            wait_until(lambda: server.operate("clients").startswith("clients 3\n"))
            with server.raw() as sock:
                self.assertEqual(say(sock, "ping\n"), ["pong"])
            [sock.close() for sock in held]

    def test_waiters_have_a_limit(self):
        with Server("--waiters", "1") as server, server.raw() as one, server.raw() as two, server.raw() as three:
            self.assertEqual(say(one, "acquire a 1\n"), ["granted a 1"])
            self.assertEqual(say(two, "acquire a 1\n"), ["waiting a 0"])
            self.assertEqual(say(three, "acquire a 1\n"), ["refused waiters a"])
            self.assertEqual(say(two, "cancel a\n"), ["cancelled a"])
            self.assertEqual(say(three, "acquire a 1\n"), ["waiting a 0"])

    def test_who_waits_may_ask_again_though_no_other_may(self):
        """The answer was lost on its way: it is the same."""
        with Server("--waiters", "1") as server, server.raw() as holder:
            self.assertEqual(say(holder, "acquire a 1\n"), ["granted a 1"])
            for lines in (["session 7 0 alone"], ["session 7 1 alone", "waits a"]):
                with server.raw() as sock:
                    self.assertEqual(say(sock, "session 7\n1 acquire a 1\n", len(lines) + 1), [*lines, "1 waiting a 0"])

    def test_holds_have_a_limit_for_each_client(self):
        """What it waits for counts, and what it has asked for; what it has may be asked for again."""
        with Server("--most-holds", "2") as server, server.raw() as one, server.raw() as two:
            self.assertEqual(say(one, "acquire a 1\ntry b 1\ntry c 1\nacquire c 1\n", 4),
                             ["granted a 1", "granted b 1", "refused many c", "refused many c"])
            self.assertEqual(say(one, "try a 1\nacquire b 1\nacquire q 1\nstats c\n", 4),
                             ["refused holds a", "refused holds b", "refused lock q", "stats c 8 0 0 0 0"])
            self.assertEqual(say(two, "acquire c 1\n"), ["granted c 1"])
            self.assertEqual(say(one, "release b 1\n"), ["released b"])
            self.assertEqual(say(one, "acquire c 1\n"), ["waiting c 0"])
            self.assertEqual(say(one, "try b 1\nacquire c 1\n", 2), ["refused many b", "refused waits c"])
            self.assertEqual(say(one, "cancel c\ntry c 1\n", 2), ["cancelled c", "busy c"])
            self.assertEqual(say(one, "try b 1\nleave\n", 2), ["granted b 2", "left"])
            self.assertEqual(say(one, "try a 1\ntry b 1\n", 2), ["granted a 2", "granted b 3"])
            self.assertEqual(server.operate("try c 1"), "busy c")

    def test_holds_have_a_limit_for_each_session(self):
        with Server("--most-holds", "2") as server:
            with server.raw() as one:
                self.assertEqual(say(one, "session 7\n1 acquire a 1\n2 try b 1\n3 try c 1\n", 4),
                                 ["session 7 0 alone", "1 granted a 1", "2 granted b 1", "3 refused many c"])
            with server.raw() as again:  # it may ask once more for what has no answer
                self.assertEqual(say(again, "session 7\n", 3), ["session 7 2 alone", "holds a 1", "holds b 1"])
                self.assertEqual(say(again, "2 try b 1\n4 acquire c 1\n5 release a 1\n", 3),
                                 ["2 granted b 1", "4 refused many c", "5 released a"])
                self.assertEqual(say(again, "6 acquire c 1\n"), ["6 granted c 1"])

    def test_a_client_may_hold_a_thousand(self):
        names = [f"n{i}" for i in range(1025)]
        with Server(locks=",".join(names)) as server, server.raw() as sock:
            for first in range(0, 1024, 128):
                some = names[first:first + 128]
                self.assertEqual(say(sock, "".join(f"try {name} 1\n" for name in some), 128), [f"granted {name} 1" for name in some])
            self.assertEqual(say(sock, "try n1024 1\n"), ["refused many n1024"])

    def test_open_files_are_checked_at_the_start(self):
        with a_folder() as folder:
            fewer = lambda: resource.setrlimit(resource.RLIMIT_NOFILE, (100, 100))
            it = run("--journal", folder, "--locks", "a", "--socket", folder + "/s", preexec_fn=fewer)
            self.assertEqual(it.returncode, 78)
            self.assertIn("100 files may be open, and 1184 are needed", it.stderr)

    def test_the_limit_of_open_files_is_raised(self):
        with a_folder() as folder:
            fewer = lambda: resource.setrlimit(resource.RLIMIT_NOFILE, (100, FILES))
            it = run("--engine", "false", "--journal", folder, "--locks", "a", "--socket", folder + "/s", preexec_fn=fewer)
            self.assertIn("the engine keeps ending", it.stderr)


@needs_programs
class Leases(unittest.TestCase):
    def test_a_silent_client_loses_what_it_holds(self):
        with Server() as server, server.raw() as silent, server.raw() as other:
            begun = time.monotonic()
            self.assertEqual(say(silent, "lease 300\nacquire a 1\n", 2), ["lease 300", "granted a 1"])
            other.sendall(b"acquire a 1\n")
            self.assertEqual(granted(other), "granted a 2")
            at_least(0.3, begun)
            self.assertEqual(silent.recv(10), b"")
            wait_until(lambda: "went (lease)" in server.text_of_log())

    @by_the_clock
    def test_who_speaks_keeps_it(self, longer):
        with Server() as server, server.raw() as sock:
            say(sock, f"lease {400 * longer}\nacquire a 1\n", 2)
            for _ in range(12):
                time.sleep(0.1 * longer)
                self.assertEqual(say(sock, "ping\n"), ["pong"])
            self.assertEqual(say(sock, "release a 1\n"), ["released a"])

    @by_the_clock
    def test_a_stopped_server_hears_first_what_was_said_meanwhile(self, longer):
        count = 600
        with Server() as server:
            socks = [server.raw() for _ in range(count)]
            for sock in socks:
                sock.sendall(f"lease {1000 * longer}\n".encode())
            for sock in socks:
                self.assertEqual(read_lines(sock, 1), [f"lease {1000 * longer}"])
            server.process.send_signal(signal.SIGSTOP)
            time.sleep(0.5 * longer)
            for sock in socks:
                sock.sendall(b"ping\n")
            time.sleep(1 * longer)
            server.process.send_signal(signal.SIGCONT)
            self.assertEqual([read_lines(sock, 1) for sock in socks], [["pong"]] * count)
            [sock.close() for sock in socks]

    def test_a_silent_client_in_the_line_is_passed_by(self):
        with Server() as server, server.raw() as holder, server.raw() as silent, server.raw() as last:
            say(holder, "acquire a 1\n")
            say(silent, "lease 200\nacquire a 2\n", 2)
            self.assertIn(say(last, "acquire a 3\n"), (["waiting a 1"], ["waiting a 0"]))  # the silent one may be gone already
            server.wait_for_waiters("a", 1)
            say(holder, "release a 1\n")
            self.assertEqual(read_lines(last, 1), ["granted a 2"])

    @needs_loopback
    @by_the_clock
    def test_over_tcp_there_is_always_one(self, longer):
        with Server("--tcp", "127.0.0.1:0", lease=str(0.3 * longer)) as server:
            with socket.create_connection(("127.0.0.1", server.port("clients"))) as sock, server.raw() as unix:
                sock.settimeout(PATIENCE)
                self.assertEqual(say(sock, "acquire a 1\n"), ["granted a 1"])
                unix.sendall(b"acquire a 1\n")
                self.assertEqual(granted(unix), "granted a 2")
                self.assertEqual(sock.recv(10), b"")
                time.sleep(0.7 * longer)
                self.assertEqual(say(unix, "release a 2\n"), ["released a"])

    @by_the_clock
    def test_for_all(self, longer):
        with Server("--lease-for-all", lease=str(0.3 * longer)) as server, server.raw() as sock:
            self.assertEqual(say(sock, "acquire a 1\n"), ["granted a 1"])
            self.assertEqual(sock.recv(10), b"")

    def test_addresses_of_others_need_a_word(self):
        with a_folder() as folder:
            it = run("--journal", folder, "--locks", "a", "--socket", folder + "/s", "--tcp", "0.0.0.0:0")
            self.assertEqual(it.returncode, 64)
            self.assertIn("--listen-anywhere", it.stderr)


@needs_programs
class Ends(unittest.TestCase):
    @by_the_clock
    def test_the_engine_is_killed(self, longer):
        with Server(lease=0.6 * longer) as server, server.raw() as holder:
            self.assertEqual(say(holder, "acquire a 1\nacquire b 1\nrelease b 1\n", 3)[0], "granted a 1")
            begun = time.monotonic()
            server.kill_engine()
            self.assertEqual(holder.recv(10), b"")
            with server.raw() as other:
                self.assertEqual(say(other, "acquire b 1\n"), ["granted b 2"])  # was free
                self.assertEqual(say(other, "acquire a 1\n"), ["waiting a 0"])
                self.assertIn("lock a before 0 - 1 ", server.operate("status", 4))
                self.assertEqual(read_lines(other, 1), ["granted a 2"])
            at_least(0.6 * longer, begun)
            self.assertEqual(server.calls(0)[:3], ["0 p 0 0 1 g 1 1", "0 s 2 1 1 1 1 0", "0 p 0 1 1 g 2 2"])

    @by_the_clock
    def test_the_server_is_killed(self, longer):
        with Server(lease=0.3 * longer) as server:
            with server.raw() as holder:
                self.assertEqual(say(holder, "acquire a 1\n"), ["granted a 1"])
                server.process.kill()
                server.process.wait()
                self.assertEqual(holder.recv(10), b"")
            self.assertTrue(os.path.exists(server.path))
            begun = time.monotonic()
            with Server(folder=server.folder, lease=0.3 * longer) as again, again.raw() as other:
                self.assertEqual(say(other, "acquire a 1\n"), ["waiting a 0"])
                self.assertEqual(read_lines(other, 1), ["granted a 2"])
                at_least(0.3 * longer, begun)

    def test_sigterm_and_stop(self):
        for end in (lambda server: server.process.send_signal(signal.SIGTERM), lambda server: server.operate("stop")):
            with Server() as server, server.raw() as holder:
                self.assertEqual(say(holder, "acquire a 1\n"), ["granted a 1"])
                end(server)
                self.assertEqual(server.process.wait(PATIENCE), 0)
                self.assertEqual(holder.recv(10), b"")
                self.assertFalse(os.path.exists(server.path) or os.path.exists(server.operators))
                self.assertEqual(server.text_of_log().splitlines()[-1].split(" ", 1)[1], "stopped stopped")
                self.assertEqual(server.calls(), ["0 p 0 0 1 g 1 1"])  # open: nobody else gets it until the grace is over

    def test_two_servers(self):
        with Server() as server:
            it = run(*server.words[1:])
            self.assertEqual(it.returncode, 1)
            self.assertIn("another process listens there", it.stderr)

    def test_an_engine_that_keeps_ending(self):
        with a_folder() as folder:
            it = run("--engine", "false", "--journal", folder, "--locks", "a", "--socket", folder + "/s")
            self.assertEqual(it.returncode, 1)
            self.assertIn("the engine keeps ending before it is ready: exit status: 1", it.stderr)
            self.assertFalse(os.path.exists(folder + "/s"))
            it = run("--engine", folder + "/none", "--journal", folder, "--locks", "a", "--socket", folder + "/s")
            self.assertEqual(it.returncode, 1)
            self.assertIn("cannot run the engine", it.stderr)

    def test_an_engine_with_fewer_locks(self):
        with a_folder() as folder, a_folder() as programs:
            engine = programs + "/engine"
            with open(engine, "w", encoding="ascii") as file:
                file.write(f"#!/bin/sh\nexec {ENGINE} locks --journal {folder} --locks a\n")
            os.chmod(engine, 0o755)
            it = run("--engine", engine, "--journal", folder, "--locks", "a,b", "--socket", programs + "/s")
            self.assertEqual(it.returncode, 1)
            self.assertIn("answered what it was not asked: 0 refused lock", it.stderr)
            self.assertIn("the engine keeps ending before it is ready", it.stderr)

    def test_an_engine_that_talks_nonsense(self):
        with a_folder() as folder:
            for text, why in (("1 sings", "said something that is not an answer (syntax): 1 sings"),
                              ("0 granted 0 1", "answered what it was not asked: 0 granted 0 1")):
                engine = folder + "/engine"
                with open(engine, "w", encoding="ascii") as file:
                    file.write(f"#!/bin/sh\necho '{text}'\nexec sleep 100\n")
                os.chmod(engine, 0o755)
                server = subprocess.Popen([SERVER, "--engine", engine, "--journal", folder, "--locks", "a", "--socket", folder + "/s"],
                                          stderr=subprocess.PIPE, text=True)
                line = ""
                while why not in line:
                    line = server.stderr.readline()
                    self.assertTrue(line, why)
                server.terminate()
                self.assertEqual(server.wait(PATIENCE), 0)
                server.stderr.close()

    def test_names_from_the_folder(self):
        with Server(locks="x,y") as server:
            server.stop()
            words = [word for word in server.words if word not in ("--locks", "x,y")]
            process = subprocess.Popen(words, stderr=subprocess.DEVNULL)
            server.wait_until_it_answers(process)
            with server.raw() as sock:
                self.assertEqual(say(sock, "acquire y 1\n"), ["granted y 1"])
            process.terminate()
            self.assertEqual(process.wait(PATIENCE), 0)
        with a_folder() as folder:
            it = run("--journal", folder, "--socket", folder + "/s")
            self.assertEqual(it.returncode, 78)
            self.assertIn("--locks is missing", it.stderr)


@needs_programs
class Permissions(unittest.TestCase):
    def test_modes(self):
        with Server("--mode", "660", "--group", str(os.getgid())) as server:
            data = os.stat(server.path)
            self.assertEqual((stat.S_IMODE(data.st_mode), data.st_gid), (0o660, os.getgid()))
            self.assertEqual(stat.S_IMODE(os.stat(server.operators).st_mode), 0o600)

    def test_rules(self):
        with a_folder() as folder:
            rules = folder + "/rules"
            with open(rules, "w", encoding="ascii") as file:
                file.write(f"lock a: {os.getuid()}\nlock b: 65533 %65533\nlock c: *\n")
            with Server("--rules", rules) as server, server.raw() as sock:
                self.assertEqual(say(sock, "try a 1\ntry b 1\ntry c 1\n", 3), ["granted a 1", "refused permission b", "granted c 1"])
                self.assertEqual([line.split()[1] for line in say(sock, "status\n", 3)], ["2", "a", "c"])
            with open(rules, "a", encoding="ascii") as file:
                file.write("lock d: *\n")
            it = run("--journal", folder, "--locks", "a,b,c", "--socket", folder + "/s", "--rules", rules)
            self.assertEqual(it.returncode, 78)
            self.assertIn("rules: line 4: there is no lock d", it.stderr)

    def test_rules_of_patterns(self):
        """A whole name goes before a pattern, and the longest pattern before others."""
        names = ["deploy", "order", "order/4", "order/47", "order/471", "order/5"]
        with a_folder() as folder:
            rules, user = folder + "/rules", os.getuid()

            def write(text):
                with open(rules, "w", encoding="ascii") as file:
                    file.write(text)

            write(f"lock *: 65533\nlock order/4*: {user}\nlock order/*: 65533\nlock order/47: 65533\nlock none/*:\n")
            with Server("--rules", rules, locks=",".join(names)) as server, server.raw() as sock:
                told = say(sock, "".join(f"try {name} 1\n" for name in [*names, "none/1"]), 7)
                self.assertEqual([line.split()[:2] for line in told], [["refused", "permission"]] * 2 + [
                    ["granted", "order/4"], ["refused", "permission"], ["granted", "order/471"], ["refused", "permission"],
                    ["refused", "lock"]])
                self.assertEqual([line.split()[1] for line in say(sock, "status\n", 3)], ["2", "order/4", "order/471"])
            for name, why in (("order/*4", "in order/*4 a `*` is not at the end, where it means any rest of a name"),
                              ("order/ *", "no name of a lock begins with `order/ `")):
                write(f"lock deploy: *\nlock {name}: *\n")
                it = run("--journal", folder, "--locks", "deploy", "--socket", folder + "/s", "--rules", rules)
                self.assertEqual(it.returncode, 78)
                self.assertIn("rules: line 2: " + why, it.stderr)

    @unittest.skipUnless(os.getuid() == 0 and os.access("/usr/bin/python3", os.X_OK), "only root can be another user")
    def test_another_user(self):
        with a_folder() as folder:
            os.chmod(folder, 0o755)
            rules = folder + "/rules"
            with open(rules, "w", encoding="ascii") as file:
                file.write("lock a: 0\nlock b: %65534\n")
            with Server("--rules", rules, "--mode", "666", "--log-connections") as server:
                os.chmod(server.folder, 0o755)
                code = ("import socket,sys; s=socket.socket(socket.AF_UNIX); s.connect(sys.argv[1])\n"
                        "s.sendall(b'try a 1\\ntry b 1\\n')\n"
                        "lines = s.makefile(); print(lines.readline() + lines.readline(), end='')")
                try:
                    it = subprocess.run(["/usr/bin/python3", "-c", code, server.path], user=65534, group=65534, extra_groups=[],
                                        capture_output=True, text=True, timeout=PATIENCE)
                except OSError as fault:
                    self.skipTest(f"this root cannot be another user: {fault}")
                self.assertEqual(it.stdout, "refused permission a\ngranted b 1\n", it.stderr)
                wait_until(lambda: re.search(r"(nobody|65534), process ", server.text_of_log()))


if __name__ == "__main__":
    unittest.main()
