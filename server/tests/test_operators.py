"""What operators do: a hold that they end, a client that they send away, rules that are read again; and what systemd is told."""

import asyncio
import contextlib
import hashlib
import os
import re
import signal
import socket
import subprocess
import tempfile
import threading
import time
import unittest

from harness import COMMAND, ENGINE, FOLDER, IS_DOUBLE, PATIENCE, TOP, Server, needs_programs, read_lines, say, wait_until
from wozgirt import Client, NotPermitted, Session, aio


def number_of(server, client):
    """The number of the client of two that holds these locks, as operators see it."""
    return int(re.search(rf"^client (\d+) \d+ {client}", server.operate("clients", 4), re.MULTILINE)[1])


@needs_programs
class EndOfHolds(unittest.TestCase):
    def test_the_next_in_the_line_has_it(self):
        with Server(locks="a,b") as server, server.raw() as holder, server.raw() as waiter, server.raw(True) as operator:
            self.assertEqual(say(holder, "acquire a 7\nacquire b 7\n", 2), ["granted a 1", "granted b 1"])
            self.assertEqual(say(waiter, "acquire a 8\n"), ["waiting a 0"])
            self.assertEqual(say(operator, "end a 2\nend a 1\nping\nend a 1\nend x 1\n", 5),
                             ["refused holder a", "ended a", "pong", "refused holder a", "refused lock x"])
            self.assertEqual(read_lines(waiter, 1), ["granted a 2"])
            # who held it hears so when it asks; what else it holds stays
            self.assertEqual(say(holder, "release a 1\nrelease b 1\nping\n", 3), ["refused holder a", "released b", "pong"])
            wait_until(lambda: "hold-ended" in server.text_of_log())
            self.assertRegex(server.text_of_log(), r"hold-ended hold of a with token 1 ended by an operator \(\S+, process \d+\)")
            self.assertEqual(server.calls(0)[1].split()[1:3], ["s", "1"])  # as a release is

    def test_many_at_once_and_in_order(self):
        with Server(locks=",".join(f"n{i}" for i in range(300))) as server, server.raw() as holder, server.raw(True) as operator:
            say(holder, "".join(f"acquire n{i} 1\n" for i in range(300)), 300)
            self.assertEqual(say(operator, "".join(f"end n{i} 1\nstats n{i}\n" for i in range(300)), 600)[::2],
                             [f"ended n{i}" for i in range(300)])
            self.assertEqual(server.operate("clients", 2).split("\n")[1].split()[3], "-")
            self.assertEqual(say(holder, "status\n", 301)[1:], [f"lock n{i} free - - - - 0 0 1 0" for i in range(300)])

    def test_a_hold_of_its_own_and_one_of_a_client_that_goes(self):
        with Server(locks="a,b") as server, server.raw() as holder, server.raw(True) as operator:
            self.assertEqual(say(operator, "acquire a 1\n"), ["granted a 1"])
            self.assertEqual(say(operator, "end a 1\nrelease a 1\n", 2), ["ended a", "refused holder a"])
            say(holder, "acquire b 1\n")
            engine = server.engine_number()
            os.kill(engine, signal.SIGSTOP)
            operator.sendall(b"end b 1\n")
            self.assertEqual(server.operate("ping"), "pong")  # it has heard that
            holder.close()
            self.assertEqual(read_lines(operator, 1), ["ended b"])
            os.kill(engine, signal.SIGCONT)
            self.assertEqual(say(operator, "acquire b 1\n"), ["granted b 2"])

    def test_a_hold_from_before_the_engine_started(self):
        with Server(lease="30") as server:
            with server.raw() as holder:
                self.assertEqual(say(holder, "acquire a 1\nacquire b 1\n", 2), ["granted a 1", "granted b 1"])
                server.kill_engine()
                self.assertEqual(holder.recv(10), b"")
            wait_until(lambda: server.text_of_log().count("engine ready") == 2)
            with server.raw() as sock:
                self.assertEqual(say(sock, "acquire a 2\n"), ["waiting a 0"])
                self.assertEqual(server.operate("end a 1"), "ended a")
                self.assertEqual(read_lines(sock, 1), ["granted a 2"])
                self.assertEqual(server.operate("end b 9"), "refused holder b")
                self.assertIn("lock b before 0 - 1 ", "\n".join(say(sock, "status\n", 4)))

    def test_while_all_locks_are_told(self):
        with Server(locks=",".join(["a"] + [f"n{i}" for i in range(2000)])) as server, server.raw() as holder:
            say(holder, "acquire a 1\n")
            holder.sendall(b"status\n" * 20)
            time.sleep(0.3)  # it is told in part, since nobody reads it
            self.assertEqual(server.operate("end a 1"), "ended a")
            lines = read_lines(holder, 20 * 2002)
            self.assertEqual([lines[i * 2002] for i in range(20)], ["status 2001"] * 20)
            self.assertEqual(say(holder, "release a 1\n"), ["refused holder a"])

    def test_clients_cannot(self):
        with Server() as server:
            for line in ("end a 1\n", "kick 1\n"):
                with server.raw() as sock:
                    self.assertEqual(say(sock, line), ["refused syntax"])


@needs_programs
class Kicks(unittest.TestCase):
    def test_a_client_goes_with_all_that_it_held(self):
        with Server() as server, server.raw() as holder, server.raw() as waiter:
            say(holder, "acquire a 1\nacquire b 1\n", 2)
            say(waiter, "acquire a 2\n")
            number = number_of(server, "a,b")
            self.assertEqual(server.operate(f"kick {number}"), f"kicked {number}")
            self.assertEqual(holder.recv(10), b"")
            self.assertEqual(read_lines(waiter, 1), ["granted a 2"])
            self.assertEqual(server.operate(f"kick {number}"), f"refused client {number}")
            wait_until(lambda: f"client-went client {number} went (kicked)" in server.text_of_log())

    def test_oneself(self):
        with Server() as server, server.raw(True) as operator:
            number = int(say(operator, "clients\n", 2)[1].split()[1])
            self.assertEqual(say(operator, f"kick {number}\n", 2), [f"kicked {number}"])


@needs_programs
class Rules(unittest.TestCase):
    def test_they_are_read_again(self):
        with tempfile.TemporaryDirectory(dir=FOLDER) as folder:
            rules, user = folder + "/rules", os.getuid()

            def write(text):
                with open(rules, "w", encoding="ascii") as file:
                    file.write(text)

            write(f"lock a: {user}\nlock *:\n")
            with Server("--rules", rules) as server, server.raw() as sock:
                self.assertEqual(say(sock, "acquire a 1\ntry b 1\n", 2), ["granted a 1", "refused permission b"])
                write(f"lock b: {user}\nlock *:\n")
                server.process.send_signal(signal.SIGHUP)
                wait_until(lambda: "rules read again\n" in server.text_of_log())
                self.assertEqual(say(sock, "try b 1\ntry a 1\nstatus\n", 4)[:3], ["granted b 1", "refused permission a", "status 1"])
                write("lock b nobody-has-this-name\n")
                server.process.send_signal(signal.SIGHUP)
                wait_until(lambda: "rules-bad rules not read again, the old ones hold: " in server.text_of_log())
                self.assertIn("line 1: `lock NAME: USER %GROUP cert:NAME ..` is wanted", server.text_of_log())
                self.assertEqual(say(sock, "release b 1\ntry b 1\n", 2), ["released b", "granted b 2"])
                for times, of_all in enumerate((user, 65533), 2):  # a pattern, and one that is longer than that
                    write(f"lock *: {of_all}\nlock b*: 65533\n")
                    server.process.send_signal(signal.SIGHUP)
                    wait_until(lambda: server.text_of_log().count("rules read again\n") == times)
                    line = "granted c 1" if of_all == user else "refused permission c"
                    self.assertEqual(say(sock, "stats b\ntry c 1\n", 2), ["refused permission b", line])
                write(f"lock b*: {user}\nlock *b: {user}\n")
                server.process.send_signal(signal.SIGHUP)
                wait_until(lambda: "line 2: in *b a `*` is not at the end" in server.text_of_log())
                self.assertEqual(say(sock, "try b 1\nrelease b 2\nrelease b 2\n", 3),
                                 ["refused permission b", "released b", "refused holder b"])


@needs_programs
class RulesThatAreNoFile(unittest.TestCase):
    def test_nobody_writes_into_a_pipe(self):
        with Narrower() as it, it.server.raw() as sock:
            os.remove(it.rules)
            os.mkfifo(it.rules)
            it.server.process.send_signal(signal.SIGHUP)
            it.server.wait_for_log("rules-bad rules not read again, the old ones hold: ")
            self.assertIn("not a regular file", it.server.text_of_log())
            self.assertEqual(say(sock, "try a 1\n"), ["granted a 1"])
            done = subprocess.run(it.server.words, capture_output=True, text=True, timeout=PATIENCE, check=False)
            self.assertEqual((done.returncode, "not a regular file" in done.stderr), (1, True), done.stderr)


class Narrower(contextlib.ExitStack):
    """A server whose rules are read again. A context manager, as which it ends the server."""

    def __init__(self, **more):
        super().__init__()
        self.rules = os.path.join(self.enter_context(tempfile.TemporaryDirectory(dir=FOLDER)), "rules")
        self.write("*")
        self.server = self.enter_context(Server("--rules", self.rules, **more))

    def write(self, who):
        """All locks are for these alone."""
        with open(self.rules, "w", encoding="ascii") as file:
            file.write(f"lock *: {who}\n")

    def narrow(self):
        """Until no lock is for anybody."""
        self.write("")
        before = self.server.text_of_log().count("rules read again\n")
        self.server.process.send_signal(signal.SIGHUP)
        wait_until(lambda: self.server.text_of_log().count("rules read again\n") > before)


@needs_programs
class NarrowerRules(unittest.TestCase):
    def test_what_is_held_is_given_back(self):
        with Narrower() as it, it.server.raw() as sock, it.server.raw() as session:
            say(sock, "acquire a 1\n")
            say(session, "session 7 attached\n1 acquire b 1\n", 2)
            it.narrow()
            self.assertEqual(say(sock, "release a 1\nacquire a 1\ncancel c\n", 3),
                             ["released a", "refused permission a", "refused waiter c"])
            self.assertEqual(say(session, "2 release b 1\n3 try b 1\n", 2), ["2 released b", "3 refused permission b"])

    def test_who_waits_is_told_and_the_next_has_its_place(self):
        with Narrower() as it, it.server.raw(True) as holder, it.server.raw() as one, it.server.raw() as two, it.server.raw(True) as last:
            say(holder, "acquire a 1\nacquire b 1\n", 2)
            self.assertEqual(say(one, "acquire a 1\n"), ["waiting a 0"])
            self.assertEqual(say(two, "session 7 attached\n1 acquire a 1\n", 2)[1], "1 waiting a 1")
            self.assertEqual(say(last, "acquire a 1\n"), ["waiting a 2"])
            it.narrow()
            self.assertEqual(read_lines(one, 1) + read_lines(two, 1), ["refused permission a"] * 2)
            self.assertEqual(say(one, "cancel a\nstats a\n", 2), ["refused waiter a", "refused permission a"])
            self.assertEqual(say(two, "2 cancel a\n"), ["2 refused waiter a"])
            self.assertEqual(it.server.waiters("a"), 1)
            say(holder, "release a 1\n")
            self.assertEqual(read_lines(last, 1), ["granted a 2"])

    def test_what_was_asked_before_and_not_answered(self):
        with Narrower() as it, it.server.raw(True) as holder, it.server.raw() as one, it.server.raw() as two:
            say(holder, "acquire a 1\n")
            say(two, "session 7 attached\n")
            engine = it.server.engine_number()
            os.kill(engine, signal.SIGSTOP)
            one.sendall(b"acquire a 1\n")
            two.sendall(b"1 acquire a 1\n")
            wait_until(lambda: it.server.operate("status", 4).count(" held ") == 1)
            time.sleep(0.2)  # both lines are taken
            it.narrow()
            os.kill(engine, signal.SIGCONT)
            self.assertEqual(read_lines(one, 2)[1], "refused permission a")
            self.assertEqual(read_lines(two, 2)[1], "refused permission a")
            self.assertEqual(it.server.waiters("a"), 0)

    def test_a_session_that_comes_back(self):
        with Narrower() as it, it.server.raw(True) as holder:
            say(holder, "acquire a 1\n")
            with it.server.raw() as sock:
                say(sock, "session 7\n1 acquire a 1\n", 2)
            it.narrow()
            with it.server.raw() as sock:
                self.assertEqual(say(sock, "session 7\n", 3), ["session 7 1 alone", "waits a", "refused permission a"])
            with it.server.raw() as sock:
                self.assertEqual(say(sock, "session 7\n"), ["session 7 0 alone"])


@needs_programs
class ClientsOfNarrowerRules(unittest.TestCase):
    """A client whose place in a queue is taken from it by the rules goes on, with what it holds."""

    def test_threads(self):
        for kind in (Client, Session):
            with self.subTest(kind=kind.__name__), Narrower() as it, it.server.raw(True) as holder, kind(it.server.path) as client:
                say(holder, "acquire a 1\n")
                token, raised = client.acquire("b"), []

                def wait(client=client, raised=raised):
                    try:
                        client.acquire("a", wait=PATIENCE)
                    except NotPermitted as fault:
                        raised.append(fault)
                waiting = threading.Thread(target=wait)
                waiting.start()
                it.server.wait_for_waiters("a", 1)
                it.narrow()
                waiting.join(PATIENCE)
                self.assertEqual([fault.lock for fault in raised], ["a"])
                client.check()
                client.release("b", token)
                with self.assertRaises(NotPermitted):
                    client.try_acquire("b")

    def test_tasks(self):
        async def scene(it, kind):
            async with await kind.connect(it.server.path) as client:
                token = await client.acquire("b")
                waiting = asyncio.ensure_future(client.acquire("a", wait=PATIENCE))
                while it.server.waiters("a") < 1:
                    await asyncio.sleep(0.01)
                it.narrow()
                with self.assertRaises(NotPermitted):
                    await waiting
                client.check()
                await client.release("b", token)
        for kind in (aio.Client, aio.Session):
            with self.subTest(kind=kind.__name__), Narrower() as it, it.server.raw(True) as holder:
                say(holder, "acquire a 1\n")
                asyncio.run(scene(it, kind))

    def test_the_command(self):
        with Narrower() as it, it.server.raw(True) as holder:
            say(holder, "acquire a 1\n")
            command = subprocess.Popen([COMMAND, "lock", "--socket", it.server.path, "a", "--", "true"], stderr=subprocess.PIPE, text=True)
            it.server.wait_for_waiters("a", 1)
            it.narrow()
            self.assertEqual((command.communicate(timeout=PATIENCE)[1], command.returncode), ("wozgirt: refused: permission a\n", 76))


@needs_programs
class Systemd(unittest.TestCase):
    def test_it_is_told(self):
        with Server() as server, socket.socket(socket.AF_UNIX, socket.SOCK_DGRAM) as told:
            server.stop()
            told.bind(server.folder + "/notify")
            told.settimeout(PATIENCE)
            more = {"NOTIFY_SOCKET": server.folder + "/notify", "WATCHDOG_USEC": "600000"}
            process = subprocess.Popen(server.words, stderr=subprocess.DEVNULL, env={**os.environ, **more})
            try:
                while (first := told.recv(100)) == b"WATCHDOG=1":
                    pass
                self.assertEqual(first, b"READY=1\nSTATUS=serves")
                with server.raw() as sock:
                    self.assertEqual(say(sock, "try a 1\n"), ["granted a 1"])
                for _ in range(3):
                    self.assertEqual(told.recv(100), b"WATCHDOG=1")
                with open(f"/proc/{next(self.children(process.pid))}/environ", "rb") as file:
                    self.assertNotIn(b"NOTIFY_SOCKET", file.read())
                process.terminate()
                while (last := told.recv(100)) == b"WATCHDOG=1":
                    pass
                self.assertEqual(last, b"STOPPING=1")
                self.assertEqual(process.wait(PATIENCE), 0)
            finally:
                process.kill()
                process.wait()

    def children(self, parent):
        for number in filter(str.isdigit, os.listdir("/proc")):
            try:
                with open(f"/proc/{number}/stat", encoding="utf-8", errors="replace") as file:
                    if int(file.read().rpartition(")")[2].split()[1]) == parent:
                        yield number
            except OSError:
                continue


@needs_programs
class Retention(unittest.TestCase):
    def segments(self, server):
        return sorted(name for name in os.listdir(server.journal) if name.endswith(".ring"))

    def test_old_segments_go_and_their_digests_stay(self):
        with Server("--segment", "400", "--keep-segments", "2") as server:
            kept = {}
            with server.raw() as sock:
                for token in range(1, 2001):
                    say(sock, f"acquire a 1\nrelease a {token}\n", 2)
                    if token % 100 == 0:  # what may be removed soon
                        for name in self.segments(server)[:-1]:
                            with contextlib.suppress(FileNotFoundError), open(os.path.join(server.journal, name), "rb") as file:
                                kept[name] = hashlib.sha256(file.read()).hexdigest()
                wait_until(lambda: len(self.segments(server)) == 2)
                with open(server.journal + ".removed", encoding="ascii") as file:
                    removed = dict(line.split() for line in file)
                self.assertGreater(len(removed), 2)
                self.assertEqual(len(set(removed) & set(self.segments(server))), 0)
                if not IS_DOUBLE:
                    self.assertEqual({name: digest for name, digest in kept.items() if name in removed}, removed)
                wait_until(lambda: server.text_of_log().count("segment-removed segment ") == len(removed))
                self.assertEqual(say(sock, "acquire b 1\n"), ["granted b 1"])

    @unittest.skipIf(IS_DOUBLE, "the engine's double needs its first segment")
    def test_the_rest_is_a_chain_that_goes_on(self):
        with Server("--segment", "400", "--keep-segments", "2", lease="1") as server:
            with server.raw() as sock:
                for token in range(1, 1001):
                    say(sock, f"acquire a 1\nrelease a {token}\n", 2)
            wait_until(lambda: len(self.segments(server)) == 2)
            server.kill_engine()
            wait_until(lambda: server.text_of_log().count("engine ready") == 2)
            with server.raw() as sock:
                self.assertEqual(say(sock, "acquire a 1\n"), ["granted a 1001"])
            server.stop()
            check = subprocess.run([ENGINE, "check", server.journal], capture_output=True, text=True, check=False, timeout=PATIENCE)
            self.assertRegex(check.stdout, r"^legal segments \d+ from \d+ ")


@needs_programs
class LogOfEvents(unittest.TestCase):
    def test_each_line_has_a_time_and_a_key(self):
        with Server("--log-connections") as server:
            with server.raw() as sock:
                say(sock, "acquire a 1\n")
            server.stop()
            keys = []
            for line in server.text_of_log().splitlines():
                if line.startswith("total "):
                    continue  # that is the engine's own
                match = re.match(r"\d{4}-\d\d-\d\dT\d\d:\d\d:\d\dZ ([a-z-]+) \S", line)
                self.assertIsNotNone(match, line)
                keys.append(match[1])
            for key in ("started", "listening", "engine-started", "engine-ready", "client-came", "client-went", "stopping", "stopped"):
                self.assertIn(key, keys)


    def test_the_page_has_each_key(self):
        with open(os.path.join(TOP, "server", "wozgirt-server", "src", "log", "events.rs"), encoding="utf-8") as file:
            keys = re.findall(r'Event::\w+(?: \{ \.\. \})? => "([a-z-]+)"', file.read()) + ["lines-lost"]
        with open(os.path.join(TOP, "docs", "OPERATING.md"), encoding="utf-8") as file:
            page = file.read()
        self.assertGreater(len(keys), 30)
        self.assertEqual([key for key in keys if f"`{key}`" not in page], [])

    def test_the_page_has_each_metric(self):
        with open(os.path.join(TOP, "server", "wozgirt-server", "src", "pages", "metrics.rs"), encoding="utf-8") as file:
            names = re.findall(r'"(wozgirt_[a-z_]+)"', file.read())
        with open(os.path.join(TOP, "docs", "OPERATING.md"), encoding="utf-8") as file:
            page = file.read()
        self.assertGreater(len(names), 25)
        self.assertEqual([name for name in names if f"`{name}`" not in page], [])


if __name__ == "__main__":
    unittest.main()
