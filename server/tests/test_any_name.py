"""Locks of any name, where `*` ends the list: the server, the command and each client. As long as the proved engine takes a list alone,
its double is asked."""

import asyncio
import os
import re
import signal
import subprocess
import unittest
import urllib.request

import journals
from harness import (COMMAND, ENGINE, IS_DOUBLE, PATIENCE, TOP, Server, engine_of_any_name, granted, needs_loopback, needs_programs,
                     read_lines, say, takes_any_name, wait_until)
from header_clients import DONE, REFUSED, Clients, needs_c
from test_cluster import Trial as OfCluster
from test_restarts import Trial

from wozgirt import Client, Lock, LockLost, Session, TooMany, aio

#: how many names that are in use no longer a server knows
KNOWN = 100


def server_of(*words, locks="*", **more):
    return Server(*words, locks=locks, engine=engine_of_any_name(), **more)


def names_in(text):
    return re.findall(r"^lock (\S+) ", text, re.MULTILINE)


def token_of(lines):
    """The token of a line that grants."""
    return int(re.fullmatch(r"granted \S+ (\d+)", lines[-1])[1])


def size_of(folder):
    return sum(os.path.getsize(os.path.join(folder, name)) for name in os.listdir(folder))


@needs_programs
class Lines(unittest.TestCase):
    def test_a_name_that_nobody_has(self):
        with server_of() as server, server.raw() as sock:
            text = "stats x/1\nrelease x/1 1\ncancel x/1\nstatus\n"
            self.assertEqual(say(sock, text, 4), ["stats x/1 0 0 0 0 0", "refused holder x/1", "refused waiter x/1", "status 0"])
            self.assertEqual(server.operate("end x/1 1"), "refused holder x/1")
            self.assertEqual(server.operate("corrupt x/1 0 0"), "refused lock x/1")
            for name in ("x*", "*", "é", "n" * 129):
                self.assertEqual(say(sock, f"acquire {name} 1\n"), [f"refused lock {name}"])
            self.assertEqual(say(sock, "acquire x 1 1\nping\n", 2), ["refused syntax", "pong"])

    def test_two_clients(self):
        with server_of(locks="a,*") as server, server.raw() as one, server.raw() as two:
            self.assertEqual(say(one, "acquire a 5\n"), ["granted a 1"])
            first = token_of(say(one, "acquire order/4711 6\n"))
            self.assertEqual(say(two, "try order/4711 7\nacquire order/4711 7\n", 2), ["busy order/4711", "waiting order/4711 0"])
            self.assertEqual(say(one, f"release order/4711 {first}\n"), ["released order/4711"])
            second = token_of(read_lines(two, 1))
            self.assertGreater(second, first)
            self.assertEqual(say(one, "acquire order/4711 8\n"), ["waiting order/4711 0"])
            self.assertEqual(say(two, "acquire a 9\n"), ["refused circle a"])
            self.assertEqual(say(one, "cancel order/4711\nacquire order/4711 8\n", 2), ["cancelled order/4711", "waiting order/4711 0"])
            two.close()
            third = token_of(read_lines(one, 1))
            self.assertGreater(third, second)
            self.assertRegex(say(one, "stats order/4711\n")[0], rf"^stats order/4711 \d+ 0 3 \d+ {third}$")
            self.assertEqual(say(one, "leave\ntry order/4711 1\n", 2)[0], "left")

    def test_tokens_of_a_name_rise_where_its_ring_had_others(self):
        with server_of() as server, server.raw() as sock:
            last = {}
            for i in range(200):
                name = f"n{i % 7}"
                token = token_of(say(sock, f"acquire {name} {i}\n"))
                self.assertGreater(token, last.get(name, 0))
                last[name] = token
                self.assertEqual(say(sock, f"release {name} {token}\n"), [f"released {name}"])

    def test_as_many_as_may_be(self):
        with server_of("--most-names", "2", locks="a,*") as server, server.raw() as one, server.raw() as two:
            tokens = [token_of(say(one, f"acquire {name} 1\n")) for name in ("x", "y", "a")]
            self.assertEqual(say(two, "acquire z 1\ntry z 1\n", 2), ["refused names z", "refused names z"])
            self.assertEqual(say(two, "try x 1\nacquire y 1\n", 2), ["busy x", "waiting y 0"])
            self.assertEqual(say(one, f"release x {tokens[0]}\n"), ["released x"])
            self.assertRegex(say(two, "try z 1\n")[0], r"^granted z \d+$")
            with server.raw() as sock:
                sock.sendall(b"session 7\n1 acquire w 1\n")
                self.assertEqual(read_lines(sock, 2), ["session 7 0 alone", "1 refused names w"])

    def test_what_one_client_may_have(self):
        with server_of("--most-holds", "2") as server, server.raw() as sock:
            lines = say(sock, "acquire x 1\nacquire y 1\nacquire z 1\n", 3)
            self.assertEqual((lines[0][:9], lines[2]), ("granted x", "refused many z"))

    def test_status(self):
        with server_of(locks="a,*") as server, server.raw() as one, server.raw() as two:
            for name in ("x/2", "x/1", "y"):
                token = token_of(say(one, f"acquire {name} 7\n"))
            say(two, "acquire x/1 8\n")
            self.assertEqual(say(one, f"release y {token}\n"), ["released y"])
            text = "\n".join(say(two, "status\n", 5))
            self.assertEqual((text.split("\n")[0], names_in(text)), ("status 4", ["a", "x/2", "x/1", "y"]))
            self.assertRegex(text, r"\nlock x/1 held \d+ 7 \d+ \d+ 1 \d+ 1 0\n")
            self.assertRegex(text, r"\nlock y free - - - - 0 0 1 0$")
            self.assertRegex(server.operate("clients", 4), r"\nclient \d+ 0 x/2,x/1 - .*\nclient \d+ 0 - x/1 ")
            self.assertEqual(server.operate(f"end x/2 {token - 2}"), "ended x/2")
            self.assertIn("1 locks, and those of any other name", server.text_of_log())

    def test_rules(self):
        with server_of(locks="a,*") as server:
            path = os.path.join(server.folder, "rules")
            with open(path, "w", encoding="ascii") as file:
                file.write("lock order/*:\nlock order/1: *\n")
            server.stop()
            with server_of("--rules", path, locks="a,*") as ruled, ruled.raw() as sock:
                lines = say(sock, "acquire order/2 1\nacquire order/1 1\nacquire x 1\n", 3)
                self.assertEqual([line.split()[0] for line in lines], ["refused", "granted", "granted"])
                self.assertEqual(lines[0], "refused permission order/2")
                self.assertRegex(ruled.operate("acquire order/2 1"), r"^granted order/2 \d+$")
                self.assertEqual(names_in("\n".join(say(sock, "status\n", 4))), ["a", "order/1", "x"])

    def test_a_list_that_is_wrong(self):
        for locks, why in (("*,a", "`*`, which is any other name, comes last"), ("a*", "`a*` is not NAME, NAME:N or NAME:N:K")):
            with self.assertRaisesRegex(RuntimeError, re.escape(why)):
                server_of(locks=locks)

    @unittest.skipIf(takes_any_name(), "the engine takes `*`")
    def test_an_engine_that_takes_a_list_alone(self):
        """It says so, and the server ends."""
        with self.assertRaisesRegex(RuntimeError, "the engine keeps ending before it is ready"):
            Server(locks="a,*")


@needs_programs
class Many(unittest.TestCase):
    """What is kept does not grow with the names that were ever used."""

    @needs_loopback
    def test_what_is_shown(self):
        with server_of("--page", "127.0.0.1:0", locks="a,*") as server, server.raw() as sock, server.raw() as holder:
            say(holder, "acquire held 9\n")
            for begin in range(0, 2000, 50):
                names = [f"n{i}" for i in range(begin, begin + 50)]
                lines = say(sock, "".join(f"try {name} 1\n" for name in names), 50)
                ends = "".join(f"release {line.split()[1]} {line.split()[2]}\n" for line in lines)
                self.assertEqual(say(sock, ends, 50), [f"released {name}" for name in names])
            lines = say(sock, "status\n", 3 + KNOWN)
            self.assertEqual(lines[0], f"status {2 + KNOWN}")
            self.assertEqual(names_in("\n".join(lines)), ["a", "held", *(f"n{i}" for i in range(2000 - KNOWN, 2000))])
            place = f"http://127.0.0.1:{server.port('page')}"
            with urllib.request.urlopen(place + "/metrics", timeout=PATIENCE) as answer:
                text = answer.read().decode()
            self.assertEqual(set(re.findall(r'lock="([^"]+)"', text)), {"a", "*"})
            self.assertIn('\nwozgirt_held{lock="*"} 1\n', text)
            self.assertIn('\nwozgirt_grants_total{lock="*"} 2001\n', text)
            with urllib.request.urlopen(place, timeout=PATIENCE) as answer:
                page = answer.read().decode()
            self.assertEqual((page.count("<tr><td>"), "<td>n1999</td>" in page, "<td>n1899</td>" in page), (2 + KNOWN, True, False))
            self.assertIn("and 1 of other names", page)

    def test_what_is_kept_of_sessions(self):
        with server_of() as server, server.raw() as sock:
            kept = server.journal + ".sessions"
            before = size_of(kept)
            for i in range(300):
                token = token_of(say(sock, f"acquire n{i} 1\n"))
                say(sock, f"release n{i} {token}\n")
            self.assertLess(size_of(kept) - before, 1000)


@needs_programs
class Restarts(Trial):
    def server(self, *words, locks="a,*", **more):
        return super().server(*words, locks=locks, engine=engine_of_any_name(), **more)

    def each_restart(self, server):
        """The server, restarted in each way."""
        self.restart_engine(server)
        yield server
        for number in (signal.SIGTERM, signal.SIGKILL):
            server = self.again(server, number)
            yield server

    def test_what_a_client_without_a_session_held_stays_held_for_the_grace(self):
        server = self.server("--grace", "31")
        with server.raw() as sock:
            token = token_of(say(sock, "acquire x/1 7\n"))
            self.restart_engine(server)
        server.wait_for_log("engine ready, 1 locks held from before")
        sock = self.raw(server)
        self.assertEqual(say(sock, "try x/1 1\n"), ["busy x/1"])
        self.assertRegex(say(sock, "status\n", 3)[2], rf"^lock x/1 before 0 - {token} \d+ 0 0 ")
        self.assertEqual(server.operate(f"end x/1 {token}"), "ended x/1")
        self.assertGreater(token_of(say(sock, "try x/1 1\n")), token)

    def test_the_grace_ends(self):
        server = self.server("--grace", "1", lease=1)
        with server.raw() as sock:
            token = token_of(say(sock, "acquire x/1 7\n"))
            server.kill_engine()
            self.assertEqual(sock.recv(1), b"")
        sock = self.raw(server)
        sock.sendall(b"acquire x/1 8\n")
        self.assertGreater(token_of([granted(sock)]), token)

    def test_holds_and_places_outlive_restarts(self):
        server = self.server()
        (one, _), (two, _), (three, _) = (self.session(server, key) for key in (1, 2, 3))
        tokens = [token_of([line[2:]]) for line in say(one, "1 acquire x/1 5\n2 acquire x/2 5\n", 2)]
        self.assertEqual(say(two, "1 acquire x/1 6\n"), ["1 waiting x/1 0"])
        self.assertEqual(say(three, "1 acquire x/1 7\n"), ["1 waiting x/1 1"])
        for server in self.each_restart(server):
            one, has = self.session(server, 1, 2)
            self.assertEqual(sorted(has), [f"holds x/1 {tokens[0]}", f"holds x/2 {tokens[1]}"])
            two, has = self.session(server, 2, 1)
            self.assertEqual(has, ["waits x/1"])
            three, has = self.session(server, 3, 1)
            self.assertEqual(has, ["waits x/1"])
        self.assertEqual(say(one, f"3 release x/1 {tokens[0]}\n"), ["3 released x/1"])
        token = token_of(read_lines(two, 1))
        self.assertGreater(token, tokens[0])
        self.assertEqual(say(two, f"2 release x/1 {token}\n"), ["2 released x/1"])
        self.assertGreater(token_of(read_lines(three, 1)), token)

    def test_a_lease_that_is_over(self):
        server = self.server(lease=1)
        one, _ = self.session(server, 1)
        two = self.raw(server)
        token = token_of([say(one, "1 acquire x 5\n")[0][2:]])
        self.assertEqual(say(two, "acquire x 6\n"), ["waiting x 0"])
        one.close()
        self.assertGreater(token_of(read_lines(two, 1)), token)

    def test_an_old_folder(self):
        """A folder of a list goes on with `*` added: what was held is held, and tokens go on."""
        server = self.server(locks="a,b")
        one, _ = self.session(server, 1)
        self.assertEqual(say(one, "1 acquire a 5\n"), ["1 granted a 1"])
        self.assertEqual(say(self.raw(server), "acquire x 5\n"), ["refused lock x"])
        server = self.again(server, signal.SIGTERM, locks="a,b,*")
        one, has = self.session(server, 1, 1)
        self.assertEqual(has, ["holds a 1"])
        lines = say(one, "2 acquire x 5\n3 release a 1\n4 acquire a 6\n", 3)
        self.assertEqual(lines[1:], ["3 released a", "4 granted a 2"])
        self.assertGreater(token_of([lines[0][2:]]), 1)


@needs_programs
class Others(unittest.TestCase):
    """The command and each client."""

    def test_the_command(self):
        with server_of("--most-names", "1") as server:
            words = dict(capture_output=True, text=True, timeout=PATIENCE, env=dict(os.environ, WOZGIRT_SOCKET=server.path))
            script = f"echo $WOZGIRT_LOCK $WOZGIRT_TOKEN; {COMMAND} status; {COMMAND} try x -- true"
            done = subprocess.run([COMMAND, "lock", "order/4711", "--", "sh", "-c", script], **words)
            self.assertEqual((done.returncode, done.stderr), (76, "wozgirt: refused: names x\n"))
            self.assertRegex(done.stdout, r"^order/4711 [1-9]\d*\nLOCK .*\norder/4711 +held ")
            done = subprocess.run([COMMAND, "bench", "2", "1", "0.1"], **words)
            self.assertRegex(done.stdout, r"^clients 2 locks 1 seconds .* grants max [1-9]", done.stderr)

    def test_the_bench_has_names_of_its_own(self):
        with server_of(locks="a,*") as server:
            words = dict(capture_output=True, text=True, timeout=PATIENCE, env=dict(os.environ, WOZGIRT_SOCKET=server.path))
            done = subprocess.run([COMMAND, "bench", "4", "3", "0.1"], **words)
            self.assertRegex(done.stdout, r"^clients 4 locks 3 seconds ", done.stderr)
            with server.raw() as sock:
                self.assertEqual(sorted(names_in("\n".join(say(sock, "status\n", 4)))), ["a", "bench/0", "bench/1"])
        with Server(locks="a,b") as server:
            words["env"] = dict(os.environ, WOZGIRT_SOCKET=server.path)
            done = subprocess.run([COMMAND, "bench", "4", "3", "0.1"], **words)
            self.assertEqual((done.returncode, done.stderr), (1, "wozgirt: the server has 2 locks\n"))

    def test_the_clients_in_python(self):
        async def of_asyncio(path):
            async with await aio.Client.connect(path) as client:
                token = await client.acquire("x/3")
                with self.assertRaises(TooMany):
                    await client.acquire("x/4")
                await client.release("x/3", token)
            return token

        with server_of("--most-names", "1") as server:
            with Client(server.path) as client:
                first = client.acquire("x/1")
                with self.assertRaises(TooMany) as refused:
                    client.try_acquire("x/2")
                self.assertEqual((refused.exception.why, refused.exception.lock), ("names", "x/2"))
                self.assertEqual([(it.name, it.state, it.token) for it in client.status()], [("x/1", "held", first)])
                client.release("x/1", first)
            with Session(server.path) as session:
                second = session.acquire("x/1")
                with self.assertRaises(TooMany):
                    session.acquire("x/2")
                session.release("x/1", second)
            with Lock(server.path, "x/1") as third:
                self.assertLess(first, second)
                self.assertLess(second, third)
            self.assertGreater(asyncio.run(of_asyncio(server.path)), third)

    def test_a_session_in_python_keeps_a_name_while_the_engine_is_killed(self):
        with server_of() as server, Session(server.path) as session:
            token = session.acquire("x/1")
            server.kill_engine()
            session.check()
            wait_until(lambda: server.own_log().count(" engine-ready ") > 1)
            session.release("x/1", token)
            self.assertGreater(session.acquire("x/1"), token)

    def test_a_client_in_python_loses_a_name_with_the_engine(self):
        with server_of() as server, Client(server.path) as client:
            token = client.acquire("x/1")
            server.kill_engine()
            with self.assertRaises(LockLost):
                client.release("x/1", token)


@needs_c
@needs_programs
class OfHeader(Clients):
    def test_a_client(self):
        with server_of("--most-names", "1") as server:
            client = self.client(server.path)
            _, result, token, *_ = client.ask("acquire order/4711 7 0")
            self.assertEqual(result, DONE)
            with server.raw() as sock:
                self.assertEqual(say(sock, "try order/4711 1\ntry x 1\n", 2), ["busy order/4711", "refused names x"])
            other = self.client(server.path)
            self.assertEqual(other.ask("acquire x 7 0")[1::4], (REFUSED, "refused names x"))
            self.assertEqual(client.ask(f"release order/4711 {token}").result, DONE)
            self.assertEqual(other.ask("acquire x 7 1000").result, DONE)


@needs_c
@needs_programs
class OfSession(OfHeader):
    words = ["-DSESSION"]


@needs_programs
class OfSeveral(OfCluster):
    """Servers over one log."""

    def server(self, name, *words, locks="a,*", **more):
        return super().server(name, *words, locks=locks, engine=engine_of_any_name(), **more)

    def test_one_line_for_all(self):
        a, b = self.server("a"), self.server("b", checkpoint=100000)
        one, two, three = self.raw(a), self.raw(b), self.raw(b)
        first = token_of(say(one, "acquire x/1 7\n"))
        self.assertEqual(say(two, "try x/1 8\nacquire x/1 8\n", 2), ["busy x/1", "waiting x/1 0"])
        self.assertEqual(say(three, "stats y\nacquire x/1 9\n", 2), ["stats y 0 0 0 0 0", "waiting x/1 1"])
        self.assertEqual(say(one, f"release x/1 {first}\n"), ["released x/1"])
        second = token_of(read_lines(two, 1))
        two.close()
        self.assertLess(first, second)
        self.assertLess(second, token_of(read_lines(three, 1)))
        self.catch_up(a, b)
        self.assertEqual(a.operate("stats x/1"), b.operate("stats x/1"))
        self.assertEqual(say(three, "leave\nping\n", 2), ["left", "pong"])
        self.catch_up(a, b)
        self.assertEqual((a.operate("stats x/1"), b.operate("stats x/1")), ("stats x/1 0 0 0 0 0",) * 2)

    def test_names_that_are_held_outlive_checkpoints_and_servers(self):
        a, b = (self.server(name, checkpoint=30) for name in "ab")
        held, _ = self.session(a, 7)
        token = token_of([say(held, "1 acquire x/1 5\n")[0][2:]])
        waiting, _ = self.session(b, 8)
        self.assertEqual(say(waiting, "1 acquire x/1 6\n"), ["1 waiting x/1 0"])
        for i in range(3):
            self.hand_over(a, f"n{i}")
        wait_until(lambda: a.text_of_log().count(" checkpoint ") > 1)
        self.kill(a)
        a = self.server("a", checkpoint=30)
        held, has = self.session(a, 7, 1)
        self.assertEqual(has, [f"holds x/1 {token}"])
        self.hand_over(b, "n7")
        self.assertEqual(say(held, f"2 release x/1 {token}\n"), ["2 released x/1"])
        self.assertGreater(token_of(read_lines(waiting, 1)), token)
        self.catch_up(a, b)
        waiting.close()
        held.close()
        for server in (a, b):
            self.assertNotIn("CONTRADICTION", server.text_of_log())

    def test_any_name_is_added_to_a_list(self):
        a = self.server("a", checkpoint=60, locks="a,b")
        held, _ = self.session(a, 7)
        self.assertEqual(say(held, "1 acquire a 5\n2 acquire x 5\n", 2), ["1 granted a 1", "2 refused lock x"])
        b = self.server("b", "--most-names", "1000", checkpoint=60, locks="a,b,*")
        wait_until(lambda: "the log has 3 locks, and --locks 2 of them: put them all there: a:8:8,b:8:8,*:2:2" in a.text_of_log())
        self.assertGreater(token_of([say(held, "3 acquire x 5\n")[0][2:]]), 1)
        # (a server knows a list of the log as soon as it has read it)
        wait_until(lambda: say(self.raw(b), "try x 1\n") == ["busy x"])
        self.assertEqual(say(self.raw(b), "try x 1\ntry a 1\n", 2), ["busy x", "busy a"])
        self.assertIn("\twith 3 60 - 1 a:8:8,b:8:8,*:2:2 1000", "\n".join(self.log.texts()))
        for words in (("--locks", "a,b,*"), ("--locks", "a,b,c,*", "--most-names", "1000"), ("--locks", "a,b,*", "--most-names", "999")):
            it = subprocess.run([*self.words_of("c"), *words], capture_output=True, text=True, timeout=PATIENCE, check=False)
            self.assertEqual(it.returncode, 78, it.stderr)
            self.assertIn("--locks are the same for all servers; in the log they are `", it.stderr)
        d = self.server("d", checkpoint=60, locks="a")
        wait_until(lambda: say(self.raw(d), "try x 1\n") == ["busy x"])

    def words_of(self, name):
        """Those of a server that is not started."""
        folder = os.path.join(self.folder, name + ".other")
        os.makedirs(folder, exist_ok=True)
        it = Server.__new__(Server)
        with unittest.mock.patch("subprocess.Popen"), unittest.mock.patch.object(Server, "wait_until_it_answers"):
            it.__init__("--etcd", self.log.path, "--name", name, "--log-program", os.path.join(TOP, "server", "tests", "log_double.py"),
                        "--checkpoint", "60", folder=folder, engine=engine_of_any_name())
        return it.words

    @unittest.skipUnless(takes_any_name() and not IS_DOUBLE, "only the proved engine has files that are the same everywhere")
    def test_files_are_the_same(self):
        a, b = (self.server(name, checkpoint=30) for name in "ab")
        for i in range(5):
            self.hand_over(a, f"n{i}")
            self.hand_over(b, f"n{i}")
        self.catch_up(a, b)
        texts = [list(journals.texts(server.journal + "/journal"))[:-1] for server in (a, b)]
        self.assertEqual(*texts)
        self.assertGreater(len(texts[0]), 3)
        for server in (a, b):
            server.stop()
            it = subprocess.run([ENGINE, "check", server.journal + "/journal"], capture_output=True, text=True, timeout=PATIENCE, check=False)
            self.assertTrue(it.stdout.startswith("legal "), it.stdout + it.stderr)


if __name__ == "__main__":
    unittest.main()
