"""Several servers over one log, which is a thread of the test: see log_double.py."""

import filecmp
import os
import re
import shutil
import signal
import subprocess
import tempfile
import threading
import time
import unittest

from harness import (ENGINE, FOLDER, IS_DOUBLE, PATIENCE, RUNNING, SERVER, TOP, Server, at_least, by_the_clock, granted, needs_programs,
                     read_lines, say, wait_until)
from log_double import Log

RELAY = os.path.join(TOP, "server", "tests", "log_double.py")
HELP = subprocess.run([ENGINE, "locks", "--help"], capture_output=True, text=True, check=False).stdout if not IS_DOUBLE else "--strict"
needs_strict = unittest.skipUnless("--strict" in HELP, "this engine has no --strict")


def granted_late(sock, *others):
    """The line of the grant, to a client that speaks meanwhile, as others do."""
    while True:
        for other in others:
            say(other, "ping\n")
        for line in say(sock, "ping\n") or ["granted by nobody"]:
            if line.startswith("granted "):
                return line
        time.sleep(0.05)


class Trial(unittest.TestCase):
    """A log, and servers as they are asked for."""

    def setUp(self):
        self.folder = tempfile.mkdtemp(prefix="wozgirt-", dir=FOLDER)
        self.addCleanup(shutil.rmtree, self.folder, ignore_errors=True)
        self.log = Log(os.path.join(self.folder, "log"))
        self.log.__enter__()
        self.addCleanup(self.log.__exit__)

    def server(self, name, *words, lease="30", host_lease="30", checkpoint="100000", **more):
        folder = os.path.join(self.folder, name)
        os.makedirs(folder, exist_ok=True)
        it = Server("--etcd", self.log.path, "--name", name, "--log-program", RELAY, "--host-lease", str(host_lease),
                    "--checkpoint", str(checkpoint), *words, folder=folder, lease=lease, **more)
        self.addCleanup(self.end, it)
        return it

    def end(self, server):
        if server in RUNNING:
            server.__exit__()

    def kill(self, server):
        server.process.kill()
        server.process.wait()
        RUNNING.remove(server)

    def raw(self, server):
        sock = server.raw()
        self.addCleanup(sock.close)
        return sock

    def session(self, server, key, count=0):
        """A connection with a session, and what that holds and waits for."""
        sock = self.raw(server)
        lines = say(sock, f"session {key}\n", 1 + count)
        self.assertEqual(lines[0], f"session {key} {count}")
        return sock, lines[1:]

    def position(self, server):
        return int(server.operate("cluster").split()[3])

    def catch_up(self, *servers):
        wait_until(lambda: len({server.operate("cluster").split()[3] for server in servers} | {str(len(self.log.entries))}) == 1)

    def hand_over(self, server, name="b", count=20):
        with server.raw() as sock:
            for _ in range(count):
                token = say(sock, f"acquire {name} 1\n")[0].split()[2]
                self.assertEqual(say(sock, f"release {name} {token}\n"), [f"released {name}"])


@needs_programs
@needs_strict
class Several(Trial):
    def test_one_line_for_all(self):
        a, b = self.server("a"), self.server("b")
        one, two, three = self.raw(a), self.raw(b), self.raw(b)
        self.assertEqual(say(one, "acquire a 7\n"), ["granted a 1"])
        self.assertEqual(say(two, "try a 8\nacquire a 8\n", 2), ["busy a", "waiting a 0"])
        self.assertEqual(say(three, "acquire a 9\n"), ["waiting a 1"])
        self.assertEqual(say(three, "cancel a\nacquire a 9\n", 2), ["cancelled a", "waiting a 1"])
        self.assertEqual(say(one, "release a 1\nacquire a 7\n", 2), ["released a", "waiting a 1"])
        self.assertEqual(read_lines(two, 1), ["granted a 2"])
        two.close()
        self.assertEqual(read_lines(three, 1), ["granted a 3"])
        self.assertEqual(say(three, "leave\nping\n", 2), ["left", "pong"])
        self.assertEqual(read_lines(one, 1), ["granted a 4"])
        self.catch_up(a, b)
        stats = [say(sock, "stats a\n")[0].split() for sock in (one, three)]
        self.assertEqual(stats[0], stats[1])
        self.assertEqual(stats[0][1:5] + stats[0][6:], ["a", "8", "0", "4", "4"])
        wait_until(lambda: a.operate("cluster").split()[3:6] == b.operate("cluster").split()[3:6])

    def test_answers_come_in_the_order_of_the_lines(self):
        lines = "acquire q 1\nacquire a x\nping\nacquire a 1\nping\nstats q\nacquire b 18446744073709551616\nacquire a 2\nleave\nping\n"
        with self.raw(self.server("a")) as sock:
            self.assertEqual(say(sock, lines, 10), [
                "refused lock q", "refused syntax", "pong", "granted a 1", "pong", "refused lock q", "refused number",
                "refused holds a", "left", "pong"])

    def test_nobody_is_inside_with_another(self):
        servers = [self.server(name) for name in "abc"]
        inside, tokens, faults = [], [], []

        def work(server):
            with server.raw() as sock:
                for _ in range(25):
                    sock.sendall(b"acquire a 1\n")
                    token = granted(sock).split()[2]
                    inside.append(token)
                    if len(inside) > 1:
                        faults.append(list(inside))
                    tokens.append(int(token))
                    inside.remove(token)
                    if say(sock, f"release a {token}\n") != ["released a"]:
                        faults.append(token)

        threads = [threading.Thread(target=work, args=(servers[i % 3],)) for i in range(12)]
        [thread.start() for thread in threads]
        [thread.join() for thread in threads]
        self.assertEqual((faults, tokens), ([], list(range(1, 301))))

    def test_many_lines_at_once(self):
        count = 5000
        with self.raw(self.server("a")) as sock:
            text = b"".join(b"acquire a %d\nrelease a %d\nping\n" % (i, i) for i in range(1, count + 1))
            sender = threading.Thread(target=sock.sendall, args=(text,))
            sender.start()
            got = read_lines(sock, 3 * count)
            sender.join()
            self.assertEqual(got, [w for i in range(1, count + 1) for w in (f"granted a {i}", "released a", "pong")])
        self.assertLess(len(self.log.entries), count)  # many in one

    def test_holds_have_a_limit_for_each_client(self):
        """It is counted before the log, so no server has to know that of another."""
        a, b = self.server("a", "--most-holds", "2"), self.server("b")
        with self.raw(a) as sock, self.raw(b) as other:
            self.assertEqual(say(sock, "acquire a 1\ntry b 1\ntry c 1\n", 3), ["granted a 1", "granted b 1", "refused many c"])
            self.assertEqual(say(sock, "acquire c 1\ntry a 1\n", 2), ["refused many c", "refused holds a"])
            self.assertEqual(say(other, "try c 1\n"), ["granted c 1"])
            self.assertEqual(say(sock, "release b 1\n"), ["released b"])
            self.assertEqual(say(sock, "acquire c 1\n"), ["waiting c 0"])
            self.assertEqual(say(sock, "try b 1\n"), ["refused many b"])
        asked = re.findall("(?:acquire|try) (?:2|c) 1", " ".join(self.log.texts()))
        self.assertEqual(len(asked), 2)  # by the other one, and once by this

    def test_an_entry_that_is_there_twice_counts_once(self):
        self.log.twice = True
        a, b = self.server("a"), self.server("b")
        self.hand_over(a)
        self.assertEqual(say(self.raw(b), "acquire b 1\n"), ["granted b 21"])

    def test_other_texts_in_the_log_are_passed_by(self):
        a, b = self.server("a"), self.server("b")
        for text in ("", "nonsense", f"by a 1 9 0 {'0' * 64}\t1 1 leave", f"by x 9 1 0 {'0' * 64}\t5 1 acquire a 1"):
            self.log.put(text)
        self.assertEqual(say(self.raw(b), "acquire a 1\n"), ["granted a 1"])
        self.hand_over(a)

    def test_a_fault(self):
        a, b = self.server("a"), self.server("b")
        self.assertEqual(a.operate("corrupt a 1 5"), "corrupted a 0")
        self.catch_up(a, b)
        self.assertEqual(a.operate("stats a"), b.operate("stats a"))
        self.assertGreater(int(b.operate("stats a").split()[4]), 0)
        wait_until(lambda: "lock a, machine 1, 5 over 0" in b.text_of_log())


@needs_programs
@needs_strict
class Ends(Trial):
    @by_the_clock
    def test_clients_of_a_killed_server_leave_or_go_on(self, longer):
        a, b = (self.server(name, lease=str(longer), host_lease=longer) for name in "ab")
        plain, (keyed, _) = self.raw(a), self.session(a, 4)
        self.assertEqual(say(plain, "acquire a 1\n"), ["granted a 1"])
        self.assertEqual(say(keyed, "1 acquire b 1\n"), ["1 granted b 1"])
        other = self.raw(b)
        self.assertEqual(say(other, "acquire a 2\n"), ["waiting a 0"])
        begun = time.monotonic()
        self.kill(a)
        again, lines = self.session(b, 4, 1)
        self.assertEqual(lines, ["holds b 1"])
        self.assertEqual(granted_late(other, again), "granted a 2")
        at_least(longer, begun)
        wait_until(lambda: "server a 1 is over at position " in b.text_of_log())
        self.assertEqual(say(again, "2 release b 1\n"), ["2 released b"])
        a = self.server("a", lease=str(longer), host_lease=longer)
        self.hand_over(a)
        self.assertIn("cluster a 3 ", a.operate("cluster"))

    def test_a_server_whose_lease_is_over(self):
        a, b = self.server("a"), self.server("b")
        sock = self.raw(a)
        self.assertEqual(say(sock, "acquire a 1\n"), ["granted a 1"])
        self.log.end_lease("a")
        self.assertEqual(sock.recv(10), b"")
        wait_until(lambda: "cluster a 3 " in a.operate("cluster"))
        a.wait_for_log("out of the log (its lease in etcd is over): all connections end")
        self.hand_over(a)
        self.assertEqual(say(self.raw(b), "try a 1\n"), ["busy a"])  # until the grace is over

    @by_the_clock
    def test_a_stopped_server_tells_nothing_old(self, longer):
        a, b = (self.server(name, lease=str(longer), host_lease=longer) for name in "ab")
        sock, other = self.raw(a), self.raw(b)
        self.assertEqual(say(other, "acquire a 1\n"), ["granted a 1"])
        self.assertEqual(say(sock, "acquire a 1\n"), ["waiting a 0"])
        a.process.send_signal(signal.SIGSTOP)
        self.assertEqual(say(other, "release a 1\n"), ["released a"])
        wait_until(lambda: say(other, "ping\n") == ["pong"] and "server a 1 is over" in b.text_of_log())
        self.assertEqual(say(other, "acquire a 1\n"), ["granted a 3"])
        a.process.send_signal(signal.SIGCONT)
        self.assertEqual(sock.recv(100), b"")
        wait_until(lambda: "its lease in etcd was not renewed in time" in a.text_of_log())
        self.assertEqual(say(self.raw(b), "try a 1\n"), ["busy a"])

    def test_an_end_in_good_order(self):
        a = self.server("a")
        sock = self.raw(a)
        self.assertEqual(say(sock, "acquire a 1\n"), ["granted a 1"])
        sock.sendall(b"release a 1\nacquire b 1\n")
        wait_until(lambda: self.log.texts()[-1].endswith("acquire b 1"))
        a.process.terminate()
        self.assertEqual(a.process.wait(PATIENCE), 0)
        self.assertEqual(read_lines(sock, 3), ["released a", "granted b 1"])
        self.assertEqual(a.text_of_log().splitlines()[-1].split(" ", 1)[1], "stopped stopped")

    def test_the_engine_is_killed(self):
        a, b = self.server("a"), self.server("b")
        self.hand_over(a)
        sock = self.raw(a)
        self.assertEqual(say(sock, "acquire a 1\n"), ["granted a 1"])
        a.kill_engine()
        self.assertEqual(sock.recv(10), b"")
        wait_until(lambda: "cluster a 3 " in a.operate("cluster"))
        self.hand_over(b)
        self.catch_up(a, b)
        wait_until(lambda: a.operate("cluster").split()[3:5] == b.operate("cluster").split()[3:5])

    def test_one_that_others_contradict(self):
        a, b = self.server("a"), self.server("b")
        self.hand_over(a)
        settings = self.log.texts()[0].split("\t")[1]
        self.log.put(f"by x 101 1 2 {'1' * 64}\t{settings}")
        wait_until(lambda: "CONTRADICTION: server x had other answers up to position 2" in a.text_of_log())
        self.hand_over(b)
        self.log.put(f"by y 102 1 3 {'2' * 64}\t{settings}")
        for server in (a, b):
            self.assertEqual(server.process.wait(PATIENCE), 3)
            self.assertIn("two other servers had other answers up to position 3: keep the folder", server.text_of_log())

    def words(self, name, *more):
        folder = os.path.join(self.folder, name)
        return [SERVER, "--engine", ENGINE, "--journal", folder, "--socket", folder + ".sock", "--etcd", self.log.path, "--name", name,
                "--log-program", RELAY, "--locks", "a,b,c", "--faults", *more]

    def files(self, folder):
        """What lies in a folder, but for the locks of the system."""
        found = {}
        for path, _, names in os.walk(folder):
            for name in names:
                if name != "lock":
                    with open(os.path.join(path, name), "rb") as file:
                        found[os.path.join(path, name)] = file.read()
        return found

    def test_a_start_that_fails_changes_no_file(self):
        for name, checkpoint in (("a", "30"), ("b", "100000")):
            log = os.path.join(self.folder, "log")
            server = self.server(name, checkpoint=checkpoint)
            self.hand_over(server, count=40)
            self.catch_up(server)
            server.stop()
            kept = self.files(server.journal)
            for locks in ("b,a,c", "a,b:3,c", "a,b,d"):
                it = subprocess.run([*server.words, "--locks", locks], capture_output=True, text=True, timeout=PATIENCE, check=False)
                self.assertEqual(it.returncode, 78, it.stderr)
                self.assertIn("are the same for all servers; in the log they are `", it.stderr)
                self.assertEqual(self.files(server.journal), kept)
            self.hand_over(self.server(name, checkpoint=checkpoint))
            self.log.replace("double", [])
            self.assertTrue(os.path.exists(log))

    def test_other_settings(self):
        """A server that has other settings than the log changes no file of its folder: so it starts as before with the right ones."""
        self.server("a")
        b = self.server("b")
        self.hand_over(b)
        b.stop()
        RUNNING.remove(b)
        before = self.files(b.journal)
        self.assertIn(os.path.join(b.journal, "journal", "locks"), before)
        for more, here in ((["--checkpoint", "7"], "`3 7 - 1 a:8:8,b:8:8,c:8:8`"), (["--segment", "9"], "`3 100000 9 1 a:8:8,b:8:8,c:8:8`"),
                           (["--locks", "a,c,b"], "`3 100000 - 1 a:8:8,c:8:8,b:8:8`"), (["--locks", "a,b:9,c,d"], "`3 100000 - 1 a:8:8,b:9:9,c:8:8,d:8:8`")):
            with self.subTest(more):
                it = subprocess.run(self.words("b", "--journal", b.journal, *more), capture_output=True, text=True, timeout=PATIENCE)
                self.assertEqual(it.returncode, 78)
                self.assertIn(f"are the same for all servers; in the log they are `3 100000 - 1 a:8:8,b:8:8,c:8:8`, here {here}", it.stderr)
                self.assertEqual(self.files(b.journal), before)
        self.hand_over(self.server("b"))

    def test_a_log_of_the_first_version(self):
        """Its entries have numbers of locks, so no server begins in it; nor with a checkpoint of that version."""
        self.log.put(f"by a 1 1 0 {'0' * 64}\twith 100000 - 1 a:8:8,b:8:8,c:8:8\there 7 u0\t7 1 acquire 0 5")
        it = subprocess.run(self.words("b"), capture_output=True, text=True, timeout=PATIENCE)
        self.assertEqual(it.returncode, 78)
        self.assertIn("the version of entries, --checkpoint, --segment, --faults and --locks are the same for all servers; "
                      "in the log they are `100000 - 1 a:8:8,b:8:8,c:8:8`, here `3 100000 - 1 a:8:8,b:8:8,c:8:8`", it.stderr)
        with open(os.path.join(self.folder, "b", "CHECKPOINT"), "w", encoding="ascii") as file:
            file.write("wozgirt checkpoint 2\n")
        it = subprocess.run(self.words("b"), capture_output=True, text=True, timeout=PATIENCE)
        self.assertEqual((it.returncode, "CHECKPOINT: line 1 is wrong" in it.stderr), (1, True), it.stderr)

    def test_a_folder_is_one_servers(self):
        a = self.server("a")
        it = subprocess.Popen(self.words("b", "--journal", a.journal), stderr=subprocess.PIPE, text=True)
        wait_until(lambda: it.poll() is not None)
        self.assertEqual(it.returncode, 1)
        self.assertIn("another server has this folder", it.communicate()[1])
        self.hand_over(a)
        with Server() as alone:
            it = subprocess.run(self.words("b", "--journal", alone.journal), capture_output=True, text=True, timeout=PATIENCE)
            self.assertEqual(it.returncode, 1)
            self.assertIn("this folder has the journal of a single server", it.stderr)

    def test_no_program_for_the_log(self):
        for program, why in (("/none", "cannot run"), ("false", "keeps ending before it has found the log: exit status: 1")):
            it = subprocess.run([*self.words("b"), "--log-program", program], capture_output=True, text=True, timeout=PATIENCE)
            self.assertEqual(it.returncode, 1)
            self.assertIn(why, it.stderr)


@needs_programs
@needs_strict
class Checkpoints(Trial):
    def compare(self, *folders):
        """The checkpoints and the segments of these hosts are the same, byte for byte: how many segments."""
        names = [sorted(it for it in os.listdir(os.path.join(self.folder, name, "journal", "journal")) if it.endswith(".ring"))
                 for name in folders]
        self.assertEqual(names[0], names[-1])
        for name in folders[1:]:
            first, other = (os.path.join(self.folder, it, "journal") for it in (folders[0], name))
            self.assertTrue(filecmp.cmp(first + "/CHECKPOINT", other + "/CHECKPOINT", shallow=False))
            for segment in names[0]:
                self.assertTrue(filecmp.cmp(f"{first}/journal/{segment}", f"{other}/journal/{segment}", shallow=False), segment)
        return len(names[0])

    def test_kills_and_starts_give_equal_chains(self):
        words = ["--segment", "20"]
        a, b = (self.server(name, *words, checkpoint=30) for name in "ab")
        held, (waiting, _) = self.raw(b), self.session(b, 8)
        self.assertEqual(say(held, "acquire a 7\n"), ["granted a 1"])
        self.assertEqual(say(waiting, "1 acquire a 8\n"), ["1 waiting a 0"])
        for _ in range(3):
            self.hand_over(a, count=25)
            self.kill(a)
            self.hand_over(b, "c", count=20)
            a = self.server("a", *words, checkpoint=30)
        self.hand_over(a)
        self.catch_up(a, b)
        wait_until(lambda: a.operate("cluster").split()[3:6] == b.operate("cluster").split()[3:6])
        self.assertEqual(say(held, "release a 1\n"), ["released a"])
        self.assertEqual(read_lines(waiting, 1), ["granted a 2"])
        self.catch_up(a, b)
        a.stop()
        b.stop()
        self.assertGreater(self.compare("a", "b"), 8)
        self.assertGreater(self.log.needs["a"][0], 50)

    def test_more_locks(self):
        """One server that begins with more locks adds them for all: holds stay, and all hosts have the same files."""
        a, b = (self.server(name, checkpoint=60) for name in "ab")
        (held, _), waiting = self.session(b, 8), self.raw(b)
        self.assertEqual(say(held, "1 acquire a 7\n"), ["1 granted a 1"])
        self.assertEqual(say(waiting, "acquire a 8\nacquire d 1\n", 2), ["waiting a 0", "refused lock d"])
        self.hand_over(a, count=10)
        a.stop()
        a = self.server("a", checkpoint=60, locks="a,b,c,d:3")
        wait_until(lambda: say(waiting, "acquire d 1\ncancel d\n", 2) != ["refused lock d", "refused lock d"])
        wait_until(lambda: "the log has 4 locks, and --locks 3 of them: put them all there: a:8:8,b:8:8,c:8:8,d:3:3"
                   in b.text_of_log())
        with b.raw() as sock:
            self.assertTrue(say(sock, "acquire d 5\n")[0].startswith("granted d "))
            self.assertEqual(say(self.raw(a), "stats d\ntry d 1\n", 2)[1], "busy d")
        self.assertEqual(say(held, "2 release a 1\n"), ["2 released a"])
        self.assertEqual(read_lines(waiting, 1), ["granted a 2"])
        self.kill(b)
        b = self.server("b", checkpoint=60)  # with the list as it was
        c, d = self.server("c", checkpoint=60, locks="a,b,c,d:3,e"), self.server("d", checkpoint=60, locks="a,b")
        servers = [a, b, c, d]
        for server in servers:
            wait_until(lambda: server.operate("stats e").startswith("stats e "))
        self.hand_over(b, "e", count=1)
        late, _ = self.session(c, 9)
        self.assertEqual(say(late, "1 acquire e 7\n"), ["1 granted e 2"])
        self.hand_over(d, "d", count=40)
        d.stop()
        d = servers[3] = self.server("d", checkpoint=60, locks="a,b")
        self.catch_up(*servers)
        self.assertEqual(d.operate("stats e"), c.operate("stats e"))
        self.assertNotEqual(d.operate("stats e").split()[5], "0")
        self.assertNotIn("--locks 5", c.text_of_log())
        # (else the end of its lease, while they stop one after the other, is in the files of some of them)
        self.assertEqual(say(late, "2 release e 2\n"), ["2 released e"])
        late.close()
        self.catch_up(*servers)
        [server.stop() for server in servers]
        self.assertGreater(self.compare("a", "b", "c", "d"), 0)
        with open(a.journal + "/journal/locks", encoding="ascii") as file:
            self.assertEqual(file.read().split()[::3], ["a", "b", "c", "d", "e"])

    def test_a_new_host(self):
        a, b = (self.server(name, checkpoint=30) for name in "ab")
        held = self.raw(a)
        self.assertEqual(say(held, "acquire a 7\n"), ["granted a 1"])
        self.hand_over(a, count=40)
        self.log.begun = 31  # the log does not go back to the beginning
        with self.assertRaises(RuntimeError):
            self.server("c", checkpoint=30)
        os.makedirs(os.path.join(self.folder, "d"))
        shutil.copytree(b.journal, os.path.join(self.folder, "d", "journal"), ignore=shutil.ignore_patterns("lock"))
        d = self.server("d", checkpoint=30)
        self.catch_up(a, b, d)
        self.assertEqual(say(self.raw(d), "try a 1\n"), ["busy a"])
        self.hand_over(d, count=20)
        self.catch_up(a, b, d)
        for server in (a, b, d):
            server.stop()
        self.compare("a", "b", "d")

    def restarted(self, server):
        """What becomes of the server if it is started again: status and log."""
        it = subprocess.run(server.words, capture_output=True, text=True, timeout=PATIENCE)
        return it.returncode, it.stderr

    def test_another_log(self):
        a, b = (self.server(name, checkpoint=30) for name in "ab")
        self.hand_over(a, count=40)
        self.catch_up(a, b)
        a.stop()
        b.stop()
        self.log.identity = "other"
        status, text = self.restarted(a)
        self.assertEqual(status, 4)
        self.assertIn("etcd has another log than this server has read, or an earlier state of it (it has another identity)", text)
        self.log.identity = "double"
        self.log.begun = 1000
        status, text = self.restarted(b)
        self.assertEqual(status, 4)
        self.assertIn("the log does not reach back to this server's checkpoint (it begins with entry 1000): begin again with another server's", text)

    def test_damaged_checkpoints(self):
        a, b, c = (self.server(name, checkpoint=30) for name in "abc")
        held, path = self.raw(a), c.journal + "/CHECKPOINT"
        self.assertEqual(say(held, "acquire a 7\n"), ["granted a 1"])
        self.hand_over(a, count=40)
        self.catch_up(a, b, c)
        c.stop()
        with open(path, encoding="ascii") as file:
            text = file.read()

        def start(damaged):
            with open(path, "w", encoding="ascii") as file:
                file.write(damaged)
            return subprocess.Popen(c.words, stderr=subprocess.PIPE, text=True)

        for damaged, status, why in ((text[:100], 1, "CHECKPOINT: line "), (text.replace("end\n", ""), 1, "CHECKPOINT: line "),
                                     (text.replace("hold a 1 ", "hold a 2 "), 1, "the engine keeps ending before it is ready")):
            it = start(damaged)
            said = it.communicate(timeout=PATIENCE)[1]
            self.assertEqual((it.returncode, why in said), (status, True), said)
        # another client holds the lock: that may be, but is not what the others say
        lines = [line if not line.startswith("hold a 1 ") else "hold a 1 12345" for line in text.split("\n")]
        it = start("\n".join(lines))
        say(held, "release a 1\n")
        for _ in range(3):
            self.hand_over(a, count=3)
            self.hand_over(b, count=3)
        said = it.communicate(timeout=PATIENCE)[1]
        self.assertEqual(it.returncode, 3, said)
        self.assertIn("CONTRADICTION", said)


if __name__ == "__main__":
    unittest.main()
