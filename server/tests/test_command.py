"""The command `wozgirt` with a server."""

import contextlib
import functools
import os
import resource
import shutil
import signal
import subprocess
import tempfile
import time
import unittest

from harness import FOLDER, PATIENCE, COMMAND, Server, by_the_clock, granted, needs_loopback, needs_programs, read_lines, say, wait_until


def run(server, *words, **more):
    return subprocess.run([COMMAND, *words], capture_output=True, text=True, timeout=PATIENCE,
                          env=dict(os.environ, WOZGIRT_SOCKET=server.path), **more)


def start(server, *words, **more):
    return subprocess.Popen([COMMAND, *words], text=True, env=dict(os.environ, WOZGIRT_SOCKET=server.path),
                            **{"stdout": subprocess.PIPE, "stderr": subprocess.PIPE, **more})


def kick_all(server):
    """An operator ends all clients with what they hold."""
    lines = server.operate("clients").split("\n")[0]
    for line in server.operate("clients", 1 + int(lines.split()[1])).split("\n")[1:]:
        if line.split()[3] != "-":
            server.operate(f"kick {line.split()[1]}")


def close(process):
    process.stdout.close()
    process.stderr.close()


def end_process(number):
    with contextlib.suppress(ProcessLookupError):
        os.kill(number, signal.SIGKILL)


@needs_programs
class LockCommand(unittest.TestCase):
    def test_statuses(self):
        with Server() as server:
            done = run(server, "lock", "a", "--", "sh", "-c", "echo $WOZGIRT_LOCK $WOZGIRT_TOKEN; exit 7")
            self.assertEqual((done.returncode, done.stdout), (7, "a 1\n"))
            self.assertEqual(run(server, "lock", "a", "true").returncode, 0)
            self.assertEqual(run(server, "lock", "a", "--", "sh", "-c", "kill -9 $$").returncode, 137)
            self.assertEqual(run(server, "lock", "a", "--", "/no/such").returncode, 69)
            self.assertEqual(run(server, "lock", "a").returncode, 64)
            self.assertEqual(run(server, "lock", "--wait", "x", "a", "--", "true").returncode, 64)
            refused = run(server, "lock", "nothing", "--", "true")
            self.assertEqual((refused.returncode, refused.stderr), (76, "wozgirt: refused: lock nothing\n"))
            with server.raw() as sock:
                say(sock, "acquire a 1\n")
                self.assertEqual(run(server, "lock", "--no-wait", "a", "--", "true").returncode, 1)
                self.assertEqual(run(server, "try", "a", "--", "true").returncode, 1)
                self.assertEqual(run(server, "lock", "-E", "9", "-w", "0.1", "a", "--", "true").returncode, 9)
                server.wait_for_waiters("a", 0)
            self.assertEqual(run(server, "lock", "-w", str(PATIENCE), "a", "--", "true").returncode, 0)
            server.stop()
            self.assertEqual(run(server, "lock", "--server-wait", "0", "a", "--", "true").returncode, 69)

    def test_a_name_is_one_word_of_a_line(self):
        with Server() as server:
            for name in ("a 1\nacquire b 5\nping", "a b", "a\n", "", "\x7f", "é", b"\xff"):
                with self.subTest(name=name):
                    done = run(server, "lock", name, "--", "true")
                    self.assertEqual((done.returncode, done.stdout), (64, ""))
                    self.assertIn("wozgirt: no lock can be named `", done.stderr)
            self.assertEqual(server.calls(), [])

    def test_it_waits_and_the_journal_has_the_label(self):
        with Server() as server, server.raw() as sock:
            say(sock, "acquire a 1\n")
            it = start(server, "lock", "--label", "4711", "a", "--", "echo", "in")
            server.wait_for_waiters("a", 1)
            say(sock, "release a 1\n")
            self.assertEqual(it.wait(PATIENCE), 0)
            self.assertEqual(it.stdout.read(), "in\n")
            close(it)
            server.stop()
            self.assertEqual(server.calls()[2].split()[:5], ["0", "p", "0", "1", "4711"])
            self.assertEqual(server.calls()[3].split()[:3], ["0", "s", "1"])  # released, not left

    def test_killed_while_the_command_runs(self):
        with Server() as server, server.raw() as sock:
            it = start(server, "lock", "a", "--", "sh", "-c", "echo up; read line", stdin=subprocess.PIPE)
            it.stdout.readline()
            it.kill()
            it.wait()
            self.assertEqual(say(sock, "try a 1\n"), ["busy a"])  # the command lives, and so does its hold
            self.assertEqual(say(sock, "acquire a 1\n"), ["waiting a 0"])
            it.stdin.close()  # the command ends
            self.assertEqual(read_lines(sock, 1), ["granted a 2"])
            close(it)

    def test_killed_with_close(self):
        with Server() as server, server.raw() as sock:
            it = start(server, "lock", "-o", "a", "--", "sh", "-c", "echo $$; exec sleep 30")
            command = int(it.stdout.readline())
            it.kill()
            it.wait()
            sock.sendall(b"acquire a 1\n")
            self.assertEqual(granted(sock), "granted a 2")
            os.kill(command, signal.SIGKILL)
            close(it)

    def test_killed_while_it_waits(self):
        with Server() as server, server.raw() as sock:
            say(sock, "acquire a 1\n")
            it = start(server, "lock", "a", "--", "true")
            server.wait_for_waiters("a", 1)
            it.terminate()
            self.assertEqual(it.wait(PATIENCE), -signal.SIGTERM)
            server.wait_for_waiters("a", 0)
            close(it)

    def test_signals_are_passed_on(self):
        with Server() as server:
            it = start(server, "lock", "a", "--", "sh", "-c", "trap 'echo heard; exit 3' TERM; echo up; while :; do sleep 0.05; done")
            self.assertEqual(it.stdout.readline(), "up\n")
            it.terminate()
            self.assertEqual(it.wait(PATIENCE), 3)
            self.assertEqual(it.stdout.read(), "heard\n")
            close(it)

    def lose(self, server, it):
        self.assertEqual(it.stdout.readline(), "up\n")
        begun = time.monotonic()
        kick_all(server)
        self.assertEqual(it.wait(PATIENCE), 75)
        self.assertIn("the lock is lost", it.stderr.read())
        close(it)
        return time.monotonic() - begun

    @by_the_clock  # what it says of the loss has a tenth of a second, in which a thread may stand still
    def test_a_lost_lock_ends_the_command(self, _):
        with Server() as server:
            self.lose(server, start(server, "lock", "a", "--", "sh", "-c", "echo up; exec sleep 1000"))

    def test_a_lost_lock_ends_the_command_whatever_becomes_of_the_message(self):
        with open("/dev/full", "wb") as full, Server() as server:
            reads, writes = os.pipe()
            os.set_blocking(writes, False)
            try:
                while os.write(writes, bytes(1 << 16)):
                    pass
            except BlockingIOError:
                os.set_blocking(writes, True)
            for name, errors in (("a", full), ("b", writes)):
                script = "echo up $$; exec sleep 1000 2>/dev/null"
                it = start(server, "lock", name, "--", "sh", "-c", script, stderr=errors)
                command = int(it.stdout.readline().split()[1])
                kick_all(server)
                self.assertEqual(it.wait(PATIENCE), 75)
                self.assertRaises(ProcessLookupError, os.kill, command, 0)
                it.stdout.close()
            os.close(reads)
            os.close(writes)

    @by_the_clock
    def test_a_command_that_does_not_end_is_killed(self, _):
        with Server() as server:
            words = ("sh", "-c", "trap '' TERM; echo up; while :; do sleep 0.05; done")
            took = self.lose(server, start(server, "lock", "--kill-after", "0.5", "a", "--", *words))
            self.assertGreaterEqual(took, 0.5)

    def test_a_group_ends_as_one(self):
        with Server() as server:
            it = start(server, "lock", "--group", "a", "--", "sh", "-c", "sleep 1000 & echo up $!; wait")
            sleeper = int(it.stdout.readline().split()[1])
            self.addCleanup(end_process, sleeper)
            kick_all(server)
            self.assertEqual(it.wait(PATIENCE), 75)
            wait_until(lambda: not os.path.exists(f"/proc/{sleeper}"))
            close(it)

    @by_the_clock
    def test_a_lease_is_kept_and_lost_before_it_ends(self, longer):
        with Server(lease=30 * longer) as server:
            lease = 0.8 * longer
            it = start(server, "lock", "--lease", str(lease), "a", "--", "sh", "-c", "echo up; exec sleep 1000")
            self.assertEqual(it.stdout.readline(), "up\n")
            time.sleep(1.5 * lease)
            self.assertIsNone(it.poll())
            begun = time.monotonic()
            server.process.send_signal(signal.SIGSTOP)  # as if no line got through
            self.assertEqual(it.wait(PATIENCE), 75)
            self.assertLess(time.monotonic() - begun, lease)
            server.process.send_signal(signal.SIGCONT)
            close(it)

    @by_the_clock
    def test_a_stopped_server_is_noticed_while_waiting(self, longer):
        with Server() as server, server.raw() as sock:
            say(sock, "acquire a 1\n")
            it = start(server, "lock", "--lease", str(0.8 * longer), "a", "--", "true")
            server.wait_for_waiters("a", 1)
            server.process.send_signal(signal.SIGSTOP)
            self.assertEqual(it.wait(PATIENCE), 69)
            server.process.send_signal(signal.SIGCONT)
            close(it)

    @needs_loopback
    def test_over_tcp(self):
        with Server("--tcp", "127.0.0.1:0") as server:
            place = f"tcp:127.0.0.1:{server.port('clients')}"
            done = run(server, "lock", "--socket", place, "a", "--", "sh", "-c", "echo $WOZGIRT_TOKEN")
            self.assertEqual((done.returncode, done.stdout), (0, "1\n"))


@needs_programs
class Looks(unittest.TestCase):
    def test_status(self):
        with Server(locks="a,b") as server, server.raw() as one, server.raw() as two:
            say(one, "acquire b 77\n")
            say(two, "acquire b 78\n")
            rows = [line.split() for line in run(server, "status").stdout.splitlines()]
            self.assertEqual(rows[0][:3], ["LOCK", "STATE", "CLIENT"])
            self.assertEqual(rows[1], ["a", "free", "-", "-", "-", "-", "0", "0", "0", "ms"])
            self.assertEqual((rows[2][:2], rows[2][3:5], rows[2][-4]), (["b", "held"], ["77", "1"], "1"))

    def test_watch(self):
        with Server() as server:
            it = start(server, "watch", "--every", "0.05")
            heads = [line for line in (it.stdout.readline() for _ in range(12)) if line.startswith("LOCK")]
            self.assertEqual(len(heads), 3)
            it.terminate()
            it.wait(PATIENCE)
            close(it)

    @unittest.skipUnless(os.path.exists("/dev/full"), "no /dev/full")
    def test_there_is_no_room_for_what_is_printed(self):
        with Server() as server:
            for words in (("status",), ("watch",), ("bench", "1", "1", "0.01"), ("--version",), ("admin", "--operators", server.operators, "clients")):
                with self.subTest(words=words), open("/dev/full", "wb") as full:
                    it = start(server, *words, stdout=full)
                    self.assertEqual((it.wait(PATIENCE), it.stderr.read()),
                                     (1, "wozgirt: standard output: No space left on device (os error 28)\n"))
                    it.stderr.close()

    def test_nobody_reads_what_is_printed(self):
        with Server() as server:
            for words in (("status",), ("watch",), ("--version",), ("admin", "--operators", server.operators, "clients")):
                with self.subTest(words=words):
                    reads, writes = os.pipe()
                    os.close(reads)
                    it = start(server, *words, stdout=writes)
                    os.close(writes)
                    self.assertEqual((it.wait(PATIENCE), it.stderr.read()), (-signal.SIGPIPE, ""))
                    it.stderr.close()

    def test_bench(self):
        with Server() as server:
            done = run(server, "bench", "4", "2", "0.2")
            self.assertRegex(done.stdout, r"^clients 4 locks 2 seconds \d+\.\d+ handovers/s \d+ acquire p50 .* ratio \d+\.\d+\n$")
            self.assertEqual(run(server, "bench", "1", "9", "0.1").stderr, "wozgirt: the server has 3 locks\n")

    @unittest.skipUnless(os.getuid() == 0, "only root can be another user, and is not limited itself")
    def test_bench_may_have_too_few_threads(self):
        """It says so, and ends."""
        few = functools.partial(resource.setrlimit, resource.RLIMIT_NPROC, (20, 20))
        with Server("--mode", "666") as server, tempfile.TemporaryDirectory(dir=FOLDER) as folder:
            for path in (server.folder, folder):
                os.chmod(path, 0o755)
            words = [shutil.copy(COMMAND, folder), "bench", "--socket", server.path, "100", "1", "0.1"]
            try:
                done = subprocess.run(words, user=65534, group=65534, extra_groups=[], preexec_fn=few, capture_output=True, text=True,
                                      timeout=PATIENCE, check=False)
            except OSError as fault:
                self.skipTest(f"this root cannot be another user: {fault}")
            self.assertEqual((done.returncode, done.stdout), (1, ""))
            self.assertEqual(done.stderr, "wozgirt: Resource temporarily unavailable (os error 11)\n")

    def test_help_and_version(self):
        with Server() as server:
            self.assertIn("wozgirt lock NAME", run(server, "--help").stdout)
            self.assertRegex(run(server, "--version").stdout, r"^wozgirt \d+\.\d+\.\d+\n$")


if __name__ == "__main__":
    unittest.main()
