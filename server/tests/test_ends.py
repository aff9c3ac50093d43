"""How the server ends, and what it leaves to others: it ends in time whoever reads its log, and touches no socket but its own."""

import contextlib
import fcntl
import os
import re
import resource
import shutil
import signal
import socket
import subprocess
import tempfile
import time
import unittest
import urllib.request

from harness import (FILES, FOLDER, PATIENCE, SERVER, Server, by_the_clock, needs_loopback, needs_programs, read_lines, say, unless_late,
                     wait_until)

# seconds in which the server has ended, on a machine that is busy: 10 for what was asked, and more for what stands still
LIMIT = 10 + PATIENCE

# the greatest number of 64 bits
MOST = (1 << 64) - 1


def a_folder():
    return tempfile.TemporaryDirectory(dir=FOLDER)


class FullPipe:
    """The end of a pipe that takes nothing more."""

    def __enter__(self):
        self.reader, self.writer = os.pipe()
        fcntl.fcntl(self.writer, fcntl.F_SETFL, os.O_NONBLOCK)
        try:
            while True:
                os.write(self.writer, b"x" * 4096)
        except BlockingIOError:
            pass
        fcntl.fcntl(self.writer, fcntl.F_SETFL, 0)
        return self.writer

    def __exit__(self, *_):
        os.close(self.reader)
        os.close(self.writer)


def words_in(server, folder):
    """The words of a second server, with a folder of its own but the socket of the first one."""
    os.makedirs(folder + "/journal", exist_ok=True)
    words = [word.replace(server.journal, folder + "/journal") for word in server.words]
    return [word.replace(server.operators, folder + "/operators.sock") for word in words]


@needs_programs
class InTime(unittest.TestCase):
    def test_nobody_reads_the_log(self):
        with Server() as server, FullPipe() as full:
            server.stop()
            process = subprocess.Popen(server.words, stderr=full)
            server.wait_until_it_answers(process)
            process.terminate()
            try:
                self.assertEqual(process.wait(LIMIT), 0)
            finally:
                process.kill()
                process.wait()

    def test_nobody_reads_why_it_cannot_serve(self):
        with a_folder() as folder, FullPipe() as full:
            words = [SERVER, "--engine", "false", "--journal", folder, "--locks", "a", "--socket", folder + "/s"]
            process = subprocess.Popen(words, stderr=full)
            try:
                self.assertEqual(process.wait(LIMIT), 1)
            finally:
                process.kill()
                process.wait()

    def test_an_engine_that_stands_still(self):
        with Server() as server, server.raw() as sock:
            engine = server.engine_number()
            os.kill(engine, signal.SIGSTOP)
            sock.sendall(b"acquire a 1\n")
            server.process.terminate()
            self.assertEqual(server.process.wait(LIMIT), 0)
            with contextlib.suppress(ConnectionResetError):  # it may not have read the line
                self.assertEqual(sock.recv(10), b"")

    def test_a_key_of_the_terminal_ends_the_server_alone(self):
        with Server() as server:
            server.stop()
            process = subprocess.Popen(server.words, stderr=subprocess.DEVNULL, start_new_session=True)
            server.wait_until_it_answers(process)
            server.process = process
            engine = server.engine_number()
            with server.raw() as sock:
                say(sock, "try b 1\n")  # its place is taken
                os.kill(engine, signal.SIGSTOP)
                sock.sendall(b"acquire a 1\n")
                self.assertEqual(server.operate("ping"), "pong")  # the line is with the engine
                os.killpg(process.pid, signal.SIGINT)
                time.sleep(0.3)
                os.kill(engine, signal.SIGCONT)
                self.assertEqual(read_lines(sock, 9), ["granted a 1"])
            self.assertEqual(process.wait(PATIENCE), 0)


@needs_programs
class Hangs(unittest.TestCase):
    """An engine that stands still is seen, and in the end another one is started."""

    @needs_loopback
    def test_it_is_shown_and_logged(self):
        with Server("--page", "127.0.0.1:0") as server:
            port, engine = server.port("page"), server.engine_number()

            def shown(target):
                with urllib.request.urlopen(f"http://127.0.0.1:{port}{target}", timeout=PATIENCE) as answer:
                    return answer.read().decode()

            self.assertIn("\nwozgirt_engine_up 1\n", shown("/metrics"))
            os.kill(engine, signal.SIGSTOP)
            with server.raw() as sock:
                sock.sendall(b"acquire a 1\n")
                wait_until(lambda: re.search(r"engine has not answered for ([2-9]|\d\d+)\.", server.text_of_log()))
                self.assertIn("\nwozgirt_engine_up 0\n", shown("/metrics"))
                age = float(shown("/metrics").split("\nwozgirt_engine_oldest_question_seconds ")[1].split("\n")[0])
                self.assertGreater(age, 2)
                waiting = int(shown("/metrics").split("\nwozgirt_engine_lines_waiting ")[1].split("\n")[0])
                self.assertGreaterEqual(waiting, 1)
                self.assertRegex(shown("/"), "The engine <span class=.down.>has not answered for ")
                os.kill(engine, signal.SIGCONT)
                self.assertEqual(read_lines(sock, 1), ["granted a 1"])
            wait_until(lambda: "engine answers again, after " in server.text_of_log())
            self.assertIn("\nwozgirt_engine_up 1\n", shown("/metrics"))

    @by_the_clock
    def test_it_is_ended_in_the_end(self, longer):
        with Server("--engine-patience", str(1.5 * longer), lease="1") as server, server.raw() as sock:
            first = server.engine_number()
            os.kill(first, signal.SIGSTOP)
            self.assertEqual(sock.recv(10), b"")  # what it held is the past of that engine
            wait_until(lambda: server.text_of_log().count("engine ready") == 2)
            wait_until(lambda: server.engine_number() not in (None, first))
            server.wait_for_log(" s, and is ended\n")
            with server.raw() as sock:
                self.assertEqual(say(sock, "acquire a 1\n"), ["granted a 1"])

    @by_the_clock
    def test_it_is_ended_also_when_an_operator_has_asked_it_last(self, longer):
        """Where the server asks nothing more of it, since it has not answered the operator."""
        with Server("--engine-patience", str(1.5 * longer)) as server:
            with server.raw() as sock:
                say(sock, "acquire a 1\n")
                server.kill_engine()
                self.assertEqual(sock.recv(10), b"")
            wait_until(lambda: server.text_of_log().count("engine ready") == 2)
            second = server.engine_number()
            os.kill(second, signal.SIGSTOP)
            with server.raw(True) as operator:
                operator.sendall(b"end a 1\n")
                server.wait_for_log(" s, and is ended\n")
                wait_until(lambda: server.text_of_log().count("engine ready") == 3)
                self.assertEqual(operator.recv(10), b"")

    def test_it_is_started_where_no_file_is_to_spare(self):
        """The server may have no more files open than it has when the engine ends, and its clients with it."""
        with Server() as server:
            with server.raw() as sock:
                say(sock, "session 7\n1 acquire a 1\n", 2)
            wait_until(lambda: " away, " in server.operate("clients", 3))
            files = sorted(int(file) for file in os.listdir(f"/proc/{server.process.pid}/fd"))
            resource.prlimit(server.process.pid, resource.RLIMIT_NOFILE, (files[-1] + 1, FILES))
            server.kill_engine()
            wait_until(lambda: server.text_of_log().count("engine ready") == 2 or server.process.poll() is not None)
            self.assertIsNone(server.process.poll(), server.text_of_log())
            resource.prlimit(server.process.pid, resource.RLIMIT_NOFILE, (FILES, FILES))
            with server.raw() as sock:
                self.assertEqual(say(sock, "session 7\n", 2)[1:], ["holds a 1"])

    @by_the_clock
    def test_a_server_that_stood_still_itself_ends_no_engine(self, longer):
        patience = 1.2 * min(longer, 5)
        with Server("--engine-patience", str(patience)) as server:
            for _ in range(3):
                server.process.send_signal(signal.SIGSTOP)
                time.sleep(patience + 0.8)
                server.process.send_signal(signal.SIGCONT)
                self.assertEqual(server.operate("ping"), "pong")
            self.assertEqual(server.text_of_log().count("engine started"), 1)


@needs_programs
class Sockets(unittest.TestCase):
    def test_a_name_that_another_server_has_now_stays(self):
        with Server() as first, a_folder() as folder:
            os.remove(first.path)
            second = subprocess.Popen(words_in(first, folder), stderr=subprocess.DEVNULL)
            while not os.path.exists(first.path):
                self.assertIsNone(second.poll())
                time.sleep(0.01)
            first.stop()
            with first.raw() as sock:
                self.assertEqual(say(sock, "ping\n"), ["pong"])
            second.terminate()
            self.assertEqual(second.wait(PATIENCE), 0)
            self.assertFalse(os.path.exists(first.path))

    @unittest.skipUnless(os.getuid() == 0, "only root can be another user")
    def test_a_socket_of_another_user_is_not_replaced(self):
        with Server() as server, a_folder() as folder:
            words = words_in(server, folder)
            for path in (server.folder, folder, folder + "/journal"):
                os.chmod(path, 0o777)
            before = os.stat(server.path).st_ino
            try:
                second = subprocess.Popen(words, user=65534, group=65534, extra_groups=[], stderr=subprocess.PIPE, text=True)
            except OSError as fault:
                self.skipTest(f"this root cannot be another user: {fault}")
            try:
                self.assertIn("ermission denied", second.communicate(timeout=LIMIT)[1])
            finally:
                second.kill()
                second.communicate()
            self.assertEqual(os.stat(server.path).st_ino, before)

    def test_a_server_that_takes_no_connection(self):
        with Server() as server, a_folder() as folder:
            server.process.send_signal(signal.SIGSTOP)
            socks = []
            try:
                while len(socks) < 10000:
                    socks.append(socket.socket(socket.AF_UNIX))
                    socks[-1].setblocking(False)
                    socks[-1].connect(server.path)
            except BlockingIOError:
                pass
            second = subprocess.Popen(words_in(server, folder), stderr=subprocess.PIPE, text=True)
            try:
                self.assertIn("another process listens there, and takes no connection", second.communicate(timeout=LIMIT)[1])
                self.assertEqual(second.returncode, 1)
            finally:
                second.kill()
                second.communicate()
                [sock.close() for sock in socks]


@needs_programs
class Files(unittest.TestCase):
    def test_nobody_else_can_write_them(self):
        """Whatever umask the server was started with, also those that the engine makes."""
        with Server() as server:
            server.stop()
            shutil.rmtree(server.journal)
            os.mkdir(server.journal)
            server.process = subprocess.Popen(server.words, stderr=subprocess.DEVNULL, umask=0)
            server.wait_until_it_answers(server.process)
            with server.raw() as sock:
                self.assertEqual(say(sock, "acquire a 1\n"), ["granted a 1"])
            files = [os.path.join(server.journal, name) for name in os.listdir(server.journal)]
            self.assertGreater(len(files), 1)
            for path in [*files, server.path, server.operators]:
                self.assertEqual(os.stat(path).st_mode & 0o022, 0, path)


@needs_programs
class Words(unittest.TestCase):
    def refused(self, *words):
        words = [SERVER, "--journal", "/nonexistent", "--locks", "a", *words]
        # it gives what it says a second, in which a thread may stand still
        it = unless_late(lambda: subprocess.run(words, capture_output=True, timeout=PATIENCE, check=False), lambda it: not it.stderr, 5)
        self.assertEqual(it.returncode, 64, it.stderr)
        return it.stderr.decode()

    def test_counts_that_are_too_great(self):
        for count in ("18446744073709551615", "18446744073709551616", "1000001", "0"):
            self.assertIn(f"--connections: bad value `{count}`", self.refused("--connections", count))

    def test_numbers_that_are_none(self):
        """A number that is too great is refused, or is as good as none; it never becomes a small one."""
        for word in ("--memory", "--keep-segments", "--mode", "--engine-patience", "--longest-lease", "--grace", "--deaf"):
            for number in ("18446744073709551615", "18446744073709551616", "-1", "1x", "", "nan", "inf"):
                self.assertIn(f"{word}: bad value `{number}`", self.refused(word, number))
        for word in ("--waiters", "--segment"):
            for number in ("18446744073709551616", "-1", "1x", ""):
                self.assertIn(f"{word}: bad value `{number}`", self.refused(word, number))
        with Server("--waiters", str(MOST)) as server, server.raw() as holder, server.raw() as waiter:
            self.assertEqual([say(holder, "acquire a 1\n"), say(waiter, "acquire a 1\n")], [["granted a 1"], ["waiting a 0"]])

    def test_what_is_no_text(self):
        self.assertIn("is not text in UTF-8", self.refused(b"--socket", b"/tmp/\xff"))


if __name__ == "__main__":
    unittest.main()
