"""`wozgirt lock` and `wozgirt status` with a server that is just starting, or that is not there."""

import os
import shutil
import socket
import subprocess
import tempfile
import time
import unittest

from harness import (COMMAND, ENGINE, FOLDER, PATIENCE, SERVER, Server, a_port, at_least, needs_loopback, needs_programs, soonest,
                     unless_late)
from test_cluster import Trial, needs_strict
from test_command import close

MISSING = "/nonexistent/lock.sock"


def words(place, *more):
    return [COMMAND, *more], {**os.environ, "WOZGIRT_SOCKET": place}


def run(place, *more, **others):
    line, env = words(place, *more)
    return subprocess.run(line, env=env, capture_output=True, text=True, timeout=PATIENCE, check=False, **others)


def start(place, *more):
    line, env = words(place, *more)
    return subprocess.Popen(line, env=env, stdout=subprocess.PIPE, stderr=subprocess.PIPE, text=True)


@needs_programs
class Starting(unittest.TestCase):
    def setUp(self):
        self.folder = tempfile.mkdtemp(prefix="wozgirt-", dir=FOLDER)
        self.addCleanup(shutil.rmtree, self.folder, ignore_errors=True)
        self.path = os.path.join(self.folder, "lock.sock")

    def begin_both(self, place):
        each = [start(place, "lock", "--server-wait", str(PATIENCE), "a", "--", "echo", "in"),
                start(place, "status", "--server-wait", str(PATIENCE))]
        time.sleep(0.2)
        self.assertEqual([it.poll() for it in each], [None, None])
        return each

    def both_end(self, each):
        said = [it.communicate(timeout=PATIENCE) for it in each]
        self.assertEqual([it.returncode for it in each], [0, 0], said)
        self.assertEqual((said[0][0], said[1][0].split()[0]), ("in\n", "LOCK"))

    def test_nothing_is_there_yet(self):
        each = self.begin_both(self.path)
        with Server(folder=self.folder):
            self.both_end(each)

    def test_nobody_listens_at_the_socket_of_a_server_that_was_killed(self):
        with socket.socket(socket.AF_UNIX) as door:
            door.bind(self.path)
            door.listen()
        each = self.begin_both(self.path)
        with Server(folder=self.folder):
            self.both_end(each)

    def test_a_server_ends_that_has_answered_nothing(self):
        """It has their connections, as one has that is being stopped, and closes them."""
        with socket.socket(socket.AF_UNIX) as door:
            door.bind(self.path)
            door.listen()
            each = self.begin_both(self.path)
        time.sleep(0.2)
        self.assertEqual([it.poll() for it in each], [None, None])
        with Server(folder=self.folder):
            self.both_end(each)

    @needs_loopback
    def test_such_a_one_over_tcp(self):
        with socket.socket() as door:
            door.setsockopt(socket.SOL_SOCKET, socket.SO_REUSEADDR, 1)
            door.bind(("127.0.0.1", 0))
            door.listen()
            place = "127.0.0.1:%d" % door.getsockname()[1]
            each = self.begin_both("tcp:" + place)
        time.sleep(0.2)
        self.assertEqual([it.poll() for it in each], [None, None])
        with Server("--tcp", place):
            self.both_end(each)

    @needs_loopback
    def test_over_tcp(self):
        place = f"127.0.0.1:{a_port(self)}"
        each = self.begin_both("tcp:" + place)
        with Server("--tcp", place):
            self.both_end(each)

    def is_first(self):
        """Whether the one that waits for the lock has it, where others that do not began before."""
        with tempfile.TemporaryDirectory(dir=self.folder) as folder:
            each = [start(os.path.join(folder, "lock.sock"), verb, "--server-wait", str(PATIENCE), "a", "--", "sleep", "1")
                    for verb in ["try"] * 4 + ["lock"]]
            time.sleep(0.2)
            with Server(folder=folder):
                *others, status = [it.wait(PATIENCE) for it in each]
            for it in each:
                close(it)
            self.assertEqual(status, 0)
            return set(others) == {1}

    def test_who_waits_for_the_lock_has_it_before_who_does_not(self):
        """All wait for the server. A machine that does not run one of them for a fifth of a second changes that, but not mostly."""
        times = 0
        while abs(times) < 4:
            times += 1 if self.is_first() else -1
        self.assertGreater(times, 0)

    def paste(self):
        """What is printed of what is pasted into a clean folder, and what is told."""
        with tempfile.TemporaryDirectory(dir=self.folder) as folder:
            os.mkdir(os.path.join(folder, "journal"))
            script = f"""
                '{SERVER}' --engine '{ENGINE}' --journal journal --locks deploy --socket lock.sock --no-sync 2>log &
                export WOZGIRT_SOCKET=lock.sock
                '{COMMAND}' lock deploy -- sh -c 'echo "token $WOZGIRT_TOKEN"'; echo "status $?"
                kill %1
                wait"""
            it = subprocess.run(["bash", "-mc", script], cwd=folder, capture_output=True, text=True, timeout=PATIENCE, check=False)
            return it.stdout, it.stderr

    def test_what_is_pasted_at_once(self):
        """With the five seconds that nobody asked for, if they are enough for the server."""
        printed, told = unless_late(self.paste, lambda it: it[0].endswith("status 69\n"), 5)
        self.assertEqual(printed, "token 1\nstatus 0\n", told)


@needs_programs
@needs_strict
class SeveralStarting(Trial):
    def test_none_is_there_yet(self):
        path = os.path.join(self.folder, "b", "lock.sock")
        it = start(f"{MISSING},{path}", "lock", "--server-wait", str(PATIENCE), "a", "--", "echo", "in")
        time.sleep(0.3)
        self.assertIsNone(it.poll())
        self.server("b")
        self.assertEqual(it.communicate(timeout=PATIENCE), ("in\n", ""))


@needs_programs
class Missing(unittest.TestCase):
    told = f"wozgirt: {MISSING}: No such file or directory (os error 2)\n"

    def ends(self, at_least_seconds, *more, message=told, place=MISSING):
        begun = time.monotonic()
        done = run(place, *more)
        self.assertEqual((done.returncode, done.stdout, done.stderr), (69, "", message))
        at_least(at_least_seconds, begun)
        return time.monotonic() - begun

    def test_it_is_told_after_that_time(self):
        for words in (("lock", "--server-wait", "0", "a", "--", "true"), ("status", "--server-wait", "0")):
            self.assertLess(soonest(lambda words=words: self.ends(0, *words), 4), 4)  # it would be five
        self.ends(0.4, "lock", "--server-wait", "0.4", "a", "--", "true")
        self.ends(0.4, "status", "--server-wait=0.4")
        self.ends(0.4, "lock", "--server-wait", "0.4", "a", "--", "true", place="/nonexistent/x," + MISSING)

    def test_it_is_five_seconds(self):
        it = start(MISSING, "status")
        self.ends(5, "lock", "a", "--", "true")
        self.assertEqual(it.wait(PATIENCE), 69)
        close(it)

    def test_wait_ends_it_too(self):
        """There is no server, which is no lock that another holds."""
        self.ends(0.3, "lock", "--server-wait", str(PATIENCE), "--wait", "0.3", "a", "--", "true")

    def test_other_faults_are_told_at_once(self):
        with tempfile.TemporaryDirectory(dir=FOLDER) as folder:
            file = os.path.join(folder, "file")
            with open(file, "wb"):
                pass
            place = os.path.join(file, "lock.sock")
            self.assertLess(self.ends(0, "lock", "--server-wait", str(PATIENCE), "a", "--", "true", place=place,
                                      message=f"wozgirt: {place}: Not a directory (os error 20)\n"), PATIENCE / 2)

    @unittest.skipUnless(os.getuid() == 0, "who is not root cannot become another user")
    def test_who_may_not_is_told_at_once(self):
        with tempfile.TemporaryDirectory(dir=FOLDER) as folder, Server() as server:
            os.chmod(server.folder, 0o755)  # so that only the socket's own mode keeps it away
            os.chmod(folder, 0o755)
            program = shutil.copy(COMMAND, folder)
            begun = time.monotonic()
            script = f'exec setpriv --reuid=65534 --clear-groups "{program}" lock --server-wait {PATIENCE} --socket "{server.path}" a -- true'
            it = subprocess.run(["sh", "-c", script], capture_output=True, text=True, timeout=PATIENCE, check=False)
            self.assertEqual((it.returncode, it.stderr), (69, f"wozgirt: {server.path}: Permission denied (os error 13)\n"))
            self.assertLess(time.monotonic() - begun, PATIENCE / 2)


if __name__ == "__main__":
    unittest.main()
