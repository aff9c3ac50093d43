"""`wozgirt lock` beside flock(1): each row of the table in its man page is a test here, which runs both where flock(1) of util-linux is
installed, and compares what they do."""

import fcntl
import os
import pty
import re
import resource
import shutil
import signal
import subprocess
import tempfile
import time
import unittest

from harness import COMMAND, FOLDER, PATIENCE, TOP, Server, needs_programs, read_lines, say, wait_until

FLOCK = shutil.which("flock")
if FLOCK and b"util-linux" not in subprocess.run([FLOCK, "--version"], capture_output=True, check=False).stdout:
    FLOCK = None

#: by the first cell of a row, the name of the test
TESTED = {}


def row(title):
    """The test is that of this row."""
    def register(test):
        TESTED[title] = test.__name__
        return test
    return register


def hear_keys():
    """INT and QUIT do what they do by default, in a program that is started: who runs the tests may ignore them."""
    signal.signal(signal.SIGINT, signal.SIG_DFL)
    signal.signal(signal.SIGQUIT, signal.SIG_DFL)


class Lock:
    """One of both commands, over a lock of its own. `words` is what is run with options and a command."""

    def __init__(self, name, target, env):
        self.name, self.target, self.env = name, target, env

    def words(self, options, command):
        return [*([FLOCK] if self.name == "flock" else [COMMAND, "lock"]), *options, self.target, *command]

    def run(self, options, command, **more):
        return subprocess.run(self.words(options, command), env=self.env, capture_output=True, timeout=PATIENCE, check=False, **more)

    def start(self, options, command):
        return subprocess.Popen(self.words(options, command), env=self.env, text=True, preexec_fn=hear_keys,
                                stdin=subprocess.PIPE, stdout=subprocess.PIPE, stderr=subprocess.PIPE)

    def status(self, options, command, **more):
        return self.run(options, command, **more).returncode

    def is_free(self):
        return self.status(["-n"], ["true"]) == 0


class Wozgirt(Lock):
    """Over a server."""

    def __init__(self, server):
        super().__init__("wozgirt", "a", {**os.environ, "WOZGIRT_SOCKET": server.path})
        self.server = server

    def hold(self):
        sock = self.server.raw()
        say(sock, "acquire a 1\n")
        return sock


class Flock(Lock):
    """Over a file."""

    def __init__(self, folder):
        super().__init__("flock", os.path.join(folder, "file"), dict(os.environ))

    def hold(self):
        file = open(self.target, "wb")  # closed by who asked for it
        fcntl.flock(file, fcntl.LOCK_EX)
        return file


def end_process(number):
    """Ends COMMAND, if it runs."""
    try:
        os.kill(number, signal.SIGKILL)
    except ProcessLookupError:
        pass


@needs_programs
class Rows(unittest.TestCase):
    def setUp(self):
        server = Server()
        self.addCleanup(server.__exit__)
        self.folder = tempfile.mkdtemp(prefix="wozgirt-", dir=FOLDER)
        self.addCleanup(shutil.rmtree, self.folder, ignore_errors=True)
        self.wozgirt, self.server = Wozgirt(server), server
        self.each = [self.wozgirt] + ([Flock(self.folder)] if FLOCK else [])

    def both(self, options, command, wanted, **more):
        """Each ends with this status."""
        for it in self.each:
            with self.subTest(program=it.name, options=options):
                self.assertEqual(it.status(options, command, **more), wanted)

    def end(self, it):
        it.kill()
        it.communicate()

    @row("COMMAND ends")
    def test_its_status(self):
        for status in (0, 7, 255):
            self.both([], ["sh", "-c", f"exit {status}"], status)

    @row("a signal ends COMMAND")
    def test_its_signal(self):
        for number in (2, 9, 15):
            self.both([], ["sh", "-c", f"kill -{number} $$"], 128 + number, preexec_fn=hear_keys)

    @row("COMMAND cannot be run")
    def test_not_run(self):
        for command in ("/no/such", "/etc/passwd"):
            self.both([], [command], 69)
        self.assertTrue(self.wozgirt.is_free())

    @row("another holds the lock, with -n or -w 0")
    def test_at_once(self):
        for it in self.each:
            with it.hold():
                for options in (["-n"], ["-w", "0"], ["--nonblock"], ["-w0"]):
                    with self.subTest(program=it.name, options=options):
                        self.assertEqual(it.status(options, ["true"]), 1)
                        self.assertEqual(it.status([*options, "-E", "9"], ["true"]), 9)
            wait_until(it.is_free)

    @row("another holds the lock, with -w SECONDS")
    def test_after_a_time(self):
        for it in self.each:
            with it.hold():
                for options, wanted in ((["-w", "0.3"], 1), (["--wait=0.3", "--conflict-exit-code=9"], 9), (["-w0.3", "-E9"], 9)):
                    with self.subTest(program=it.name, options=options):
                        begun = time.monotonic()
                        self.assertEqual(it.status(options, ["true"]), wanted)
                        self.assertGreaterEqual(time.monotonic() - begun, 0.3)

    @row("several wait for the lock")
    def test_in_order(self):
        """Only of `wozgirt lock`: flock(1) promises no order, so none can be compared."""
        order = os.path.join(self.folder, "order")
        with self.wozgirt.hold():
            each = []
            for number in range(5):
                each.append(self.wozgirt.start([], ["sh", "-c", f"echo {number} >>'{order}'"]))
                self.server.wait_for_waiters("a", number + 1)
        self.assertEqual([it.wait(PATIENCE) for it in each], [0] * 5)
        for it in each:
            self.end(it)
        with open(order, encoding="ascii") as file:
            self.assertEqual(file.read().split(), list("01234"))

    @row("wrong words")
    def test_wrong_words(self):
        for options in (["-w", "x"], ["--nothing"], ["-E", "256"]):
            self.both(options, ["true"], 64)
        for it in self.each:
            self.assertEqual(it.status([], []), 64)
            self.assertEqual(subprocess.run(it.words([], [])[:-1] + ["-w"], capture_output=True, check=False).returncode, 64)

    @row("arguments of COMMAND that are not UTF-8")
    def test_any_bytes(self):
        for it in self.each:
            with self.subTest(program=it.name):
                done = it.run([], ["printf", "%s-%s", b"\xff\xfe", b"a\x80"])
                self.assertEqual((done.returncode, done.stdout, done.stderr), (0, b"\xff\xfe-a\x80", b""))
        path = os.path.join(self.folder.encode(), b"\xff.sock")
        os.symlink(self.server.path, path)
        for words, env in ((["--socket", path], dict(os.environ)), ([], {**os.environ, "WOZGIRT_SOCKET": path})):
            done = subprocess.run([COMMAND, "status", *words], env=env, capture_output=True, timeout=PATIENCE, check=False)
            self.assertEqual((done.returncode, done.stderr), (0, b""))

    @row("what COMMAND has in its environment")
    def test_environment(self):
        found = {}
        for it in self.each:
            found[it.name] = set(it.run([], ["env"]).stdout.decode().split("\n")) - {f"WOZGIRT_SOCKET={self.server.path}", ""}
        ours = {line for line in found["wozgirt"] if line.startswith("WOZGIRT_") and line not in found.get("flock", ())}
        self.assertEqual(ours, {"WOZGIRT_LOCK=a", "WOZGIRT_TOKEN=1"})
        if FLOCK:
            self.assertEqual({line.split("=")[0] for line in found["wozgirt"] - ours}, {line.split("=")[0] for line in found["flock"]})

    @row("the parent ignores SIGCHLD")
    def test_no_sigchld(self):
        for it in self.each:
            with self.subTest(program=it.name):
                begun = time.monotonic()
                done = it.run([], ["sh", "-c", "exit 7"], preexec_fn=lambda: signal.signal(signal.SIGCHLD, signal.SIG_IGN))
                self.assertEqual((done.returncode, done.stderr), (7, b""))
                self.assertLess(time.monotonic() - begun, PATIENCE / 2)
        done = self.wozgirt.run(["--lease", "2"], ["sh", "-c", "exit 7"],
                                preexec_fn=lambda: signal.signal(signal.SIGCHLD, signal.SIG_IGN))
        self.assertEqual((done.returncode, done.stderr), (7, b""))

    @row("the parent ignores HUP, as nohup(1) does")
    def test_no_hangup(self):
        for it in self.each:
            with self.subTest(program=it.name):
                done = it.run([], ["grep", "SigIgn", "/proc/self/status"],
                              preexec_fn=lambda: signal.signal(signal.SIGHUP, signal.SIG_IGN))
                self.assertEqual(int(done.stdout.split()[1], 16) & 1, 1)

    def seen_by_command(self, it, line, prepare):
        """The mask of signals in this line of what the system says of COMMAND, of which SIGPIPE, SIGUSR1 and SIGTERM count."""
        done = it.run([], ["grep", line, "/proc/self/status"], preexec_fn=prepare)
        mask = int(done.stdout.split()[1], 16)
        return [number for number in (signal.SIGPIPE, signal.SIGUSR1, signal.SIGTERM) if mask >> number - 1 & 1]

    @row("the parent ignores PIPE")
    def test_no_pipe(self):
        for it in self.each:
            with self.subTest(program=it.name):
                ignored = self.seen_by_command(it, "SigIgn", lambda: signal.signal(signal.SIGPIPE, signal.SIG_IGN))
                self.assertEqual((ignored, self.seen_by_command(it, "SigIgn", None)), ([signal.SIGPIPE], []))

    @row("the parent blocks signals")
    def test_blocked(self):
        some = {signal.SIGUSR1, signal.SIGTERM}
        for it in self.each:
            with self.subTest(program=it.name):
                blocked = self.seen_by_command(it, "SigBlk", lambda: signal.pthread_sigmask(signal.SIG_BLOCK, some))
                self.assertEqual((blocked, self.seen_by_command(it, "SigBlk", None)), (sorted(some), []))

    @unittest.skipUnless(os.getuid() == 0, "only root can become another user")
    @row("the system has no process to spare")
    def test_no_process(self):
        def become_nobody():
            os.setgroups([])
            os.setgid(65534)
            os.setuid(65534)
            resource.setrlimit(resource.RLIMIT_NPROC, (1, 1))
        os.chmod(self.server.folder, 0o755)
        os.chmod(self.server.path, 0o666)
        os.chmod(self.folder, 0o777)
        program = shutil.copy(COMMAND, self.folder)
        for words in [[program, "lock", "a", "true"]] + ([[FLOCK, os.path.join(self.folder, "other"), "true"]] if FLOCK else []):
            done = subprocess.run(words, env=self.wozgirt.env, capture_output=True, timeout=PATIENCE, check=False, preexec_fn=become_nobody)
            self.assertEqual(done.returncode, 71, (words, done.stderr))
        self.assertTrue(self.wozgirt.is_free())

    @row("as many files open as it may be permitted (ulimit -n)")
    def test_files(self):
        with open(os.path.join(TOP, "docs", "man", "wozgirt.1"), encoding="utf-8") as file:
            cells = re.search(r"^as many files open .*\nT\}\|T\{\nat least (\d+)\nT\}\|T\{\nat least (\d+)\nT\}$", file.read(), re.MULTILINE)
        for it, least in zip(self.each, (int(cells[2]), int(cells[1]))):
            with self.subTest(program=it.name):
                statuses = [it.status([], ["true"], preexec_fn=lambda most=most: resource.setrlimit(resource.RLIMIT_NOFILE, (most, most)))
                            for most in (least - 1, least)]
                self.assertEqual([status == 0 for status in statuses], [False, True])

    def at_a_terminal(self, it, key):
        """The status, and what it printed, if the key is struck while COMMAND runs, which counts what it gets."""
        script = """n=0; trap 'n=$((n+1))' INT QUIT; echo up; i=0; while [ $n = 0 ] && [ $i -lt 900 ]; do sleep 0.05; i=$((i+1)); done
                    sleep 0.3; echo "heard $n"; exit 5"""
        number, terminal = pty.fork()
        if number == 0:
            hear_keys()
            os.execve(it.words([], [])[0], it.words([], ["sh", "-c", script]), it.env)
        said = b""
        while b"up" not in said:
            said += os.read(terminal, 1000)
        os.write(terminal, key)
        try:
            while b"heard" not in said or not said.endswith(b"\n"):
                said += os.read(terminal, 1000)
        except OSError:
            pass  # the last one has closed it
        status = os.waitstatus_to_exitcode(os.waitpid(number, 0)[1])
        os.close(terminal)
        return status, re.findall(rb"heard (\d)", said)

    @row("a key of the terminal sends INT or QUIT")
    def test_a_key(self):
        for key, number in ((b"\x03", signal.SIGINT), (b"\x1c", signal.SIGQUIT)):
            for it in self.each:
                with self.subTest(program=it.name, key=key):
                    status, heard = self.at_a_terminal(it, key)
                    if it.name == "flock":  # what is left of the terminal's session is hung up with it
                        self.assertEqual(status, -number)
                    else:
                        self.assertEqual((status, heard), (5, [b"1"]))

    def command_that_hears(self):
        """One that says its number, then which signal it got, and ends with 5."""
        each = "; ".join(f"trap 'echo {name}; exit 5' {name}" for name in ("INT", "QUIT", "TERM", "HUP"))
        return ["sh", "-c", f"{each}; echo $$; while :; do sleep 0.05; done"]

    @row("kill(1) sends INT, QUIT, TERM or HUP only to it")
    def test_kill(self):
        for it in self.each:
            for name in ("INT", "QUIT", "TERM", "HUP"):
                for options in ([], ["--group"])[:1 if it.name == "flock" else 2]:
                    with self.subTest(program=it.name, signal=name, options=options):
                        running = it.start(options, self.command_that_hears())
                        number = int(running.stdout.readline())
                        try:
                            self.hears(it, running, name)
                        finally:
                            running.kill()
                            end_process(number)
                            self.end(running)
                        wait_until(it.is_free)

    def hears(self, it, running, name):
        """It is sent this signal."""
        number = signal.Signals["SIG" + name]
        running.send_signal(number)
        status = running.wait(PATIENCE)
        if it.name == "flock":
            self.assertEqual(status, -number)
            self.assertFalse(it.is_free())
        else:
            self.assertEqual((status, running.stdout.read()), (5, name + "\n"))

    def killed(self, it, options):
        """Whether the lock is held by COMMAND when it is alone."""
        running = it.start(options, ["sh", "-c", "echo $$; exec sleep 1000"])
        number = int(running.stdout.readline())
        running.kill()
        running.wait()
        try:
            os.kill(number, 0)  # it runs on
            if "-o" in options:
                wait_until(it.is_free)
            return not it.is_free()
        finally:
            os.kill(number, signal.SIGKILL)
            wait_until(it.is_free)
            self.end(running)

    @row("kill(1) sends KILL only to it")
    def test_sigkill(self):
        for it in self.each:
            with self.subTest(program=it.name):
                self.assertTrue(self.killed(it, []))

    @row("kill(1) sends KILL only to it, with -o")
    def test_sigkill_with_close(self):
        for it in self.each:
            with self.subTest(program=it.name):
                self.assertFalse(self.killed(it, ["-o"]))

    def left_behind(self, it, options):
        """Whether a child of COMMAND, which has ended with 3, keeps the lock."""
        child = "sleep 1000 </dev/null >/dev/null 2>&1 &"
        done = it.run(options, ["sh", "-c", f"{child} echo $!; exit 3"])
        self.assertEqual((done.returncode, done.stderr), (3, b""))
        number = int(done.stdout)
        try:
            is_held = not it.is_free()
            if is_held:
                time.sleep(0.2)
                self.assertFalse(it.is_free())
        finally:
            os.kill(number, signal.SIGKILL)
        wait_until(it.is_free)
        return is_held

    @row("children outlive COMMAND")
    def test_children(self):
        for it in self.each:
            with self.subTest(program=it.name):
                self.assertTrue(self.left_behind(it, []))

    @row("children outlive COMMAND, with -o")
    def test_children_with_close(self):
        for it in self.each:
            with self.subTest(program=it.name):
                self.assertFalse(self.left_behind(it, ["-o"]))
        self.assertFalse(self.left_behind(self.wozgirt, ["--command-only"]))

    @row("children outlive COMMAND, with --lease")
    def test_children_with_a_lease(self):
        self.assertFalse(self.left_behind(self.wozgirt, ["--lease", "20"]))

    def help(self, it, output):
        words = [FLOCK if it.name == "flock" else COMMAND, "--help"]
        done = subprocess.run(words, stdout=output, stderr=subprocess.PIPE, text=True, timeout=PATIENCE, check=False)
        return done.returncode, done.stderr

    @row("nobody reads standard output, with --help")
    def test_nobody_reads(self):
        for it in self.each:
            with self.subTest(program=it.name):
                reads, writes = os.pipe()
                os.close(reads)
                self.assertEqual(self.help(it, writes), (-signal.SIGPIPE, ""))
                os.close(writes)

    @unittest.skipUnless(os.path.exists("/dev/full"), "no /dev/full")
    @row("no room for standard output, with --help")
    def test_no_room(self):
        for it in self.each:
            with self.subTest(program=it.name), open("/dev/full", "wb") as full:
                status, errors = self.help(it, full)
                self.assertEqual(status, 1)
                self.assertIn("No space left on device", errors)

    @row("standard output is closed, with --help")
    def test_closed(self):
        for it in self.each:
            with self.subTest(program=it.name):
                words = " ".join([FLOCK if it.name == "flock" else f"'{COMMAND}'", "--help"])
                done = subprocess.run(["sh", "-c", f"exec {words} >&-"], capture_output=True, text=True, timeout=PATIENCE, check=False)
                self.assertEqual((done.returncode, done.stderr), (0, ""))


class Page(unittest.TestCase):
    def test_each_row_has_a_test(self):
        with open(os.path.join(TOP, "docs", "man", "wozgirt.1"), encoding="utf-8") as file:
            table = re.search(r"^\.TS\n(.*)^\.TE$", file.read(), re.MULTILINE | re.DOTALL)[1]
        rows = re.findall(r"^T\{\n(.*)\nT\}\|T\{\n(.*)\nT\}\|T\{\n(.*)\nT\}$", table, re.MULTILINE)
        self.assertEqual(sorted(title for title, _, _ in rows), sorted(TESTED))


if __name__ == "__main__":
    unittest.main()
