"""A server in a folder of its own, with an engine: what the tests in Python share.

WOZGIRT_BIN names the folder of the programs (server/out/release if it does not). WOZGIRT_ENGINE names the engine; if it does not, that
is crates/ring_tool/out/ring_tool, and where that is not built, the double, which `cargo double` makes.

A test waits for what has to come about, for as long as PATIENCE, and takes no time of its own for granted. Where the clock is what
is tried, as with leases, `by_the_clock` tries again with longer times: a machine that is busy is late, and that is no fault."""

import contextlib
import functools
import inspect
import os
import re
import resource
import shutil
import signal
import socket
import subprocess
import sys
import tempfile
import time
import unittest

import journals

TOP = os.path.dirname(os.path.dirname(os.path.dirname(os.path.abspath(__file__))))
BIN = os.environ.get("WOZGIRT_BIN", os.path.join(TOP, "server", "out", "release"))
PROVED = os.path.join(TOP, "crates", "ring_tool", "out", "ring_tool")
DOUBLE = os.path.join(TOP, "server", "out", "double", "release", "engine-double")
ENGINE = os.environ.get("WOZGIRT_ENGINE") or (PROVED if os.access(PROVED, os.X_OK) else DOUBLE)
IS_DOUBLE = os.path.basename(ENGINE) == "engine-double"
COMMAND = os.path.join(BIN, "wozgirt")
SERVER = os.path.join(BIN, "wozgirt-server")
sys.path.insert(0, os.path.join(TOP, "clients", "python"))

# seconds until what does not come about is taken for a fault
PATIENCE = 50
# as many open files as may be: the server wants 1184
_MOST = resource.getrlimit(resource.RLIMIT_NOFILE)[1]
FILES = 1 << 16 if _MOST == resource.RLIM_INFINITY else min(_MOST, 1 << 16)
resource.setrlimit(resource.RLIMIT_NOFILE, (FILES, _MOST))
# the name of a socket has at most 107 bytes
FOLDER = tempfile.gettempdir() if len(tempfile.gettempdir()) < 60 else "/tmp"

IS_BUILT = all(os.access(path, os.X_OK) for path in (SERVER, COMMAND, ENGINE))


def why_not():
    """What keeps a server from being tried here, or nothing."""
    if not IS_BUILT:
        return f"no programs in {BIN}"
    if FILES < 1200:
        return f"only {FILES} files may be open"
    if not os.path.exists("/proc/self/stat"):
        return "there is no /proc"
    try:
        with tempfile.TemporaryDirectory(dir=FOLDER) as folder, socket.socket(socket.AF_UNIX) as door:
            door.bind(os.path.join(folder, "door"))
    except OSError as fault:
        return f"no socket in {FOLDER}: {fault}"
    return None


@functools.lru_cache(maxsize=None)
def takes_any_name():
    """Whether the engine takes `*` at the end of a list of locks: locks of any name."""
    return IS_DOUBLE or "--most-names" in subprocess.run([ENGINE, "locks", "--help"], capture_output=True, text=True, check=False).stdout


def engine_of_any_name():
    """The engine, or its double as long as it takes a list alone."""
    return ENGINE if takes_any_name() or not os.access(DOUBLE, os.X_OK) else DOUBLE


#: why a trial of locks of any name is left out
NO_ANY_NAME = "the engine takes no `*` at the end of a list of locks: its locks has no option --most-names"


needs_programs = unittest.skipIf(why_not() is not None, why_not())


def has_loopback():
    try:
        with socket.socket() as door:
            door.bind(("127.0.0.1", 0))
            door.listen()
            socket.create_connection(door.getsockname(), 5).close()
        return True
    except OSError:
        return False


needs_loopback = unittest.skipUnless(has_loopback(), "127.0.0.1 cannot be reached")


class TooEarly(Exception):
    """Something came before its time, which no busy machine explains."""


#: by how much the times of a test are longer in each of its tries; the last one is tried twice
TIMES = (1, 5, 15)


def by_the_clock(test):
    """The test, which may be a coroutine, is passed a number by which its times are longer: 1, and a greater one if it fails, as on a
    machine that is late. It then begins anew: what it has added to be cleaned up is, and it is set up again. (What fails in a subTest is
    not tried again.)"""
    def begin_anew(self, fault):
        if isinstance(fault, (TooEarly, unittest.SkipTest)):
            raise fault
        self.tearDown()
        self.doCleanups()
        self.setUp()

    @functools.wraps(test)
    def run(self):
        for longer in TIMES:
            try:
                return test(self, longer)
            except Exception as fault:  # pylint: disable=broad-except
                begin_anew(self, fault)
        return test(self, TIMES[-1])

    @functools.wraps(test)
    async def run_coroutine(self):
        for longer in TIMES:
            try:
                return await test(self, longer)
            except Exception as fault:  # pylint: disable=broad-except
                begin_anew(self, fault)
        return await test(self, TIMES[-1])
    return run_coroutine if inspect.iscoroutinefunction(test) else run


#: servers, and groups of processes, that nobody has ended
RUNNING, GROUPS = [], []


def stop_all():
    """Ends what tests started that were given up."""
    for group in GROUPS:
        with contextlib.suppress(ProcessLookupError):
            os.killpg(group, signal.SIGKILL)
    for server in RUNNING:
        server.process.kill()
        server.process.wait()
        if server.is_own:
            remove(server.folder)


#: a server that was just started, and that nobody could end yet; and whether this program is to end as soon as somebody can
STARTING, ENDING = [], []


def unwind_at_sigterm():
    """SIGTERM, by which ./test ends what there is no time for, ends this program as an error does: what it has begun is ended, and its
    folders are removed."""
    def end(*_):
        ENDING.append(signal.SIGTERM)
        if not STARTING:
            sys.exit(128 + signal.SIGTERM)
    signal.signal(signal.SIGTERM, end)


def remove(folder):
    """Removes a folder. An engine whose server was killed ends by itself, and may until then make files in it while others are removed."""
    end = time.monotonic() + PATIENCE
    while os.path.exists(folder):
        shutil.rmtree(folder, ignore_errors=time.monotonic() < end)
        time.sleep(0.001)


@contextlib.contextmanager
def room(name):
    """A folder for a trial. However that ends, the servers that it started end before the folder is removed."""
    unwind_at_sigterm()
    folder = tempfile.mkdtemp(prefix=f"wozgirt-{name}-", dir=FOLDER)
    try:
        yield folder
    finally:
        stop_all()
        remove(folder)


def children(process):
    """The numbers of its children, as far as the system has a list of them, and then those of all processes."""
    with contextlib.suppress(OSError), open(f"/proc/{process}/task/{process}/children", encoding="ascii") as file:
        yield from file.read().split()
    yield from filter(str.isdigit, os.listdir("/proc"))


class Server:
    """A server that runs; a context manager that ends it and removes its folder."""

    def __init__(self, *words, locks="a,b,c", lease="30", folder=None, faults=True, engine=None):
        self.is_own = folder is None
        self.folder = folder or tempfile.mkdtemp(prefix="wozgirt-", dir=FOLDER)
        self.path, self.operators = os.path.join(self.folder, "lock.sock"), os.path.join(self.folder, "operators.sock")
        self.journal, self.log = os.path.join(self.folder, "journal"), os.path.join(self.folder, "log")
        os.makedirs(self.journal, exist_ok=True)
        more = ["--faults"] if faults else []
        self.words = [SERVER, "--engine", engine or ENGINE, "--journal", self.journal, "--locks", locks, "--no-sync", "--socket", self.path,
                      "--operators", self.operators, "--longest-lease", str(lease), *more, *words]
        STARTING.append(self)
        with open(self.log, "ab") as log:
            self.logged = log.seek(0, os.SEEK_END)  # by those that had the folder before
            self.process = subprocess.Popen(self.words, stderr=log)
        RUNNING.append(self)
        STARTING.remove(self)
        if ENDING:
            sys.exit(128 + signal.SIGTERM)
        self.wait_until_it_answers(self.process)

    def wait_until_it_answers(self, process):
        """RuntimeError if it does not."""
        end = time.monotonic() + PATIENCE
        while not self._answers():
            if process.poll() is not None or time.monotonic() > end:
                process.kill()
                process.wait()
                raise RuntimeError("the server does not come up: " + self.text_of_log())
            time.sleep(0.01)

    def _answers(self):
        try:
            with self.raw(operator=True) as sock:
                return say(sock, "ping\n") == ["pong"]
        except OSError:
            return False

    def text_of_log(self):
        with open(self.log, encoding="utf-8", errors="replace") as file:
            return file.read()

    def wait_for_log(self, *texts):
        """Until it has logged these, by a thread of its own that may be late."""
        for text in texts:
            wait_until(lambda text=text: text in self.text_of_log())

    def own_log(self):
        """What this one has logged."""
        with open(self.log, "rb") as file:
            file.seek(self.logged)
            return file.read().decode(errors="replace")

    def raw(self, operator=False):
        sock = socket.socket(socket.AF_UNIX)
        try:
            sock.connect(self.operators if operator else self.path)
        except OSError:
            sock.close()
            raise
        sock.settimeout(PATIENCE)
        return sock

    def operate(self, line, count=1):
        """The first lines that an operator is answered."""
        with self.raw(operator=True) as sock:
            sock.sendall(line.encode() + b"\n")
            return "\n".join(read_lines(sock, count))

    def waiters(self, name):
        return int(self.operate(f"stats {name}").split()[3])

    def wait_for_waiters(self, name, count):
        wait_until(lambda: self.waiters(name) == count)

    def port(self, of):
        """The port that its log names, of `clients` or of the `page`."""
        wait_until(lambda: re.search(rf"{of} at 127\.0\.0\.1:\d+\n", self.own_log()))
        return int(re.search(rf"{of} at 127\.0\.0\.1:(\d+)\n", self.own_log())[1])

    def engine_number(self):
        """The number of the engine's process, or None."""
        for number in children(self.process.pid):
            try:
                with open(f"/proc/{number}/stat", encoding="utf-8", errors="replace") as file:
                    state, parent = file.read().rpartition(")")[2].split()[:2]
                with open(f"/proc/{number}/cmdline", "rb") as file:
                    is_engine = b"\0locks\0" in file.read()
            except OSError:
                continue  # it ended meanwhile
            if int(parent) == self.process.pid and state != "Z" and is_engine:
                return int(number)
        return None

    def kill_engine(self):
        os.kill(self.engine_number(), signal.SIGKILL)

    def calls(self, lock=None):
        """The calls of the journal, or those of one lock, by its number."""
        return [call for call in journals.calls(self.journal) if lock is None or call.split()[0] == str(lock)]

    def stop(self):
        if self.process.poll() is None:
            self.process.terminate()
            self.process.send_signal(signal.SIGCONT)  # a test may have stopped it
            try:
                self.process.wait(PATIENCE)
            except subprocess.TimeoutExpired:
                self.process.kill()
                self.process.wait()

    def __enter__(self):
        return self

    def __exit__(self, *_):
        self.stop()
        RUNNING.remove(self)
        if self.is_own:
            shutil.rmtree(self.folder, ignore_errors=True)


def read_lines(sock, count):
    """So many lines, or fewer if the other end closes."""
    data = b""
    while data.count(b"\n") < count:
        more = sock.recv(65536)
        if not more:
            break
        data += more
    return data.decode().splitlines()


def say(sock, text, count=1):
    sock.sendall(text.encode())
    return read_lines(sock, count)


def granted(sock):
    """The line of the grant, which may come behind `waiting`, or with it."""
    lines = [""]
    while not lines[-1].startswith("granted "):
        lines += read_lines(sock, 1) or [f"granted by nobody: {lines}"]
    return lines[-1]


def a_port(test):
    """A port of 127.0.0.1 that nobody gets by chance until the test, or the class, is over. A server can listen there, again and again."""
    guard = socket.socket()
    (test.addClassCleanup if isinstance(test, type) else test.addCleanup)(guard.close)
    guard.setsockopt(socket.SOL_SOCKET, socket.SO_REUSEADDR, 1)
    guard.bind(("127.0.0.1", 0))
    return guard.getsockname()[1]


def at_least(seconds, begun):
    """TooEarly if less time has passed since."""
    if time.monotonic() - begun < seconds:
        raise TooEarly(f"after {time.monotonic() - begun:.3f} s, not {seconds}")


def soonest(measure, limit, tries=8):
    """The least of what is measured in so many tries; of one that is within the limit no other is made. What a program does too late, it
    does too late in each of them, and what a busy machine does in one may be over by the next."""
    found = measure()
    for _ in range(tries - 1):
        if found <= limit:
            break
        found = min(found, measure())
    return found


def unless_late(do, is_late, tries=20):
    """What comes of it. Where that says that the other end did not answer in time, as on a machine that is busy, it is done again."""
    for _ in range(tries - 1):
        found = do()
        if not is_late(found):
            return found
    return do()


def wait_until(condition, seconds=PATIENCE):
    """Waits for the condition; an AssertionError if it does not come."""
    end = time.monotonic() + seconds
    while not condition():
        if time.monotonic() > end:
            raise AssertionError("it did not come about")
        time.sleep(0.005)
