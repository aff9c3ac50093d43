"""Three hosts on one machine, each in a network namespace: a member of etcd, and a wozgirt-server with its engine and wozgirt-log.

Nothing is signalled that was not started here, and nothing of the machine's network is touched but what is made here: a bridge, and
for each host a namespace and a pair of virtual cables, whose names begin with `wz` and this process's number."""

import os
import shutil
import signal
import subprocess
import sys
import threading
import time

sys.path.insert(0, os.path.dirname(os.path.dirname(os.path.abspath(__file__))))

from etcd_members import ETCD, ETCDCTL, Members  # noqa: E402
from harness import ENGINE, IS_DOUBLE, SERVER, TOP  # noqa: E402

NAMES = "abc"
LOCKS = "l0,l1,l2,l3"
LOG_PROGRAM = os.path.join(TOP, "clients", "python", "wozgirt-log")
# seconds: the lease of a server in etcd, that of a client, and what is held of a server that is gone
HOST_LEASE, LEASE, GRACE = 3, 4, 4


def ip(*words, check=True):
    """Runs `ip`."""
    return subprocess.run(["ip", *words], check=check, capture_output=True, text=True)


def why_not():
    """What keeps three hosts from being tried here, or nothing."""
    if not (ETCD and ETCDCTL):
        return "etcd is not installed (Debian: etcd-server and etcd-client)"
    if not all(os.access(path, os.X_OK) for path in (SERVER, ENGINE)):
        return "the programs are not built"
    if not IS_DOUBLE and "--strict" not in subprocess.run([ENGINE, "locks", "--help"], capture_output=True, text=True, check=False).stdout:
        return "this engine has no --strict"
    if not shutil.which("ip"):
        return "the command ip is not installed"
    name = f"wz{os.getpid()}t"
    made = ip("netns", "add", name, check=False)
    ip("netns", "del", name, check=False)
    return f"no network namespace can be made: {made.stderr.strip()}" if made.returncode else None


class Bed:
    """The hosts. `start` begins them; a context manager that ends and removes all."""

    def __init__(self, folder, checkpoint=3000, locks=LOCKS, more=()):
        self.folder, self.checkpoint, self.locks, self.more = folder, checkpoint, locks, list(more)
        self.id, self.net = f"wz{os.getpid()}", f"10.55.{os.getpid() % 250 + 1}"
        self.servers, self.statuses, self.rested = {}, [], set()
        self.mutex, self.is_over = threading.RLock(), threading.Event()
        os.makedirs(folder, exist_ok=True)
        addresses = {name: (self.ip(name), 2379, 2380) for name in NAMES}
        self.members = Members(folder, NAMES, addresses, wrap=lambda name: ["ip", "netns", "exec", self.space(name)],
                               more=["--heartbeat-interval", "100", "--election-timeout", "1000"])

    def space(self, name):
        """The namespace of a host."""
        return self.id + name

    def ip(self, name):
        """Its address."""
        return f"{self.net}.{NAMES.index(name) + 1}"

    def place(self, name):
        """Where clients find its server."""
        return self.ip(name), 7000

    def places(self, first=0):
        """Those of all servers, beginning with one of them."""
        return [self.place(NAMES[(first + i) % len(NAMES)]) for i in range(len(NAMES))]

    def home(self, name):
        """The folder of its server."""
        return os.path.join(self.folder, f"server.{name}")

    def operators(self, name):
        """The socket of operators."""
        return os.path.join(self.folder, f"{name}.op")

    def __enter__(self):
        # who ends this process by a signal ends the hosts too
        signal.signal(signal.SIGTERM, lambda *_: sys.exit(143))
        try:
            ip("link", "add", self.id, "type", "bridge")
            ip("addr", "add", f"{self.net}.254/24", "dev", self.id)
            ip("link", "set", self.id, "up")
            for name in NAMES:
                ip("netns", "add", self.space(name))
                ip("link", "add", self.space(name) + "v", "type", "veth", "peer", "name", "eth0", "netns", self.space(name))
                ip("link", "set", self.space(name) + "v", "master", self.id, "up")
                ip("-n", self.space(name), "addr", "add", f"{self.ip(name)}/24", "dev", "eth0")
                ip("-n", self.space(name), "link", "set", "eth0", "up")
                ip("-n", self.space(name), "link", "set", "lo", "up")
        except BaseException:
            self.__exit__()
            raise
        return self

    def __exit__(self, *_):
        self.is_over.set()
        with self.mutex:
            for name in NAMES:
                self.end_server(name)
        self.members.kill()
        for name in NAMES:
            ip("netns", "del", self.space(name), check=False)
        ip("link", "del", self.id, check=False)

    def start(self):
        """All of it; returns when the servers hear clients."""
        self.members.start()
        self.members.wait_for_leader()
        for name in NAMES:
            self.start_server(name)
        for work in (self._supervise, self._collect):
            threading.Thread(target=work, daemon=True).start()

    def start_server(self, name):
        """Starts a host's server, also if it ended."""
        os.makedirs(self.home(name), exist_ok=True)
        words = ["ip", "netns", "exec", self.space(name), SERVER, "--engine", ENGINE, "--journal", self.home(name), "--locks", self.locks, "--no-sync",
                 "--socket", os.path.join(self.folder, f"{name}.sock"), "--operators", self.operators(name), "--tcp", "%s:%d" % self.place(name),
                 "--listen-anywhere", "--etcd", self.members.urls(name), "--name", name, "--prefix", "locks", "--host-lease", str(HOST_LEASE),
                 "--checkpoint", str(self.checkpoint), "--log-program", LOG_PROGRAM, "--longest-lease", str(LEASE), "--grace", str(GRACE), *self.more]
        with self.mutex, open(os.path.join(self.folder, f"server.{name}.log"), "ab") as log:
            self.rested.discard(name)
            # a group of its own, so that its children end with it where they would not end by themselves
            self.servers[name] = subprocess.Popen(words, stdin=subprocess.DEVNULL, stdout=log, stderr=log, start_new_session=True)

    def end_server(self, name):
        """As kill -9 of the server, its engine and its wozgirt-log does; it is not started again."""
        with self.mutex:
            self.rested.add(name)
            server = self.servers.get(name)
            if server is None:
                return
            try:
                os.killpg(server.pid, signal.SIGKILL)
            except ProcessLookupError:
                pass  # all of them have ended
            server.wait()

    def _supervise(self):
        """Starts a server that ended again, as systemd does; one that ended since it is wrong, or the log is another one, stays away."""
        while not self.is_over.wait(0.3):
            with self.mutex:
                for name, server in self.servers.items():
                    if name in self.rested or server.poll() is None:
                        continue
                    self.statuses.append((name, server.returncode))
                    self.end_server(name)
                    if server.returncode not in (3, 4):
                        self.start_server(name)

    def children(self, name):
        """The server's processes: `server`, `engine`, `log`, as far as they are there."""
        server = self.servers[name].pid
        found = {"server": server}
        for number in filter(str.isdigit, os.listdir("/proc")):
            try:
                with open(f"/proc/{number}/stat", encoding="utf-8", errors="replace") as file:
                    state, parent = file.read().rpartition(")")[2].split()[:2]
                with open(f"/proc/{number}/cmdline", encoding="utf-8", errors="replace") as file:
                    words = file.read()
            except OSError:
                continue  # it ended meanwhile
            if int(parent) == server and state != "Z":
                found["log" if "wozgirt-log" in words else "engine"] = int(number)
        return found

    def cut(self, one, other, is_cut):
        """Cuts or joins two hosts, both ways; clients reach both."""
        for near, far in ((one, other), (other, one)):
            ip("-n", self.space(near), "route", "add" if is_cut else "del", "blackhole", f"{self.ip(far)}/32", check=False)

    def cable(self, name, is_in):
        """Pulls a host's cable, or puts it in."""
        ip("link", "set", self.space(name) + "v", "up" if is_in else "down")

    def _collect(self):
        """Keeps each checkpoint that is seen, and the segments that are whole by then."""
        kept, last = os.path.join(self.folder, "kept"), {}
        while not self.is_over.wait(0.1):
            for name in NAMES:
                try:
                    text = read(os.path.join(self.home(name), "CHECKPOINT"))
                except OSError:
                    continue  # there is none yet
                if last.get(name) != text:
                    last[name] = text
                    keep(self.home(name), text, os.path.join(kept, name))


def read(path):
    """What is in a file."""
    with open(path, "rb") as file:
        return file.read()


def keep(home, text, kept):
    """Copies a checkpoint and the segments before its last one, which goes on behind it."""
    words = dict(line.split(b" ", 1) for line in text.split(b"\n")[1:3])
    position, segment = int(words[b"log"].split()[1]), int(words[b"segment"])
    os.makedirs(kept, exist_ok=True)
    with open(os.path.join(kept, f"{position}.checkpoint"), "wb") as file:
        file.write(text)
    journal = os.path.join(home, "journal")
    for it in os.listdir(journal) if os.path.isdir(journal) else ():
        number = it.rpartition(".")[0]
        if it.endswith(".ring") and number.isdigit() and int(number) < segment and not os.path.exists(os.path.join(kept, it)):
            try:
                shutil.copy(os.path.join(journal, it), os.path.join(kept, it))
            except OSError:
                pass  # it was removed meanwhile
