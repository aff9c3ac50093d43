"""One host of a cluster under cuts: wozgirt-server with its engine, over the double of the log, which is elsewhere, keeps its power and is
compacted up to each checkpoint. Behind a cut the server comes up, its sessions have what their clients were told, an input without an
answer gets one, and the journal has each grant that was told with its label, and each end of a hold."""

import os
import select
import shutil
import signal
import socket
import subprocess
import time

from .disk import KINDS, TAKEN, Disk, build, contents, moments, records
from .histories import TOP, recovered
from .lending import holds_of
from .lives import Tally

from harness import ENGINE, SERVER  # noqa: E402
from log_double import Log  # noqa: E402

RELAY = os.path.join(TOP, "server", "tests", "log_double.py")
LOCKS, CLIENTS, CHECKPOINT = "abc", 5, 20
HOST_LEASE, SECONDS = 1, 60


class NotThere(Exception):
    """The server has ended, or sends its clients away."""


class Client:
    """A session: what it was told that it holds and waits for, and the input that has no answer."""

    def __init__(self, key):
        self.key, self.number, self.holds, self.waits, self.asked, self.sock = key, 0, {}, None, None, None
        self.granted, self.ended = [], []

    def connect(self, path):
        """Goes on with a server: what is wrong with what it says of the session."""
        self.sock, self.rest = socket.socket(socket.AF_UNIX), b""
        self.sock.settimeout(SECONDS)
        try:
            self.sock.connect(path)
        except OSError:
            raise NotThere from None
        self.say(f"session {self.key}")
        count = int(self.read_line().split(" ")[2])
        there = [self.read_line().split(" ") for _ in range(count)]
        holds = {words[1]: int(words[2]) for words in there if words[0] == "holds"}
        waits = {words[1] for words in there if words[0] == "waits"}
        is_open = self.asked.split(" ")[:2] if self.asked else [None, None]
        wrong = [f"{self.key} held {lock} by {token}, and now {holds}" for lock, token in self.holds.items()
                 if holds.get(lock) != token and is_open != ["release", lock]]
        if self.waits and self.waits not in waits | set(holds) and is_open != ["cancel", self.waits]:
            wrong.append(f"{self.key} waited for {self.waits}, and now {there}")
        for lock in set(holds) - set(self.holds) - {is_open[1]}:
            self.take(lock, holds[lock])
        return wrong

    def close(self):
        if self.sock is not None:
            self.sock.close()

    def take(self, lock, token):
        self.holds[lock] = token
        self.granted.append((lock, token))
        if self.waits == lock:
            self.waits = None

    def say(self, line):
        try:
            self.sock.sendall(line.encode() + b"\n")
        except OSError:
            raise NotThere from None

    def read_line(self):
        while b"\n" not in self.rest:
            try:
                more = self.sock.recv(1 << 16)
            except OSError:
                raise NotThere from None
            if not more:
                raise NotThere
            self.rest += more
        line, _, self.rest = self.rest.partition(b"\n")
        return line.decode()

    def ask(self, draw):
        """Sends an input, or the last one again, if it has no answer."""
        if self.asked is None:
            self.number += 1
            self.asked = self.an_input(draw)
        self.say(f"{self.number} {self.asked}")

    def an_input(self, draw):
        lock = draw.choice(LOCKS)
        if self.waits:
            return f"cancel {self.waits}"
        if self.holds and draw.random() < 0.6:
            lock = draw.choice(sorted(self.holds))
            return f"release {lock} {self.holds[lock]}"
        return f"{draw.choice(('acquire', 'try'))} {lock} {self.key}"

    def hear_all(self):
        """Hears until the input has its answer, and what is there then."""
        while self.asked is not None or b"\n" in self.rest or select.select([self.sock], [], [], 0)[0]:
            self.hear()

    def hear(self):
        words = self.read_line().split(" ")
        is_answer = words[0] == str(self.number)
        what, *rest = words[is_answer:]
        if what == "granted":
            self.take(rest[0], int(rest[1]))
        elif what == "waiting":
            self.waits = rest[0]
        elif what == "cancelled":
            self.waits = None
        elif what == "released":
            self.ended.append((rest[0], self.holds.pop(rest[0])))
        if is_answer:
            self.asked = None


class Server:
    """A wozgirt-server over a folder and a log. Its sockets and what it says lie in a folder beside."""

    def __init__(self, room, folder, log, env):
        self.log, self.folder, self.env, self.process = log, folder, env, None
        name = os.path.join(room, os.path.basename(folder))
        self.socket, self.operators, self.said = f"{name}.sock", f"{name}.operators", f"{name}.said"
        self.words = [SERVER, "--engine", ENGINE, "--journal", folder, "--locks", ",".join(LOCKS), "--longest-lease", "30",
                      "--socket", self.socket, "--operators", self.operators, "--etcd", log.path, "--name", "h",
                      "--log-program", RELAY, "--host-lease", str(HOST_LEASE), "--checkpoint", str(CHECKPOINT), "--segment", "40"]

    def start(self):
        """Starts it. The log may take the one before for alive until its lease is over."""
        for _ in range(100):
            with open(self.said, "w", encoding="utf-8") as said:
                self.process = subprocess.Popen(self.words, stdin=subprocess.DEVNULL, stderr=said, env=self.env, start_new_session=True)
            if self.comes_up():
                return
            if "and is alive" not in self.text():
                raise NotThere
            self.end()
            time.sleep(0.1)

    def text(self):
        with open(self.said, encoding="utf-8", errors="replace") as file:
            return file.read()

    def comes_up(self):
        end = time.monotonic() + SECONDS
        while self.process.poll() is None and time.monotonic() < end:
            try:
                if self.operate("ping") == "pong":
                    return True
            except NotThere:
                time.sleep(0.01)
        return False

    def is_killed(self):
        """Whether it is ended by a kill, or serves on; it may end a moment later than it closes its connections."""
        try:
            return self.process.wait(1) == -signal.SIGKILL
        except subprocess.TimeoutExpired:
            return True

    def operate(self, line):
        with socket.socket(socket.AF_UNIX) as sock:
            sock.settimeout(SECONDS)
            try:
                sock.connect(self.operators)
                sock.sendall(line.encode() + b"\n")
                return sock.recv(1 << 12).decode().rstrip("\n")
            except OSError:
                raise NotThere from None

    def end(self, is_killed=True):
        """Ends it with all that it started, by a kill, or when they have ended by themselves."""
        if self.process is None:
            return
        if not is_killed:
            self.process.terminate()
            self.process.wait(SECONDS)
        try:
            for _ in range(0 if is_killed else 10 * SECONDS):
                os.killpg(self.process.pid, 0)
                time.sleep(0.1)
            os.killpg(self.process.pid, signal.SIGKILL)
        except ProcessLookupError:
            pass  # all have ended
        self.process.wait(SECONDS)

    def judge(self, clients):
        """What is missing in the journal when the engine has done the whole log."""
        end = time.monotonic() + SECONDS
        while self.operate("cluster").split(" ")[3:4] != [str(len(self.log.texts()))]:
            if time.monotonic() > end:
                raise NotThere
            time.sleep(0.01)
        history = recovered(os.path.join(self.folder, "journal"))
        wrong = list(history.wrong)
        for number, lock in enumerate(LOCKS):
            grants, ends = holds_of(history, str(number))
            for client in clients:
                granted, ended = ({token for name, token in its if name == lock} for its in (client.granted, client.ended))
                wrong += [f"{token} of {lock} for {client.key} is missing" for token in granted if grants.get(token) != client.key]
                wrong += [f"the end of {token} of {lock} is missing" for token in ended - ends]
        return wrong


class Host:
    """The server of a folder through all lives, and its clients."""

    def __init__(self, layer, draw, room, each=3):
        self.layer, self.draw, self.room, self.each, self.tally = layer, draw, room, each, Tally()
        self.folder, self.written = os.path.join(room, "live"), os.path.join(room, "log")
        self.clients = [Client(100 + i) for i in range(CLIENTS)]
        self.kind, self.server = "none", None
        os.makedirs(self.folder)

    def run(self, cuts):
        """So many cuts, or until something is wrong."""
        with Log(os.path.join(self.room, "etcd")) as self.log:
            try:
                while self.tally.cuts() < cuts and not self.tally.wrong:
                    self.life()
            finally:
                self.end()
        return self.tally

    def end(self, is_killed=True):
        for client in self.clients:
            client.close()
        if self.server is not None:
            self.server.end(is_killed)

    def moment(self):
        """When the server is killed: in the end, at any record, or at a change of names."""
        return self.draw.choice(({}, {"POWER_KILL": self.draw.randint(1, 200)}, {"POWER_KILL": self.draw.randint(1, 30), "POWER_COUNTS": "crul"}))

    def life(self):
        """The server works until it is killed, the first time until it is stopped, and loses its power."""
        is_first = not self.tally.cuts()
        if os.path.exists(self.written):
            os.remove(self.written)
        env = self.layer.environment(self.folder, self.written, POWER_KILLS=os.path.basename(SERVER), **({} if is_first else self.moment()))
        disk, self.server = Disk(self.folder), Server(self.room, self.folder, self.log, env)
        try:
            self.server.start()
            self.go_on()
            for _ in range(self.draw.randint(1, 25)):
                self.round()
        except NotThere:
            if not self.server.is_killed():
                return self.refuse()
        self.end(not is_first)
        found = records(self.written)
        self.tally.records += len(found)
        self.lose(disk, found)
        if is_first and not self.tally.wrong and disk.whole() != contents(self.folder):
            self.note("the records are not what was done with the folder")
        return None if self.tally.wrong else self.cut(disk)

    def go_on(self):
        """The sessions go on, and what they were told is there."""
        for client in self.clients:
            self.note(*client.connect(self.server.socket))
            if client.asked is not None:
                client.ask(self.draw)
                client.hear_all()
        self.note(*self.server.judge(self.clients))

    def round(self):
        """Some clients ask, and hear their answers."""
        for client in self.draw.sample(self.clients, self.draw.randint(1, len(self.clients))):
            client.ask(self.draw)
        for client in self.clients:
            client.hear_all()

    def note(self, *wrong):
        self.tally.wrong += [f"host, {self.kind}: {it}" for it in wrong]

    def refuse(self):
        """The server does not come up with what was left: it goes on with what was on the disk."""
        self.refused(self.server)
        self.end()
        self.move("kept")

    def refused(self, server):
        self.tally.kinds[self.kind].refused += 1
        if self.kind in TAKEN:
            self.note("the server ends: " + server.text()[-600:])

    def lose(self, disk, found):
        """Cuts at some moments before the end, and goes on to the end of the records, or to the kill."""
        end, at = next((at for at, it in enumerate(found) if it.kind == "k"), len(found)), 0
        for moment in moments(found[:end], self.draw, self.each - 1):
            self.do(disk, found[at:moment])
            at = moment
            if self.tally.wrong:
                return  # what was left stays there
            self.look(disk)
        self.do(disk, found[at:end])

    def do(self, disk, found):
        """Goes on with the disk. Behind each change of a name a checkpoint that is left is whole and has its segment, whatever else is lost."""
        for record in found:
            disk.go_on(record)
            names = disk.with_newest() if record.kind in "rul" else {}
            checkpoint = names.get(os.path.join(self.folder, "CHECKPOINT"))
            if checkpoint and not checkpoint.bytes.endswith(b"end\n"):
                self.note(f"behind {record.names()} CHECKPOINT is left without its text")
            elif checkpoint:
                _, log, segment = checkpoint.bytes.decode().split("\n")[:3]
                position = log.split(" ")[2]
                if segment != "segment 0" and os.path.join(self.folder, f"SEGMENT-{position}") not in names:
                    self.note(f"behind {record.names()} CHECKPOINT is left without SEGMENT-{position}")

    def look(self, disk):
        """A loss of power at an earlier moment: a server comes up with what is left, over a copy of the log."""
        self.leave(disk, ("look",))
        with Log(os.path.join(self.room, f"etcd{self.tally.cuts()}")) as log:
            log.identity, log.entries, log.started = self.log.identity, self.log.texts(), self.log.started
            kept = disk.kept.get(os.path.join(self.folder, "CHECKPOINT"))
            log.begun = int(kept.bytes.split(b"\n")[1].split(b" ")[2]) + 1 if kept and kept.bytes else 1
            server = Server(self.room, os.path.join(self.room, "look"), log, None)
            try:
                server.start()
                self.note(*server.judge(self.clients))
            except NotThere:
                self.refused(server)
            finally:
                server.end()

    def leave(self, disk, rooms):
        """Makes what a loss of power leaves, of a drawn kind."""
        self.kind = self.draw.choice(KINDS)
        for room in rooms:
            shutil.rmtree(os.path.join(self.room, room), ignore_errors=True)
            build(disk.left("none" if room == "kept" else self.kind, self.draw), self.folder, os.path.join(self.room, room))
        self.tally.kinds[self.kind].cuts += 1
        self.tally.open += disk.is_open()
        self.tally.told += sum(len(it.granted) + len(it.ended) for it in self.clients)

    def cut(self, disk):
        """A loss of power, of which the next life begins."""
        self.leave(disk, ("left", "kept"))
        self.move("left")
        if "h" in self.log.needs:
            self.log.begun = self.log.needs["h"][0] + 1

    def move(self, room):
        shutil.rmtree(self.folder)
        shutil.copytree(os.path.join(self.room, room), self.folder)
