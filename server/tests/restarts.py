#!/usr/bin/env python3
"""restarts.py [RESTARTS [CLIENTS [SEED [LEASE]]]]: clients with sessions take and release locks while the engine and the server are ended, by
TERM and by KILL, and started again; `full` is 50 restarts. Some clients stay away for longer than their lease. Then it is judged:

- who was back in time has what it had: its holds, with their tokens, or its place in the line;
- nobody is inside while another is; what an absent client held is granted to nobody before its lease is over;
- tokens rise, and each that was told is a grant of the journal, with the client's label;
- each grant of the journal was told to its client, if that was back in time: none was done twice, and one that was on its way when the
  engine or the server ended is nobody's, and ends with the grace;
- in the journal each grant of a hold is followed by its end before the next one;
- `ring_tool check` finds the chain of segments legal (the engine's double checks nothing).
"""

import os
import random
import signal
import socket
import sys
import threading
import time

from crash import judge_chain
from harness import PATIENCE, RUNNING, Server, room

NAMES, LONGEST = "abcdefgh", 240
#: the least lease, and how many times longer it is than a start
SHORTEST, STARTS = 5.0, 15
USUAL, FULL, CLIENTS, TRUANTS = 16, 50, 64, 4
#: so many restarts in that time, of those that were asked for, are a trial too: a slow machine makes fewer
ENOUGH = 5


def start(folder, lease):
    """A server in this folder. Where the engine of the one before takes long to end, it is started again, as systemd does."""
    for is_last in (False, False, False, True):
        try:
            return Server(folder=folder, locks=",".join(f"{name}:5" for name in NAMES), lease=f"{lease:.1f}", faults=False)
        except RuntimeError:
            RUNNING.pop()
            if is_last:
                raise
    return None


def lease_of_this_machine():
    """A lease in which clients can be back, unless the machine is busy with others."""
    with room("restarts") as folder:
        begun = time.monotonic()
        start(folder, SHORTEST).stop()
        return max(SHORTEST, STARTS * (time.monotonic() - begun))


class Over(Exception):
    """The trial is over, and no server answers any more."""


class Late(Exception):
    """This client was not back in time, so nothing is promised to it."""


class Trial:
    """What the clients saw."""

    def __init__(self, path, lease):
        self.lease = lease
        self.path, self.stop, self.end = path, threading.Event(), threading.Event()
        self.mutex = threading.Lock()
        self.inside, self.absent, self.told, self.faults = {}, {}, [], []
        self.returns, self.late, self.truancies = 0, [], 0

    def enter(self, client, name, token):
        with self.mutex:
            if name in self.inside:
                self.faults.append(f"{client} is inside {name} by {token} while {self.inside[name]} is")
            early = self.absent.pop(name, 0) - time.monotonic()
            if early > 0:
                self.faults.append(f"{client} is granted {name} {early:.3f} s before the lease of who held it is over")
            self.inside[name] = client
            self.told.append((name, token, client))

    def leave(self, name, absent=0.0):
        with self.mutex:
            self.inside.pop(name, None)
            if absent:
                self.absent[name] = absent

    def forgive(self, name):
        """Who was absent is back, and gives the lock up."""
        with self.mutex:
            self.absent.pop(name, None)

    def blame(self, text):
        with self.mutex:
            self.faults.append(text)


class Worker(threading.Thread):
    """A client: it asks one thing at a time, and again what had no answer."""

    def __init__(self, trial, number, is_truant):
        super().__init__(daemon=True)
        self.trial, self.number, self.is_truant, self.draw = trial, number, is_truant, random.Random(number)
        self.key, self.sock, self.rest, self.last = number + 1000, None, b"", 0
        self.lock, self.token, self.verb = None, 0, None  # the lock that is held or waited for; what has no answer

    def run(self):
        try:
            while not self.trial.stop.is_set():
                self.hold_or_leave(self.draw.choice(NAMES[-1] if self.is_truant else NAMES[:-1]))
            if self.sock:
                self.ask("leave")
                self.sock.close()
        except Over:
            pass
        except Exception as fault:  # a thread that dies would say nothing
            self.trial.blame(f"{self.number}: {fault!r}")

    def hold_or_leave(self, name):
        try:
            self.hold(name)
        except Late:
            self.trial.late.append(self.number)
            self.lock, self.token, self.verb = None, 0, None
            self.ask("leave")

    def hold(self, name):
        self.lock = name
        answer = self.ask(f"acquire {name} {self.number}")
        if answer[0] == "waiting":
            while not self.token:
                if self.trial.stop.is_set() and self.is_given_up():
                    return
                self.line()
        elif answer[0] != "granted":
            raise RuntimeError(f"acquire {name}: {answer}")
        else:
            self.grant(int(answer[2]))
        for _ in range(self.draw.randrange(3)):
            time.sleep(0.002)
        if self.is_truant and self.draw.random() < 0.1:
            return self.be_away()
        self.trial.leave(name)
        token, self.token = self.token, 0
        answer = self.ask(f"release {name} {token}")
        if answer != ["released", name]:
            self.trial.blame(f"{self.number}: release {name} {token}: {answer}")
        self.lock = None

    def is_given_up(self):
        """Waits no longer; the grant may have come first."""
        answer = self.ask(f"cancel {self.lock}")
        if answer == ["cancelled", self.lock]:
            self.lock = None
        elif not self.token:
            self.trial.blame(f"{self.number}: cancel {self.lock}: {answer}")
        return self.lock is None

    def grant(self, token):
        """It is told a grant, maybe again."""
        if token != self.token:
            self.token = token
            self.trial.enter(self.number, self.lock, token)

    def be_away(self):
        """For longer than the lease: what it held may be another's then. Each restart of the server gives it its lease anew."""
        name = self.lock
        self.trial.leave(name, time.monotonic() + self.trial.lease)  # or later, if this thread stands still before the next line
        self.sock.close()
        self.sock, self.lock, self.token = None, None, 0
        self.trial.truancies += 1
        self.trial.stop.wait(1.5 * self.trial.lease)
        if self.trial.stop.is_set():
            raise Over
        self.trial.forgive(name)
        self.ask("leave")

    def ask(self, line):
        """The words of the answer, as often as it has to be asked."""
        self.last += 1
        self.verb = line.split()[0]
        while True:
            if self.sock is None:
                self.come()
            try:
                self.sock.sendall(f"{self.last} {line}\n".encode())
                while True:
                    words = self.line()
                    if words is None:
                        break  # it came again
                    if words[0] == str(self.last):
                        self.verb = None
                        return words[1:]
            except OSError:
                self.lose()

    def line(self):
        """The words of the next line, or None if the connection was lost, and is there again, or the trial ends; a grant is taken."""
        try:
            while b"\n" not in self.rest:
                try:
                    more = self.sock.recv(4096)
                except socket.timeout:
                    self.sock.sendall(b"ping\n")
                    if self.trial.stop.is_set():
                        return None
                    continue
                if not more:
                    raise ConnectionError
                self.rest += more
        except OSError:
            self.lose()
            self.come()
            return None
        line, self.rest = self.rest.split(b"\n", 1)
        words = line.decode().split()
        if words[0] == "granted" and words[1] == self.lock:
            self.grant(int(words[2]))
        return words

    def lose(self):
        if self.sock:
            self.sock.close()
        self.sock, self.rest = None, b""

    def come(self):
        """Comes back, and compares what the server says with what it knows."""
        begun = time.monotonic()
        while self.sock is None:
            if self.trial.end.is_set():
                raise Over
            try:
                self.sock = socket.socket(socket.AF_UNIX)
                self.sock.settimeout(PATIENCE)
                self.sock.connect(self.trial.path)
                self.sock.sendall(b"session %d\n" % self.key)
                words = self.said()
                told = [self.said() for _ in range(int(words[2]))]
                self.sock.settimeout(min(self.trial.lease / 4, 1.0))
            except (OSError, IndexError, ValueError):
                self.lose()
                time.sleep(0.01)
        self.compare(told, time.monotonic() - begun)

    def said(self):
        while b"\n" not in self.rest:
            more = self.sock.recv(4096)
            if not more:
                raise ConnectionError
            self.rest += more
        line, self.rest = self.rest.split(b"\n", 1)
        return line.decode().split()

    def compare(self, told, took):
        self.trial.returns += 1
        holds = {words[1]: int(words[2]) for words in told if words[0] == "holds"}
        waits = [words[1] for words in told if words[0] == "waits"]
        if took > self.trial.lease and self.verb != "leave":
            self.trial.leave(self.lock)
            raise Late
        if self.token and holds.get(self.lock) != self.token:
            self.trial.blame(f"{self.number} held {self.lock} by {self.token}, was back after {took:.3f} s, and is told {told}")
        if self.lock and not self.token and self.verb in (None, "cancel"):
            if self.lock in holds:
                self.grant(holds[self.lock])
            elif self.lock not in waits and self.verb is None:
                self.trial.blame(f"{self.number} waited for {self.lock}, was back after {took:.3f} s, and is told {told}")
        if self.verb == "acquire" and self.lock in holds:
            self.grant(holds[self.lock])
        if self.verb != "leave" and (set(holds) | set(waits)) - {self.lock}:
            self.trial.blame(f"{self.number} has {self.lock}, and is told {told}")


def disturb(server, draw, lease):
    """One restart: the server, which may be a new one, and what was done."""
    what, number = draw.choice(["server", "engine"]), draw.choice([signal.SIGTERM, signal.SIGKILL])
    if what == "engine":
        try:
            os.kill(server.engine_number(), number)
        except (TypeError, ProcessLookupError):
            return server, "nothing"  # it is being started
    else:
        server.process.send_signal(number)
        server.process.wait(PATIENCE)
        server = start(server.folder, lease)
    return server, f"{what} {number.name[3:]}"


def judge(calls, told, late, restarts):
    """What is wrong with the holds of the journal, and with what the clients were told of them. Of each lock one grant may have been on its
    way at a restart: no client gave it back."""
    wrong, open_, grants, ends = [], {}, {}, {}
    for line in calls:
        words = line.split(" ")
        name, kind, seat = NAMES[int(words[0])], words[1], words[2]
        if kind == "p" and seat == "0":
            if name in open_:
                wrong.append("granted while a hold is open: " + line)
            open_[name] = int(words[6])
            grants[name, int(words[6])] = int(words[4])
        elif kind == "s" and seat in "12":
            if name not in open_:
                wrong.append("an end of no hold: " + line)
            ends[name, open_.pop(name, 0)] = seat
    last = dict.fromkeys(NAMES, 0)
    for name, token, label in told:
        if token <= last[name]:
            wrong.append(f"token {token} of {name} does not rise")
        last[name] = token
        if grants.get((name, token)) != label:
            wrong.append(f"token {token} of {name} is not in the journal as {label}'s")
    known = {(name, token) for name, token, _ in told}
    untold = [(name, token) for (name, token), label in grants.items() if (name, token) not in known and label not in late]
    wrong += [f"{grants[it]} was never told of {it}, and gave it back" for it in untold if ends.get(it, "2") != "2"]
    return wrong + [f"of {name} more grants were on their way than there were restarts" for name in NAMES
                    if sum(it[0] == name for it in untold) > restarts]


def main():
    words = sys.argv[1:]
    restarts = FULL if words[:1] == ["full"] else int(words[0]) if words else USUAL
    clients = int(words[1]) if len(words) > 1 else CLIENTS
    seed = int(words[2]) if len(words) > 2 else random.randrange(1 << 32)
    lease = float(words[3]) if len(words) > 3 else lease_of_this_machine()
    draw, done, begun = random.Random(seed), {}, time.monotonic()
    with room("restarts") as folder:
        server = start(folder, lease)
        trial = Trial(server.path, lease)
        workers = [Worker(trial, number, number <= TRUANTS) for number in range(1, clients + 1)]
        for worker in workers:
            worker.start()
        count = 0
        while count < restarts and time.monotonic() < begun + LONGEST:
            time.sleep(draw.uniform(0.1, 0.5))
            server, what = disturb(server, draw, lease)
            done[what] = done.get(what, 0) + 1
            count += what != "nothing"
        trial.stop.set()
        end = time.monotonic() + PATIENCE
        for worker in workers:
            worker.join(max(0.0, end - time.monotonic()))
        if any(worker.is_alive() for worker in workers):
            trial.blame("a client did not come to an end")
        trial.end.set()
        server.stop()
        calls = server.calls()
        verdict, of_chain = judge_chain(server.journal, calls)
        wrong = trial.faults + judge(calls, trial.told, trial.late, count) + of_chain
    kills = ", ".join(f"{what} {number}" for what, number in sorted(done.items()))
    print(f"seed {seed} clients {clients} lease {lease:.1f} restarts {count} ({kills}) in {time.monotonic() - begun:.0f} s; returns {trial.returns}, late "
          f"{len(trial.late)}, absences {trial.truancies}, grants told {len(trial.told)}; verdict {verdict}")
    for line in wrong[:10]:
        print(line)
    if not wrong and 2 * len(trial.late) > trial.returns:
        print("skipped: restarts: most clients were back too late to keep what they had, on so slow a machine\n0 passed, 0 failed")
        return 0
    is_right = not wrong and trial.told and count >= min(restarts, ENOUGH)
    print("2 passed, 0 failed" if is_right else "0 passed, 2 failed")
    return 0 if is_right else 1


if __name__ == "__main__":
    sys.exit(main())
