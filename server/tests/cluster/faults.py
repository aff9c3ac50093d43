#!/usr/bin/env python3
"""faults.py [SECONDS [SEED [CLIENTS [FOLDER]]]] [--every SECONDS] [--answers N]: three hosts with twelve clients, or more, a lock for each
three of them, `wozgirt lock` beside them, and a fault each few seconds, in an order that is drawn; then verify.py judges. What there is
no time for is left out. The last line is `N passed, M failed`; where no hosts can be made it says why it is skipped. 120 seconds by
./test, 1200 before a release.

With --any-name the list is one lock and `*`, and clients draw names. Where the engine takes a list alone, that is skipped.

With --every a fault begins just so often, and is over by then. With --answers no fault comes any more when clients were told so many, or
after SECONDS. `faults.py 3600 1 96 /tmp/million --every 4 --answers 1000000` is the longest trial."""

import argparse
import collections
import os
import random
import shutil
import signal
import subprocess
import sys
import tempfile
import threading
import time

from bed import NAMES, Bed, why_not
from harness import COMMAND, NO_ANY_NAME, takes_any_name
from recorder import Recorder
from verify import verify

HERE = os.path.dirname(os.path.abspath(__file__))
# seconds for all to be as it was, behind the last fault
CALM = 20
# so many clients are in one process
SHARE = 8


def send(number, what):
    """A signal to a process that was there just now, and may have ended."""
    try:
        if number is not None:
            os.kill(number, what)
    except ProcessLookupError:
        pass


class Faults:
    """The faults, each of which is healed when its function returns."""

    def __init__(self, bed, chance, longest=9.0):
        # some take twice as long as they are told
        self.bed, self.chance, self.longest = bed, chance, max(0.5, longest / 2 - 0.5)
        self.done, self.begun = collections.Counter(), time.monotonic()
        self.all = [self.kill_server, self.kill_engine, self.kill_log, self.kill_member, self.kill_leader, self.kill_host, self.kill_servers,
                    self.kill_members, self.kill_all, self.stop_engine, self.stop_server, self.stop_log, self.stop_member, self.stop_leader,
                    self.cut_follower, self.cut_leader, self.cut_one_link, self.cut_all, self.pull_cable, self.lose_folder]

    def note(self, *words):
        """Says what is done."""
        print(f"{time.monotonic() - self.begun:7.1f}", *words, flush=True)

    def one(self, fault):
        """Does it, and counts it."""
        name = self.chance.choice(NAMES)
        self.note(fault.__name__, name)
        fault(name, 0.5 + self.chance.random() * self.longest)
        self.done[fault.__name__] += 1

    def leader(self):
        """Who leads the members, or one of them, where nobody does."""
        for _ in range(20):
            if (name := self.bed.members.leader()) is not None:
                return name
            time.sleep(0.1)
        return self.chance.choice(NAMES)

    def follower(self):
        """One that does not lead."""
        lead = self.leader()
        return self.chance.choice([name for name in NAMES if name != lead])

    def kill(self, name, what):
        """As kill -9 does; the server starts its children again, and the bed the server."""
        send(self.bed.children(name).get(what), signal.SIGKILL)

    def kill_server(self, name, _):
        self.kill(name, "server")

    def kill_engine(self, name, _):
        self.kill(name, "engine")

    def kill_log(self, name, _):
        self.kill(name, "log")

    def away(self, names, seconds, members=True, servers=True):
        """These are killed, and started again after a while."""
        for name in names:
            if members:
                self.bed.members.kill(name)
            if servers:
                self.bed.end_server(name)
        time.sleep(seconds)
        for name in names:
            if members:
                self.bed.members.start(name)
            if servers:
                self.bed.start_server(name)

    def kill_member(self, _, seconds):
        self.away([self.follower()], seconds, servers=False)

    def kill_leader(self, _, seconds):
        self.away([self.leader()], seconds, servers=False)

    def kill_host(self, name, seconds):
        self.away([name], seconds)

    def kill_servers(self, _, seconds):
        self.away(NAMES, seconds / 4, members=False)

    def kill_members(self, _, seconds):
        self.away(NAMES, seconds / 4, servers=False)

    def kill_all(self, _, seconds):
        self.away(NAMES, seconds / 4)

    def pause(self, number, seconds):
        """As SIGSTOP does, for a while."""
        send(number, signal.SIGSTOP)
        time.sleep(seconds)
        send(number, signal.SIGCONT)

    def stop_engine(self, name, seconds):
        self.pause(self.bed.children(name).get("engine"), 2 * seconds)

    def stop_server(self, name, seconds):
        self.pause(self.bed.children(name).get("server"), 2 * seconds)

    def stop_log(self, name, seconds):
        self.pause(self.bed.children(name).get("log"), 2 * seconds)

    def stop_member(self, _, seconds):
        self.pause(self.bed.members.processes[self.follower()].pid, seconds)

    def stop_leader(self, _, seconds):
        self.pause(self.bed.members.processes[self.leader()].pid, seconds)

    def part(self, pairs, seconds):
        """These cannot reach each other for a while; clients reach all."""
        for one, other in pairs:
            self.bed.cut(one, other, True)
        time.sleep(2 * seconds)
        for one, other in pairs:
            self.bed.cut(one, other, False)

    def cut_follower(self, _, seconds):
        it = self.follower()
        self.part([(it, name) for name in NAMES if name != it], seconds)

    def cut_leader(self, _, seconds):
        it = self.leader()
        self.part([(it, name) for name in NAMES if name != it], seconds)

    def cut_one_link(self, _, seconds):
        self.part([(self.leader(), self.follower())], seconds)

    def cut_all(self, _, seconds):
        self.part([("a", "b"), ("b", "c"), ("a", "c")], seconds)

    def pull_cable(self, name, seconds):
        self.bed.cable(name, False)
        time.sleep(2 * seconds)
        self.bed.cable(name, True)

    def lose_folder(self, name, seconds):
        """A server's folder is gone; it begins with another's, its checkpoint first."""
        home, other = self.bed.home(name), self.bed.home(next(it for it in NAMES if it != name))
        self.bed.end_server(name)
        shutil.rmtree(home)
        time.sleep(seconds)
        if os.path.exists(os.path.join(other, "CHECKPOINT")):
            journal = os.path.join(home, "journal")
            os.makedirs(journal)
            shutil.copy(os.path.join(other, "CHECKPOINT"), home)
            for it in os.listdir(other):
                if it.startswith("SEGMENT-"):
                    shutil.copy(os.path.join(other, it), home)
            for it in os.listdir(os.path.join(other, "journal")):
                if it.endswith(".ring") or it == "locks":
                    shutil.copy(os.path.join(other, "journal", it), journal)
        self.bed.start_server(name)


class Commands:
    """`wozgirt lock` again and again, beside the clients: how often it ended with which status."""

    def __init__(self, words, servers, locks, count=2):
        self.words, self.servers, self.locks = words, servers, locks
        self.statuses, self.is_over = collections.Counter(), threading.Event()
        self.threads = [threading.Thread(target=self._work, args=(i,)) for i in range(count)]
        [it.start() for it in self.threads]

    def _work(self, number):
        chance = random.Random(f"{self.words.seed} command {number}")
        while not self.is_over.is_set():
            servers = ",".join(chance.sample(self.servers, len(self.servers)))
            words = [COMMAND, "lock", "--lease", "4", "--socket", servers, chance.choice(self.locks), "--"]
            words += [sys.executable, os.path.join(HERE, "worker.py"), "inside", self.words.folder, str(number)]
            self.statuses[subprocess.run(words, stderr=subprocess.DEVNULL, check=False).returncode] += 1

    def end(self):
        """Ends it. What is wrong: each status but that of a right end, of no server, and of a lost lock."""
        self.is_over.set()
        [it.join() for it in self.threads]
        return [f"wozgirt lock ended with {status}, {count} times" for status, count in self.statuses.items() if status not in (0, 69, 75)]


class Answers:
    """How many answers clients have noted so far."""

    def __init__(self, folder, clients):
        self.count, self.read = 0, {os.path.join(folder, f"client.{i}.txt"): 0 for i in range(clients)}

    def look(self):
        """Looks at what was noted since."""
        for path, at in self.read.items():
            if os.path.exists(path):
                with open(path, "rb") as file:
                    file.seek(at)
                    text = file.read()
                    self.read[path] = at + text.rfind(b"\n") + 1
                    self.count += text.count(b"\ndid ", 0, text.rfind(b"\n") + 1) + text.startswith(b"did ")
        return self.count


def disturb(bed, workers, words, answers, chance):
    """Does faults in rounds, each of which has all of them once, in an order that is drawn."""
    faults = Faults(bed, chance, words.every - 0.5 if words.every else 9.0)
    begun = next_time = time.monotonic() + 2
    left = []
    while next_time < begun + words.seconds - CALM and any(it.poll() is None for it in workers):
        time.sleep(max(0.0, next_time - time.monotonic()))
        if words.answers and answers.look() >= words.answers:
            break
        left = left or chance.sample(faults.all, len(faults.all))
        faults.one(left.pop())
        now = time.monotonic()
        next_time = max(now, next_time + words.every) if words.every else now + chance.random() * 2.5
    taken = time.monotonic() - begun
    faults.note(f"no more faults: one each {taken / max(1, sum(faults.done.values())):.1f} s, {answers.look() / taken:.0f} answers a second")
    if words.answers:
        with open(os.path.join(words.folder, "enough"), "wb"):
            pass
    return faults


def run(words, locks):
    """What happened, in the folder."""
    chance, clients, folder = random.Random(words.seed), words.clients, words.folder
    listed = locks[:1] + ["*"] if words.any_name else locks
    with Bed(folder, checkpoint=250 * clients, locks=",".join(listed)) as bed:
        bed.start()
        recorder = Recorder(bed.members.urls(), os.path.join(folder, "log.txt"))
        servers = ["tcp:%s:%d" % it for it in bed.places()]
        commands = Commands(words, servers, [it for it in locks if it != "*"])
        share = SHARE if clients > 12 else 1
        workers = [subprocess.Popen([sys.executable, os.path.join(HERE, "worker.py"), str(first), str(min(share, clients - first)),
                                     ",".join(servers), ",".join(locks), str(words.seconds), folder, str(words.seed)]) for first in range(0, clients, share)]
        faults = disturb(bed, workers, words, Answers(folder, clients), chance)
        late = [it for it in workers if wait(it, words.seconds) is None]
        bad = commands.end()
        recorder.catch_up()
        ends = {name: bed.servers[name].poll() for name in NAMES}
        faults.note("servers ended and started again:", collections.Counter(bed.statuses), "at the end:", ends)
        recorder.end()
        for it in late:
            it.kill()
    print("faults:", ", ".join(f"{name} {count}" for name, count in sorted(faults.done.items())))
    print("wozgirt lock ended with", ", ".join(f"{status}: {count}" for status, count in sorted(commands.statuses.items())))
    return bad + [f"{len(late)} clients do not end"] * bool(late) + [f"server {name} ended with {end}" for name, end in ends.items() if end is not None]


def wait(worker, seconds):
    """Its status, or None if it does not end in time."""
    try:
        return worker.wait(CALM + seconds)
    except subprocess.TimeoutExpired:
        return None


def parsed():
    """The words of the command line."""
    parser = argparse.ArgumentParser("faults.py")
    parser.add_argument("seconds", nargs="?", type=float, default=120)
    parser.add_argument("seed", nargs="?", type=int, default=random.randrange(1 << 32))
    parser.add_argument("clients", nargs="?", type=int, default=12)
    parser.add_argument("folder", nargs="?")
    parser.add_argument("--every", type=float, metavar="SECONDS")
    parser.add_argument("--answers", type=int, metavar="N")
    parser.add_argument("--any-name", action="store_true")
    return parser.parse_args()


def main():
    words = parsed()
    reason = why_not() or (NO_ANY_NAME if words.any_name and not takes_any_name() else None)
    if reason is not None:
        print(f"skipped: cluster: {reason}\n0 passed, 0 failed")
        return 0
    is_own = words.folder is None
    words.folder = words.folder or tempfile.mkdtemp(prefix="wozgirt-cluster-")
    print(f"seed {words.seed}, {words.seconds:.0f} seconds, {words.clients} clients, folder {words.folder}", flush=True)
    locks = [f"l{i}" for i in range(max(1, words.clients // 3))]
    if words.any_name:
        locks.append("*")
    try:
        bad = run(words, locks)
        passed, failed = verify(words.folder, locks)
    except SystemExit:  # by SIGTERM: no time is left
        if is_own:
            shutil.rmtree(words.folder, ignore_errors=True)
        raise
    for it in bad:
        print("WRONG:", it)
    if not (bad or failed) and is_own:
        shutil.rmtree(words.folder, ignore_errors=True)
    print(f"{passed + (not bad)} passed, {failed + bool(bad)} failed")
    return 1 if bad or failed else 0


if __name__ == "__main__":
    sys.exit(main())
