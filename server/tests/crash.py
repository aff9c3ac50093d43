#!/usr/bin/env python3
"""crash.py [SECONDS [SEED]] [--any-name]: clients take and release locks while the engine or the server is killed at random moments, or a
fault is written. Then the journal is judged:

- nobody is inside while another is, across restarts too, unless that has not looked for as long as a hold outlives a restart: a machine
  that is busy may let a thread stand still inside;
- tokens rise, across restarts: one that was asked for when another one had been told is greater. Each that was told is a grant of the
  journal, with the client's label;
- in the journal each grant of a hold is followed by its end before the next one;
- `models/small_recover.py`, which knows nothing of this program, finds the history of each segment legal;
- a token of a name is greater than those before it, and no two rings have one name at once;
- `ring_tool check` finds the chain of segments legal, and counts the grants that the journal has (the engine's double has one segment,
  and checks nothing).

With --any-name the list is one lock and `*`, and clients draw names: a few that others draw too, or one that nobody has had. Where the
engine takes a list alone, that is skipped.
"""

import argparse

import bisect
import collections
import itertools
import os
import random
import signal
import subprocess
import sys
import tempfile
import threading
import time

import journals
from harness import ENGINE, IS_DOUBLE, NO_ANY_NAME, PATIENCE, TOP, Server, room, takes_any_name

from wozgirt import Client, LockError

CLIENTS, LEASE, LINES = 8, "0.3", "20000"


class Listed:
    """The locks of a list."""

    locks = "a:5,b:5"

    def draw(self, chance):
        return chance.choice("ab")

    def fault(self, chance):
        """A lock, a machine of its ring and a value."""
        return self.draw(chance), chance.randrange(5), chance.randrange(5)


class AnyName:
    """One, and any other name."""

    locks = "a:5,*"

    def draw(self, chance):
        if chance.random() < 0.3:
            return f"new/{chance.randrange(1 << 40)}"
        return chance.choice(("a", "order/1", "order/2", "order/3"))

    def fault(self, chance):
        return chance.choice(("a", "order/1", "order/2", "order/3")), chance.randrange(2), chance.randrange(2)


def start(folder, kind):
    """A server in this folder. It ends if the engine of a server that was killed has the journal still, and is then started again."""
    end = time.monotonic() + PATIENCE
    while True:
        try:
            return start_once(folder, kind)
        except RuntimeError as fault:
            said = str(fault).rpartition(" started wozgirt-server ")[2]
            if "/journal is in use" not in said or time.monotonic() > end:
                raise


def start_once(folder, kind):
    """A server in this folder, if it comes up."""
    # (the double counts grants over all its segments, where each is to be judged by itself)
    words = [] if IS_DOUBLE else ["--segment", LINES]
    return Server(*words, folder=folder, locks=kind.locks, lease=LEASE)


class Trial:
    """What the clients saw."""

    def __init__(self, path, kind):
        self.path, self.kind = path, kind
        self.stop = threading.Event()
        self.mutex = threading.Lock()
        # who is inside, with the time at which it still held the lock; what was told, with the times before and after
        self.inside, self.told, self.faults, self.losses, self.late = {}, [], [], 0, 0

    def work(self, number):
        draw = random.Random(number)
        while not self.stop.is_set():
            try:
                with Client(self.path) as client:
                    while not self.stop.is_set():
                        self.hold(client, draw, number)
            except (LockError, OSError):
                with self.mutex:
                    self.losses += 1
                time.sleep(0.01)

    def hold(self, client, draw, number):
        name, begun = self.kind.draw(draw), time.monotonic()
        token = client.acquire(name, label=number)
        with self.mutex:
            self.told.append((name, token, number, begun, time.monotonic()))
        is_inside = False
        try:
            for _ in range(1 + draw.randrange(3)):
                known = time.monotonic()
                client.check()
                with self.mutex:
                    if not is_inside and name in self.inside:
                        self.meet(name, number)
                    self.inside[name], is_inside = (number, known), True
                time.sleep(0.001)
        finally:
            with self.mutex:
                if self.inside.get(name, (None,))[0] == number:
                    del self.inside[name]
        client.release(name, token)

    def meet(self, name, number):
        """Another one is inside. It may be, if it does not know yet that its hold is over."""
        other, known = self.inside[name]
        if time.monotonic() - known < float(LEASE):
            self.faults.append(f"{number} is inside {name} while {other} is")
        else:
            self.late += 1


def disturb(server, draw, kind):
    """One disturbance: the server, which may be a new one, and what was done."""
    what = draw.choice(["server", "engine", "engine", "fault", "fault"])
    if what == "server":
        server.process.send_signal(signal.SIGKILL)
        server.process.wait()
        server = start(server.folder, kind)
    elif what == "engine":
        try:
            server.kill_engine()
        except (TypeError, ProcessLookupError):
            what = "nothing"  # it is being started again
    else:
        try:
            server.operate("corrupt %s %d %d" % kind.fault(draw))
        except OSError:
            what = "nothing"
    return server, what


def judge_holds(holds, told):
    """What is wrong with the holds of the journal, and with what the clients were told of them."""
    wrong, open_, last, grants = [], set(), {}, {}
    for is_grant, name, *more in holds:
        if not is_grant:
            if name not in open_:
                wrong.append(f"an end of no hold of {name}")
            open_.discard(name)
            continue
        token, label = more
        if name in open_:
            wrong.append(f"granted while a hold is open: {name} {token}")
        if token <= last.get(name, 0):
            wrong.append(f"the journal's token {token} of {name} does not rise")
        open_.add(name)
        grants[name, token], last[name] = label, token
    wrong += [f"token {token} of {name} is not in the journal as {label}'s" for name, token, label, *_ in told
              if grants.get((name, token)) != label]
    by_name = collections.defaultdict(list)
    for it in told:
        by_name[it[0]].append(it)
    return wrong + [it for told_of_name in by_name.values() for it in judge_order(told_of_name)]


def judge_order(told):
    """What is wrong with the tokens of a lock: one is not greater than one that had been told before it was asked for."""
    told = sorted(told, key=lambda it: it[4])
    times, most = [it[4] for it in told], [0, *itertools.accumulate((it[1] for it in told), max)]
    return [f"token {token} of {name} does not rise" for name, token, _, begun, _ in told
            if token <= most[bisect.bisect_left(times, begun)]]


def said_of(text):
    """What the second checker says of the journal of a segment: the verdict, behind the history that it recovers."""
    with tempfile.TemporaryDirectory() as folder:
        journal = os.path.join(folder, "journal.txt")
        with open(journal, "w", encoding="ascii") as file:
            file.write(journals.without_remarks(text[text.index("ringjournal"):]))
        judged = subprocess.run([sys.executable, os.path.join(TOP, "models", "small_recover.py"), journal],
                                capture_output=True, text=True, check=False)
    return next((line for line in judged.stdout.splitlines() if line.startswith("legal ")), judged.stdout[-200:] + judged.stderr)


def judge_segments(folder):
    """What is wrong with the history of a segment."""
    verdicts = [said_of(text) for text in journals.texts(folder)]
    return [f"segment {i}: {it}" for i, it in enumerate(verdicts, 1) if not it.startswith("legal ")]


def judge_chain(folder, calls):
    """What the engine's own checker says of all segments, and what is wrong with that."""
    if IS_DOUBLE:
        return "not asked", []
    judged = subprocess.run([ENGINE, "check", folder], capture_output=True, text=True, check=False)
    verdict = (judged.stdout + judged.stderr).strip()
    count = sum(call.split(" ")[1:6:4] == ["p", "g"] for call in calls)
    is_right = verdict.startswith("legal segments ") and f" granted {count} " in verdict
    return verdict.partition(" head ")[0], [] if is_right else [f"the chain, with {count} passes that were granted: {verdict}"]


def parsed():
    """The words of the command line."""
    parser = argparse.ArgumentParser("crash.py")
    parser.add_argument("seconds", nargs="?", type=float, default=30)
    parser.add_argument("seed", nargs="?", type=int, default=random.randrange(1 << 32))
    parser.add_argument("--any-name", action="store_true")
    return parser.parse_args()


def main():
    words = parsed()
    if words.any_name and not takes_any_name():
        print(f"skipped: crash with any name: {NO_ANY_NAME}\n0 passed, 0 failed")
        return 0
    kind = AnyName() if words.any_name else Listed()
    draw, done = random.Random(words.seed), {}
    with room("crash") as folder:
        server = start(folder, kind)
        trial = Trial(server.path, kind)
        threads = [threading.Thread(target=trial.work, args=(number,), daemon=True) for number in range(1, CLIENTS + 1)]
        for thread in threads:
            thread.start()
        end = time.monotonic() + words.seconds
        while time.monotonic() < end:
            time.sleep(draw.uniform(0.2, 0.9))
            server, what = disturb(server, draw, kind)
            done[what] = done.get(what, 0) + 1
        trial.stop.set()
        for thread in threads:
            thread.join(PATIENCE)
        server.stop()
        verdict, of_chain = judge_chain(server.journal, server.calls())
        wrong = trial.faults + judge_holds(journals.holds(server.journal), trial.told) + judge_segments(server.journal) + of_chain
    kills = ", ".join(f"{what} {count}" for what, count in sorted(done.items()))
    print(f"seed {words.seed} seconds {words.seconds:.0f} disturbed: {kills}; connections lost {trial.losses}, grants told {len(trial.told)}, "
          f"late {trial.late}; verdict {verdict}")
    for line in wrong[:10]:
        print(line)
    print("2 passed, 0 failed" if not wrong and trial.told else "0 passed, 2 failed")
    return 1 if wrong or not trial.told else 0


if __name__ == "__main__":
    sys.exit(main())
