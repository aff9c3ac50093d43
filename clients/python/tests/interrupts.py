#!/usr/bin/env python3
"""interrupts.py [CALLS [SEED]]: one client makes so many calls (20,000), and in 5 % of them a signal handler raises at a moment
drawn by chance, some times more than once. A second process takes the same locks. After each call that was answered with a token the
engine's journal has to name this client as the holder, with the label of that very call. Ends with status 1 if it once did not, or if
something is held after a call that was broken off, while the connection is open.

The last line is `calls N interrupted I closed C wrong W another A kept K odd O`: how often a call was broken off, and the client closed
itself; how often it believed to hold what it did not hold, and in how many of them another did; how often a hold was left over that
nobody knew of; and how often an error came that no caller expects."""

import os
import random
import signal
import subprocess
import sys
import time

sys.path.insert(0, os.path.join(os.path.dirname(os.path.abspath(__file__)), "..", "..", "..", "server", "tests"))

import journals  # noqa: E402
from harness import PATIENCE, Server  # noqa: E402
from wozgirt import Client, Holds, LockError, LockLost, NotHolder, NotInTime  # noqa: E402

LOCKS, SHARE = "abc", 0.05
#: The label of the other process; those of this one are the numbers of its calls.
OTHER = 0


class Interrupt(BaseException):
    """What the signal handler raises."""


class Truth:
    """Who holds what, read from the engine's journal as it grows. The journal is one segment here."""

    def __init__(self, folder):
        name, = journals.segments(folder)
        self.file, self.rest, self.holders, self.is_begun = open(os.path.join(folder, name), "rb"), b"", {}, False

    def catch_up(self):
        """Reads what is new."""
        *whole, self.rest = (self.rest + self.file.read()).split(b"\n")
        for line in whole:
            words = line.decode("ascii").split()
            if not self.is_begun:
                self.is_begun = words[:1] == ["done"]
            elif words[1] == "p":
                self.holders[LOCKS[int(words[0])]] = int(words[6]), int(words[4])
            else:
                self.holders.pop(LOCKS[int(words[0])], None)

    def holder(self, name):
        """The token and the label of the hold, or None."""
        self.catch_up()
        return self.holders.get(name)


class Trial:
    """One client, and what came of its calls."""

    def __init__(self, server, seed, client=None):
        self.server, self.chance, self.truth = server, random.Random(seed), client or Truth(server.journal)
        self.client, self.is_inside, self.left = client or Client(server.path), False, 0
        self.calls = self.interrupted = self.closed = self.wrong = self.another = self.kept = self.odd = 0
        signal.signal(signal.SIGALRM, self.interrupt)

    def interrupt(self, _, frame):
        """Raises, but not in the lines round the call: what a call returned can be lost there, whatever the client does."""
        outside = {Trial.call.__code__, Trial.interrupt.__code__}
        # before Python 3.11 handlers run between the return of a function and the next step of its caller, too
        is_inside = frame.f_code not in outside and (sys.version_info >= (3, 11) or frame.f_back.f_code not in outside)
        if self.is_inside and is_inside and self.left > 0:
            self.left -= 1
            raise Interrupt

    def call(self, method, *words, **more):
        """Calls it, with an interrupt or two in some of the calls. Whether it was answered, and the answer."""
        self.calls += 1
        chance = self.chance
        is_due = self.interrupted < SHARE * self.calls and chance.random() < 0.3
        self.left = 0 if not is_due else 1 if chance.random() < 0.8 else chance.randrange(2, 5)
        answer, is_broken_off = None, False
        try:
            try:
                if self.left:
                    after = chance.uniform(1e-6, 0.00015 if chance.random() < 0.7 else 0.003)
                    signal.setitimer(signal.ITIMER_REAL, after, chance.uniform(1e-5, 0.0003))
                self.is_inside = True
                answer = method(*words, **more)
                self.is_inside = False
            finally:
                self.is_inside = False
                signal.setitimer(signal.ITIMER_REAL, 0)
        except Interrupt:
            answer, is_broken_off = None, True
            self.interrupted += 1
        except LockLost:
            self.closed += 1
            self.again()
            return False, None
        except (NotInTime, NotHolder):
            return False, None
        except Holds:
            self.kept += 1
            self.again()
            return False, None
        except Exception as fault:  # what no caller expects
            print(f"call {self.calls}: {fault!r}", flush=True)
            self.odd += 1
            self.again()
            return False, None
        return not is_broken_off, answer

    def again(self):
        """A new client; the server knows that the one before is gone."""
        if self.server is not None:
            self.client.close()
            self.client = Client(self.server.path)

    def once(self):
        """A lock is taken and given back."""
        name, label = self.chance.choice(LOCKS), self.calls + 1
        kind = self.chance.random()
        if kind < 0.05:
            is_answered, told = self.call(self.client.status)
            if is_answered and told is not None and [it.name for it in told] != list(LOCKS):
                self.odd += 1
            return
        if kind < 0.2:
            is_answered, token = self.call(self.client.try_acquire, name, label=label)
        else:
            wait = None if kind < 0.7 else self.chance.uniform(0, 0.003)
            is_answered, token = self.call(self.client.acquire, name, label=label, wait=wait)
        if token is not None:
            self.believe(name, token, label)
        elif not is_answered and self.is_kept(name, label):
            self.kept += 1
            self.again()

    def believe(self, name, token, label):
        """This client takes itself for the holder, and gives the lock back."""
        holder = self.truth.holder(name)
        if holder != (token, label):
            self.wrong += 1
            self.another += holder is not None and holder[1] == OTHER
        self.call(self.client.release, name, token)
        if self.is_kept(name, label):
            self.again_released(name, token)
        if self.is_kept(name, label):
            self.kept += 1
            self.again()

    def again_released(self, name, token):
        """As a caller does whose release was broken off before it began."""
        try:
            self.client.release(name, token)
        except LockError:
            pass  # it is over

    def is_kept(self, name, label):
        """Whether the client holds what its caller does not know of, while its connection is open. Where even the clean-up of the
        clean-up was broken off, the next call puts it in order."""
        for _ in range(2):
            try:
                self.client.check()
                holder = self.truth.holder(name)
                if holder is None or holder[1] != label:
                    return False
                self.client.status()
            except LockLost:
                return False  # what it held is free as soon as the server sees its end
            except (LockError, ValueError):
                self.odd += 1
                return True
        return True

    def line(self):
        return " ".join(f"{name} {getattr(self, name)}" for name in
                        ("calls", "interrupted", "closed", "wrong", "another", "kept", "odd"))


def other(path):
    """Takes the locks in turns, until it is ended."""
    chance = random.Random(7)
    with Client(path) as client:
        while True:
            name = chance.choice(LOCKS)
            token = client.acquire(name, label=OTHER, wait=PATIENCE)
            time.sleep(chance.random() * 0.001)
            client.release(name, token)


def run(calls, seed, seconds=None):
    """The trial after so many calls, or seconds."""
    end = None if seconds is None else time.monotonic() + seconds
    with Server("--segment", "4000000", locks=",".join(LOCKS)) as server:
        trial = Trial(server, seed)
        process = subprocess.Popen([sys.executable, os.path.abspath(__file__), "other", server.path])
        try:
            while trial.calls < calls and (end is None or time.monotonic() < end):
                trial.once()
            return trial
        finally:
            process.kill()
            process.wait()
            trial.client.close()
            trial.truth.file.close()


def main():
    if sys.argv[1:2] == ["other"]:
        other(sys.argv[2])
    calls, seed = int(sys.argv[1]) if len(sys.argv) > 1 else 20_000, int(sys.argv[2]) if len(sys.argv) > 2 else 1
    before = signal.getsignal(signal.SIGALRM)
    try:
        trial = run(calls, seed)
    finally:
        signal.signal(signal.SIGALRM, before)
    print(trial.line())
    return 1 if trial.wrong or trial.kept or trial.odd else 0


if __name__ == "__main__":
    sys.exit(main())
