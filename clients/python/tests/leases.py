#!/usr/bin/env python3
"""leases.py [SECONDS [LEASE]]: eight threads share a client with a lease (of 1 s) for so many seconds (60), and take turns in waiting
0.05 to half a second for a lock that other clients hold. Ends with status 1 if the client, which is served all the time, takes itself
for lost, or if the server does. The last line is `calls N lost L silent S`: S is the longest time, in seconds, between two looks at
which the client had not heard the server."""

import os
import random
import sys
import threading
import time

sys.path.insert(0, os.path.join(os.path.dirname(os.path.abspath(__file__)), "..", "..", "..", "server", "tests"))

from harness import PATIENCE, Server  # noqa: E402
from wozgirt import Client, Holds, LockError  # noqa: E402

THREADS = 8


class Turns:
    """The client, and what came of its calls."""

    def __init__(self, server, lease):
        self.server, self.lease, self.calls, self.faults, self.silent = server, lease, 0, [], 0.0
        self.client, self.is_over = Client(server.path, lease=lease), threading.Event()

    def hold(self, name, seed):
        """Another client, that holds the lock for a while, again and again."""
        chance = random.Random(seed)
        with Client(self.server.path) as other:
            while not self.is_over.is_set():
                token = other.acquire(name, wait=PATIENCE)
                time.sleep(chance.uniform(0.05, 0.5))
                other.release(name, token)

    def work(self, name):
        """A thread that shares the client."""
        try:
            while not self.is_over.is_set():
                try:
                    token = self.client.acquire(name)
                except Holds:  # another thread of this client does
                    continue
                finally:
                    self.calls += 1
                self.client.check()
                self.client.release(name, token)
        except LockError as fault:
            self.faults.append(fault)
            self.is_over.set()

    def run(self, seconds):
        """All of them, for so long."""
        names = "abcd"
        threads = [threading.Thread(target=self.work, args=(names[i % len(names)],)) for i in range(THREADS)]
        threads += [threading.Thread(target=self.hold, args=(name, seed)) for seed, name in enumerate(names)]
        for it in threads:
            it.start()
        end = time.monotonic() + seconds
        while time.monotonic() < end and not self.is_over.wait(0.01):
            self.silent = max(self.silent, time.monotonic() - self.client._spoken)
            try:
                self.client.check()
            except LockError as fault:
                self.faults.append(fault)
                break
        self.is_over.set()
        for it in threads:
            it.join(PATIENCE)
        self.client.close()


def run(seconds, lease):
    """What came of it."""
    with Server(lease=str(lease), locks="a,b,c,d") as server:
        turns = Turns(server, lease)
        turns.run(seconds)
        if "(lease)" in server.text_of_log():
            turns.faults.append("the server ended the lease")
        return turns


def main():
    seconds, lease = float(sys.argv[1]) if len(sys.argv) > 1 else 60.0, float(sys.argv[2]) if len(sys.argv) > 2 else 1.0
    turns = run(seconds, lease)
    for fault in turns.faults:
        print(fault)
    print(f"calls {turns.calls} lost {len(turns.faults)} silent {turns.silent:.2f}")
    return 1 if turns.faults else 0


if __name__ == "__main__":
    sys.exit(main())
