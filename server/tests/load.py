#!/usr/bin/env python3
"""load.py [CONNECTIONS [SECONDS]]: so many connections wait for one lock, each is granted it in the order in which they came, and
all that is left is free again; then 64 clients of `wozgirt bench` hand one lock over for so long, and none is granted it more than
1.05 times as often as another, from when each was granted it once. A client's thread that a busy machine does not run for a while
asks less often, which is not the server's doing: so the second is tried three times, and has to hold once."""

import re
import resource
import select
import subprocess
import sys
import time

from harness import COMMAND, Server, read_lines, room, say

MOST_UNFAIR, TRIES = 1.05, 3


def wait_in_line(count):
    """What went wrong with so many that wait."""
    with Server("--connections", str(count + 10), "--waiters", str(count), locks="a") as server, server.raw() as holder:
        say(holder, "acquire a 1\n")
        waiting = [server.raw() for _ in range(count)]
        begun = time.monotonic()
        for place, sock in enumerate(waiting):
            if say(sock, "acquire a 2\n") != [f"waiting a {place}"]:
                return f"connection {place} does not wait"
        asked = time.monotonic()
        told = select.poll()
        for sock in waiting:
            told.register(sock, select.POLLIN)
        say(holder, "release a 1\n")
        for place, sock in enumerate(waiting):
            if read_lines(sock, 1) != [f"granted a {place + 2}"]:
                return f"connection {place} is not granted the lock in its turn"
            told.unregister(sock)
            if told.poll(0):
                return "another is told something while one holds"
            if say(sock, f"release a {place + 2}\n") != ["released a"]:
                return f"connection {place} cannot release"
        done = time.monotonic()
        for sock in waiting:
            sock.close()
        if say(holder, "acquire a 1\n") != [f"granted a {count + 2}"]:
            return "the lock is not free afterwards"
    print(f"{count} connections: asked within {asked - begun:.2f} s, handed over within {done - asked:.2f} s")
    return None


def be_fair(seconds):
    """What went wrong with 64 clients."""
    with Server(locks="a") as server:
        words = [COMMAND, "bench", "--socket", server.path, "64", "1", str(seconds)]
        bench = subprocess.run(words, capture_output=True, text=True, check=False)
    print(bench.stdout.strip() or bench.stderr.strip())
    ratio = re.search(r"ratio ([0-9.]+)$", bench.stdout.strip())
    if ratio is None:
        return "the measure failed"
    return None if float(ratio[1]) <= MOST_UNFAIR else f"ratio {ratio[1]} is above {MOST_UNFAIR}"


def be_fair_once_of(tries, seconds):
    """What went wrong in all of so many tries."""
    wrong = None
    for _ in range(tries):
        wrong = be_fair(seconds)
        if wrong is None:
            return None
    return wrong


def main():
    count = int(sys.argv[1]) if len(sys.argv) > 1 else 1000
    seconds = float(sys.argv[2]) if len(sys.argv) > 2 else 10
    hard = resource.getrlimit(resource.RLIMIT_NOFILE)[1]
    resource.setrlimit(resource.RLIMIT_NOFILE, (hard, hard))
    with room("load"):
        wrong = [it for it in (wait_in_line(count), be_fair_once_of(TRIES, seconds)) if it is not None]
    for line in wrong:
        print("failed:", line)
    print(f"{2 - len(wrong)} passed, {len(wrong)} failed")
    return 1 if wrong else 0


if __name__ == "__main__":
    sys.exit(main())
