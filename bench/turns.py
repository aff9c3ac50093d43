#!/usr/bin/env python3
"""bench/turns.py SERVER [ROUNDS [SECONDS]]: this server beside another build of it, as one of an earlier commit, over one engine
(WOZGIRT_ENGINE, or that of the tests): hand-overs of one client on one lock, of 64 on one, and of 64 on sixteen, without syncs and with
them, neither with TLS nor with a record of grants. In turns; prints for each load the middle of the ratios of ROUNDS (5) of SECONDS (2),
and their range. It needs out/peers/target/release/lock_bench, which bench/peers.sh makes."""

import os
import re
import statistics
import subprocess
import sys
import tempfile

TOP = os.path.dirname(os.path.dirname(os.path.abspath(__file__)))
sys.path.insert(0, os.path.join(TOP, "server", "tests"))

from harness import COMMAND, ENGINE, FOLDER, SERVER, wait_until  # noqa: E402

BENCH = os.path.join(TOP, "out", "peers", "target", "release", "lock_bench")
LOADS = ((1, 1), (64, 1), (64, 16))


def measured(server, words, seconds):
    """Hand-overs a second for each of the loads, of a server in a folder of its own."""
    with tempfile.TemporaryDirectory(prefix="wozgirt-turns-", dir=FOLDER) as folder:
        place = os.path.join(folder, "lock.sock")
        locks = ",".join(f"l{number}" for number in range(16))
        os.mkdir(folder + "/journal")
        with open(folder + "/log", "wb") as log:
            process = subprocess.Popen([server, "--engine", ENGINE, "--journal", folder + "/journal", "--locks", locks, "--socket", place, *words],
                                       stderr=log)
        try:
            wait_until(lambda: subprocess.run([COMMAND, "status", "--socket", place], capture_output=True, check=False).returncode == 0)
            return [handed_over(place, load, seconds) for load in LOADS]
        finally:
            process.terminate()
            process.wait()


def handed_over(place, load, seconds):
    words = [BENCH, "wozgirt", *map(str, load), str(seconds), place]
    said = subprocess.run(words, capture_output=True, text=True, check=True).stdout
    return float(re.search(r"handovers/s +([\d.]+)", said)[1])


def main():
    other, rounds, seconds = (*sys.argv[1:], *("5", "2")[len(sys.argv) - 2:])
    print(f"{SERVER} beside {other}, engine {ENGINE}, load {os.getloadavg()[0]:.1f}", flush=True)
    for name, words in (("no syncs", ["--no-sync"]), ("synced", [])):
        pairs = []
        for number in range(int(rounds)):
            sides = [SERVER, other][::1 if number % 2 else -1]
            found = {side: measured(side, words, seconds) for side in sides}
            pairs.append((found[SERVER], found[other]))
        for at, (clients, locks) in enumerate(LOADS):
            now, before = ([pair[side][at] for pair in pairs] for side in (0, 1))
            ratios = [a / b for a, b in zip(now, before)]
            print(f"{name}, clients {clients}, locks {locks}: {statistics.median(now):.0f} beside {statistics.median(before):.0f} hand-overs a second; "
                  f"ratio {statistics.median(ratios):.2f} ({min(ratios):.2f} to {max(ratios):.2f})", flush=True)


if __name__ == "__main__":
    main()
