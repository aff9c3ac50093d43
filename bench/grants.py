#!/usr/bin/env python3
"""bench/grants.py [ROUNDS [SECONDS]]: what the record of grants (`--grants`) costs, with and without it in turns. Without syncs: the
processor time of the server for each grant with its end, of one client that asks for one lock after the other, and of 64 clients that hand
one lock over. With syncs: the hand-overs of 64 clients. It needs the programs in server/out/release, and an engine as the tests do."""

import os
import statistics
import subprocess
import sys
import tempfile

TOP = os.path.dirname(os.path.dirname(os.path.abspath(__file__)))
sys.path.insert(0, os.path.join(TOP, "server", "tests"))

from harness import COMMAND, ENGINE, FOLDER, SERVER, Server, say  # noqa: E402

ASKED = 20_000


class Synced(Server):
    """The harness begins each server without syncs."""

    def __init__(self, *words, **more):
        popen = subprocess.Popen
        subprocess.Popen = lambda words, *rest, **named: popen([it for it in words if it != "--no-sync"], *rest, **named)
        try:
            super().__init__(*words, **more)
        finally:
            subprocess.Popen = popen


def processor_time(server):
    """The seconds that the server itself has taken, its threads included."""
    with open(f"/proc/{server.process.pid}/stat", encoding="ascii") as file:
        words = file.read().rpartition(")")[2].split()
    return (int(words[11]) + int(words[12])) / os.sysconf("SC_CLK_TCK")


def alone(server):
    """One client, which takes and releases a lock again and again: the processor time for each."""
    with server.raw() as sock:
        say(sock, "ping\n")
        before = processor_time(server)
        for token in range(1, ASKED + 1):
            say(sock, f"acquire a 1\nrelease a {token}\n", 2)
        return (processor_time(server) - before) / ASKED * 1e6


def handed_over(server, seconds):
    """64 clients and one lock: hand-overs a second, and the processor time for each."""
    before = processor_time(server)
    done = subprocess.run([COMMAND, "bench", "--socket", server.path, "64", "1", str(seconds)], capture_output=True, text=True, check=True)
    count = int(server.operate("stats a").split()[4])
    return count / seconds, (processor_time(server) - before) / count * 1e6, done.stdout.strip()


def measured(kind, measure, *more):
    with tempfile.TemporaryDirectory(prefix="wozgirt-bench-", dir=FOLDER) as folder:
        words = ["--grants", os.path.join(folder, "grants")] if "with" in more else []
        with kind(*words, locks="a", folder=folder) as server:
            return measure(server)


def compare(name, unit, kind, measure, best_of, rounds):
    """Without and with, in turns: the middle of each, and of what lies between them; and the best, which other work disturbed least."""
    pairs = []
    for _ in range(rounds):
        pairs.append((measured(kind, measure), measured(kind, measure, "with")))
    without, given = (statistics.median(it[i] for it in pairs) for i in (0, 1))
    between, ratios = [it[1] - it[0] for it in pairs], [it[1] / it[0] for it in pairs]
    best = [best_of(it[i] for it in pairs) for i in (0, 1)]
    print(f"{name}: without {without:.1f}, with {given:.1f} {unit}; difference {statistics.median(between):.1f} ({min(between):.1f} to "
          f"{max(between):.1f}), ratio {statistics.median(ratios):.3f} ({min(ratios):.3f} to {max(ratios):.3f}; middles of {rounds}); "
          f"at best {best[0]:.1f} and {best[1]:.1f}, ratio {best[1] / best[0]:.3f}", flush=True)


def main():
    rounds = int(sys.argv[1]) if len(sys.argv) > 1 else 5
    seconds = int(sys.argv[2]) if len(sys.argv) > 2 else 3
    print(f"server {SERVER}, engine {ENGINE}, load {os.getloadavg()[0]:.1f}", flush=True)
    compare("one client, no syncs", "us of the server's processor time a grant", Server, alone, min, rounds)
    compare("64 clients, no syncs", "us of the server's processor time a hand-over", Server, lambda it: handed_over(it, seconds)[1], min, rounds)
    compare("64 clients, syncs", "hand-overs a second", Synced, lambda it: handed_over(it, seconds)[0], max, rounds)


if __name__ == "__main__":
    main()
