#!/usr/bin/env python3
"""bench/repairs.py [RING_TOOL [ROUNDS [SECONDS]]]: `ring_tool repairs` beside a program in plain Rust that does the same, bench/repairs_peer,
which is built by cargo for the same processors as the tool (x86-64-v2). For each daemon and size both run on one thread, in turns, ROUNDS (5)
times each, with as many trials as take the peer SECONDS (0.5); the lines that they print are compared. It prints the processor time of a pass of
each, from the fastest round, and the middle of the ratios of the rounds with their range; then the time of 1,000,000 trials of 16 machines. At
last, by the clock, what each gains by as many threads as there are processors, and the middle of the ratios of these gains: others have to be
quiet.

bench/repairs.py --threads [RING_TOOL [ROUNDS [SECONDS]]] prints this last part alone."""

import os
import resource
import statistics
import subprocess
import sys
import time

TOP = os.path.dirname(os.path.dirname(os.path.abspath(__file__)))
PEER = f"{TOP}/out/peers/target/release/repairs_peer"
# Of what the threads count: n, and how long it takes the peer on one thread, in SECONDS
OF_THREADS, LONGER = ((16, "random"), (256, "random"), (64, "first")), 4
SIZES = {"random": (8, 16, 64, 256, 1024), "first": (8, 16, 64, 256, 1024), "last": (8, 16, 64, 256, 1024), "turn": (8, 16, 64, 256, 1024), "slow": (8, 16, 64), "groups": (8, 16, 64, 256, 1024)}


def build_peer():
    flags = {**os.environ, "RUSTFLAGS": "-C target-cpu=x86-64-v2"}
    words = ["cargo", "build", "-q", "--release", "--offline", "--target-dir", f"{TOP}/out/peers/target"]
    subprocess.run(words, cwd=f"{TOP}/bench/repairs_peer", env=flags, check=True)


def ran(program, words):
    """The first line that a program prints, and the seconds of a processor that it takes."""
    before = resource.getrusage(resource.RUSAGE_CHILDREN)
    line = subprocess.run([*program, *words], stdout=subprocess.PIPE, stderr=subprocess.DEVNULL, text=True, check=True).stdout.splitlines()[0]
    after = resource.getrusage(resource.RUSAGE_CHILDREN)
    return line, after.ru_utime + after.ru_stime - before.ru_utime - before.ru_stime


def words_of(n, daemon, trials):
    return [str(n), "--daemon", daemon, "--trials", str(trials), "--seed", "1"]


def passes_of(line):
    """How many passes the trials had in all."""
    words = line.split()
    return int(words[words.index("trials") + 1]) * float(words[words.index("mean") + 1])


def enough(n, daemon, seconds):
    """As many trials as take the peer so long."""
    trials = 1
    while True:
        _, taken = ran([PEER], words_of(n, daemon, trials))
        if taken >= seconds / 4:
            return max(1, round(trials * seconds / taken))
        trials *= 4


def compared(tool, n, daemon, rounds, seconds):
    words = words_of(n, daemon, enough(n, daemon, seconds))
    pairs = []
    for number in range(rounds):
        sides = [tool, [PEER]][::1 if number % 2 else -1]
        found = [ran(program, words) for program in sides][::1 if number % 2 else -1]
        if found[0][0] != found[1][0]:
            sys.exit(f"{' '.join(words)}: the tool and the peer print other lines:\n{found[0][0]}\n{found[1][0]}")
        pairs.append((found[0][1], found[1][1]))
    passes = passes_of(found[0][0])
    ratios = [ours / theirs for ours, theirs in pairs]
    ours, theirs = (min(pair[side] for pair in pairs) / passes * 1e9 for side in (0, 1))
    print(f"{daemon} n {n}: {ours:.1f} ns a pass beside {theirs:.1f}; ratio {statistics.median(ratios):.2f} ({min(ratios):.2f} to {max(ratios):.2f})", flush=True)


def clocked(program, words):
    """How long a program takes by the clock."""
    begun = time.monotonic()
    subprocess.run([*program, *words], stdout=subprocess.DEVNULL, stderr=subprocess.DEVNULL, check=True)
    return time.monotonic() - begun


def gain(program, words, threads):
    """How many times as fast a program is with so many threads."""
    return clocked(program, words) / clocked(program, [*words, "--threads", str(threads)])


def gained(tool, n, daemon, rounds, seconds):
    threads = len(os.sched_getaffinity(0))
    words = words_of(n, daemon, enough(n, daemon, LONGER * seconds))
    pairs = []
    for number in range(rounds):
        sides = [tool, [PEER]][::1 if number % 2 else -1]
        pairs.append([gain(program, words, threads) for program in sides][::1 if number % 2 else -1])
    ratios = [ours / theirs for ours, theirs in pairs]
    ours, theirs = (statistics.median(side) for side in zip(*pairs, strict=True))
    print(f"{daemon} n {n}, {threads} threads: {ours:.2f} times as fast, beside {theirs:.2f}; ratio {statistics.median(ratios):.2f} ({min(ratios):.2f} to {max(ratios):.2f})", flush=True)


def main():
    of_threads_alone = sys.argv[1:2] == ["--threads"]
    given = sys.argv[1 + of_threads_alone:]
    tool, rounds, seconds = (*given, *(f"{TOP}/crates/ring_tool/out/ring_tool", "5", "0.5")[len(given):])
    build_peer()
    print(f"load {os.getloadavg()[0]:.1f}", flush=True)
    if not of_threads_alone:
        for daemon, sizes in SIZES.items():
            for n in sizes:
                compared([tool, "repairs"], n, daemon, int(rounds), float(seconds))
        _, taken = ran([tool, "repairs"], words_of(16, "random", 1_000_000))
        print(f"1,000,000 trials of 16 machines: {taken:.1f} s", flush=True)
    for n, daemon in OF_THREADS:
        gained([tool, "repairs"], n, daemon, int(rounds), float(seconds))


if __name__ == "__main__":
    main()
