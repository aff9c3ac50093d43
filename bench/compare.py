"""Runs the programs of two folders in turn and prints what the second costs of the first, for bench/compare.sh.
Words: the folder of the programs before, and that of those now. Works in the current folder, which has the settings files."""

import os
import re
import subprocess
import sys
import time

RUNS = 5
HISTORY = "HISTORY"
# The programs that time texts and calls, by their names now and before, each with its first words.
TEXTS = (("text_bench",), ("farm_bench", "text"))
CALLS = (("close_bench",), ("ring_bench",))


def cost(program, words):
    """Processor seconds, seconds by the clock and KiB at most of one run."""
    begun = time.monotonic()
    started = subprocess.Popen([program, *words], stdout=subprocess.DEVNULL)
    _, status, spent = os.wait4(started.pid, 0)
    started.returncode = status
    if status:
        sys.exit(f"{program} {' '.join(words)}: status {status}")
    return spent.ru_utime + spent.ru_stime, time.monotonic() - begun, spent.ru_maxrss


def least(pairs):
    return [min(it) for it in zip(*pairs)]


def compare(before, now, what, words):
    """Prints one row; the two programs take turns, so that both see the same machine. The word HISTORY is a file of each
    program's own, since the two may write different texts."""
    names = {before: "compared-before.txt", now: "compared-now.txt"}
    costs = {before: [], now: []}
    for _ in range(RUNS):
        for program in (before, now):
            own = [names[program] if word == HISTORY else word for word in words]
            costs[program].append(cost(program, own))
    old, new = least(costs[before]), least(costs[now])
    ratios = [f"{b / a:.2f}" for a, b in zip(old, new)]
    sizes = f"{old[2] / 1024:.0f} | {new[2] / 1024:.0f}"
    print(f"| {what} | {old[0]:.3f} | {new[0]:.3f} | {ratios[0]} | {ratios[1]} | {sizes} | {ratios[2]} |", flush=True)


def program(folder, names):
    """The first of these programs that a folder has, with the words that come with its name; or none."""
    built = ([f"{folder}/{name}", *words] for name, *words in names)
    return next((command for command in built if os.path.exists(command[0])), None)


def told_by(command):
    return subprocess.run(command, capture_output=True, text=True, check=True).stdout


def speeds(command):
    """The best MB a second of writing and of reading that the benchmark tells."""
    told = "".join(told_by(command) for _ in range(RUNS))
    return [max(int(it) for it in re.findall(rf"{what} in \d+ ms, (\d+) MB", told)) for what in ("written", "read")]


def main(before, now):
    tools = [f"{it}/ring_tool" for it in (before, now)]
    print("| What | s before | s now | by processor | by the clock | MiB before | MiB now | memory |")
    print("|---|---|---|---|---|---|---|---|")
    for n in (16, 256):
        one, many = f"one-ring-{n}.json", f"sixteen-long-{n}.json"
        compare(*tools, f"run, one ring, nine of 100,000, n = {n}", ["run", one])
        compare(*tools, f"the same with a history, n = {n}", ["run", one, "--history", HISTORY])
        compare(*tools, f"check of that history, n = {n}", ["check", HISTORY])
        compare(*tools, f"run, sixteen rings, nine of 320,000, n = {n}", ["run", many])
    folders = ((before, "before"), (now, "now"))
    for n in (16, 256):
        for folder, name in folders:
            written, read = speeds([*program(folder, TEXTS), f"one-ring-{n}.json"])
            print(f"text of one ring, n = {n}, {name}: written {written}, read {read} MB a second")
    for folder, name in folders:
        if calls := program(folder, CALLS):
            print(f"calls of a ring, {name}:\n{told_by(calls)}", end="", flush=True)


if __name__ == "__main__":
    main(*sys.argv[1:])
