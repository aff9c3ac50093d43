"""Runs the gate's command in the current folder, a clone, and tells what it cost. Words: the folder for the output, then
the command. For bench/gate.sh.

The gate starts one process of rattle for each check. Each is looked at ten times a second while it runs: where it works,
what it checks, and the processor time that it has used. What ran between the last look and its end is missed, less than a
tenth of a second for each; the sum of all processes, which the system counts, is printed beside."""

import os
import re
import resource
import subprocess
import sys
import time
from collections import Counter

TICK = os.sysconf("SC_CLK_TCK")
LOOKS_A_SECOND = 10


class Check:
    """One process of rattle."""

    def __init__(self, crate, task, place, begun):
        self.crate, self.task, self.place = crate, task, place
        self.begun = self.ended = begun
        self.used = 0.0


def read(path):
    try:
        with open(path, "rb") as file:
            return file.read()
    except OSError:
        return b""


def look(session, checks, others):
    """Notes the processor time of each process of rattle that runs now in the session of the gate."""
    now = time.monotonic()
    for pid in filter(str.isdigit, os.listdir("/proc")):
        stat = read(f"/proc/{pid}/stat").decode(errors="replace")
        if "(rattle" not in stat:
            continue
        fields = stat.rpartition(")")[2].split()
        key = pid, fields[19]
        if key in others or int(fields[3]) != session:
            continue
        if key not in checks:
            words = read(f"/proc/{pid}/cmdline").decode(errors="replace").split("\0")
            try:
                place = os.readlink(f"/proc/{pid}/cwd")
            except OSError:
                continue
            if "--crate-name" not in words:
                others.add(key)
                continue
            task = "edits" if "/rt-edit-" in place else "tests" if "--test" in words else "proof"
            checks[key] = Check(words[words.index("--crate-name") + 1], task, place, now)
        checks[key].used = (int(fields[11]) + int(fields[12])) / TICK
        checks[key].ended = now


def watch(command, log):
    """Runs the command and returns its checks, its status, and its seconds by the processor and by the clock."""
    checks, others, begun = {}, set(), time.monotonic()
    with open(log, "wb") as file:
        started = subprocess.Popen(command, stdin=subprocess.DEVNULL, stdout=file, stderr=subprocess.STDOUT, start_new_session=True)
        while started.poll() is None:
            look(started.pid, checks, others)
            time.sleep(1 / LOOKS_A_SECOND)
    spent = resource.getrusage(resource.RUSAGE_CHILDREN)
    return list(checks.values()), started.returncode, spent.ru_utime + spent.ru_stime, time.monotonic() - begun


def crates_of_this_folder():
    """Each crate with those that it stands on, as crates.txt has them, lowest first."""
    below = {}
    with open("crates.txt", encoding="utf-8") as file:
        for line in file:
            head, colon, names = line.partition("#")[0].partition(":")
            if colon:
                below[head.split()[0]] = names.split()
    return {crate: [name for name in names if name in below] for crate, names in below.items()}


def edits_told(log):
    """How many edits of each crate the gate told of."""
    with open(log, encoding="utf-8", errors="replace") as file:
        return Counter(re.findall(r"^(?:rt: )?edit (\w+)/\w+: ", file.read(), re.MULTILINE))


def costs_of_edits(checks, crate):
    """The processor seconds of each check of edits, in the order in which they ran: the first one is of the crate as it stands."""
    rooms = {}
    for check in sorted(checks, key=lambda it: it.begun):
        if check.crate == crate and check.task == "edits":
            rooms[check.place] = rooms.get(check.place, 0.0) + check.used
    return list(rooms.values())


def spent_on(checks, crate, task):
    return sum(it.used for it in checks if it.crate == crate and it.task == task)


def length_of(checks, crate, task):
    """The seconds from the start of a crate's task to its end."""
    mine = [it for it in checks if it.crate == crate and it.task == task]
    return max(it.ended for it in mine) - min(it.begun for it in mine) if mine else 0.0


def longest_chain(checks, below):
    """The tasks that wait for each other and take the longest in a row: seconds by the clock, and their names."""
    chains = {}

    def chain(crate, task):
        if (crate, task) not in chains:
            waits = [(crate, "proof"), (crate, "tests")] if task == "edits" else [(it, "proof") for it in below[crate]]
            seconds, names = max((chain(*it) for it in waits), default=(0.0, []))
            own = length_of(checks, crate, task)
            chains[crate, task] = (seconds + own, [*names, f"{crate} {task} {own:.0f}"] if own else names)
        return chains[crate, task]

    return max(chain(crate, task) for crate in below for task in ("proof", "tests", "edits"))


def print_table(checks, below, edits):
    print(f"{'crate':<18} {'proof':>7} {'tests':>7} {'edits':>6} {'checks':>7} {'first':>7} {'each':>6} {'sum':>7}")
    sums = [0.0] * 4
    for crate in below:
        costs = costs_of_edits(checks, crate)
        row = [spent_on(checks, crate, "proof"), spent_on(checks, crate, "tests"), sum(costs)]
        row.append(sum(row))
        sums = [a + b for a, b in zip(sums, row)]
        first, each = (costs[0] if costs else 0.0), (sum(costs[1:]) / edits[crate] if edits[crate] else 0.0)
        print(f"{crate:<18} {row[0]:7.0f} {row[1]:7.0f} {edits[crate]:6} {len(costs):7} {first:7.0f} {each:6.1f} {row[3]:7.0f}")
    print(f"all: proofs {sums[0]:.0f}, tests {sums[1]:.0f}, edits {sums[2]:.0f}, together {sums[3]:.0f} processor seconds")


def main(out, command):
    below = crates_of_this_folder()
    log = f"{out}/gate.log"
    checks, status, processor, clock = watch(command, log)
    print_table(checks, below, edits_told(log))
    seconds, names = longest_chain(checks, below)
    print(f"longest chain, {seconds:.0f} s by the clock: {', '.join(names)}")
    processors = len(os.sched_getaffinity(0))
    print(f"the whole gate: {processor / 60:.1f} processor minutes, {clock / 60:.1f} minutes on {processors} processors")
    with open(log, encoding="utf-8", errors="replace") as file:
        lines = file.read().rstrip("\n").split("\n")
    print(lines[-1])
    notes = [it for it in lines if re.search(r"^(?:rt: )?edit \S+: [A-Z]|NOT PROVED|FAILED|^minutes", it)]
    print("\n".join(notes), end="\n" if notes else "")
    return status


if __name__ == "__main__":
    sys.exit(main(sys.argv[1], sys.argv[2:]))
