#!/usr/bin/env python3
"""locks_speed.py RING_TOOL FOLDER [LINES]: what `ring_tool locks` costs, beside `serve`, in one run.

Tells how many lines a second are answered, if so many (2,000,000) are sent at once with --no-sync: by one client, by 64 clients in
one line, by one client of a lock before a pool and of a new name each time, and granted passes of `serve`, each with a journal in a
folder; the instructions of an acquire and a release beside those of two passes of `serve` (with valgrind, if that is there); and the
memory of a client that waits. FOLDER is made, and removed."""
import os
import shutil
import subprocess
import sys
import time

PAIRS = 20_000
WAITERS = [500_000, 700_000, 1_000_000]


def one_client(count):
    """Lines of one client that acquires and releases, again and again."""
    for token in range(1, count // 2 + 1):
        yield f"1 acquire a {token % 100}\n1 release a {token}\n"


def in_line(count, clients=64):
    """Lines of so many clients: each asks again when it has released, so all but one wait."""
    for client in range(1, clients + 1):
        yield f"{client} acquire a 7\n"
    for token in range(1, (count - clients) // 2 + 1):
        client = (token - 1) % clients + 1
        yield f"{client} release a {token}\n{client} acquire a 7\n"


def new_names(count):
    """Lines of one client that acquires and releases a new name each time: its token is the number of all grants."""
    for token in range(1, count // 2 + 1):
        yield f"1 acquire order/{token} 7\n1 release order/{token} {token}\n"


def passes(count):
    """Lines of granted passes: the machines of a ring of eight in turn."""
    for i in range(count):
        yield f"pass 0 0 {i % 8} {i % 100}\n"


# the list, and the lines of its clients
LOADS = {"one client": ("a", one_client), "64 clients in one line": ("a", in_line), "one client, a lock before a pool": ("a,*", one_client),
         "one client, a new name each time": ("*", new_names)}


def write(name, lines):
    with open(name, "w") as file:
        file.writelines(lines)


def words_of(tool, listed):
    """The words of `locks` with this list, or, without one, of `serve`."""
    shutil.rmtree("journal", ignore_errors=True)
    os.mkdir("journal")
    if not listed:
        return [tool, "serve", "fresh.txt", "--journal", "journal", "--no-sync"]
    return [tool, "locks", "--journal", "journal", "--locks", listed, "--no-sync"]


def run(words):
    with open("lines.txt") as lines, open("answers.txt", "w") as out:
        begun = time.time()
        subprocess.run(words, stdin=lines, stdout=out, stderr=subprocess.DEVNULL, check=True)
        return time.time() - begun


def speed(tool, listed, lines, count):
    write("lines.txt", lines)
    return count / min(run(words_of(tool, listed)) for _ in range(3))


def instructions(tool, listed, lines):
    write("lines.txt", lines)
    said = subprocess.run(["valgrind", "--tool=callgrind", "--callgrind-out-file=callgrind.out", *words_of(tool, listed)],
                          stdin=open("lines.txt"), stdout=subprocess.DEVNULL, stderr=subprocess.PIPE, text=True, check=True).stderr
    return int(next(line for line in said.splitlines() if "Collected" in line).split()[-1])


def each(tool, listed, make, per):
    """The instructions of a piece: of twice as many lines less those of as many."""
    return (instructions(tool, listed, make(2 * per * PAIRS)) - instructions(tool, listed, make(per * PAIRS))) / PAIRS


def memory(tool, waiters):
    """The memory of a process in which so many clients wait, in bytes."""
    write("lines.txt", (f"{client} acquire a 7\n" for client in range(1, waiters + 2)))
    it = subprocess.Popen(words_of(tool, "a"), stdin=subprocess.PIPE, stdout=open("answers.txt", "w"), stderr=subprocess.DEVNULL)
    with open("lines.txt", "rb") as lines:
        shutil.copyfileobj(lines, it.stdin)
    it.stdin.flush()
    last = f"{waiters + 1} waiting a {waiters - 1}\n" if waiters else "1 granted a 1\n"
    while not open("answers.txt").read()[-len(last):] == last:
        time.sleep(0.1)
    with open(f"/proc/{it.pid}/status") as status:
        resident = next(int(line.split()[1]) * 1024 for line in status if line.startswith("VmRSS"))
    it.stdin.close()
    it.wait()
    return resident


def main(tool, folder, count="2000000"):
    tool, count = os.path.abspath(tool), int(count)
    shutil.rmtree(folder, ignore_errors=True)
    os.mkdir(folder)
    os.chdir(folder)
    write("fresh.txt", ["ringfarm 2\nring 0 8 8\nstart 0 0 0 0 0 0 0 0\nend 0\ndone 1\n"])
    served = speed(tool, None, passes(count), count)
    for what, (listed, make) in LOADS.items():
        locked = speed(tool, listed, make(count), count)
        print(f"lines a second, {what}: {locked:,.0f}; granted passes of serve: {served:,.0f}; ratio {locked / served:.2f}")
    if shutil.which("valgrind"):
        two = each(tool, None, passes, 2)
        for what, (listed, make) in LOADS.items():
            pair = each(tool, listed, make, 2)
            print(f"instructions of an acquire and a release, {what}: {pair:,.0f}; of two passes of serve: {two:,.0f}; {pair - two:+,.0f}")
    none = memory(tool, 0)
    for waiters in WAITERS:
        print(f"memory of each of {waiters:,} clients that wait: {(memory(tool, waiters) - none) / waiters:.0f} bytes")
    shutil.rmtree(os.getcwd())


if __name__ == "__main__":
    main(*sys.argv[1:])
