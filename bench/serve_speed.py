#!/usr/bin/env python3
"""serve_speed.py RING_TOOL HISTORY: how many calls a second `serve` answers, and its round trip beside that of `cat`."""
import subprocess
import sys
import time

CALLS = 1_000_000
TRIPS = 20_000


def piped(words, calls):
    """Sends all calls at once from a file, and returns how many were answered in a second."""
    with open("calls.txt", "w") as file:
        file.writelines(f"pass 0 {i % 10} {i % 3} {i % 100}\n" for i in range(calls))
    with open("calls.txt") as file, open("answers.txt", "w") as out:
        begun = time.time()
        subprocess.run(words, stdin=file, stdout=out, stderr=subprocess.DEVNULL, check=True)
        took = time.time() - begun
    return calls / took


def trips(words, line, count=TRIPS):
    """Sends one line after the other, and returns how many came back in a second."""
    it = subprocess.Popen(words, stdin=subprocess.PIPE, stdout=subprocess.PIPE, stderr=subprocess.DEVNULL, bufsize=0)
    begun = time.time()
    for _ in range(count):
        it.stdin.write(line)
        it.stdout.readline()
    took = time.time() - begun
    it.stdin.close()
    it.wait()
    return count / took


def main(tool, history):
    serve = [tool, "serve", history]
    print(f"calls a second, {CALLS} at once: {piped(serve, CALLS):,.0f}")
    print(f"  with a journal and --no-sync: {piped([*serve, '--journal', 'journal.1', '--no-sync'], CALLS):,.0f}")
    print(f"  with a journal that is synced: {piped([*serve, '--journal', 'journal.2'], CALLS // 10):,.0f}")
    cat, plain = trips(["cat"], b"glance 0\n"), trips(serve, b"glance 0\n")
    noted = trips([*serve, "--journal", "journal.3", "--no-sync"], b"pass 0 0 0 1\n")
    print(f"one by one: cat {cat:,.0f}, serve {plain:,.0f}, with a journal and --no-sync {noted:,.0f}; "
          f"{cat / plain:.2f} and {cat / noted:.2f} times cat")
    synced = trips([*serve, "--journal", "journal.4"], b"pass 0 0 0 1\n", TRIPS // 10)
    print(f"  with a journal that is synced: {synced:,.0f}")


if __name__ == "__main__":
    main(*sys.argv[1:])
