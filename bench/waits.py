"""Compares forms of the wait for a ring's lock, for bench/waits.sh. Words: the program, the number of rounds, the number of busy
loops, and the forms."""

import os
import re
import statistics
import subprocess
import sys

FORMS = "none", "door", "flag", "yields", "few-yields", "short", "pauses", "long"
CLIENTS = 2, 4, 9
# passes of all clients, by the spins before each
PASSES = {0: 300_000, 100: 200_000, 300: 110_000, 1000: 36_000}


def run(program, form, clients, spins, *more):
    """Microseconds by the clock, processor seconds, and the longest pass in microseconds."""
    words = [program, clients, PASSES[spins] // clients, spins, FORMS.index(form), *more]
    with subprocess.Popen([str(it) for it in words], stdout=subprocess.PIPE, text=True) as started:
        told = started.stdout.read()
        _, status, spent = os.wait4(started.pid, 0)
        started.returncode = status
    found = re.match(r"(\d+) events, (\d+) us, longest pass (\d+) us", told)
    if status or not found or int(found[1]) != PASSES[spins] // clients * clients:
        sys.exit(f"{words}: {told.strip()}, status {status}")
    return int(found[2]), spent.ru_utime + spent.ru_stime, int(found[3])


def compare(program, rounds, forms, clients, spins):
    """Of each form the ratios to none, by the clock and by processor, and the longest pass."""
    plain, watched = {it: [] for it in forms}, {it: [] for it in forms}
    for turn in range(rounds):
        for form in forms if turn % 2 else forms[::-1]:
            plain[form].append(run(program, form, clients, spins))
            if turn % 3 == 0:
                watched[form].append(run(program, form, clients, spins, "longest")[2])
    ratios = {}
    for form in forms:
        pairs = list(zip(plain[form], plain["none"]))
        clock, processor = (statistics.median(own[i] / none[i] for own, none in pairs) for i in (0, 1))
        ratios[form] = clock, processor, statistics.median(watched[form]) / 1000
    return ratios


def main(program, rounds, busy, *forms):
    forms = ["none", *[it for it in forms or FORMS if it != "none"]]
    worst = dict.fromkeys(forms, 0.0)
    print("| Busy loops | Clients | Spins | Form | Clock | Processor | Longest pass, ms |")
    print("|---|---|---|---|---|---|---|")
    for count in sorted({0, int(busy)}):
        loops = [subprocess.Popen(["sh", "-c", "while :; do :; done"]) for _ in range(count)]
        try:
            for clients in CLIENTS:
                for spins in PASSES:
                    found = compare(program, int(rounds), forms, clients, spins)
                    for form, (clock, processor, longest) in found.items():
                        worst[form] = max(worst[form], clock)
                        row = f"{count} | {clients} | {spins} | {form} | {clock:.2f} | {processor:.2f} | {longest:.1f}"
                        print(f"| {row} |", flush=True)
        finally:
            for it in loops:
                it.kill()
                it.wait()
    for form in forms:
        print(f"{form}: at most {worst[form]:.2f} by the clock")


if __name__ == "__main__":
    main(*sys.argv[1:])
