#!/usr/bin/env python3
"""repairs.py RING_TOOL [RUNS [SEED]]: `ring_tool repairs` beside models/drawn_repairs.py, which has only the definitions.

Compares every byte that is printed, with histograms: each state of each size of at most 5 machines and at most 6 values, under each
daemon; and RUNS drawn runs, 1,000 unless it is said: of drawn sizes, starts, daemons, trials and seeds, by 1 to 8 threads. Of each
size of the former, and of each tenth run, the picture is judged too (models/repair_picture.py). SEED, 0 unless it is said, is that
of the drawn words. Prints how many runs there were, and each that differs; the status is 1 if one does."""

import os
import random
import subprocess
import sys
import tempfile

sys.path.insert(0, os.path.join(os.path.dirname(os.path.realpath(__file__)), "..", "models"))

import drawn_repairs as model
import repair_picture

MOST_MACHINES, MOST_VALUES = 5, 6


def all_states():
    """Words for each state of each small size."""
    for n in range(2, MOST_MACHINES + 1):
        for k in range(n, MOST_VALUES + 1):
            for daemon in model.DAEMONS:
                yield [f"{n}:{k}", "--from", "all", "--daemon", daemon], True


def drawn(words):
    """Drawn words."""
    sizes = []
    for _ in range(words.choice((1, 1, 2, 3))):
        n = words.randint(2, words.choice((4, 8, 20)))
        sizes.append(f"{n}:{words.choice((n, n + 1, words.randint(n, 65536)))}")
    least = min(int(size.split(":")[0]) for size in sizes)
    start = words.choice(("any", f"faults:{words.randint(0, least)}"))
    return sizes + [
        *("--from", start),
        *("--daemon", words.choice(model.DAEMONS)),
        *("--trials", str(words.choice((1, 2, 10, 100)))),
        *("--seed", str(words.choice((0, 1, 2**64 - 1, words.getrandbits(64))))),
    ]


def differences(tool, words, with_picture, threads, folder):
    """What differs in a run of these words."""
    asked, sizes, _ = model.asked_by(words)
    picture = os.path.join(folder, "picture.svg")
    more = ["--histogram", "--threads", str(threads)] + ["--picture", picture] * with_picture
    ran = subprocess.run([tool, "repairs", *words, *more], capture_output=True, check=False, timeout=600)
    wanted = "".join(f"{text}\n" for text in model.answer(asked, sizes, True)).encode()
    if (ran.returncode, ran.stderr, ran.stdout) != (0, b"", wanted):
        yield f"status {ran.returncode}, printed {ran.stdout!r} {ran.stderr!r}, and not {wanted!r}"
    elif with_picture:
        with open(picture, "rb") as it:
            yield from repair_picture.faults(it.read(), asked, sizes, [model.measured(asked, n, k)[0] for n, k in sizes])


def main():
    tool = os.path.realpath(sys.argv[1])
    runs, seed = (int(word) for word in (sys.argv[2:] + ["1000", "0"][len(sys.argv) - 2 :]))
    words = random.Random(seed)
    rows = [*all_states(), *((drawn(words), i % 10 == 0) for i in range(runs))]
    wrong = 0
    with tempfile.TemporaryDirectory() as folder:
        for given, with_picture in rows:
            for fault in differences(tool, given, with_picture, words.randint(1, 8), folder):
                wrong += 1
                print(" ".join(given), fault)
    print(f"{len(rows)} runs, {wrong} wrong")
    sys.exit(bool(wrong))


if __name__ == "__main__":
    main()
