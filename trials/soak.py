"""Draws settings, runs them, checks what was saved, and damages it, for trials/soak.sh. Words: the program, a folder to work
in, the minutes, and the seed of the first round. Each round has a seed of its own, so that one can be repeated."""

import json
import os
import random
import subprocess
import sys
import time

sys.path.insert(0, os.path.join(os.path.dirname(os.path.abspath(__file__)), "..", "models"))
from small_checker import answer  # noqa: E402

EXTREMES = [0, 1, 2, 2**32 - 1, 2**32, 2**63, 2**64 - 2, 2**64 - 1]
DAMAGES_A_ROUND = 12

# the most machines of a ring, and the most values
MACHINES, VALUES = 1024, 65536


class Difference(Exception):
    pass


def drawn_number(rng, limit):
    """Mostly small or at an end of the range, sometimes anywhere in it."""
    return rng.choice([rng.randrange(limit), min(rng.choice(EXTREMES), limit - 1), rng.randrange(min(limit, 8))])


def drawn_ring(rng):
    n = rng.choice([2, 2, 3, 4, rng.randrange(2, 17), rng.randrange(2, 257), rng.randrange(2, MACHINES + 1)])
    k = rng.choice([n, n + 1, rng.randrange(n, max(n, 256) + 1), max(n, 256), max(n, 257), rng.randrange(n, VALUES + 1), VALUES])
    return {"n": n, "k": k, "start": [rng.randrange(k) if rng.random() < 0.7 else 0 for _ in range(n)]}


def drawn_action(rng, rings):
    ring = rng.randrange(len(rings))
    machine = rng.randrange(rings[ring]["n"])
    return rng.choice([
        ["pass", ring, machine, drawn_number(rng, 2**64)],
        ["pass", ring, machine, drawn_number(rng, 2**64)],
        ["corrupt", ring, machine, rng.randrange(rings[ring]["k"])],
        ["survey", ring],
    ])


def drawn_seat(rng, rings):
    actions = rng.choice([0, 1, rng.randrange(30), rng.randrange(400)])
    if rng.random() < 0.5:
        return {"script": [drawn_action(rng, rings) for _ in range(actions)]}
    return {"seed": drawn_number(rng, 2**64), "actions": actions}


def drawn_settings(rng):
    rings = [drawn_ring(rng) for _ in range(rng.choice([1, 1, 2, 3, rng.randrange(1, 17)]))]
    settings = {"rings": rings, "workers": [drawn_seat(rng, rings) for _ in range(rng.randrange(1, 10))]}
    if rng.random() < 0.6:
        settings["injector"] = drawn_seat(rng, rings)
    return settings


def damaged(rng, text):
    """A text with one byte or one number changed, or a line that is doubled, left out, moved or cut short."""
    lines = text.split(b"\n")
    at, how = rng.choice([0, rng.randrange(len(lines))]) if rng.random() < 0.1 else rng.randrange(len(lines)), rng.randrange(7)
    if how == 0:
        place = rng.randrange(len(text))
        return text[:place] + bytes([rng.randrange(256)]) + text[place + 1 :]
    if how in (1, 2, 3):
        words = lines[at].split(b" ")
        word = rng.randrange(len(words))
        old = int(words[word]) if words[word].isdigit() else 0
        words[word] = str(max(0, rng.choice([old + 1, old - 1, drawn_number(rng, 2**64)]))).encode()
        lines[at] = b" ".join(words)
    elif how == 4:
        lines.insert(at, rng.choice(lines))
    elif how == 5:
        del lines[at]
    else:
        return text[: rng.randrange(len(text))]
    return b"\n".join(lines)


class Soak:
    def __init__(self, program, room):
        self.program, self.room = program, room
        self.runs = self.events = self.damages = self.still_legal = 0

    def call(self, *words):
        ran = subprocess.run([self.program, *words], cwd=self.room, capture_output=True, timeout=300)
        return ran.returncode, ran.stdout.decode(), ran.stderr.decode()

    def check(self, text):
        """Compares the program's answer to a text with the small checker's; answers whether it is legal."""
        with open(f"{self.room}/checked.txt", "wb") as file:
            file.write(text)
        status, out, err = self.call("check", "checked.txt")
        wanted, is_legal = answer(text)
        got = out if is_legal else err
        if (status, got) != (0 if is_legal else 1, wanted + "\n") or (err if is_legal else out):
            raise Difference(f"check says {status} {out!r} {err!r}, the small checker {wanted!r} (checked.txt)")
        return wanted if is_legal else None

    def round(self, rng):
        settings = drawn_settings(rng)
        with open(f"{self.room}/settings.json", "w", encoding="utf-8") as file:
            json.dump(settings, file)
        status, out, err = self.call("run", "settings.json", "--history", "history.txt")
        if status or err:
            raise Difference(f"run says {status} {err!r} (settings.json)")
        with open(f"{self.room}/history.txt", "rb") as file:
            text = file.read()
        legal = self.check(text)
        if legal is None or sums_of(out) != sums_of_check(legal):
            raise Difference(f"the report says {sums_of(out)}, check {legal!r} (settings.json, history.txt)")
        self.runs, self.events = self.runs + 1, self.events + int(legal.split()[4])
        for _ in range(DAMAGES_A_ROUND):
            self.still_legal += self.check(damaged(rng, text)) is not None
            self.damages += 1


def sums_of(report):
    """Rings, events, granted passes, corruptions and surveys, added up over the ring lines of a report."""
    rows = [line.split() for line in report.splitlines() if line.startswith("ring ")]
    places = [list(map(int, row[7:16:2])) for row in rows]
    sums = [sum(it) for it in zip(*places)] if places else [0] * 5
    total = report.splitlines()[-1].split()
    if list(map(int, total[2::2])) != [len(rows), sums[0], sums[1], sums[4]]:
        raise Difference(f"the total is not that of the rings: {report!r}")
    return [len(rows), sums[0], sums[1], sums[3], sums[4]]


def sums_of_check(line):
    return list(map(int, line.split()[2::2]))


def main(program, room, minutes, first):
    soak, end, seed = Soak(program, room), time.monotonic() + 60 * float(minutes), int(first)
    print(f"first seed {seed}", flush=True)
    while time.monotonic() < end:
        try:
            soak.round(random.Random(seed))
        except Difference as difference:
            print(f"seed {seed}: {difference}; the files are in {room}, trials/soak.sh 0.01 {seed} repeats it")
            return 1
        seed += 1
    if "HOSTILE_ROWS" in os.environ:
        with open(os.environ["HOSTILE_ROWS"], "a", encoding="utf-8") as rows:
            rows.write(f"drawn settings, from seed {first}: run, reported, checked alike\t{soak.runs}\t0\n")
            rows.write(f"damaged texts of them: refused alike by a second checker\t{soak.damages}\t0\n")
    print(f"runs {soak.runs} events {soak.events} damaged texts {soak.damages} of which still legal {soak.still_legal} differences 0")
    return 0


if __name__ == "__main__":
    sys.exit(main(*sys.argv[1:]))
