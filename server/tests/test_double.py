"""The engine's double does what the engine does: both get the same lines, over stops, kills and damaged files, and then their answers and
what their journals have are compared. Where the engine is not there, nothing is tried."""

import os
import random
import shutil
import subprocess
import tempfile
import unittest

import journals
from harness import DOUBLE, ENGINE, FOLDER, IS_DOUBLE, IS_BUILT, takes_any_name

LIST, ANY = "a:3,b:4:5", "a:3,*"


def dialogue(draw, count, names, first):
    """So many lines of three sessions and three clients without one. Of sessions some are sent again; the numbers begin at `first`."""
    number, lines = dict.fromkeys((7, 8, 9), first), []
    for _ in range(count):
        client, name, label = draw.choice((3, 4, 5, 7, 8, 9)), draw.choice(names), draw.randrange(100)
        line = draw.choice((f"acquire {name} {label}", f"acquire {name} {label}", f"try {name} {label}", f"release {name} {draw.randrange(9)}",
                            f"release {name} {draw.randrange(9)}", f"cancel {name}", f"stats {name}", "leave", f"corrupt {name} 1 0"))
        if client in number and line != "leave" and not line.startswith("stats"):
            number[client] += draw.random() < 0.8
            lines.append(f"{client} {number[client]} {client} {line}")
        elif client in number and line == "leave":
            lines.append(f"{client} {number[client]} forget")
        else:
            lines.append(f"{client} {line}")
    return lines


def end(draw, folder):
    """What a kill, or a loss of power, leaves of the last segment: all of it, or not all of its last line."""
    path = os.path.join(folder, journals.segments(folder)[-1])
    with open(path, encoding="ascii") as file:
        text = file.read()
    cut = draw.choice(("", "1", "0 p", "# 7 1 did 7 gr"))
    with open(path, "w", encoding="ascii") as file:
        file.write(text + cut)


class Side:
    """The engine, or its double, with a folder."""

    def __init__(self, program, top):
        self.program, self.folder = program, os.path.join(top, os.path.basename(program))
        os.mkdir(self.folder)

    def run(self, lines, *words):
        """Its answers and its status."""
        given = "".join(f"{line}\n" for line in lines)
        done = subprocess.run([self.program, "locks", "--journal", self.folder, "--no-sync", *words], input=given, capture_output=True, text=True,
                              check=False)
        return [line for line in done.stdout.splitlines() if not line.startswith("total ")], done.returncode

    def has(self):
        """What the journal has: its calls, holds and list, and the remarks of the last segment."""
        remarks = [line for line in list(journals.texts(self.folder))[-1].splitlines() if line.startswith("#")]
        with open(os.path.join(self.folder, "locks"), encoding="ascii") as file:
            locks = file.read()
        calls = sorted(_without_amount(call) for call in journals.calls(self.folder))
        return {"segments": len(journals.segments(self.folder)), "locks": locks, "calls": calls, "remarks": remarks,
                "holds": sorted(journals.holds(self.folder), key=str)}

    def holds(self):
        """What it says of the holds in its journal, in its order."""
        done = subprocess.run([self.program, "holds", self.folder], capture_output=True, text=True, check=False)
        return done.stdout.splitlines(), done.returncode


def _without_amount(call):
    """The engine counts moves and amounts of a ring anew in each segment; its double, which has no bases, goes on."""
    words = call.split(" ")
    return " ".join(words[:7] if words[1] == "p" else words[:3] if words[1] == "s" else words)


@unittest.skipIf(not IS_BUILT or IS_DOUBLE or not os.access(DOUBLE, os.X_OK), "the engine, or its double, is not built")
class Both(unittest.TestCase):
    def setUp(self):
        self.top = tempfile.mkdtemp(prefix="wozgirt-", dir=FOLDER)
        self.addCleanup(shutil.rmtree, self.top, ignore_errors=True)
        self.sides = [Side(program, self.top) for program in (ENGINE, DOUBLE)]

    def both(self, lines, *words):
        """Both answer the same, and then have the same: the answers."""
        (engine, code), (double, its_code) = (side.run(lines, *words) for side in self.sides)
        self.assertEqual((double, its_code), (engine, code))
        has = [side.has() for side in self.sides]
        self.assertEqual(has[1], has[0])
        return engine

    def play(self, seed, runs, names, *words):
        """So many runs of drawn lines, each with a damaged end, a look at what comes back, and holds that are given to clients."""
        draw = random.Random(seed)
        for run in range(runs):
            self.both(dialogue(draw, 40, names, 20 * run), *words)
            cut = draw.randrange(1 << 32)
            for side in self.sides:
                end(random.Random(cut), side.folder)
            state = self.both(["state"], *words)
            holds = [line.split() for line in state if line.startswith("hold ")]
            with open(os.path.join(self.top, "holders"), "w", encoding="ascii") as file:
                file.writelines(f"hold {name} {token} {7 + i}\n" for i, (_, name, token, _) in enumerate(holds[:2]))
            if holds:
                self.both(["7 99 did 7 busy a", "state"], *words, "--holders", os.path.join(self.top, "holders"))
            engine, double = (side.holds() for side in self.sides)
            self.assertEqual(double, engine)
            self.assertTrue(engine[0])
        for side in self.sides:
            shutil.rmtree(side.folder)
            os.mkdir(side.folder)

    def test_a_list(self):
        for seed in range(3):
            self.play(seed, 3, ("a", "b", "c"), "--locks", LIST, *(["--faults"] if seed % 2 else []))

    def test_segments(self):
        for seed in range(4, 6):
            self.play(seed, 3, ("a", "b"), "--locks", LIST, "--segment", "9", "--faults")

    @unittest.skipUnless(takes_any_name(), "the engine takes a list alone")
    def test_any_name(self):
        self.play(7, 2, ("a", "x", "y/1", "z"), "--locks", ANY)


if __name__ == "__main__":
    unittest.main()
