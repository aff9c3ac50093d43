"""Farms in turns: the program beside `models/in_turn.py`, on drawn settings."""

import json
import os
import random
import subprocess
import sys
import unittest

from harness import ENGINE, IS_DOUBLE, TOP, needs_programs

sys.path.insert(0, os.path.join(TOP, "models"))
import in_turn  # noqa: E402

MOST_SEED = 2**64 - 1


def drawn_action(draw, rings):
    place = draw.randrange(len(rings))
    machine = draw.randrange(rings[place]["n"])
    return draw.choice([["survey", place], ["pass", place, machine, draw.randrange(100)], ["corrupt", place, machine, draw.randrange(rings[place]["k"])]])


def drawn_seat(draw, rings):
    if draw.randrange(2):
        return {"seed": draw.randrange(MOST_SEED + 1), "actions": draw.randrange(30)}
    return {"script": [drawn_action(draw, rings) for _ in range(draw.randrange(30))]}


def drawn_settings(draw):
    sizes = [(n, n + draw.randrange(3)) for n in (draw.randrange(2, 7) for _ in range(draw.randrange(1, 4)))]
    rings = [{"n": n, "k": k, "start": [draw.randrange(k) for _ in range(n)]} for n, k in sizes]
    settings = {"rings": rings, "workers": [drawn_seat(draw, rings) for _ in range(draw.randrange(1, 10))]}
    if draw.randrange(2):
        settings["injector"] = drawn_seat(draw, rings)
    return settings


def printed(settings, seed):
    words = [ENGINE, "run", "-", "--in-turn", str(seed), "--history", "-"]
    return subprocess.run(words, input=json.dumps(settings), capture_output=True, text=True, timeout=60, check=True).stdout


@needs_programs
@unittest.skipIf(IS_DOUBLE, "the engine's double has no farms")
class Beside(unittest.TestCase):
    def test_the_model(self):
        draw = random.Random(1)
        for number in range(100):
            settings, seed = drawn_settings(draw), draw.choice([0, MOST_SEED, draw.randrange(MOST_SEED)])
            with self.subTest(number=number):
                self.assertEqual(printed(settings, seed), in_turn.saved(settings, seed))


if __name__ == "__main__":
    unittest.main()
