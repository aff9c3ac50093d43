"""The states of saved histories and after choices, and rings in motion: the program beside `models/states.py`, `models/steps.py` and
`models/motion.py`, which are written from FORMATS and the rule alone, and `examples/repairs.py`, which plots the states."""

import glob
import os
import random
import subprocess
import sys
import tempfile
import unittest
import xml.etree.ElementTree

from harness import ENGINE, IS_DOUBLE, TOP, needs_programs

HISTORIES = [os.path.join(TOP, "examples", "repair.txt"), *glob.glob(os.path.join(TOP, "tests", "rows", "data", "*.txt"))]
MODEL = [sys.executable, "-B", os.path.join(TOP, "models", "states.py")]
STEPS = [sys.executable, "-B", os.path.join(TOP, "models", "steps.py")]
MOTION = [sys.executable, "-B", os.path.join(TOP, "models", "motion.py")]


def printed(*words, text=None):
    return subprocess.run(words, input=text, capture_output=True, text=True, timeout=60, check=True).stdout


class Plots(unittest.TestCase):
    def test_the_repairs_of_a_history(self):
        states = printed(*MODEL, HISTORIES[0], "--csv")
        with tempfile.TemporaryDirectory() as folder:
            plot = os.path.join(folder, "plot.svg")
            said = printed(sys.executable, "-B", os.path.join(TOP, "examples", "repairs.py"), "0", plot, text=states)
            self.assertEqual(said, "fault at event 61: 9 passes\nfault at event 113: 1 passes\n")
            picture = xml.etree.ElementTree.parse(plot).getroot()
        name = "{http://www.w3.org/2000/svg}"
        curves = [it.get("points").split() for it in picture.iter(f"{name}polyline")]
        self.assertEqual([len(it) for it in curves], [161, 161])
        self.assertEqual([it[0] for it in curves], ["40.0,40.0", "40.0,40.0"])
        self.assertEqual(len(list(picture.iter(f"{name}path"))), 2)
        self.assertEqual([it.text for it in picture.iter(f"{name}text")], ["rest, at most 44", "privileged, at most 8", "160 events"])


@needs_programs
@unittest.skipIf(IS_DOUBLE, "the engine's double has no states")
class Beside(unittest.TestCase):
    def test_the_model(self):
        self.assertGreater(len(HISTORIES), 3)
        for history in HISTORIES:
            for form in ([], ["--csv"], ["--json"], ["--ring", "0", "--csv"]):
                with self.subTest(history=os.path.basename(history), form=form):
                    self.assertEqual(printed(ENGINE, "states", history, *form), printed(*MODEL, history, *form))
            lines = printed(ENGINE, "report", history, "--repairs").split("\nrepairs ring", 1)
            self.assertEqual(f"repairs ring{lines[1]}", printed(*MODEL, history, "--repairs"))

    def test_the_model_of_choices(self):
        drawn = random.Random(93)
        for n in (2, 3, 4, 7, 30, 1024):
            for k in (n, n + 1, 65536):
                start = ",".join(str(drawn.randrange(k)) for _ in range(n))
                choices = ",".join(str(drawn.randrange(n)) for _ in range(20))
                with self.subTest(n=n, k=k):
                    words = (str(n), str(k), start, choices)
                    self.assertEqual(printed(ENGINE, "step", *words, "--states"), printed(*STEPS, *words))

    def test_the_model_of_motion(self):
        for history in HISTORIES:
            for most in ("2000", "2"):
                with self.subTest(history=os.path.basename(history), most=most):
                    drawn = printed(ENGINE, "picture", history, "-", "--animate", "--events", most)
                    self.assertEqual(drawn, printed(*MOTION, history, "0", "0", most))


if __name__ == "__main__":
    unittest.main()
