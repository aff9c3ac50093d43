"""What judges the runs of three hosts finds each thing that is wrong: a small run that was made by hand, and spoiled in one place."""

import contextlib
import io
import os
import shutil
import sys
import tempfile
import unittest

sys.path.insert(0, os.path.join(os.path.dirname(os.path.abspath(__file__)), "cluster"))

import journals  # noqa: E402
import verify  # noqa: E402
from harness import FOLDER  # noqa: E402

HEAD = "by {} 0 " + "0" * 64 + "\t"
ENTRIES = [HEAD.format("a 1 1") + "with 2 9 - 0 l0,l1\there 7 u0\t7 1 acquire l0 5",
           HEAD.format("b 2 1") + "with 2 9 - 0 l0,l1\there 8 a10.0.0.1\there 8 a10.0.0.2\t8 1 acquire l0 6\t8 1 acquire l0 6",
           HEAD.format("a 1 2") + "7 2 release l0 1",
           HEAD.format("a 1 2") + "7 2 release l0 1",
           HEAD.format("b 2 2") + "here 7 u0\t8 2 release l0 2\t9 1 acquire l1 1",
           HEAD.format("a 1 3") + "7 3 acquire l1 1"]
FIRST = ["did 7 1 1.0 1.1 acquire l0 5 | granted l0 1", "inside l0 1 1.2 1.3", "wrote l0 1", "did 7 2 1.4 1.5 release l0 1 | released l0"]
SECOND = ["did 8 1 1.0 1.2 acquire l0 6 | waiting l0 0", "granted 8 l0 2", "inside l0 2 1.6 1.7", "wrote l0 2", "did 8 2 1.8 1.9 release l0 2 | released l0"]
JUDGES = (verify.judge_log, verify.judge_answers, verify.judge_holds, verify.judge_files)


class Verify(unittest.TestCase):
    def setUp(self):
        self.folder = tempfile.mkdtemp(prefix="wozgirt-", dir=FOLDER)
        self.addCleanup(shutil.rmtree, self.folder)

    def wrong(self, entries=None, first=None, second=None, files=None):
        """What is found wrong, by its first word."""
        entries, first, second = entries or ENTRIES, first or FIRST, second or SECOND
        self.write("log.txt", [f"{i} {i + 9} {it}" for i, it in enumerate(entries, 1) if it])
        self.write("client.0.txt", first)
        self.write("client.1.txt", second)
        for name in "abc":
            for place in (f"kept/{name}", f"server.{name}/journal"):
                self.write(f"{place}/0000000001.ring", ["a segment"])
            self.write(f"kept/{name}/5.checkpoint", ["a checkpoint"])
            self.write(f"server.{name}/journal/0000000002.ring", ["one"] if name == "b" else ["one", "two"])
        for name, lines in (files or {}).items():
            self.write(name, lines)
        run = verify.Run(self.folder, ["l0", "l1"])
        with contextlib.redirect_stdout(io.StringIO()):
            for judge in JUDGES:
                judge(run)
        return sorted({it.split()[0] for it in run.wrong})

    def write(self, name, lines):
        path = os.path.join(self.folder, name)
        os.makedirs(os.path.dirname(path), exist_ok=True)
        with open(path, "w", encoding="ascii") as file:
            file.write("".join(f"{line}\n" for line in lines))

    def test_a_right_run(self):
        self.assertEqual(self.wrong(), [])

    def test_the_second_reading(self):
        self.wrong()
        reading = verify.Run(self.folder, ["l0", "l1"]).reading
        self.assertEqual(reading.locks.grants, [("l0", 1, 7, 5), ("l0", 2, 8, 6)])
        self.assertEqual((reading.done, reading.again, reading.ignored), (4, 3, 1))

    def test_the_second_reading_of_any_name(self):
        """A name has tokens above all grants before it was in use; those of the list count from 1."""
        asks = ["7 1 acquire l0 5", "7 2 acquire x 1", "8 1 acquire x 2", "7 3 release x 2", "7 4 try y 3", "8 2 release x 3", "7 5 try x 4",
                "7 6 release l0 1", "8 3 try l0 6"]
        entry = HEAD.format("a 1 1") + "\t".join(["with 2 9 - 0 l0:8:8,*:2:2 65536", "here 7 u0", "here 8 u0", *asks])
        self.wrong(entries=[entry])
        reading = verify.Run(self.folder, ["l0", "*"]).reading
        self.assertEqual(reading.locks.grants, [("l0", 1, 7, 5), ("x", 2, 7, 1), ("x", 3, 8, 2), ("y", 4, 7, 3), ("x", 5, 7, 4), ("l0", 2, 8, 6)])

    def test_a_gap_in_the_log(self):
        self.assertEqual(self.wrong(entries=[*ENTRIES[:3], "", *ENTRIES[4:]]), ["entries"])

    def test_an_input_that_is_done_twice(self):
        again = HEAD.format("a 1 3") + "here 7 u0\tgone 7\there 7 u0\t7 2 release l0 1"
        self.assertIn("inputs", self.wrong(entries=[*ENTRIES[:4], again, ENTRIES[4]]))

    def test_answers_that_the_log_does_not_have(self):
        for line in ("did 7 1 1.0 1.1 acquire l0 5 | waiting l0 0", "did 7 9 1.0 1.1 acquire l0 5 | granted l0 1",
                     "did 7 1 1.0 1.1 acquire l1 5 | granted l0 1", "did 7 1 1.0 1.1 try l0 5 | granted l0 1"):
            with self.subTest(line=line):
                self.assertIn("answers", self.wrong(first=[line, *FIRST[1:]]))

    def test_an_input_before_one_that_was_answered_before(self):
        late = "did 7 1 1.95 1.99 acquire l0 5 | granted l0 1"
        self.assertEqual(self.wrong(first=[late, *FIRST[1:]]), ["inputs,"])

    def test_grants(self):
        self.assertIn("grants", self.wrong(second=[SECOND[0], "granted 8 l0 3", *SECOND[2:]]))
        self.assertIn("grants", self.wrong(second=[SECOND[0], "granted 7 l0 2", *SECOND[2:]]))
        self.assertIn("grants", self.wrong(second=[*SECOND[:2], *SECOND[1:]]))

    def test_two_inside(self):
        self.assertEqual(self.wrong(second=[*SECOND[:2], "inside l0 2 1.25 1.7", *SECOND[3:]]), ["times"])
        self.assertEqual(self.wrong(second=[*SECOND[:2], "inside l0 1 1.6 1.7", *SECOND[3:]]), ["times"])

    def test_a_write_without_a_grant(self):
        self.assertEqual(self.wrong(first=[*FIRST, "wrote l1 1"]), ["writes"])

    def test_files_that_differ(self):
        self.assertEqual(self.wrong(files={"kept/b/5.checkpoint": ["another"]}), ["positions"])
        self.assertEqual(self.wrong(files={"kept/b/0000000001.ring": ["another"]}), ["segments"])
        self.assertEqual(self.wrong(files={"server.c/journal/0000000001.ring": ["a"]}), ["segments"])
        self.assertEqual(self.wrong(files={"server.c/journal/0000000002.ring": ["one", "three"]}), ["segments"])


class Journals(unittest.TestCase):
    def test_holds_of_any_name(self):
        first = ("ringsegment 1 1 3\nbehind 0\nbase 0 0 0 0\nbase 0 0 0 0\nbase 0 0 0 0\nringjournal 1\nringfarm 2\ndone 3\n# floor 0\n"
                 "0 p 0 0 5 g 1 5\n# name 1 0 1 x\n1 p 0 0 6 g 1 6\n1 s 1 1 1 1 1 0\n1 p 0 1 7 g 2 13\n# name 2 0 3 y\n2 p 0 0 8 g 1 8\n"
                 "1 s 2 2 1 0 2 0\n# free 1\n0 c 8 1 1 0\n0 p 9 0 0 g 2 5\n")
        second = ("ringsegment 1 2 3\nbehind 0\nbase 3 2 0 5\nbase 2 2 0 13\nbase 1 1 0 8\nringjournal 1\nringfarm 2\ndone 3\n# floor 5\n"
                  "# name 2 0 3 y\n2 s 1 1 1 1 1 0\n# free 2\n# name 1 2 5 y\n1 p 0 0 9 g 1 9\n# name 2 1 6 z")
        with tempfile.TemporaryDirectory(dir=FOLDER) as folder:
            for name, text in (("locks", "a 8 8\n* 2 2\n"), ("0000000001.ring", first), ("0000000002.ring", second)):
                with open(os.path.join(folder, name), "w", encoding="ascii") as file:
                    file.write(text)
            self.assertEqual(journals.holds(folder), [
                (True, "a", 1, 5), (True, "x", 2, 6), (False, "x"), (True, "x", 3, 7), (True, "y", 4, 8), (False, "x"), (False, "y"),
                (True, "y", 6, 9)])


if __name__ == "__main__":
    unittest.main()
