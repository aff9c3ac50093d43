#!/usr/bin/env python3
"""run.py FOLDER SECONDS [FILE [TEST..]]: runs the unittests of a folder, or of a file in it, each for at most LIMIT seconds: one that
hangs fails, and the next begins. When SECONDS are over, a test that runs is given up, and no other is begun: these are skipped, since
a busy machine is no fault. The files of a folder run side by side, in processes of their own, but for those that keep a machine busy:
they come last, one after the other. Where no more than FEW tests have failed, each is then tried once more with nothing beside it, and
counts as that ends; what it said at first stays printed. The last line is `N passed, M failed, K skipped`."""

import collections
import contextlib
import os
import re
import shutil
import signal
import subprocess
import sys
import tempfile
import time
import unittest
from concurrent.futures import ThreadPoolExecutor

from harness import FOLDER, stop_all

LIMIT, LAST_LIMIT = 180, 30
# Most tests wait most of their time
SIDE_BY_SIDE = 2 * len(os.sched_getaffinity(0))
BUSY = ("test_floods.py", "test_noise.py")

#: more failed tests than these are no chance
FEW = 3
FAILED = "failed: "

#: groups of the processes that run files, and the folder for what they make
RUNNING, ROOM = set(), []
#: seconds that they have to end in order
SOON = 2


class Result(unittest.TextTestResult):
    """A result with an eye on the clock."""

    def __init__(self, folder, tests, end):
        super().__init__(unittest.runner._WritelnDecorator(sys.stdout), True, 1)
        self.folder, self.count, self.end = folder, tests.countTestCases(), end

    def startTest(self, test):
        super().startTest(test)
        left = self.end - time.monotonic()
        signal.signal(signal.SIGALRM, self.stop_it if left > LIMIT else self.give_up)
        signal.setitimer(signal.ITIMER_REAL, max(0.01, min(left, LIMIT)))

    def stopTest(self, test):
        signal.setitimer(signal.ITIMER_REAL, 0)
        super().stopTest(test)

    def stop_it(self, *_):
        """The test fails; if it does not even end then, nothing more is tried."""
        signal.signal(signal.SIGALRM, lambda *_: self.finish({"a test hangs": self.count - self.testsRun}, 1))
        signal.setitimer(signal.ITIMER_REAL, LAST_LIMIT)
        raise AssertionError(f"it takes longer than {LIMIT} s")

    def give_up(self, *_):
        self.finish({"no time is left": 1 + self.count - self.testsRun}, 0)

    def finish(self, left_out, hung):
        """Says what came of it, and ends the process, whatever its threads do."""
        signal.setitimer(signal.ITIMER_REAL, 0)
        stop_all()
        self.printErrors()
        why = collections.Counter(left_out)
        why.update(reason for _, reason in self.skipped)
        for reason, times in why.items():
            print(f"skipped: {times} of {self.folder}: {reason}")
        for test, _ in self.failures + self.errors:
            print(FAILED + getattr(test, "test_case", test).id())
        failed = len(self.failures) + len(self.errors) + len(self.unexpectedSuccesses) + hung
        skipped = sum(why.values())
        print(f"{max(0, self.count - failed - skipped)} passed, {failed} failed, {skipped} skipped", flush=True)
        os._exit(1 if failed else 0)


def run_file(folder, file, end, tests=()):
    """Runs the tests of a file, or these, in a process of its own, and ends what that leaves behind. Returns what it prints, and its
    counts."""
    words = [sys.executable, os.path.realpath(__file__), folder, str(end - time.monotonic()), file, *tests]
    with tempfile.TemporaryFile("w+", encoding="utf-8", errors="replace") as told:
        ran = subprocess.Popen(words, stdin=subprocess.DEVNULL, stdout=told, stderr=subprocess.STDOUT, start_new_session=True)
        RUNNING.add(ran.pid)
        ran.wait()
        end_group(ran.pid)
        RUNNING.remove(ran.pid)
        told.seek(0)
        lines = told.read().rstrip("\n").split("\n")
    counts = re.fullmatch(r"(\d+) passed, (\d+) failed, (\d+) skipped", lines[-1])
    if not counts:
        return [*lines, f"{file} ended with status {ran.returncode}, and no counts"], (0, 1, 0)
    return lines[:-1], tuple(map(int, counts.groups()))


def run_again(folder, ran, end):
    """The counts of what has failed in a folder and passes with nothing beside it, if it was little."""
    failed = [line.removeprefix(FAILED) for lines, _ in ran for line in lines if line.startswith(FAILED)]
    if not 0 < sum(counts[1] for _, counts in ran) == len(set(failed)) <= FEW:
        return 0
    passed = 0
    for test in failed:
        lines, counts = run_file(folder, test.split(".")[0] + ".py", end, [test])
        passed += counts == (1, 0, 0)
        print(*lines, f"tried again: {test}: {'passed' if counts == (1, 0, 0) else 'failed'}", sep="\n")
    return passed


def end_group(group):
    with contextlib.suppress(ProcessLookupError):
        os.killpg(group, signal.SIGKILL)


def end_all(number, _):
    """What runs files is in other groups, so it is ended here where this process is told to end."""
    for group in list(RUNNING):
        with contextlib.suppress(ProcessLookupError):
            os.killpg(group, signal.SIGTERM)
    end = time.monotonic() + SOON
    while RUNNING and time.monotonic() < end:
        time.sleep(0.02)
    for group in list(RUNNING):
        end_group(group)
    for folder in ROOM:
        shutil.rmtree(folder, ignore_errors=True)
    os._exit(128 + number)


def give_up_file(number, _):
    """The same for the process that runs one."""
    stop_all()
    os._exit(128 + number)


@contextlib.contextmanager
def room():
    """A folder for all that is made meanwhile. Other users may come through, as some tests want."""
    folder = tempfile.mkdtemp(prefix="wozgirt-run-", dir=FOLDER)
    os.chmod(folder, 0o755)
    ROOM.append(folder)
    os.environ["TMPDIR"] = folder
    try:
        yield
    finally:
        shutil.rmtree(folder, ignore_errors=True)


def run_folder(folder, seconds):
    signal.signal(signal.SIGINT, end_all)
    signal.signal(signal.SIGTERM, end_all)
    end = time.monotonic() + seconds
    files = sorted(it for it in os.listdir(folder) if it.startswith("test_") and it.endswith(".py"))
    with room():
        with ThreadPoolExecutor(SIDE_BY_SIDE) as pool:
            ran = list(pool.map(lambda file: run_file(folder, file, end), (it for it in files if it not in BUSY)))
        ran += [run_file(folder, file, end) for file in files if file in BUSY]
        again = run_again(folder, ran, end)
    reasons = collections.Counter()
    for lines, _ in ran:
        for line in lines:
            reason = re.fullmatch(r"skipped: (\d+) of .*?: (.*)", line)
            if reason:
                reasons[reason[2]] += int(reason[1])
            elif line:
                print(line)
    for reason, times in reasons.items():
        print(f"skipped: {times} of {folder}: {reason}")
    passed, failed, skipped = map(sum, zip(*(counts for _, counts in ran)))
    passed, failed = passed + again, failed - again
    print(f"{passed} passed, {failed} failed, {skipped} skipped", flush=True)
    return 1 if failed else 0


def main():
    folder, seconds, *files = sys.argv[1:]
    if not files:
        sys.exit(run_folder(folder, float(seconds)))
    signal.signal(signal.SIGTERM, give_up_file)
    tests = unittest.defaultTestLoader.discover(folder, pattern=files[0], top_level_dir=folder)
    if files[1:]:
        tests = unittest.defaultTestLoader.loadTestsFromNames(files[1:])
    result = Result(folder, tests, time.monotonic() + float(seconds))
    tests.run(result)
    result.finish({}, 0)


if __name__ == "__main__":
    main()
