"""The trials beside the tests: what they leave behind where they are ended early, and which of their parts can be named."""

import os
import signal
import subprocess
import sys
import tempfile
import unittest

from harness import FOLDER, NO_ANY_NAME, PATIENCE, needs_programs, remove, takes_any_name, wait_until

HERE = os.path.dirname(os.path.abspath(__file__))
#: A test that makes a folder, and then waits.
WAITS = """import tempfile, time, unittest
class Waits(unittest.TestCase):
    def test_it(self):
        folder = tempfile.mkdtemp()
        open(folder + "/begun", "w").close()
        time.sleep(60)
"""


#: a process that makes files in a folder, as an engine may whose server was killed
MAKES_FILES = 'for number in $(seq 3000); do : >"$0/$number" || exit; done'


def files_in(folder):
    return [name for _, _, names in os.walk(folder) for name in names]


def processes_of(folder):
    """How many processes have the folder among their words."""
    found = 0
    for number in filter(str.isdigit, os.listdir("/proc")):
        try:
            with open(f"/proc/{number}/cmdline", "rb") as file:
                found += folder.encode() in file.read()
        except OSError:
            pass  # it has ended
    return found


class EndedEarly(unittest.TestCase):
    """By SIGTERM, as ./test ends what there is no time for: no folder is left, and no process."""

    def leaves_nothing(self, begun, *words):
        """`begun` is the name of a file that shows that it has begun."""
        with tempfile.TemporaryDirectory(dir=FOLDER) as folder:
            # other users may come through, as with the system's own folder
            os.chmod(folder, 0o755)
            trial = subprocess.Popen([sys.executable, *words], cwd=HERE, env={**os.environ, "TMPDIR": folder}, start_new_session=True,
                                     stdout=subprocess.DEVNULL, stderr=subprocess.DEVNULL)
            try:
                wait_until(lambda: begun in files_in(folder) or trial.poll() is not None)
                self.assertIsNone(trial.poll())
                trial.terminate()
                self.assertEqual(trial.wait(PATIENCE), 128 + signal.SIGTERM)
            finally:
                trial.kill()
                trial.wait()
            wait_until(lambda: processes_of(folder) == 0)
            self.assertEqual(os.listdir(folder), [])

    def test_tests(self):
        with tempfile.TemporaryDirectory(dir=FOLDER) as tests:
            with open(os.path.join(tests, "test_it.py"), "w", encoding="ascii") as file:
                file.write(WAITS)
            self.leaves_nothing("begun", os.path.join(HERE, "run.py"), tests, "60")

    @needs_programs
    def test_kills(self):
        self.leaves_nothing("lock.sock", "crash.py", "60")

    @needs_programs
    @unittest.skipUnless(takes_any_name(), NO_ANY_NAME)
    def test_kills_with_any_name(self):
        self.leaves_nothing("lock.sock", "crash.py", "60", "--any-name")

    @needs_programs
    def test_restarts(self):
        self.leaves_nothing("lock.sock", "restarts.py", "full")

    @needs_programs
    def test_restarts_beside_a_model(self):
        self.leaves_nothing("lock.sock", "told", "60")

    @needs_programs
    def test_load(self):
        self.leaves_nothing("lock.sock", "load.py")


class Removed(unittest.TestCase):
    def test_a_folder_in_which_files_are_still_made(self):
        folder = tempfile.mkdtemp(dir=FOLDER)
        with subprocess.Popen(["sh", "-c", MAKES_FILES, folder], stderr=subprocess.DEVNULL) as makes:
            self.addCleanup(makes.kill)
            wait_until(lambda: files_in(folder))
            remove(folder)
            self.assertFalse(os.path.exists(folder))


class LeftOut(unittest.TestCase):
    @unittest.skipIf(takes_any_name(), "the engine takes `*`")
    def test_any_name(self):
        it = subprocess.run([sys.executable, "crash.py", "60", "--any-name"], cwd=HERE, capture_output=True, text=True, timeout=PATIENCE, check=False)
        self.assertEqual((it.returncode, it.stdout), (0, f"skipped: crash with any name: {NO_ANY_NAME}\n0 passed, 0 failed\n"))


class Parts(unittest.TestCase):
    def test_a_part_that_there_is_not(self):
        for words in (["20", "1", "host-7"], ["20", "1", "locks-0", "nothing"]):
            it = subprocess.run([sys.executable, "power.py", *words], cwd=HERE, capture_output=True, text=True, timeout=PATIENCE, check=False)
            self.assertEqual((it.returncode, it.stdout), (2, ""))
            self.assertRegex(it.stderr, f"^power.py: of 20 cuts there is no part {words[-1]}; there are .*locks-0.*\n$")


if __name__ == "__main__":
    unittest.main()
