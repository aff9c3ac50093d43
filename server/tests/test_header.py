"""The client in C, `clients/c/wozgirt_lock.h`, with a server; that of several is also compiled here."""

import os
import re
import shutil
import subprocess
import tempfile
import unittest

from harness import PATIENCE, TOP, Server, needs_programs, say

INCLUDE = os.path.join(TOP, "clients", "c")
STRICT = ["-Wall", "-Wextra", "-Wpedantic", "-Werror"]
#: seconds that a compiler may take, which on a quiet machine takes a few
TO_BUILD = 10 * PATIENCE
SOURCE = os.path.join(TOP, "server", "tests", "lock_client.c")
TOLD = """\
nowhere 3 0
No such file or directory
open 0 0
open 0 0
acquire 0 1
try 1 0
late 1 0
release 0 0
in time 0 2
not its own 2 0
refused holder a
no such 2 0
no name 4 0
two words 4 0
check 0 0
waited for 0 2
closed 3 0
after it left 0 3
gone 3 0
"""


def compiles(compiler, *words, include=INCLUDE):
    it = subprocess.run([compiler, *STRICT, "-I", include, *words], capture_output=True, text=True, timeout=TO_BUILD, check=False)
    return it.returncode == 0, it.stderr


def patient_headers(folder):
    """A copy of the headers by which a server that answers is in time, however late it is: for what is to be seen when it has answered."""
    copied = shutil.copytree(INCLUDE, os.path.join(folder, "include"))
    with open(os.path.join(copied, "wozgirt_lock.h"), "r+", encoding="ascii") as file:
        text, count = re.subn(r"\bWOZGIRT_LOCK_WITHDRAWAL = \d+", f"WOZGIRT_LOCK_WITHDRAWAL = {PATIENCE * 1000}", file.read())
        if count != 1:
            raise AssertionError(f"the time of a withdrawal is set {count} times")
        file.seek(0)
        file.truncate()
        file.write(text)
    return copied


@needs_programs
@unittest.skipUnless(shutil.which("cc"), "no C compiler")
class Header(unittest.TestCase):
    def test_a_program(self):
        with tempfile.TemporaryDirectory() as folder, Server(locks="a,b") as server, server.raw() as holder:
            program = os.path.join(folder, "lock_client")
            built = compiles("cc", "-std=c11", "-O1", "-o", program, SOURCE, include=patient_headers(folder))
            self.assertEqual(built, (True, ""))
            self.assertEqual(say(holder, "acquire b 1\n"), ["granted b 1"])
            it = subprocess.Popen([program, server.path], stdin=subprocess.PIPE, stdout=subprocess.PIPE, text=True)
            lines = [it.stdout.readline() for _ in range(15)]  # it waits for `b` behind these
            server.wait_for_waiters("b", 1)
            say(holder, "release b 1\n")
            lines += [it.stdout.readline() for _ in range(3)]
            server.stop()
            lines.append(it.communicate("\n", timeout=PATIENCE)[0])
            self.assertEqual(it.returncode, 0)
            self.assertEqual("".join(lines), TOLD)
            labels = [line.split()[4] for line in server.calls() if line.split()[1] == "p"]
            self.assertEqual(labels, ["1", "77", "78", str(2 ** 64 - 1), "79"])

    def test_they_are_c_and_cpp(self):
        code = ('#include "wozgirt_session.h"\nint main() { struct wozgirt_lock_client it; struct wozgirt_session all; '
                'return wozgirt_lock_open(&it, "/") == 0 || wozgirt_session_open(&all, "/", 1000) == 0; }\n')
        with tempfile.TemporaryDirectory() as folder:
            for compiler, end, words in (("cc", "c", ["-std=c99"]), ("cc", "c", ["-O2"]), ("clang", "c", ["-std=c11"]),
                                         ("c++", "cpp", ["-std=c++17"]), ("c++", "cpp", ["-std=c++11"])):
                if shutil.which(compiler):
                    source = os.path.join(folder, "header." + end)
                    with open(source, "w", encoding="ascii") as file:
                        file.write(code)
                    self.assertEqual(compiles(compiler, *words, "-o", os.path.join(folder, "header"), source), (True, ""))

    def test_it_is_short(self):
        with open(os.path.join(INCLUDE, "wozgirt_lock.h"), encoding="ascii") as file:
            self.assertLessEqual(len(file.readlines()), 200)


if __name__ == "__main__":
    unittest.main()
