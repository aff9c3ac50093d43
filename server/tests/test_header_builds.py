"""How the headers for C and C++ are compiled: by each compiler that is here, without a warning, as header or linked; and that the
sanitizers of addresses and of undefined behaviour find nothing in the clients of the server."""

import os
import shutil
import subprocess
import tempfile
import unittest

import test_lock_header
import test_session_calls
from harness import PATIENCE, TOP
from header_clients import needs_c
from test_header import TO_BUILD

INCLUDE = os.path.join(TOP, "clients", "c")
STRICT = ["-Wall", "-Wextra", "-Wconversion", "-Wshadow", "-Wpedantic", "-Werror"]
STANDARDS = {"c": ["c99", "c11", "c17"], "c++": ["c++11", "c++14", "c++17", "c++20"]}
# a program of two files: each has the functions of its own, or both those of wozgirt_session.c
ONE = """#include "wozgirt_session.h"
int other(struct wozgirt_session *session);
int main(void)
{
    static struct wozgirt_session session;
    static struct wozgirt_lock_client client;
    uint64_t token = 0;
    return !(wozgirt_session_open(&session, "/nonexistent/a", 1000) == WOZGIRT_LOCK_LOST &&
             wozgirt_session_acquire(&session, "a", 1, 0, &token) == WOZGIRT_LOCK_LOST &&
             wozgirt_lock_open(&client, "/nonexistent/a") == WOZGIRT_LOCK_LOST &&
             wozgirt_lock_release(&client, "a", token) == WOZGIRT_LOCK_LOST && other(&session) == WOZGIRT_LOCK_LOST);
}
"""
OTHER = """#include "wozgirt_session.h"
int other(struct wozgirt_session *session);
int other(struct wozgirt_session *session)
{
    int result = wozgirt_session_check(session);
    wozgirt_session_close(session);
    return result;
}
"""
WAITS = '#include "wozgirt_wait.h"\n#include "wozgirt_session.h"\nint main(void) { return 0; }\n'


def can(*words):
    """Whether a program can be built so, and runs."""
    with tempfile.TemporaryDirectory() as folder:
        source, program = os.path.join(folder, "probe.c"), os.path.join(folder, "probe")
        with open(source, "w", encoding="ascii") as file:
            file.write("int main(void) { return 0; }\n")
        if subprocess.run(["cc", *words, "-o", program, source], capture_output=True, check=False).returncode != 0:
            return False
        return subprocess.run([program], capture_output=True, check=False).returncode == 0


SANITIZED = ["-g", "-fsanitize=address,undefined", "-fno-sanitize-recover=all"]
needs_sanitizers = unittest.skipUnless(shutil.which("cc") and can(*SANITIZED), "no sanitizers")


@needs_c
class Builds(unittest.TestCase):
    def setUp(self):
        self.folder = tempfile.mkdtemp()
        self.addCleanup(shutil.rmtree, self.folder)
        for name, text in (("one", ONE), ("other", OTHER), ("waits", WAITS)):
            with open(os.path.join(self.folder, name), "w", encoding="ascii") as file:
                file.write(text)

    def compiles(self, compiler, *words):
        it = subprocess.run([compiler, *STRICT, "-I", INCLUDE, *words], capture_output=True, text=True, timeout=TO_BUILD, check=False,
                            cwd=self.folder)
        self.assertEqual((it.returncode, it.stderr), (0, ""))

    def each_standard(self, compiler, language):
        if not shutil.which(compiler):
            self.skipTest(f"no {compiler}")
        for standard in STANDARDS[language]:
            with self.subTest(standard=standard):
                words = [f"-std={standard}", "-x", language]
                self.compiles(compiler, *words, "-c", "-o", "waits.o", "waits")
                for more, files in (([], []), (["-DWOZGIRT_SESSION_LINKED"], [os.path.join(INCLUDE, "wozgirt_session.c")])):
                    self.compiles(compiler, *words, *more, "-o", "program", "one", "other", *files)
                    it = subprocess.run([os.path.join(self.folder, "program")], timeout=PATIENCE, check=False)
                    self.assertEqual(it.returncode, 0)

    def test_gcc(self):
        self.each_standard("gcc", "c")

    def test_clang(self):
        self.each_standard("clang", "c")

    def test_gcc_as_cpp(self):
        self.each_standard("g++", "c++")

    def test_clang_as_cpp(self):
        self.each_standard("clang++", "c++")

    def test_with_optimization(self):
        for compiler in filter(shutil.which, ("gcc", "clang")):
            self.compiles(compiler, "-O2", "-x", "c", "-o", "program", "one", "other")

    def test_c_and_cpp_together(self):
        """A program in C++ uses a session that was compiled as C."""
        if shutil.which("c++"):
            self.compiles("cc", "-std=c99", "-c", "-o", "session.o", os.path.join(INCLUDE, "wozgirt_session.c"))
            self.compiles("c++", "-std=c++11", "-DWOZGIRT_SESSION_LINKED", "-o", "program", "-x", "c++", "one", "other", "-x", "none",
                          "session.o")

    def test_it_is_linked_once(self):
        """Declared alone, the functions are not in the program's own files."""
        self.compiles("cc", "-DWOZGIRT_SESSION_LINKED", "-c", "-o", "one.o", "-x", "c", "one")
        it = subprocess.run(["cc", "-o", "program", "one.o"], capture_output=True, text=True, timeout=TO_BUILD, check=False,
                            cwd=self.folder)
        self.assertNotEqual(it.returncode, 0)
        self.assertIn("wozgirt_session_open", it.stderr)

    def test_they_stand_alone(self):
        """The clients need no other file of the folder, and none of them is long."""
        names = ["wozgirt_connection.h", "wozgirt_lock.h", "wozgirt_session.h", "wozgirt_session.c"]
        for name in names:
            shutil.copy(os.path.join(INCLUDE, name), self.folder)
            with open(os.path.join(INCLUDE, name), encoding="ascii") as file:
                self.assertLess(len(file.readlines()), 500, name)
        subprocess.run(["cc", "-Wall", "-Werror", "-I", self.folder, "-o", "program", "-x", "c", "one", "other"], check=True,
                       timeout=TO_BUILD, cwd=self.folder)


@needs_sanitizers
class LockAnswers(test_lock_header.Answers):
    words = SANITIZED


@needs_sanitizers
class LockInterrupts(test_lock_header.Interrupts):
    words = SANITIZED


@needs_sanitizers
class SessionAnswers(test_session_calls.Answers):
    words = ["-DSESSION", *SANITIZED]


@needs_sanitizers
class SessionInterrupts(test_session_calls.Interrupts):
    words = ["-DSESSION", *SANITIZED]


@needs_c
class Linked(test_session_calls.Answers):
    """The session's functions in a file of their own."""

    words = ["-DSESSION", "-DWOZGIRT_SESSION_LINKED", os.path.join(INCLUDE, "wozgirt_session.c")]


if __name__ == "__main__":
    unittest.main()
