"""Lines, without a server."""

import importlib
import inspect
import os
import re
import shutil
import subprocess
import sys
import tempfile
import typing
import unittest
import zipfile
from unittest import mock

PYTHON = os.path.dirname(os.path.dirname(os.path.abspath(__file__)))
sys.path.insert(0, PYTHON)

import build_backend  # noqa: E402
import wozgirt  # noqa: E402
from wozgirt import lines  # noqa: E402


class Lines(unittest.TestCase):
    def test_what_is_said(self):
        self.assertEqual(lines.acquire("deploy", 7), b"acquire deploy 7\n")
        self.assertEqual(lines.acquire("deploy", 7, "try"), b"try deploy 7\n")
        self.assertEqual(lines.release("a", 2 ** 64 - 1), b"release a 18446744073709551615\n")
        self.assertEqual(lines.cancel("a"), b"cancel a\n")
        self.assertEqual(lines.lease(1.5), b"lease 1500\n")
        self.assertEqual(lines.lease(0.0001), b"lease 1\n")
        self.assertEqual([lines.lease_of(*it) for it in ((None, "/a"), (2, "/a"), (None, ("a", 1)), (2, ("a", 1)))],
                         [b"lease\n", b"lease 2000\n", b"lease 30000\n", b"lease 2000\n"])

    def test_a_text_is_a_label_by_its_number(self):
        self.assertEqual([lines.label_number(it) for it in (7, "", "7", "build 17", "caf\u00e9")],
                         [7, 16406829232824261652, 8719647946811673230, 13517601641504243330, 9588020413419552649])
        self.assertEqual(lines.acquire("deploy", "build 17"), f"acquire deploy {wozgirt.label_number('build 17')}\n".encode())

    def test_the_page_shows_the_number_of_a_text(self):
        with open(os.path.join(PYTHON, "README.md"), encoding="utf-8") as file:
            block = re.search(r"<!-- played: clients/python/tests/test_lines.py -->\n\n((?:    .*\n)+)", file.read())[1]
        shown = [line[4:] for line in block.splitlines()]
        commands = [(line[2:], told) for line, told in zip(shown, shown[1:]) if line.startswith("$ ")]
        self.assertEqual(len(commands), 2)
        for command, told in commands:
            done = subprocess.run(["bash", "-c", command], env=dict(os.environ, PYTHONPATH=PYTHON), capture_output=True, text=True, check=True)
            self.assertEqual(done.stdout, told + "\n", command)

    def test_what_is_never_said(self):
        lines.acquire(f"{'x' * 120}/aZ.9_-", 0)
        for name in ("", "a b", "a\nleave", "\u00e9", "a\t", "a*", "a,b", "x" * 129):
            with self.assertRaises(ValueError):
                lines.acquire(name, 0)
        for number in (-1, 2 ** 64):
            with self.assertRaises(ValueError):
                lines.acquire("a", number)
        with self.assertRaises(TypeError):
            lines.acquire("a", 1.5)
        for time in (0, -1, float("nan"), float("inf")):
            with self.assertRaises(ValueError):
                lines.lease(time)

    def test_what_may_answer_what(self):
        for asked, words, is_taken in (
                (b"acquire a 1\n", "granted a 7", True), (b"acquire a 1\n", "waiting a 2", True), (b"acquire a 1\n", "granted b 7", False),
                (b"acquire a 1\n", "granted a", False), (b"acquire a 1\n", "granted a 7 7", False), (b"acquire a 1\n", "granted a -7", False),
                (b"acquire a 1\n", f"granted a {2 ** 64}", False), (b"acquire a 1\n", "busy a", False), (b"try a 1\n", "busy a", True),
                (b"try a 1\n", "waiting a 1", False), (b"release a 7\n", "released a", True), (b"release a 7\n", "released b", False),
                (b"cancel a\n", "cancelled a", True), (b"cancel a\n", "refused waiter a", True), (b"cancel a\n", "refused waiter b", False),
                (b"acquire a 1\n", "refused connections", True), (b"leave\n", "left", True), (b"leave\n", "left a", False),
                (b"lease 5\n", "lease 5", True), (b"lease 5\n", "lease x", False),
                (b"lease\n", "lease 0", True), (b"lease\n", "refused syntax", True), (b"lease\n", "lease", False), (b"ping\n", "pong", True), (b"ping\n", "left", False)):
            with self.subTest(asked=asked, words=words):
                question = lines.Question(asked, 0.0)
                if is_taken:
                    question.hear(words.split())
                    self.assertTrue(question.is_answered)
                else:
                    with self.assertRaises(wozgirt.LockLost):
                        question.hear(words.split())

    def test_the_lines_of_a_status(self):
        question = lines.Question(b"status\n", 0.0)
        for line in ("status 2", "lock a free - - - - 0 0 0 0", "lock b held 7 77 12 1500 2 250 9 3000"):
            self.assertFalse(question.is_answered)
            question.hear(line.split())
        self.assertEqual((question.is_answered, [it.name for it in question.locks]), (True, ["a", "b"]))

    def test_a_lock_that_was_gone_before_its_line_was_sent(self):
        question = lines.Question(b"status\n", 0.0)
        for line in ("status 2", "lock * free - - - - 0 0 0 0", "lock order/4711 held 7 77 8813 0 0 0 1 0"):
            question.hear(line.split())
        self.assertEqual((question.is_answered, [it.name for it in question.named_locks]), (True, ["order/4711"]))

    def test_refusals_have_their_class(self):
        for word, kind in (("holds", wozgirt.Holds), ("waits", wozgirt.Waits), ("circle", wozgirt.Circle),
                           ("holder", wozgirt.NotHolder), ("waiter", wozgirt.NotWaiter), ("lock", wozgirt.NoSuchLock),
                           ("permission", wozgirt.NotPermitted), ("waiters", wozgirt.TooMany), ("many", wozgirt.TooMany),
                           ("names", wozgirt.TooMany),
                           ("other", wozgirt.Refused)):
            error = lines.refusal(["refused", word, "a"])
            self.assertIs(type(error), kind)
            self.assertEqual((error.why, error.lock), (word, "a"))
            self.assertIsInstance(error, wozgirt.LockError)
        self.assertIsNone(lines.refusal(["granted", "a", "1"]))

    def test_status(self):
        it = lines.status("lock deploy held 7 77 12 1500 2 250 9 3000".split())
        self.assertEqual(it, wozgirt.LockStatus("deploy", "held", 7, 77, 12, 1.5, 2, 0.25, 9, 3.0))
        self.assertIsNone(lines.status("lock a free - - - - 0 0 0 0".split()).token)
        for text in ("lock a", "lock a held x 7 1 1 1 1 1 1"):
            with self.assertRaises(wozgirt.LockLost):
                lines.status(text.split())


class Annotations(unittest.TestCase):
    """What a checker of types needs, since the package says by py.typed that it has it."""

    def functions(self):
        for name in ("aio", "aio_session", "client", "library", "lines", "local", "lock", "nesting", "process", "refusals", "ring",
                     "session", "turns", "wire"):
            module = importlib.import_module(f"wozgirt.{name}")
            for it in vars(module).values():
                if getattr(it, "__module__", None) == module.__name__:
                    parts = filter(inspect.isfunction, [it, *getattr(it, "__dict__", {}).values()])
                    yield from (part for part in parts if part.__code__.co_filename == module.__file__)  # not what a class made

    def test_each_parameter_has_one(self):
        for function in self.functions():
            given = inspect.signature(function)
            names = [name for name in given.parameters if name not in ("self", "cls")]
            if function.__qualname__.endswith("__init__"):
                names += [] if names else ["return"]
            else:
                names.append("return")
            self.assertLessEqual(set(names), set(function.__annotations__), function.__qualname__)

    @unittest.skipIf(sys.version_info < (3, 9), "generic types of the standard library came with 3.9")
    def test_they_can_be_read(self):
        for function in self.functions():
            typing.get_type_hints(function)

    @unittest.skipUnless(shutil.which("mypy"), "mypy is not installed")
    def test_a_list_of_texts_is_several_servers(self):
        program = ('from wozgirt import Lock, Session, aio\nservers: list[str] = ["/a", "/b"]\n'
                   'Lock(servers, "a")\nSession(servers)\naio.Lock(servers, "a")\n')
        with tempfile.TemporaryDirectory() as folder:
            path = os.path.join(folder, "uses.py")
            with open(path, "w", encoding="ascii") as file:
                file.write(program)
            ran = subprocess.run(["mypy", "--strict", "--cache-dir", folder, path], capture_output=True, text=True, check=False,
                                 env=dict(os.environ, MYPYPATH=PYTHON))
        self.assertIn("checked 1 source file", ran.stdout)
        self.assertNotIn("uses.py:", ran.stdout)


class Wheel(unittest.TestCase):
    def test_it_has_the_package_and_its_record(self):
        with tempfile.TemporaryDirectory() as folder:
            with mock.patch.dict(os.environ):
                os.environ.pop("WOZGIRT_LIBRARY", None)
                name = build_backend.build_wheel(folder)
            self.assertEqual(name, f"wozgirt-{wozgirt.__version__}-py3-none-any.whl")
            with zipfile.ZipFile(os.path.join(folder, name)) as wheel:
                self.assertIsNone(wheel.testzip())
                names = wheel.namelist()
                record = wheel.read(f"wozgirt-{wozgirt.__version__}.dist-info/RECORD").decode()
            self.assertEqual([line.split(",")[0] for line in record.splitlines()], names)
            self.assertLessEqual({"wozgirt/__init__.py", "wozgirt/aio.py", "wozgirt/ring.py", "wozgirt/py.typed"}, set(names))
            code = f"import sys; sys.path.insert(0, {os.path.join(folder, name)!r}); import wozgirt; print(wozgirt.__file__)"
            found = subprocess.run([sys.executable, "-Sc", code], capture_output=True, text=True, cwd="/", check=True)
            self.assertIn(".whl/", found.stdout)


if __name__ == "__main__":
    unittest.main()
