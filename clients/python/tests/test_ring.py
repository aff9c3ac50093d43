"""Rings, with the library that WOZGIRT_LIBRARY names; and what is refused before the library is asked."""

import copy
import ctypes
import gc
import hashlib
import inspect
import mmap
import os
import pickle
import re
import subprocess
import sys
import tempfile
import threading
import unittest
import zipfile

PYTHON = os.path.dirname(os.path.dirname(os.path.abspath(__file__)))
TOP = os.path.dirname(os.path.dirname(PYTHON))
sys.path.insert(0, PYTHON)

import build_backend  # noqa: E402
import wozgirt  # noqa: E402
from wozgirt import library, local, refusals, ring  # noqa: E402
from wozgirt.ring import Code, Event, Grant, Group, Kind, Ring, Sight, Sums, check  # noqa: E402

LIBRARY = os.environ.get("WOZGIRT_LIBRARY")
needs_library = unittest.skipUnless(LIBRARY, "WOZGIRT_LIBRARY names no library of rings")

TEXT = (b"ringfarm 2\nring 0 3 3\nstart 0 2 0\np 0 0 5 g 1 5\np 0 0 1 n\np 0 2 4 g 2 9\nend 3\n"
        b"s 0 3 1 1 2 0\ndone 1\n")

BEGUN = (b"ringsegment 1 1 1\nbehind " + b"0" * 64 + b"\nbase 0 0 0 0\nringjournal 1\nringfarm 2\nring 0 3 3\nstart 0 2 0\n")


def run(code, **variables):
    """What a program prints, and its status, or the last line of its standard error."""
    environment = {name: value for name, value in {**os.environ, "PYTHONPATH": PYTHON, **variables}.items() if value is not None}
    it = subprocess.run([sys.executable, "-B", "-c", code], capture_output=True, text=True, env=environment, timeout=60,
                        cwd="/", check=False)
    return it.stdout.strip(), it.returncode or it.stderr.strip(), (it.stderr.strip().splitlines() or [""])[-1]


def open_ring(seats=2):
    return Ring(3, 3, [0, 2, 0], seats)


class Numbers(unittest.TestCase):
    """A number that the library's types cannot hold never gets there; nor does what is no number. No library is needed."""

    def test_numbers_of_a_ring(self):
        for given in ((2 ** 32 + 3, 3, [0, 2, 0], 1), (3, 2 ** 32, [0, 2, 0], 1), (3, 3, [0, 2, 2 ** 32], 1), (3, 3, [0, 2, -1], 1),
                      (3, 3, [0, 2, 0], 2 ** 32), (3, 3, [0, 2, 0], -1)):
            for open_ in (Ring, Ring.idle):
                with self.assertRaises(ValueError) as caught:
                    open_(*given)
                self.assertNotIsInstance(caught.exception, ring.Refused)

    def test_numbers_of_a_call(self):
        it = Ring.__new__(Ring)
        for call in (lambda: it.pass_(2 ** 32, 0, 1), lambda: it.pass_(0, -1, 1), lambda: it.pass_(0, 0, 2 ** 64),
                     lambda: it.try_pass(2 ** 32, 0, 1), lambda: it.try_pass(0, 2 ** 32, 1), lambda: it.try_pass(0, 0, -1),
                     lambda: it.pass_group(2 ** 32, [1], 1), lambda: it.pass_group(0, [1, 2 ** 32], 1),
                     lambda: it.pass_group(0, [1], 2 ** 64), lambda: it.corrupt(0, 0, 2 ** 32), lambda: it.corrupt(0, -1, 0),
                     lambda: it.corrupt(2 ** 32, 0, 0), lambda: it.survey(-1), lambda: Ring.from_saved(b"", -1, 1),
                     lambda: Ring.from_saved(b"", 0, 2 ** 32), lambda: Ring.from_segment(b"", 2 ** 32)):
            with self.assertRaises(ValueError, msg=inspect.getsource(call)):
                call()

    def test_what_is_no_number(self):
        it = Ring.__new__(Ring)
        for call in (lambda: it.pass_(True, 0, 1), lambda: it.pass_(0, 0.0, 1), lambda: it.pass_(0, 0, "1"),
                     lambda: it.pass_(None, 0, 1), lambda: it.survey(False), lambda: it.pass_group(0, [True], 1),
                     lambda: it.pass_group(0, "12", 1), lambda: it.corrupt(0, 0, 1.5), lambda: Ring(3.0, 3, [0, 2, 0], 1),
                     lambda: Ring(3, 3, [0, True, 0], 1), lambda: Ring(3, 3, 7, 1), lambda: Ring.from_saved(b"", 0, True)):
            with self.assertRaises(TypeError, msg=inspect.getsource(call)):
                call()

    def test_what_is_no_text(self):
        for text in ("ringfarm 2\n", 7, None, [1]):
            with self.assertRaises(TypeError):
                check(text)
            with self.assertRaises(TypeError):
                Ring.from_saved(text, 0, 1)
            with self.assertRaises(TypeError):
                Ring.from_segment(text, 1)


class Refusals(unittest.TestCase):
    """Each code that refuses has a class of its own."""

    def test_the_codes_are_those_of_the_header(self):
        with open(os.path.join(TOP, "clients", "c", "wozgirt.h"), encoding="ascii") as file:
            header = file.read()
        codes = {name: int(value) for name, value in re.findall(r"^    WOZGIRT_(\w+) = (\d+)", header, re.MULTILINE)}
        texts = dict(re.findall(r'case WOZGIRT_(\w+): return "(.*)";', header))
        self.assertEqual({code.name: code.value for code in Code}, {name: codes[name] for name in texts})
        self.assertEqual({code.name: code.text for code in Code}, texts)

    def test_each_has_a_class(self):
        answers = {Code.DONE, Code.WAITS, Code.BUSY, Code.NO_MORE, Code.OPEN, Code.TOO_SMALL, Code.GRANTS_LEFT}
        errors = [refusals.error_of(code, machine=3, line=7) for code in Code if code not in answers]
        self.assertEqual([error.code for error in errors], [code for code in Code if code not in answers])
        self.assertEqual(len({type(error) for error in errors}), len(errors))
        for error in errors:
            module = local if error.code >= Code.NO_LOCK or error.code == Code.BAD_LOCKS else ring
            self.assertIs(getattr(module, type(error).__name__), type(error))
            self.assertIn(type(error).__name__, module.__all__)

    def test_they_are_what_a_reader_expects(self):
        self.assertTrue(issubclass(ring.NoMemory, MemoryError) and issubclass(ring.NoMemory, ring.Refused))
        self.assertTrue(issubclass(ring.BadSeats, ValueError) and issubclass(ring.BadStart, ring.Refused))
        self.assertFalse(issubclass(ring.NotLegal, ring.Refused))
        self.assertEqual(str(ring.NoSeat()), "there is no such seat")
        self.assertEqual(str(ring.NotPrivileged(4)), "machine 4 of the group is not privileged")
        self.assertEqual(str(ring.BadReply(6)), "line 6: reply")
        self.assertEqual(str(ring.Truncated()), "the saved text is cut short")
        self.assertIsInstance(refusals.error_of(15), RuntimeError)

    def test_they_pickle(self):
        for code in Code:
            error = refusals.error_of(code, machine=3, line=7)
            again = pickle.loads(pickle.dumps(error))
            self.assertEqual((type(again), str(again), again.__dict__), (type(error), str(error), error.__dict__))
        self.assertEqual(pickle.loads(pickle.dumps(ring.NotPrivileged(3))).machine, 3)
        self.assertEqual(pickle.loads(pickle.dumps(ring.BadCount(7))).line, 7)


@needs_library
class Rings(unittest.TestCase):
    def test_a_ring(self):
        with open_ring() as it:
            self.assertEqual(it.pass_(0, 0, 5), Grant(0, 1, 5))
            self.assertIsNone(it.try_pass(0, 0, 1))
            self.assertEqual(len(it), 1)
            self.assertIsNone(it.pass_(1, 0, 1))
            self.assertEqual(it.try_pass(0, 2, 4), Grant(2, 2, 9))
            self.assertEqual(it.glance(), Sight(3, 2, 0, 1, 1))
            self.assertEqual(it.pass_group(1, [1], 7), Group(3, 3, 16, 1))
            self.assertEqual(it.corrupt(0, 1, 2), 1)
            self.assertEqual(it.survey(1).position, 5)
            self.assertEqual((len(it), bool(it), repr(it)), (5, True, "<Ring, 5 events>"))
        self.assertEqual((bool(it), repr(it)), (False, "<Ring, closed>"))

    def test_a_ring_without_events_is_true(self):
        with open_ring() as it:
            self.assertEqual((len(it), bool(it)), (0, True))

    def test_its_text(self):
        with Ring(3, 3, iter([0, 2, 0]), 1) as it:
            it.pass_(0, 0, 5), it.pass_(0, 0, 1), it.pass_(0, 2, 4), it.survey(0)
            self.assertEqual(it.save(), TEXT)
        self.assertEqual(check(TEXT), Sums(1, 3, 2, 0, 1))

    def test_it_resumes(self):
        with Ring.from_saved(TEXT, 0, 1) as it:
            self.assertEqual(it.save(), TEXT)
            self.assertEqual(it.pass_(0, 1, 1), Grant(3, 3, 10))

    def test_texts_that_are_like_bytes(self):
        wanted = Sums(1, 3, 2, 0, 1)
        with mmap.mmap(-1, len(TEXT)) as room:
            room.write(TEXT)
            for text in (bytearray(TEXT), memoryview(TEXT), memoryview(bytearray(TEXT)), memoryview(TEXT[::-1])[::-1], room):
                self.assertEqual(check(text), wanted)
                with Ring.from_saved(text, 0, 1) as it:
                    self.assertEqual(len(it), 3)

    def test_an_idle_ring(self):
        with Ring.idle(3, 3, [0, 2, 0], 1) as it:
            self.assertEqual(it.pass_(0, 0, 5), Grant(0, 1, 0))
            with self.assertRaises(ring.NoTill):
                it.save()

    def test_refusals(self):
        with open_ring() as it:
            for call, error in ((lambda: it.pass_(2, 0, 1), ring.NoSeat), (lambda: it.try_pass(2, 0, 1), ring.NoSeat),
                                (lambda: it.pass_(0, 3, 1), ring.NoMachine), (lambda: it.corrupt(0, 0, 3), ring.NoValue),
                                (lambda: it.pass_group(0, [], 1), ring.NotRising), (lambda: it.pass_group(0, [2, 1], 1), ring.NotRising),
                                (lambda: it.pass_group(0, [0, 1, 2], 1), ring.WholeRing), (lambda: it.survey(2), ring.NoSeat)):
                with self.assertRaises(error) as caught:
                    call()
                self.assertIs(type(caught.exception), error)
            it.pass_(0, 0, 1)
            with self.assertRaises(ring.NotPrivileged) as caught:
                it.pass_group(0, [0, 1], 1)
            self.assertEqual((caught.exception.machine, caught.exception.code), (0, Code.NOT_PRIVILEGED))
            self.assertEqual(len(it), 1)

    def test_rings_that_are_not_opened(self):
        for given, error in (((3, 3, [0, 2, 0], 0), ring.BadSeats), ((3, 3, [0, 2, 0], 11), ring.BadSeats),
                             ((1, 3, [0], 1), ring.BadMachines), ((3, 2, [0, 1, 0], 1), ring.BadValues),
                             ((3, 3, [0, 2], 1), ring.BadLength), ((3, 3, [], 1), ring.BadLength), ((3, 3, [0, 3, 0], 1), ring.BadStart)):
            for open_ in (Ring, Ring.idle):
                with self.assertRaises(error):
                    open_(*given)
        with self.assertRaises(ring.NoRing):
            Ring.from_saved(TEXT, 1, 1)
        with self.assertRaises(ring.BadSeats):
            Ring.from_saved(TEXT, 0, 0)

    def test_texts_that_are_not_legal(self):
        for text, error, line in ((b"", ring.Truncated, 0), (TEXT[:-1], ring.Truncated, 0), (b"x" + TEXT[1:], ring.BadSyntax, 1),
                                  (TEXT.replace(b"g 2 9", b"g 2 8"), ring.BadReply, 6), (TEXT.replace(b"end 3", b"end 4"), ring.BadCount, 7),
                                  (TEXT.replace(b"3 3\n", b"3 2\n"), ring.BadParameter, 2), (TEXT.replace(b"0 2 4", b"0 3 4"), ring.BadRange, 6),
                                  (TEXT.replace(b"s 0 3 1 1", b"s 0 3 1 2"), ring.BadSurvey, 8)):
            with self.assertRaises(error) as caught:
                check(text)
            self.assertEqual(caught.exception.line, line)
            with self.assertRaises(error) as caught:
                Ring.from_saved(text, 7, 0)
            self.assertEqual(caught.exception.line, line)

    def test_a_closed_ring(self):
        it = open_ring()
        it.close()
        it.close()
        for call in (lambda: it.pass_(0, 0, 1), it.save, it.glance, lambda: len(it), lambda: it.event(0)):
            with self.assertRaises(ring.Closed):
                call()
        with it:
            self.assertFalse(it)

    def test_its_events(self):
        with Ring.from_saved(TEXT, 0, 1) as it:
            it.corrupt(0, 1, 0)
            wanted = [Event(Kind.PASSED, 0, 0, 5, 1, 5, 0), Event(Kind.WAITED, 0, 0, 1, 0, 0, 0), Event(Kind.PASSED, 0, 2, 4, 2, 9, 0),
                      Event(Kind.FAULT, 0, 1, 0, 0, 2, 0)]
            self.assertEqual(list(it), wanted)
            self.assertEqual(it.event(3), wanted[3])
            with self.assertRaises(ring.NoEvent):
                it.event(4)
            with self.assertRaises(IndexError):
                it.event(2 ** 64 - 1)

    def test_a_group_is_members(self):
        with Ring(4, 5, [0, 1, 0, 1], 1) as it:
            it.pass_group(0, [1, 2, 3], 7)
            self.assertEqual([(event.kind, event.machine, event.number, event.value) for event in it],
                             [(Kind.MEMBER, 3, 1, 2), (Kind.MEMBER, 2, 2, 1), (Kind.MEMBER, 1, 3, 0)])

    def test_a_journal(self):
        first = BEGUN + b"end 0\ndone 1\n"
        with Ring(3, 3, [0, 2, 0], 1) as it:
            with self.assertRaises(ring.NoJournal):
                it.take_journal()
            self.assertEqual(it.open_journal(), first)
            self.assertEqual(it.take_journal(), b"")
            it.pass_(0, 0, 5), it.survey(0), it.pass_(0, 2, 4)
            lines = it.take_journal()
            self.assertEqual(lines, b"0 p 0 0 5 g 1 5\n0 p 0 2 4 g 2 9\n0 s 0 1 2 1 1 3\n")
            self.assertEqual(it.take_journal(), b"")
            sealed = it.cut()
            self.assertEqual(sealed, BEGUN + b"p 0 0 5 g 1 5\np 0 2 4 g 2 9\nend 2\ns 0 1 2 1 1 3\ndone 1\n")
            self.assertEqual((len(it), list(it)), (2, []))
            with self.assertRaises(ring.NoEvent):
                it.event(1)
            self.assertEqual(it.pass_(0, 1, 1), Grant(2, 3, 10))
            self.assertEqual([(event.number, event.result) for event in it], [(3, 10)])
            second = it.open_journal()
            self.assertEqual(second.split(b"\n")[:3], [b"ringsegment 1 2 1", b"behind " + hashlib.sha256(sealed).hexdigest().encode(),
                                                       b"base 2 2 9 2"])
        with Ring.from_segment(first + lines[:-3], 1) as it:
            self.assertEqual((len(it), it.pass_(0, 1, 1)), (2, Grant(2, 3, 10)))
        with Ring.from_segment(second, 1) as it:
            self.assertEqual(it.open_journal(), second)

    def test_files_that_are_not_gone_on_from(self):
        first = BEGUN + b"end 0\ndone 1\n"
        for file, error, line in ((first[:40], ring.Truncated, 0), (b"x" + first, ring.BadSyntax, 1),
                                  (first + b"0 p 0 0 5 g 2 5\n", ring.BadReply, 10)):
            with self.assertRaises(error) as caught:
                Ring.from_segment(file, 1)
            self.assertEqual(caught.exception.line, line)
        for file, seats, error in ((first.replace(b"base 0", b"base 1"), 1, ring.NoChain), (first, 0, ring.BadSeats),
                                   (first + b"0 p 1 0 5 g 1 5\n", 1, ring.NoSeat)):
            with self.assertRaises(error):
                Ring.from_segment(file, seats)
        with Ring.idle(3, 3, [0, 2, 0], 1) as it:
            for call in (it.open_journal, it.take_journal, it.cut):
                with self.assertRaises(ring.NoTill):
                    call()

    def test_it_is_neither_copied_nor_pickled(self):
        with open_ring() as it:
            for call in (lambda: copy.copy(it), lambda: copy.deepcopy(it), lambda: pickle.dumps(it)):
                with self.assertRaises(TypeError):
                    call()

    def test_records_pickle(self):
        for it in (Grant(0, 1, 5), Sight(3, 2, 0, 1, 1), Sums(1, 3, 2, 0, 1)):
            self.assertEqual(pickle.loads(pickle.dumps(it)), it)

    def test_a_ring_that_is_let_go_is_closed(self):
        it = open_ring()
        raw, end = it._raw, it._end
        self.assertTrue(raw.at and end.alive)
        del it
        gc.collect()
        self.assertFalse(raw.at or end.alive)

    def test_a_call_between_calls_of_its_own_thread(self):
        with open_ring() as it, it._lock:
            self.assertEqual(it.pass_(0, 0, 5), Grant(0, 1, 5))

    def test_threads(self):
        with Ring(5, 6, [0, 2, 4, 1, 3], 4) as it:
            grants = [[] for _ in range(4)]

            def serve(seat):
                for turn in range(500):
                    grant = it.pass_(seat, (seat + turn) % 5, 1)
                    if grant is not None:
                        grants[seat].append(grant.number)

            threads = [threading.Thread(target=serve, args=(seat,)) for seat in range(4)]
            for thread in threads:
                thread.start()
            for thread in threads:
                thread.join()
            numbers = sorted(number for granted in grants for number in granted)
            self.assertEqual(numbers, list(range(1, len(numbers) + 1)))
            self.assertEqual(check(it.save()).granted, len(numbers))
            self.assertEqual(len(it), 2000)


@needs_library
class Memory(unittest.TestCase):
    def test_out_of_memory(self):
        code = ("import resource, wozgirt.ring as r\n"
                "it = r.Ring.idle(2, 2, [0, 0], 1); it.pass_(0, 0, 1)\n"
                "used = int(open('/proc/self/statm').read().split()[0]) * resource.getpagesize()\n"
                "resource.setrlimit(resource.RLIMIT_AS, (used + (6 << 20), -1))\n"
                "try:\n    while True: it.corrupt(0, 0, 1)\n"
                "except MemoryError as fault: told = type(fault).__name__, str(fault)\n"
                "before = len(it); resource.setrlimit(resource.RLIMIT_AS, (-1, -1)); it.corrupt(0, 0, 1)\n"
                "print(*told, len(it) - before)\n")
        told = run(code)
        self.assertEqual(told[0], "NoMemory out of memory 1", told)


@needs_library
class Library(unittest.TestCase):
    CODE = "import wozgirt.ring as r; print(r.check({!r}).events)".format(TEXT)

    def test_it_is_named(self):
        self.assertEqual(run(self.CODE)[0], "3")

    def test_there_is_none(self):
        told = run(self.CODE, WOZGIRT_LIBRARY="/none/libwozgirt.so")
        self.assertEqual(told[0], "")
        self.assertRegex(told[2], r"^ImportError: no library of rings: .*none/libwozgirt.so.*; WOZGIRT_LIBRARY may name it$")

    def test_another_library(self):
        told = run(self.CODE, WOZGIRT_LIBRARY="libc.so.6")
        self.assertRegex(told[2], r"^ImportError: no library of rings: .*wozgirt_version; WOZGIRT_LIBRARY may name it$")

    def test_another_version(self):
        told = run("from wozgirt import library\nlibrary.VERSION = 200\n" + self.CODE)
        self.assertRegex(told[2], r"^ImportError: .* is of version \d+, and this package needs 200$")
        self.assertEqual(run("from wozgirt import library\nlibrary.VERSION += 7\n" + self.CODE)[0], "3")

    def test_the_version_is_the_packages(self):
        first, second, third = map(int, wozgirt.__version__.split("."))
        self.assertEqual(library.VERSION, first * 10000 + second * 100 + third)
        self.assertEqual(library.load().wozgirt_version() // 100, library.VERSION // 100)

    def test_the_library_has_the_texts(self):
        text = library.load().wozgirt_text
        text.restype, text.argtypes = ctypes.c_char_p, [ctypes.c_uint32]
        self.assertEqual([text(code).decode() for code in Code], [code.text for code in Code])
        self.assertEqual(text(9), b"no code of this library")

    def test_a_wheel_with_the_library(self):
        with tempfile.TemporaryDirectory() as folder:
            name = build_backend.build_wheel(folder, {"library": LIBRARY})
            self.assertRegex(name, rf"^wozgirt-{re.escape(wozgirt.__version__)}-py3-none-manylinux_2_\d+_\w+\.whl$")
            with zipfile.ZipFile(os.path.join(folder, name)) as wheel:
                self.assertIn(f"Tag: {name[:-4].split('-', 2)[2]}\n", wheel.read(f"wozgirt-{wozgirt.__version__}.dist-info/WHEEL").decode())
                wheel.extractall(folder)
            told = run(self.CODE + "; from wozgirt import library; print(library.place())", WOZGIRT_LIBRARY=None, PYTHONPATH=folder)
            self.assertEqual(told[0].split("\n"), ["3", os.path.join(os.path.realpath(folder), "wozgirt", library.NAME)])


if __name__ == "__main__":
    unittest.main()
