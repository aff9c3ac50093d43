"""Clients in C that do what a test says, line by line (header_client.c), and doors in this process that answer what a test says."""

import os
import shutil
import socket
import subprocess
import tempfile
import unittest
from typing import NamedTuple

import journals
from doubles import begin, end_all
from harness import FOLDER, PATIENCE, TOP
from test_header import INCLUDE, compiles, patient_headers

DONE, LATE, REFUSED, LOST, NAME, CHILD, SILENT = range(7)
SOURCE = os.path.join(TOP, "server", "tests", "header_client.c")
INTERRUPTED = os.path.join(TOP, "server", "tests", "interrupted_client.c")
#: how much later than its deadline a call may end, in seconds
MARGIN = 0.2


def margin(longer):
    """The same in a try of `by_the_clock`: a machine that is busy has more. All that a client waits for else is longer."""
    return MARGIN * longer


needs_c = unittest.skipUnless(shutil.which("cc"), "no C compiler")


class Answer(NamedTuple):
    """What a call returned; `why` is the errno of a lost connection, `line` what a refusal says."""

    verb: str
    result: int
    token: int
    why: int
    seconds: float
    line: str


class Clients(unittest.TestCase):
    """Builds the program, and runs it; where it is patient, by headers that are."""

    words, is_patient = [], False

    @classmethod
    def setUpClass(cls):
        super().setUpClass()
        cls.programs = tempfile.mkdtemp(prefix="wozgirt-", dir=FOLDER)
        cls.addClassCleanup(shutil.rmtree, cls.programs)
        cls.program = os.path.join(cls.programs, "client")
        cls.include = patient_headers(cls.programs) if cls.is_patient else INCLUDE
        built = compiles("cc", "-std=c11", "-O1", *cls.words, "-o", cls.program, SOURCE, include=cls.include)
        if built != (True, ""):
            raise AssertionError(built)

    def program_that_runs(self):
        it = Client(self.program)
        self.addCleanup(it.end)
        return it

    def client(self, place, milliseconds=PATIENCE * 1000, result=DONE):
        it = self.program_that_runs()
        self.assertEqual(it.ask(f"open {place} {milliseconds}").result, result)
        return it


class Interrupted(Clients):
    """Programs, of which handlers leave one call in ten (interrupted_client.c)."""

    def interrupted(self, places, calls):
        """Runs one program for each place, and keeps the holds that they were told; how often connections were lost."""
        program = os.path.join(self.programs, "interrupted")
        built = compiles("cc", "-std=c11", "-O1", *self.words, "-o", program, INTERRUPTED, include=self.include)
        self.assertEqual(built, (True, ""))
        all_of_them = [subprocess.Popen([program, place, str(seed), str(calls)], stdout=subprocess.PIPE, text=True)
                       for seed, place in enumerate(places)]
        told = [it.communicate(timeout=2 * PATIENCE)[0].splitlines() for it in all_of_them]
        self.assertEqual([it.returncode for it in all_of_them], [0] * len(places))
        self.told = [tuple(line.split()[1:]) for lines in told for line in lines[:-1]]
        self.assertGreater(len(self.told), calls / 5)
        sums = [line.split() for *_, line in told]
        for _, left, _, _ in sums:
            # (how often a handler comes into the middle of a call is the machine's to say)
            self.assertGreater(int(left), calls / 500)
        return sum(int(lost) for _, _, _, lost in sums)

    def are_in_journal(self, folder):
        """Each hold that was told, with the label of its call."""
        words = [call.split() for call in journals.calls(folder)]
        granted = {(it[0], it[4], it[6]) for it in words if it[1] == "p" and it[5] == "g"}
        wrong = [it for it in self.told if it not in granted]
        self.assertEqual(wrong, [], f"{len(wrong)} of {len(self.told)}")


class Client:
    """A program that runs."""

    def __init__(self, program):
        self.process = subprocess.Popen([program], stdin=subprocess.PIPE, stdout=subprocess.PIPE, text=True)

    def tell(self, line):
        self.process.stdin.write(line + "\n")
        self.process.stdin.flush()

    def hear(self):
        line = self.process.stdout.readline().rstrip("\n")
        verb, result, token, why, milliseconds, said = line.split(" ", 5)
        return Answer(verb, int(result), int(token), int(why), int(milliseconds) / 1000, said)

    def ask(self, line):
        self.tell(line)
        return self.hear()

    def results(self, *lines):
        """What each line returns."""
        return [self.ask(line).result for line in lines]

    def jump(self, milliseconds, line):
        """Has a handler leave the call."""
        self.tell(f"jump {milliseconds} {line}")
        if self.process.stdout.readline() != "left\n":
            raise AssertionError("the call was not left")

    def nurse(self):
        """Has a child keep the connection, too."""
        self.tell("nurse")
        self.process.stdout.readline()

    def end(self):
        self.process.kill()
        self.process.communicate(timeout=PATIENCE)


class Door:
    """A server on a Unix socket that answers each line with what `answers` has next. Where that is a function, it is given the line,
    and what it returns is said."""

    def __init__(self, *answers, folder=None):
        self.folder = folder or tempfile.mkdtemp(prefix="wozgirt-", dir=FOLDER)
        self.path, self.answers, self.heard, self.socks = os.path.join(self.folder, "door"), list(answers), [], []
        self.door = socket.socket(socket.AF_UNIX)
        self.door.bind(self.path)
        self.door.listen()
        self.threads = []
        begin(self.threads, self._open)

    def _open(self):
        while True:
            try:
                sock, _ = self.door.accept()
            except OSError:
                return
            self.socks.append(sock)
            begin(self.threads, self._serve, sock)

    def _serve(self, sock):
        try:
            for line in sock.makefile("r"):
                self.heard.append(line.rstrip("\n"))
                said = self.answers.pop(0) if self.answers else ""
                sock.sendall((said(self.heard[-1]) if callable(said) else said).encode())
        except OSError:
            pass  # the other end is gone

    def close(self):
        end_all(self.threads, self.door, self.socks)
        shutil.rmtree(self.folder, ignore_errors=True)


class FullDoor:
    """A socket whose queue is full, so that nobody is let in until it is opened."""

    def __init__(self, family, address):
        self.door = socket.socket(family)
        self.door.bind(address)
        self.door.listen(0)
        self.place, self.others = self.door.getsockname(), []
        while len(self.others) < 50:
            other = socket.socket(family)
            self.others.append(other)
            other.settimeout(0.3)
            try:
                other.connect(self.place)
            except OSError:
                break

    def open(self):
        """Lets in who waits, and returns the first that was no filler."""
        self.door.settimeout(PATIENCE)
        for _ in range(len(self.others) - 1):
            self.door.accept()[0].close()
        return self.door.accept()[0]

    def close(self):
        for sock in [self.door, *self.others]:
            sock.close()
