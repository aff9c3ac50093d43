#!/usr/bin/env python3
"""beside.py TOOL [RUNS]: `check`, `holds`, `recover` and `join` beside a process that serves the folder that they read, and what the
commands do if a name in a folder, or the file of a standard stream, is in their way.

A folder that is served is legal at each moment, so each refusal is a false alarm. Each command runs RUNS times (40 if they are not
given) while `locks` makes segments of 25 lines at full speed; and again while old segments are removed, as `wozgirt-server
--keep-segments 2` does it. With strace a moment is made sure: the program is held up while it lists the names, or before it opens a
file, and meanwhile segments begin, or files go.

The last line is `N passed, M failed`."""

import contextlib
import os
import shutil
import socket
import subprocess
import sys
import tempfile
import threading
import time

TOOL = os.path.abspath(sys.argv[1])
RUNS = int(sys.argv[2]) if len(sys.argv) > 2 else 40
# seconds that a folder is served: then it has many files, and another one begins
ROUND = 1
# how long strace holds the program up, in microseconds; the change comes after half of it
HELD_UP = 800000
CALLS = b"1 try deploy 5\n1 leave\n"
LOCKS = ["locks", "--journal", "k", "--locks", "deploy:3", "--no-sync"]
KEPT = 2

passed, faults = 0, []


def judge(name, is_right, seen=""):
    """Counts a test."""
    global passed
    if is_right:
        passed += 1
    else:
        faults.append(name)
        print(f"failed: {name}: {seen}", flush=True)


def run(*words, **streams):
    """The status of the program, and what is on standard error."""
    how = {"stdin": subprocess.DEVNULL, "stdout": subprocess.DEVNULL, "stderr": subprocess.PIPE, **streams}
    ran = subprocess.run([TOOL, *words], timeout=100, check=False, **how)
    return ran.returncode, (ran.stderr or b"").decode(errors="replace").strip()


@contextlib.contextmanager
def place():
    """A folder of its own, in which the commands run."""
    here = os.getcwd()
    with tempfile.TemporaryDirectory() as folder:
        os.chdir(folder)
        try:
            yield
        finally:
            os.chdir(here)


def numbers():
    """The numbers of the segments, rising."""
    return sorted(int(name[:-5]) for name in os.listdir("k") if name.endswith(".ring"))


def segment(number):
    return f"k/{number:010}.ring"


def remove_old(kept=KEPT):
    """Removes all segments but the last ones, one after the other from the first on."""
    for number in numbers()[:-kept]:
        os.remove(segment(number))


def until(stop, work):
    """Begins to do this work in a thread until the event."""

    def again():
        with contextlib.suppress(BrokenPipeError):
            while not stop.is_set():
                work()

    thread = threading.Thread(target=again)
    thread.start()
    return thread


@contextlib.contextmanager
def busy_locks(removes):
    """A process that serves locks at full speed, and has made its first segments; old ones are removed."""
    os.mkdir("k")
    served = subprocess.Popen([TOOL, *LOCKS, "--segment", "25"], stdin=subprocess.PIPE, stdout=subprocess.DEVNULL, stderr=subprocess.DEVNULL)

    def ask():
        served.stdin.write(CALLS * 100)
        served.stdin.flush()

    stop = threading.Event()
    threads = [until(stop, ask)]
    try:
        while len(os.listdir("k")) < 9 and served.poll() is None:
            time.sleep(0.01)
        if removes:
            threads.append(until(stop, remove_old))
        yield
    finally:
        stop.set()
        served.kill()
        for thread in threads:
            thread.join()
        with contextlib.suppress(BrokenPipeError):
            served.stdin.close()
        served.wait()


def busy(name, commands, removes):
    """Runs the commands in turns, each so often, beside `locks` at full speed."""
    runs, refused = 0, []
    while runs < RUNS:
        with place(), busy_locks(removes):
            end = time.monotonic() + ROUND
            while runs < RUNS and time.monotonic() < end:
                runs += 1
                for words in commands:
                    status, seen = run(*words)
                    if status != 0:
                        refused.append(f"{' '.join(words)}: {seen}")
    judge(f"{name}: {len(refused)} of {runs * len(commands)} runs are refused", not refused, refused[:5])


def more_segments(count):
    """Has `locks` add segments of one line each."""
    subprocess.run([TOOL, *LOCKS, "--segment", "1"], input=CALLS * (count // 2), check=True, capture_output=True, timeout=100)


def make_segments(count):
    os.mkdir("k")
    more_segments(count)


def held_up(name, words, change, *how):
    """Runs a command that strace holds up for a moment, in which the change is made. It is not refused."""
    traced = ["strace", "-o", "/dev/null", *how, TOOL, *words]
    with subprocess.Popen(traced, stdin=subprocess.DEVNULL, stdout=subprocess.DEVNULL, stderr=subprocess.PIPE) as ran:
        time.sleep(HELD_UP / 2e6)
        change()
        _, seen = ran.communicate(timeout=100)
    judge(f"{name}: {words[0]}", ran.returncode == 0, seen.decode(errors="replace").strip())


def begin_segments():
    more_segments(20)


def remove_first():
    os.remove(segment(numbers()[0]))


def begin_and_remove():
    more_segments(4)
    remove_old()


def remove_part():
    os.remove("k/.wozgirt.part")


CHECK, HOLDS, RECOVER, JOIN = ["check", "k"], ["holds", "k"], ["recover", "k", "n"], ["join", "k", "m"]


def sure_lists():
    """Files come and go while the program lists the names: at the first call that does so, and at one of the second list."""
    for name, commands, change, count, calls in (
        ("segments begin", (CHECK, HOLDS, RECOVER, JOIN), begin_segments, 150, (1, 4)),
        ("the first segment goes", (CHECK, HOLDS, RECOVER), remove_first, 30, (1, 3)),
        ("segments begin, and all old ones go", (CHECK, HOLDS, RECOVER), begin_and_remove, 30, (1, 3)),
        ("a part goes", (CHECK, HOLDS, RECOVER, JOIN), remove_part, 4, (1, 3)),
    ):
        for words in commands:
            for call in calls:
                with place():
                    make_segments(count)
                    with open("k/.wozgirt.part", "wb"):
                        pass
                    how = "-e", "trace=getdents64", "-e", f"inject=getdents64:delay_exit={HELD_UP}:when={call}"
                    held_up(f"{name} while names are listed, call {call}", words, change, *how)


def sure_files():
    """Segments go before the program opens the first one that it reads."""
    for words, place_of_file in ((CHECK, 0), (HOLDS, 0), (RECOVER, -1)):
        with place():
            make_segments(4)
            how = "-P", segment(numbers()[place_of_file]), "-e", "trace=openat", "-e", f"inject=openat:delay_enter={HELD_UP}:when=1"
            held_up("segments begin, and all old ones go before one is read", words, begin_and_remove, *how)


def refused(name, text, *words, **streams):
    """Runs a command that is to be refused with this text."""
    status, seen = run(*words, **streams)
    judge(name, (status, seen) == (1, text), (status, seen))


def make_history():
    """A history of one ring."""
    with open("h", "wb") as file:
        subprocess.run([TOOL, "new", "3:3"], stdin=subprocess.DEVNULL, stdout=file, check=True, timeout=100)


def streams():
    """The file of a standard stream is not replaced."""
    name, text = "the file of a standard stream", "n is the file of a standard stream"
    with place():
        make_history()
        make_segments(2)
        for words in (["recover", "k", "n"], ["join", "k", "n"]):
            with open("n", "ab") as file:
                refused(f"{name}: {words[0]}, output", text, *words, stdout=file)
            with open("n", "rb") as file:
                refused(f"{name}: {words[0]}, input", text, *words, stdin=file)
        with open("n", "ab") as file:
            refused(f"{name}: upgrade", text, "upgrade", "h", "n", stdout=file)
        judge(f"{name} stays", os.path.getsize("n") == 0)


def saves():
    """A line of `serve` does not replace the file of a standard stream, or HISTORY, nor by a link."""
    lines = b"save in\nsave out\nsave h\nsave l\nsave other\n"
    with place():
        make_history()
        os.symlink("h", "l")
        with open("h", "rb") as file:
            history = file.read()
        with open("in", "wb") as file:
            file.write(lines)
        with open("in", "rb") as given, open("out", "wb") as out:
            status, _ = run("serve", "h", "--saves", ".", stdin=given, stdout=out)
        with open("in", "rb") as given, open("out", "rb") as out:
            seen = status, given.read(), out.read()
        judge("the file of a standard stream, and HISTORY: save", seen == (0, lines, b"refused file\n" * 4 + b"saved\n"), seen)
        with open("h", "rb") as file:
            judge("HISTORY stays", file.read() == history)


def names():
    """A name in a folder that is not UTF-8."""
    name, text = "a name that is not UTF-8", "k/\ufffd: foreign"
    with place():
        make_segments(2)
        with open(b"k/\xff", "wb"):
            pass
        for words in (CHECK, HOLDS, RECOVER, JOIN, LOCKS):
            refused(f"{name}: {words[0]}", text, *words)


def links_into():
    """A link to a new name in the folder that is read: no file is made by it."""
    with place():
        make_segments(2)
        os.symlink("k/n", "n")
        os.symlink("n", "m")
        for words in (RECOVER, JOIN):
            made = words[-1]
            refused(f"a link into the folder: {words[0]}", f"{made} is in the folder that is read", *words)
        judge("the folder stays", not os.path.lexists("k/n"), os.listdir("k"))
        status, seen = run(*CHECK)
        judge("the folder is legal", status == 0, seen)


def links():
    """A lock of a folder that is a link."""
    name = "a lock that leads to no file"
    with place():
        make_history()
        os.mkdir("k")
        os.symlink("nowhere", "k/lock")
        refused(f"{name}: locks", "cannot write k", *LOCKS)
        refused(f"{name}: serve", "cannot write k", "serve", "h", "--journal", "k")
        judge(f"{name} stays so", os.listdir("k") == ["lock"], os.listdir("k"))
        with open("nowhere", "wb"):
            pass
        os.remove("k/lock")
        os.symlink("../nowhere", "k/lock")
        status, seen = run(*LOCKS)
        judge("a lock that leads to a file", status == 0, seen)


def totals():
    """The line of totals is one write, so lines of processes that share a file do not mix."""
    with place():
        make_history()
        os.mkdir("k")
        os.mkdir("l")
        for words in (["serve", "h"], ["serve", "h", "--journal", "l"], LOCKS):
            ours, theirs = socket.socketpair(socket.AF_UNIX, socket.SOCK_DGRAM)
            with ours, theirs:
                ours.settimeout(10)
                run(*words, stderr=theirs)
                line = ours.recv(1000)
            judge(f"the line of totals is one write: {words[0]}", line.startswith(b"total ") and line.endswith(b"\n"), line)


def has_strace():
    return shutil.which("strace") and subprocess.run(["strace", "-o", "/dev/null", "true"], capture_output=True, timeout=100, check=False).returncode == 0


def main():
    busy("segments begin", (CHECK, HOLDS, RECOVER, ["recover", "k", "-"], JOIN), False)
    busy("segments begin, and old ones go", (CHECK, HOLDS, RECOVER), True)
    if has_strace():
        sure_lists()
        sure_files()
    else:
        print("skipped: moments that strace makes sure, without strace")
    streams()
    saves()
    names()
    links()
    links_into()
    totals()
    print(f"{passed} passed, {len(faults)} failed")
    sys.exit(bool(faults))


main()
