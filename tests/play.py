#!/usr/bin/env python3
"""play.py [--print] TOOL [NAME ..]: plays the scripts of rows on a built ring_tool, as processes, and compares what is printed with what is
wanted: tests/rows/NAME.rows and NAME.out, all of them or those named. README.md has the verbs. With a C compiler the rows that need
a reader or a writer that hinders are played too (hinder.c). With --print it prints what the scripts print, and compares nothing.
The last line is `N passed, M failed`: a row is a line that runs the program."""
import difflib
import multiprocessing
import os
import shutil
import subprocess
import sys
import tempfile
from dataclasses import dataclass

import scripts

OTHER_BYTES = b"\n\r 019g\xff"
ENVIRONMENT = {"PATH": "/usr/bin:/bin", "LANG": "C.UTF-8"}


@dataclass
class Ended:
    """A run that is over: its status, both outputs, and how many bytes of its input it left."""

    status: int
    printed: bytes
    told: bytes
    unread: int = 0

    def text(self):
        return self.printed + b"status %d\n" % self.status + self.told


class Tool:
    """The program, and the library that hinders its reads and writes, where there is one."""

    def __init__(self, path, hinder):
        self.path, self.hinder = path, hinder
        self.streams = [os.memfd_create(name) for name in ("in", "out", "err")]

    def run(self, words, text, **hinders):
        """Runs the program on the words, with the text as standard input; with hinders, by their names in hinder.c."""
        given, printed, told = self.streams
        for stream in self.streams:
            os.lseek(stream, 0, os.SEEK_SET)
            os.ftruncate(stream, 0)
        with os.fdopen(os.dup(given), "wb") as it:
            it.write(text)
        os.lseek(given, 0, os.SEEK_SET)
        environment = dict(ENVIRONMENT, **{name: str(value) for name, value in hinders.items()})
        if hinders:
            environment["LD_PRELOAD"] = self.hinder
        streams = [(os.POSIX_SPAWN_DUP2, stream, number) for number, stream in enumerate(self.streams)]
        started = os.posix_spawn(self.path, [self.path, *words], environment, file_actions=streams)
        status = os.waitstatus_to_exitcode(os.waitpid(started, 0)[1])
        unread = len(text) - os.lseek(given, 0, os.SEEK_CUR)
        return Ended(status, whole(printed), whole(told), unread)


def whole(stream):
    size = os.fstat(stream).st_size
    return os.pread(stream, size, 0) if size else b""


def run(tool, words, text):
    ended = tool.run(words, text)
    return ended.text() + (b"unread %d\n" % ended.unread if ended.unread else b"")


def run_broken(tool, words, text):
    """On a standard input that fails behind the text."""
    return tool.run(words, text, BROKEN=1).text()


def run_hindered(tool, words, text):
    """Runs it once plainly, once with a byte a call, and once with each writer that takes only a part."""
    plain = tool.run(words, text)
    slow = tool.run(words, text, AT_MOST=1)
    wrong = b"" if slow.text() == plain.text() else b"slowly: wrong\n"
    is_done = plain.status == 0
    rooms = len(plain.printed if is_done else plain.told)
    for room in range(rooms):
        for mute in (0, 1):
            ended = tool.run(words, text, AT_MOST_IN=1, CUT_FD=1 if is_done else 2, ROOM=room, MUTE=mute)
            if (ended.status, ended.printed, ended.told) != cut(plain, is_done, room):
                wrong += b"room %d, mute %s: wrong\n" % (room, b"true" if mute else b"false")
    return plain.text() + wrong + b"rooms tried: %d\n" % rooms


def cut(plain, is_done, room):
    """How a run ends whose output, or whose error text where it is refused, has only so much room."""
    if is_done:
        return 1, plain.printed[:room], b"cannot write\n"
    return plain.status, plain.printed, plain.told[:room]


def run_farm(tool, corrupted, history, text):
    """Runs a farm whose outcome the threads decide, and checks its history: that has to agree with the report."""
    ran = tool.run([b"run", b"-", b"--history", history], text)
    checked = tool.run([b"check", history], b"")
    counts, found, surveys = ran.printed.rpartition(b"total ")[2].partition(b" surveys ")
    legal = b"legal %s corrupted %s surveys %s" % (counts, corrupted, surveys)
    if found and not ran.told and checked.printed == legal:
        return b"legal, as %d lines of the report say\n" % ran.printed.count(b"\n")
    return ran.text() + checked.text()


def run_all(tool, words, texts):
    """Runs it on each text: each answer, in the order in which they came first, and how often it came."""
    times = {}
    for text in texts:
        ended = tool.run(words, text)
        answer = ended.printed + ended.told
        times[answer] = times.get(answer, 0) + 1
    return b"".join(b"%d times " % count + answer for answer, count in times.items())


def beginnings(text):
    return (text[:length] for length in range(len(text)))


def other_bytes(text):
    """The text with another byte in one place, for each place and eight bytes."""
    return (text[:at] + bytes([other]) + text[at + 1 :] for at, byte in enumerate(text) for other in OTHER_BYTES if other != byte)


def shown(name):
    """A file: how many bytes, and the bytes, with an end of line where they have none."""
    try:
        data = scripts.read(name)
    except OSError:
        return b"@%s: no such file\n" % name
    return b"@%s: %d bytes\n" % (name, len(data)) + data + (b"" if not data or data.endswith(b"\n") else b"\n")


def play_run(tool, verb, rest, text):
    words = scripts.words_of(rest)
    if verb in b"$>":
        return run(tool, words, text)
    if verb == b"%":
        return run_hindered(tool, words, text)
    if verb == b"?":
        return run_broken(tool, words, text)
    if verb == b"&":
        return run_farm(tool, *rest.split(b"|", 1), text)
    return run_all(tool, words, (beginnings if verb == b"<" else other_bytes)(text))


def play_file(verb, rest, text):
    """Plays a line about a file, and returns what it prints."""
    if verb == b"@":
        return shown(rest)
    if verb == b"=":
        with open(rest, "wb") as it:
            it.write(text)
    elif verb == b"-":
        os.remove(rest)
    elif verb == b"/":
        os.mkdir(rest)
    elif verb == b"\\":
        os.rmdir(rest)
    else:
        return verb + rest + b"\n"
    return b""


def play(tool, lines):
    """Plays the lines of a script in the current folder. Returns what it printed, and the rows that could not be played."""
    text, out, skipped = b"", [], []
    for verb, rest in lines:
        if verb and verb in scripts.TEXT:
            text = scripts.add(text, verb, rest, ".")
            out.append(verb + rest + b"\n" if verb == b"~" else b"")
            continue
        if verb and verb in scripts.RUNS:
            out.append(verb + rest + b"\n")
            if verb in b"%?" and not tool.hinder:
                skipped.append(verb + rest)
            else:
                out.append(play_run(tool, verb, rest, text))
        else:
            out.append(play_file(verb, rest, text))
        text = b""
    return b"".join(out), skipped


def in_a_folder(name, tool):
    """Plays a script in a new folder that has the files of rows/data. What it leaves there beside them is a fault of the script."""
    with tempfile.TemporaryDirectory(prefix="rows-") as folder:
        shutil.copytree(scripts.DATA, folder, dirs_exist_ok=True)
        os.chdir(folder)
        printed, skipped = play(tool, scripts.lines_of(name))
        left = sorted({*os.listdir(folder)} - {*os.listdir(scripts.DATA)})
        os.chdir("/")
    return printed, skipped, left


def judged(name, printed, skipped, left):
    """Compares what a script printed with what is wanted. Returns how many rows passed and failed, and what to say."""
    lines, wanted = scripts.lines_of(name), scripts.wanted(name)
    rows = sum(bool(verb) and verb in scripts.RUNS for verb, _ in lines)
    said = [f"left by {name}: {' '.join(left)}"] * bool(left)
    if printed == wanted:
        return rows, len(left), said
    parts = zip(lines, scripts.split(printed, lines), scripts.split(wanted, lines))
    wrong = [(verb + rest, found, want) for (verb, rest), found, want in parts if found != want and verb + rest not in skipped]
    for row, *texts in wrong:
        found, want = (it.decode(errors="backslashreplace").split("\n") for it in texts)
        said += [f"failed: {name}: {row.decode(errors='backslashreplace')}", *difflib.unified_diff(want, found, "wanted", "printed", lineterm="")]
    return rows - len(skipped) - len(wrong), len(wrong) + len(left), said


def played(job):
    name, path, hinder, compares = job
    printed, skipped, left = in_a_folder(name, Tool(path, hinder))
    return name, printed, len(skipped), judged(name, printed, skipped, left) if compares else (0, 0, [])


def hinder_in(folder):
    """The library that hinders, built in this folder; none without a C compiler."""
    compiler = os.environ.get("CC") or shutil.which("cc") or shutil.which("gcc")
    words = [compiler, "-shared", "-fPIC", "-O1", "-o", f"{folder}/hinder.so", f"{scripts.HERE}/hinder.c", "-ldl"]
    return f"{folder}/hinder.so" if compiler and not subprocess.run(words, check=False).returncode else ""


def main(words):
    compares = "--print" not in words
    tool, *chosen = [it for it in words if it != "--print"] or sys.exit(__doc__)
    passed = failed = skipped = 0
    with tempfile.TemporaryDirectory(prefix="hinder-") as folder, multiprocessing.Pool() as pool:
        hinder = hinder_in(folder)
        jobs = [(name, os.path.realpath(tool), hinder, compares) for name in chosen or scripts.names()]
        for name, printed, without, (well, wrong, said) in pool.imap(played, jobs, chunksize=1):
            if not compares:
                sys.stdout.buffer.write(printed)
                continue
            passed, failed, skipped = passed + well, failed + wrong, skipped + without
            print(*said, f"rows of {name}: {well} passed, {wrong} failed", sep="\n", flush=True)
    if skipped:
        print(f"skipped: {skipped} rows with readers and writers that hinder, without a C compiler")
    if compares:
        print(f"{passed} passed, {failed} failed")
    return bool(failed)


if __name__ == "__main__":
    sys.exit(main(sys.argv[1:]))
