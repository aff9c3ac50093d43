#!/usr/bin/env python3
"""locks.py [kills] RING_TOOL FOLDER [COUNT] [SEED]: tries `ring_tool locks` against the machine of lock_machine.py.

Without the word `kills`, so many drawn lines (1,000,000) of dozens of clients ask for a few locks, and each answer is compared. The
program is ended and started again all the time, with open holds, by the end of its input or a kill between two answers; there are
faults, short segments, and lists that grow. Every file of the folder is compared byte for byte, and what `check` and the totals say.

With `kills`, the program is killed (SIGKILL) so many times (100) while it answers, at any place, ends of segments too. What was
told is a beginning of the right answers; the files are a beginning of the right ones, which has every grant and every end that was
told; and the program goes on from there. In both, in the end: no two holds of a lock overlap, over all starts, and tokens rise."""
import os
import random
import select
import shutil
import signal
import subprocess
import sys
import time

sys.dont_write_bytecode = True
sys.path.insert(0, os.path.join(os.path.dirname(os.path.abspath(__file__)), "..", "models"))
import lock_machine  # noqa: E402

NAMES = ["pair:2", "three:3", "plain", "many:4:9", "long:7:11"]
MORE = ["later:2:3", "last"]
CLIENTS = 40
WAIT = 60


class Program:
    """A process of `ring_tool locks`."""

    def __init__(self, tool, folder, words):
        self.it = subprocess.Popen([tool, "locks", "--journal", folder, *words], stdin=subprocess.PIPE, stdout=subprocess.PIPE,
                                   stderr=subprocess.PIPE)

    def send(self, lines):
        os.write(self.it.stdin.fileno(), "".join(line + "\n" for line in lines).encode())

    def read(self, count):
        """So many bytes, or fewer if the output ends or nothing comes."""
        got = b""
        while len(got) < count:
            if not select.select([self.it.stdout], [], [], WAIT)[0]:
                break
            piece = os.read(self.it.stdout.fileno(), count - len(got))
            if not piece:
                break
            got += piece
        return got

    def end(self, expected):
        """Ends it by the end of its input; what is left is nothing, and standard error has the totals."""
        out, err = self.it.communicate(timeout=WAIT)
        assert not out and not self.it.returncode and err.decode() == expected, (out, self.it.returncode, err, expected)

    def kill(self):
        self.it.send_signal(signal.SIGKILL)
        left = self.it.stdout.read()
        self.it.communicate()
        return left


class Draw:
    """Draws lines, most of which mean something in the machine as it stands."""

    def __init__(self, chance):
        self.chance, self.label = chance, 0

    def holder(self, machine, lock):
        return machine.locks[lock].holder or (self.chance.randrange(CLIENTS), 1)

    def line(self, machine):
        chance, kind = self.chance, self.chance.random()
        client, lock = chance.randrange(CLIENTS), chance.randrange(len(machine.locks))
        name = machine.locks[lock].name
        if kind < 0.40:
            self.label += 1
            return f"{client} acquire {name} {self.label}"
        if kind < 0.45:
            self.label += 1
            return f"{client} try {name} {self.label}"
        if kind < 0.78:
            holder, token = self.holder(machine, lock)
            return f"{holder} release {name} {token}"
        if kind < 0.82:
            return f"{client} release {name} {chance.randrange(3)}"
        if kind < 0.88:
            waiting = chance.choice([*machine.waits]) if machine.waits else client
            return f"{waiting} cancel {machine.locks[machine.waits.get(waiting, lock)].name}"
        if kind < 0.93:
            return f"{chance.choice([client, self.holder(machine, lock)[0], 0])} leave"
        if kind < 0.95:
            return f"{client} stats {name}"
        if kind < 0.97:
            n, k = len(machine.locks[lock].ring.values), machine.locks[lock].ring.k
            return f"{client} corrupt {name} {chance.randrange(n)} {chance.randrange(k)}"
        return self.odd(client, name)

    def odd(self, client, name):
        """A line that is refused, or is no client's."""
        return self.chance.choice([
            f"{client} cancel {name}", f"{client} corrupt {name} 99 0", f"{client} corrupt {name} 0 65535", f"{client} try {name}x 1",
            f"{client} acquire {name[:-1]} 1", f"{client} acquire {name} {2**64}", f"{client} stats 0", f"{client} cancel {name}:8",
            f"{client} stats " + name * 20, f"{client} acquire {name * 70} 1", f"{client} acquire  1", f"{client} acquire {name}",
            f"{client} free {name}", f"{client} ", f"{client}", "", f"{client}  leave", f"0{client} leave", f"{2**64} leave",
            f"{2**64 - 1} leave", "leave", f"{client} leave {name}", f"{client} acquire {name} " + "1" * 9000])

    def terms(self, chance):
        """The words of a start, with the machine's: how many lines a segment has, and whether there are faults."""
        limit, faults = chance.choice([1, 2, 3, 10, 100, 1000, 4000]), chance.random() < 0.7
        return limit, faults, ["--segment", str(limit), *["--faults"] * faults]


def compare_files(folder, machine, done):
    """Compares the segments that are not yet known to be right, and returns the number of the last one."""
    for number in range(done, machine.number + 1):
        with open(lock_machine.segment_file(folder, number), "rb") as file:
            assert file.read() == "".join(machine.files[number]).encode(), f"segment {number} is another one"
        if number < machine.number:
            del machine.files[number]
    assert not os.path.exists(lock_machine.segment_file(folder, machine.number + 1)), "a segment too many"
    return machine.number


def judge(tool, folder, machine):
    """What the history says in the end: `check`, and the holds."""
    said = subprocess.run([tool, "check", folder], capture_output=True, text=True)
    words = f"legal segments {machine.number} rings {len(machine.locks)} {machine.totals().split(' ', 3)[3].strip()} "
    assert said.returncode == 0 and said.stdout.startswith(words), (said, words)
    holds = lock_machine.holds(folder)
    opened = [it[-1][0] if it and it[-1][2] == "open" else None for it in holds]
    assert opened == [it.holder and it.holder[1] for it in machine.locks], "the open holds are others"
    return holds


def session(program, machine, draw, chance, count):
    """Sends about so many lines, and compares each answer. Returns how many were sent."""
    sent = 0
    while sent < count:
        batch, wanted = [], []
        for _ in range(chance.choice([1, 1, 7, 100, 400])):
            batch.append(draw.line(machine))
            wanted += machine.answer(batch[-1])
        # (when this is answered, a segment that was due has ended)
        batch.append("0 stats plain")
        wanted += machine.answer(batch[-1])
        program.send(batch)
        text = "".join(line + "\n" for line in wanted).encode()
        got = program.read(len(text))
        assert got == text, difference(batch, text, got)
        sent += len(batch)
    return sent


def difference(batch, wanted, got):
    wanted, got = wanted.decode().splitlines(), got.decode().splitlines()
    at = next((i for i, pair in enumerate(zip(wanted, got)) if pair[0] != pair[1]), min(len(wanted), len(got)))
    return f"answer {at}: {got[at:at + 1]}, where {wanted[at:at + 1]} is right; lines: {batch}"


def trial(tool, folder, count, seed):
    chance, sent, starts, done = random.Random(seed), 0, 0, 1
    draw, names, machine = Draw(chance), list(NAMES), None
    open_at_start = 0
    while sent < count:
        limit, faults, words = draw.terms(chance)
        more = MORE[len(names) - len(NAMES):][:1] if starts and sent > count * len(names) / 8 else []
        names += more
        listed = not machine or more or chance.random() < 0.2
        if machine:
            machine.restart(limit, faults, lock_machine.listed(",".join(more)) if more else [])
            open_at_start += sum(1 for it in machine.locks if it.holder)
        else:
            machine = lock_machine.Locks(lock_machine.listed(",".join(names)), limit, faults)
        sync = chance.random() < 0.02
        program = Program(tool, folder, [*words, *(["--locks", ",".join(names)] if listed else []), *([] if sync else ["--no-sync"])])
        starts += 1
        # (short segments are many files)
        lines = 20 if sync else limit * 30 if limit < 100 else 8000
        sent += session(program, machine, draw, chance, chance.randrange(1, lines + 1))
        if chance.random() < 0.5:
            program.end(machine.totals())
        else:
            assert program.kill() == b"", "an answer too many"
        done = compare_files(folder, machine, done)
    holds = judge(tool, folder, machine)
    print(f"{sent} lines, {starts} starts, {open_at_start} holds open at a start, {machine.number} segments, "
          f"{sum(map(len, holds))} holds: all answers and all files are right")


# ---- kills

def beginning(folder, machine, files_told):
    """The files are a beginning of the machine's, and have at least what they had to when the last answer was told."""
    last = max(int(name[:-5]) for name in os.listdir(folder) if name.endswith(".ring"))
    least_number, least_bytes = files_told
    assert last >= least_number, "a segment is missing"
    for number in range(1, last + 1):
        if number not in machine.files:
            continue
        with open(lock_machine.segment_file(folder, number), "rb") as file:
            there = file.read()
        right = "".join(machine.files[number]).encode()
        assert there == right if number < last else right.startswith(there), f"segment {number} is no beginning of the right one"
        assert number != least_number or len(there) >= least_bytes, f"segment {number}: what was told is not there"
    return last


def kill_session(program, machine, draw, chance):
    """Sends lines, reads some of the answers, and kills. Returns what was told of the last lines, and how far the files had to be then:
    the number of the last segment, and its bytes."""
    for _ in range(chance.randrange(4)):
        sent = [draw.line(machine) for _ in range(chance.choice([1, 20]))]
        # (drawn from the machine as it stands before them)
        text = "".join(it + "\n" for line in sent for it in machine.answer(line)).encode()
        program.send(sent)
        got = program.read(len(text))
        assert got == text, difference(sent, text, got)
    rest, text, ends = [], "", [(0, 0)]
    for _ in range(chance.choice([1, 5, 50, 300, 1500])):
        rest.append(draw.line(machine))
        number = machine.number
        said = machine.answer(rest[-1])
        text += "".join(it + "\n" for it in said)
        # (the next segment begins behind the answers)
        ends += [(number, len("".join(machine.files[number])))] * sum(len(it) + 1 for it in said)
    program.send(rest)
    time.sleep(chance.choice([0, 0, 0.0003, 0.001, 0.003, 0.01]))
    part = program.read(chance.randrange(len(text) + 1) if chance.random() < 0.5 else 0)
    got = part + program.kill()
    assert text.encode().startswith(got), difference(rest, text.encode(), got)
    return got, ends[len(got)]


def has_segment(folder):
    return any(name.endswith(".ring") for name in os.listdir(folder))


def standing(machine):
    """What a start leaves as it is."""
    return [(it.holder, it.ring.values, it.ring.passes()) for it in machine.locks]


def kills(tool, folder, count, seed):
    chance, done, told_bytes, changes, early = random.Random(seed), 0, 0, 0, 0
    draw, held_over = Draw(chance), 0
    while done < count:
        limit, faults, words = draw.terms(chance)
        limit = chance.choice([1, 3, 10, 50, 200, 1000])
        words[1] = str(limit)
        if has_segment(folder):
            machine = lock_machine.recovered(folder, limit, faults)
            held_over += sum(1 for it in machine.locks if it.holder)
        else:
            machine = lock_machine.Locks(lock_machine.listed(",".join(NAMES)), limit, faults)
        program = Program(tool, folder, [*words, "--locks", ",".join(NAMES), *chance.choice([[], ["--no-sync"]])])
        if chance.random() < 0.15:
            # (before the first answer: the next start finds the same)
            time.sleep(chance.random() * 0.01)
            program.kill()
            done, early = done + 1, early + 1
            if has_segment(folder):
                assert standing(lock_machine.recovered(folder, limit, faults)) == standing(machine), "a start changed the locks"
            continue
        asked = [f"7 stats {it.name}" for it in machine.locks]
        stats = "".join(machine.answer(line)[0] + "\n" for line in asked)
        program.send(asked)
        said = program.read(len(stats))
        assert said.decode() == stats, (said, stats, program.it.poll())
        started = machine.number
        got, least = kill_session(program, machine, draw, chance)
        done, told_bytes = done + 1, told_bytes + len(got)
        changes += beginning(folder, machine, least) > started
    machine = lock_machine.recovered(folder, 1000, False)
    program = Program(tool, folder, ["--segment", "1000"])
    program.end(machine.totals())
    holds = judge(tool, folder, machine)
    print(f"{done} kills, {early} at a start, {changes} behind a change of segment, {held_over} holds open at a start, {machine.number} segments, "
          f"{sum(map(len, holds))} holds, {told_bytes} bytes of answers behind which it was killed: nothing that was told is lost")


def main(*words):
    run, count = (kills, 100) if words[0] == "kills" else (trial, 1_000_000)
    tool, folder, *rest = words[1:] if words[0] == "kills" else words
    count, seed = [*map(int, rest), *[count, 1][len(rest):]]
    shutil.rmtree(folder, ignore_errors=True)
    os.mkdir(folder)
    run(tool, folder, count, seed)


if __name__ == "__main__":
    main(*sys.argv[1:])
