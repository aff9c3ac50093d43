#!/usr/bin/env python3
"""endless.py RING_TOOL FOLDER [CALLS [KILLS [SEGMENT]]]: a journal without end, killed at random, and then looked through.
endless.py RING_TOOL FOLDER pause [SEGMENT [CHANGES]]: how long no answer comes at a change of segment.

Drives `ring_tool serve` over a journal that is a folder of segments, with so many calls in all, and kills it (SIGKILL) so many
times: half of them when something new stands in the folder, which is at a change of segment. Each call is a pass whose ORDER is
its number among all calls. Behind each kill, as many calls are recorded as were answered at least, and as were sent at most; the
next process is sent the calls from there on. In the end `check` has to accept the whole chain, and each event of it has to be
the next call, answered as it was told. Prints how fast it went, the most memory that a process had in each tenth of the calls,
and the longest time from a start to the first answer.

With the word `pause` one process serves 16 rings of 16 machines, with calls from a file. All answers of a segment leave before it
ends, so its change is where just its answers have been read: prints the time until more are, and the longest time between two
other reads."""
import os
import random
import shutil
import signal
import statistics
import subprocess
import sys
import threading
import time

RINGS = [(16, 17)] * 8 + [(5, 6)] * 8
SEATS = 10
CHUNK = 20_000


def call(index):
    """The line of a call. Which machine asks goes round slowly enough that some calls are granted, and some are not."""
    ring, turn = index % len(RINGS), index // len(RINGS)
    return f"pass {ring} {turn % SEATS} {turn // 2 % RINGS[ring][0]} {index}\n"


class Process:
    """A `serve` that is fed from a call on, and whose answers go to a file."""

    def __init__(self, words, first, last, answers):
        self.begun, self.first_answer, self.sent, self.told, self.memory = time.time(), None, first, 0, 0
        self.popen = subprocess.Popen(words, stdin=subprocess.PIPE, stdout=subprocess.PIPE, stderr=subprocess.PIPE, bufsize=0)
        self.threads = [threading.Thread(target=self.feed, args=(first, last)), threading.Thread(target=self.read, args=(answers,))]
        for thread in self.threads:
            thread.start()

    def feed(self, index, last):
        try:
            while index < last:
                until = min(index + CHUNK, last)
                data = memoryview("".join(map(call, range(index, until))).encode())
                self.sent = index = until
                while data:
                    data = data[self.popen.stdin.write(data):]
            self.popen.stdin.close()
        except OSError:
            pass

    def read(self, answers):
        kept = b""
        while data := self.popen.stdout.read(1 << 18):
            self.first_answer = self.first_answer or time.time()
            kept += data
            end = kept.rfind(b"\n") + 1
            answers.write(kept[:end])
            self.told += kept.count(b"\n", 0, end)
            kept = kept[end:]

    def look(self):
        """Keeps the most memory that it has had, in KiB."""
        try:
            with open(f"/proc/{self.popen.pid}/status") as file:
                self.memory = max([self.memory, *(int(line.split()[1]) for line in file if line.startswith("VmRSS"))])
        except OSError:
            pass

    def end(self, kill):
        """Kills it, or waits for its end; returns what it said on standard error."""
        if kill:
            self.popen.send_signal(signal.SIGKILL)
        for thread in self.threads:
            thread.join()
        said = self.popen.stderr.read().decode()
        status = self.popen.wait()
        assert kill or status == 0, f"serve ended with {status}: {said}"
        return said


def segments(folder):
    return sorted(it for it in os.listdir(f"{folder}/journal") if it.endswith(".ring"))


class Segment:
    """What the file of a segment tells: the base of each ring, and its events."""

    def __init__(self, file):
        with open(file, "rb") as it:
            *lines, self.half = it.read().split(b"\n")
        rings = int(lines[0].split()[3])
        self.bases = [list(map(int, line.split()[1:])) for line in lines[2:2 + rings]]
        self.events = [[] for _ in range(rings)]
        ring, saved = 0, True
        for line in lines[2 + rings:]:
            if not saved:
                number, line = line.split(b" ", 1)
                self.events[int(number)].append(line)
            elif line[:2] == b"p ":
                self.events[ring].append(line)
            elif line[:5] == b"ring ":
                ring = int(line.split()[1])
            elif line[:5] == b"done ":
                saved = False

    def calls(self):
        """How many calls are recorded up to its end."""
        return sum(base[0] for base in self.bases) + sum(map(len, self.events))


def recorded(folder):
    """How many calls the folder tells: none, if no segment is there yet."""
    last = segments(folder)[-1:]
    return Segment(f"{folder}/journal/{last[0]}").calls() if last else 0


def reply(base, line):
    """The number and the answer that an event of a segment is told with, counted from the first of all."""
    words = line.split()
    order, said = int(words[3]), words[4:]
    if said == [b"n"]:
        return order, b"waits"
    return order, b"granted %d %d" % (base[1] + int(said[1]), base[2] + int(said[2]))


def told_answers(folder, known):
    """The answers that were read, each with the number of its call. `known` has the first call of each process, and how many of
    its answers were read."""
    with open(f"{folder}/answers", "rb") as file:
        for first, count in known:
            for index in range(first, first + count):
                yield index, file.readline()[:-1]


def look_through(folder, known):
    """Each event of the chain is the next call of its ring, and was answered so, if its answer was read; none that was answered is
    missing. Returns how many answers were compared."""
    wanted, compared = list(range(len(RINGS))), 0
    answers = told_answers(folder, known)
    answer = next(answers, None)
    for name in segments(folder):
        segment, told = Segment(f"{folder}/journal/{name}"), {}
        end = segment.calls()
        while answer and answer[0] < end:
            told[answer[0]] = answer[1]
            answer = next(answers, None)
        compared += len(told)
        for ring, (base, events) in enumerate(zip(segment.bases, segment.events)):
            for event in events:
                order, said = reply(base, event)
                assert order == wanted[ring], f"{name}: ring {ring}: call {order} where {wanted[ring]} comes"
                wanted[ring] += len(RINGS)
                assert told.pop(order, said) == said, f"{name}: call {order} was told something else"
        assert not told, f"{name}: a call that was answered is missing"
    assert not answer, "a call that was answered is missing"
    return compared


def pause(tool, folder, segment="1000000", changes="5"):
    segment, changes = int(segment), int(changes)
    shutil.rmtree(folder, ignore_errors=True)
    os.makedirs(f"{folder}/journal")
    with open(f"{folder}/fresh.txt", "w") as file:
        subprocess.run([tool, "new", *["16:17"] * 16], stdout=file, check=True)
    calls = segment * changes + segment // 2
    with open(f"{folder}/calls.txt", "w") as file:
        file.writelines(f"pass {it % 16} {it // 16 % SEATS} {it // 32 % 16} {it}\n" for it in range(calls))
    words = [tool, "serve", f"{folder}/fresh.txt", "--journal", f"{folder}/journal", "--segment", str(segment), "--no-sync"]
    with open(f"{folder}/calls.txt") as lines:
        popen = subprocess.Popen(words, stdin=lines, stdout=subprocess.PIPE, stderr=subprocess.DEVNULL, bufsize=0)
        begun = last = time.perf_counter()
        told, pauses, other = 0, [], 0.0
        while data := popen.stdout.read(1 << 18):
            now = time.perf_counter()
            if told and told % segment == 0:
                pauses.append(now - last)
            elif told:
                other = max(other, now - last)
            told, last = told + data.count(b"\n"), now
    assert popen.wait() == 0 and told == calls
    print(f"{calls / (last - begun):,.0f} calls a second; {len(pauses)} of {changes} changes of segment were seen")
    print(f"the pause in ms: {statistics.median(pauses) * 1000:.0f}, {min(pauses) * 1000:.0f} to {max(pauses) * 1000:.0f}; "
          f"elsewhere at most {other * 1000:.0f}")


def main(tool, folder, calls="1000000", kills="20", segment="100000"):
    calls, kills, segment, chance = int(calls), int(kills), int(segment), random.Random(1974)
    shutil.rmtree(folder, ignore_errors=True)
    os.makedirs(f"{folder}/journal")
    with open(f"{folder}/fresh.txt", "w") as file:
        subprocess.run([tool, "new", *(f"{n}:{k}" for n, k in RINGS)], stdout=file, check=True)
    words = [tool, "serve", f"{folder}/fresh.txt", "--journal", f"{folder}/journal", "--segment", str(segment), "--no-sync"]
    at, known, changes, slowest, served, memory = 0, [], 0, 0.0, 0.0, [0] * 10
    with open(f"{folder}/answers", "wb") as answers:
        for left in range(kills, -1, -1):
            process = Process(words, at, calls, answers)
            at_change = left % 2 == 1
            wanted = chance.randrange(1, max(2, 2 * (calls - at) // (left + 1)))
            while left and process.popen.poll() is None and process.told < wanted:
                process.look()
                time.sleep(0.01)
            if left and at_change:
                there = set(os.listdir(f"{folder}/journal"))
                while process.popen.poll() is None and set(os.listdir(f"{folder}/journal")) <= there:
                    pass
                changes += 1
            while not left and process.popen.poll() is None:
                process.look()
                memory[min(9, (at + process.told) * 10 // calls)] = max(memory[min(9, (at + process.told) * 10 // calls)], process.memory)
                time.sleep(0.05)
            said = process.end(bool(left))
            served += time.time() - process.begun
            slowest = max(slowest, (process.first_answer or process.begun) - process.begun)
            memory[min(9, at * 10 // calls)] = max(memory[min(9, at * 10 // calls)], process.memory)
            now = recorded(folder)
            assert at + process.told <= now <= process.sent, f"{process.told} told from {at} on, {now} recorded, {process.sent} sent"
            known.append((at, process.told))
            at = now
    assert at == calls
    print(said.strip())
    print(f"{calls} calls, {kills} kills, {changes} of them at a change of segment, {len(segments(folder))} segments")
    print(f"{calls / served:,.0f} calls a second; first answer {slowest:.2f} s behind the start at most")
    print("MiB at most, in each tenth of the calls:", *(it // 1024 for it in memory))
    checked = subprocess.run([tool, "check", f"{folder}/journal"], stdout=subprocess.PIPE, check=True)
    print(checked.stdout.decode().strip())
    print(f"{look_through(folder, known)} answers, and none whose call is missing or was answered otherwise")


if __name__ == "__main__":
    if sys.argv[3:4] == ["pause"]:
        pause(*sys.argv[1:3], *sys.argv[4:])
    else:
        main(*sys.argv[1:])
