#!/usr/bin/env python3
"""verify.py FOLDER [LOCK,..]: judges what a run of faults.py left: the log, what each client noted, each host's checkpoints and segments. The
last line is `N passed, M failed`."""

import collections
import glob
import os
import subprocess
import sys
from array import array

sys.path.insert(0, os.path.dirname(os.path.dirname(os.path.abspath(__file__))))
sys.dont_write_bytecode = True

import journals  # noqa: E402
from bed import NAMES, read  # noqa: E402
from crash import said_of  # noqa: E402
from harness import ENGINE, IS_DOUBLE  # noqa: E402
from model import Reading  # noqa: E402


def whole_lines(path):
    """The lines of a file, one after the other; a last one without its end is none."""
    with open(path, encoding="ascii") as file:
        for line in file:
            if line.endswith("\n"):
                yield line[:-1]


class Run:
    """What a run left in a folder. A run may have millions of lines, so each is looked at once, and only what is compared later is kept."""

    def __init__(self, folder, locks):
        self.folder, self.locks, self.wrong, self.passed = folder, locks, [], 0
        self.reading, self.gaps = Reading(), []
        for i, line in enumerate(whole_lines(f"{folder}/log.txt"), 1):
            position, _, text = line.split(" ", 2)
            if int(position) != i:
                self.gaps.append(position)
            self.reading.read(text)
        self.grants = {(lock, token): client for lock, token, client, _ in self.reading.locks.grants}
        self.counts, self.bad_answers, self.bad_writes = collections.Counter(), [], []
        # of each answer when it was asked and told, and its place among all; of each time inside a lock its token, beginning and end
        self.sent, self.got, self.places = array("d"), array("d"), array("q")
        self.told, self.inside = [], collections.defaultdict(list)
        for name in sorted(glob.glob(f"{folder}/client.*.txt")):
            for line in whole_lines(name):
                self.note(line)

    def note(self, line):
        """What a client noted."""
        words = line.split(" ")
        self.counts[words[0]] += 1
        if words[0] == "did":
            self.did(line, words)
            if words[-3] == "granted":
                self.told.append((words[-2], int(words[-1]), int(words[1])))
        elif words[0] == "granted":
            self.told.append((words[2], int(words[3]), int(words[1])))
        elif words[0] == "inside":
            self.inside[words[1]].append((int(words[2]), float(words[3]), float(words[4])))
        elif words[0] == "wrote" and (words[1], int(words[2])) not in self.grants:
            self.bad_writes.append(line)

    def did(self, line, words):
        """An answer has to be that of the log."""
        told = line.partition(" | ")[2]
        if told == "left":
            return  # it has no number in the log
        place, asked, answer = self.reading.answers.get(int(words[1]), {}).get(int(words[2]), (None, "", ""))
        if place is None or answer != told or asked != f"{words[5]} {words[6]}":
            self.bad_answers.append(f"{line}: the log has {place} {asked} {answer}")
            return
        self.sent.append(float(words[3]))
        self.got.append(float(words[4]))
        self.places.append(place)

    def judge(self, what, wrong, count):
        """One thing that has to be, of which there is this number of cases."""
        print(f"{'ok' if not wrong else 'WRONG'}: {what}: {count}" + "".join(f"\n  {it}" for it in wrong[:5]), flush=True)
        if wrong:
            self.wrong.append(what)
        else:
            self.passed += 1


def judge_log(run):
    """The log has no gap, and each input was done once."""
    run.judge("entries of the log, without a gap", run.gaps, run.reading.entries)
    run.judge(f"inputs done once ({run.reading.again} were there again and not done again)", run.reading.twice, run.reading.done)


def judge_answers(run):
    """What clients were told is what the log's answers are, in an order that they could see."""
    count = len(run.places)
    run.judge("answers to clients, each in the log with this answer", run.bad_answers, count)
    ends, at, highest, late = sorted(range(count), key=run.got.__getitem__), 0, -1, []
    for i in sorted(range(count), key=run.sent.__getitem__):
        while run.got[ends[at]] < run.sent[i]:
            highest, at = max(highest, run.places[ends[at]]), at + 1
        if run.places[i] < highest:
            late.append(f"{run.places[i]} is before {highest}, which was answered before it was asked")
    run.judge("inputs, none before one that was answered before it was asked", late, count)


def judge_holds(run):
    """Grants are those of the log, tokens rise, and nobody is inside while another is."""
    told = run.told
    run.judge("grants to clients, each in the log, to this client", [it for it in told if run.grants.get(it[:2]) != it[2]], len(told))
    counts = collections.Counter((lock, token) for lock, token, _ in told)
    run.judge("grants to clients, each token once", [it for it, count in counts.items() if count > 1], len(told))
    wrong = []
    for lock, spans in run.inside.items():
        spans.sort()
        wrong += [f"{lock} {one} and {other}" for one, other in zip(spans, spans[1:]) if other[1] < one[2] or other[0] <= one[0]]
    run.judge("times inside a lock, none while another was inside", wrong, run.counts["inside"])
    run.judge(f"writes behind locks ({run.counts['refused']} refused for an old token)", run.bad_writes, run.counts["wrote"])


def judge_files(run):
    """Hosts have the same checkpoints, the same segments and the same holds."""
    texts = collections.defaultdict(set)
    for path in glob.glob(f"{run.folder}/kept/*/*.checkpoint"):
        texts[int(os.path.basename(path).split(".")[0])].add(read(path))
    run.judge("positions with a checkpoint, at which those of all hosts are the same", [it for it, found in texts.items() if len(found) > 1], len(texts))
    segments = collections.defaultdict(list)
    for name in NAMES:
        kept, last = f"{run.folder}/kept/{name}", f"{run.folder}/server.{name}/journal"
        for folder in (kept, last):
            for it in journals.segments(folder) if os.path.isdir(folder) else ():
                segments[it].append(folder)
    wrong, pairs = [], 0
    for it, folders in sorted(segments.items()):
        found = {folder: read(os.path.join(folder, it)) for folder in folders}
        longest = max(found.values(), key=len)
        pairs += len(found) - 1
        for folder, text in found.items():
            is_last = folder.endswith("journal") and it == journals.segments(folder)[-1]
            if text != longest if not is_last else not longest.startswith(text):
                wrong.append(f"{folder}/{it}")
    run.judge(f"segments ({pairs} pairs of hosts compared), the same byte for byte; of the last one each host has a beginning", wrong, len(segments))


def judge_histories(run):
    """Each host's history is legal, and has the holds of the log."""
    expected = collections.defaultdict(list)
    for lock, token, _, label in run.reading.locks.grants:
        expected[lock].append((token, label))
    wrong, illegal, count = [], [], 0
    for name in NAMES:
        folder = f"{run.folder}/server.{name}/journal"
        if int(journals.segments(folder)[0].split(".")[0]) == 1:
            found = collections.defaultdict(list)
            for lock, *hold in (more for is_grant, *more in journals.holds(folder) if is_grant):
                found[lock].append(tuple(hold))
                count += 1
            wrong += [f"{folder}: lock {lock}" for lock, holds in found.items() if holds != expected[lock][:len(holds)]]
        illegal += illegal_in(folder)
    run.judge("holds of the histories, those of the log", wrong, count)
    by = "models/small_recover.py of the first segment, since the engine is a double" if IS_DOUBLE else "ring_tool check and holds"
    run.judge(f"histories that are legal, by {by}", illegal, len(NAMES))


def illegal_in(folder):
    """What is wrong with a history."""
    if IS_DOUBLE:
        verdict = said_of(next(journals.texts(folder)))
        return [] if verdict.startswith("legal ") else [f"{folder}: {verdict}"]
    found = []
    for command in ("check", "holds"):
        run = subprocess.run([ENGINE, command, folder], capture_output=True, text=True, check=False)
        if run.returncode or command == "check" and not run.stdout.startswith("legal "):
            found.append(f"{command} {folder}: {(run.stdout + run.stderr)[-200:]}")
    return found


def verify(folder, locks):
    """Judges all; how many things are right, and how many wrong."""
    run = Run(folder, locks)
    print(f"log: {run.reading.entries} entries, {run.reading.ignored} ignored; {len(run.reading.locks.grants)} grants; "
          f"{run.counts['lost']} times a client lost what it had; faults told to clients: {run.counts['fault']}")
    for judge in (judge_log, judge_answers, judge_holds, judge_files, judge_histories):
        judge(run)
    return run.passed, len(run.wrong)


if __name__ == "__main__":
    print("%d passed, %d failed" % verify(sys.argv[1], sys.argv[2].split(",") if len(sys.argv) > 2 else ["l0", "l1", "l2", "l3"]))
