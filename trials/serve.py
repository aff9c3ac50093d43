#!/usr/bin/env python3
"""serve.py RING_TOOL FOLDER [KILLS]: kills `ring_tool serve` at random places, and looks for what it had told.

Drives two rings through pipes with random calls, over one journal, which is synced or not. Again and again the program is
killed (SIGKILL) while answers are on their way; sometimes the journal is then cut by hand at a random byte behind the last call that was answered,
or gets bytes that are no line; and `serve` goes on from it. After each kill the journal is recovered and checked, by the
program and by small_checker.py, and the history is compared with what was sent and told: every call that was answered is there
with its answer, in its order, and besides only calls that were on their way at a kill, in the order in which they were sent."""
import os
import random
import signal
import subprocess
import sys

sys.dont_write_bytecode = True
sys.path.insert(0, os.path.join(os.path.dirname(os.path.abspath(__file__)), "..", "models"))
import small_checker  # noqa: E402

FRESH = "ringfarm 2\nring 0 3 3\nstart 0 2 0\nend 0\nring 1 5 6\nstart 0 5 1 3 2\nend 0\ndone 2\n"
SIZES = [(3, 3), (5, 6)]
SEATS = 10


class Calls:
    """Draws calls, of which some are refused. No two passes or tries have one order, so each can be found in a history."""

    def __init__(self, chance):
        self.chance, self.order = chance, 0

    def next_order(self):
        self.order += 1
        return self.order

    def draw(self, only_ordered):
        chance, ring = self.chance, self.chance.randrange(2)
        n, k = SIZES[ring]
        seat, kind = chance.randrange(SEATS), chance.random()
        if only_ordered or kind < 0.6:
            if kind % 0.1 < 0.02:
                some = sorted(chance.sample(range(n), chance.randrange(1, n)))
                return f"group {ring} {seat} {self.next_order()} {' '.join(map(str, some))}"
            return f"{chance.choice(['pass', 'try'])} {ring} {seat} {chance.randrange(n)} {self.next_order()}"
        if kind < 0.75:
            return f"corrupt {ring} {seat} {chance.randrange(n)} {chance.randrange(k)}"
        if kind < 0.9:
            return f"survey {ring} {seat}"
        return chance.choice([f"glance {ring}", "pass 7 0 0 0", "nothing", f"pass {ring} {seat} {n} 1", f"corrupt {ring} {seat} 0 {k}"])


class Sent:
    """A call that was sent, and its answer; None if that was not read."""

    def __init__(self, call, answer):
        self.words, self.answer = call.split(), answer and answer.split()
        self.ring = int(self.words[1]) if len(self.words) > 1 else None

    def is_recorded(self):
        """Whether it was told, and is in the history."""
        if self.words[0] == "try":
            return self.answer and self.answer[0] == "granted"
        return self.answer and self.answer[0] != "refused" and self.words[0] in ("pass", "group", "corrupt", "survey")

    def lines(self):
        """How many lines of the history it has, if it is there."""
        return len(self.words) - 4 if self.words[0] == "group" else 1

    def stands(self, lines):
        """Whether these lines of a history, where it should stand, are its own."""
        kind, *numbers = self.words
        said = [line.split() for line in lines]
        if kind == "group":
            ring, seat, order, *machines = numbers
            return len(said) == len(machines) and all(w[0] == "m" and w[1] == seat and w[3] == order for w in said) \
                and sorted(w[2] for w in said) == sorted(machines)
        if len(said) != 1:
            return False
        word = said[0]
        if kind == "survey":
            return word == ["s", numbers[1], *self.answer[1:]]
        if kind == "corrupt":
            return word == ["c", *numbers[1:], self.answer[1]]
        wanted = (["g", *self.answer[1:]] if self.answer[0] == "granted" else ["n"]) if self.answer else word[4:]
        return word[:4] == ["p", *numbers[1:]] and word[4:] == wanted


def compare(sent, text):
    """Every call that was told is in the text of a saved history, in its order, and no other call but some of those whose answers
    were not read. Returns how many events there are."""
    events, surveys, ring = {0: [], 1: []}, {}, None
    for line in text.splitlines():
        if line.startswith("ring "):
            ring = int(line.split()[1])
        elif line[:2] in ("p ", "c ", "m "):
            events[ring].append(line)
        elif line.startswith("s "):
            surveys.setdefault((ring, line.split()[1]), []).append(line)
    place, told = {0: 0, 1: 0}, {}
    for it in sent:
        if it.answer and not it.is_recorded():
            continue
        if it.words[0] == "survey":
            told.setdefault((it.ring, it.words[2]), []).append(it)
            continue
        here = events[it.ring][place[it.ring]:place[it.ring] + it.lines()]
        if it.stands(here):
            place[it.ring] += it.lines()
        else:
            assert not it.answer, f"a call that was told is missing: {it.words} {it.answer}"
    for ring in events:
        assert place[ring] == len(events[ring]), f"a call that was not sent: {events[ring][place[ring]]}"
    for seat in set(told) | set(surveys):
        all_told, there = told.get(seat, []), surveys.get(seat, [])
        assert len(all_told) == len(there) and all(it.stands([line]) for it, line in zip(all_told, there)), "surveys differ"
    return sum(map(len, events.values()))


def spoil(journal, noted, chance):
    """Cuts the journal behind its first lines, so many behind what it began with, or puts bytes behind it that are no line."""
    with open(journal, "rb") as file:
        data = file.read()
    place = data.index(b"\n", data.index(b"\ndone ") + 1) + 1
    for _ in range(noted):
        place = data.index(b"\n", place) + 1
    if chance.random() < 0.5:
        data = data[:chance.randrange(place, len(data) + 1)]
    elif data.endswith(b"\n"):
        data += chance.choice([b"0 p 1", b"0 s 3 1 1", b"\xff\x00"])
    with open(journal, "wb") as file:
        file.write(data)


def session(tool, folder, journal, sent, calls, chance):
    """Drives one process, and kills it; returns how many lines were noted of what it told."""
    words = [tool, "serve", f"{folder}/fresh.txt", "--journal", journal, "--faults"] + chance.choice([[], ["--no-sync"]])
    serve = subprocess.Popen(words, stdin=subprocess.PIPE, stdout=subprocess.PIPE, stderr=subprocess.DEVNULL)
    answered, noted, wanted = 0, 0, chance.randrange(1, 400)
    while answered < wanted:
        count = chance.choice([1, 1, 1, 7, 300])
        last = answered + count >= wanted
        batch = [calls.draw(last) for _ in range(count)]
        serve.stdin.write("".join(call + "\n" for call in batch).encode())
        serve.stdin.flush()
        read = chance.randrange(count + 1) if last else count
        for call in batch[:read]:
            answer = serve.stdout.readline().decode()
            assert answer.endswith("\n"), "an answer is missing"
            it = Sent(call, answer)
            noted += it.lines() if it.is_recorded() else 0
            sent.append(it)
        sent.extend(Sent(call, None) for call in batch[read:])
        answered += count
    serve.send_signal(signal.SIGKILL)
    serve.wait()
    return noted


def main(tool, folder, kills="100"):
    os.makedirs(folder, exist_ok=True)
    journal, chance, sent = f"{folder}/journal.txt", random.Random(1974), []
    calls, events = Calls(chance), 0
    with open(f"{folder}/fresh.txt", "w") as file:
        file.write(FRESH)
    if os.path.exists(journal):
        os.remove(journal)
    for _ in range(int(kills)):
        noted = session(tool, folder, journal, sent, calls, chance)
        if chance.random() < 0.5:
            spoil(journal, noted, chance)
        subprocess.run([tool, "recover", journal, f"{folder}/recovered.txt"], check=True, stdout=subprocess.DEVNULL)
        checked = subprocess.run([tool, "check", f"{folder}/recovered.txt"], check=True, stdout=subprocess.PIPE)
        with open(f"{folder}/recovered.txt", "rb") as file:
            text = file.read()
        assert small_checker.answer(text) == (checked.stdout.decode().strip(), True), "the second checker says something else"
        events = compare(sent, text.decode())
    told = sum(1 for it in sent if it.answer)
    print(f"{kills} kills, {told} answers, {events} events: no call that was answered is missing, and none is there that was not sent")


if __name__ == "__main__":
    main(*sys.argv[1:])
