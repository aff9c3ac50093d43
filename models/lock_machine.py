#!/usr/bin/env python3
"""lock_machine.py: the locks of `ring_tool locks` once more, written apart from the program, for the scripts beside it.

It has a machine that answers lines as docs/FORMATS.md says, with the text of each segment's file, and a reader of such
files. As a program, `lock_machine.py LOCKS [SEGMENT] [faults] <LINES` prints the answers, and then the files."""
import hashlib
import os
import re
import sys

TOP = 2**64
LONGEST = 8192
NUMBER = r"(0|[1-9][0-9]*)"
NAME = r"([0-9a-zA-Z._/-]{1,128})"
FRONT = re.compile(rf"{NUMBER}(?: |$)")
ASKS = [re.compile(form.replace("L", NAME).replace("N", NUMBER) + r"\Z") for form in
        ("acquire L N", "try L N", "release L N", "cancel L", "leave", "corrupt L N N", "stats L")]
GRANT, CARRY, FAULT, REPAIR = 0, 3, 8, 9
RELEASED, LEFT = 1, 2


def is_great(digits):
    """Whether the number has more than 64 bits."""
    return len(digits) > 20 or int(digits) >= TOP


class Ring:
    """A ring over a till: what came before its segment, its start, and the lines of its events and surveys."""

    def __init__(self, k, values, base=(0, 0, 0, 0)):
        self.k, self.values, self.base = k, list(values), base
        self.start = list(self.values)
        self.events, self.surveys = [], {}
        self.grants = self.amount = self.calm = self.corrupted = 0

    def is_privileged(self, machine):
        values = self.values
        return values[machine] == values[machine - 1] if machine == 0 else values[machine] != values[machine - 1]

    def privileged(self):
        return [i for i in range(len(self.values)) if self.is_privileged(i)]

    def first(self):
        values = self.values
        if values[0] == values[-1]:
            return 0
        return next(i for i in range(1, len(values)) if values[i] != values[i - 1])

    def let_pass(self, seat, machine, order):
        """One pass; returns the line of its event."""
        line = f"p {seat} {machine} {order} n"
        if self.is_privileged(machine):
            self.values[machine] = (self.values[0] + 1) % self.k if machine == 0 else self.values[machine - 1]
            self.grants, self.calm = self.grants + 1, self.calm + 1
            self.amount = min(self.amount + order, TOP - 1)
            line = f"p {seat} {machine} {order} g {self.grants} {self.amount}"
        self.events.append(line)
        return line

    def corrupt(self, machine, value):
        """A fault; returns the line of its event and the value that was there."""
        old, self.values[machine] = self.values[machine], value
        self.calm, self.corrupted = 0, self.corrupted + 1
        self.events.append(f"c {FAULT} {machine} {value} {old}")
        return self.events[-1], old

    def repair(self):
        """Lets the first privileged machine pass until the ring is settled; returns the lines."""
        lines = []
        while len(self.privileged()) != 1:
            lines.append(self.let_pass(REPAIR, self.first(), 0))
        return lines

    def survey(self, seat):
        """A survey of a settled ring; returns its line."""
        line = f"s {seat} {len(self.events)} 1 {self.first()} {self.calm} 0"
        self.surveys.setdefault(seat, []).append(line)
        return line

    def passes(self):
        return self.base[1] + self.grants

    def next(self):
        """Its next segment."""
        events, grants, amount, calm = self.base
        calm = self.calm if self.corrupted else calm + self.calm
        return Ring(self.k, self.values, (events + len(self.events), grants + self.grants, min(amount + self.amount, TOP - 1), calm))

    def block(self, place):
        lines = [f"ring {place} {len(self.values)} {self.k}", f"start {' '.join(map(str, self.start))}", *self.events]
        lines.append(f"end {len(self.events)}")
        return lines + [line for seat in sorted(self.surveys) for line in self.surveys[seat]]


class Lock:
    """A lock: its name and its ring, who waits, and who holds it with which token; nobody is None."""

    def __init__(self, name, ring, token=None):
        self.name, self.ring, self.line, self.holder = name, ring, [], None if token is None else (0, token)

    def grant(self, client, order):
        line = self.ring.let_pass(GRANT, self.ring.first(), order)
        self.holder = (client, self.ring.passes())
        return line


class Locks:
    """The machine: locks that answer lines, with the files of its journal as they have to be."""

    def __init__(self, listed, limit, faults=False):
        self.locks, self.limit, self.faults = [], limit, faults
        self.number, self.behind, self.files = 1, "0" * 64, {}
        self.waits = {}
        self.add(listed)
        self.begin()

    # ---- segments

    def add(self, listed):
        self.locks += [Lock(name, Ring(k, [0] * n)) for name, n, k in listed]
        self.places = {it.name: place for place, it in enumerate(self.locks)}

    def begin(self):
        """The file of the segment, as it begins; one that is due then is cut."""
        lines = sum(len(it.ring.events) + sum(map(len, it.ring.surveys.values())) for it in self.locks)
        self.left = max(self.limit - lines, 0)
        self.put_file()
        self.cut_if_due()

    def put_file(self):
        self.files[self.number] = [line + "\n" for line in self.beginning()]

    def beginning(self):
        """The lines with which the segment begins."""
        head = [f"ringsegment 1 {self.number} {len(self.locks)}", f"behind {self.behind}"]
        head += ["base " + " ".join(map(str, it.ring.base)) for it in self.locks]
        saved = [line for place, it in enumerate(self.locks) for line in it.ring.block(place)]
        return [*head, "ringjournal 1", "ringfarm 2", *saved, f"done {len(self.locks)}"]

    def is_due(self):
        return not self.left

    def cut_if_due(self):
        if self.is_due():
            self.cut()

    def cut(self):
        """The segment ends, and the next one begins."""
        whole = "".join(self.files[self.number])
        self.files[self.number] = [whole]
        self.behind, self.number = hashlib.sha256(whole.encode()).hexdigest(), self.number + 1
        for it in self.locks:
            it.ring = it.ring.next()
            if it.holder:
                it.ring.let_pass(CARRY, 1 if it.ring.first() == 0 else 0, it.holder[1])
        self.left = self.limit
        self.put_file()

    def restart(self, limit, faults, more=()):
        """The process has ended, and goes on so, with these locks more."""
        self.limit, self.faults, self.waits = limit, faults, {}
        for it in self.locks:
            it.line, it.holder = [], it.holder and (0, it.holder[1])
        self.add(more)
        self.begin()

    def totals(self):
        events = sum(it.ring.base[0] + len(it.ring.events) for it in self.locks)
        return f"total locks {len(self.locks)} events {events} granted {sum(it.ring.passes() for it in self.locks)}\n"

    # ---- lines

    def answer(self, line):
        """Answers a line, without its end: returns the lines of the answers."""
        front = FRONT.match(line[:LONGEST - 1] if len(line) >= LONGEST else line)
        if not front or is_great(front[1]):
            return []
        client, rest = int(front[1]), line[front.end():]
        ask = next((found for form in ASKS if (found := form.match(rest))), None)
        if not ask or len(line) >= LONGEST or len(line) == len(front[1]):
            return [f"{client} refused syntax"]
        word, *named = ask[0].split(" ")
        numbers = named[1:]
        if any(map(is_great, numbers)):
            return [f"{client} refused number"]
        if word == "corrupt" and not self.faults:
            return [f"{client} refused off"]
        self.said, self.noted = [], []
        if word == "leave":
            self.leave(client)
        else:
            self.ask(client, word, named[0], *map(int, numbers))
        self.files[self.number] += self.noted
        self.left = max(self.left - sum(not it.startswith("#") for it in self.noted), 0)
        self.cut_if_due()
        return self.said

    def ask(self, client, word, name, *numbers):
        if name in self.places:
            getattr(self, word)(client, self.places[name], *numbers)
        else:
            self.said.append(f"{client} refused lock {name}")

    def say(self, client, word, lock, *numbers):
        self.said.append(" ".join(map(str, (client, word, self.locks[lock].name, *numbers))))

    def note(self, lock, *lines):
        self.noted += [f"{lock} {line}\n" for line in lines]

    def grant(self, lock, client, order):
        self.note(lock, self.locks[lock].grant(client, order))
        self.say(client, "granted", lock, self.locks[lock].holder[1])

    def is_circle(self, client, lock):
        """Whether one comes from this lock to the client: over who holds a lock, to what it waits for."""
        while self.locks[lock].holder:
            holder = self.locks[lock].holder[0]
            if holder == client:
                return True
            if holder not in self.waits:
                return False
            lock = self.waits[holder]
        return False

    def acquire(self, client, lock, order):
        it = self.locks[lock]
        if it.holder and it.holder[0] == client:
            self.say(client, "refused holds", lock)
        elif client in self.waits:
            self.say(client, "refused waits", lock)
        elif self.is_circle(client, lock):
            self.say(client, "refused circle", lock)
        elif it.holder:
            self.say(client, "waiting", lock, len(it.line))
            it.line.append((client, order))
            self.waits[client] = lock
        else:
            self.grant(lock, client, order)

    def __getattr__(self, name):
        # (the word of a line is no name of Python)
        if name == "try":
            return self.attempt
        raise AttributeError(name)

    def attempt(self, client, lock, order):
        it = self.locks[lock]
        if it.holder and it.holder[0] == client:
            self.say(client, "refused holds", lock)
        elif self.waits.get(client) == lock:
            self.say(client, "refused waits", lock)
        elif it.holder:
            self.say(client, "busy", lock)
        else:
            self.grant(lock, client, order)

    def end(self, lock, seat):
        """The hold ends, and the head of the queue is granted."""
        it = self.locks[lock]
        self.note(lock, it.ring.survey(seat))
        it.holder = None
        if it.line:
            client, order = it.line.pop(0)
            del self.waits[client]
            self.grant(lock, client, order)

    def release(self, client, lock, token):
        if self.locks[lock].holder == (client, token):
            self.say(client, "released", lock)
            self.end(lock, RELEASED)
        else:
            self.say(client, "refused holder", lock)

    def drop(self, client):
        it = self.locks[self.waits.pop(client)]
        it.line = [waiter for waiter in it.line if waiter[0] != client]

    def cancel(self, client, lock):
        if self.waits.get(client) == lock:
            self.drop(client)
            self.say(client, "cancelled", lock)
        else:
            self.say(client, "refused waiter", lock)

    def leave(self, client):
        if client in self.waits:
            self.drop(client)
        for lock, it in enumerate(self.locks):
            if it.holder and it.holder[0] == client:
                self.end(lock, LEFT)

    def corrupt(self, client, lock, machine, value):
        ring = self.locks[lock].ring
        if machine >= len(ring.values):
            self.say(client, "refused machine", lock)
        elif value >= ring.k:
            self.say(client, "refused value", lock)
        else:
            line, old = ring.corrupt(machine, value)
            self.note(lock, line, *ring.repair())
            self.say(client, "corrupted", lock, old)

    def stats(self, client, lock):
        it = self.locks[lock]
        self.say(client, "stats", lock, len(it.ring.values), len(it.line), it.ring.passes(), *(it.holder or (0, 0)))


# ---- files

def segment_file(folder, number):
    return os.path.join(folder, f"{number:010}.ring")


def read_segment(text):
    """Reads a segment's file up to its last whole line, without its remarks: its number, the digest before it, and its rings, each
    with its events and surveys in their order."""
    lines = [line for line in text[:text.rindex("\n") + 1].splitlines() if not line.startswith("#")]
    words = [line.split() for line in lines]
    number, count = int(words[0][2]), int(words[0][3])
    bases = [tuple(map(int, word[1:])) for word in words[2:2 + count]]
    rings, orders, place = [], [], 2 + count + 2
    while words[place][0] != "done":
        word = words[place]
        if word[0] == "ring":
            k = int(word[3])
        elif word[0] == "start":
            rings.append(Ring(k, map(int, word[1:]), bases[len(rings)]))
            orders.append([])
        elif word[0] != "end":
            replay(rings[-1], orders[-1], word)
        place += 1
    for word in words[place + 1:]:
        replay(rings[int(word[0])], orders[int(word[0])], word[1:])
    return number, words[1][1], rings, orders


def replay(ring, order, word):
    """Does what an event's or a survey's words say; the lines have to be those."""
    seat = int(word[1])
    if word[0] == "p":
        said = ring.let_pass(seat, int(word[2]), int(word[3]))
    elif word[0] == "c":
        said, _ = ring.corrupt(int(word[2]), int(word[3]))
    else:
        # (in a saved text, surveys stand behind all events)
        ring.surveys.setdefault(seat, []).append(" ".join(word))
        said = " ".join(word)
    assert said == " ".join(word), f"{' '.join(word)}: {said} is right"
    order.append((int(word[2]), 0, word) if word[0] == "s" else (len(ring.events) - 1, 1, word))


def signs(order):
    """Events and surveys of a segment in their order: a survey stands behind as many events as it says."""
    return [word for _, _, word in sorted(order, key=lambda it: it[:2])]


def holds(folder):
    """Reads all segments of a folder, and returns for each lock its holds as (token, label, ending), where ending is `released`,
    `left` or `open`. Fails where two holds overlap, a token does not rise, or a segment does not carry on what was open."""
    numbers = sorted(int(name[:-5]) for name in os.listdir(folder) if name.endswith(".ring"))
    found, held = [], []
    for number in numbers:
        with open(segment_file(folder, number)) as file:
            _, _, rings, orders = read_segment(file.read())
        for lock, (ring, order) in enumerate(zip(rings, orders)):
            if lock == len(found):
                found.append([])
                held.append(None)
            carried = held[lock]
            for word in signs(order):
                seat = int(word[1])
                if word[0] == "s":
                    assert held[lock] and not carried, f"segment {number}: the end of no hold of lock {lock}"
                    found[lock].append((*held[lock], {RELEASED: "released", LEFT: "left"}[seat]))
                    held[lock] = None
                elif seat == GRANT:
                    assert not held[lock], f"segment {number}: a grant of lock {lock} while it is held"
                    token = ring.base[1] + int(word[5])
                    last = found[lock][-1][0] if found[lock] else 0
                    assert token > last, f"segment {number}: the tokens of lock {lock} do not rise"
                    held[lock] = (token, int(word[3]))
                elif seat == CARRY:
                    assert carried and carried[0] == int(word[3]), f"segment {number}: lock {lock} carries no hold"
                    carried = None
            assert not carried, f"segment {number}: a hold of lock {lock} is gone"
    return [done + ([(*now, "open")] if now else []) for done, now in zip(found, held)]


def recovered(folder, limit, faults):
    """The machine that goes on from the files of a folder, as a start makes it of them."""
    number = max(int(name[:-5]) for name in os.listdir(folder) if name.endswith(".ring"))
    with open(segment_file(folder, number)) as file:
        named, behind, rings, orders = read_segment(file.read())
    assert named == number, f"segment {number} says {named}"
    with open(os.path.join(folder, "locks")) as file:
        names = [line.split(" ")[0] for line in file]
    it = Locks([], limit, faults)
    it.number, it.behind, it.files, it.locks = number, behind, {}, []
    for name, ring, order in zip(names, rings, orders):
        token = None
        for word in signs(order):
            if word[0] == "s" and int(word[1]) in (RELEASED, LEFT):
                token = None
            elif word[1] == str(GRANT):
                token = ring.base[1] + int(word[5])
            elif word[1] == str(CARRY):
                token = int(word[3])
        ring.repair()
        it.locks.append(Lock(name, ring, token))
    it.add([])
    it.begin()
    return it


def listed(word):
    """The locks of a list, as the option has it: of each the name and the size."""
    parts = [it.split(":") for it in word.split(",")]
    return [(name, *((int(size[0]), int(size[-1])) if size else (8, 8))) for name, *size in parts]


if __name__ == "__main__":
    machine = Locks(listed(sys.argv[1]), int((sys.argv[2:] or ["1000000"])[0]), "faults" in sys.argv[3:])
    for asked in sys.stdin.read().split("\n")[:-1]:
        for said in machine.answer(asked):
            print(said)
    print(machine.totals(), end="")
    for name, content in sorted(machine.files.items()):
        print(f"@{name:010}.ring: {len(''.join(content))} bytes\n{''.join(content)}", end="")
