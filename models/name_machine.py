#!/usr/bin/env python3
"""name_machine.py: locks by any name once more, as docs/FORMATS.md says, written apart from the program, for the scripts beside it:
the machine of lock_machine.py over rings of a pool, with the remarks about names in its files. As a program, `name_machine.py LIST
[MOST [SEGMENT]] [faults] <LINES`, where LIST ends with `*`, prints the answers, and then the files."""
import os
import sys

from lock_machine import CARRY, GRANT, LEFT, RELEASED, Lock, Locks, Ring, listed, read_segment, segment_file, signs

LEAST = 1024
MOST_LOCKS = 1_000_000


class Names(Locks):
    """The machine: fixed locks, and then rings of a pool, each of which has a name as long as it is held."""

    def __init__(self, fixed, size, most, limit, faults=False):
        self.fixed, self.size, self.most = len(fixed), size, min(most, MOST_LOCKS - len(fixed))
        self.counts, self.top, self.fresh = [(0, 0)] * len(fixed), 0, None
        super().__init__(fixed + [(None, *size)] * min(LEAST, self.most), limit, faults)

    def add(self, more):
        self.locks += [Lock(name, Ring(k, [0] * n)) for name, n, k in more]
        self.counts += [(0, 0)] * (len(self.locks) - len(self.counts))
        self.places = {it.name: place for place, it in enumerate(self.locks) if it.name}

    # ---- names

    def bind(self, ring, name, counts):
        self.locks[ring].name, self.counts[ring] = name, counts
        self.places[name] = ring

    def forget(self, ring):
        del self.places[self.locks[ring].name]
        self.locks[ring].name = None

    def free(self):
        return next((place for place, it in enumerate(self.locks) if not it.name), None)

    def token(self, ring, number):
        before, floor = self.counts[ring]
        return floor + number - before

    def bound_line(self, ring):
        return f"# name {ring} {self.counts[ring][0]} {self.counts[ring][1]} {self.locks[ring].name}"

    # ---- segments

    def beginning(self):
        pool = range(self.fixed, len(self.locks))
        return [*super().beginning(), f"# floor {self.top}", *(self.bound_line(it) for it in pool if self.locks[it].name)]

    def is_due(self):
        return super().is_due() or self.free() is None and len(self.locks) - self.fixed < self.most

    def cut(self):
        used = max((place + 1 - self.fixed for place, it in enumerate(self.locks) if it.name), default=0)
        wanted = LEAST
        while 3 * wanted < 4 * used:
            wanted *= 2
        grown = max(min(wanted, self.most) - (len(self.locks) - self.fixed), 0)
        number, self.number_of_more = self.number, grown
        super().cut()
        assert self.number == number + 1

    def put_file(self):
        """(a segment that begins after another one may have more rings)"""
        self.add([(None, *self.size)] * self.__dict__.pop("number_of_more", 0))
        super().put_file()

    def start_again(self, text, rings, orders):
        """The process has ended, and of the last file these whole lines are left: the segment ends, if they are more than its beginning."""
        told, bound = {}, {}
        for line in text.splitlines():
            word = line.split(" ")
            if word[:2] == ["#", "floor"]:
                self.top = int(word[2])
            elif word[:2] == ["#", "name"]:
                told[int(word[2])] = bound[int(word[2])] = (word[5], (int(word[3]), int(word[4])))
            elif word[:2] == ["#", "free"]:
                del bound[int(word[2])]
        if "\n# floor " not in text:
            self.top = sum(it.base[1] for it in rings)
        self.top += sum(it.grants for it in rings)
        for place, (ring, order) in enumerate(zip(rings, orders)):
            number = None
            for word in signs(order):
                if word[0] == "s" and int(word[1]) in (RELEASED, LEFT):
                    number = None
                elif word[1] == str(GRANT):
                    number = ring.base[1] + int(word[5])
                elif word[1] == str(CARRY):
                    number = int(word[3])
            self.locks[place].ring = ring
            self.locks[place].holder = None if number is None else (0, number)
            if place >= self.fixed and number is not None:
                self.bind(place, *told[place])
        more = [f"# free {place}\n" for place in sorted(bound) if not self.locks[place].holder]
        for place, ring in enumerate(rings):
            passes = ring.repair()
            self.top += len(passes)
            more += [f"{place} {line}\n" for line in passes]
        if text == "".join(line + "\n" for line in self.fresh_beginning()):
            self.begin()
        else:
            self.files[self.number] = [text, *more]
            self.cut()

    def fresh_beginning(self):
        return self.beginning()

    # ---- lines

    def ask(self, client, word, name, *numbers):
        if name in self.places:
            super().ask(client, word, name, *numbers)
        elif word in ("acquire", "try"):
            self.ask_fresh(client, word, name, *numbers)
        elif word == "stats":
            self.said.append(f"{client} stats {name} 0 0 0 0 0")
        else:
            self.said.append(f"{client} refused {dict(release='holder', cancel='waiter', corrupt='lock')[word]} {name}")

    def ask_fresh(self, client, word, name, order):
        ring = self.free()
        if ring is None:
            self.said.append(f"{client} refused names {name}")
            return
        self.bind(ring, name, (self.locks[ring].ring.passes(), self.top))
        self.fresh = ring
        super().ask(client, word, name, order)
        if not self.locks[ring].holder:
            self.forget(ring)
        self.fresh = None

    def grant(self, lock, client, order):
        if self.fresh == lock:
            self.noted.append(self.bound_line(lock) + "\n")
        self.note(lock, self.locks[lock].grant(client, order))
        self.top += 1
        self.say(client, "granted", lock, self.token(lock, self.locks[lock].holder[1]))

    def end(self, lock, seat):
        super().end(lock, seat)
        if lock >= self.fixed and not self.locks[lock].holder:
            self.noted.append(f"# free {lock}\n")
            self.forget(lock)

    def release(self, client, lock, token):
        before, floor = self.counts[lock]
        super().release(client, lock, token - floor + before if token > floor else 0)

    def corrupt(self, client, lock, machine, value):
        grants = self.locks[lock].ring.grants
        super().corrupt(client, lock, machine, value)
        self.top += self.locks[lock].ring.grants - grants

    def stats(self, client, lock):
        it = self.locks[lock]
        holder = (it.holder[0], self.token(lock, it.holder[1])) if it.holder else (0, 0)
        self.say(client, "stats", lock, len(it.ring.values), len(it.line), it.ring.passes() - self.counts[lock][0], *holder)

    def state(self):
        """The lines that bring holds and queues back."""
        named = [(place, it) for place, it in enumerate(self.locks) if it.name]
        holds = [f"hold {it.name} {self.token(place, it.holder[1])} {it.holder[0]}" for place, it in named if it.holder]
        return holds + [f"{client} acquire {it.name} {order}" for _, it in named for client, order in it.line]


def named_list(word):
    """The fixed locks of a list, and the size of the rings of its pool."""
    front, _, size = word.rpartition("*")
    size = [int(it) for it in size.split(":")[1:]] or [2, 2]
    return listed(front[:-1]) if front else [], (size[0], size[-1])


def names_recovered(folder, word, most, limit, faults=False):
    """The machine that goes on from the files of a folder, as a start makes it of them."""
    number = max(int(name[:-5]) for name in os.listdir(folder) if name.endswith(".ring"))
    with open(segment_file(folder, number)) as file:
        text = file.read()
    text = text[:text.rindex("\n") + 1].rstrip("\n") + "\n"
    fixed, size = named_list(word)
    named, behind, rings, orders = read_segment(text)
    assert named == number, f"segment {number} says {named}"
    it = Names.__new__(Names)
    it.fixed, it.size, it.most = len(fixed), size, min(most, MOST_LOCKS - len(fixed))
    it.counts, it.top, it.fresh, it.locks, it.waits, it.files = [], 0, None, [], {}, {}
    it.limit, it.faults, it.number, it.behind = limit, faults, number, behind
    it.add(fixed + [(None, *size)] * (len(rings) - len(fixed)))
    last = text.splitlines()[-1]
    begun = text[text.index("\ndone "):].splitlines()[2:]
    if last.startswith("# name ") and any(not line.startswith("#") for line in begun):
        text = text[:-len(last) - 1]
    elif last.startswith("# name ") and last.split(" ")[2] not in {str(place) for place, ring in enumerate(rings) if any(line.startswith(f"p {CARRY} ") for line in ring.events)}:
        text = text[:-len(last) - 1]
    it.start_again(text, rings, orders)
    return it


if __name__ == "__main__":
    pins, ring_size = named_list(sys.argv[1])
    given = [int(it) for it in sys.argv[2:] if it != "faults"]
    machine = Names(pins, ring_size, (given or [65536])[0], (given[1:] or [1_000_000])[0], "faults" in sys.argv[2:])
    for asked in sys.stdin.read().split("\n")[:-1]:
        for said in machine.answer(asked):
            print(said)
    print(machine.totals(), end="")
    for name, content in sorted(machine.files.items()):
        print(f"@{name:010}.ring: {len(''.join(content))} bytes\n{''.join(content)}", end="")
