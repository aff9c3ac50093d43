#!/usr/bin/env python3
"""names.py RING_TOOL FOLDER [RUNS] [SEED]: tries `ring_tool locks` with a pool against the machine of name_machine.py.

In each run (100 of them) drawn lines of a few clients ask for a few names, in a folder of its own below FOLDER, and each answer is
compared. The program is ended and started again all the time: its last file is cut at any byte after the beginning of its segment,
the list is left out or named, a folder gets its pool only then, more names may be held, and open holds are handed over. Every file
is compared byte for byte, and the totals; `check` has to accept the folder."""
import os
import random
import shutil
import subprocess
import sys

sys.dont_write_bytecode = True
sys.path.insert(0, os.path.join(os.path.dirname(os.path.abspath(__file__)), "..", "models"))
import lock_machine  # noqa: E402
import name_machine  # noqa: E402
from locks import Program  # noqa: E402

FIXED = [[], ["a"], ["a:2", "b/1:3:4"], ["x.y", "1", "c:2"]]
POOLS = ["*", "*:3:4", "*:2:5", "*:5"]
MARK = "777 x"


def begun(text):
    """How many bytes the beginning of a file has: with the names of the holds that it carries."""
    lines = text.splitlines(keepends=True)
    place = next(at for at, line in enumerate(lines) if line.startswith("done ")) + 1
    carries = sum(line.startswith(f"p {lock_machine.CARRY} ") for line in lines[:place])
    if place < len(lines) and lines[place].startswith("# floor "):
        place += 1
        while place < len(lines) and lines[place].startswith("# name ") and carries:
            place, carries = place + 1, carries - 1
    return len("".join(lines[:place]))


class Run:
    """A folder, with the program and the machine that serve it."""

    def __init__(self, tool, folder, chance):
        self.tool, self.folder, self.chance = tool, folder, chance
        self.fixed, self.pool = chance.choice(FIXED), chance.choice(POOLS)
        self.most, self.limit = chance.choice([1, 2, 3, 5, 8]), chance.choice([1, 2, 5, 20, 1_000_000])
        self.has_pool = not self.fixed or chance.random() < 0.7
        self.names = [it.split(":")[0] for it in self.fixed] + [f"n{it}" for it in range(self.most + 3)]
        if self.has_pool:
            self.machine = name_machine.Names(*name_machine.named_list(self.word()), self.most, self.limit, True)
        else:
            self.machine = lock_machine.Locks(lock_machine.listed(self.word()), self.limit, True)
        self.start(["--locks", self.word()])

    def word(self):
        return ",".join([*self.fixed, self.pool] if self.has_pool else self.fixed)

    def start(self, more):
        words = ["--most-names", str(self.most), "--segment", str(self.limit), "--faults", "--no-sync", *more]
        self.program = Program(self.tool, self.folder, words)

    def ask(self, line):
        expected = "".join(it + "\n" for it in [*self.machine.answer(line), f"{MARK.split()[0]} refused syntax"]).encode()
        self.program.send([line, MARK])
        got = self.program.read(len(expected))
        assert got == expected, (line, got, expected)

    def token(self, place):
        holder = self.machine.locks[place].holder
        return self.machine.token(place, holder[1]) if self.has_pool else holder[1]

    def line(self):
        """A drawn line; most of them mean something."""
        chance, kind = self.chance, self.chance.random()
        client, name, label = chance.randrange(1, 7), chance.choice(self.names), chance.randrange(100)
        held = [place for place, it in enumerate(self.machine.locks) if it.holder]
        if kind < 0.5:
            return f"{client} {'acquire' if kind < 0.4 else 'try'} {name} {label}"
        if kind < 0.75 and held:
            place = chance.choice(held)
            wrong = chance.choice([-1, 1, 1000, 2**63]) if chance.random() < 0.2 else 0
            lock = self.machine.locks[place]
            return f"{lock.holder[0]} release {lock.name} {max(self.token(place) + wrong, 0)}"
        if kind < 0.85:
            return f"{client} {'cancel ' + name if kind < 0.8 else 'release ' + name + ' 1'}"
        if kind < 0.9:
            return f"{chance.choice([client, 0])} leave"
        return chance.choice([f"{client} stats {name}", f"{client} corrupt {name} {chance.randrange(4)} {chance.randrange(5)}",
                              f"{client} stats {'x' * 129}", f"{client} acquire bad! 3", f"{client} acquire {name} {2**64}", f"{client}"])

    def compare(self):
        for number, lines in self.machine.files.items():
            with open(lock_machine.segment_file(self.folder, number)) as file:
                assert file.read() == "".join(lines), f"segment {number} is another one"
        assert not os.path.exists(lock_machine.segment_file(self.folder, self.machine.number + 1)), "a segment too many"

    def end(self):
        self.program.end(self.machine.totals())
        self.compare()
        said = subprocess.run([self.tool, "check", self.folder], capture_output=True, text=True)
        assert said.returncode == 0, said

    def start_again(self):
        """Cuts the last file, and starts again, with the holds that some clients get."""
        path = lock_machine.segment_file(self.folder, self.machine.number)
        with open(path) as file:
            text = file.read()
        with open(path, "w") as file:
            file.write(text[:self.chance.randrange(begun(text), len(text) + 1)])
        words = [] if self.has_pool and self.chance.random() < 0.5 else None
        self.has_pool = self.has_pool or self.chance.random() < 0.5
        self.most += self.chance.randrange(2)
        words = ["--locks", self.word()] if words is None else words
        self.recover()
        if self.has_pool and self.chance.random() < 0.5:
            words += ["--holders", self.hand_over()]
        self.start(words)
        self.ask("1 stats a")
        self.compare()

    def recover(self):
        if self.has_pool:
            self.machine = name_machine.names_recovered(self.folder, self.word(), self.most, self.limit, True)
        else:
            self.machine = lock_machine.recovered(self.folder, self.limit, True)

    def hand_over(self):
        with open(f"{self.folder}.holders", "w") as file:
            for place, lock in enumerate(self.machine.locks):
                if lock.holder and self.chance.random() < 0.7:
                    client = self.chance.randrange(1, 9)
                    file.write(f"hold {lock.name} {self.token(place)} {client}\n")
                    lock.holder = (client, lock.holder[1])
        return file.name


def main(tool, folder, runs, seed):
    for count in range(runs):
        chance = random.Random(f"{seed} {count}")
        place = os.path.join(folder, f"run{count}")
        os.makedirs(place)
        try:
            run = Run(tool, place, chance)
            for _ in range(200):
                run.ask(run.line())
                if chance.random() < 0.04:
                    run.end()
                    run.start_again()
            run.end()
        except AssertionError:
            print(f"seed {seed}, run {count}: in {place}")
            raise
        shutil.rmtree(place)
    print(f"{runs} runs, all as the machine")


if __name__ == "__main__":
    main(os.path.abspath(sys.argv[1]), sys.argv[2], *(int(it) for it in (sys.argv[3:] + ["100", "1"][len(sys.argv) - 3:])))
