"""`ring_tool locks` under cuts: each grant that was told is in the history that is recovered, with its label, and each end of a hold; what
was kept of a key and of a place in a log stands in the last segment; no hold is there that nobody asked for."""

import os
import re
import subprocess
from collections import deque
from dataclasses import dataclass, field

from .disk import TAKEN
from .histories import History, recovered

LOCKS = ("a:3", "b", "c:3:5")
NAMES = [it.split(":")[0] for it in LOCKS]
MARK = 999
GRANTED = re.compile(rb"(\d+) granted (\S+) (\d+)\n")
SECONDS = 60


@dataclass
class Told:
    """What was told: of each lock the grants with their labels, and the ends; of each key the last number and answer; the last place."""

    grants: list = field(default_factory=lambda: [{} for _ in LOCKS])
    ends: list = field(default_factory=lambda: [set() for _ in LOCKS])
    keys: dict = field(default_factory=dict)
    place: int = 0

    def hear(self, sent, lines):
        """Goes on with the answers to what was sent, where `sent` has the lines in their order."""
        asks, waits = {}, {}
        for line in sent:
            words = line.split(" ")
            keyed = words[:2] if words[0] != "at" and words[1].isdigit() else []
            words = words[len(keyed):]
            if words[-1] != "leave":
                asks.setdefault(words[0], deque()).append((keyed, words))
        for line in lines:
            self.hear_one(line, asks, waits)

    def hear_one(self, line, asks, waits):
        who, what, *rest = line.split(" ")
        if who == "at":
            self.place = int(what)
            asks["at"].popleft()
            return
        lock = NAMES.index(rest[0]) if what in ("granted", "released") else None
        if what == "granted":
            self.grants[lock][int(rest[1])] = label_of(who, lock)
        if what == "granted" and waits.get(who) == lock:
            del waits[who]
            return
        keyed, words = asks[who].popleft()
        if what == "released":
            self.ends[lock].add(int(words[3]))
        if what == "waiting":
            waits[who] = NAMES.index(rest[0])
        if what == "cancelled":
            del waits[who]
        if keyed:
            self.keys[keyed[0]] = (int(keyed[1]), line)


def label_of(client, lock):
    return int(client) * 10 + int(lock)


class Locks:
    """The locks of one folder, through all lives."""

    is_folder = True

    def __init__(self, engine, *more):
        self.engine, self.more, self.name = engine, more, "locks"
        self.told, self.sent, self.extra, self.last = Told(), [], 0, MARK
        self.asked = set()

    def prepare(self, folder):
        os.makedirs(self.journal(folder))

    def journal(self, folder):
        return os.path.join(folder, "journal")

    def words(self, folder):
        return [self.engine, "locks", "--journal", self.journal(folder), "--locks", ",".join(LOCKS), "--faults", *self.more]

    def client(self):
        self.last += 1
        return self.last

    def batches(self, draw):
        """Lines that are sent at once; the mark's line in the end is answered last."""
        self.sent, self.holders, self.place = [], {}, 0
        clients, numbers = [self.client() for _ in range(6)], [0] * 3
        yield self.batch(draw.choice((["0 leave"], [])))
        for _ in range(draw.randint(1, 8)):
            yield self.batch([self.a_line(draw, clients, numbers) for _ in range(draw.choice((1, 3, 20, 60, 300)))])

    def batch(self, lines):
        lines = [*lines, f"{MARK} stats {NAMES[0]}"]
        self.sent += lines

        def is_done(answers):
            is_it = f"\n{MARK} stats ".encode() in b"\n" + answers and answers.endswith(b"\n")
            if is_it:
                granted = ((NAMES.index(name.decode()), int(who), int(token)) for who, name, token in GRANTED.findall(answers))
                self.holders.update((lock, (who, token)) for lock, who, token in granted)
            return is_it

        return "".join(f"{it}\n" for it in lines), is_done

    def a_line(self, draw, clients, numbers):
        """A line of a client, of whom the first three have keys, or one about a place."""
        if draw.random() < 0.1:
            self.place += 1
            return f"at {self.place}"
        at, lock = draw.randrange(len(clients)), draw.randrange(len(LOCKS))
        what = draw.choice(("acquire", "acquire", "try", "release", "release", "cancel", "leave", "corrupt", "stats"))
        holder, token = self.holders.get(lock, (0, 1))
        if what == "release" and holder in clients:
            at = clients.index(holder)
        client = clients[at]
        if what == "leave":
            clients[at] = self.client()
            return f"{client} leave"
        if what in ("acquire", "try"):
            self.asked.add((lock, label_of(client, lock)))
        rest = {"acquire": f" {label_of(client, lock)}", "release": f" {token}", "corrupt": f" {draw.randrange(3)} {draw.randrange(3)}"}
        rest["try"] = rest["acquire"]
        numbers[at:at + 1] = [it + 1 for it in numbers[at:at + 1]]
        return f"{f'{at + 1} {numbers[at]} ' if at < len(numbers) else ''}{client} {what} {NAMES[lock]}{rest.get(what, '')}"

    def judge(self, folder, told, kind, is_started=False):
        """What is wrong with what is recovered."""
        is_there = os.path.isdir(self.journal(folder))
        history = recovered(self.journal(folder)) if is_there else History()
        wrong = list(history.wrong) if kind in TAKEN else []
        heard = Told([dict(it) for it in self.told.grants], [set(it) for it in self.told.ends])
        heard.hear(self.sent, told)
        self.extra = 0
        for lock in range(len(LOCKS)):
            grants, ends = holds_of(history, str(lock))
            wrong += [f"{token} of {lock} with label {label} is missing" for token, label in heard.grants[lock].items() if grants.get(token) != label]
            wrong += [f"the end of {token} of {lock} is missing" for token in heard.ends[lock] - ends]
            more = [it for it in grants.items() if (lock, it[1]) not in self.asked]
            self.extra += len(more)
            wrong += [f"nobody asked for {it} of {lock}" for it in more if kind in TAKEN]
        return wrong + ([] if is_started else self.judge_remarks(history.remarks, heard, kind in TAKEN))

    def judge_remarks(self, remarks, heard, are_last):
        """What is missing of that which is kept of keys and of the place. If it is not the last, it is enough that it is there."""
        kept, places = {}, [0]
        for line in remarks:
            words = line.split(" ", 3)
            if not (len(words) > 1 and words[1].isdigit()):
                # old blocks and holes leave parts of lines
                continue
            if words[0] == "at":
                places.append(int(words[1]))
            elif words[2:3] == ["did"]:
                kept.setdefault(words[0], []).append((int(words[1]), " ".join(words[3:])))
        first = -1 if are_last else 0
        missing = [f"what key {key} was told is missing: {last}, there is {kept.get(key, [])[-1:]}" for key, last in heard.keys.items()
                   if not any(it == last or it[0] > last[0] for it in kept.get(key, [])[first:])]
        is_there = max(places[first:]) >= heard.place
        return missing + [f"place {heard.place} is missing, there is {places[-1]}"] * (not is_there)

    def start(self, folder):
        """Starts an engine that is asked nothing, and has the folder checked: how that is refused, or nothing."""
        for words in (self.words(folder), [self.engine, "check", self.journal(folder)]):
            ran = subprocess.run(words, stdin=subprocess.DEVNULL, capture_output=True, timeout=SECONDS, check=False)
            if ran.returncode:
                return f"{words[1]}: status {ran.returncode}, {ran.stderr.decode(errors='replace')}"
        return ""

    def adopt(self, folder, told):
        """What was told was told in the next life too."""
        self.told.hear(self.sent, told)
        self.told.keys, self.told.place = {}, 0


def holds_of(history, lock):
    """The grants of a lock by their tokens, with their labels, and the tokens whose hold has ended."""
    events = history.events.get(lock, [])
    ends = sorted(int(line.split(" ")[2]) for seat in "12" for line in history.surveys.get((lock, seat), []))
    grants, ended, open_, at = {}, set(), None, 0
    for place, line in enumerate([*events, ""]):
        if at < len(ends) and ends[at] == place:
            ended.add(open_)
            at += 1
        words = line.split(" ")
        if words[0] == "p" and words[1] == "0":
            open_ = int(words[5])
            grants[open_] = int(words[3])
    return grants, ended
