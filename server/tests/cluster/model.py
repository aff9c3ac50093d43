"""A second reading of the log: what its entries mean, and a machine of locks, with no code of the programs.

An entry is `by NAME INCARNATION SERIAL POSITION DIGEST`, and lines `with SETTINGS`, `here KEY WHO`, `KEY NUMBER INPUT`, `gone KEY`,
`server NAME INCARNATION`, with tabs between them. An input has the name of its lock. KEY is a session's; sessions count from 1, in the order in which they come. WHO is a user,
`uNUMBER`, or an address, `aADDRESS`; a session is the first user's and the first address's that came with its key."""

import collections
import sys


class Locks:
    """Locks with holders, lines of those who wait, and tokens that rise by one. Behind the list, of which `listed` has the names if there
    are others, a name has its first token above all grants of all locks, from the grant that finds it unused to its last hold's end."""

    def __init__(self):
        self.listed, self.top = None, 0
        self.holders, self.waiting, self.tokens = collections.defaultdict(lambda: None), collections.defaultdict(collections.deque), collections.Counter()
        self.used = set()  # the names that are held, or were granted to somebody who waited
        self.waits = {}  # the lock that a client waits for
        self.held = collections.defaultdict(set)  # the locks that a client holds
        self.grants = []  # (lock, token, client, label)

    def _give(self, lock, client, label):
        if self.listed is not None and lock not in self.listed and lock not in self.used:
            self.used.add(lock)
            self.tokens[lock] = self.top
        self.tokens[lock] += 1
        self.top += 1
        self.holders[lock] = client, self.tokens[lock]
        self.held[client].add(lock)
        self.grants.append((lock, self.tokens[lock], client, label))
        return f"granted {lock} {self.tokens[lock]}"

    def _next(self, lock):
        self.held[self.holders[lock][0]].discard(lock)
        self.holders[lock] = None
        if self.waiting[lock]:
            client, label = self.waiting[lock].popleft()
            del self.waits[client]
            self._give(lock, client, label)
        else:
            self.used.discard(lock)

    def _wait_no_longer(self, client):
        line = self.waiting[self.waits.pop(client)]
        line.remove(next(it for it in line if it[0] == client))

    def _is_in_a_circle(self, client, lock):
        while self.holders[lock] is not None:
            holder = self.holders[lock][0]
            if holder == client:
                return True
            lock = self.waits.get(holder)
            if lock is None:
                return False
        return False

    def do(self, client, verb, lock, number=0):
        """The first line of the answer."""
        holder = self.holders[lock]
        if verb == "release":
            if holder != (client, number):
                return f"refused holder {lock}"
            self._next(lock)
            return f"released {lock}"
        if verb == "cancel":
            if self.waits.get(client) != lock:
                return f"refused waiter {lock}"
            self._wait_no_longer(client)
            return f"cancelled {lock}"
        if holder is not None and holder[0] == client:
            return f"refused holds {lock}"
        if client in self.waits and (verb == "acquire" or self.waits[client] == lock):
            return f"refused waits {lock}"
        if holder is None:
            return self._give(lock, client, number)
        if verb == "try":
            return f"busy {lock}"
        if self._is_in_a_circle(client, lock):
            return f"refused circle {lock}"
        self.waiting[lock].append((client, number))
        self.waits[client] = lock
        return f"waiting {lock} {len(self.waiting[lock]) - 1}"

    def leave(self, client):
        """The client waits for nothing and holds nothing."""
        if client in self.waits:
            self._wait_no_longer(client)
        for lock in sorted(self.held.get(client, ())):
            self._next(lock)
        self.held.pop(client, None)


class Reading:
    """The log from its first entry on."""

    def __init__(self):
        self.locks, self.settings, self.servers, self.over, self.sessions = Locks(), None, {}, {}, {}
        self.answers = collections.defaultdict(dict)  # by key, by number: place, verb and lock, answer
        self.twice = []  # those that were done more than once
        self.done = self.again = self.entries = self.ignored = self.last_session = self.foreign = 0
        self.owners = {}  # of each session the first user and the first address

    def read(self, text):
        """The next entry."""
        head, *lines = text.split("\t")
        _, name, incarnation, serial = head.split(" ")[:4]
        writer = name, int(incarnation)
        self.entries += 1
        if not self._is_taken(writer, int(serial), lines):
            self.ignored += 1
            return
        for line in lines:
            self._line(writer, line.split(" "))

    def _is_taken(self, writer, serial, lines):
        if writer[1] <= self.over.get(writer[0], 0):
            return False
        if writer not in self.servers:
            if not lines or not lines[0].startswith("with ") or self.settings not in (None, lines[0]):
                return False
            self.settings, self.servers[writer] = lines[0], serial
            listed = [it.split(":")[0] for it in lines[0].split(" ")[5].split(",")]
            if "*" in listed:
                self.locks.listed = set(listed) - {"*"}
            return True
        is_later = serial > self.servers[writer]
        self.servers[writer] = max(serial, self.servers[writer])
        return is_later

    def _line(self, writer, words):
        if words[0] == "here":
            self._home(int(words[1]), words[2], writer)
        elif words[0] == "gone":
            if self.sessions.get(int(words[1]), (None,))[0] == writer:
                self._go(int(words[1]))
        elif words[0] == "server":
            name, incarnation = words[1], int(words[2])
            if incarnation > self.over.get(name, 0):
                self.over[name] = incarnation
                is_over = lambda home: home[0] == name and home[1] <= incarnation  # noqa: E731
                for _, key in sorted((session, key) for key, (home, _, session) in self.sessions.items() if is_over(home)):
                    self._go(key)
        elif words[0] != "with":
            self._do(writer, int(words[0]), int(words[1]), words[2:])

    def _home(self, key, who, writer):
        if key not in self.sessions:
            self.last_session += 1
            self.sessions[key] = writer, 0, self.last_session
            self.owners[key] = {}
        if self.owners[key].setdefault(who[0], who) == who:
            self.sessions[key] = writer, *self.sessions[key][1:]
        else:
            self.foreign += 1

    def _go(self, key):
        del self.sessions[key]
        self.locks.leave(key)

    def _do(self, writer, key, number, words):
        if self.sessions.get(key, (None,))[0] != writer:
            self.again += 1
            return
        if number <= self.sessions[key][1]:
            self.again += 1
            return
        self.sessions[key] = writer, number, self.sessions[key][2]
        answer = self.locks.do(key, words[0], sys.intern(words[1]), *map(int, words[2:]))
        if number in self.answers[key]:
            self.twice.append((key, number))
        # texts are the same few, but for grants
        asked, answer = sys.intern(" ".join(words[:2])), answer if answer.startswith("granted") else sys.intern(answer)
        self.answers[key][number] = self.done, asked, answer
        self.done += 1
