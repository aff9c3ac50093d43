"""Clients of the model: each sends one line at a time, and says what it was told."""

import math
import socket
import time

from model import Wrong

#: how long a line may wait for its answer where nothing is disturbed
PATIENCE = 30
#: a client with a session says something after this part of its lease
PART = 8


class Line:
    """A connection, and the lines that came over it."""

    def __init__(self, path):
        self.sock = socket.socket(socket.AF_UNIX)
        self.sock.settimeout(PATIENCE)
        self.rest = b""
        try:
            self.sock.connect(path)
        except OSError:
            self.sock.close()
            raise
        self.is_over = False

    def say(self, line):
        """What a connection that is lost does not take is not said."""
        try:
            self.sock.sendall(f"{line}\n".encode())
        except OSError:
            pass  # its end is read

    def lines(self):
        """What has come, without waiting."""
        self.sock.setblocking(False)
        try:
            while True:
                more = self.sock.recv(65536)
                if not more:
                    self.is_over = True
                    break
                self.rest += more
        except BlockingIOError:
            pass
        except OSError:
            self.is_over = True
        self.sock.settimeout(PATIENCE)
        *whole, self.rest = self.rest.split(b"\n")
        return [line.decode() for line in whole]

    def close(self):
        self.sock.close()


class Client:
    """What all have: a lock that it waits for, and the line that has no answer."""

    def __init__(self, name, model, path, lease):
        self.name, self.model, self.path, self.lease = name, model, path, lease
        self.line, self.waits, self.asked = None, None, None
        #: when it looked for what has come, and when it said something last
        self.seen, self.said = 0.0, 0.0

    def label_of(self, lock):
        """The label of what asked for the lock."""
        return self.waits[1] if self.waits and self.waits[0] == lock else None

    def tell(self, lock, token, label):
        if label is None:
            raise Wrong(f"{self.name} is told {lock} {token}, which it has not asked for")
        self.model.tell(self.name, lock, token, label, time.monotonic())
        if self.waits and self.waits[0] == lock:
            self.waits = None

    def granted_late(self, words):
        """The lock for which it waited. If it was leaving, it may be another's before it hears of it."""
        if self.asked == ["leave"] and self.label_of(words[1]) is not None:
            self.model.note(self.name, words[1], int(words[2]), self.label_of(words[1]))
        else:
            self.tell(words[1], int(words[2]), self.label_of(words[1]))

    def heard(self, words):
        """The answer to what was asked."""
        asked, self.asked = self.asked, None
        if asked is None:
            raise Wrong(f"{self.name} is told {words}, and asked nothing")
        self.answered(asked, words)

    def answered(self, asked, words):
        """The effect of an answer."""
        verb, lock = asked[0], asked[1] if len(asked) > 1 else None
        if words[0] == "granted" and verb in ("acquire", "try"):
            self.tell(lock, int(words[2]), int(asked[2]))
        elif words[0] == "waiting" and verb == "acquire":
            if lock not in self.model.claimed(self.name):  # else it was granted the lock before it heard the answer once more
                self.waits = lock, int(asked[2])
        elif words[0] == "released" and verb == "release":
            self.model.give_up(self.name, lock)
        elif words[0] == "cancelled" and verb == "cancel":
            self.waits = None
        elif words[0] == "left" and verb == "leave":
            for held in self.model.claimed(self.name):
                self.model.give_up(self.name, held)
            self.waits = None
        elif words[0] == "busy" and verb == "try":
            self.model.busy.add(int(asked[2]))
        elif words[:2] not in (["refused", "circle"], ["refused", "waiter"]):
            raise Wrong(f"{self.name} asked {asked}, and is told {words}")

    def wish(self, draw, locks):
        """What it asks next."""
        held = self.model.claimed(self.name)
        if held and draw.random() < 0.45:
            lock = draw.choice(sorted(held))
            return ["release", lock, str(held[lock])]
        if self.waits:
            return ["cancel", self.waits[0]] if draw.random() < 0.2 else None
        free = [lock for lock in locks if lock not in held]
        if len(held) > 3 or not free:
            return None
        return [draw.choice(("acquire", "acquire", "try")), draw.choice(free), str(next(self.model.labels))]

    def pump(self):
        """Takes what has come, unless it has not looked for so long that it has to take its holds for lost: then it comes again. False if its
        connection is over."""
        now = time.monotonic()
        seen, self.seen = self.seen, now
        if now - seen > self.lease / 2:
            self.end_late(min(seen, self.said))
            return True
        for line in self.line.lines():
            self.take(line.split(" "))
        return not self.line.is_over

    def end_late(self, since):
        """It closes its connection, since it has been silent since then."""
        self.close()

    def may_have_given(self, lock):
        """Whether what has no answer may have ended its hold of the lock."""
        return bool(self.asked) and (self.asked == ["leave"] or self.asked[:2] == ["release", lock])

    def is_ready(self):
        """Whether it may ask."""
        return self.asked is None

    def keep(self):
        """Says something, so that its lease does not end."""


class Plain(Client):
    """A client without a session: what it holds when its connection ends is nobody's for the grace."""

    def take(self, words):
        if words[0] == "granted" and self.waits:
            self.granted_late(words)  # it asks for nothing else meanwhile
        else:
            self.heard(words)

    def say(self, words):
        self.asked, self.said = words, time.monotonic()
        self.model.give(self.name, words)
        self.line.say(" ".join(words))

    def lose(self, until):
        """The server or the engine is lost: it was told no end of its holds, so these last until then, but those that it was giving up."""
        for lock in self.model.claimed(self.name):
            if self.may_have_given(lock):
                self.model.give_up(self.name, lock)
            else:
                self.model.guard(self.name, lock, until)
        self.line.close()
        self.line, self.asked, self.waits = None, None, None

    def close(self):
        """Closes its connection: what it held is free."""
        for lock in self.model.claimed(self.name):
            self.model.give_up(self.name, lock)
        self.line.close()
        self.line, self.asked, self.waits = None, None, None

    def come(self):
        self.line = Line(self.path)
        self.seen = self.said = time.monotonic()
        self.model.away.pop(self.name, None)


class Session(Client):
    """A client with a session."""

    def __init__(self, name, model, path, lease, key, is_attached):
        super().__init__(name, model, path, lease)
        self.key, self.is_attached, self.number = key, is_attached, 0
        #: the last input that was answered, with its number and its answer; the same if it was asked for once more; when it was told anything
        self.last, self.again, self.heard_at = None, None, 0.0
        #: what it was told when it came back, as long as that is not all
        self.opening = None
        #: it was away for so long that its session may be over, and what it asked last may have been done in that one and in a new one
        self.is_unsure = False

    def take(self, words):
        if words == ["pong"]:
            return
        self.heard_at = time.monotonic()
        if self.opening is not None:
            self.open(words)
        elif words[0] == "granted":
            self.granted_late(words)
        elif self.again:
            again, self.again = self.again, None
            if [str(again[0]), *again[2]] != words:
                raise Wrong(f"{self.name} asked once more: {again}; it is told {words}")
        elif words[0] != str(self.number):
            raise Wrong(f"{self.name} is told {words}, and its last input is {self.number}")
        else:
            self.last = self.number, self.asked, words[1:]
            self.heard(words[1:])

    def answered(self, asked, words):
        is_unsure, self.is_unsure = self.is_unsure, False
        if is_unsure and asked[0] == "release" and words[:2] == ["refused", "holder"]:
            self.model.give_up(self.name, asked[1])  # the hold ended with the session
        elif not is_unsure or asked[0] != "try" or words[0] != "busy":  # the session that is over may have been granted the lock
            super().answered(asked, words)

    def say(self, words):
        self.number += 1
        self.asked, self.last = words, None
        self.model.give(self.name, words)
        self.say_line(" ".join([str(self.number), *words]))

    def say_line(self, line):
        self.said = time.monotonic()
        if not self.is_attached:
            self.model.said[self.name] = self.said  # the connection has a lease
        self.line.say(line)

    def keep(self):
        if self.opening is None and time.monotonic() > self.said + self.lease / PART:
            self.say_line("ping")

    def lose(self, _until):
        self.close()

    def close(self):
        """Its connection is over; it comes back."""
        self.line.close()
        self.line = self.again = self.opening = None
        self.model.away.setdefault(self.name, self.said)

    def end_late(self, since):
        # a session that is attached is over then
        self.model.away[self.name] = -math.inf if self.is_attached else min(since, self.model.away.get(self.name, since))
        self.close()

    def is_ready(self):
        return self.asked is None and self.opening is None

    def vanish(self):
        """It never comes back, and another one comes: what it held is another's after its lease; if it is attached, at once, where the
        server sees that."""
        if self.line:
            until = time.monotonic() if self.is_attached else self.said + self.lease
        else:
            until = time.monotonic() + self.lease  # the server is gone too, and counts anew
        for lock in self.model.claimed(self.name):
            if self.may_have_given(lock):
                self.model.give_up(self.name, lock)
            else:
                self.model.guard(self.name, lock, until)
        if self.line:
            self.line.close()
        self.line = self.asked = self.waits = self.last = self.again = self.opening = None
        self.is_unsure = False
        self.key += 1000
        self.number, self.name = 0, f"session {self.key}"

    def come(self):
        """Comes back. What it is told then is compared when all of it is there."""
        self.line = Line(self.path)
        self.seen = time.monotonic()
        self.opening = []
        self.say_line(f"session {self.key}" + (" attached" if self.is_attached else ""))

    def open(self, words):
        """One line of what it has."""
        self.opening.append(words)
        if len(self.opening) <= int(self.opening[0][2]):
            return
        told, self.opening = self.opening[1:], None
        begun = self.model.away.pop(self.name, None)
        is_late = begun is not None and time.monotonic() - begun > self.lease
        self.model.counts["returns"] += 1
        self.model.counts["late"] += is_late
        if is_late:
            # a session that is new does once more what was answered
            self.last, self.is_unsure = None, self.asked is not None
        self.compare({it[1]: int(it[2]) for it in told if it[0] == "holds"}, [it[1] for it in told if it[0] == "waits"], is_late)
        self.ask_again()

    def compare(self, holds, waits, is_late):
        claimed, asked = self.model.claimed(self.name), self.asked or [""]
        for lock, token in claimed.items():
            if holds.get(lock) == token:
                continue
            if not self.may_have_given(lock) and not is_late:
                raise Wrong(f"{self.name} was told {lock} {token}, was back in time, and is told {holds} and {waits}; {asked} is open")
            self.model.give_up(self.name, lock)
            self.model.counts["lost"] += 1
        was, self.waits = self.waits, None
        for lock, token in holds.items():
            if lock in claimed:
                continue
            label = was[1] if was and was[0] == lock else int(asked[2]) if asked[0] in ("acquire", "try") and asked[1] == lock else None
            self.tell(lock, token, label)
        for lock in waits:
            label = was[1] if was and was[0] == lock else int(asked[2]) if asked[0] == "acquire" and asked[1] == lock else None
            if label is None:
                raise Wrong(f"{self.name} waits for {lock}, which it has not asked for")
            self.waits = lock, label
        is_open = asked[0] in ("cancel", "leave") or is_late or was and was[0] in holds
        if was and not self.waits and not is_open:
            raise Wrong(f"{self.name} waited for {was[0]}, was back in time, and is told {holds} and {waits}; {asked} is open")

    def ask_again(self):
        """Sends again what has no answer; or what had one, and gets it again."""
        if self.asked:
            self.say_line(" ".join([str(self.number), *self.asked]))
        elif self.last:
            self.again = self.last
            self.model.counts["again"] += 1
            self.say_line(" ".join([str(self.number), *self.last[1]]))
