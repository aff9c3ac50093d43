#!/usr/bin/env python3
"""worker.py FIRST COUNT SERVERS LOCKS SECONDS FOLDER SEED: clients, as many as COUNT, that take locks and give them back, and note what
they were answered. They end after SECONDS, or when the file `enough` is in FOLDER. `worker.py inside FOLDER NUMBER` is what `wozgirt lock` runs while it
holds a lock.

Where LOCKS has `*`, a name is drawn there that nobody has had.

`client.N.txt` has a line for each, with its session's key: `did KEY NUMBER SENT GOT INPUT | ANSWER`, `granted KEY LOCK TOKEN`, `inside LOCK TOKEN FROM TO`
(the client knew that it held the lock, by one clock of the machine), `lost KEY WHY`. What is shared is written to `store.LOCK`, which
refuses a token that is lower than one it has seen: `wrote LOCK TOKEN` or `refused LOCK TOKEN`."""

import fcntl
import os
import random
import sys
import threading
import time

sys.path.insert(0, os.path.join(os.path.dirname(os.path.abspath(__file__)), "..", "..", "..", "clients", "python"))

from wozgirt import LockError, LockLost, NotInTime, Session, lines  # noqa: E402

LEASE = 4.0


class Noted(Session):
    """A client that notes each answer."""

    def __init__(self, places, note):
        self.note, self.sent = note, 0.0
        super().__init__(places, lease=LEASE)
        self.session = self._key

    def _send(self, line):
        if line not in (b"ping\n", b"status\n"):
            self.sent = time.monotonic()
        super()._send(line)

    def _answered(self, number, words):
        asked = self._asked
        if asked is not None and asked.number == number:
            self.note("did", self.session, number, f"{self.sent:.6f} {time.monotonic():.6f}", asked.line.decode().strip(), "|", *words)
        return super()._answered(number, words)

    def _is_granted(self, name, token):
        found = super()._is_granted(name, token)
        if found is not None:
            self.note("granted", self.session, name, token)
        return found


def write(path, token):
    """Writes to what the lock guards, which refuses a token that is lower than one it has seen."""
    with open(path, "a+b") as file:
        fcntl.flock(file, fcntl.LOCK_EX)
        file.seek(0)
        if token < int(file.read() or b"0"):
            return False
        file.truncate(0)
        file.write(b"%d" % token)
        return True


def inside(client, folder, name, token, note, chance):
    """Is inside the lock for a while."""
    begun = until = time.monotonic()
    try:
        for _ in range(chance.randrange(1, 4)):
            note("wrote" if write(os.path.join(folder, f"store.{name}"), token) else "refused", name, token)
            client.check()
            until = time.monotonic()
            time.sleep(chance.random() * 0.004)
    finally:
        note("inside", name, token, f"{begun:.6f} {until:.6f}")


def once(client, locks, folder, note, chance):
    """One lock, taken in one way or another."""
    name, kind = chance.choice(locks), chance.random()
    if name == "*":
        name = f"new.{chance.randrange(1 << 40)}"
    if kind < 0.2:
        token = client.try_acquire(name, label=chance.randrange(1000))
    else:
        try:
            token = client.acquire(name, label=chance.randrange(1000), wait=None if kind < 0.8 else chance.random() * 0.02)
        except NotInTime:
            return
    if token is None:
        return
    inside(client, folder, name, token, note, chance)
    if chance.random() < 0.05:
        client.leave()
    else:
        client.release(name, token)


def work(number, places, locks, end, folder, seed):
    """What one client does."""
    chance, client, enough = random.Random(f"{seed} {number}"), None, os.path.join(folder, "enough")
    with open(os.path.join(folder, f"client.{number}.txt"), "w", encoding="ascii", buffering=1) as file:
        def note(*words):
            file.write(" ".join(map(str, words)) + "\n")
        while time.monotonic() < end and not os.path.exists(enough):
            try:
                client = client or Noted(chance.sample(places, len(places)), note)
                once(client, locks, folder, note, chance)
                time.sleep(chance.random() * 0.01)
            except (LockLost, OSError) as lost:
                if client is not None:
                    note("lost", client.session, str(lost).replace(" ", "_"))
                    client.close()
                client = None
            except LockError as fault:
                note("fault", client.session, type(fault).__name__, fault)
        if client is not None:
            client.close()


def command(folder, number):
    """Is inside the lock that `wozgirt lock` holds for this process, which is ended if that is lost."""
    name, token, begun = os.environ["WOZGIRT_LOCK"], int(os.environ["WOZGIRT_TOKEN"]), time.monotonic()
    verb = "wrote" if write(os.path.join(folder, f"store.{name}"), token) else "refused"
    time.sleep(random.random() * 0.004)
    with open(os.path.join(folder, f"client.command.{number}.txt"), "a", encoding="ascii") as file:
        file.write(f"{verb} {name} {token}\ninside {name} {token} {begun:.6f} {time.monotonic():.6f}\n")


def main(first, count, servers, locks, seconds, folder, seed):
    end = time.monotonic() + float(seconds)
    words = lines.places(servers), locks.split(","), end, folder, seed
    them = [threading.Thread(target=work, args=(number, *words)) for number in range(int(first), int(first) + int(count))]
    [it.start() for it in them]
    [it.join() for it in them]


if __name__ == "__main__":
    (command if sys.argv[1] == "inside" else main)(*sys.argv[2 if sys.argv[1] == "inside" else 1:])
