#!/usr/bin/env python3
"""A log for tests of several servers, without etcd: it speaks the lines of `wozgirt-log`, but keeps the log in a thread of the test.

As a program it takes the words of wozgirt-log, of which --endpoints names the socket of that thread, and passes lines on. `Log` is the
thread's side: a test may look into the log, put entries there, end leases, and put another log in its place."""

import argparse
import os
import selectors
import socket
import sys
import threading
import time

REVISIONS = 10  # each entry is so many revisions after the one before


class Log:
    """A log, and those who have it: a context manager."""

    def __init__(self, path):
        self.path, self.identity, self.entries, self.started = path, "double", [], 0
        self.lock, self.lines, self.leases, self.names, self.lease = threading.RLock(), {}, {}, {}, {}
        self.following, self.needs, self.lost, self.twice, self.silent, self.begun = set(), {}, False, False, set(), 1
        self.shift, self.is_full, self.ended = 0, False, set()
        self.door = socket.socket(socket.AF_UNIX)
        self.door.bind(path)
        self.door.listen(100)
        self.is_over = False

    def __enter__(self):
        self.threads = [threading.Thread(target=work, daemon=True) for work in (self._accept, self._expire)]
        [it.start() for it in self.threads]
        return self

    def __exit__(self, *_):
        self.is_over = True
        self.door.shutdown(socket.SHUT_RDWR)
        [it.join() for it in self.threads]  # else one might accept what comes to the next log, at the same number of a file
        with self.lock:
            for sock in list(self.lines):
                sock.close()
        self.door.close()

    def put(self, text):
        """Puts an entry into the log."""
        with self.lock:
            self.entries.append(text)
            for sock in list(self.following):
                self._tell_entry(sock, len(self.entries))

    def replace(self, identity, entries, shift=0):
        """etcd has another log now, or an earlier state of this one, with other revisions; servers that are in the log see it."""
        with self.lock:
            self.identity, self.entries, self.shift = identity, list(entries), shift
            self.leases.clear()
            for sock in list(self.lines):
                self._lose(sock, "other", "it was replaced")

    def fill(self, is_full):
        """etcd has no room for entries, or has it again."""
        with self.lock:
            self.is_full = is_full
            for sock in list(self.lines):
                if is_full:
                    self._tell(sock, "full")

    def texts(self):
        with self.lock:
            return list(self.entries)

    def end_lease(self, name):
        """The server's lease ends, and is not renewed any more."""
        with self.lock:
            for server in [it for it in self.leases if it[0] == name]:
                del self.leases[server]
            self._tell_alive()

    def _accept(self):
        while not self.is_over:
            try:
                sock = self.door.accept()[0]
            except OSError:
                return
            threading.Thread(target=self._serve, args=(sock,), daemon=True).start()

    def _expire(self):
        while not self.is_over:
            time.sleep(0.02)
            with self.lock:
                late = [it for it, until in self.leases.items() if until < time.monotonic()]
                for server in late:
                    del self.leases[server]
                if late:
                    self._tell_alive()

    def _serve(self, sock):
        try:
            with sock.makefile("r", encoding="ascii") as lines:
                for line in lines:
                    with self.lock:
                        self._hear(sock, line)
        except (OSError, ValueError):
            pass
        with self.lock:
            self.following.discard(sock)
            self.lines.pop(sock, None)

    def _hear(self, sock, line):
        kind, *rest = line[:-1].split(" ", 1) if line.startswith("append ") else line.split()
        if sock in self.ended:
            return
        if kind == "hello":
            self.lines[sock], self.lease[sock] = (rest[0], 0), float(rest[1])
        elif kind == "known":
            self._begin(sock, rest[0], *map(int, rest[1:]))
        elif kind == "follow":
            position = int(rest[0])
            if self.lost:
                return self._tell(sock, "exit 4")
            if position + 1 < self.begun:
                return self._lose(sock, "gone", f"it begins with entry {self.begun}")
            self.following.add(sock)
            self._tell_alive()
            for at in range(position + 1, len(self.entries) + 1):
                self._tell_entry(sock, at)
        elif kind == "append" and self.lines[sock][0] not in self.silent:
            for _ in range(2 if self.twice else 1):
                self.put(rest[0])
        elif kind == "here" and self.lines[sock] in self.leases:
            self.leases[self.lines[sock]] = time.monotonic() + self.lease[sock]
            self._tell(sock, f"kept {rest[0]}")
        elif kind == "checkpoint":
            self.needs[self.lines[sock][0]] = (int(rest[0]), int(rest[1]))

    def _begin(self, sock, identity, position, revision, before):
        """What the server knows of the log is compared, and this start gets its number."""
        name = self.lines[sock][0]
        if identity not in ("-", self.identity):
            return self._lose(sock, "other", "it has another identity")
        if position > len(self.entries):
            return self._lose(sock, "other", f"it has {len(self.entries)} entries, and {position} were read")
        if position and revision != self._revision(position):
            return self._lose(sock, "other", f"it has another entry than {position} at revision {revision}")
        if self.is_full:
            self._tell(sock, "full")
            while self.is_full:
                self.lock.release()
                time.sleep(0.02)
                self.lock.acquire()
        others = [number for its, number in self.leases if its == name and number > before]
        if others:
            return self._tell(sock, f"taken {others[0]}")
        self.started += 1
        server = self.lines[sock] = (name, self.started)
        self.leases[server] = time.monotonic() + self.lease[sock]
        self._tell(sock, f"log {self.identity} {self.started}")

    def _lose(self, sock, kind, why):
        self.following.discard(sock)
        self.ended.add(sock)
        self._tell(sock, f"lost {kind} {why}\nexit 4")

    def _revision(self, position):
        return position * REVISIONS + self.shift

    def _tell_entry(self, sock, position):
        self._tell(sock, f"entry {position} {self._revision(position)} {self.entries[position - 1]}")

    def _tell_alive(self):
        alive = "".join(f" {name}:{number}" for name, number in sorted(self.leases))
        for sock in list(self.following):
            self._tell(sock, "alive" + alive)

    def _tell(self, sock, line):
        try:
            sock.sendall(line.encode() + b"\n")
        except OSError:
            self.following.discard(sock)


def relay():
    """The program: lines of the standard input to the thread, and back."""
    parser = argparse.ArgumentParser()
    for word in ("--endpoints", "--prefix", "--name", "--lease", "--cacert", "--cert", "--key"):
        parser.add_argument(word)
    words = parser.parse_args()
    sock = socket.socket(socket.AF_UNIX)
    sock.connect(words.endpoints)
    sock.sendall(f"hello {words.name} {words.lease}\n".encode())
    poll = selectors.DefaultSelector()
    poll.register(0, selectors.EVENT_READ)
    poll.register(sock, selectors.EVENT_READ)
    while True:
        for key, _ in poll.select():
            data = os.read(key.fd, 1 << 16)
            if not data:
                return 0 if key.fd == 0 else 1
            if key.fd == 0:
                sock.sendall(data)
                continue
            data, is_over, _ = data.partition(b"exit 4\n")
            while data:
                data = data[os.write(1, data):]
            if is_over:
                return 4


if __name__ == "__main__":
    sys.exit(relay())
