"""Servers in this process that say what a test has them say."""

import os
import shutil
import socket
import tempfile
import threading

from harness import FOLDER, PATIENCE


def begin(threads, work, *given):
    """Begins a thread, and keeps it."""
    threads.append(threading.Thread(target=work, args=given, daemon=True))
    threads[-1].start()


def end_all(threads, door, socks):
    """Closes the sockets when their threads, of which the first one opens the door, have ended: else one of them might go on with a
    socket of another test, at the same number of a file."""
    end(door)
    threads[0].join(PATIENCE)
    for sock in socks:
        end(sock)
    for it in threads:
        it.join(PATIENCE)
    for sock in [door, *socks]:
        sock.close()


def end(sock):
    try:
        sock.shutdown(socket.SHUT_RDWR)
    except OSError:
        pass  # the other end is gone


class Double:
    """A server that answers the lines of its clients by `answers`: what is said to a line, or to all with its first word, as a list of
    lines or as a function of the line; one that is not in it has no answer. `path` is its Unix socket, or with `is_tcp` its place. A
    context manager."""

    def __init__(self, answers, is_tcp=False):
        self.answers, self.heard, self.socks = answers, [], []
        self.folder = tempfile.mkdtemp(prefix="wozgirt-", dir=FOLDER)
        if is_tcp:
            self.door = socket.create_server(("127.0.0.1", 0))
            self.path = "tcp:127.0.0.1:%d" % self.door.getsockname()[1]
        else:
            self.door, self.path = socket.socket(socket.AF_UNIX), os.path.join(self.folder, "lock.sock")
            self.door.bind(self.path)
            self.door.listen()
        self.threads = []
        begin(self.threads, self._accept)

    def _accept(self):
        while True:
            try:
                sock, _ = self.door.accept()
            except OSError:
                return
            self.socks.append(sock)
            begin(self.threads, self._serve, sock)

    def _serve(self, sock):
        try:
            for line in sock.makefile("r"):
                line = line.rstrip("\n")
                if line == "lease" and "lease" not in self.answers:
                    sock.sendall(b"lease 0\n")  # each client that asks for none is told that it has none
                    continue
                if line.endswith(" attached") and "session" not in self.answers:
                    sock.sendall(b"refused session\n")  # nor has it sessions
                    continue
                self.heard.append(line)
                said = self.answers.get(line, self.answers.get(line.split(" ")[0], []))
                said = said(line) if callable(said) else said
                sock.sendall("".join(f"{it}\n" for it in said).encode())
        except OSError:
            pass  # the other end is gone
        self.heard.append("")

    def __enter__(self):
        return self

    def __exit__(self, *_):
        end_all(self.threads, self.door, self.socks)
        shutil.rmtree(self.folder, ignore_errors=True)


class Full:
    """A socket that somebody listens to who takes no connection, and where no place is left for one more. A context manager."""

    def __init__(self, is_tcp=False):
        self.folder = tempfile.mkdtemp(prefix="wozgirt-", dir=FOLDER)
        self.door = socket.socket(socket.AF_INET if is_tcp else socket.AF_UNIX)
        self.door.bind(("127.0.0.1", 0) if is_tcp else os.path.join(self.folder, "lock.sock"))
        self.door.listen(0)
        self.path = "tcp:127.0.0.1:%d" % self.door.getsockname()[1] if is_tcp else self.door.getsockname()
        self.waiting = []
        while self._has_place():
            pass

    def _has_place(self):
        sock = socket.socket(self.door.family)
        self.waiting.append(sock)
        sock.settimeout(0.3)
        try:
            sock.connect(self.door.getsockname())
        except OSError:
            return False
        return len(self.waiting) < 100

    def __enter__(self):
        return self

    def __exit__(self, *_):
        for sock in [self.door, *self.waiting]:
            sock.close()
        shutil.rmtree(self.folder, ignore_errors=True)
