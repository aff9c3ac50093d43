#!/usr/bin/env python3
"""flood.py SOCKET KIND CLIENTS: so many clients say all that the server takes of them, until this process is ended. It says `up` when
they have been answered for the first time. KIND is one of KINDS; clients of an odd number read nothing in those that end in `deaf`. In
`come` and `asked` they come and go all the time: at once, and when they have been answered, so that the engine has to hear of it; in
`attached` so that a session of each ends. In `lease` each has a session, whose lease is another one with each line."""

import itertools
import os
import select
import socket
import subprocess
import sys

KINDS = {
    "ping": b"ping\n" * 800,
    "try": b"try a 1\n" * 400,
    "stats": b"stats a\n" * 400,
    "status": b"status\n" * 500,
    "untold": b"stats a\n" + b"status\n" * 500,
    "untold-deaf": b"stats a\n" + b"status\n" * 500,
    "mixed": b"try a 1\nping\nstatus\nlease 0\nstats b\nleave\n" * 50,
    "leave": b"try a 1\nleave\n" * 200,
    "leave-many": b"".join(b"try n%d 1\n" % lock for lock in range(200)) + b"leave\n",
    "come": b"try a 1\n" * 128,
    "asked": b"try a 1\n",
    "attached": b"session KEY attached\n1 try a 1\n",
    "lease": b"lease 7000\nlease 8000\n" * 400,
}
#: what each client says before that
FIRST = {"lease": b"session KEY\n"}


def connect(path):
    sock = socket.socket(socket.AF_UNIX)
    sock.connect(path)
    sock.setblocking(False)
    return sock


def pour(path, kind, clients):
    text = KINDS[kind]
    poller, socks, left = select.poll(), {}, {}
    for number in range(clients):
        sock = connect(path)
        is_deaf = kind.endswith("deaf") and number % 2
        socks[sock.fileno()], left[sock.fileno()] = sock, FIRST.get(kind, b"").replace(b"KEY", b"%d" % (number + 1))
        poller.register(sock, select.POLLOUT | (0 if is_deaf else select.POLLIN))
    is_up = False
    while True:
        for number, event in poller.poll():
            sock = socks[number]
            try:
                if event & select.POLLIN:
                    sock.recv(1 << 18)
                    if not is_up:
                        is_up = True
                        print("up", flush=True)
                if event & select.POLLOUT:
                    # the server is sent whole lines, wherever it stops
                    some = left[number] or text
                    left[number] = some[sock.send(some):]
            except BlockingIOError:
                pass
            except OSError:
                poller.unregister(number)
                sock.close()


def come_and_go(path, kind, clients):
    print("up", flush=True)
    keys = itertools.count(1)
    while True:
        socks = []
        for _ in range(clients):
            try:
                socks.append(connect(path))
                socks[-1].send(KINDS[kind].replace(b"KEY", str(next(keys)).encode()))
            except OSError:
                pass
        if kind != "come":
            wait_for_answers(socks)
        for sock in socks:
            sock.close()


def wait_for_answers(socks):
    """Of all that have one within a while."""
    poller = select.poll()
    for sock in socks:
        poller.register(sock, select.POLLIN)
    left = len(socks)
    while left > 0:
        told = poller.poll(100)
        for number, _ in told:
            poller.unregister(number)
        left = left - len(told) if told else 0


class Flood:
    """The same for a test: clients in a process of their own."""

    def __init__(self, server, kind, clients):
        words = [sys.executable, os.path.abspath(__file__), server.path, kind, str(clients)]
        self.process = subprocess.Popen(words, stdout=subprocess.PIPE, stderr=subprocess.DEVNULL)
        self.process.stdout.readline()

    def __enter__(self):
        return self

    def __exit__(self, *_):
        self.process.kill()
        self.process.communicate()


if __name__ == "__main__":
    if sys.argv[2] in ("come", "asked", "attached"):
        come_and_go(*sys.argv[1:3], int(sys.argv[3]))
    else:
        pour(sys.argv[1], sys.argv[2], int(sys.argv[3]))
