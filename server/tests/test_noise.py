"""Drawn input: lines that are nearly right, bytes that are nothing, connections that come and go, headers of a proxy, requests to the
page, each with the seed of the test. WOZGIRT_NOISE_SECONDS says how long it lasts at least:
`WOZGIRT_NOISE_SECONDS=300 python3 test_noise.py`."""

import contextlib
import os
import random
import shutil
import socket
import tempfile
import time
import unittest
import urllib.request
from concurrent.futures import ThreadPoolExecutor

from harness import FOLDER, PATIENCE, Server, granted, has_loopback, needs_programs

import journals
from crash import judge_holds
from proxy_header import LOCAL, header

WORDS = ["acquire", "try", "release", "cancel", "leave", "ping", "lease", "stats", "status", "corrupt", "clients", "a", "b", "c", "q", "",
         "0", "1", "7", "01", "-1", "18446744073709551615", "18446744073709551616", "x" * 300, "\u00e9", "\0", "\t", "%s%n"]
SEEDS = range(6)
CONNECTIONS = 500
IS_REACHED = has_loopback()
SECONDS = float(os.environ.get("WOZGIRT_NOISE_SECONDS", "0"))
# pieces of a request to the page
PIECES = ["GET", "POST", "HEAD", "PUT", " ", " ", "/", "/metrics", "//", "/%00", "?", " HTTP/1.1", " HTTP/1.0", "HTTP/9", "\r\n", "\r\n", "\n",
          "Host: 127.0.0.1\r\n", "Host: localhost\r\n", "Host: evil\r\n", "Host\r\n", "Content-Length: 7\r\n", "Content-Length: -1\r\n",
          "Transfer-Encoding: chunked\r\n", "X: " + "x" * 5000, "\0", "\u00e9", "\r\n\r\n"]


def line(draw):
    if draw.random() < 0.6:  # a right one
        name, number = draw.choice("ab"), draw.randrange(1, 40)
        return draw.choice([f"acquire {name} {number}", f"try {name} {number}", f"release {name} {number}", f"cancel {name}", "leave", "ping",
                            f"lease {draw.choice([0, 500, 99999])}", f"stats {name}", "status"]).encode()
    if draw.random() < 0.9:  # a first word that keeps the connection, and then anything
        return " ".join([draw.choice(WORDS[:8]), *(draw.choice(WORDS) for _ in range(draw.randrange(5)))]).encode()
    if draw.random() < 0.5:
        return " ".join(draw.choice(WORDS) for _ in range(draw.randrange(5))).encode()
    return bytes(draw.randrange(256) for _ in range(draw.randrange(400)))


def request(draw):
    if draw.random() < 0.3:  # a right one
        return f"GET {draw.choice(['/', '/metrics'])} HTTP/1.1\r\nHost: 127.0.0.1\r\n\r\n".encode()
    return "".join(draw.choice(PIECES) for _ in range(draw.randrange(1, 12))).encode()


def goes_on(until):
    """Yields so often as there are connections to make at least, and then until the time has come."""
    made = 0
    while made < CONNECTIONS or time.monotonic() < until:
        made += 1
        yield made


def send_in_pieces(draw, sock, text):
    cut = draw.randrange(len(text) + 1)
    sock.sendall(text[:cut])
    sock.sendall(text[cut:])


def make_noise(server, seed, until, port):
    draw = random.Random(seed)
    for _ in goes_on(until):
        where = draw.random()
        over_tcp = where > 0.8 and port and socket.create_connection(("127.0.0.1", port), PATIENCE)
        with over_tcp or server.raw(where < 0.1) as sock, contextlib.suppress(OSError):  # it is closed for what it said, or says nothing
            sock.settimeout(0.05)
            for _ in range(draw.randrange(1, 40)):
                send_in_pieces(draw, sock, line(draw) + (b"\n" if draw.random() < 0.97 else b""))
            if draw.random() < 0.7:
                sock.recv(1 << 16)


def visit(seed, until, port):
    draw = random.Random(seed)
    for _ in goes_on(until):
        with socket.create_connection(("127.0.0.1", port), PATIENCE) as sock, contextlib.suppress(OSError):
            sock.settimeout(0.05)
            send_in_pieces(draw, sock, request(draw))
            if draw.random() < 0.7:
                sock.recv(1 << 16)


def head(draw):
    """A header, or something that is nearly one."""
    text = bytearray(draw.choice([LOCAL, header(), header("build-1"), header("\u00e9 *" * draw.randrange(90)), header("x", verify=1)]))
    for _ in range(draw.choice([0, 0, 1, 3])):
        text[draw.randrange(len(text))] = draw.randrange(256)
    return bytes(text[:draw.randrange(len(text))] if draw.random() < 0.2 else text)


def come_by_a_proxy(path, seed, until):
    draw = random.Random(seed)
    for _ in goes_on(until):
        with socket.socket(socket.AF_UNIX) as sock, contextlib.suppress(OSError):
            sock.settimeout(0.05)
            sock.connect(path)
            send_in_pieces(draw, sock, head(draw))
            for _ in range(draw.randrange(9)):
                send_in_pieces(draw, sock, line(draw) + b"\n")
            if draw.random() < 0.7:
                sock.recv(1 << 16)


@needs_programs
class Noise(unittest.TestCase):
    def make_noise(self, server):
        """Of all kinds, at once. What goes wrong on the side of who makes it is raised."""
        until = time.monotonic() + SECONDS
        over_tcp, page = (server.port(of) if IS_REACHED else None for of in ("clients", "page"))
        with ThreadPoolExecutor(len(SEEDS) + 2) as pool:
            made = [pool.submit(make_noise, server, seed, until, over_tcp) for seed in SEEDS]
            made.append(pool.submit(come_by_a_proxy, self.proxied, len(SEEDS) + 1, until))
            if page is not None:
                made.append(pool.submit(visit, len(SEEDS), until, page))
        for it in made:
            it.result()

    def test_the_server_goes_on_and_the_journal_is_right(self):
        """Over TCP and at the page too, where 127.0.0.1 can be reached."""
        folder = tempfile.mkdtemp(prefix="wozgirt-", dir=FOLDER)
        self.addCleanup(shutil.rmtree, folder, ignore_errors=True)
        self.proxied = os.path.join(folder, "proxied.sock")
        words = ("--tcp", "127.0.0.1:0", "--page", "127.0.0.1:0") if IS_REACHED else ()
        with Server("--proxied", self.proxied, *words, locks="a,b") as server:
            self.make_noise(server)
            self.assertIsNone(server.process.poll())
            log = server.text_of_log()
            self.assertEqual(log.count("engine started"), 1, log[-2000:])
            self.assertNotIn("panicked", log)
            if IS_REACHED:
                with urllib.request.urlopen(f"http://127.0.0.1:{server.port('page')}/metrics", timeout=PATIENCE) as answer:
                    self.assertIn(b"\nwozgirt_engine_starts_total 1\n", answer.read())
            with server.raw() as sock:  # all who came are gone, and so are their holds
                for name in "ab":
                    sock.sendall(f"acquire {name} 1\n".encode())
                    self.assertEqual(granted(sock).split()[:2], ["granted", name])
            server.stop()
            self.assertEqual(server.process.returncode, 0)
            self.assertGreater(len(server.calls()), 1000)
            self.assertEqual(judge_holds(journals.holds(server.journal), []), [])


if __name__ == "__main__":
    unittest.main()
