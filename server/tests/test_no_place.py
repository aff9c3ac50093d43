"""A server that has no place for one more connection says so and closes it. Each client tells its user that, though its own question mostly
comes too late to be sent."""

import asyncio
import contextlib
import os
import select
import subprocess
import tempfile
import unittest
from unittest import mock

from harness import COMMAND, FOLDER, PATIENCE, TOP, Server, needs_programs, say
from header_clients import REFUSED, Client as HeaderClient, needs_c
from test_header import compiles

from wozgirt import Client, TooMany, aio
import wozgirt.client

#: how often each client tries: without care, nine of ten hear of a broken pipe
TIMES = 30


@contextlib.contextmanager
def full_server():
    """A server all of whose places are taken, also those that a user has who holds few."""
    with Server("--connections", "1") as server, contextlib.ExitStack() as socks:
        taken = (has_place(socks.enter_context(server.raw())) for _ in range(100))
        if all(taken):
            raise AssertionError("a hundred connections found a place")
        yield server


def has_place(sock):
    try:
        return say(sock, "ping\n") == ["pong"]
    except OSError:
        return False


def cut_off(place, *times):
    """A connection that the server has closed before the client says anything."""
    sock = connected(place, *times)
    poll = select.poll()
    poll.register(sock, select.POLLHUP)
    if not poll.poll(PATIENCE * 1000):
        raise AssertionError("the server leaves the connection open")
    return sock


connected = wozgirt.wire.connected


@needs_programs
class NoPlace(unittest.TestCase):
    def test_python_s_client(self):
        with full_server() as server:
            for _ in range(TIMES):
                with self.assertRaises(TooMany):
                    Client(server.path)

    def test_python_s_client_that_comes_late(self):
        with full_server() as server, mock.patch("wozgirt.wire.connected", cut_off):
            with self.assertRaises(TooMany):
                Client(server.path)

    def test_the_client_for_asyncio(self):
        async def connect():
            with self.assertRaises(TooMany):
                await aio.Client.connect(server.path)
        with full_server() as server:
            for _ in range(TIMES):
                asyncio.run(connect())

    def test_the_command(self):
        with full_server() as server:
            for _ in range(TIMES):
                ran = subprocess.run([COMMAND, "lock", "--socket", server.path, "a", "--", "true"], capture_output=True, text=True,
                                     timeout=PATIENCE, check=False)
                self.assertEqual((ran.returncode, ran.stderr), (76, "wozgirt: refused: connections\n"))

    @needs_c
    def test_the_header(self):
        with tempfile.TemporaryDirectory(dir=FOLDER) as folder, full_server() as server:
            program = os.path.join(folder, "client")
            built = compiles("cc", "-std=c11", "-O1", "-o", program, os.path.join(TOP, "server", "tests", "header_client.c"))
            self.assertEqual(built, (True, ""))
            client = HeaderClient(program)
            try:
                for _ in range(TIMES):
                    client.ask(f"open {server.path} 10000")
                    answer = client.ask("acquire a 1 0")
                    self.assertEqual((answer.result, answer.line), (REFUSED, "refused connections"))
            finally:
                client.end()


if __name__ == "__main__":
    unittest.main()
