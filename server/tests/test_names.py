"""A name of 128 bytes, the longest of a lock: through the server, its files, the command, each client and the page."""

import asyncio
import os
import subprocess
import unittest
import urllib.request

from harness import COMMAND, PATIENCE, Server, needs_loopback, needs_programs, read_lines, say, wait_until
from header_clients import DONE, NAME as NO_NAME, REFUSED, Clients, needs_c

from wozgirt import Client, Lock, Session, aio

NAME = ("order/4711_A-z." * 9)[:128]
MOST = 2 ** 64 - 1


@needs_programs
class Longest(unittest.TestCase):
    def test_lines(self):
        with Server(locks=f"a,{NAME}") as server, server.raw() as one, server.raw() as two:
            self.assertEqual(say(one, f"acquire {NAME} {MOST}\n"), [f"granted {NAME} 1"])
            self.assertEqual(say(two, f"try {NAME} {MOST}\nacquire {NAME} 7\n", 2), [f"busy {NAME}", f"waiting {NAME} 0"])
            self.assertEqual(say(two, f"cancel {NAME}\nacquire {NAME} 7\n", 2), [f"cancelled {NAME}", f"waiting {NAME} 0"])
            self.assertEqual(say(one, f"release {NAME} {MOST}\nrelease {NAME} 1\n", 2), [f"refused holder {NAME}", f"released {NAME}"])
            self.assertEqual(read_lines(two, 1), [f"granted {NAME} 2"])
            self.assertEqual(say(one, f"acquire {NAME}x 1\nstats {NAME[1:]}\n", 2), [f"refused lock {NAME}x", f"refused lock {NAME[1:]}"])
            self.assertEqual(server.operate(f"corrupt {NAME} 1 5"), f"corrupted {NAME} 1")
            self.assertRegex(say(one, f"stats {NAME}\n")[0], rf"^stats {NAME} 8 0 \d+ \d+ 2$")
            self.assertRegex(say(one, "status\n", 3)[2], rf"^lock {NAME} held \d+ 7 2 \d+ 0 0 2 \d+$")
            self.assertRegex(server.operate("clients", 4), rf"\nclient \d+ 0 {NAME} - ")
            self.assertEqual(server.operate(f"end {NAME} 2"), f"ended {NAME}")
            wait_until(lambda: f"hold of {NAME} with token 2 ended by an operator" in server.text_of_log())

    def test_a_session_that_continues(self):
        """Its hold and its last answer come back after the engine was killed: by files that name the lock."""
        with Server(locks=f"a,{NAME}") as server:
            with server.raw() as sock:
                self.assertEqual(say(sock, f"session {MOST}\n{MOST} acquire {NAME} {MOST}\n", 2),
                                 [f"session {MOST} 0 alone", f"{MOST} granted {NAME} 1"])
                server.kill_engine()
                self.assertEqual(sock.recv(1), b"")
            with server.raw() as sock:
                self.assertEqual(say(sock, f"session {MOST}\n{MOST} acquire {NAME} {MOST}\n", 3),
                                 [f"session {MOST} 1 alone", f"holds {NAME} 1", f"{MOST} granted {NAME} 1"])

    def test_the_command(self):
        with Server(locks=f"a,{NAME}") as server:
            words = dict(capture_output=True, text=True, timeout=PATIENCE, env=dict(os.environ, WOZGIRT_SOCKET=server.path))
            done = subprocess.run([COMMAND, "lock", NAME, "--", "sh", "-c", f"echo $WOZGIRT_LOCK $WOZGIRT_TOKEN; {COMMAND} status"], **words)
            self.assertEqual((done.returncode, done.stdout.split("\n")[0]), (0, f"{NAME} 1"), done.stderr)
            self.assertRegex(done.stdout, rf"\n{NAME} +held ")
            done = subprocess.run([COMMAND, "try", NAME + "x", "--", "true"], **words)
            self.assertEqual((done.returncode, done.stderr), (76, f"wozgirt: refused: lock {NAME}x\n"))

    def test_the_clients_in_python(self):
        async def of_asyncio(path):
            async with await aio.Client.connect(path) as client:
                token = await client.acquire(NAME)
                await client.release(NAME, token)
            return token

        with Server(locks=f"a,{NAME}") as server:
            with Client(server.path) as client:
                client.release(NAME, client.acquire(NAME))
            with Session(server.path) as session:
                session.release(NAME, session.acquire(NAME))
            with Lock(server.path, NAME) as token:
                self.assertEqual(token, 3)
            self.assertEqual(asyncio.run(of_asyncio(server.path)), 4)

    @needs_loopback
    def test_the_page(self):
        with Server("--page", "127.0.0.1:0", locks=f"a,{NAME}") as server:
            place = f"http://127.0.0.1:{server.port('page')}"
            for path, text in (("/", f"<tr><td>{NAME}</td>"), ("/metrics", f'\nwozgirt_held{{lock="{NAME}"}} 0\n')):
                with urllib.request.urlopen(place + path, timeout=PATIENCE) as answer:
                    self.assertIn(text, answer.read().decode())


@needs_c
@needs_programs
class OfHeader(Clients):
    def test_a_client(self):
        with Server(locks=f"a,{NAME}") as server:
            client = self.client(server.path)
            self.assertEqual(client.ask(f"acquire {NAME} 7 0")[1:3], (DONE, 1))
            self.assertEqual(client.ask(f"release {NAME} 1").result, DONE)
            self.assertEqual(client.ask(f"acquire {NAME[:-1]} 7 0")[1::4], (REFUSED, f"refused lock {NAME[:-1]}"))
            self.assertEqual(client.ask(f"acquire {NAME}x 7 0").result, NO_NAME)


@needs_c
@needs_programs
class OfSession(OfHeader):
    words = ["-DSESSION"]


if __name__ == "__main__":
    unittest.main()
