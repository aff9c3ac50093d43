"""HAProxy before the server, as the package has it: which client a certificate is, what ends a connection and what does not."""

import asyncio
import json
import os
import re
import shutil
import socket
import stat
import subprocess
import tempfile
import time
import unittest
from concurrent.futures import ThreadPoolExecutor

from certificates import Authority, needs_openssl
from front import HAPROXY, PARTS, Front, Tunnel, needs_haproxy, text_of, words_of
from harness import (COMMAND, ENGINE, FOLDER, PATIENCE, Server, a_port, at_least, by_the_clock, needs_loopback, needs_programs, say,
                     wait_until)
from wozgirt import Client, Lock, LockLost, NotPermitted, Session, Tls, aio

#: the silence that clients keep in a test, in seconds, for the hour that they may keep
SILENCE, HOUR = 2, 3600
UNITS = {"s": 1, "m": 60, "h": 3600, "d": 86400}
TIMEOUT = re.compile(r"^(    timeout (\S+) )(\S+)$", re.MULTILINE)
MADE = []


class Made:
    """Certificates: of two authorities in folders of their own."""

    def __init__(self):
        self.folder = tempfile.mkdtemp(prefix="wozgirt-front-", dir=FOLDER)
        os.mkdir(self.folder + "/other")
        authority = Authority(self.folder)
        self.cacert, self.server = authority.path, authority.of_server(hosts="IP:127.0.0.1,DNS:localhost")
        self.next_server, self.posing = authority.of_server("next"), authority.of_client("localhost")
        self.nobody, self.alice, self.bob = (Tls(self.cacert, it) for it in (None, authority.of_client("alice"), authority.of_client("bob")))
        self.mallory = Tls(self.cacert, Authority(self.folder + "/other").of_client("alice"))


def setUpModule():
    if shutil.which("openssl") and HAPROXY:
        MADE.append(Made())


def tearDownModule():
    for it in MADE:
        shutil.rmtree(it.folder)


def seconds(text):
    return int(text[:-1]) * UNITS[text[-1]]


def shortened(text, longer=1):
    """The configuration with its times in proportion, as SILENCE is to an hour; but a handshake has a second."""
    return TIMEOUT.sub(lambda found: f"{found[1]}{round(1000 * longer * max(seconds(found[3]) * SILENCE / HOUR, 1))}ms", text)


class Configuration(unittest.TestCase):
    """What configurations and units say, without HAProxy."""

    def test_a_silent_day_is_nothing_to_them(self):
        for name, lasting in (("tls.cfg", ["tunnel"]), ("tunnel.cfg", ["client", "server"])):
            times = {kind: seconds(text) for _, kind, text in TIMEOUT.findall(text_of(name))}
            self.assertGreaterEqual({*times}, {"client", "server", "connect", "client-fin", "server-fin"})
            self.assertGreater(min(times[it] for it in lasting), 24 * HOUR)

    def test_nothing_ends_the_connections_of_a_process_whose_certificates_are_old(self):
        for name in ("tls.cfg", "tunnel.cfg"):
            self.assertNotIn("hard-stop-after", text_of(name))

    def test_what_the_units_start_is_in_the_package(self):
        for unit, package in (("wozgirt-tls.service", "wozgirt-server"), ("wozgirt-tunnel@.service", "wozgirt")):
            (words,) = words_of(unit)
            self.assertEqual(words[:3], ["/usr/sbin/haproxy", "-Ws", "-f"])
            self.assertEqual(words_of(unit, "ExecReload"), [["/usr/sbin/haproxy", "-c", "-q", "-f", words[3]], ["/bin/kill", "-USR2", "$MAINPID"]])
            with open(os.path.join(PARTS, "..", "debian", f"{package}.install"), encoding="utf-8") as file:
                installed = file.read().split()
            self.assertLess({words[3].lstrip("/"), f"usr/lib/systemd/system/{unit}"}, {*installed})
            self.assertTrue(os.path.exists(os.path.join(PARTS, os.path.basename(words[3]))))

    def test_variables_have_a_value_or_the_unit_gives_one(self):
        for name, unit in (("tls.cfg", "wozgirt-tls.service"), ("tunnel.cfg", "wozgirt-tunnel@.service")):
            wanted = {it for it, usual in re.findall(r"\$\{(\w+)(-?)", text_of(name)) if not usual}
            self.assertEqual({*re.findall(r"(WOZGIRT_TUNNEL_\w+)=", text_of(unit))}, wanted)


class Door:
    """A server in a folder, with a socket for HAProxy, its rules and its record of grants."""

    def __init__(self, folder, locks):
        self.proxied, self.certificate, self.grants = (os.path.join(folder, it) for it in ("proxied.sock", "server.pem", "journal.grants"))
        shutil.copyfile(MADE[0].server, self.certificate)
        with open(folder + "/rules", "w", encoding="utf-8") as file:
            file.write("lock a/*: cert:alice\nlock b/*: *\nlock c/*: cert:bob\n")
        self.words, self.locks, self.folder = ["--proxied", self.proxied, "--rules", folder + "/rules", "--grants", self.grants], locks, folder
        self.server = self.serve()

    def serve(self):
        return Server(*self.words, locks=self.locks, folder=self.folder)

    def front(self, port, text=None, folder=None, **more):
        given = {"WOZGIRT_TLS_CERT": self.certificate, "WOZGIRT_TLS_CA": MADE[0].cacert, "WOZGIRT_TLS_SERVER": self.proxied, **more}
        return Front(folder or self.folder, port, text, **given)


def port_of(connection):
    """Its own."""
    with socket.socket(fileno=os.dup(connection.fileno())) as sock:
        return sock.getsockname()[1]


def new_folder(test):
    """A folder, which is removed after the test, or after all of a class."""
    folder = tempfile.mkdtemp(prefix="wozgirt-front-", dir=FOLDER)
    (test.addClassCleanup if isinstance(test, type) else test.addCleanup)(shutil.rmtree, folder, ignore_errors=True)
    return folder


@needs_programs
@needs_loopback
@needs_openssl
@needs_haproxy
class Fronts(unittest.TestCase):
    """One server with HAProxy in front of it for all tests, each of which has three locks of its own: for alice, for all, for bob."""

    @classmethod
    def setUpClass(cls):
        cls.made, cls.folder = MADE[0], new_folder(cls)
        tests = unittest.defaultTestLoader.getTestCaseNames(cls)
        cls.door = Door(cls.folder, ",".join(f"{it}/{test}" for test in tests for it in "abc"))
        cls.addClassCleanup(cls.door.server.__exit__)
        cls.front = cls.door.front(a_port(cls))
        cls.addClassCleanup(cls.front.stop)
        cls.server = cls.door.server

    def setUp(self):
        self.a, self.b, self.c = (f"{it}/{self._testMethodName}" for it in "abc")

    def another_front(self, text=None, **more):
        """One that the test may change."""
        front = self.door.front(a_port(self), text, new_folder(self), **more)
        self.addCleanup(front.stop)
        return front

    def raw(self, files, front=None):
        """A connection by TLS without a client's mind of its own."""
        plain = socket.create_connection(("127.0.0.1", (front or self.front).port), PATIENCE)
        self.addCleanup(plain.close)
        sock = files.context().wrap_socket(plain, server_hostname="127.0.0.1")
        self.addCleanup(sock.close)
        return sock

    def token(self, name, files, front=None):
        with Lock((front or self.front).place, name, wait=PATIENCE, tls=files) as token:
            return token

    def test_rules_know_clients_by_their_certificates(self):
        a, b, c, made = self.a, self.b, self.c, self.made
        self.assertEqual([self.token(a, made.alice), self.token(b, made.alice), self.token(c, made.bob)], [1, 1, 1])
        self.assertEqual(self.token(b, made.nobody), 2)
        for name, files in ((a, made.nobody), (a, made.bob), (c, made.alice)):
            with self.assertRaises(NotPermitted):
                self.token(name, files)
        self.assertEqual([self.token(name, made.alice) for name in (a, b)], [2, 3])

    def test_a_certificate_of_another_authority(self):
        with self.assertRaisesRegex(LockLost, "the server refuses this client's certificate"):
            Client(self.front.place, tls=self.made.mallory)
        self.front.wait_for_log("refused: SSL client certificate not trusted (fault 20 of its certificate")
        self.assertEqual(self.token(self.a, self.made.alice), 1)

    def test_the_record_of_grants_has_the_certificate(self):
        """And the client's address, which is not HAProxy's: `wozgirt log` shows who held it. Who has none is an address."""
        with Client(self.front.place, tls=self.made.alice) as alice, Client(self.front.place, tls=self.made.nobody) as nobody:
            alice.release(self.a, alice.acquire(self.a, label=7))
            nobody.acquire(self.b, label=8)
            alices, nobodys = (f"127.0.0.1:{port_of(it)}" for it in (alice, nobody))
            with open(self.door.grants, encoding="ascii") as file:
                lines = [line.split(" ", 1)[1] for line in file.read().splitlines() if self._testMethodName in line]
            self.assertEqual([re.sub(r"client=\d+", "client=N", line) for line in lines],
                             [f"granted {self.a} 1 label=7 client=N certificate=alice address={alices}", f"ended {self.a} 1 released",
                              f"granted {self.b} 1 label=8 client=N address={nobodys}"])
            whole, short = (self.log(*words) for words in (["--json", self.a], [self.a]))
        (held,) = map(json.loads, whole.splitlines())
        self.assertEqual({it: held[it] for it in ("token", "label", "certificate", "address", "user", "process", "end", "journal")},
                         {"token": 1, "label": 7, "certificate": "alice", "address": alices, "user": None, "process": None, "end": "released",
                          "journal": "released"})
        self.assertRegex(short, rf"(?m)^{self.a} +1 +7 .* cert:alice +{alices} +released$")

    def log(self, *words):
        done = subprocess.run([COMMAND, "log", "--journal", self.server.journal, "--grants", self.door.grants, "--engine", ENGINE, *words],
                              capture_output=True, text=True, timeout=PATIENCE, check=False)
        self.assertEqual((done.stderr, done.returncode), ("", 0))
        return done.stdout

    def test_a_session_is_that_of_its_certificate(self):
        with Session(self.front.place, tls=self.made.alice) as session:
            token, line = session.acquire(self.b, wait=PATIENCE), f"session {session._key}\n"
            for files in (self.made.bob, self.made.nobody):
                self.assertEqual(say(self.raw(files), line), ["refused session"])
            session.release(self.b, token)
        self.assertEqual(say(self.raw(self.made.alice), line)[0].split()[:2], line.split())

    def test_each_client_has_a_lease(self):
        with self.raw(self.made.nobody) as sock:
            self.assertEqual(say(sock, "lease\n"), ["lease 30000"])

    @by_the_clock
    def test_who_is_silent(self, longer):
        """A client keeps its lock. Who makes no handshake has ten seconds, a second here, and the server does not hear of it."""
        front = self.another_front(shortened(text_of("tls.cfg"), longer))
        with Client(front.place, lease=30, tls=self.made.alice) as client:
            token, begun = client.acquire(self.a, wait=PATIENCE), time.monotonic()
            with socket.create_connection(("127.0.0.1", front.port), PATIENCE) as silent:
                self.assertEqual(silent.recv(1), b"")
                clients = self.server.operate("clients", 3)
                at_least(longer, begun)
                self.assertLess(time.monotonic() - begun, 3 * longer)
                self.assertEqual([f" cert:alice, 127.0.0.1:{port_of(client)}" in clients, f":{port_of(silent)}" in clients], [True, False])
            time.sleep(max(0, begun + SILENCE * longer - time.monotonic()))
            client.release(self.a, token)

    def test_a_shorter_time_than_the_silence_would_be_seen(self):
        front = self.another_front(re.sub("(timeout tunnel) .*", r"\1 300ms", text_of("tls.cfg")))
        with Client(front.place, lease=30, tls=self.made.alice) as client:
            client.acquire(self.a, wait=PATIENCE)
            wait_until(lambda: self.is_lost(client))

    @staticmethod
    def is_lost(client):
        try:
            client.check()
        except LockLost:
            return True
        return False

    def test_certificates_are_read_again(self):
        certificate = os.path.join(new_folder(self), "server.pem")
        shutil.copyfile(self.made.server, certificate)
        front = self.another_front(WOZGIRT_TLS_CERT=certificate)
        with Client(front.place, lease=30, tls=self.made.alice) as client:
            token = client.acquire(self.a, wait=PATIENCE)
            self.assertEqual(self.name_of(front), "server")
            shutil.copyfile(self.made.next_server, certificate)
            front.reload()
            wait_until(lambda: self.name_of(front) == "next")
            client.release(self.a, token)
            self.assertEqual(client.acquire(self.a, wait=PATIENCE), token + 1)
            with open(certificate, "w", encoding="ascii") as file:
                file.write("no certificate\n")
            with self.assertRaises(subprocess.CalledProcessError):
                front.reload()
            self.assertEqual(self.name_of(front), "next")
            client.release(self.a, token + 1)

    def test_it_stays_awake_if_it_is_asked_to(self):
        front = self.another_front(WOZGIRT_TLS_AWAKE="1")
        wait_until(lambda: front.processor_time() > 0.3)
        self.assertEqual(self.token(self.a, self.made.alice, front), 1)

    def test_a_server_that_starts_is_waited_for(self):
        """As it is by a client on its socket."""
        door = Door(new_folder(self), self.a)
        self.addCleanup(door.server.__exit__)
        front = door.front(a_port(self))
        self.addCleanup(front.stop)
        door.server.stop()
        begun = time.monotonic()
        with self.assertRaises((LockLost, TimeoutError)):
            Client(front.place, timeout=0.5, tls=self.made.alice)
        at_least(0.4, begun)
        with ThreadPoolExecutor() as pool:
            later = pool.submit(self.tokens, front)
            time.sleep(0.3)
            again = door.serve()
            self.addCleanup(again.__exit__)
            self.assertEqual(later.result(PATIENCE), [1, 2])

    def tokens(self, front):
        """Those of a client for threads and of one for asyncio."""
        async def take():
            async with aio.Lock(front.place, self.a, wait=PATIENCE, tls=self.made.alice) as token:
                return token
        return [self.token(self.a, self.made.alice, front), asyncio.run(take())]

    def name_of(self, front):
        """The name in the server's certificate."""
        with self.raw(self.made.nobody, front) as sock:
            return dict(pair for it in sock.getpeercert()["subject"] for pair in it)["commonName"]

    def tunnel(self, front, text=None):
        tunnel = Tunnel(new_folder(self), "localhost", front.port, text, WOZGIRT_TUNNEL_CERT=self.made.alice.cert,
                        WOZGIRT_TUNNEL_CA=self.made.cacert)
        self.addCleanup(tunnel.stop)
        return tunnel

    def test_a_tunnel(self):
        """All who use its socket are its certificate."""
        tunnel = self.tunnel(self.front)
        self.assertEqual(stat.S_IMODE(os.stat(tunnel.socket).st_mode), 0o660)
        done = subprocess.run([COMMAND, "lock", "--socket", tunnel.socket, self.a, "--", "sh", "-c", "echo $WOZGIRT_TOKEN"], capture_output=True,
                              text=True, timeout=PATIENCE, check=False)
        self.assertEqual((done.stdout, done.stderr), ("1\n", ""))
        done = subprocess.run([COMMAND, "lock", "--socket", tunnel.socket, self.c, "--", "true"], capture_output=True, text=True,
                              timeout=PATIENCE, check=False)
        self.assertEqual((done.returncode, done.stderr), (76, f"wozgirt: refused: permission {self.c}\n"))

    def test_a_tunnel_to_another_server(self):
        """One that the certificate is not for, and one with the right name that is a client: the way ends there. It is tried once more,
        where the package has it tried five times."""
        text, socks = re.sub("retries 5", "retries 1", text_of("tunnel.cfg")), []
        self.assertNotEqual(text, text_of("tunnel.cfg"))
        for certificate in (self.made.next_server, self.made.posing):
            socks.append(socket.socket(socket.AF_UNIX))
            self.addCleanup(socks[-1].close)
            socks[-1].settimeout(PATIENCE)
            socks[-1].connect(self.tunnel(self.another_front(WOZGIRT_TLS_CERT=certificate), text).socket)
            socks[-1].sendall(b"ping\n")
        self.assertEqual([sock.recv(100) for sock in socks], [b"", b""])


if __name__ == "__main__":
    unittest.main()
