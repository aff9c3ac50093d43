"""The clients over TLS: to a door of this program, which opens what comes and hands it to a server. What a proxy makes of the names is
tested in server/tests/test_front.py."""

import asyncio
import contextlib
import os
import select
import shutil
import socket
import ssl
import sys
import tempfile
import threading
import unittest
from unittest import mock

sys.path.insert(0, os.path.join(os.path.dirname(os.path.abspath(__file__)), "..", "..", "..", "server", "tests"))

import certificates  # noqa: E402
from certificates import Authority, needs_openssl  # noqa: E402
from harness import FOLDER, PATIENCE, Server, needs_loopback, needs_programs  # noqa: E402
from wozgirt import Client, Lock, LockLost, NotInTime, Session, Tls, aio, lines  # noqa: E402

MADE = []


def setUpModule():
    if shutil.which("openssl"):
        MADE.append(Certificates())


def tearDownModule():
    for it in MADE:
        shutil.rmtree(it.folder)


class Certificates:
    """An authority and another one, each in a folder of its own, with what they signed."""

    def __init__(self):
        self.folder = tempfile.mkdtemp(prefix="wozgirt-tls-", dir=FOLDER)
        os.mkdir(self.folder + "/other")
        authority, other = Authority(self.folder), Authority(self.folder + "/other")
        self.cacert, self.server = authority.path, authority.of_server()
        self.alice, self.bob = authority.of_client("alice"), authority.of_client("bob")
        self.elsewhere, self.old = authority.of_server("elsewhere", "DNS:elsewhere"), authority.of_server("old", days=-1)
        self.other, self.mallory = other.path, other.of_client("alice")
        self.server_of_other = other.of_server()

    def files(self, **more):
        return Tls(**{"cacert": self.cacert, "cert": self.alice, **more})


class Door:
    """A port that speaks TLS and hands what comes to a server's socket; a context manager."""

    def __init__(self, path, made, certificate=None, newest=ssl.TLSVersion.TLSv1_3, verify=ssl.CERT_OPTIONAL):
        self._path, self._ends = path, []
        self._context = ssl.SSLContext(ssl.PROTOCOL_TLS_SERVER)
        self._context.load_cert_chain(certificate or made.server)
        self._context.load_verify_locations(made.cacert)
        self._context.verify_mode, self._context.maximum_version = verify, newest
        if newest < ssl.TLSVersion.TLSv1_2:
            self._context.minimum_version = newest
            self._context.set_ciphers("DEFAULT:@SECLEVEL=0")
        self._door = socket.create_server(("127.0.0.1", 0))
        self.port = self._door.getsockname()[1]
        self.place = f"tls:127.0.0.1:{self.port}"
        #: of each connection the name in its certificate, and the version of TLS
        self.came = []
        threading.Thread(target=self._serve, daemon=True).start()

    def _serve(self):
        while True:
            try:
                plain = self._door.accept()[0]
            except OSError:
                return
            threading.Thread(target=self._hand_over, args=(plain,), daemon=True).start()

    def _hand_over(self, plain):
        with contextlib.suppress(OSError), plain, socket.socket(socket.AF_UNIX) as server:
            plain.settimeout(PATIENCE)
            with self._context.wrap_socket(plain, server_side=True) as near:
                names = dict(pair for it in (near.getpeercert() or {}).get("subject", ()) for pair in it)
                self.came.append((names.get("commonName"), near.version()))
                self._ends.append(near)
                server.connect(self._path)
                self._pass(near, server)

    @staticmethod
    def _pass(near, server):
        while True:
            for it in [near] if near.pending() else select.select([near, server], [], [], PATIENCE)[0]:
                data = it.recv(65536)
                if not data:
                    return
                (server if it is near else near).sendall(data)

    def cut(self):
        """Ends all connections."""
        for it in self._ends:
            with contextlib.suppress(OSError):
                it.shutdown(socket.SHUT_RDWR)

    def __enter__(self):
        return self

    def __exit__(self, *_):
        self._door.close()
        self.cut()


class Places(unittest.TestCase):
    def test_places(self):
        self.assertEqual(lines.place("tls:one:7001"), lines.TlsPlace("one", 7001))
        found = lines.places("a.sock,tls:one:7001,tcp:two:7000,tls:[::1]:7001")
        self.assertEqual([lines.at(it) for it in found], ["a.sock", "tls:one:7001", "tcp:two:7000", "tls:[::1]:7001"])
        self.assertEqual([type(it) for it in found], [str, lines.TlsPlace, tuple, lines.TlsPlace])
        for wrong in ("tls:one", "tls::1", "tls:one:0", "tls:one:65536"):
            with self.assertRaises(ValueError):
                lines.place(wrong)


@needs_openssl
class Files(unittest.TestCase):
    """What is said of files that are wrong."""

    def setUp(self):
        self.made = MADE[0]

    def file(self, text):
        handle, path = tempfile.mkstemp(dir=self.made.folder)
        with open(handle, "w", encoding="ascii") as file:
            file.write(text)
        return path

    def test_each_wrong_file_is_named(self):
        made, nothing, empty = self.made, self.made.folder + "/nothing.pem", self.file("no certificate\n")
        alone, locked = self.made.alice + ".cert", self.made.folder + "/locked.key"
        with open(made.alice, encoding="ascii") as both, open(alone, "w", encoding="ascii") as file:
            file.write(both.read().partition("-----BEGIN PRIVATE")[0])
        certificates.run("ec", "-in", made.alice + ".key", "-out", locked, "-aes256", "-passout", "pass:secret")
        missing, named = "[Errno 2] No such file or directory", lambda what, name, path: f"[Errno 22] {what} ({name}): {path!r}"
        for words, error in (
                ({"cacert": nothing}, f"{missing} (cacert, WOZGIRT_CACERT): {nothing!r}"),
                ({"cacert": empty}, named("no certificate in PEM", "cacert, WOZGIRT_CACERT", empty)),
                ({"cert": nothing}, f"{missing} (cert, WOZGIRT_CERT): {nothing!r}"),
                ({"cert": empty}, named("no certificate in PEM", "cert, WOZGIRT_CERT", empty)),
                ({"key": nothing}, f"{missing} (key, WOZGIRT_KEY): {nothing!r}"),
                ({"key": empty}, named("no private key in PEM", "key, WOZGIRT_KEY", empty)),
                ({"cert": alone}, named("no private key in PEM", "key, WOZGIRT_KEY", alone)),
                ({"key": locked}, named("the key has a password", "key, WOZGIRT_KEY", locked)),
                ({"key": made.mallory}, named(f"not the key of {made.alice}", "key, WOZGIRT_KEY", made.mallory)),
                ({"cert": None, "key": made.alice}, named("a key without its certificate", "cert, WOZGIRT_CERT", made.alice))):
            with self.subTest(words), self.assertRaises(OSError) as caught:
                made.files(**words).context()
            self.assertEqual(str(caught.exception), error)

    def test_variables_name_what_is_not_given(self):
        made = self.made
        named = {"WOZGIRT_CACERT": made.cacert, "WOZGIRT_CERT": made.mallory, "WOZGIRT_KEY": made.mallory}
        with mock.patch.dict(os.environ, named):
            Tls().context()
            Tls(cert=made.alice).context()  # the variable's key goes with the variable's certificate
            with self.assertRaisesRegex(OSError, "not the key of"):
                Tls(cert=made.alice, key=made.mallory).context()
        with mock.patch.dict(os.environ, {"WOZGIRT_CERT": made.alice, "WOZGIRT_KEY": made.mallory}):
            with self.assertRaisesRegex(OSError, "not the key of"):
                Tls().context()

    def test_a_wrong_file_is_said_before_anything_is_tried(self):
        wrong, place = Tls(cacert=self.made.folder + "/nothing.pem"), "tls:127.0.0.1:9"
        for begin in (lambda: Client(place, tls=wrong), lambda: Session([place, "tcp:127.0.0.1:9"], tls=wrong),
                      Lock(place, "a", tls=wrong).acquire, lambda: asyncio.run(aio.Client.connect(place, tls=wrong)),
                      lambda: asyncio.run(aio.Session.connect([place], tls=wrong)),
                      lambda: asyncio.run(aio.Lock(place, "a", tls=wrong).acquire())):
            with self.assertRaises(FileNotFoundError):
                begin()


@needs_programs
@needs_loopback
@needs_openssl
class Connections(unittest.TestCase):
    def setUp(self):
        self.made = MADE[0]
        self.server = Server()
        self.addCleanup(self.server.__exit__)

    def door(self, **more):
        door = Door(self.server.path, self.made, **more)
        self.addCleanup(door.__exit__)
        return door

    def tokens(self, place, files):
        """Those of two holds, of a client for threads and of one for asyncio."""
        async def take():
            async with aio.Lock(place, "a", wait=PATIENCE, tls=files) as token:
                return token
        with Lock(place, "a", wait=PATIENCE, tls=files) as token:
            pass
        return token, asyncio.run(take())

    def test_both_versions(self):
        for newest, version in ((ssl.TLSVersion.TLSv1_3, "TLSv1.3"), (ssl.TLSVersion.TLSv1_2, "TLSv1.2")):
            door = self.door(newest=newest)
            first, second = self.tokens(door.place, self.made.files())
            self.assertEqual((second, door.came), (first + 1, [("alice", version)] * 2))

    def test_an_older_version_is_refused(self):
        door = self.door(newest=ssl.TLSVersion.TLSv1_1)
        with self.assertRaisesRegex(OSError, f"{door.place}: no TLS: "):
            Client(door.place, tls=self.made.files())
        self.assertEqual(door.came, [])

    def test_by_variables_and_without_a_certificate(self):
        door = self.door()
        with mock.patch.dict(os.environ, {"WOZGIRT_CACERT": self.made.cacert}):
            self.tokens(door.place, Tls())
            with mock.patch.dict(os.environ, {"WOZGIRT_CERT": self.made.alice}):
                self.tokens(door.place, Tls())
        self.assertEqual([name for name, _ in door.came], [None, None, "alice", "alice"])

    def refusal(self, place, files):
        """What both clients say: the same."""
        said = []
        for begin in (lambda: Client(place, tls=files), lambda: asyncio.run(aio.Client.connect(place, tls=files)),
                      lambda: Session([place], tls=files)):
            with self.assertRaises(OSError) as caught:
                begin()
            said.append(str(caught.exception))
        self.assertEqual(said[1:], said[:1] * 2)
        return said[0]

    def test_a_server_that_is_another_one(self):
        made = self.made
        for certificate, files, why in (
                (made.elsewhere, {}, "IP address mismatch, certificate is not valid for '127.0.0.1'"),
                (made.old, {}, "certificate has expired"),
                (made.server_of_other, {}, "unable to get local issuer certificate"),
                (made.server, {"cacert": made.other}, "self.signed certificate in certificate chain"),
                (made.alice, {}, "(unsuitable|unsupported) certificate purpose")):
            with self.subTest(why):
                door = self.door(certificate=certificate)
                said = self.refusal(door.place, made.files(**files))
                self.assertRegex(said, f"{door.place}: the server's certificate is refused: {why}")
                self.assertEqual(door.came, [])

    def test_a_client_of_another_authority(self):
        door = self.door()
        said = self.refusal(door.place, self.made.files(cert=self.made.mallory))
        self.assertIn(f"{door.place}: the server refuses this client's certificate: tlsv1 alert unknown ca", said)
        self.assertEqual(door.came, [])

    def test_a_server_that_speaks_no_tls(self):
        with socket.create_server(("127.0.0.1", 0)) as plain:
            place = f"tls:127.0.0.1:{plain.getsockname()[1]}"

            def answer():
                with contextlib.suppress(OSError):
                    while True:
                        with plain.accept()[0] as near:
                            near.recv(65536)
                            near.sendall(b"refused syntax\n")
                            near.recv(65536)
            threading.Thread(target=answer, daemon=True).start()
            self.assertIn(f"{place}: no TLS: wrong version number", self.refusal(place, self.made.files()))

    def test_a_server_that_says_nothing(self):
        with socket.create_server(("127.0.0.1", 0)) as silent:
            place = f"tls:127.0.0.1:{silent.getsockname()[1]}"
            with self.assertRaises(TimeoutError):
                Client(place, timeout=0.2, tls=self.made.files())
            with self.assertRaises(TimeoutError):
                asyncio.run(aio.Client.connect(place, timeout=0.2, tls=self.made.files()))
            with self.assertRaises(NotInTime):
                Lock(place, "a", wait=0.2, tls=self.made.files()).acquire()

    def test_long_answers(self):
        """Those of `status` are longer than a record of TLS."""
        names = [f"any/{number:04}/{'x' * 100}" for number in range(200)]
        with Server(locks=",".join(names)) as server, Door(server.path, self.made) as door:
            with Client(door.place, tls=self.made.files()) as client:
                self.assertEqual([it.name for it in client.status()], names)

            async def ask():
                async with await aio.Client.connect(door.place, tls=self.made.files()) as other:
                    return [it.name for it in await other.status()]
            self.assertEqual(asyncio.run(ask()), names)

    def test_a_cut_is_a_loss(self):
        door = self.door()
        client = Client(door.place, tls=self.made.files())
        client.acquire("a")
        door.cut()
        with self.assertRaises(LockLost):
            client.release("a", 1)

    def test_a_session_returns_over_another_connection(self):
        door = self.door()
        with Session(door.place, tls=self.made.files()) as session:
            token = session.acquire("a", wait=PATIENCE)
            door.cut()
            session.release("a", token)
            self.assertEqual(session.acquire("a", wait=PATIENCE), token + 1)
        self.assertGreaterEqual(len(door.came), 2)

    def test_a_new_certificate_is_used_from_the_next_connection_on(self):
        door, here = self.door(), self.made.folder + "/renewed.pem"
        files = self.made.files(cert=here)
        for source in (self.made.alice, self.made.bob):
            shutil.copyfile(source, here)
            Client(door.place, tls=files).close()
        self.assertEqual([name for name, _ in door.came], ["alice", "bob"])

    def test_what_a_handler_breaks_off(self):
        """Where it comes while a line is sealed or opened, the connection is over; never is something done twice."""
        door = self.door()
        for place in ("seal", "open"):
            with Client(door.place, tls=self.made.files()) as client:
                token = client.acquire("b", wait=PATIENCE)
                with mock.patch.object(client._wire._tunnel, place, side_effect=KeyboardInterrupt), self.assertRaises(KeyboardInterrupt):
                    client.release("b", token)
                with self.assertRaises(LockLost):
                    client.check()
        with Lock(self.server.path, "b", wait=PATIENCE):
            pass


if __name__ == "__main__":
    unittest.main()
