"""Clients of a proxy, which says by the PROXY protocol, version 2, who they are: rules, sessions, quotas, the list of clients, the log and
the page go by the name of the certificate. Here the test is the proxy, and writes its headers."""

import contextlib
import os
import re
import shutil
import signal
import socket
import struct
import subprocess
import sys
import tempfile
import time
import unittest
import urllib.request

from harness import FOLDER, PATIENCE, TOP, Server, by_the_clock, needs_programs, read_lines, say, wait_until
from proxy_header import BEFORE, LOCAL, NOW, SIGNATURE, TLS, header
from test_cluster import Trial, needs_strict

sys.path.insert(0, os.path.join(TOP, "tools"))

from page import Page  # noqa: E402


def connected(test, path, said=b""):
    sock = socket.socket(socket.AF_UNIX)
    test.addCleanup(sock.close)
    sock.connect(path)
    sock.settimeout(PATIENCE)
    sock.sendall(said)
    return sock


@needs_programs
class Proxied(unittest.TestCase):
    def setUp(self):
        self.folder = tempfile.mkdtemp(prefix="wozgirt-", dir=FOLDER)
        self.addCleanup(shutil.rmtree, self.folder, ignore_errors=True)
        self.proxied, self.rules = os.path.join(self.folder, "proxied.sock"), os.path.join(self.folder, "rules")

    def server(self, *words, rules=None, **more):
        if rules is not None:
            with open(self.rules, "w", encoding="utf-8") as file:
                file.write(rules)
            words = ("--rules", self.rules, *words)
        return Server("--proxied", self.proxied, *words, **more)

    def raw(self, said=b""):
        return connected(self, self.proxied, said)

    def client(self, *words, **more):
        return self.raw(header(*words, **more))

    def assert_refused(self, said, why, server):
        """The connection ends, and the log says why."""
        before = server.text_of_log().count(why)
        sock = self.raw(said)
        self.assertEqual(read_lines(sock, 9), ["refused header"])
        wait_until(lambda: server.text_of_log().count(why) == before + 1)
        self.assertRegex(server.text_of_log(), rf"header-refused refused, {re.escape(why)}: \S+, process {os.getpid()}\n")

    def test_rules_name_certificates(self):
        rules = f"lock a: cert:build-* cert:René%20M\nlock b: cert:*\nlock c: * \nlock d: {os.getuid()} alice\n"
        words = "try a 1\ntry b 1\ntry c 1\ntry d 1\nleave\n"
        with self.server(rules=rules, locks="a,b,c,d,e") as server:
            for name, permitted in (("build-1", "abc"), ("René M", "abc"), ("René", "bc"), ("alice", "bc"), ("build-", "abc"), (None, "c"),
                                    ("", "c")):
                with self.subTest(name=name):
                    lines = say(self.client(name), words, 5)
                    told = [line.rsplit(" ", 1)[0] if line.startswith("granted") else line for line in lines]
                    self.assertEqual(told, [f"granted {lock}" if lock in permitted else f"refused permission {lock}" for lock in "abcd"] + ["left"])
            for client, verify in ((TLS, 0), (NOW, 0), (TLS | NOW, 1), (TLS | BEFORE, 1 << 31), (0, 0)):
                with self.subTest(client=client, verify=verify):
                    sock = self.client("build-1", client=client, verify=verify)
                    self.assertEqual(say(sock, "try a 1\n"), ["refused permission a"])
            self.assertRegex(say(self.client("build-1", client=TLS | BEFORE), "try a 1\n")[0], r"granted a \d+")
            # who comes in at another door has no certificate, whatever it is called
            with server.raw() as sock:
                self.assertEqual(say(sock, "try b 1\n"), ["refused permission b"])

    def test_the_rules_of_the_page(self):
        (block,) = [it for it in Page(TOP, "docs/OPERATING.md").blocks if it.section == "### Clients with certificates"]
        with self.server(rules=block.text(), locks="deploy,db,other"):
            for name, permitted in (("build-1", ["deploy", "db", "other"]), ("ci-7", ["deploy", "db", "other"]), ("build-2", ["db", "other"]),
                                    (None, ["other"])):
                lines = say(self.client(name), "try deploy 1\ntry db 1\ntry other 1\nleave\n", 4)
                self.assertEqual([line.split()[1] for line in lines if line.startswith("granted")], permitted)

    def test_status_has_what_the_rules_permit(self):
        with self.server(rules="lock a: cert:x\nlock b: cert:y\n") as server:
            self.assertEqual(say(self.client("x"), "status\n", 3)[0], "status 2")
            self.assertEqual(say(self.client(), "status\n", 2)[0], "status 1")
            self.assertEqual(server.operate("status").splitlines()[0], "status 3")

    def test_rules_that_are_read_again(self):
        with self.server(rules="lock a: cert:x\n") as server:
            holder, waiter = self.client("x"), self.client("x")
            self.assertEqual(say(holder, "try a 1\n"), ["granted a 1"])
            self.assertEqual(say(waiter, "acquire a 1\n"), ["waiting a 0"])
            with open(self.rules, "w", encoding="utf-8") as file:
                file.write("lock a: cert:y\n")
            server.process.send_signal(signal.SIGHUP)
            self.assertEqual(read_lines(waiter, 1), ["refused permission a"])
            self.assertEqual(say(holder, "try a 1\nrelease a 1\n", 2), ["refused permission a", "released a"])
            with open(self.rules, "w", encoding="utf-8") as file:
                file.write("lock a: cert:%zz\n")
            server.process.send_signal(signal.SIGHUP)
            server.wait_for_log("line 1: in cert:%zz the name of a certificate is not written as names are")
            self.assertEqual(say(self.client("y"), "try a 1\n"), ["granted a 2"])  # the old ones hold

    def test_clients_log_and_page_show_the_name(self):
        name, written = 'é <b>"x", *#%\n', "%C3%A9%20%3Cb%3E%22x%22%2C%20%2A%23%25%0A"
        with self.server("--log-connections", "--page", "127.0.0.1:0") as server:
            sock, other, plain = self.client(name), self.client("waits", address="10.0.0.8"), self.client(None, address="10.0.0.9", port=9)
            self.assertEqual(say(sock, "acquire a 1\n"), ["granted a 1"])
            self.assertEqual(say(other, "acquire a 1\n"), ["waiting a 0"])
            self.assertEqual(say(plain, "ping\n"), ["pong"])
            lines = server.operate("clients", 5).splitlines()
            shown = sorted(re.sub(r"^client \d+ ", "", line) for line in lines[1:])
            self.assertEqual(shown[1:], ["30000 - - 10.0.0.9:9", "30000 - a cert:waits, 10.0.0.8:51234",
                                         f"30000 a - cert:{written}, 10.0.0.7:51234"])
            with urllib.request.urlopen(f"http://127.0.0.1:{server.port('page')}/", timeout=PATIENCE) as page:
                text = page.read().decode()
            self.assertRegex(text, rf'class="held">client \d+ \(cert:{re.escape(written)}\)</td>')
            self.assertRegex(text, r"<br>client \d+ \(cert:waits\) label 1 ")
            for it in (sock, other, plain):
                it.close()
            server.wait_for_log("went (closed): cert:waits, 10.0.0.8:51234", "went (closed): 10.0.0.9:9",
                                f"went (closed): cert:{written}, 10.0.0.7:51234; it held a")
            self.assertRegex(server.text_of_log(), rf"client-came client \d+ came: cert:{re.escape(written)}, 10\.0\.0\.7:51234\n")

    def test_a_session_is_the_certificates_and_nobody_elses(self):
        with self.server("--tcp", "127.0.0.1:0") as server:
            first = self.client("build-1")
            self.assertEqual(say(first, "session 7\n1 try a 5\n", 2), ["session 7 0 alone", "1 granted a 1"])
            first.close()
            over_tcp = socket.create_connection(("127.0.0.1", server.port("clients")), PATIENCE)
            for others in (self.client("build-2"), self.client(), self.client("build-1", verify=1), over_tcp, server.raw(),
                           self.client("build-")):
                with self.subTest(others=others), contextlib.closing(others):
                    self.assertEqual(say(others, "session 7\ntry a 1\n", 2), ["refused session", "busy a"])
            again = self.client("build-1", address="10.9.9.9")  # from wherever it comes
            self.assertEqual(say(again, "session 7\n", 2), ["session 7 1 alone", "holds a 1"])
            again.close()
            server.stop()
            begun = Server("--proxied", self.proxied, folder=server.folder)
            with begun:
                stranger, again = self.client("build-2"), self.client("build-1")
                self.assertEqual(say(stranger, "session 7\n"), ["refused session"])
                self.assertEqual(say(again, "session 7\n", 2), ["session 7 1 alone", "holds a 1"])
                self.assertIn("session-refused refused, the session belongs to another user: cert:build-2, 10.0.0.7:51234", begun.text_of_log())

    def test_a_session_of_no_certificate_is_no_certificates(self):
        with self.server() as server:
            with server.raw() as sock:
                self.assertEqual(say(sock, "session 7\n1 try a 5\n", 2), ["session 7 0 alone", "1 granted a 1"])
            at_an_address = self.client()
            self.assertEqual(say(at_an_address, "session 8\n1 try b 5\n", 2), ["session 8 0 alone", "1 granted b 1"])
            for key in (7, 8):
                self.assertEqual(say(self.client("build-1"), f"session {key}\n"), ["refused session"])

    def test_quotas_go_by_the_name(self):
        with self.server("--connections", "8") as server:
            many = [self.client("greedy", address=f"10.0.0.{i}") for i in range(1, 9)]
            for sock in many:
                self.assertEqual(say(sock, "ping\n"), ["pong"])
            self.assertEqual(read_lines(self.client("greedy", address="10.9.9.9"), 2), ["refused connections"])
            self.assertEqual(say(self.client("modest", address="10.0.0.1"), "ping\n"), ["pong"])  # a place is left for those who have few
            server.wait_for_log("refused, too many connections: cert:greedy, 10.9.9.9:51234")
            with server.raw() as sock:
                self.assertEqual(say(sock, "ping\n"), ["pong"])  # this door has places of its own

    def test_headers_that_are_wrong(self):
        whole = header("build-1")
        cases = [(whole[:12] + b"\x11" + whole[13:], "a header of another version of the PROXY protocol"),
                 (whole[:12] + b"\x22" + whole[13:], "a header with a command, family or protocol that is not known"),
                 (whole[:13] + b"\x12" + whole[14:], "a header with a command, family or protocol that is not known"),
                 (SIGNATURE + b"\x21\x11\x00\x0b" + bytes(11), "a header without its addresses"),
                 (SIGNATURE + b"\x21\x11\xff\xff", "a header of more than 2064 bytes"),
                 (whole[:14] + struct.pack(">H", len(whole) - 17) + whole[16:-1], "a header with a part that does not fit"),
                 (b"try a 1\n", "no header of the PROXY protocol, version 2"),
                 (b"PROXY TCP4 10.0.0.7 10.0.0.1 1 2\r\n", "no header of the PROXY protocol, version 2"),
                 (header("x" * 257), "a certificate whose name has more than 256 bytes"),
                 (header(b"\xff"), "a certificate whose name is not text in UTF-8")]
        with self.server() as server:
            for said, why in cases:
                with self.subTest(why=why):
                    self.assert_refused(said, why, server)
            self.assertEqual(say(self.client("x" * 256), "ping\n"), ["pong"])
            cut = self.raw(whole[:20])
            cut.shutdown(socket.SHUT_WR)
            self.assertEqual(read_lines(cut, 2), ["refused header"])
            server.wait_for_log("refused, a header that is cut")
            wait_until(lambda: server.operate("clients").splitlines()[0] == "clients 2")

    def test_a_header_that_comes_in_parts(self):
        with self.server():
            sock = self.raw()
            for byte in header("build-1"):
                sock.sendall(bytes([byte]))
            self.assertEqual(say(sock, "ping\n"), ["pong"])

    @by_the_clock
    def test_a_header_has_three_seconds(self, longer):
        with self.server() as server:
            silent, slow = self.raw(), self.raw(header("x")[:-1])
            begun = time.monotonic()
            self.assertEqual((read_lines(silent, 2), read_lines(slow, 2)), (["refused header"],) * 2)
            self.assertGreater(time.monotonic() - begun, 2.9)
            self.assertLess(time.monotonic() - begun, 3 + longer)
            server.wait_for_log("header-refused refused, no whole header in 3 s")

    def test_who_says_nothing_keeps_nobody_out(self):
        with self.server() as server:
            silent = [self.raw() for _ in range(70)]
            with server.raw() as sock:
                self.assertEqual(say(sock, "ping\n"), ["pong"])
            refused = [sock for sock in silent[60:] if self.is_refused(sock)]
            self.assertEqual(len(refused), 6)  # 64 may be silent at once
            for sock in silent[:60]:
                sock.close()
            wait_until(lambda: say(self.client("x"), "ping\n") == ["pong"])

    def is_refused(self, sock):
        sock.settimeout(0.2)
        with contextlib.suppress(TimeoutError):
            return read_lines(sock, 1) == ["refused connections"]
        return False

    def test_a_second_header_ends_the_connection(self):
        for more in (header("build-2"), LOCAL, b"ping\n" + header("build-2"), b"PROXY TCP4 10.0.0.7 10.0.0.1 1 2\r\n"):
            with self.subTest(more=more), self.server() as server:
                sock = self.raw(header("build-1") + more)
                lines = read_lines(sock, 9)
                self.assertEqual(lines[-1], "refused syntax")
                server.wait_for_log("went (header): cert:build-1, 10.0.0.7:51234")

    def test_a_header_on_another_socket_ends_the_connection(self):
        with self.server("--tcp", "127.0.0.1:0", "--page", "127.0.0.1:0") as server:
            tcp = socket.create_connection(("127.0.0.1", server.port("clients")), PATIENCE)
            for sock in (server.raw(), server.raw(operator=True), tcp):
                with self.subTest(sock=sock), contextlib.closing(sock):
                    before = server.text_of_log().count("went (header)")
                    sock.sendall(header("build-1") + b"try a 1\n")
                    self.assertEqual(read_lines(sock, 9), ["refused syntax"])
                    wait_until(lambda before=before: server.text_of_log().count("went (header)") == before + 1)
            with urllib.request.urlopen(f"http://127.0.0.1:{server.port('page')}/metrics", timeout=PATIENCE) as page:
                self.assertIn('wozgirt_connections_ended_total{reason="header"} 3\n', page.read().decode())
            self.assertEqual(server.operate("stats a").split()[5:], ["0", "0"])  # nobody got it
            for said in (header("build-1"), b"PROXY TCP4 10.0.0.7 10.0.0.1 1 2\r\n\r\n"):
                visitor = socket.create_connection(("127.0.0.1", server.port("page")), PATIENCE)
                with contextlib.closing(visitor):
                    visitor.sendall(said)
                    self.assertTrue(visitor.recv(99).startswith(b"HTTP/1.1 400 "))
            line = "header-refused refused, a header of the PROXY protocol, at a socket that takes none: a visitor of the page\n"
            wait_until(lambda: server.text_of_log().count(line) == 2)

    def test_the_proxys_own_check_is_answered_and_not_logged(self):
        with self.server("--log-connections") as server:
            server.wait_for_log("client-went client 1 ")  # that of the harness
            before = server.text_of_log()
            for said in (LOCAL, SIGNATURE + b"\x20\x11\x00\x0c" + bytes(12)):
                sock = self.raw(said)
                self.assertEqual(say(sock, "ping\n"), ["pong"])
                sock.close()
            self.raw().close()  # nor is one that only connects
            with self.client("x") as sock:
                say(sock, "ping\n")
            server.wait_for_log("went (closed): cert:x, 10.0.0.7:51234")
            new = server.text_of_log()[len(before):].splitlines()
            self.assertEqual([re.search(r"client-\w+", line)[0] for line in new if "cert:x" in line], ["client-came", "client-went"])
            self.assertEqual([line for line in new if "cert:x" not in line], [])

    def test_the_socket_has_its_mode_and_its_clients_have_leases(self):
        with self.server("--proxied-mode", "660", "--proxied-group", str(os.getgid()), lease="0.5") as server:
            self.assertEqual(os.stat(self.proxied).st_mode & 0o777, 0o660)
            sock = self.client("x")
            self.assertEqual(say(sock, "try a 1\n"), ["granted a 1"])
            self.assertEqual(read_lines(sock, 1), [])
            server.wait_for_log("went (lease): cert:x, 10.0.0.7:51234; it held a")
            self.assertIn(f"listening clients of a proxy at {self.proxied}\n", server.text_of_log())
        self.assertFalse(os.path.exists(self.proxied))


@needs_programs
class NotKnown(unittest.TestCase):
    LINE = "clients-unknown clients over TCP at {} are not known, and what they say is not encrypted: see --proxied\n"

    def test_it_is_said_where_others_may_come(self):
        for words, is_said in ((("--tcp", "0.0.0.0:0", "--listen-anywhere"), True), (("--tcp", "127.0.0.1:0", "--listen-anywhere"), False),
                               (("--page", "0.0.0.0:0", "--listen-anywhere"), False), ((), False)):
            with self.subTest(words=words), Server(*words) as server:
                place = re.search(r"listening clients at (0\.0\.0\.0:\d+)\n", server.text_of_log())
                self.assertEqual("clients-unknown" in server.text_of_log(), is_said)
                if is_said:
                    self.assertEqual(server.text_of_log().count(self.LINE.format(place[1])), 1)


@needs_programs
@needs_strict
class InALog(Trial):
    """Of several servers the log says whose a session is, so each of them knows it, and so does each checkpoint."""

    def place(self, name):
        return os.path.join(self.folder, f"{name}.proxied")

    def client(self, server, *words, **more):
        return connected(self, self.place(server), header(*words, **more))

    def test_a_session_goes_on_elsewhere_for_its_certificate_only(self):
        a, b = (self.server(name, "--proxied", self.place(name), checkpoint=8) for name in "ab")
        first = self.client("a", "René M")
        self.assertEqual(say(first, "session 7\n1 try a 5\n", 2), ["session 7 0", "1 granted a 1"])
        for stranger in (self.client("a", "other"), self.client("b", "other"), self.client("b"), self.client("a"), self.raw(a), self.raw(b)):
            self.assertEqual(say(stranger, "session 7\n"), ["refused session"])
        self.hand_over(a)  # beyond some checkpoints
        first.close()
        again = self.client("b", "René M", address="10.9.9.9")
        self.assertEqual(say(again, "session 7\n", 2), ["session 7 1", "holds a 1"])
        self.assertIn("\there 7 cRen%C3%A9%20M", "\n".join(self.log.texts()))
        self.assertIn("cert:Ren%C3%A9%20M, 10.9.9.9:51234", b.operate("clients", 2))
        again.close()
        for server in (a, b):
            self.kill(server)
        self.server("a", "--proxied", self.place("a"), checkpoint=8)
        self.assertEqual(say(self.client("a", "other"), "session 7\n"), ["refused session"])
        self.assertEqual(say(self.client("a", "René M"), "session 7\n", 2), ["session 7 1", "holds a 1"])


@needs_programs
class Certificates(unittest.TestCase):
    def setUp(self):
        self.folder = tempfile.mkdtemp(prefix="wozgirt-", dir=FOLDER)
        self.addCleanup(shutil.rmtree, self.folder, ignore_errors=True)

    def made(self, name, days):
        path = os.path.join(self.folder, name)
        subprocess.run(["openssl", "req", "-x509", "-newkey", "ec", "-pkeyopt", "ec_paramgen_curve:P-256", "-nodes", "-days", str(days),
                        "-subj", "/CN=x", "-keyout", path + ".key", "-out", path], check=True, capture_output=True, timeout=60)
        return path

    @unittest.skipUnless(shutil.which("openssl"), "there is no openssl")
    def test_one_that_ends_soon_is_in_log_and_metrics(self):
        soon, late, missing = self.made("so\"on", 3), self.made("late", 300), os.path.join(self.folder, "missing")
        words = [word for path in (soon, late, missing) for word in ("--watch-certificate", path)]
        begun = time.time()
        with Server(*words, "--page", "127.0.0.1:0") as server:
            server.wait_for_log(f"certificate-ends the certificate in {soon} ends in 3.0 days\n",
                                f"certificate-unread certificate {missing}: No such file or directory (os error 2)\n")
            with urllib.request.urlopen(f"http://127.0.0.1:{server.port('page')}/metrics", timeout=PATIENCE) as page:
                text = page.read().decode()
            found = dict(re.findall(r'wozgirt_certificate_end_time_seconds\{file="(.*)"\} (\d+)\n', text))
            self.assertEqual(set(found), {soon.replace('"', '\\"'), late, missing})
            for path, days in ((soon.replace('"', '\\"'), 3), (late, 300)):
                self.assertAlmostEqual(int(found[path]), begun + days * 86400, delta=600)
            self.assertEqual(found[missing], "0")
            self.assertNotIn(late, server.text_of_log())
            server.stop()
        with Server() as server:
            self.assertNotIn("certificate", server.text_of_log())


if __name__ == "__main__":
    unittest.main()
