"""The record of grants (`--grants FILE`): a line for each grant and each end of a hold, there before the answer; and that it goes on over
kills, other names and other files."""

import contextlib
import os
import pwd
import re
import shutil
import signal
import subprocess
import sys
import tempfile
import unittest
import unittest.mock

from harness import ENGINE, FOLDER, Server, granted, needs_loopback, needs_programs, say, wait_until
from test_restarts import GATED

FIRST = "wozgirt-grants 1"
MOMENT = re.compile(r"(\d{4}-\d\d-\d\dT\d\d:\d\d:\d\d\.\d{6}Z) ")
#: a user by name, or by number as long as the system has not said the name
USER = f"user=(?:{re.escape(pwd.getpwuid(os.getuid()).pw_name)}|{os.getuid()})"


def lines_of(path):
    """The lines of a file without their moments, and without those that say that a server began."""
    with open(path, encoding="ascii") as file:
        first, *lines = file.read().splitlines()
    assert first == FIRST, first
    assert all(MOMENT.match(line) for line in lines), lines
    return [line for line in (MOMENT.sub("", line, 1) for line in lines) if not line.startswith("began")]


def short(lines):
    """Each without what comes after the token, or the reason."""
    return [" ".join(line.split(" ")[:4 if line.startswith("ended") else 3]) for line in lines]


class Trial(unittest.TestCase):
    """Servers in one folder, one after the other."""

    def setUp(self):
        self.folder = tempfile.mkdtemp(prefix="wozgirt-grants-", dir=FOLDER)
        self.addCleanup(shutil.rmtree, self.folder, ignore_errors=True)
        self.path = os.path.join(self.folder, "grants")

    @contextlib.contextmanager
    def server(self, *words, is_synced=False, **more):
        with unittest.mock.patch.object(subprocess, "Popen", Popen if is_synced else subprocess.Popen):
            with Server("--grants", self.path, *words, folder=self.folder, **more) as server:
                yield server

    def lines(self):
        return lines_of(self.path)

    def wait_for(self, *lines):
        """Until the record has these, of which the last word is the reason."""
        wait_until(lambda: all(line in short(self.lines()) for line in lines))


class Popen(subprocess.Popen):
    """A server with syncs: the harness begins each without."""

    def __init__(self, words, *more, **named):
        super().__init__([word for word in words if word != "--no-sync"], *more, **named)


@needs_programs
class EachGrant(Trial):
    def test_who_and_with_which_label(self):
        with self.server() as server, server.raw() as sock:
            self.assertEqual(say(sock, "acquire a 7\ntry b 18446744073709551615\nrelease a 1\n", 3), ["granted a 1", "granted b 1", "released a"])
            lines = self.lines()
            own = rf"client=\d+ {USER} process={os.getpid()}"
            self.assertRegex(lines[0], rf"^granted a 1 label=7 {own}$")
            self.assertRegex(lines[1], rf"^granted b 1 label=18446744073709551615 {own}$")
            self.assertEqual(lines[2:], ["ended a 1 released"])
            self.assertEqual(os.stat(self.path).st_mode & 0o777, 0o600)

    @needs_loopback
    def test_an_address(self):
        with self.server("--tcp", "127.0.0.1:0") as server:
            import socket
            with socket.create_connection(("127.0.0.1", server.port("clients"))) as sock:
                self.assertEqual(say(sock, "acquire a 7\n"), ["granted a 1"])
                self.assertRegex(self.lines()[0], rf"^granted a 1 label=7 client=\d+ address=127\.0\.0\.1:{sock.getsockname()[1]}$")

    def test_a_line_is_there_before_its_answer(self):
        with self.server(locks="a,*") as server, server.raw() as one, server.raw() as two:
            for i in range(100):
                token = int(say(one, "acquire a 1\n")[0].split()[2])
                self.assertEqual(short(self.lines())[-1], f"granted a {token}")
                say(two, "acquire a 2\n")
                say(one, f"release a {token}\n")
                self.assertEqual(short(self.lines())[-2:], [f"ended a {token} released", f"granted a {token + 1}"])
                self.assertEqual(granted(two), f"granted a {token + 1}")
                say(two, f"release a {token + 1}\n")
                self.assertEqual(say(one, f"try x/{i} 1\n")[0].split()[:2], ["granted", f"x/{i}"])
                self.assertTrue(short(self.lines())[-1].startswith(f"granted x/{i} "))

    def test_why_a_hold_ended(self):
        with self.server("--longest-lease", "1", locks="a,b,c,d,e,f,g", lease="1") as server, server.raw(operator=True) as operator:
            socks = {name: server.raw() for name in "abcdefg"}
            for name, sock in socks.items():
                self.assertEqual(say(sock, ("lease 100\n" if name == "d" else "ping\n") + f"acquire {name} 1\n", 2)[1], f"granted {name} 1")
            say(socks["a"], "release a 1\n")
            say(socks["b"], "leave\n")
            socks["c"].close()
            say(operator, "end e 1\n")
            number = re.search(r"granted f 1 label=1 client=(\d+)", "\n".join(self.lines()))[1]
            say(operator, f"kick {number}\n")
            socks["g"].sendall(b"nonsense\n")
            self.wait_for("ended a 1 released", "ended b 1 left", "ended c 1 closed", "ended d 1 lease", "ended e 1 operator",
                          "ended f 1 kicked", "ended g 1 syntax")
            self.assertEqual(len(self.lines()), 14)
            for sock in socks.values():
                sock.close()

    def test_a_session(self):
        with self.server(lease="1") as server:
            with server.raw() as sock:
                self.assertEqual(say(sock, "session 77\nlease 300\n1 acquire a 7\n2 acquire b 8\n3 release b 1\n", 5)[2:],
                                 ["1 granted a 1", "2 granted b 1", "3 released b"])
            self.assertRegex(self.lines()[0], rf"^granted a 1 label=7 client=\d+ {USER} process={os.getpid()}$")
            self.wait_for("ended b 1 released", "ended a 1 session")

    def test_what_is_granted_while_its_client_is_away(self):
        with self.server(lease="30") as server, server.raw() as holder:
            say(holder, "acquire a 1\n")
            with server.raw() as sock:
                self.assertEqual(say(sock, "session 77\n1 acquire a 7\n", 2)[1], "1 waiting a 0")
            wait_until(lambda: "away" in server.operate("clients", 4))
            say(holder, "release a 1\n")
            self.wait_for("granted a 2")
            self.assertRegex(self.lines()[-1], rf"^granted a 2 label=7 client=\d+ {USER}$")


@needs_programs
class OverEnds(Trial):
    def test_a_kill_of_the_engine_and_of_the_server(self):
        """What was held ends with the grace, and has one line of its end."""
        with self.server(lease="0.2") as server, server.raw() as sock:
            self.assertEqual(say(sock, "acquire a 1\n"), ["granted a 1"])
            server.kill_engine()
            self.wait_for("ended a 1 grace")
            self.assertEqual(short(self.lines()), ["granted a 1", "ended a 1 grace"])
            with server.raw() as again:
                self.assertEqual(say(again, "acquire b 1\n"), ["granted b 1"])
                server.process.kill()
                server.process.wait()
        with self.server(lease="0.2"):
            self.wait_for("ended b 1 grace")
        self.assertEqual(short(self.lines()), ["granted a 1", "ended a 1 grace", "granted b 1", "ended b 1 grace"])

    def test_a_session_over_a_restart(self):
        with self.server() as server, server.raw() as sock:
            say(sock, "session 77\n1 acquire a 7\n", 2)
            server.process.kill()
            server.process.wait()
        with self.server() as server, server.raw() as sock:
            self.assertEqual(say(sock, "session 77\n", 2), ["session 77 1 alone", "holds a 1"])
            self.assertEqual(say(sock, "2 release a 1\n"), ["2 released a"])
        self.assertEqual(short(self.lines()), ["granted a 1", "kept a 1", "ended a 1 released"])

    def test_a_hold_of_which_its_client_hears_when_it_is_back(self):
        """The engine has granted it, and the server ended before it heard of that."""
        gate, program = os.path.join(self.folder, "gate"), os.path.join(self.folder, "gated")
        with open(program, "w", encoding="utf-8") as file:
            file.write(GATED.format(python=sys.executable, engine=ENGINE, gate=gate))
        os.chmod(program, 0o700)
        with self.server(engine=program) as server, server.raw() as sock:
            say(sock, "session 77\n1 acquire b 7\n", 2)
            with open(gate, "w", encoding="ascii"):
                pass
            sock.sendall(b"2 acquire a 7\n")
            wait_until(lambda: any(call.startswith("0 p 0 ") for call in server.calls(0)))
            server.process.kill()
            server.process.wait()
            os.remove(gate)
        with self.server() as server, server.raw() as sock:
            self.assertEqual(sorted(say(sock, "session 77\n", 3)), ["holds a 1", "holds b 1", "session 77 2 alone"])
            self.assertEqual(sorted(short(self.lines())), ["granted b 1", "kept a 1", "kept b 1"])
            self.assertRegex("\n".join(self.lines()), rf"kept a 1 client=\d+ {USER} process={os.getpid()}")

    def test_an_operator_ends_what_is_nobodys(self):
        with self.server() as server, server.raw() as sock:
            say(sock, "acquire a 7\n")
            server.process.kill()
            server.process.wait()
        with self.server() as server:
            self.assertEqual(server.operate("end a 1"), "ended a")
            self.assertEqual(short(self.lines()), ["granted a 1", "ended a 1 operator"])


@needs_programs
class Files(Trial):
    def all_lines(self):
        names = sorted(name for name in os.listdir(self.folder) if re.fullmatch(r"grants\.\d{10}", name)) + ["grants"]
        return names, [line for name in names for line in lines_of(os.path.join(self.folder, name))]

    def test_one_that_is_long_gets_another_name_and_no_line_is_lost(self):
        with self.server("--grants-bytes", "1000", locks="*") as server, server.raw() as sock:
            for i in range(50):
                say(sock, f"try n/{i} 1\nping\n", 2)
            for i in range(50):
                say(sock, f"release n/{i} {i + 1}\n")
            names, lines = self.all_lines()
            self.assertGreater(len(names), 5)
            self.assertEqual(short(lines), [f"granted n/{i} {i + 1}" for i in range(50)] + [f"ended n/{i} {i + 1} released" for i in range(50)])
            self.assertTrue(all(os.path.getsize(os.path.join(self.folder, name)) <= 1000 for name in names))

    def test_one_that_was_moved_is_begun_anew_at_a_signal(self):
        with self.server() as server, server.raw() as sock:
            say(sock, "acquire a 1\n")
            os.rename(self.path, self.path + ".1")
            server.process.send_signal(signal.SIGHUP)
            wait_until(lambda: os.path.exists(self.path))
            say(sock, "release a 1\n")
            self.assertEqual((short(lines_of(self.path + ".1")), short(self.lines())), (["granted a 1"], ["ended a 1 released"]))

    def test_what_is_no_record_is_refused(self):
        with open(self.path, "w", encoding="ascii") as file:
            file.write("something else\n")
        with self.assertRaisesRegex(RuntimeError, r"--grants: \S+/grants: it is not a record of grants"):
            with self.server():
                pass
        with self.assertRaisesRegex(RuntimeError, r"--grants: \S+/none/grants: No such file"):
            self.path = os.path.join(self.folder, "none", "grants")
            with self.server():
                pass
        with open(os.path.join(self.folder, "grants"), encoding="ascii") as file:
            self.assertEqual(file.read(), "something else\n")

    def test_none_is_made_if_none_is_wanted(self):
        with Server(folder=self.folder) as server, server.raw() as sock:
            say(sock, "acquire a 1\n")
            self.assertFalse(os.path.exists(self.path))


if __name__ == "__main__":
    unittest.main()
