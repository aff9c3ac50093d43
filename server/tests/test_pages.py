"""The page and the metrics, read with parsers."""

import html.parser
import http.client
import math
import os
import re
import signal
import socket
import subprocess
import time
import unittest

from harness import PATIENCE, SERVER, Server, needs_loopback, needs_programs, read_lines, say, wait_until

METRIC = re.compile(r'^([a-z_]+)(?:\{([a-z]+)="([^"\\\n]*)"(?:,[a-z]+="[^"\\\n]*")*\})? (-?[0-9.]+(?:e[+-]?[0-9]+)?)$')
# what the values of a histogram are called, behind its name
RANGES = re.compile(r"_(bucket|sum|count)$")


def with_page(test):
    def run(self):
        with Server("--page", "127.0.0.1:0", locks="deploy,gpu/0") as server:
            self.port = server.port("page")
            test(self, server)
    return run


class Table(html.parser.HTMLParser):
    """The cells of the page's table, and whether every element is closed in its order."""

    ALONE = {"meta", "br"}

    def __init__(self):
        super().__init__()
        self.open, self.rows, self.scripts = [], [], 0

    def handle_starttag(self, tag, attrs):
        self.scripts += tag == "script"
        if tag not in self.ALONE:
            self.open.append(tag)
        if tag == "tr":
            self.rows.append([])
        if tag in ("td", "th"):
            self.rows[-1].append("")

    def handle_endtag(self, tag):
        assert self.open.pop() == tag, tag

    def handle_data(self, data):
        if "td" in self.open or "th" in self.open:
            self.rows[-1][-1] += data


@needs_programs
@needs_loopback
class Pages(unittest.TestCase):
    def ask(self, method, target, **headers):
        connection = http.client.HTTPConnection("127.0.0.1", self.port, timeout=PATIENCE)
        connection.request(method, target, headers=headers)
        answer = connection.getresponse()
        body = answer.read().decode()
        connection.close()
        return answer, body

    def metrics(self):
        answer, body = self.ask("GET", "/metrics")
        self.assertEqual((answer.status, answer.getheader("Content-Type")), (200, "text/plain; version=0.0.4; charset=utf-8"))
        values, kinds = {}, {}
        for line in body.splitlines():
            if line.startswith("# TYPE "):
                _, _, name, kind = line.split(" ")
                self.assertNotIn(name, kinds)
                kinds[name] = kind
            elif not line.startswith("# HELP "):
                match = METRIC.match(line)
                self.assertIsNotNone(match, line)
                name, _, of, value = match.groups()
                if kinds.get(RANGES.sub("", name)) == "histogram":
                    values[name, of] = float(value)
                    continue
                self.assertIn(name, kinds)
                self.assertEqual(kinds[name] == "counter", name.endswith("_total"), name)
                self.assertNotIn((name, of), values)
                values[name, of] = float(value)
        return values

    @with_page
    def test_the_page(self, server):
        with server.raw() as one, server.raw() as two:
            say(one, "acquire gpu/0 77\n")
            say(two, "acquire gpu/0 78\n")
            server.operate("corrupt deploy 1 3")
            answer, body = self.ask("GET", "/")
            self.assertEqual((answer.status, answer.getheader("Content-Type")), (200, "text/html; charset=utf-8"))
            table = Table()
            table.feed(body)
            table.close()
            self.assertEqual((table.open, table.scripts), ([], 0))
            head, deploy, gpu = table.rows
            self.assertEqual(head[:4], ["Lock", "Held by", "Label", "Token"])
            self.assertEqual(deploy[:2], ["deploy", "free"])
            self.assertIn("machine 1, 3 over 0; repaired", deploy[-1])
            self.assertEqual((gpu[0], gpu[2], gpu[3]), ("gpu/0", "77", "1"))
            self.assertRegex(gpu[1], r"^client \d+$")
            self.assertRegex(gpu[5], r"^1client \d+ label 78 for ")
            self.assertIn('http-equiv="refresh"', body)

    @with_page
    def test_the_metrics(self, server):
        with server.raw() as one, server.raw() as two:
            say(one, "acquire deploy 1\nrelease deploy 1\nacquire deploy 2\nacquire none 1\n", 4)
            say(two, "acquire deploy 1\n")
            values = self.metrics()
            self.assertEqual(values["wozgirt_engine_up", None], 1)
            self.assertEqual(values["wozgirt_grants_total", "deploy"], 2)
            self.assertEqual(values["wozgirt_grants_total", "gpu/0"], 0)
            self.assertEqual((values["wozgirt_held", "deploy"], values["wozgirt_waiting", "deploy"]), (1, 1))
            self.assertEqual(values["wozgirt_refusals_total", "lock"], 1)
            self.assertEqual(values["wozgirt_connections", None], 2)
            self.assertGreater(values["wozgirt_journal_bytes", None], 100)
            self.assertEqual(values["wozgirt_wait_seconds_count", None], 2)
            self.check_waits(one, two, values)
            two.close()
            wait_until(lambda: self.metrics()["wozgirt_held", "deploy"] == 0)
            self.assertEqual(self.metrics()["wozgirt_engine_starts_total", None], 1)

    @with_page
    def test_health(self, server):
        """A status says whether the engine answers, also to who asks for no more than the head."""
        self.assertEqual([(it.status, it.getheader("Content-Type"), body) for it, body in [self.ask("GET", "/healthz")]],
                         [(200, "text/plain; charset=utf-8", "the engine answers\n")])
        for target in ("/", "/metrics", "/healthz"):
            answer, body = self.ask("HEAD", target)
            self.assertEqual((answer.status, body), (200, ""))
        engine = server.engine_number()
        os.kill(engine, signal.SIGSTOP)
        wait_until(lambda: self.ask("GET", "/healthz")[0].status == 503)
        self.assertEqual(self.ask("GET", "/healthz")[1], "the engine does not answer\n")
        self.assertEqual([(it.status, body) for it, body in [self.ask("HEAD", "/healthz")]], [(503, "")])
        os.kill(engine, signal.SIGCONT)
        wait_until(lambda: self.ask("GET", "/healthz")[0].status == 200)

    @with_page
    def test_which_server_it_is_and_what_it_takes(self, server):
        version = subprocess.run([SERVER, "--version"], capture_output=True, text=True, check=True).stdout.split()[1]
        self.assertEqual(self.metrics()["wozgirt_build_info", version], 1)
        values = self.metrics()
        with open(f"/proc/{server.process.pid}/limits", encoding="ascii") as file:
            most = int(re.search(r"Max open files +(\d+)", file.read())[1])
        self.assertEqual(values["process_max_fds", None], most)
        open_files = len(os.listdir(f"/proc/{server.process.pid}/fd"))
        self.assertLess(abs(values["process_open_fds", None] - open_files), 5)
        self.assertGreater(values["process_virtual_memory_bytes", None], values["process_resident_memory_bytes", None])
        self.assertGreater(values["process_resident_memory_bytes", None], 1 << 20)
        self.assertLess(abs(values["process_start_time_seconds", None] + values["wozgirt_uptime_seconds", None] - time.time()), 60)
        self.assertGreaterEqual(values["process_cpu_seconds_total", None], 0)
        disk = os.statvfs(server.journal)
        self.assertLess(abs(values["wozgirt_journal_free_bytes", None] / (disk.f_bavail * disk.f_frsize) - 1), 0.5)

    @with_page
    def test_a_refusal_is_read_by_one_that_still_speaks(self, _):
        """The body of a request, which comes when the answer is there already, takes nothing back."""
        for _ in range(20):
            with socket.create_connection(("127.0.0.1", self.port), PATIENCE) as sock:
                sock.sendall(b"POST / HTTP/1.1\r\nContent-Length: 100000\r\n\r\n")
                time.sleep(0.02)
                for _ in range(10):
                    sock.sendall(b"x" * 10000)
                answer = b""
                while more := sock.recv(4096):
                    answer += more
                self.assertTrue(answer.startswith(b"HTTP/1.1 405 "))

    def check_waits(self, one, two, values):
        """Who waits for 0.02 s is counted there, and who does not wait, below; where that is granted late, another one is."""
        def waits(values):
            return {float(of): value for (name, of), value in values.items() if name == "wozgirt_wait_seconds_bucket"}
        time.sleep(0.02)
        say(one, "release deploy 2\n")
        read_lines(two, 1)
        before, after = waits(values), waits(later := self.metrics())
        self.assertEqual(list(after.values()), sorted(after.values()))
        self.assertEqual((before[math.inf], after[math.inf], later["wozgirt_wait_seconds_count", None]), (2, 3, 3))
        self.assertEqual([it for it in after if it <= 0.02 and after[it] != before[it]], [])
        self.assertGreater(later["wozgirt_wait_seconds_sum", None], values["wozgirt_wait_seconds_sum", None] + 0.02)

        def is_one_at_once():
            token = say(one, "acquire gpu/0 1\n")[0].split()[2]
            say(one, f"release gpu/0 {token}\n")
            return waits(self.metrics())[0.001] > 0
        wait_until(is_one_at_once)

    @with_page
    def test_what_is_refused(self, server):
        for method, target, headers, status in (("GET", "/x", {}, 404), ("POST", "/", {}, 405), ("GET", "/", {"Host": "a.example"}, 421)):
            self.assertEqual(self.ask(method, target, **headers)[0].status, status)
        self.assertEqual(self.ask("HEAD", "/metrics")[1], "")
        with socket.create_connection(("127.0.0.1", self.port), PATIENCE) as sock:
            sock.sendall(b"x" * 9000)
            self.assertTrue(sock.recv(100).startswith(b"HTTP/1.1 400 "))

    def say_all(self, text):
        """All that is answered, to the end of the connection."""
        with socket.create_connection(("127.0.0.1", self.port), PATIENCE) as sock:
            sock.sendall(text)
            return b"".join(iter(lambda: sock.recv(4096), b""))

    @with_page
    def test_a_refusal_comes_to_its_end_where_more_was_said(self, server):
        """What is not read of a request would have the system take the answer back."""
        for _ in range(20):
            answer = self.say_all(b"POST / HTTP/1.1\r\nContent-Length: 9000\r\n\r\n" + b"x" * 9000)
            self.assertTrue(answer.startswith(b"HTTP/1.1 405 ") and answer.endswith(b"\n405 Method Not Allowed\n"), answer)

    @with_page
    def test_no_host_of_a_request_is_elsewhere(self, server):
        """The second one neither."""
        for hosts in (b"Host: a.example\r\nHost: localhost\r\n", b"Host: localhost\r\nHost: a.example\r\n"):
            self.assertTrue(self.say_all(b"GET / HTTP/1.1\r\n" + hosts + b"\r\n").startswith(b"HTTP/1.1 421 "))

    @with_page
    def test_visitors_that_say_nothing_keep_nobody_out(self, server):
        idle = [socket.create_connection(("127.0.0.1", self.port), PATIENCE) for _ in range(20)]
        with server.raw() as sock:
            self.assertEqual(say(sock, "acquire deploy 1\n"), ["granted deploy 1"])
        [sock.close() for sock in idle]
        wait_until(lambda: self.answers())

    def answers(self):
        try:
            return self.ask("GET", "/")[0].status == 200
        except (http.client.HTTPException, OSError):
            return False


if __name__ == "__main__":
    unittest.main()
