"""`wozgirt admin`: what operators say."""

import os
import subprocess
import unittest

from doubles import Double
from harness import COMMAND, PATIENCE, Server, needs_programs, say, wait_until
from test_cluster import Trial, needs_strict


def admin(path, *words):
    """Its status, its output and its errors."""
    it = subprocess.run([COMMAND, "admin", *words], capture_output=True, text=True, timeout=PATIENCE,
                        env={**os.environ, "WOZGIRT_OPERATORS": path}, check=False)
    return it.returncode, it.stdout, it.stderr


@needs_programs
class Admin(unittest.TestCase):
    def test_clients(self):
        with Server() as server, server.raw() as one, server.raw() as two:
            say(one, "acquire a 1\nacquire b 1\n", 2)
            say(two, "lease 29500\nacquire a 1\n", 2)
            status, table, errors = admin(server.operators, "clients")
            self.assertEqual((status, errors), (0, ""))
            rows = [line.split(None, 4) for line in table.splitlines()]
            self.assertEqual(table.splitlines()[0].split(), ["CLIENT", "LEASE", "HOLDS", "WAITS", "FOR", "WHO"])
            self.assertEqual([row[1:4] for row in rows[1:3]], [["-", "a,b", "-"], ["29.5", "s", "-"]])
            self.assertIn(f"process {os.getpid()}", rows[1][4])
            self.assertEqual(len(rows), 4)  # and this operator

    def test_a_fault_is_written(self):
        with Server() as server:
            self.assertEqual(admin(server.operators, "corrupt", "a", "1", "2"), (0, "corrupted a 0\n", ""))
            self.assertEqual(admin(server.operators, "corrupt", "a", "99", "2"), (76, "", "wozgirt: refused: machine a\n"))
            self.assertEqual(admin(server.operators, "corrupt", "q", "1", "2"),
                             (76, "", "wozgirt: refused: lock q (there is no lock q)\n"))
        with Server(faults=False) as server:
            self.assertEqual(admin(server.operators, "corrupt", "a", "1", "2"),
                             (76, "", "wozgirt: refused: off a (the server was started without --faults)\n"))

    def test_the_server_ends(self):
        with Server() as server:
            self.assertEqual(admin(server.operators, "cluster"), (76, "", "wozgirt: refused: cluster (this server runs without --etcd)\n"))
            self.assertEqual(admin(server.operators, "stop"), (0, "stopping\n", ""))
            self.assertEqual(server.process.wait(PATIENCE), 0)
            status, _, errors = admin(server.operators, "stop")
            self.assertEqual((status, errors), (69, f"wozgirt: {server.operators}: No such file or directory (os error 2)\n"))

    def test_clients_are_no_operators(self):
        with Server() as server:
            status, _, errors = admin(server.operators, "stop", "--operators", server.path)
            self.assertEqual((status, errors), (76, "wozgirt: refused: syntax (this server does not know that)\n"))
            self.assertIsNone(server.process.poll())

    def test_a_hold_is_ended(self):
        with Double({"end a 7": ["ended a"], "end": ["refused holder a"]}) as server:
            self.assertEqual(admin(server.path, "end", "a", "7"), (0, "ended a\n", ""))
            self.assertEqual(admin(server.path, "end", "a", "8"),
                             (76, "", "wozgirt: refused: holder a (no client holds a with the token 8)\n"))
            wait_until(lambda: server.heard.count("") == 2)
            self.assertEqual([line for line in server.heard if line], ["end a 7", "end a 8"])

    def test_a_client_goes(self):
        with Double({"kick 7": ["kicked 7"], "kick": ["refused client 8"]}) as server:
            self.assertEqual(admin(server.path, "kick", "7"), (0, "kicked 7\n", ""))
            self.assertEqual(admin(server.path, "kick", "8"), (76, "", "wozgirt: refused: client 8 (there is no client 8)\n"))

    def test_answers_are_of_what_was_asked(self):
        answers = {"end": ["ended b"], "kick": ["kicked 8"], "stop": ["pong"], "corrupt": ["corrupted b 1"], "cluster": ["pong"],
                   "clients": ["status 1", "lock a free - - - - 0 0 0 0"]}
        with Double(answers) as server:
            for words in (("end", "a", "7"), ("kick", "7"), ("stop",), ("corrupt", "a", "1", "2"), ("cluster",), ("clients",)):
                with self.subTest(words=words):
                    told = f"wozgirt: the server said: {answers[words[0]][0]}\n"
                    self.assertEqual(admin(server.path, *words), (76, "", told))

    def test_words(self):
        for words in ((), ("end", "a"), ("end", "a 1\nstop", "7"), ("kick", "x"), ("stop", "now"), ("jump",)):
            with self.subTest(words=words):
                status, output, errors = admin("/nonexistent", *words)
                self.assertEqual((status, output), (64, ""))
                self.assertTrue(errors.startswith("wozgirt: ") and errors.endswith("\nTry --help.\n"), errors)


@needs_programs
@needs_strict
class OfSeveral(Trial):
    def test_where_the_server_is_in_the_log(self):
        server = self.server("a")
        self.hand_over(server, count=2)
        wait_until(lambda: admin(server.operators, "cluster") == (0, server.operate("cluster") + "\n", ""))  # that a client left comes late
        self.assertEqual(server.operate("cluster").split()[:3], ["cluster", "a", "1"])


if __name__ == "__main__":
    unittest.main()
