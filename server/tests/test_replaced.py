"""A log that was wiped, restored or replaced is known as such: status 4, with what is to be done, nothing is put into it, and no token is
given twice. And a name that another server has, and an etcd without room."""

import os
import subprocess
import time
import unittest
import urllib.request

from harness import PATIENCE, RUNNING, needs_loopback, needs_programs, say, wait_until
from test_cluster import Trial, needs_strict

OTHER = "etcd has another log than this server has read, or an earlier state of it ("
ADVICE = "Stop all servers, and do what OPERATING says of an etcd that was lost or restored"


@needs_programs
@needs_strict
class Replaced(Trial):
    def take(self, server, count):
        """So many tokens, the last of them held at the end by nobody."""
        tokens = []
        with server.raw() as sock:
            for _ in range(count):
                tokens.append(int(say(sock, "acquire a 1\n")[0].split()[2]))
                self.assertEqual(say(sock, f"release a {tokens[-1]}\n"), ["released a"])
        return tokens

    def other(self, server, why=""):
        """The server, started by hand, ends with status 4, says why and what to do, and puts nothing into the log."""
        entries = self.log.texts()
        it = subprocess.run(server.words, capture_output=True, text=True, timeout=PATIENCE, check=False)
        self.assertEqual((it.returncode, self.log.texts()), (4, entries), it.stderr)
        for part in (OTHER + why, ADVICE):
            self.assertIn(part, it.stderr)

    def ended(self, server, why=""):
        """The server, which runs, ends so."""
        self.assertEqual(server.process.wait(PATIENCE), 4)
        RUNNING.remove(server)
        for part in (OTHER + why, ADVICE):
            self.assertIn(part, server.text_of_log())

    def test_wiped_before_the_first_checkpoint(self):
        a = self.server("a")
        self.assertEqual(self.take(a, 30), list(range(1, 31)))
        a.stop()
        self.log.replace("another", [])
        for _ in range(2):
            self.other(a, "it has another identity")

    def test_restored_before_the_first_checkpoint(self):
        a, b = self.server("a"), self.server("b")
        self.take(a, 30)
        kept = self.log.texts()
        self.take(b, 30)
        self.catch_up(a, b)
        a.stop()
        b.stop()
        self.log.replace("double", kept)
        for server in (a, b):
            self.other(server, f"it has {len(kept)} entries")

    def test_restored_to_a_state_behind_the_checkpoint(self):
        a = self.server("a", checkpoint=30)
        self.take(a, 40)
        wait_until(lambda: os.path.exists(a.journal + "/CHECKPOINT") and self.position(a) == len(self.log.texts()))
        kept = self.log.texts()
        self.take(a, 3)
        with open(a.journal + "/CHECKPOINT", encoding="ascii") as file:
            self.assertLess(int(file.read().split("\n")[1].split()[2]), len(kept))
        a.stop()
        self.log.replace("double", kept)
        self.other(a, f"it has {len(kept)} entries")

    def test_wiped_or_restored_while_servers_run(self):
        for name, identity, share in (("a", "another", 0), ("b", "double", 1)):
            server = self.server(name)
            self.take(server, 10)
            self.log.replace(identity, self.log.texts()[:4 * share])
            self.ended(server, "it was replaced")
            self.other(server)
            self.log.replace("double", [])

    def test_restored_and_written_on(self):
        """It has as many entries as before, or more: other revisions tell, and where these agree, the digest."""
        a = self.server("a")
        self.take(a, 10)
        a.stop()
        kept = self.log.texts()
        for identity, shift, why in (("double", 1, f"it has another entry than {len(kept)} at revision"),
                                     ("double", 0, "it has other entries up to position")):
            self.log.replace(identity, [*kept[:-4], *["nothing"] * 9], shift)
            self.other(a, why)
        self.log.replace("double", kept)
        again = self.server("a")
        self.assertEqual(self.take(again, 1), [11])

    def test_a_kill_loses_no_place(self):
        """What a client was told is in the place that the server knows, however it ended."""
        a = self.server("a")
        sock = self.raw(a)
        for turn in range(5):
            self.assertEqual(say(sock, f"acquire a 1\nrelease a {turn + 1}\n", 2)[0], f"granted a {turn + 1}")
        self.kill(a)
        told = len(self.log.texts())
        with open(a.journal + "/PLACE", encoding="ascii") as file:
            self.assertEqual(int(file.read().splitlines()[-1].split()[0]), told)
        kept = self.log.texts()
        self.log.replace("double", kept[:-1])
        self.other(a)
        self.log.replace("double", kept)
        self.assertEqual(self.take(self.server("a"), 1), [6])

    def test_a_folder_with_two_logs_and_a_damaged_place(self):
        a = self.server("a", checkpoint=30)
        self.take(a, 40)
        wait_until(lambda: os.path.exists(a.journal + "/CHECKPOINT"))
        a.stop()
        place = a.journal + "/PLACE"
        with open(place, encoding="ascii") as file:
            text = file.read()
        for damaged, status, why in ((text.replace("log double", "log other"), 4, OTHER + "CHECKPOINT is of the log double, and PLACE of other"),
                                     (text[:30], 1, "PLACE: it is damaged")):
            with open(place, "w", encoding="ascii") as file:
                file.write(damaged)
            it = subprocess.run(a.words, capture_output=True, text=True, timeout=PATIENCE, check=False)
            self.assertEqual((it.returncode, why in it.stderr), (status, True), it.stderr)
        os.remove(place)  # the checkpoint knows it too
        self.log.replace("another", [])
        self.other(a)

    def test_an_engine_that_is_killed_reads_the_same_log(self):
        a = self.server("a")
        self.take(a, 10)
        a.kill_engine()
        wait_until(lambda: "in the log double as a 2, after" in a.text_of_log())
        self.assertEqual(self.take(a, 2), [11, 12])


@needs_programs
@needs_strict
class Names(Trial):
    def test_a_second_server_of_a_name(self):
        a = self.server("a")
        other = [word.replace("/a/", "/other/") for word in a.words]
        os.makedirs(os.path.join(self.folder, "other"))
        it = subprocess.run(other, capture_output=True, text=True, timeout=PATIENCE, check=False)
        self.assertEqual(it.returncode, 1)
        self.assertIn("--name: another server of this name is in the log, as start 1, and is alive: each server has a name of its own", it.stderr)
        self.hand_over(a)
        self.kill(a)
        a = self.server("a")  # its own start before is no other
        self.assertIn("cluster a 2 ", a.operate("cluster"))
        self.log.end_lease("a")
        a.stop()
        self.hand_over(self.server("other", "--name", "a"))


@needs_programs
@needs_strict
@needs_loopback
class NoRoom(Trial):
    def shown(self, server):
        port = server.port("page")
        texts = []
        for path in ("metrics", ""):
            with urllib.request.urlopen(f"http://127.0.0.1:{port}/{path}", timeout=PATIENCE) as answer:
                texts.append(answer.read().decode())
        return texts

    def test_etcd_without_room(self):
        a = self.server("a", "--page", "127.0.0.1:0")
        sock = self.raw(a)
        self.assertEqual(say(sock, "acquire a 1\n"), ["granted a 1"])
        metrics, page = self.shown(a)
        self.assertIn("\nwozgirt_log_full 0\n", metrics)
        self.assertNotIn("no room", page)
        self.log.fill(True)
        self.assertEqual(sock.recv(10), b"")
        metrics, page = self.shown(a)
        self.assertIn("\nwozgirt_log_full 1\n", metrics)
        self.assertIn("\nwozgirt_in_log 0\n", metrics)
        self.assertIn("etcd has no room for entries.", page)
        a.wait_for_log("etcd has no room for entries: the server grants nothing until it has",
                       "out of the log (etcd has no room): all connections end")
        time.sleep(0.3)
        self.log.fill(False)
        wait_until(lambda: "\nwozgirt_in_log 1\n" in self.shown(a)[0])
        self.assertIn("\nwozgirt_log_full 0\n", self.shown(a)[0])
        self.assertEqual(say(self.raw(a), "try a 1\n"), ["busy a"])  # the client is gone with its server's start, until the grace is over


if __name__ == "__main__":
    unittest.main()
