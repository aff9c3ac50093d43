#!/usr/bin/env python3
"""restores.py: an etcd that is wiped, restored or full, under servers that stand still or run: one member on 127.0.0.1, with servers and
wozgirt-log as they are shipped. Each time the servers have to end with status 4, put nothing into etcd, and give no token twice. The last
line is `N passed, M failed`; where etcd is not installed it says why it is skipped. Words are names of single trials."""

import json
import os
import shutil
import signal
import subprocess
import sys
import tempfile
import time
import unittest

sys.path.insert(0, os.path.dirname(os.path.dirname(os.path.abspath(__file__))))

import journals  # noqa: E402
from etcd_members import ETCD, ETCDCTL, Members  # noqa: E402
from harness import FOLDER, IS_BUILT, PATIENCE, RUNNING, TOP, Server, say, stop_all, wait_until  # noqa: E402

LOG_PROGRAM = os.path.join(TOP, "clients", "python", "wozgirt-log")
#: seconds of a server in etcd
HOST_LEASE = 3


class Restores(unittest.TestCase):
    """A member, and servers as they are asked for."""

    #: the trial that runs
    now = None

    def setUp(self):
        Restores.now = self
        self.folder = tempfile.mkdtemp(prefix="wozgirt-", dir=FOLDER)
        self.addCleanup(shutil.rmtree, self.folder, ignore_errors=True)
        self.members = self.etcd()

    def etcd(self, *more):
        members = Members(self.folder, more=more)
        self.addCleanup(members.kill)
        members.start()
        members.wait_for_leader()
        return members

    def server(self, name, checkpoint=100000, folder=None, locks="a,b,c", **more):
        folder = os.path.join(self.folder, folder or name)
        os.makedirs(folder, exist_ok=True)
        it = Server("--etcd", self.members.urls(), "--name", name, "--prefix", "locks", "--log-program", LOG_PROGRAM, "--host-lease",
                    str(HOST_LEASE), "--checkpoint", str(checkpoint), "--page", "127.0.0.1:0", folder=folder, lease="4", locks=locks, **more)
        self.addCleanup(lambda: it.__exit__() if it in RUNNING else None)
        return it

    def take(self, server, count, name="a"):
        """So many tokens, one after the other."""
        tokens = []
        with server.raw() as sock:
            for _ in range(count):
                tokens.append(int(say(sock, f"acquire {name} 1\n")[0].split()[2]))
                self.assertEqual(say(sock, f"release {name} {tokens[-1]}\n"), [f"released {name}"])
        return tokens

    def keys(self):
        """What etcd has of the log."""
        return json.loads(self.members.etcdctl("get", "locks", "--prefix", "--write-out=json")).get("kvs", [])

    def refused(self, server):
        """The server, started by hand, ends with status 4 and says what to do; etcd is as it was."""
        kept = self.keys()
        try:
            it = subprocess.run(server.words, capture_output=True, text=True, timeout=PATIENCE, check=False)
        except subprocess.TimeoutExpired:
            self.fail("the server serves")
        self.advised(it.returncode, it.stderr)
        self.assertEqual(self.keys(), kept)

    def advised(self, status, text):
        self.assertEqual(status, 4, text)
        for part in ("etcd has another log than this server has read, or an earlier state of it (", "Stop all servers, and do what OPERATING says"):
            self.assertIn(part, text)

    def ended(self, server):
        """The server, which ran, has ended so; or as one that has lost its lease first, and then finds no log of its own."""
        try:
            status = server.process.wait(PATIENCE)
        except subprocess.TimeoutExpired:
            self.fail("the server serves")
        RUNNING.remove(server)
        text = server.text_of_log()
        late = "the log is another one, or does not reach back to the checkpoint: do what OPERATING says"
        if "out of the log (its lease in etcd is over)" in text and late in text:
            self.assertEqual(status, 4, text)
        else:
            self.advised(status, text)

    def wipe(self):
        self.members.wipe()
        self.members.start()
        self.members.wait_for_leader()

    def snapshot(self):
        path = os.path.join(self.folder, "snapshot")
        self.members.etcdctl("snapshot", "save", path)
        return path

    def restore(self, path):
        """As etcd's pages say: the member begins with the snapshot."""
        self.members.wipe()
        peer = "http://%s:%d" % (self.members.addresses["a"][0], self.members.addresses["a"][2])
        self.members.etcdctl("snapshot", "restore", path, "--name", "a", "--data-dir", os.path.join(self.folder, "etcd.a"),
                             "--initial-cluster", f"a={peer}", "--initial-advertise-peer-urls", peer)
        self.members.start()
        self.members.wait_for_leader()

    def test_wiped_while_the_server_is_stopped(self):
        server = self.server("h1")
        self.assertEqual(self.take(server, 30), list(range(1, 31)))
        server.stop()
        self.wipe()
        for _ in range(2):
            self.refused(server)
        self.assertEqual(self.keys(), [])

    def test_an_older_snapshot_while_servers_are_stopped(self):
        servers = [self.server(name) for name in ("h1", "h2")]
        self.take(servers[0], 30)
        kept = self.snapshot()
        self.assertEqual(self.take(servers[1], 30), list(range(31, 61)))
        self.assertEqual(self.take(servers[0], 1), [61])
        for server in servers:
            server.stop()
        self.restore(kept)
        for server in servers:
            self.refused(server)

    def test_a_checkpoint_that_is_older_than_the_snapshot(self):
        server = self.server("h1", checkpoint=50)
        self.take(server, 40)
        wait_until(lambda: os.path.exists(server.journal + "/CHECKPOINT"))
        kept = self.snapshot()
        self.assertEqual(self.take(server, 5), list(range(41, 46)))
        server.stop()
        self.restore(kept)
        self.refused(server)

    def test_wiped_under_a_server_that_runs(self):
        """And started by hand; then, as the page says, begun anew, with locks of other names, without another wipe."""
        server = self.server("h1")
        self.take(server, 30)
        self.wipe()
        self.ended(server)
        self.refused(server)
        self.assertEqual(self.keys(), [])
        for name in ("CHECKPOINT", "PLACE", "journal"):
            path = os.path.join(server.journal, name)
            shutil.rmtree(path) if os.path.isdir(path) else os.path.exists(path) and os.remove(path)
        again = self.server("h1", locks="a2,b2,c2")
        self.assertEqual(self.take(again, 3, "a2"), [1, 2, 3])

    def test_restored_under_a_server_that_runs(self):
        server = self.server("h1")
        self.take(server, 10)
        kept = self.snapshot()
        self.take(server, 10)
        self.restore(kept)
        self.ended(server)
        self.refused(server)

    def test_restored_and_written_on_past_the_place(self):
        server = self.server("h1")
        self.take(server, 10)
        kept = self.snapshot()
        self.take(server, 5)
        server.stop()
        self.restore(kept)
        with self.server("h3") as other:  # it has no folder from before
            self.take(other, 20)
            self.refused(server)
        self.refused(server)

    def test_an_etcd_that_comes_back_as_it_was(self):
        servers = [self.server(name, checkpoint=50) for name in ("h1", "h2")]
        self.take(servers[0], 40)
        self.members.kill()
        time.sleep(1)
        self.members.start()
        self.members.wait_for_leader()
        for server in servers:
            server.stop()
        servers = [self.server(name, checkpoint=50) for name in ("h1", "h2")]
        self.assertEqual(self.take(servers[1], 2), [41, 42])

    def test_a_second_server_of_one_name(self):
        server = self.server("h1")
        os.makedirs(os.path.join(self.folder, "other"))
        words = [word.replace("/h1/", "/other/") for word in server.words]
        it = subprocess.run(words, capture_output=True, text=True, timeout=PATIENCE, check=False)
        self.assertEqual(it.returncode, 1, it.stderr)
        self.assertIn("another server of this name is in the log, as start 1, and is alive", it.stderr)
        self.assertEqual(self.take(server, 2), [1, 2])
        server.process.kill()
        server.process.wait()
        RUNNING.remove(server)
        self.assertEqual(self.take(self.server("h1"), 1), [3])  # at once: the start before was its own
        self.assertEqual(len([it for it in self.keys() if "aG9zdHMv" in it["key"]]), 1)

    def test_more_locks(self):
        """One server begins with more locks, and all have them; the others are not started again."""
        one, two = (self.server(name, checkpoint=50) for name in ("h1", "h2"))
        self.take(one, 20)
        with two.raw() as held:
            self.assertEqual(say(held, "acquire b 1\n"), ["granted b 1"])
            one.stop()
            one = self.server("h1", checkpoint=50, locks="a,b,c,d:3")
            wait_until(lambda: say(held, "stats d\n")[0].startswith("stats d 3 "))
            self.assertEqual(say(held, "release b 1\n"), ["released b"])
        self.assertEqual(self.take(two, 30, "d"), list(range(1, 31)))
        wait_until(lambda: one.operate("cluster").split()[3:6] == two.operate("cluster").split()[3:6])
        for server in (one, two):
            server.stop()
        segments = [[*journals.texts(server.journal + "/journal")] for server in (one, two)]
        self.assertEqual(segments[0][:-1], segments[1][:-1])
        shorter, longer = sorted((it[-1] for it in segments), key=len)
        self.assertTrue(shorter and longer.startswith(shorter))

    def test_etcd_without_room(self):
        self.members.wipe()
        self.members = self.etcd("--quota-backend-bytes", "300000")
        server = self.server("h1")
        self.take(server, 2)
        for i in range(100):
            try:
                self.members.etcdctl("put", f"other/{i}", "x" * 20000)
            except subprocess.CalledProcessError:
                break
        with server.raw() as sock:
            sock.sendall(b"acquire a 1\n")
            self.assertEqual(sock.recv(100), b"")
        wait_until(lambda: "etcd has no room for entries: the server grants nothing until it has" in server.text_of_log())
        self.assertIn("out of the log (etcd has no room)", server.text_of_log())
        self.members.kill()
        self.members.more = []  # the quota that etcd has by itself
        self.members.start()
        self.members.wait_for_leader()
        self.members.etcdctl("alarm", "disarm")
        wait_until(lambda: server.text_of_log().count("Z log-joined ") == 2)
        with server.raw() as sock:
            self.assertEqual(say(sock, "acquire a 1\n")[0].split()[:2], ["granted", "a"])


def main():
    reason = None if ETCD and ETCDCTL else "etcd is not installed (Debian: etcd-server and etcd-client)"
    if reason or not IS_BUILT:
        print(f"skipped: restores: {reason or 'the programs are not built'}\n0 passed, 0 failed")
        return 0
    loader = unittest.defaultTestLoader
    names = [f"Restores.{name}" for name in sys.argv[1:]]
    tests = loader.loadTestsFromNames(names, sys.modules[__name__]) if names else loader.loadTestsFromTestCase(Restores)
    # unittest takes another exception for that of the test
    signal.signal(signal.SIGTERM, signal.default_int_handler)
    try:
        result = unittest.TextTestRunner(stream=sys.stdout, verbosity=2).run(tests)
    except KeyboardInterrupt:
        Restores.now.doCleanups()
        return 128 + signal.SIGTERM
    finally:
        stop_all()
    failed = len(result.failures) + len(result.errors)
    print(f"{result.testsRun - failed} passed, {failed} failed")
    return 1 if failed else 0


if __name__ == "__main__":
    sys.exit(main())
