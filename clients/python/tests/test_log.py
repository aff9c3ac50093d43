"""`wozgirt-log` with members of etcd on 127.0.0.1."""

import base64
import json
import os
import shutil
import signal
import socket
import subprocess
import sys
import tempfile
import threading
import time
import types
import unittest

sys.path.insert(0, os.path.dirname(os.path.dirname(os.path.abspath(__file__))))
sys.path.insert(0, os.path.join(os.path.dirname(os.path.abspath(__file__)), "..", "..", "..", "server", "tests"))

from etcd_members import ETCD, ETCDCTL, Members  # noqa: E402
from harness import FOLDER, PATIENCE, TOP, by_the_clock, needs_loopback, wait_until  # noqa: E402
sys.path.insert(0, os.path.join(TOP, "tools"))

from page import Page  # noqa: E402
from wozgirt.etcd import coded  # noqa: E402
from wozgirt.log import Shortener  # noqa: E402
from wozgirt.places import Lost, Place  # noqa: E402

#: Seconds after which a stream that says nothing ends.
SILENCE = 2
PROGRAM = os.path.join(os.path.dirname(os.path.dirname(os.path.abspath(__file__))), "wozgirt-log")
needs_etcd = unittest.skipUnless(ETCD and ETCDCTL, "etcd is not installed (Debian: etcd-server and etcd-client)")


class Log:
    """A wozgirt-log that runs, and was told what is known of the log: nothing, but that all starts of this name were its own. `lines`
    are those that it told; a context manager that ends it."""

    def __init__(self, urls, name="a", *words, lease=30, known="- 0 0 1000"):
        self.process = subprocess.Popen([PROGRAM, "--endpoints", urls, "--prefix", "locks", "--name", name, "--lease", str(lease), *words],
                                        stdin=subprocess.PIPE, stdout=subprocess.PIPE, stderr=subprocess.PIPE, text=True)
        self.lines, self.errors = [], []
        self._threads = [threading.Thread(target=self._read, args=it, daemon=True)
                         for it in ((self.process.stdout, self.lines), (self.process.stderr, self.errors))]
        [it.start() for it in self._threads]
        if known is not None:
            self.say(f"known {known}")

    @staticmethod
    def _read(file, lines):
        for line in file:
            lines.append(line.rstrip("\n"))

    def say(self, *lines):
        self.process.stdin.write("".join(f"{line}\n" for line in lines))
        self.process.stdin.flush()

    def append(self, *texts):
        self.say(*(f"append {text}" for text in texts))

    def entries(self):
        """As (position, revision, text)."""
        found = (line.split(" ", 3) for line in list(self.lines) if line.startswith("entry "))
        return [(int(position), int(revision), text) for _, position, revision, text in found]

    def texts(self):
        return [text for _, _, text in self.entries()]

    def wait_for(self, line):
        wait_until(lambda: line in self.lines)

    def last_alive(self):
        return next((line for line in reversed(self.lines) if line.startswith("alive")), None)

    def status(self):
        """Its status, when it ends by itself."""
        status = self.process.wait(PATIENCE)
        [it.join(PATIENCE) for it in self._threads]
        return status

    def __enter__(self):
        wait_until(lambda: self.lines or self.process.poll() is not None)
        return self

    def __exit__(self, *_):
        self.process.send_signal(signal.SIGCONT)
        self.process.kill()
        self.process.wait()
        [it.join(PATIENCE) for it in self._threads]
        for file in (self.process.stdin, self.process.stdout, self.process.stderr):
            try:
                file.close()
            except BrokenPipeError:
                pass  # it ended before it read all


class Lossy:
    """A port whose first connection ends behind the first request in which `word` is: it is passed on, and its answer is not."""

    def __init__(self, place, word):
        self._place, self._word, self.lost = place, word, 0
        self._door = socket.create_server(("127.0.0.1", 0))
        self.url = "http://127.0.0.1:%d" % self._door.getsockname()[1]
        threading.Thread(target=self._serve, daemon=True).start()

    def _serve(self):
        while True:
            try:
                near, _ = self._door.accept()
            except OSError:
                return
            far = socket.create_connection(self._place)
            threading.Thread(target=self._pass_on, args=(far, near, None), daemon=True).start()
            threading.Thread(target=self._pass_on, args=(near, far, self._word), daemon=True).start()

    def _pass_on(self, one, other, word):
        try:
            while data := one.recv(1 << 16):
                if word is not None and word in data and not self.lost:
                    self.lost += 1
                    one.shutdown(socket.SHUT_RDWR)
                    other.sendall(data)
                    return
                other.sendall(data)
        except OSError:
            pass  # one of them is gone
        finally:
            one.close()

    def close(self):
        self._door.close()


@needs_etcd
@needs_loopback
class Etcd(unittest.TestCase):
    """Each test has a folder, and members in it that end with it."""

    def setUp(self):
        self.folder = tempfile.mkdtemp(prefix="wozgirt-", dir=FOLDER)
        self.addCleanup(shutil.rmtree, self.folder, True)

    def members(self, names="a", **more):
        members = Members(self.folder, names, **more)
        self.addCleanup(members.kill)
        members.start()
        if not more.get("tls"):
            members.wait_for_leader()
        return members

    def members_with_users(self):
        """Only a user who may read and write the keys of the log is let in; the words that name it, and the file with its password."""
        members, password = self.members(), os.path.join(self.folder, "password")
        with open(password, "w", encoding="ascii") as file:
            file.write("a secret\n")
        block, = [it for it in Page(TOP, "docs/OPERATING.md").blocks if it.text().startswith("etcdctl user add ")]
        for line in block.text().replace("wozgirt/", "locks/").splitlines():
            members.etcdctl(*[word.replace("PASSWORD", "a secret") for word in line.split()[1:]])
        return members, ["--etcd-user", "wozgirt", "--etcd-password-file", password], password

    def test_a_user_of_etcd(self):
        """Who is none, or has another password, puts nothing there."""
        members, user, password = self.members_with_users()
        with Log(members.urls(), "a", *user) as log:
            log.say("follow 0 0")
            log.append("one")
            wait_until(lambda: log.texts() == ["one"])
            members.kill()  # it knows no token of before then
            members.start()
            log.append("two")
            wait_until(lambda: log.texts() == ["one", "two"])
            self.assertEqual(log.last_alive(), "alive a:1")
            nobody = self.refused(members, "user name is empty")
            with open(password, "w", encoding="ascii") as file:
                file.write("another secret\n")
            other = self.refused(members, "the user wozgirt is refused: ", *user)
            self.assertEqual((log.texts(), nobody.lines, other.lines), (["one", "two"], [], []))
            self.assertFalse(any("secret" in line for it in (log, nobody, other) for line in it.errors))

    def refused(self, members, why, *words):
        """One that says this to the operator, and goes on trying."""
        log = Log(members.urls(), "b", *words)
        self.addCleanup(log.__exit__)
        try:
            wait_until(lambda: any(why in line for line in log.errors))
        except AssertionError as fault:
            raise AssertionError(f"{log.errors} {log.lines}") from fault
        self.assertIsNone(log.process.poll())
        return log

    def test_a_log_is_shortened_by_a_user(self):
        members, user, _ = self.members_with_users()
        with Log(members.urls(), "a", *user) as log:
            log.say("follow 0 0")
            log.append(*map(str, range(20)))
            wait_until(lambda: len(log.entries()) == 20)
            position, revision, _ = log.entries()[15]
            log.say(f"checkpoint {position} {revision}")
            wait_until(lambda: any("compacted" in line for line in self.earlier(members, revision - 5)))

    def earlier(self, members, revision):
        """What etcd says of an earlier revision, asked by root."""
        it = subprocess.run([ETCDCTL, "--endpoints", members.urls(), "--user", "root:ANOTHER-a secret", "get", "locks/log", f"--rev={revision}"],
                            capture_output=True, text=True, timeout=PATIENCE, check=False, env={**os.environ, "ETCDCTL_API": "3"})
        return it.stderr.splitlines()

    def test_a_user_without_a_password(self):
        for words in (["--etcd-user", "wozgirt"], ["--etcd-password-file", "password"]):
            with Log("127.0.0.1:1", "a", *words, known=None) as log:
                self.assertEqual((log.status(), log.errors), (2, ["wozgirt-log: --etcd-user and --etcd-password-file go together"]))

    def test_entries_come_in_order(self):
        members = self.members()
        with Log(members.urls()) as a, Log(members.urls(), "b") as b:
            self.assertEqual(a.lines[0].split()[0::2], ["log", "1"])
            self.assertEqual(b.lines[0].split()[1:], [a.lines[0].split()[1], "2"])
            for log in (a, b):
                log.say("follow 0 0")
            a.append("one", "", " \tthree words ~\t")
            wait_until(lambda: len(a.entries()) == 3 and len(b.entries()) == 3)
            self.assertEqual(a.texts(), ["one", "", " \tthree words ~\t"])
            self.assertEqual(a.entries(), b.entries())
            self.assertEqual([position for position, _, _ in a.entries()], [1, 2, 3])
            self.assertEqual(members.etcdctl("get", "locks/log", "--print-value-only"), " \tthree words ~\t\n")
            members.etcdctl("put", "locks/log", "not\nan entry: \u00e9")
            wait_until(lambda: len(a.entries()) == 4)
            self.assertEqual(a.texts()[3], "not?an entry: ??")
            self.assertEqual(a.lines[1], "alive a:1 b:2")
            position, revision, _ = a.entries()[1]
            with Log(members.urls(), "c") as c:
                c.say(f"follow {position} {revision}")
                wait_until(c.entries)
                self.assertEqual(c.entries(), a.entries()[2:])
            a.process.stdin.close()
            self.assertEqual(a.status(), 0)

    def test_order_and_no_gap_over_kills_of_etcd(self):
        members = self.members()
        with Log(members.urls()) as a, Log(members.urls(), "b") as b:
            for log in (a, b):
                log.say("follow 0 0")
            for name, log in (("a", a), ("b", b)):
                threading.Thread(target=lambda it=log, who=name: it.append(*(f"{who} {i}" for i in range(600))), daemon=True).start()
            for least in (100, 400):
                wait_until(lambda: len(a.entries()) > least)
                members.kill()
                members.start()
            wait_until(lambda: {"a 599", "b 599"} <= set(a.texts()) and len(b.entries()) >= len(a.entries()))
            self.assertEqual(a.entries(), b.entries())
            self.assertEqual([it[0] for it in a.entries()], list(range(1, len(a.entries()) + 1)))
            for who in ("a", "b"):
                first = list(dict.fromkeys(text for text in a.texts() if text.startswith(who)))
                self.assertEqual(first, [f"{who} {i}" for i in range(600)])

    def test_another_member_goes_on(self):
        members = self.members("abc")
        with Log(members.urls("a")) as log:
            log.say("follow 0 0")
            log.append("one")
            wait_until(lambda: log.texts() == ["one"])
            members.kill("a")
            log.append("two")
            wait_until(lambda: "two" in log.texts())
            members.start("a")
            members.wait_for_leader()
            members.processes["b"].send_signal(signal.SIGSTOP)
            log.append("three")
            wait_until(lambda: "three" in log.texts())
            members.processes["b"].send_signal(signal.SIGCONT)
            self.assertEqual(list(dict.fromkeys(log.texts())), ["one", "two", "three"])

    def test_an_entry_whose_answer_is_lost_is_put_again_and_stays_before_the_next(self):
        members = self.members()
        lossy = Lossy(members.addresses["a"][:2], base64.b64encode(b"locks/log"))
        self.addCleanup(lossy.close)
        with Log(members.urls()) as reader, Log(lossy.url, "b") as log:
            reader.say("follow 0 0")
            self.assertEqual(lossy.lost, 0)
            log.append("one", "two")
            wait_until(lambda: "two" in reader.texts())
            self.assertEqual(lossy.lost, 1)
            self.assertEqual(reader.texts(), ["one", "one", "two"])

    def test_compaction_waits_for_every_host_of_the_list(self):
        members = self.members()
        with Log(members.urls(), "a", "--away", "1", lease=2) as a, Log(members.urls(), "b") as b:
            for log in (a, b):
                log.say("follow 0 0")
            a.append(*map(str, range(40)))
            wait_until(lambda: len(a.entries()) == 40)
            places = [it[:2] for it in a.entries()]
            a.say("checkpoint %d %d" % places[29])
            self.assertEqual(len(self.entries_from(members, (0, 0), 40)), 40)
            b.say("checkpoint %d %d" % places[19])
            self.wait_for_compaction(members, places[19])
            self.assertEqual(self.entries_from(members, places[19], 20)[0], "20")
            with Log(members.urls(), "x") as late:
                late.say("follow 0 0")
                self.assertEqual(late.status(), 4)
            members.etcdctl("del", "locks/hosts/x")
            b.process.kill()
            self.assertEqual(self.last_revision_of_list(members), places[19][1])
            with Log(members.urls(), "x") as late:
                late.say("follow %d %d" % places[9])
                self.assertEqual(late.status(), 4)

    def test_a_host_that_is_away_is_named_until_it_is_off_the_list(self):
        members = self.members()
        with Log(members.urls(), "a", "--away", "1", lease=2) as a, Log(members.urls(), "b", lease=2) as b:
            for log in (a, b):
                log.say("follow 0 0")
            a.append(*map(str, range(10)))
            wait_until(lambda: len(a.entries()) == 10)
            b.process.kill()
            a.say("checkpoint %d %d" % a.entries()[-1][:2])
            wait_until(lambda: any(line.startswith("away b ") for line in a.lines))
            self.assertGreater(int([line for line in a.lines if line.startswith("away ")][0].split()[2]), 1)
            members.etcdctl("del", "locks/hosts/b")
            a.say("checkpoint %d %d" % a.entries()[-1][:2])
            self.wait_for_compaction(members, a.entries()[-1][:2])

    def test_a_host_that_reads_on_from_a_later_place_still_needs_its_checkpoint(self):
        members = self.members()
        with Log(members.urls()) as log:
            log.say("follow 0 0")
            log.append(*map(str, range(10)))
            wait_until(lambda: len(log.entries()) == 10)
            places = [it[:2] for it in log.entries()]
            log.say("checkpoint %d %d" % places[3])
            self.wait_for_compaction(members, places[3])
        with Log(members.urls()) as log:
            log.say("follow %d %d" % places[8])
            wait_until(log.entries)
            time.sleep(0.2)
            self.assertEqual(self.last_revision_of_list(members), places[3][1])
            log.say("checkpoint %d %d" % places[5])
            self.wait_for_compaction(members, places[5])

    def last_revision_of_list(self, members):
        kvs = members.ask("a", "kv/range", {"key": base64.b64encode(b"locks/hosts/").decode(), "range_end": base64.b64encode(b"locks/hosts0").decode()})["kvs"]
        return min(int(base64.b64decode(it["value"]).split()[1]) for it in kvs)

    def entries_from(self, members, place, count):
        """As a host reads them that is on no list afterwards."""
        with Log(members.urls(), "x") as log:
            log.say("follow %d %d" % place)
            wait_until(lambda: len(log.entries()) == count)
            texts = log.texts()
        members.etcdctl("del", "locks/hosts/x")
        return texts

    def wait_for_compaction(self, members, place):
        """Until the key's version before this place cannot be read."""
        def is_gone():
            try:
                members.ask("a", "kv/range", {"key": base64.b64encode(b"locks/log").decode(), "revision": str(place[1] - 1)})
            except OSError as fault:
                return fault.code == 400
        wait_until(is_gone)

    def test_a_wiped_etcd_is_another_log(self):
        members = self.members()
        with Log(members.urls()) as log, Log(members.urls(), "b") as behind:
            log.say("follow 0 0")
            log.append("one", "two")
            wait_until(lambda: len(log.entries()) == 2)
            last = log.entries()[-1]
            members.wipe()
            members.start()
            self.assertEqual(log.status(), 4)
            behind.say("follow %d %d" % last[:2])
            self.assertEqual(behind.status(), 4)

    def test_an_earlier_state_of_etcd_is_another_log(self):
        members = self.members()
        with Log(members.urls()) as log:
            log.say("follow 0 0")
            log.append("one")
            wait_until(lambda: len(log.entries()) == 1)
            members.kill()
            shutil.copytree(os.path.join(self.folder, "etcd.a"), os.path.join(self.folder, "kept"))
            members.start()
            members.wait_for_leader()
            members.etcdctl("put", "other", "1")  # so that the revisions differ
            log.append("two")
            wait_until(lambda: "two" in log.texts())
            last = log.entries()[-1]
            members.wipe()
            os.rename(os.path.join(self.folder, "kept"), os.path.join(self.folder, "etcd.a"))
            members.start()
            self.assertEqual(log.status(), 4)
            members.wait_for_leader()
            for i in range(10):
                members.etcdctl("put", "locks/log", f"other {i}")
            with Log(members.urls(), "b") as late:
                late.say("follow %d %d" % last[:2])
                self.assertEqual(late.status(), 4)
                self.assertEqual(late.entries(), [])

    def state(self, members):
        """What etcd has below the log's keys."""
        return members.etcdctl("get", "locks/", "--prefix", "--write-out=json")

    def test_nothing_is_put_into_another_log(self):
        """Neither by a start that knows the log, nor by a process that runs."""
        members = self.members()
        with Log(members.urls()) as log:
            log.say("follow 0 0")
            log.append("one", "two")
            wait_until(lambda: log.texts() == ["one", "two"])
            identity, (position, revision, _) = log.lines[0].split()[1], log.entries()[-1]
            log.process.send_signal(signal.SIGSTOP)
            members.wipe()
            members.start()
            members.wait_for_leader()
            self.assertNotIn("kvs", json.loads(self.state(members)))
            log.append("three")
            log.process.send_signal(signal.SIGCONT)
            self.assertEqual(log.status(), 4)
        with Log(members.urls(), known=f"{identity} {position} {revision} 1") as log:
            self.assertEqual(log.status(), 4)
            self.assertEqual(log.lines, ["lost other etcd has no log, or another one's"])
        self.assertNotIn("kvs", json.loads(self.state(members)))
        with Log(members.urls(), "b") as log:
            log.say("follow 0 0")
            log.append("first")
            wait_until(lambda: log.texts() == ["first"])
            kept = self.state(members)
            with Log(members.urls(), known=f"{identity} {position} {revision} 1") as late:
                self.assertEqual(late.status(), 4)
                self.assertEqual(late.lines, ["lost other it has another identity"])
            self.assertEqual(self.state(members), kept)

    def test_an_earlier_state_is_known_at_a_start(self):
        """By fewer entries; by another entry, where it was written on past the place; and by the entry's text, where place and revision agree."""
        members = self.members()
        with Log(members.urls()) as log:
            log.say("follow 0 0")
            log.append("one", "two")
            wait_until(lambda: log.texts() == ["one", "two"])
            identity, (position, revision, _) = log.lines[0].split()[1], log.entries()[-1]
            kept = self.state(members)
            for place, why in (((position + 1, revision + 1), "it has 2 entries, and 3 were read"),
                               ((position, revision - 1), "another entry than 2"), ((position - 1, revision), "another entry than 1"),
                               ((position - 1, revision + 9), "entry 1 is not there yet")):
                with Log(members.urls(), known="%s %d %d 1" % (identity, *place)) as late:
                    self.assertEqual(late.status(), 4)
                    self.assertEqual(late.lines[0].split()[:2], ["lost", "other"])
                    self.assertIn(why, late.lines[0])
            self.assertEqual(self.state(members), kept)
            with Log(members.urls(), known=f"{identity} {position} {revision} 1") as late:
                late.say("follow 0 0")
                wait_until(lambda: late.texts() == ["one", "two"])

    def test_a_log_that_stands_outlives_a_compaction_of_all(self):
        """Which nobody should do by hand: the last entry has its value only."""
        members = self.members()
        with Log(members.urls()) as log:
            log.say("follow 0 0")
            log.append("one", "two")
            wait_until(lambda: log.texts() == ["one", "two"])
            identity, (position, revision, _) = log.lines[0].split()[1], log.entries()[-1]
            members.etcdctl("put", "other", "1")
            members.etcdctl("compaction", members.ask("a", "kv/range", {"key": "eA=="})["header"]["revision"])
            time.sleep(2 * SILENCE)  # a stream ends meanwhile, and another begins
            with Log(members.urls(), known=f"{identity} {position} {revision} 1") as late:
                late.say(f"follow {position} {revision}")
                wait_until(late.last_alive)  # it reads
                log.append("three")
                wait_until(lambda: log.texts() == ["one", "two", "three"] and late.texts() == ["three"])

    @by_the_clock
    def test_one_server_of_a_name(self, longer):
        """A second one is refused while the first one is alive, waits where that may have ended, and a server's own starts are its own."""
        members = self.members()
        with Log(members.urls(), lease=longer, known="- 0 0 0") as first:
            is_over = threading.Event()

            def live():
                for number in range(1, 1000):
                    first.say(f"here {number}")
                    if is_over.wait(0.1):
                        return
            threading.Thread(target=live, daemon=True).start()
            with Log(members.urls(), lease=longer, known="- 0 0 0") as second:
                self.assertEqual((second.status(), second.lines), (1, ["taken 1"]))
            is_over.set()
            with Log(members.urls(), lease=longer, known="- 0 0 1") as again:
                self.assertEqual(again.lines[0].split()[2], "2")
                with Log(members.urls(), lease=30, known="- 0 0 0") as late:  # nobody says that the others are here
                    self.assertEqual(late.lines[0].split()[::2], ["log", "3"])

    def test_etcd_without_room(self):
        members = self.members(more=["--quota-backend-bytes", "200000"])
        with Log(members.urls()) as log:
            log.say("follow 0 0")
            log.append("one")
            wait_until(lambda: log.texts() == ["one"])
            for i in range(100):
                try:
                    members.etcdctl("put", f"other/{i}", "x" * 20000)
                except subprocess.CalledProcessError:
                    break
            log.append("two")
            log.wait_for("full")
            self.assertEqual(log.texts(), ["one"])
            with Log(members.urls(), "b") as late:
                self.assertEqual(late.lines[0], "full")
                members.etcdctl("del", "other/", "--prefix")
                members.etcdctl("compaction", str(members.ask("a", "kv/range", {"key": "eA=="})["header"]["revision"]))
                members.etcdctl("defrag")
                members.etcdctl("alarm", "disarm")
                wait_until(lambda: log.texts() == ["one", "two"])
                wait_until(lambda: any(line.startswith("log ") for line in late.lines))

    def test_a_log_that_is_removed_is_another_log(self):
        members = self.members()
        with Log(members.urls()) as log:
            log.say("follow 0 0")
            log.append("one")
            wait_until(lambda: log.texts() == ["one"])
            members.etcdctl("del", "locks/log")
            self.assertEqual(log.status(), 4)

    def test_what_was_compacted_before_the_first_entry_is_not_missed(self):
        members = self.members()
        with Log(members.urls()):
            pass
        for i in range(5):
            members.etcdctl("put", "other", str(i))
        members.etcdctl("compaction", str(members.ask("a", "kv/range", {"key": "eA=="})["header"]["revision"]))
        with Log(members.urls(), "b") as log:
            log.append("one")
            wait_until(lambda: members.etcdctl("get", "--print-value-only", "locks/log").strip() == "one")
            log.say("follow 0 0")
            wait_until(lambda: log.texts() == ["one"])

    def test_a_log_without_entries_begins_in_a_used_etcd(self):
        members = self.members()
        for i in range(5):
            members.etcdctl("put", "other", str(i))
        with Log(members.urls()):
            pass
        members.etcdctl("compaction", str(members.ask("a", "kv/range", {"key": "eA=="})["header"]["revision"]))
        with Log(members.urls()) as log:
            log.say("follow 0 0")
            log.append("one")
            wait_until(lambda: log.texts() == ["one"])

    @by_the_clock
    def test_alive(self, longer):
        lease = 2 * longer
        members = Members(os.path.join(self.folder, str(longer)))
        self.addCleanup(members.kill)
        members.start()
        members.wait_for_leader()
        with Log(members.urls(), lease=lease) as a, Log(members.urls(), "b", lease=lease) as b:
            for log in (a, b):
                log.say("here 1", "follow 0 0")
            wait_until(lambda: a.last_alive() == b.last_alive() == "alive a:1 b:2")
            b.process.kill()
            for number in range(2, 100):
                a.say(f"here {number}")
                if a.last_alive() == "alive a:1":
                    break
                time.sleep(lease / 8)
            self.assertEqual(a.last_alive(), "alive a:1")
            a.wait_for(f"kept {number}")
            # nobody says that it is here
            wait_until(lambda: a.last_alive() == "alive")
            a.say("here 1000")
            a.append("one")
            wait_until(lambda: a.texts() == ["one"])
            self.assertNotIn("kept 1000", a.lines)
            with Log(members.urls(), lease=lease) as again:
                wait_until(lambda: a.last_alive() == "alive a:3")
                self.assertEqual(again.lines[0].split()[2], "3")

    @by_the_clock
    def test_a_server_without_etcd_knows_by_the_clock_that_it_is_not_alive(self, longer):
        members = Members(os.path.join(self.folder, str(longer)))
        self.addCleanup(members.kill)
        members.start()
        members.wait_for_leader()
        with Log(members.urls(), lease=2 * longer) as log:
            log.say("follow 0 0", "here 1")
            log.wait_for("kept 1")
            begun = time.monotonic()
            members.kill()
            log.say("here 2")
            wait_until(lambda: log.last_alive() == "alive")
            self.assertLess(time.monotonic() - begun, 4 * longer)

    def test_tls(self):
        if not shutil.which("openssl"):
            self.skipTest("openssl is not installed")
        self.certificate("signer", [])
        self.certificate("member", ["-CA", self.path("signer.pem"), "-CAkey", self.path("signer.key"), "-addext", "subjectAltName=IP:127.0.0.1"])
        files = [self.path(it) for it in ("member.pem", "member.key", "signer.pem")]
        members = self.members(tls=files)
        with Log(members.urls(), "a", "--cert", files[0], "--key", files[1], "--cacert", files[2]) as log:
            log.say("follow 0 0")
            log.append("one")
            wait_until(lambda: log.texts() == ["one"])
        for words in (["--cacert", files[2]], ["--cert", files[0], "--key", files[1]]):
            log = Log(members.urls(), "b", *words)
            with self.subTest(words=words):
                wait_until(lambda: log.errors)
                self.assertEqual(log.lines, [])
            log.__exit__()

    def path(self, name):
        return os.path.join(self.folder, name)

    def certificate(self, name, more):
        subprocess.run(["openssl", "req", "-x509", "-newkey", "ec", "-pkeyopt", "ec_paramgen_curve:prime256v1", "-nodes", "-days", "2", "-subj",
                        f"/CN={name}", "-keyout", self.path(f"{name}.key"), "-out", self.path(f"{name}.pem"), *more], check=True, capture_output=True)

    def test_wrong_lines(self):
        members = self.members()
        for line in ("", "append", "append \u00e9", "known - 0 0 0", "follow 1", "here x", "here 1 ", "checkpoint 1 -1", "nothing"):
            with self.subTest(line=line), Log(members.urls()) as log:
                log.say(line)
                self.assertEqual(log.status(), 2)
        with Log(members.urls()) as log:
            log.say("follow 0 0", "follow 0 0")
            self.assertEqual(log.status(), 2)
        for known in ("", "- 0 0", "x y 0 0 0", "- 0 0 0 0", "- 0 0 -1"):
            with self.subTest(known=known), Log(members.urls(), known=known) as log:
                self.assertEqual(log.status(), 2)


class Away(unittest.TestCase):
    """An etcd that is not there."""

    def ends_with_its_input(self, place):
        log = Log("http://%s:%d" % place)
        self.addCleanup(log.__exit__)
        time.sleep(0.5)
        self.assertIsNone(log.process.poll(), log.errors)
        log.process.stdin.close()
        self.assertEqual((log.status(), log.lines), (0, []))

    @needs_loopback
    def test_the_end_of_the_input_is_seen(self):
        with socket.create_server(("127.0.0.1", 0)) as nobody:
            place = nobody.getsockname()
            self.ends_with_its_input(place)  # it says nothing
        self.ends_with_its_input(place)  # nobody listens


class Hosts(unittest.TestCase):
    """The list of hosts, with a member of etcd that answers as it is told."""

    def listed(self, succeeded):
        """What a host asked to be listed, where the log is its own or was replaced."""
        asked = []
        member = types.SimpleNamespace(ask=lambda path, body: asked.append((path, body)) or {"succeeded": succeeded})
        program = types.SimpleNamespace(name="a", place=Place("mine", 2, 7), member=lambda: member,
                                        key=lambda *words: "/".join(("locks", *words)))
        if succeeded:
            Shortener(program, None, (2, 7))._list(member)
        else:
            self.assertRaises(Lost, Shortener(program, None, (2, 7))._list, member)
        return asked

    def test_a_host_is_listed_in_no_other_log(self):
        put = {"key": coded("locks/hosts/a"), "value": coded("2 7")}
        mine = {"key": coded("locks/identity"), "target": "VALUE", "value": coded("mine")}
        for succeeded in (True, False):
            self.assertEqual(self.listed(succeeded), [("kv/txn", {"compare": [mine], "success": [{"request_put": put}]})])


class Words(unittest.TestCase):
    def test_wrong_words(self):
        right = ["--endpoints", "127.0.0.1:1", "--prefix", "locks", "--name", "a"]
        for wrong in ([], right[:4], [*right, "--name", "a b"], [*right, "--prefix", "locks/"], [*right, "--lease", "0"],
                      ["--endpoints", "ftp://x", *right[2:]], [*right, "--cacert", "/nonexistent", "--endpoints", "https://127.0.0.1:1"]):
            with self.subTest(words=wrong):
                run = subprocess.run([PROGRAM, *wrong], capture_output=True, text=True, timeout=PATIENCE)
                self.assertEqual((run.returncode, run.stdout), (2, ""))
                self.assertNotEqual(run.stderr, "")


if __name__ == "__main__":
    unittest.main()
