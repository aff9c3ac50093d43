"""A server that is started by one word, in a folder of the user's own: its first line says where, and the user's clients find it."""

import json
import os
import shutil
import stat
import subprocess
import sys
import tempfile
import unittest

from harness import BIN, COMMAND, ENGINE, FOLDER, PATIENCE, SERVER, TOP, needs_programs, wait_until

sys.path.insert(0, os.path.join(TOP, "tools"))

from page import Page  # noqa: E402


@needs_programs
class OwnServer(unittest.TestCase):
    def setUp(self):
        self.home = tempfile.mkdtemp(prefix="wozgirt-", dir=FOLDER)
        self.addCleanup(shutil.rmtree, self.home, ignore_errors=True)
        programs = os.path.join(self.home, "programs")
        os.mkdir(programs)
        os.symlink(ENGINE, os.path.join(programs, "ring_tool"))
        others = {name: value for name, value in os.environ.items() if not name.startswith(("WOZGIRT_", "XDG_"))}
        self.env = {**others, "HOME": self.home, "PATH": f"{programs}:{BIN}:{os.environ['PATH']}"}
        self.own = os.path.join(self.home, ".local", "state", "wozgirt")
        self.log = os.path.join(self.home, "log")

    def start(self, *words):
        with open(self.log, "wb") as log:
            server = subprocess.Popen([SERVER, *words], env=self.env, stderr=log)
        self.addCleanup(lambda: (server.kill(), server.wait()))
        wait_until(lambda: "engine-ready" in self.text_of_log() or server.poll() is not None)
        self.assertIsNone(server.poll(), self.text_of_log())
        return server

    def text_of_log(self):
        with open(self.log, encoding="utf-8") as file:
            return file.read()

    def run_command(self, *words):
        return subprocess.run([COMMAND, *words], env=self.env, capture_output=True, text=True, timeout=PATIENCE, check=False)

    def token(self, name):
        it = self.run_command("lock", name, "--", "sh", "-c", "echo $WOZGIRT_TOKEN")
        self.assertEqual(it.returncode, 0, it.stderr)
        return int(it.stdout)

    def end(self, server):
        server.terminate()
        self.assertEqual(server.wait(PATIENCE), 0)

    def test_one_word_starts_it(self):
        server = self.start()
        self.assertIn(f", locks of any name; journal {self.own}/journal, socket {self.own}/lock.sock; engine ", self.text_of_log().splitlines()[0])
        tokens = [self.token(name) for name in ("deploy", "order/4711", "deploy")]
        self.assertRegex(self.run_command("admin", "clients").stdout, "CLIENT")
        self.end(server)
        self.assertEqual(stat.S_IMODE(os.stat(self.own).st_mode) & 0o077, 0)
        again = self.start()
        self.assertGreater(self.token("deploy"), max(tokens))
        self.end(again)

    def test_a_folder_that_is_named(self):
        self.env["XDG_STATE_HOME"] = os.path.join(self.home, "state", "of-its-own")
        server = self.start("--locks", "a,b")
        self.assertIn(f"journal {self.home}/state/of-its-own/wozgirt/journal", self.text_of_log())
        self.assertEqual([it["lock"] for it in json.loads(self.run_command("status", "--json").stdout)], ["a", "b"])
        self.end(server)
        again = self.start()  # with the locks of its journal
        self.assertEqual(self.run_command("lock", "c", "--", "true").stderr, "wozgirt: refused: lock c\n")
        self.end(again)

    def test_its_clients_go_to_no_other_while_it_is_away(self):
        """Else one of them could hold a lock there, and one here."""
        self.end(self.start())
        it = self.run_command("try", "--server-wait", "0", "a", "--", "true")
        self.assertEqual((it.returncode, it.stderr), (69, f"wozgirt: {self.own}/lock.sock: No such file or directory (os error 2)\n"))
        shutil.rmtree(self.own)
        self.assertIn("wozgirt: /run/wozgirt/lock.sock: ", self.run_command("try", "--server-wait", "0", "a", "--", "true").stderr)

    def test_as_the_page_shows_it(self):
        block, = [it for it in Page(TOP, "docs/OPERATING.md").blocks if it.section == "### A server of your own"]
        (start, none), (take, told) = block.sessions()[1]
        self.assertEqual((start, none), ("wozgirt-server 2>own.log &", ""))
        server = self.start()
        it = subprocess.run(["bash", "--norc", "-c", take], env=self.env, capture_output=True, text=True, timeout=PATIENCE, check=False)
        self.assertEqual((it.returncode, it.stderr), (0, ""))
        fixed = ("lock", "state", "token", "waiting", "grants")
        (page,), (own,) = json.loads(told), json.loads(it.stdout)
        self.assertEqual(list(page), list(own))
        self.assertEqual([page[name] for name in fixed], [own[name] for name in fixed])
        self.end(server)

    def test_no_folder_is_known(self):
        del self.env["HOME"]
        it = subprocess.run([SERVER], env=self.env, capture_output=True, text=True, timeout=PATIENCE, check=False)
        self.assertEqual((it.returncode, it.stderr), (64, "wozgirt-server: --journal is missing\nTry --help.\n"))

    def test_what_is_shown_to_programs(self):
        server = self.start("--locks", "deploy,gpu/0,gpu/1")
        words = ["lock", "--label", "7", "gpu/1", "--", COMMAND, "status", "gpu/", "--json"]
        first, second = json.loads(self.run_command(*words).stdout)
        self.assertEqual((first["lock"], first["state"], first["client"], first["held_ms"]), ("gpu/0", "free", None, None))
        self.assertEqual((second["lock"], second["state"], second["label"], second["token"], second["grants"]), ("gpu/1", "held", 7, 1, 1))
        self.assertGreaterEqual(second["held_ms"], 0)
        self.assertEqual([line.split()[0] for line in self.run_command("status", "dep").stdout.splitlines()], ["LOCK", "deploy"])
        self.assertEqual(self.run_command("status", "none", "--json").stdout, "[]\n")
        self.assertEqual(self.run_command("status", "gpu/", "more").returncode, 64)
        self.end(server)


if __name__ == "__main__":
    unittest.main()
