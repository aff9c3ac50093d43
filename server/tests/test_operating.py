"""Blocks of docs/OPERATING.md that are for hosts of their own, each pasted as a whole into a shell: the folders of the system are folders
of the test there, `scp` copies from another one, and what only root may do is left out. Of what is no command: its words are known."""

import contextlib
import datetime
import glob
import grp
import json
import os
import pwd
import re
import shutil
import subprocess
import sys
import tempfile
import unittest

from certificates import needs_openssl
from front import Front, Tunnel, needs_haproxy, text_of
from harness import (COMMAND, ENGINE, FOLDER, PATIENCE, SERVER, TOP, Server, a_port, engine_of_any_name, needs_programs, read_lines, say,
                     wait_until)

sys.path.insert(0, os.path.join(TOP, "tools"))

from page import Page  # noqa: E402

JOURNAL = "/var/lib/wozgirt/journal"
#: what the commands of the system are in a test
STUBS = {"systemctl": 'echo "$*" >>systemctl', "chown": "", "apt-get": "", "usermod": "",
         "install": 'a=("$@"); for i in "${!a[@]}"; do case ${a[i]} in -o | -g) unset "a[i]" "a[i+1]" ;; esac; done; /usr/bin/install "${a[@]}"',
         "scp": 'for it in "${@:1:$#-1}"; do cp ${it/h2:/$OTHER} "${!#}"; done'}


#: those that are played here: each by its section and words of it
PLAYED = [("## The journal", "xargs"), ("### Replace a host", "scp"), ("### etcd was lost or restored", "install"), ("### Certificates", "openssl"),
          *(("## Who held what, and when", words) for words in ("xargs", "wozgirt log", "WOZGIRT_OPTIONS")),
          ("## Four questions", "journalctl"), ("## Four questions", "curl"), ("## What to watch", "scrape_configs:"),
          ("### etcd and the server", "WOZGIRT_OPTIONS="), ("### etcd and the server", "ETCD_NAME="), ("## Who may connect", "lock deploy:"),
          *(("### Clients over TLS", words) for words in ("openssl", "--proxied", "Tls(", "client.pem", "WOZGIRT_SOCKET"))]
#: those that another test plays, though no mark says so
ELSEWHERE = {"./build\n": "the first page's test", "i=0\n": "server/tests/cluster/page.py", "from wozgirt import Lock": "test_documents.InPython"}


def block(section, words):
    """The block of a section that has these words."""
    assert (section, words) in PLAYED, words
    found = [it for it in Page(TOP, "docs/OPERATING.md").blocks if it.section == section and words in it.text()]
    assert len(found) == 1, (section, words)
    return found[0].text()


def write(path, text=""):
    os.makedirs(os.path.dirname(path), exist_ok=True)
    with open(path, "w", encoding="utf-8") as file:
        file.write(text)


def read(path):
    with open(path, encoding="utf-8") as file:
        return file.read()


class Blocks(unittest.TestCase):
    def setUp(self):
        self.folder = tempfile.mkdtemp(prefix="wozgirt-page-", dir=FOLDER)
        self.addCleanup(shutil.rmtree, self.folder)

    def paste(self, text):
        """Pastes a block, and returns what it prints; `# ` before a command is the prompt of root."""
        for name, does in STUBS.items():
            write(f"{self.folder}/bin/{name}", f"#!/bin/bash\n{does}\n")
            os.chmod(f"{self.folder}/bin/{name}", 0o700)
        text = self.here(re.sub(r"^[#$] ", "", text, flags=re.M))
        env = dict(os.environ, PATH=f"{self.folder}/bin:{os.environ['PATH']}", OTHER=f"{self.folder}/other")
        done = subprocess.run(["bash", "--norc", "-e"], input=text, cwd=self.folder, env=env, capture_output=True, text=True, timeout=PATIENCE,
                              check=False)
        self.assertEqual(done.returncode, 0, done.stderr)
        return done.stdout

    def here(self, text):
        """The text with the system's folders below that of the test."""
        return re.sub(r"(?<!h2:)(?=/(?:var/lib|srv|etc|run)/)", self.folder, text)

    def names(self, folder):
        return sorted(os.path.relpath(it, self.folder + folder) for it in glob.glob(f"{self.folder}{folder}/**", recursive=True) if os.path.isfile(it))

    def test_old_segments_are_moved_away(self):
        for number in range(1, 6):
            write(f"{self.folder}{JOURNAL}/000000000{number}.ring")
        write(f"{self.folder}{JOURNAL}/locks")
        os.makedirs(f"{self.folder}/srv/old-locks")
        self.paste(block("## The journal", "xargs"))
        self.assertEqual(self.names("/srv/old-locks"), [f"000000000{it}.ring" for it in (1, 2, 3)])
        self.assertEqual(self.names(JOURNAL), ["0000000004.ring", "0000000005.ring", "locks"])

    def test_old_records_are_removed(self):
        for number in range(1, 33):
            write(f"{self.folder}{JOURNAL}.grants.{number:010d}")
        write(f"{self.folder}{JOURNAL}.grants")
        self.paste(block("## Who held what, and when", "xargs"))
        self.assertEqual(self.names("/var/lib/wozgirt"), ["journal.grants"] + [f"journal.grants.{number:010d}" for number in range(3, 33)])

    @needs_programs
    def test_who_held_it_on_tuesday(self):
        """Over a kill of the server and a restart. The page has the times of a Tuesday, a user and processes: those of the record become
        these, line by line, and the last Tuesday is the page's."""
        command, shown = block("## Who held what, and when", "wozgirt log").removeprefix("# ").split("\n", 1)
        rows = [line.split() for line in shown.splitlines()[1:]]
        labels = [row[2] for row in rows]
        with self.recorded() as server, server.raw() as one:
            say(one, "acquire deploy 1\nrelease deploy 1\nacquire deploy %s\n" % labels[0], 3)
            with server.raw() as two:
                say(two, "acquire deploy %s\n" % labels[1])
                say(one, "release deploy 2\n")
                self.assertEqual(read_lines(two, 1), ["granted deploy 3"])
                server.process.kill()
                server.process.wait()
        grants = f"{self.folder}{JOURNAL}.grants"
        with self.recorded() as server:
            wait_until(lambda: "grace" in read(grants))
            with server.raw() as three:
                say(three, "acquire deploy %s\n" % labels[2])
                tuesday = self.on_the_page(grants, rows)
                env = dict(os.environ, PATH=f"{self.folder}/bin:{os.environ['PATH']}", WOZGIRT_JOURNAL=self.folder + JOURNAL)
                done = subprocess.run(["bash", "-c", command], env=env, capture_output=True, text=True, timeout=PATIENCE, check=False)
                self.assertEqual((done.stderr, done.stdout), ("", shown.replace("2026-11-24", tuesday).rstrip("\n") + "\n"))
                write(grants, read(grants).replace("label=8", "label=77"))
                done = subprocess.run(["bash", "-c", command], env=env, capture_output=True, text=True, timeout=PATIENCE, check=False)
                self.assertEqual((done.returncode, done.stdout), (65, ""))
                self.assertRegex(done.stderr, r"line \d+: in the journal the hold of deploy with token 3 has the label 8$")

    def recorded(self):
        """A server with the option of the page, whose journal is at the page's place."""
        option = block("## Who held what, and when", "WOZGIRT_OPTIONS").strip().removeprefix("WOZGIRT_OPTIONS=")
        words = re.sub("(?=/var/)", self.folder, option).split()
        os.makedirs(f"{self.folder}/bin", exist_ok=True)
        for name, program in (("ring_tool", ENGINE), ("wozgirt", COMMAND)):
            with contextlib.suppress(FileExistsError):
                os.symlink(program, f"{self.folder}/bin/{name}")
        os.makedirs(f"{self.folder}/var/lib/wozgirt", exist_ok=True)
        return Server("--journal", self.folder + JOURNAL, *words, locks="deploy", lease="0.2", folder=self.folder)

    def on_the_page(self, path, rows):
        """Gives the record the page's times, users and processes; the day of last Tuesday, in UTC."""
        now = datetime.datetime.now(datetime.timezone.utc)
        tuesday = (now - datetime.timedelta(days=(now.weekday() - 1) % 7)).date().isoformat()
        lines = read(path).splitlines()
        for i, line in enumerate(lines):
            row = next((row for row in rows if f" deploy {row[1]} " in f"{line} "), None)
            at = row[3 if " granted " in line else 4] if row else "2026-11-24T14:00:00.000000Z"
            user, process = (row[5], row[7]) if row else ("root", 1)
            line = re.sub(r"^\S+Z ", at.replace("2026-11-24", tuesday) + " ", line)
            lines[i] = re.sub(r"user=\S+ process=\d+", f"user={user} process={process}", line)
        write(path, "\n".join(lines) + "\n")
        return tuesday

    def test_a_host_is_replaced(self):
        parts = ["CHECKPOINT", "PLACE", "SEGMENT-9", "SEGMENT-17", "holders", "journal/0000000001.ring", "journal/0000000002.ring", "journal/locks"]
        for name in parts:
            write(f"{self.folder}/other{JOURNAL}/{name}", name)
        write(f"{self.folder}{JOURNAL}/PLACE", "of before")
        self.paste(block("### Replace a host", "scp"))
        self.assertEqual(self.names(JOURNAL), sorted(set(parts) - {"PLACE", "holders"}))
        self.assertEqual(self.names(JOURNAL + ".before"), ["PLACE"])

    @needs_openssl
    def test_certificates(self):
        self.paste(block("### Certificates", "openssl"))
        for words in (["verify", "-CAfile", "ca.pem", "10.0.0.1.pem"], ["x509", "-in", "10.0.0.1.pem", "-noout", "-checkip", "10.0.0.1"]):
            done = subprocess.run(["openssl", *words], cwd=self.folder, capture_output=True, text=True, check=False)
            self.assertEqual((done.returncode, "NOT match" in done.stdout), (0, False), done.stdout + done.stderr)
        text = subprocess.run(["openssl", "x509", "-in", "10.0.0.1.pem", "-noout", "-text"], cwd=self.folder, capture_output=True, text=True,
                              check=True).stdout
        self.assertRegex(text, r"Basic Constraints: critical\n\s*CA:FALSE")

    @needs_openssl
    def test_a_host_signs_for_no_other(self):
        """A certificate that is made with a host's key, for another address, is refused by who trusts the one that signs."""
        made = block("### Certificates", "openssl")
        self.paste(made)
        first, second = made.split("openssl req")[1:]
        other = second.replace("10.0.0.1", "10.0.0.9").replace("-CA ca.pem -CAkey ca.key", "-CA 10.0.0.1.pem -CAkey 10.0.0.1.key")
        self.assertNotEqual((first, other), ("", second))
        self.paste("openssl req" + other)
        done = subprocess.run(["openssl", "verify", "-CAfile", "ca.pem", "-untrusted", "10.0.0.1.pem", "10.0.0.9.pem"], cwd=self.folder,
                              capture_output=True, text=True, check=False)
        self.assertNotEqual(done.returncode, 0)
        self.assertIn("invalid CA certificate", done.stderr)

    def certificates_of_locks(self):
        """Those of the page, for the host that is here."""
        made = block("### Clients over TLS", "openssl").replace("locks.example", "localhost")
        self.paste(made)
        return made

    def verified(self, purpose, *words):
        done = subprocess.run(["openssl", "verify", "-CAfile", "ca.pem", "-purpose", purpose, *words], cwd=self.folder, capture_output=True,
                              text=True, check=False)
        return "good" if done.returncode == 0 else done.stderr

    @needs_openssl
    def test_certificates_of_locks(self):
        """None is an authority, and none is good for what it is not made for."""
        made = self.certificates_of_locks()
        self.assertEqual((self.verified("sslserver", "server.pem"), self.verified("sslclient", "build-1.pem")), ("good", "good"))
        self.assertRegex(self.verified("sslclient", "server.pem"), "(unsuitable|unsupported) certificate purpose")
        self.assertRegex(self.verified("sslserver", "build-1.pem"), "(unsuitable|unsupported) certificate purpose")
        last = "openssl req" + made.split("openssl req")[3].split("cat ")[0]
        for signs in ("server", "build-1"):
            self.paste(last.replace("-CA ca.pem -CAkey ca.key", f"-CA {signs}.pem -CAkey {signs}.key").replace("build-1.key -out build-1", "x.key -out x"))
            self.assertIn("invalid CA certificate", self.verified("sslclient", "-untrusted", f"{signs}.pem", "x.pem"))

    def systemctl(self):
        """What systemctl was told."""
        with open(f"{self.folder}/systemctl", encoding="ascii") as file:
            return file.read().splitlines()

    def server_of_page(self):
        """The server with the options that the page has it get, and HAProxy before it, by its configuration."""
        write(f"{self.folder}/etc/wozgirt/settings", "WOZGIRT_LOCKS=*\nWOZGIRT_OPTIONS=\n")
        os.makedirs(f"{self.folder}/run/wozgirt")
        self.paste(block("### Clients over TLS", "--proxied"))
        self.assertEqual(self.systemctl(), ["restart wozgirt-server", "enable --now wozgirt-tls"])
        self.assertEqual(os.stat(f"{self.folder}/etc/wozgirt/tls/server.pem").st_mode & 0o777, 0o640)
        with open(f"{self.folder}/etc/wozgirt/settings", encoding="ascii") as file:
            settings = dict(line.rstrip("\n").split("=", 1) for line in file)
        words = settings["WOZGIRT_OPTIONS"].split()
        at = words.index("--proxied-group") + 1
        self.assertEqual(words[at], "wozgirt-tls")
        words[at] = grp.getgrgid(os.getgid()).gr_name
        server = Server(*words, locks="deploy,*", engine=engine_of_any_name())
        self.addCleanup(server.__exit__)
        front = Front(self.folder, a_port(self), self.here(text_of("tls.cfg")))
        self.addCleanup(front.stop)
        return front

    @needs_programs
    @needs_openssl
    @needs_haproxy
    def test_clients_over_tls(self):
        self.certificates_of_locks()
        front = self.server_of_page()
        self.paste(block("### Clients over TLS", "client.pem"))
        self.assertEqual(self.systemctl()[2:], ["enable --now wozgirt-tunnel@locks.example"])
        tunnel = Tunnel(self.folder, "localhost", front.port, self.here(text_of("tunnel.cfg")))
        self.addCleanup(tunnel.stop)
        commands, told = block("### Clients over TLS", "WOZGIRT_SOCKET").split("\ntoken")
        here = commands.replace("/run/wozgirt-tunnel/locks.example/lock.sock", tunnel.socket).replace("wozgirt lock", f"{COMMAND} lock")
        self.assertEqual(self.paste(here), "token" + told)
        program = block("### Clients over TLS", "Tls(").replace("locks.example:7001", f"localhost:{front.port}").replace("...", "print(token)")
        done = subprocess.run([sys.executable, "-c", program], cwd=self.folder, capture_output=True, text=True, timeout=PATIENCE, check=False,
                              env=dict(os.environ, PYTHONPATH=os.path.join(TOP, "clients", "python")))
        self.assertEqual((done.stdout, done.stderr), ("2\n", ""))

    def test_every_block_is_played(self):
        """By a script that it names, pasted by test_documents, as a program in Python, or here."""
        for it in Page(TOP, "docs/OPERATING.md").blocks:
            text, kind, path = it.text(), *(it.mark or "").partition(": ")[::2]
            here = any(it.section == section and words in text for section, words in PLAYED)
            is_pasted = text.startswith("$ ") and not it.mark
            self.assertTrue(here or is_pasted or kind == "played" or any(text.startswith(start) for start in ELSEWHERE), text)
            self.assertTrue(not it.mark or os.path.exists(os.path.join(TOP, path)), it.mark)

    def test_a_new_log_is_begun(self):
        write(f"{self.folder}{JOURNAL}/PLACE", "of before")
        self.paste(block("### etcd was lost or restored", "install"))
        self.assertEqual((self.names(JOURNAL), self.names(JOURNAL + ".before")), ([], ["PLACE"]))
        self.assertEqual(os.stat(self.folder + JOURNAL).st_mode & 0o777, 0o700)

    @unittest.skipUnless(shutil.which("etcd"), "etcd is not installed")
    def test_etcd_takes_its_settings(self):
        known = subprocess.run(["etcd", "--help"], capture_output=True, text=True, check=False)
        known = set(re.findall(r"--[a-z-]+", known.stdout + known.stderr))
        named = [name for name, _, _ in (line.partition("=") for line in block("### etcd and the server", "ETCD_NAME=").splitlines())]
        self.assertGreater(len(named), 10)
        options = ["--" + name.removeprefix("ETCD_").lower().replace("_", "-") for name in named]
        self.assertEqual([it for it in options if it not in known], [])

    @needs_programs
    def test_why_it_does_not_start(self):
        """journalctl, which there is not here, prints the last line that the server has printed."""
        command, told = block("## Four questions", "journalctl").removeprefix("# ").split("\n", 1)
        self.assertEqual(command, "journalctl -t wozgirt-server -n 1 -o cat")
        old, new = re.search(r"names (\S+), but this journal has (\S+) ", told).group(2, 1)
        with Server(locks=old) as server:
            server.stop()
            words = [new if word == old else word for word in server.words]
            said = subprocess.run(words, capture_output=True, text=True, timeout=PATIENCE, check=False)
            self.assertEqual((said.returncode, said.stderr.replace(server.journal, JOURNAL)), (78, told.rstrip("\n") + "\n"))

    @needs_programs
    @unittest.skipUnless(shutil.which("curl"), "curl is not installed")
    def test_whether_it_is_healthy(self):
        command, told = block("## Four questions", "curl").removeprefix("$ ").split("\n", 1)
        with Server("--page", "127.0.0.1:0") as server:
            here = command.replace("127.0.0.1:9175", f"127.0.0.1:{server.port('page')}")
            done = subprocess.run(here.split(), capture_output=True, text=True, timeout=PATIENCE, check=False)
            self.assertEqual((done.returncode, done.stdout, done.stderr), (0, told, ""))
            self.assertNotEqual(here, command)

    def monitoring(self, name):
        with open(os.path.join(TOP, "server", "monitoring", name), encoding="utf-8") as file:
            return file.read()

    def test_alerts_and_dashboard_are_of_metrics_that_there_are(self):
        with open(os.path.join(TOP, "server", "wozgirt-server", "src", "pages", "metrics.rs"), encoding="utf-8") as file:
            metrics = file.read()
        json.loads(self.monitoring("wozgirt-dashboard.json"))
        for text, least in ((self.monitoring("wozgirt.rules.yml"), 8), (self.monitoring("wozgirt-dashboard.json"), 12)):
            named = {re.sub("_bucket$", "", it) for it in re.findall(r"\b(?:wozgirt|process)_\w+", text)}
            self.assertGreater(len(named), least)
            self.assertEqual([it for it in sorted(named) if f'"{it}"' not in metrics], [])

    def test_there_are_alerts_of_a_server_that_is_down_and_of_the_disk(self):
        rules = self.monitoring("wozgirt.rules.yml")
        for expression in ('up{job="wozgirt"} == 0', "wozgirt_engine_up == 0", "wozgirt_journal_free_bytes"):
            self.assertIn(expression, rules)

    @unittest.skipUnless(shutil.which("promtool"), "promtool is not installed")
    def test_promtool_takes_the_alerts_and_the_configuration(self):
        configuration, command = block("## What to watch", "scrape_configs:").split("$ ")
        command, told = command.split("\n", 1)
        write(f"{self.folder}/wozgirt.rules.yml", self.monitoring("wozgirt.rules.yml"))
        write(f"{self.folder}/prometheus.yml", configuration)
        done = subprocess.run(command.split(), cwd=self.folder, capture_output=True, text=True, check=False)
        self.assertEqual((done.returncode, done.stdout.split()), (0, told.split()), done.stderr)
        done = subprocess.run(["promtool", "check", "config", "prometheus.yml"], cwd=self.folder, capture_output=True, text=True, check=False)
        self.assertEqual(done.returncode, 0, done.stdout + done.stderr)

    @needs_programs
    def test_settings_have_options_that_there_are(self):
        known = subprocess.run([SERVER, "--help"], capture_output=True, text=True, check=True).stdout
        named = set(re.findall(r"--[a-z-]+", block("### etcd and the server", "WOZGIRT_OPTIONS=")))
        self.assertGreater(len(named), 5)
        self.assertEqual([it for it in sorted(named) if f"{it} " not in known and f"{it}\n" not in known], [])

    @needs_programs
    def test_rules(self):
        """Those of the page, for the user and the group that there are here."""
        rules = block("## Who may connect", "lock deploy:")
        for name, own in (("alice", pwd.getpwuid(os.getuid()).pw_name), ("%ops", "%" + grp.getgrgid(os.getgid()).gr_name)):
            self.assertIn(name, rules)
            rules = rules.replace(name, own)
        write(f"{self.folder}/rules", rules)
        with Server("--rules", f"{self.folder}/rules", locks="deploy,order/1,other") as server, server.raw() as sock:
            self.assertEqual(say(sock, "try deploy 1\ntry order/1 1\ntry other 1\n", 3),
                             ["granted deploy 1", "granted order/1 1", "granted other 1"])


if __name__ == "__main__":
    unittest.main()
