#!/usr/bin/env python3
"""units.py: the units of the packages under systemd itself, process 1 of namespaces of its own, over a copy of this machine's files, which
stay as they are. What docs/OPERATING.md has root and a user do for clients over TLS is pasted there as it is printed, each in one shell.
It needs root, systemd, openssl, haproxy and overlayfs; the last line is `N passed, M failed`, and what is not there is skipped."""

import contextlib
import json
import os
import re
import shutil
import signal
import subprocess
import sys
import time

import harness
from front import HAPROXY
from harness import BIN, ENGINE, GROUPS, PATIENCE, TOP, room, wait_until

sys.path.insert(0, os.path.join(TOP, "tools"))

from page import Page  # noqa: E402

SYSTEMD, GROUP = "/lib/systemd/systemd", f"/sys/fs/cgroup/systemd/wozgirt-units-{os.getpid()}"
SECTION, HOST, USER = "### Clients over TLS", "locks.example", "alice"
UNITS = ("wozgirt-server", "wozgirt-tls", f"wozgirt-tunnel@{HOST}")
#: what the packages put there, by where it is in the sources
FILES = {"usr/bin/ring_tool": ENGINE, "usr/bin/wozgirt": f"{BIN}/wozgirt", "usr/bin/wozgirt-server": f"{BIN}/wozgirt-server",
         "usr/lib/systemd/system/wozgirt-server.service": f"{TOP}/server/wozgirt-server.service",
         "usr/lib/systemd/system/wozgirt-tls.service": f"{TOP}/release/tls/wozgirt-tls.service",
         "usr/lib/systemd/system/wozgirt-tunnel@.service": f"{TOP}/release/tls/wozgirt-tunnel@.service",
         "usr/lib/sysusers.d/wozgirt.conf": f"{TOP}/release/sysusers.conf", "usr/lib/sysusers.d/wozgirt-tls.conf": f"{TOP}/release/tls/sysusers.conf",
         "usr/share/wozgirt/tls.cfg": f"{TOP}/release/tls/tls.cfg", "usr/share/wozgirt/tunnel.cfg": f"{TOP}/release/tls/tunnel.cfg",
         "etc/wozgirt/settings": f"{TOP}/release/settings"}
#: of this machine only what the units need is started, and nothing that would change its kernel's settings
MASKED = ("systemd-sysctl.service", "systemd-modules-load.service", "systemd-remount-fs.service", "systemd-binfmt.service", "timers.target",
          "proc-sys-fs-binfmt_misc.automount", "dbus.socket", "systemd-journald-audit.socket")
TARGET = "[Unit]\nDescription=For a trial\nRequires=basic.target\nAfter=basic.target\nAllowIsolate=yes\n"
#: makes the folder that systemd gets as its own, and gives that to it
START = f"""set -eu
mount -t tmpfs tmpfs "$1"
mkdir "$1/upper" "$1/work" "$1/root"
mount -t overlay -o "lowerdir=/,upperdir=$1/upper,workdir=$1/work" overlay "$1/root"
cp -a "$2/." "$1/root"
cd "$1/root"
mount -t proc proc proc
mount --bind proc/sys proc/sys
mount -o remount,bind,ro proc/sys
mount -t sysfs -o ro sysfs sys
mount -t tmpfs tmpfs sys/fs/cgroup
mkdir sys/fs/cgroup/systemd
mount -t cgroup -o none,name=systemd cgroup sys/fs/cgroup/systemd
mount -t tmpfs tmpfs run
mount -t tmpfs tmpfs tmp
mount -t tmpfs -o mode=755 tmpfs dev
mkdir dev/pts dev/shm
mount -t devpts -o ptmxmode=666 devpts dev/pts
for it in null:1:3 zero:1:5 full:1:7 random:1:8 urandom:1:9 tty:5:0; do
    IFS=: read -r name major minor <<-END
	$it
	END
    mknod -m 666 "dev/$name" c "$major" "$minor"
done
ln -s pts/ptmx dev/ptmx
ln -s /proc/self/fd dev/fd
ip link set lo up
mkdir before
pivot_root . before
umount -l /before
systemd-sysusers wozgirt.conf wozgirt-tls.conf
useradd -m -s /bin/bash {USER}
exec env -i container=trial {SYSTEMD} --system --unit=trial.target --show-status=no
"""
COUNTS = {True: 0, False: 0}


def check(what, wanted, got):
    COUNTS[wanted == got] += 1
    if wanted != got:
        print(f"FAILED: {what}\nwanted: {wanted!r}\ngot: {got!r}", flush=True)


def why_not():
    if os.getuid() != 0:
        return "this is not root"
    for it in ("unshare", "nsenter", "ip", "openssl", "useradd", "systemctl"):
        if not shutil.which(it):
            return f"there is no {it}"
    if not HAPROXY or not os.access(SYSTEMD, os.X_OK):
        return "there is no haproxy or no systemd"
    if not os.path.isdir(os.path.dirname(GROUP)):
        return "there is no hierarchy of groups by the name systemd"
    tried = subprocess.run(["unshare", "--mount", "sh", "-c", "mount -t tmpfs tmpfs /mnt && cd /mnt && mkdir u w r && "
                            "mount -t overlay -o lowerdir=/,upperdir=/mnt/u,workdir=/mnt/w overlay /mnt/r"], capture_output=True, check=False)
    return "no copy of this machine's files can be made" if tried.returncode else harness.why_not()


def put(folder):
    """What is there in addition to this machine's files, in a folder."""
    for path, source in FILES.items():
        os.makedirs(os.path.dirname(f"{folder}/{path}"), exist_ok=True)
        shutil.copy2(source, f"{folder}/{path}")
    texts = {"etc/systemd/system/trial.target": TARGET, "usr/local/bin/apt-get": "#!/bin/sh\n# it is installed\n",
             "etc/hosts": f"127.0.0.1 localhost {HOST}\n", "etc/fstab": ""}
    for path, text in texts.items():
        os.makedirs(os.path.dirname(f"{folder}/{path}"), exist_ok=True)
        with open(f"{folder}/{path}", "w", encoding="utf-8") as file:
            file.write(text)
    os.chmod(f"{folder}/usr/local/bin/apt-get", 0o755)
    for it in MASKED:
        os.symlink("/dev/null", f"{folder}/etc/systemd/system/{it}")


class Machine:
    """Where systemd is process 1."""

    def __init__(self, folder):
        os.mkdir(folder + "/files")
        os.mkdir(folder + "/layers")
        put(folder + "/files")
        os.mkdir(GROUP)
        words = ["unshare", "--mount", "--pid", "--net", "--uts", "--ipc", "--cgroup", "--fork", "--kill-child"]
        join = f'echo $$ >{GROUP}/cgroup.procs && exec "$@"'
        with open(folder + "/console", "wb") as console:
            self.process = subprocess.Popen(["sh", "-c", join, "sh", *words, "sh", "-c", START, "sh", folder + "/layers", folder + "/files"],
                                            stdin=subprocess.DEVNULL, stdout=console, stderr=console, start_new_session=True)
        GROUPS.append(self.process.pid)
        self.console = folder + "/console"
        try:
            wait_until(self.is_up)
        except BaseException:
            self.stop()
            raise

    def is_up(self):
        if self.process.poll() is not None:
            with open(self.console, encoding="utf-8", errors="replace") as file:
                raise RuntimeError(file.read())
        return self.does("systemctl is-active trial.target 2>&1") == "active"

    def first(self):
        """Its process 1, as this machine counts."""
        with open(f"/proc/{self.process.pid}/task/{self.process.pid}/children", encoding="ascii") as file:
            return file.read().strip()

    def begin(self, text, user="root"):
        """Pastes a text into a shell there."""
        enter = ["nsenter", "--target", self.first(), "--mount", "--pid", "--net", "--uts", "--ipc", "--cgroup", "--root", "--wd"]
        shell = ["runuser", "-u", user, "--"] if user != "root" else []
        env = {"PATH": "/usr/local/bin:/usr/sbin:/usr/bin:/sbin:/bin", "PYTHONPATH": f"{TOP}/clients/python", "PYTHONDONTWRITEBYTECODE": "1"}
        return subprocess.Popen([*enter, *shell, "bash", "--norc", "-e", "-c", text], env=env, stdin=subprocess.DEVNULL, stdout=subprocess.PIPE,
                                stderr=subprocess.STDOUT, text=True)

    def does(self, text, user="root"):
        return self.begin(text, user).communicate(timeout=2 * PATIENCE)[0].rstrip("\n")

    def shows(self, unit, what):
        return self.does(f"systemctl show -P {what} {unit}")

    def stop(self):
        with contextlib.suppress(ProcessLookupError):
            os.killpg(self.process.pid, signal.SIGKILL)
        self.process.wait()
        GROUPS.remove(self.process.pid)
        wait_until(self.is_gone)

    @staticmethod
    def is_gone():
        with contextlib.suppress(OSError):
            for folder, _, _ in os.walk(GROUP, topdown=False):
                os.rmdir(folder)
        return not os.path.exists(GROUP)


def block(words):
    """The commands of the page's block that has these words, without prompts, and what it prints."""
    (text,) = (it.text() for it in Page(TOP, "docs/OPERATING.md").blocks if it.section == SECTION and words in it.text())
    commands = [line for line in text.splitlines() if not re.match(r"token \d", line)]
    return "\n".join(re.sub(r"^[#$] ", "", line) for line in commands) + "\n", "\n".join(line for line in text.splitlines() if line not in commands)


def of_the_page(machine):
    """Root's blocks, one after the other in one shell, as somebody types them; then the user's, and the program."""
    typed = "cd /root\n" + "".join(block(words)[0] for words in ("openssl", "--proxied", "client.pem"))
    check("what root types", "", re.sub(r"(?m)^(Created symlink .*|[.+*-]*)\n?", "", machine.does(typed + "\n")))
    for unit in UNITS:
        check(f"{unit} runs", ("active", "0"), (machine.shows(unit, "ActiveState"), machine.shows(unit, "NRestarts")))
    commands, told = block("WOZGIRT_SOCKET")
    check("what the user types", told, machine.does(commands, USER))
    program = block("Tls(")[0].replace("...", "print('token', token)")
    check("the program", "token 2", machine.does(f"cd /root; python3 - <<'END'\n{program}END\n"))
    check("the sockets", "660 wozgirt wozgirt\n660 wozgirt wozgirt-tls\n660 wozgirt-tls wozgirt",
          machine.does(f"stat -c '%a %U %G' /run/wozgirt/lock.sock /run/wozgirt/proxied.sock /run/wozgirt-tunnel/{HOST}/lock.sock"))
    check("another user gets no lock", "", machine.does("runuser -u nobody -- wozgirt status --socket /run/wozgirt/lock.sock 2>/dev/null || true"))


def holder(machine):
    """A command that holds the lock through the tunnel until a file is there, and then prints its token."""
    wait = "echo $WOZGIRT_TOKEN >/tmp/held; while ! [ -e /tmp/go ]; do sleep 0.05; done; echo token $WOZGIRT_TOKEN"
    machine.does("rm -f /tmp/held /tmp/go")
    it = machine.begin(f"wozgirt lock --socket /run/wozgirt-tunnel/{HOST}/lock.sock --lease 30 deploy -- sh -c '{wait}'", USER)
    wait_until(lambda: machine.does("cat /tmp/held 2>/dev/null || true"))
    return it


def over(machine, what, do):
    """A command keeps its lock meanwhile."""
    it = holder(machine)
    token = machine.does("cat /tmp/held")
    do()
    machine.does("touch /tmp/go")
    check(f"a command holds its lock {what}", (f"token {token}", 0), (it.communicate(timeout=2 * PATIENCE)[0].rstrip("\n"), it.returncode))
    return int(token)


def record(machine):
    """From here on the server writes who held what."""
    machine.does("sed -i '$s|^WOZGIRT_OPTIONS=|&--grants /var/lib/wozgirt/journal.grants |' /etc/wozgirt/settings; systemctl restart wozgirt-server")


def who_held(machine, tokens):
    """Before and after the kill: by the certificate's name, from the client's address."""
    held = [json.loads(line) for line in machine.does("wozgirt log deploy --json").splitlines()]
    found = [(it["token"], it["certificate"], it["end"], it["journal"]) for it in held if it["from"]]
    check("who held it", [(token, "build-1", "released", "released") for token in tokens], found)
    check("from where", {"127.0.0.1"}, {it["address"].rpartition(":")[0] for it in held if it["from"]})


def reload(machine):
    """With another certificate for the server, which new connections get."""
    shown = f"openssl s_client -connect {HOST}:7001 -CAfile /etc/wozgirt/tls/ca.pem </dev/null 2>/dev/null | openssl x509 -noout -serial"
    before = machine.does(shown)
    made = "openssl req" + block("openssl")[0].split("openssl req")[2]
    machine.does(f"cd /root\n{made}cat server.key >>server.pem\ninstall -g wozgirt-tls -m 640 server.pem /etc/wozgirt/tls\nsystemctl reload wozgirt-tls")
    wait_until(lambda: machine.does(shown) not in ("", before))
    check("a reload is none of a new start", "0", machine.shows("wozgirt-tls", "NRestarts"))


def kill(machine):
    """The server, which systemd starts again. For the tunnel each try of a command to come back is a handshake."""
    tries = f"journalctl -u wozgirt-tunnel@{HOST} | grep -c 'ended after' || true"
    before, begun = int(machine.does(tries)), time.monotonic()
    machine.does("systemctl kill --kill-who=main --signal=KILL wozgirt-server")
    wait_until(lambda: (machine.shows("wozgirt-server", "NRestarts"), machine.shows("wozgirt-server", "ActiveState")) == ("1", "active"))
    made = int(machine.does(tries)) - before
    check(f"not too many handshakes: {made}", True, made <= 20 * (time.monotonic() - begun) + 5)


def setting(machine):
    """One that keeps the server from starting: systemd leaves it, and its last line says why."""
    machine.does("sed -i 's/^WOZGIRT_LOCKS=.*/WOZGIRT_LOCKS=db/' /etc/wozgirt/settings; systemctl restart wozgirt-server || true")
    wait_until(lambda: machine.shows("wozgirt-server", "ActiveState") == "failed")
    check("the status of a wrong setting", "78", machine.shows("wozgirt-server", "ExecMainStatus"))
    said = machine.does("journalctl -t wozgirt-server -n 1 -o cat")
    check("why it does not start", True, said.startswith("wozgirt-server: --locks names db, but this journal has *"))
    if not said.startswith("wozgirt-server: "):
        print(said)


def try_all():
    with room("units") as folder:
        machine = Machine(folder)
        try:
            of_the_page(machine)
            record(machine)
            tokens = [over(machine, "while HAProxy reads its certificates again", lambda: reload(machine)),
                      over(machine, "over a kill of the server", lambda: kill(machine))]
            who_held(machine, tokens)
            verified = machine.does(f"systemd-analyze verify --man=no {' '.join(f'{unit}.service' for unit in UNITS)} 2>&1 | grep -F wozgirt || true")
            check("what systemd says of the units", "", verified)
            setting(machine)
            machine.does("systemctl stop wozgirt-tls 'wozgirt-tunnel@*'")
            check("both end well", ["inactive", "inactive"], [machine.shows(unit, "ActiveState") for unit in UNITS[1:]])
        finally:
            if COUNTS[False]:
                print(machine.does("journalctl --no-pager -o short | tail -n 60"))
            machine.stop()


def main():
    why = why_not()
    if why:
        print(f"skipped: the units under systemd, since {why}")
    else:
        try_all()
    print(f"{COUNTS[True]} passed, {COUNTS[False]} failed")
    sys.exit(COUNTS[False] > 0)


if __name__ == "__main__":
    main()
