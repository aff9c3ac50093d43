#!/usr/bin/env python3
"""page.py: plays "Three servers on one machine" of docs/OPERATING.md as it is there, in a folder of its own, and compares what is printed;
positions, digests and incarnations are those of the day. It takes the ports of the page. The last line is `N passed, M failed`."""

import os
import re
import shutil
import signal
import subprocess
import sys
import tempfile
import time

sys.path.insert(0, os.path.dirname(os.path.dirname(os.path.abspath(__file__))))

from harness import BIN, ENGINE, PATIENCE, TOP, unwind_at_sigterm  # noqa: E402

SOCKETS = ("a.sock", "b.sock", "c.sock")


def blocks():
    """The blocks of that part of the page, each without its four spaces."""
    with open(os.path.join(TOP, "docs", "OPERATING.md"), encoding="utf-8") as file:
        text = file.read()
    part = text[text.index("### Three servers on one machine"):text.index("### Certificates")]
    return [re.sub("^    ", "", it, flags=re.M) for it in re.findall(r"(?:^    .*\n|^\n(?=    ))+", part, re.M) if it.strip()]


def plain(text):
    """Without what is another one each day."""
    text = re.sub(r"\b[0-9a-f]{64}\b", "DIGEST", text)
    return re.sub(r"^(cluster [a-c]) \d+ \d+ DIGEST 0 \S+$", r"\1 N N DIGEST 0 ALIVE", text, flags=re.M)


def sessions(block):
    """The commands of a block behind `$ `, and what each prints."""
    return [(it.split("\n", 1)[0], it.split("\n", 1)[1]) for it in re.split(r"^\$ ", block, flags=re.M)[1:]]


class Play:
    """A folder, a PATH with the programs, and what was started there."""

    def __init__(self, folder):
        self.folder, programs = folder, os.path.join(folder, "programs")
        os.makedirs(programs)
        for name, path in (("ring_tool", ENGINE), ("wozgirt", f"{BIN}/wozgirt"), ("wozgirt-server", f"{BIN}/wozgirt-server"),
                           ("wozgirt-log", f"{TOP}/clients/python/wozgirt-log")):
            os.symlink(path, os.path.join(programs, name))
        self.env = {**os.environ, "PATH": programs + ":" + os.environ["PATH"], "PYTHONPATH": os.path.join(TOP, "clients", "python")}
        self.env["WOZGIRT_SOCKET"] = ""
        with open(os.path.join(folder, "log"), "wb") as log:
            words = ["sh", "-c", f"mkdir -p host.a host.b host.c; {blocks()[0]}\nwait"]
            self.shell = subprocess.Popen(words, cwd=folder, env=self.env, stdout=log, stderr=log, start_new_session=True)

    def wait(self):
        """Until the servers hear clients."""
        end = time.monotonic() + PATIENCE
        while self.run("for it in 0 1 2; do wozgirt try --socket tcp:127.0.0.1:700$it,tcp:127.0.0.1:700$it gpu/0 -- true || exit 1; done")[0]:
            if time.monotonic() > end:
                raise RuntimeError("the servers do not come up: " + self.folder)
            time.sleep(0.2)

    def run(self, command):
        """Its status and what it prints."""
        it = subprocess.run(["bash", "-c", command], cwd=self.folder, env=self.env, capture_output=True, text=True, timeout=PATIENCE, check=False)
        return it.returncode, it.stdout

    def kill_first(self):
        """The first server, while something is held."""
        found = subprocess.run(["ps", "-o", "pid=,args=", "-g", str(self.shell.pid)], capture_output=True, text=True, check=True).stdout
        os.kill(next(int(line.split()[0]) for line in found.splitlines() if "--journal host.a" in line), signal.SIGKILL)

    def end(self):
        """Ends all."""
        os.killpg(self.shell.pid, signal.SIGKILL)
        self.shell.wait()


def main():
    reason = next((f"{it} is not installed" for it in ("etcd", "ps") if not shutil.which(it)), None)
    if reason is not None:
        print(f"skipped: page: {reason}\n0 passed, 0 failed")
        return 0
    unwind_at_sigterm()
    _, program, lock, looks = blocks()
    passed, wrong = 0, []
    with tempfile.TemporaryDirectory(prefix="wozgirt-page-") as folder:
        play = Play(folder)
        try:
            play.wait()
            if play.run(f"python3 - <<'END'\n{program}\nEND")[0]:
                wrong.append(program)
            (setting, _), (command, wanted) = sessions(lock)
            play.env["WOZGIRT_SOCKET"] = setting.partition("=")[2]
            held = subprocess.Popen(["bash", "-c", command], cwd=folder, env=play.env, stdout=subprocess.PIPE, text=True)
            said = held.stdout.readline()
            play.kill_first()
            for words, printed in [(None, wanted), *sessions(looks)]:
                said = said + held.communicate(timeout=PATIENCE)[0] if words is None else play.run(words)[1]
                if plain(said).strip() == plain(printed).strip():
                    passed += 1
                else:
                    wrong.append(f"{words or command} prints\n{said}and not\n{printed}")
        finally:
            play.end()
    print("".join(f"WRONG: {it}\n" for it in wrong) + f"{passed} passed, {len(wrong)} failed")
    return 1 if wrong else 0


if __name__ == "__main__":
    sys.exit(main())
