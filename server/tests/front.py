"""HAProxy as the units of release/tls start it, with another place for each of its files: before a server, and as a tunnel to it."""

import contextlib
import os
import re
import shutil
import signal
import subprocess
import unittest

from harness import GROUPS, PATIENCE, TOP, wait_until

PARTS = os.path.join(TOP, "release", "tls")
#: where it is, which is not in the PATH of each user
HAPROXY = shutil.which("haproxy", path=os.environ.get("PATH", "") + ":/usr/sbin")
needs_haproxy = unittest.skipUnless(HAPROXY, "haproxy is not installed")


def text_of(name):
    with open(os.path.join(PARTS, name), encoding="utf-8") as file:
        return file.read()


def words_of(unit, order="ExecStart"):
    """The commands that the unit has for this, each in words."""
    return [line.split() for line in re.findall(f"^{order}=(.*)$", text_of(unit), re.MULTILINE)]


class Proxy:
    """HAProxy with a configuration of release/tls, or a text that was made of it; a context manager that ends it. `before` are words
    that have it run in another place."""

    before = []

    def __init__(self, folder, unit, text=None, **variables):
        self.unit, self.log = unit, os.path.join(folder, f"{unit}.log")
        (start,) = words_of(unit)
        self.path = os.path.join(PARTS, os.path.basename(start[-1]))
        if text is not None:
            self.path = os.path.join(folder, os.path.basename(start[-1]))
            with open(self.path, "w", encoding="utf-8") as file:
                file.write(text)
        self.variables = dict(os.environ, **variables)
        with open(self.log, "wb") as log:
            self.process = subprocess.Popen([*self.before, *self.words(start)], env=self.variables, stdout=log, stderr=log, start_new_session=True)
        GROUPS.append(self.process.pid)
        self.wait_until_it_listens()

    def words(self, words):
        """The unit's words, here."""
        return [HAPROXY if it.endswith("/haproxy") else self.path if it.endswith(".cfg") else it for it in words]

    def wait_until_it_listens(self):
        """RuntimeError if it ends before that."""
        try:
            wait_until(lambda: "Loading success" in self.text_of_log() or self.process.poll() is not None)
            if self.process.poll() is not None:
                raise RuntimeError(self.text_of_log())
        except BaseException:
            self.stop()
            raise

    def reload(self):
        """As the unit does it."""
        check, send = words_of(self.unit, "ExecReload")
        subprocess.run(self.words(check), env=self.variables, check=True, capture_output=True)
        assert send == ["/bin/kill", "-USR2", "$MAINPID"], send
        self.process.send_signal(signal.SIGUSR2)

    def processor_time(self):
        """The seconds that the process with its connections has taken."""
        with open(f"/proc/{self.process.pid}/task/{self.process.pid}/children", encoding="ascii") as file:
            worker = file.read().split()[-1]
        with open(f"/proc/{worker}/stat", encoding="ascii") as file:
            words = file.read().rpartition(")")[2].split()
        return (int(words[11]) + int(words[12])) / os.sysconf("SC_CLK_TCK")

    def text_of_log(self):
        with open(self.log, encoding="utf-8", errors="replace") as file:
            return file.read()

    def wait_for_log(self, text):
        wait_until(lambda: text in self.text_of_log())

    def stop(self):
        if self.process.pid not in GROUPS:
            return
        with contextlib.suppress(ProcessLookupError):
            os.killpg(self.process.pid, signal.SIGTERM)
        try:
            self.process.wait(PATIENCE)
        finally:
            with contextlib.suppress(ProcessLookupError):
                os.killpg(self.process.pid, signal.SIGKILL)
            GROUPS.remove(self.process.pid)

    def __enter__(self):
        return self

    def __exit__(self, *_):
        self.stop()


class Front(Proxy):
    """Clients reach it by `place`."""

    def __init__(self, folder, port, text=None, host="127.0.0.1", **variables):
        super().__init__(folder, "wozgirt-tls.service", text, WOZGIRT_TLS_LISTEN=f"{host}:{port}", **variables)
        self.port, self.place = port, f"tls:{host}:{port}"


class Tunnel(Proxy):
    """Clients reach it by its `socket`."""

    def __init__(self, folder, host, port, text=None, **variables):
        self.socket = os.path.join(folder, "tunnel.sock")
        super().__init__(folder, "wozgirt-tunnel@.service", text, WOZGIRT_TUNNEL_HOST=host, WOZGIRT_TUNNEL_PORT=str(port),
                         WOZGIRT_TUNNEL_SOCKET=self.socket, **variables)
