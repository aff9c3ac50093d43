"""Members of etcd on this machine, each a process with a folder: on 127.0.0.1, or each in a network namespace of its own."""

import json
import os
import shutil
import signal
import socket
import subprocess
import time
import urllib.request

ETCD, ETCDCTL = shutil.which("etcd"), shutil.which("etcdctl")
# seconds in which members come up and choose a leader, on a busy machine
PATIENCE = 50


def kept_ports(count):
    """Sockets at ports of 127.0.0.1, which nobody gets by chance as long as these are open. A member can listen there, as each does that
    permits others its address."""
    guards = [socket.socket() for _ in range(count)]
    for guard in guards:
        guard.setsockopt(socket.SOL_SOCKET, socket.SO_REUSEADDR, 1)
        guard.bind(("127.0.0.1", 0))
    return guards


class Members:
    """Members by their names. `addresses` gives HOST, a client's and a peer's port of each; `wrap` the words that go before
    a member's command; `tls` the files of a certificate, its key and who signed it."""

    def __init__(self, folder, names="a", addresses=None, wrap=lambda name: [], tls=None, more=()):
        self.folder, self.names, self.wrap, self.tls, self.more = folder, list(names), wrap, tls, list(more)
        self.guards = kept_ports(2 * len(self.names)) if addresses is None else []
        ports = [guard.getsockname()[1] for guard in self.guards]
        self.addresses = addresses or {name: ("127.0.0.1", ports[2 * i], ports[2 * i + 1]) for i, name in enumerate(self.names)}
        self.processes = {}
        os.makedirs(folder, exist_ok=True)

    def url(self, name):
        """Where its clients find it."""
        host, port, _ = self.addresses[name]
        return f"{'https' if self.tls else 'http'}://{host}:{port}"

    def urls(self, first=None):
        """All of them, with commas, this one first."""
        return ",".join(map(self.url, sorted(self.names, key=lambda name: name != first)))

    def _peer(self, name):
        return f"http://{self.addresses[name][0]}:{self.addresses[name][2]}"

    def start(self, *names):
        """Starts these, or all."""
        cluster = ",".join(f"{name}={self._peer(name)}" for name in self.names)
        for name in names or self.names:
            words = [ETCD, "--name", name, "--data-dir", os.path.join(self.folder, f"etcd.{name}"), "--pre-vote",
                     "--listen-client-urls", self.url(name), "--advertise-client-urls", self.url(name), "--listen-peer-urls", self._peer(name),
                     "--initial-advertise-peer-urls", self._peer(name), "--initial-cluster", cluster, "--logger", "zap", *self.more]
            if self.tls:
                words += ["--cert-file", self.tls[0], "--key-file", self.tls[1], "--trusted-ca-file", self.tls[2], "--client-cert-auth"]
            with open(os.path.join(self.folder, f"etcd.{name}.log"), "ab") as log:
                self.processes[name] = subprocess.Popen(self.wrap(name) + words, stdin=subprocess.DEVNULL, stdout=log, stderr=log)

    def kill(self, *names):
        """As kill -9 does."""
        for name in names or self.names:
            process = self.processes.get(name)
            if process is not None and process.poll() is None:
                process.send_signal(signal.SIGKILL)
                process.wait()

    def wipe(self, *names):
        """Kills them, and removes what they have."""
        self.kill(*names)
        for name in names or self.names:
            shutil.rmtree(os.path.join(self.folder, f"etcd.{name}"), ignore_errors=True)

    def ask(self, name, path, body, timeout=1.0):
        """What the JSON gateway of a member answers; without TLS."""
        request = urllib.request.Request(f"{self.url(name)}/v3/{path}", json.dumps(body).encode())
        with urllib.request.urlopen(request, timeout=timeout) as answer:
            return json.load(answer)

    def leader(self):
        """The name of the leader, or None."""
        told = {}
        for name in self.names:
            try:
                told[name] = self.ask(name, "maintenance/status", {})
            except (OSError, ValueError):
                pass  # it is not there
        leaders = {it.get("leader") for it in told.values()}
        return next((name for name, it in told.items() if it["header"]["member_id"] in leaders), None)

    def wait_for_leader(self):
        """Its name."""
        end = time.monotonic() + PATIENCE
        while (name := self.leader()) is None:
            if time.monotonic() > end:
                raise RuntimeError(f"no leader: {self.folder}")
            time.sleep(0.05)
        return name

    def etcdctl(self, *words, timeout=20):
        """What `etcdctl` prints."""
        run = subprocess.run([ETCDCTL, "--endpoints", self.urls(), *words], capture_output=True, text=True, timeout=timeout, check=True,
                             env={**os.environ, "ETCDCTL_API": "3"})
        return run.stdout

    def __enter__(self):
        return self

    def __exit__(self, *_):
        self.kill()
